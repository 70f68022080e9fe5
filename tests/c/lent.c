/* The buffer that the tests lend, and the look at it after a call. */
#include "lent.h"

#include <stdio.h>
#include <stdlib.h>
#include <string.h>

enum { FENCE = 64, WHOLE = FENCE + LARGEST + FENCE };

/* So much of a text is shown. */
enum { SHOWN = 60 };

/* What every byte holds before a call: no text has this byte. */
static const uint8_t fill = 0xA5;

static uint8_t whole[WHOLE];

uint8_t *lend(void) {
    memset(whole, fill, sizeof whole);
    return whole + FENCE;
}

/* Says which call was wrong, and ends the program. */
static void wrong(const struct wanted *wanted, const char *what, long got, long right) {
    const char *rest = strlen(wanted->text) > SHOWN ? ".." : "";
    fprintf(stderr, "tests/c: %s, which is to give number %u and \"%.*s\"%s: %s is %ld and should be %ld\n", wanted->call,
            (unsigned)wanted->number, SHOWN, wanted->text, rest, what, got, right);
    exit(1);
}

void check(const struct wanted *wanted, struct dtoa_printed printed) {
    const uint8_t *buf = whole + FENCE;
    long length = (long)strlen(wanted->text);
    if (printed.number != wanted->number) wrong(wanted, "the number", (long)printed.number, (long)wanted->number);
    if ((long)printed.length != length) wrong(wanted, "the length", (long)printed.length, length);
    for (long at = -FENCE; at < LARGEST + FENCE; at++) {
        int right = at >= 0 && at < length ? (uint8_t)wanted->text[at] : fill;
        if (buf[at] != right) {
            char what[64];
            snprintf(what, sizeof what, "the byte at %ld", at);
            wrong(wanted, what, buf[at], right);
        }
    }
}
