/* The buffer that the tests lend to a call. It stands between two fences, which no call may touch. */
#ifndef LENT_H
#define LENT_H

#include <stdint.h>

#include "dtoa.h"

/* The longest buffer that is lent. */
enum { LARGEST = 131072 };

/* What a call is to answer. */
struct wanted {
    const char *call; /* the call, as a message names it */
    uint32_t number;
    const char *text; /* empty after a refusal */
};

/* The buffer for the next call, with every byte of it and of the fences as no call leaves it. */
uint8_t *lend(void);

/* Checks number, length, text and every other byte after a call. Says what is wrong, and ends the program. */
void check(const struct wanted *wanted, struct dtoa_printed printed);

#endif
