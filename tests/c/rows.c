/* Calls the function for a row as a C program would. */
#include <stdio.h>
#include <string.h>

#include "lent.h"

struct row {
    size_t count;
    uint32_t patterns[8];
    const char *text;
};

static const struct row short_rows[] = {
    {0, {0}, ""},
    {1, {0x402df84d}, "2.71828"},
    {1, {0x7fc00000}, "NaN"},
    {2, {0x00000000, 0x80000000}, "0.0 -0.0"},
    {2, {0x7f800000, 0x3f800000}, "inf 1.0"},
    /* what is not finite stands first, last and side by side */
    {3, {0xff800000, 0x00000001, 0xffc00001}, "-inf 1e-45 NaN"},
    {4, {0x7f800000, 0x7f800001, 0xff800000, 0x7fffffff}, "inf NaN -inf NaN"},
    /* no binary32 number has a longer text */
    {3, {0xe0ad78ec, 0xe0ad78ec, 0xe0ad78ec}, "-100000000000000000000.0 -100000000000000000000.0 -100000000000000000000.0"},
};

/* Rows that are repeated until they have as many patterns as a row may have. */
static const struct row repeated_rows[] = {
    {1, {0xe0ad78ec}, "-100000000000000000000.0"},
    {8,
     {0xc2c80000, 0x460a4371, 0x7fc00000, 0x00800000, 0x7f7fffff, 0x3dcccccd, 0x80000000, 0xff800000},
     "-100.0 8848.86 NaN 1.1754944e-38 3.4028235e38 0.1 -0.0 -inf"},
};

static size_t calls;

static void check_call(const uint32_t *patterns, size_t count, size_t room, uint32_t number, const char *text) {
    char call[100];
    snprintf(call, sizeof call, "dtoa_format_row32 of %zu patterns with a buffer of %zu bytes", count, room);
    struct wanted wanted = {call, number, text};
    check(&wanted, dtoa_format_row32(patterns, count, lend(), room));
    calls++;
}

/* The row in buffers that serve it, and in some that are too short. */
static void check_row(const uint32_t *patterns, size_t count, const char *text) {
    size_t room = DTOA_ROW_ROOM * count;
    if (count > 0) {
        check_call(patterns, count, 0, DTOA_ROW_TOO_SHORT, "");
        check_call(patterns, count, room - 1, DTOA_ROW_TOO_SHORT, "");
    }
    check_call(patterns, count, room, DTOA_PRINTED, text);
    check_call(patterns, count, room + 1, DTOA_PRINTED, text);
    check_call(patterns, count, LARGEST, DTOA_PRINTED, text);
}

/* One pattern too many is refused in every buffer, also in one that is too short. */
static void check_too_many(const uint32_t *patterns) {
    size_t count = DTOA_ROW_LIMIT + 1, room = DTOA_ROW_ROOM * count;
    check_call(patterns, count, 0, DTOA_TOO_MANY, "");
    check_call(patterns, count, room - 1, DTOA_TOO_MANY, "");
    check_call(patterns, count, room, DTOA_TOO_MANY, "");
    check_call(patterns, count, LARGEST, DTOA_TOO_MANY, "");
}

static void check_repeated(const struct row *row) {
    static uint32_t patterns[DTOA_ROW_LIMIT + 1];
    static char text[LARGEST];
    for (size_t i = 0; i <= DTOA_ROW_LIMIT; i++) patterns[i] = row->patterns[i % row->count];
    int end = 0;
    for (size_t i = 0; i < DTOA_ROW_LIMIT; i += row->count) {
        end += snprintf(text + end, sizeof text - (size_t)end, "%s%s", i > 0 ? " " : "", row->text);
    }
    check_row(patterns, DTOA_ROW_LIMIT, text);
    check_too_many(patterns);
}

int main(void) {
    size_t short_count = sizeof short_rows / sizeof short_rows[0];
    for (size_t i = 0; i < short_count; i++) check_row(short_rows[i].patterns, short_rows[i].count, short_rows[i].text);
    size_t repeated_count = sizeof repeated_rows / sizeof repeated_rows[0];
    for (size_t i = 0; i < repeated_count; i++) check_repeated(&repeated_rows[i]);
    printf("tests/c/rows.c: %zu calls, every number, length, text and untouched byte as expected\n", calls);
    return 0;
}
