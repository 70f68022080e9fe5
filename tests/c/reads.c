/* Calls the two functions that read a text as a C program would. */
#include <inttypes.h>
#include <stdio.h>
#include <stdlib.h>
#include <string.h>

#include "dtoa.h"

/* The text for a call stands between two fences of digits: a call that read beyond an end would answer otherwise. */
enum { FENCE = 64, LARGEST = 4096, WHOLE = FENCE + LARGEST + FENCE };

static const char fill = '7';

/* So much of a text is shown. */
enum { SHOWN = 70 };

/* A text and its length, which is also right where the text has a zero byte. */
#define TEXT(text) text, sizeof text - 1

struct expected {
    const char *text;
    size_t length;
    uint32_t number;
    uint32_t pattern32;
    uint64_t pattern64;
};

static const struct expected list[] = {
    /* numbers in each layout of the printer */
    {TEXT("2.71828"), DTOA_READ, 0x402df84d, 0x4005bf0995aaf790},
    {TEXT("0.1"), DTOA_READ, 0x3dcccccd, 0x3fb999999999999a},
    {TEXT("-0.0000022390987659202535"), DTOA_READ, 0xb616436d, 0xbec2c86d907ec0e7},
    {TEXT("100000000000000000000.0"), DTOA_READ, 0x60ad78ec, 0x4415af1d78b58c40},
    {TEXT("1e21"), DTOA_READ, 0x6258d727, 0x444b1ae4d6e2ef50},
    {TEXT("1.2345e-33"), DTOA_READ, 0x08cd1dd3, 0x3919a3ba53ee581f},
    {TEXT("3.4028235e38"), DTOA_READ, 0x7f7fffff, 0x47efffffe54daff8},
    {TEXT("-1.7976931348623157e308"), DTOA_READ, 0xff800000, 0xffefffffffffffff},
    /* and in other layouts */
    {TEXT("7"), DTOA_READ, 0x40e00000, 0x401c000000000000},
    {TEXT("007"), DTOA_READ, 0x40e00000, 0x401c000000000000},
    {TEXT("-12"), DTOA_READ, 0xc1400000, 0xc028000000000000},
    {TEXT("0.30"), DTOA_READ, 0x3e99999a, 0x3fd3333333333333},
    {TEXT("1e5"), DTOA_READ, 0x47c35000, 0x40f86a0000000000},
    {TEXT("1e-5"), DTOA_READ, 0x3727c5ac, 0x3ee4f8b588e368f1},
    {TEXT("1e05"), DTOA_READ, 0x47c35000, 0x40f86a0000000000},
    {TEXT("1e0005"), DTOA_READ, 0x47c35000, 0x40f86a0000000000},
    {TEXT("1e-0005"), DTOA_READ, 0x3727c5ac, 0x3ee4f8b588e368f1},
    {TEXT("12.50e2"), DTOA_READ, 0x449c4000, 0x4093880000000000},
    {TEXT("100e-2"), DTOA_READ, 0x3f800000, 0x3ff0000000000000},
    /* both zeros, also with an exponent, and what rounds to them */
    {TEXT("0"), DTOA_READ, 0x00000000, 0x0000000000000000},
    {TEXT("-0"), DTOA_READ, 0x80000000, 0x8000000000000000},
    {TEXT("0.0"), DTOA_READ, 0x00000000, 0x0000000000000000},
    {TEXT("-0.0"), DTOA_READ, 0x80000000, 0x8000000000000000},
    {TEXT("00.00"), DTOA_READ, 0x00000000, 0x0000000000000000},
    {TEXT("0e9999"), DTOA_READ, 0x00000000, 0x0000000000000000},
    {TEXT("-0e-9999"), DTOA_READ, 0x80000000, 0x8000000000000000},
    {TEXT("1e-9999"), DTOA_READ, 0x00000000, 0x0000000000000000},
    {TEXT("-1e-9999"), DTOA_READ, 0x80000000, 0x8000000000000000},
    /* halfway between two numbers, and next to it */
    {TEXT("9007199254740992"), DTOA_READ, 0x5a000000, 0x4340000000000000},
    {TEXT("9007199254740993"), DTOA_READ, 0x5a000000, 0x4340000000000000},
    {TEXT("9007199254740995"), DTOA_READ, 0x5a000000, 0x4340000000000002},
    {TEXT("9007199254740993.0000000000000000000000000000000000000000000001"), DTOA_READ, 0x5a000000, 0x4340000000000001},
    {TEXT("9007199254740992.9999999999999999999999999999999999999999999999"), DTOA_READ, 0x5a000000, 0x4340000000000000},
    {TEXT("-9007199254740993"), DTOA_READ, 0xda000000, 0xc340000000000000},
    {TEXT("16777217"), DTOA_READ, 0x4b800000, 0x4170000010000000},
    {TEXT("16777219"), DTOA_READ, 0x4b800002, 0x4170000030000000},
    {TEXT("16777217.000000000000000000000000000000000000000000000000000001"), DTOA_READ, 0x4b800001, 0x4170000010000000},
    {TEXT("16777216.999999999999999999999999999999999999999999999999999999"), DTOA_READ, 0x4b800000, 0x4170000010000000},
    {TEXT("-16777219"), DTOA_READ, 0xcb800002, 0xc170000030000000},
    /* the largest number, half a step above it, and what is too large */
    {TEXT("340282346638528859811704183484516925440"), DTOA_READ, 0x7f7fffff, 0x47efffffe0000000},
    {TEXT("340282356779733661637539395458142568447"), DTOA_READ, 0x7f7fffff, 0x47effffff0000000},
    {TEXT("340282356779733661637539395458142568448"), DTOA_READ, 0x7f800000, 0x47effffff0000000},
    {TEXT("-340282356779733661637539395458142568448"), DTOA_READ, 0xff800000, 0xc7effffff0000000},
    {TEXT("340282356779733661637539395458142568448.00000000000000000000001"), DTOA_READ, 0x7f800000, 0x47effffff0000000},
    {TEXT("1.7976931348623157e308"), DTOA_READ, 0x7f800000, 0x7fefffffffffffff},
    {TEXT("1.797693134862315807e308"), DTOA_READ, 0x7f800000, 0x7fefffffffffffff},
    {TEXT("1.797693134862315808e308"), DTOA_READ, 0x7f800000, 0x7ff0000000000000},
    {TEXT("1.7976931348623158079372897140530341507993413271003782693617e308"), DTOA_READ, 0x7f800000, 0x7fefffffffffffff},
    {TEXT("1.7976931348623158079372897140530341507993413271003782693618e308"), DTOA_READ, 0x7f800000, 0x7ff0000000000000},
    {TEXT("1e39"), DTOA_READ, 0x7f800000, 0x48078287f49c4a1d},
    {TEXT("-1e309"), DTOA_READ, 0xff800000, 0xfff0000000000000},
    {TEXT("9e9999"), DTOA_READ, 0x7f800000, 0x7ff0000000000000},
    {TEXT("-1e9999"), DTOA_READ, 0xff800000, 0xfff0000000000000},
    /* subnormal numbers, the smallest, half of it, and the largest */
    {TEXT("1e-45"), DTOA_READ, 0x00000001, 0x3696d601ad376ab9},
    {TEXT("0.7e-45"), DTOA_READ, 0x00000000, 0x368ff868bf4d956a},
    {TEXT("1.1754942e-38"), DTOA_READ, 0x007fffff, 0x380fffffbb1dd6a1},
    {TEXT("1.1754944e-38"), DTOA_READ, 0x00800000, 0x381000000b3aeeab},
    {TEXT("5e-324"), DTOA_READ, 0x00000000, 0x0000000000000001},
    {TEXT("-5e-324"), DTOA_READ, 0x80000000, 0x8000000000000001},
    {TEXT("2.5e-324"), DTOA_READ, 0x00000000, 0x0000000000000001},
    {TEXT("2.4703282292062327e-324"), DTOA_READ, 0x00000000, 0x0000000000000000},
    {TEXT("2.4703282292062328e-324"), DTOA_READ, 0x00000000, 0x0000000000000001},
    {TEXT("2.225073858507201e-308"), DTOA_READ, 0x00000000, 0x000fffffffffffff},
    {TEXT("2.2250738585072014e-308"), DTOA_READ, 0x00000000, 0x0010000000000000},
    {TEXT("0.000049e-319"), DTOA_READ, 0x00000000, 0x0000000000000001},
    /* the names */
    {TEXT("NaN"), DTOA_READ, 0x7fc00000, 0x7ff8000000000000},
    {TEXT("inf"), DTOA_READ, 0x7f800000, 0x7ff0000000000000},
    {TEXT("-inf"), DTOA_READ, 0xff800000, 0xfff0000000000000},
    /* 1 byte, and 64 */
    {TEXT("5"), DTOA_READ, 0x40a00000, 0x4014000000000000},
    {TEXT("0000000000000000000000000000000000000000000000000000000000000001"), DTOA_READ, 0x3f800000, 0x3ff0000000000000},
    {TEXT("1000000000000000000000000000000000000000000000000000000000000000"), DTOA_READ, 0x7f800000, 0x4d03726987666191},
    {TEXT("0.00000000000000000000000000000000000000000000000000000000000001"), DTOA_READ, 0x00000000, 0x3310747ddddf22a8},
    {TEXT("-0.1000000000000000055511151231257827021181583404541015625000000"), DTOA_READ, 0xbdcccccd, 0xbfb999999999999a},
    /* no byte, and 65 bytes, whatever they are */
    {TEXT(""), DTOA_WRONG_LENGTH, 0, 0},
    {TEXT("00000000000000000000000000000000000000000000000000000000000000001"), DTOA_WRONG_LENGTH, 0, 0},
    {TEXT("0.000000000000000000000000000000000000000000000000000000000000001"), DTOA_WRONG_LENGTH, 0, 0},
    {TEXT("a-number-that-is-none-and-has-as-many-bytes-as-make-it-too-long.."), DTOA_WRONG_LENGTH, 0, 0},
    /* a number that has not begun, or not ended */
    {TEXT("-"), DTOA_WRONG_FORM, 0, 0},
    {TEXT("."), DTOA_WRONG_FORM, 0, 0},
    {TEXT("e"), DTOA_WRONG_FORM, 0, 0},
    {TEXT("e5"), DTOA_WRONG_FORM, 0, 0},
    {TEXT("-e5"), DTOA_WRONG_FORM, 0, 0},
    {TEXT(".5"), DTOA_WRONG_FORM, 0, 0},
    {TEXT("-.5"), DTOA_WRONG_FORM, 0, 0},
    {TEXT("5."), DTOA_WRONG_FORM, 0, 0},
    {TEXT("5.e1"), DTOA_WRONG_FORM, 0, 0},
    {TEXT("5e"), DTOA_WRONG_FORM, 0, 0},
    {TEXT("5e-"), DTOA_WRONG_FORM, 0, 0},
    {TEXT("5.0e"), DTOA_WRONG_FORM, 0, 0},
    /* signs, points and exponents that are none, or too many */
    {TEXT("+1"), DTOA_WRONG_FORM, 0, 0},
    {TEXT("--1"), DTOA_WRONG_FORM, 0, 0},
    {TEXT("1-"), DTOA_WRONG_FORM, 0, 0},
    {TEXT("1-1"), DTOA_WRONG_FORM, 0, 0},
    {TEXT("1.2.3"), DTOA_WRONG_FORM, 0, 0},
    {TEXT("1..2"), DTOA_WRONG_FORM, 0, 0},
    {TEXT("1,5"), DTOA_WRONG_FORM, 0, 0},
    {TEXT("1E5"), DTOA_WRONG_FORM, 0, 0},
    {TEXT("1e+5"), DTOA_WRONG_FORM, 0, 0},
    {TEXT("1e--5"), DTOA_WRONG_FORM, 0, 0},
    {TEXT("1e5e5"), DTOA_WRONG_FORM, 0, 0},
    {TEXT("1e5.0"), DTOA_WRONG_FORM, 0, 0},
    {TEXT("1e.5"), DTOA_WRONG_FORM, 0, 0},
    {TEXT("1e00005"), DTOA_WRONG_FORM, 0, 0},
    {TEXT("1e-10000"), DTOA_WRONG_FORM, 0, 0},
    /* other bytes, at the start, inside and at the end */
    {TEXT(" 1"), DTOA_WRONG_FORM, 0, 0},
    {TEXT("1 "), DTOA_WRONG_FORM, 0, 0},
    {TEXT("1\n"), DTOA_WRONG_FORM, 0, 0},
    {TEXT("1\0"), DTOA_WRONG_FORM, 0, 0},
    {TEXT("1\0002"), DTOA_WRONG_FORM, 0, 0},
    {TEXT("\0"), DTOA_WRONG_FORM, 0, 0},
    {TEXT("1_000"), DTOA_WRONG_FORM, 0, 0},
    {TEXT("0x1"), DTOA_WRONG_FORM, 0, 0},
    {TEXT("1f"), DTOA_WRONG_FORM, 0, 0},
    {TEXT("1/"), DTOA_WRONG_FORM, 0, 0},
    {TEXT("1:"), DTOA_WRONG_FORM, 0, 0},
    {TEXT("\xb1"), DTOA_WRONG_FORM, 0, 0},
    {TEXT("1\xff"), DTOA_WRONG_FORM, 0, 0},
    {TEXT("000000000000000000000000000000000000000000000000000000000000000x"), DTOA_WRONG_FORM, 0, 0},
    /* what is nearly a name */
    {TEXT("nan"), DTOA_WRONG_FORM, 0, 0},
    {TEXT("-NaN"), DTOA_WRONG_FORM, 0, 0},
    {TEXT("Na"), DTOA_WRONG_FORM, 0, 0},
    {TEXT("NaNN"), DTOA_WRONG_FORM, 0, 0},
    {TEXT("Inf"), DTOA_WRONG_FORM, 0, 0},
    {TEXT("+inf"), DTOA_WRONG_FORM, 0, 0},
    {TEXT("in"), DTOA_WRONG_FORM, 0, 0},
    {TEXT("-in"), DTOA_WRONG_FORM, 0, 0},
    {TEXT("-i"), DTOA_WRONG_FORM, 0, 0},
    {TEXT("infinity"), DTOA_WRONG_FORM, 0, 0},
    {TEXT("--inf"), DTOA_WRONG_FORM, 0, 0},
    {TEXT("-inf0"), DTOA_WRONG_FORM, 0, 0},
};

static uint8_t whole[WHOLE];

/* The text for the next call. */
static const uint8_t *lend(const char *text, size_t length) {
    memset(whole, fill, sizeof whole);
    memcpy(whole + FENCE, text, length);
    return whole + FENCE;
}

/* Says whether the text and the fences are as they were before the call. */
static int stayed(const char *text, size_t length) {
    for (size_t at = 0; at < WHOLE; at++) {
        int inside = at >= FENCE && at - FENCE < length;
        if (whole[at] != (uint8_t)(inside ? text[at - FENCE] : fill)) return 0;
    }
    return 1;
}

/* Checks number and pattern of an answer, and that no byte was changed. Says what is wrong, and ends the program. */
static void check(const char *name, const struct expected *e, uint32_t number, uint64_t pattern, uint64_t wanted) {
    int same = number == e->number && pattern == wanted;
    if (same && stayed(e->text, e->length)) return;
    int shown = e->length > SHOWN ? SHOWN : (int)e->length;
    fprintf(stderr, "tests/c: %s of %zu bytes, \"%.*s\", is to give number %u and pattern %" PRIx64, name, e->length, shown,
            e->text, (unsigned)e->number, wanted);
    if (same) {
        fprintf(stderr, " and does, but it changed a byte\n");
    } else {
        fprintf(stderr, ", and gives number %u and pattern %" PRIx64 "\n", (unsigned)number, pattern);
    }
    exit(1);
}

static size_t calls;

static void check_calls(const struct expected *e) {
    struct dtoa_read32 read32 = dtoa_read32(lend(e->text, e->length), e->length);
    check("dtoa_read32", e, read32.number, read32.pattern, e->pattern32);
    struct dtoa_read64 read64 = dtoa_read64(lend(e->text, e->length), e->length);
    check("dtoa_read64", e, read64.number, read64.pattern, e->pattern64);
    calls += 2;
}

/* Far too long a text is refused, of digits too. */
static void check_longer(void) {
    static const size_t lengths[] = {66, 100, 128, 255, 256, 257, 320, LARGEST};
    static char text[LARGEST];
    memset(text, '1', sizeof text);
    for (size_t i = 0; i < sizeof lengths / sizeof lengths[0]; i++) {
        struct expected e = {text, lengths[i], DTOA_WRONG_LENGTH, 0, 0};
        check_calls(&e);
    }
}

/* Every beginning of a text: as much is read as the call says. */
static void check_beginnings(void) {
    static const char text[] = "-1234.5e-67";
    static const struct expected beginnings[] = {
        {text, 1, DTOA_WRONG_FORM, 0, 0},
        {text, 2, DTOA_READ, 0xbf800000, 0xbff0000000000000},
        {text, 3, DTOA_READ, 0xc1400000, 0xc028000000000000},
        {text, 4, DTOA_READ, 0xc2f60000, 0xc05ec00000000000},
        {text, 5, DTOA_READ, 0xc49a4000, 0xc093480000000000},
        {text, 6, DTOA_WRONG_FORM, 0, 0},
        {text, 7, DTOA_READ, 0xc49a5000, 0xc0934a0000000000},
        {text, 8, DTOA_WRONG_FORM, 0, 0},
        {text, 9, DTOA_WRONG_FORM, 0, 0},
        {text, 10, DTOA_READ, 0xbaa1cef2, 0xbf5439de481f5382},
        {text, 11, DTOA_READ, 0x80000000, 0xb2aa00692c4b355e},
    };
    for (size_t i = 0; i < sizeof beginnings / sizeof beginnings[0]; i++) check_calls(&beginnings[i]);
}

static void check_read_back(const char *name, uint64_t bits, uint32_t number, uint64_t pattern) {
    calls++;
    if (number == DTOA_READ && pattern == bits) return;
    fprintf(stderr, "tests/c: %s of what is printed for %" PRIx64 " gives number %u and pattern %" PRIx64 "\n", name, bits,
            (unsigned)number, pattern);
    exit(1);
}

/* What is printed for a finite number is read as the same pattern, from the buffer that it was printed into. */
static void check_printed(void) {
    uint8_t buf[DTOA_ROOM];
    uint64_t bits = 1;
    for (size_t i = 0; i < 100000; i++) {
        bits = bits * 6364136223846793005u + 1442695040888963407u;
        uint32_t bits32 = (uint32_t)(bits >> 32);
        struct dtoa_printed printed = dtoa_format_finite32(bits32, buf, sizeof buf);
        if (printed.number == DTOA_PRINTED) {
            struct dtoa_read32 read = dtoa_read32(buf, printed.length);
            check_read_back("dtoa_read32", bits32, read.number, read.pattern);
        }
        printed = dtoa_format_finite64(bits, buf, sizeof buf);
        if (printed.number == DTOA_PRINTED) {
            struct dtoa_read64 read = dtoa_read64(buf, printed.length);
            check_read_back("dtoa_read64", bits, read.number, read.pattern);
        }
    }
}

int main(void) {
    for (size_t i = 0; i < sizeof list / sizeof list[0]; i++) check_calls(&list[i]);
    check_longer();
    check_beginnings();
    check_printed();
    printf("tests/c/reads.c: %zu calls, every number and pattern as expected\n", calls);
    return 0;
}
