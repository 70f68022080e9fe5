/* Calls the four functions for one number as a C program would. */
#include <inttypes.h>
#include <stdio.h>

#include "lent.h"

enum entry { FORMAT32, FORMAT64, FORMAT_FINITE32, FORMAT_FINITE64 };

static const char *const names[] = {"dtoa_format32", "dtoa_format64", "dtoa_format_finite32", "dtoa_format_finite64"};

struct expected {
    enum entry entry;
    uint64_t bits;
    size_t room;
    uint32_t number;
    const char *text;
};

static const struct expected list[] = {
    /* one number at both widths, through all four functions */
    {FORMAT32, 0x402df84d, 25, DTOA_PRINTED, "2.71828"},
    {FORMAT64, 0x4005bf0995aaf790, 25, DTOA_PRINTED, "2.71828"},
    {FORMAT_FINITE32, 0x402df84d, 25, DTOA_PRINTED, "2.71828"},
    {FORMAT_FINITE64, 0x4005bf0995aaf790, 25, DTOA_PRINTED, "2.71828"},
    /* both zeros */
    {FORMAT32, 0x00000000, 25, DTOA_PRINTED, "0.0"},
    {FORMAT32, 0x80000000, 4096, DTOA_PRINTED, "-0.0"},
    {FORMAT_FINITE64, 0x0000000000000000, 26, DTOA_PRINTED, "0.0"},
    {FORMAT64, 0x8000000000000000, 25, DTOA_PRINTED, "-0.0"},
    /* the smallest and the largest */
    {FORMAT32, 0x00000001, 25, DTOA_PRINTED, "1e-45"},
    {FORMAT32, 0x7f7fffff, 4096, DTOA_PRINTED, "3.4028235e38"},
    {FORMAT64, 0x0000000000000001, 25, DTOA_PRINTED, "5e-324"},
    {FORMAT64, 0xffefffffffffffff, 4096, DTOA_PRINTED, "-1.7976931348623157e308"},
    /* 1e20 is the last power of ten without an exponent */
    {FORMAT64, 0x4415af1d78b58c40, 25, DTOA_PRINTED, "100000000000000000000.0"},
    {FORMAT64, 0x444b1ae4d6e2ef50, 25, DTOA_PRINTED, "1e21"},
    /* the longest text fills 25 bytes to the last */
    {FORMAT64, 0xbec2c86d907ec0e7, 25, DTOA_PRINTED, "-0.0000022390987659202535"},
    {FORMAT_FINITE64, 0xbec2c86d907ec0e7, 4096, DTOA_PRINTED, "-0.0000022390987659202535"},
    /* NaN and infinity are texts where every pattern is taken */
    {FORMAT32, 0x7fc00000, 25, DTOA_PRINTED, "NaN"},
    {FORMAT32, 0xff800001, 25, DTOA_PRINTED, "NaN"},
    {FORMAT32, 0xff800000, 4096, DTOA_PRINTED, "-inf"},
    {FORMAT64, 0x7ff0000000000000, 25, DTOA_PRINTED, "inf"},
    {FORMAT64, 0xfff8000000000000, 25, DTOA_PRINTED, "NaN"},
    /* and refused where only finite ones are */
    {FORMAT_FINITE32, 0x7f800000, 25, DTOA_NOT_FINITE, ""},
    {FORMAT_FINITE32, 0xffc00000, 4096, DTOA_NOT_FINITE, ""},
    {FORMAT_FINITE64, 0xfff0000000000000, 25, DTOA_NOT_FINITE, ""},
    {FORMAT_FINITE64, 0x7ff0000000000001, 4096, DTOA_NOT_FINITE, ""},
    /* 24 bytes are refused even for a zero, and no byte at all */
    {FORMAT32, 0x00000000, 24, DTOA_TOO_SHORT, ""},
    {FORMAT64, 0x0000000000000000, 24, DTOA_TOO_SHORT, ""},
    {FORMAT_FINITE32, 0x3f800000, 24, DTOA_TOO_SHORT, ""},
    {FORMAT_FINITE64, 0x3ff0000000000000, 24, DTOA_TOO_SHORT, ""},
    {FORMAT64, 0x3ff0000000000000, 0, DTOA_TOO_SHORT, ""},
    /* a short buffer is looked at before an infinity */
    {FORMAT_FINITE32, 0x7f800000, 24, DTOA_TOO_SHORT, ""},
    {FORMAT_FINITE64, 0x7ff0000000000000, 0, DTOA_TOO_SHORT, ""},
};

static struct dtoa_printed answer(const struct expected *e, uint8_t *buf) {
    switch (e->entry) {
    case FORMAT32:
        return dtoa_format32((uint32_t)e->bits, buf, e->room);
    case FORMAT64:
        return dtoa_format64(e->bits, buf, e->room);
    case FORMAT_FINITE32:
        return dtoa_format_finite32((uint32_t)e->bits, buf, e->room);
    default:
        return dtoa_format_finite64(e->bits, buf, e->room);
    }
}

static void check_call(const struct expected *e) {
    int digits = e->entry == FORMAT32 || e->entry == FORMAT_FINITE32 ? 8 : 16;
    char call[100];
    snprintf(call, sizeof call, "%s(0x%0*" PRIx64 ") with a buffer of %zu bytes", names[e->entry], digits, e->bits, e->room);
    struct wanted wanted = {call, e->number, e->text};
    check(&wanted, answer(e, lend()));
}

int main(void) {
    size_t calls = sizeof list / sizeof list[0];
    for (size_t i = 0; i < calls; i++) check_call(&list[i]);
    printf("tests/c/calls.c: %zu calls, every number, length, text and untouched byte as expected\n", calls);
    return 0;
}
