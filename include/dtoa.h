/* Malekoco's C interface: prints binary32 and binary64 floating-point numbers as decimal text, byte for byte as the Rust
   crate dtoa 1.0.11 does, and reads decimal text as the nearest number. The functions are proved; docs/PROMISES.md says what is
   promised of them.

   Link libdtoa_c.a, which `rt lib` in crates/dtoa_c puts into that folder's out. It needs no other library, allocates nothing,
   keeps nothing from one call to the next, and may be called from several threads at once, each with a buffer of its own.

       double x = 0.1;
       uint64_t bits;
       uint8_t text[DTOA_ROOM];
       memcpy(&bits, &x, sizeof bits);
       struct dtoa_printed printed = dtoa_format64(bits, text, sizeof text);
       printf("%.*s\n", (int)printed.length, (const char *)text);

   A number that was printed is read as the very same:

       struct dtoa_read64 read = dtoa_read64(text, printed.length);
       if (read.number == DTOA_READ) memcpy(&x, &read.pattern, sizeof x);
*/
#ifndef DTOA_H
#define DTOA_H

#include <stddef.h>
#include <stdint.h>

#ifdef __cplusplus
extern "C" {
#endif

/* The longest text of a number has this many bytes. A buffer with room for them serves every number; a shorter one serves
   none. */
#define DTOA_ROOM 25

/* A row has at most this many numbers. */
#define DTOA_ROW_LIMIT 4096

/* A buffer with this many bytes for each number of a row, the longest text and a space, serves every such row; a shorter one
   serves none. */
#define DTOA_ROW_ROOM 26

/* What the number of an answer says. */
enum {
    DTOA_PRINTED = 0,       /* the text stands in the buffer, from its first byte on */
    DTOA_TOO_SHORT = 1,     /* refused, by the functions for one number: the buffer has fewer than DTOA_ROOM bytes. This is
                               looked at first */
    DTOA_NOT_FINITE = 2,    /* refused, by the finite-only functions: the pattern is a NaN or an infinity */
    DTOA_TOO_MANY = 3,      /* refused, by the function for a row: there are more than DTOA_ROW_LIMIT patterns. This is looked
                               at first */
    DTOA_ROW_TOO_SHORT = 4  /* refused, by the function for a row: the buffer has fewer than DTOA_ROW_ROOM bytes for each
                               pattern */
};

/* What a call answers. */
struct dtoa_printed {
    uint32_t number; /* one of the five above */
    uint32_t length; /* the bytes of the text: 3 to DTOA_ROOM for a number; 0 for a row of no numbers, and for any other fewer
                        than DTOA_ROW_ROOM for each of them. After a refusal 0 */
};

/* The four functions for one number take it as its bit pattern, and a buffer that the caller lends: buf points to len bytes,
   and is not null even where len is 0.

   Printed: the text is buf[0] to buf[length - 1], in ASCII. No zero byte is put behind it: every byte from buf[length] on is
   as it was before the call. Refused: the whole buffer is as it was. */

/* Prints any binary32 number: a finite one as the shortest digits that the crate finds for it, and "NaN", "inf" or "-inf". */
struct dtoa_printed dtoa_format32(uint32_t bits, uint8_t *buf, size_t len);

/* Prints any binary64 number, in the same way. */
struct dtoa_printed dtoa_format64(uint64_t bits, uint8_t *buf, size_t len);

/* Prints a finite binary32 number, and refuses a NaN and an infinity with DTOA_NOT_FINITE. */
struct dtoa_printed dtoa_format_finite32(uint32_t bits, uint8_t *buf, size_t len);

/* Prints a finite binary64 number, and refuses a NaN and an infinity with DTOA_NOT_FINITE. */
struct dtoa_printed dtoa_format_finite64(uint64_t bits, uint8_t *buf, size_t len);

/* Prints a row of 0 to DTOA_ROW_LIMIT binary32 numbers: the text of each as dtoa_format32 prints it, in their order, with one
   space between two and none at the end. No patterns are printed as no text, which is no refusal.

   patterns points to count bit patterns, out to len bytes that the caller lends and that share none with the patterns. Neither
   is null, even where count or len is 0. The row's text is out[0] to out[length - 1]; every byte from out[length] on, and after
   a refusal the whole buffer, is as it was before the call.

       uint32_t patterns[3] = {0x3f800000, 0x80000000, 0x7fc00000};
       uint8_t row[3 * DTOA_ROW_ROOM];
       struct dtoa_printed printed = dtoa_format_row32(patterns, 3, row, sizeof row);
       printf("%.*s\n", (int)printed.length, (const char *)row);

   prints "1.0 -0.0 NaN". */
struct dtoa_printed dtoa_format_row32(const uint32_t *patterns, size_t count, uint8_t *out, size_t len);

/* A text that is read has at most this many bytes, and at least one. */
#define DTOA_LONGEST 64

/* What the number of a reading function's answer says. */
enum {
    DTOA_READ = 0,          /* the text is read */
    DTOA_WRONG_LENGTH = 10, /* refused: the text has no byte, or more than DTOA_LONGEST. This is looked at first */
    DTOA_WRONG_FORM = 11    /* refused: the text has not the form of a number */
};

/* What the reading functions answer. */
struct dtoa_read32 {
    uint32_t pattern; /* the bit pattern that is read; after a refusal 0, which is also the pattern of "0.0" */
    uint32_t number;  /* one of the three above */
};

struct dtoa_read64 {
    uint64_t pattern;
    uint32_t number;
};

/* The two reading functions take a text that the caller lends: text points to len bytes, which are read and not changed, and is
   not null even where len is 0. No zero byte is needed behind the text, and none is looked for.

   A text has the form of a number where it is, from its first byte to its last and in ASCII: a `-` or none; one or more digits;
   then nothing, or a `.` and one or more digits; then nothing, or an `e`, a `-` or none, and 1 to 4 digits. "NaN", "inf" and
   "-inf" have it too. No other text has it: no space, no `+`, no `E`, no ".5" and no "5.". Every text that the functions above
   print for one number has it.

   A text is read as the number nearest to its value; where two are as near, as the one with the even significand. From half a
   step above the largest number on that is the infinity, as in IEEE 754-2019. A zero has the sign of its text, also where the
   value was only rounded to it. "NaN" is read as 7fc00000 or 7ff8000000000000. */

/* Reads a text as a binary32 number. */
struct dtoa_read32 dtoa_read32(const uint8_t *text, size_t len);

/* Reads a text as a binary64 number. It is rounded once: this is not the number of dtoa_read32, widened. */
struct dtoa_read64 dtoa_read64(const uint8_t *text, size_t len);

#ifdef __cplusplus
}
#endif

#endif
