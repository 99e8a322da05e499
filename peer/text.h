/* Text to standard output, through one block. The code is in the header as in records.h. */
#ifndef TEXT_H
#define TEXT_H

#include "peer.h"

#include <stdio.h>
#include <string.h>

enum {
    OUTPUT_BLOCK = 1 << 16,
    LONGEST_LINE = 512 /* of any that the programs print */
};

struct output {
    size_t end;
    char block[OUTPUT_BLOCK];
};

static inline void flush_block(struct output *out)
{
    fwrite(out->block, 1, out->end, stdout);
    out->end = 0;
}

/* Makes room for a line; the other functions put its parts there. */
static inline void begin_line(struct output *out)
{
    if (OUTPUT_BLOCK - out->end < LONGEST_LINE)
        flush_block(out);
}

static inline void put_chars(struct output *out, const char *chars, size_t length)
{
    memcpy(out->block + out->end, chars, length);
    out->end += length;
}

static inline void put_char(struct output *out, char c)
{
    out->block[out->end++] = c;
}

static inline void put_text(struct output *out, const char *text)
{
    put_chars(out, text, strlen(text));
}

static inline void put_number(struct output *out, uint64_t number)
{
    char digits[20];
    size_t first = sizeof digits;

    do {
        digits[--first] = (char)('0' + number % 10);
        number /= 10;
    } while (number > 0);
    put_chars(out, digits + first, sizeof digits - first);
}

static inline void put_signed(struct output *out, int64_t number)
{
    if (number < 0)
        put_char(out, '-');
    put_number(out, number < 0 ? -(uint64_t)number : (uint64_t)number);
}

/* A count in g, which is so many 2048ths of the range: as a decimal that has an end, its digits worked
   out one by one until nothing is left, so that the last is no 0. */
static inline void put_in_g(struct output *out, int count, unsigned g)
{
    unsigned parts = (count < 0 ? -(unsigned)count : (unsigned)count) * g;

    if (count < 0)
        put_char(out, '-');
    put_number(out, parts / 2048);
    parts %= 2048;
    if (parts > 0)
        put_char(out, '.');
    while (parts > 0) {
        parts *= 10;
        put_number(out, parts / 2048);
        parts %= 2048;
    }
}

static inline void put_hex(struct output *out, const uint8_t *bytes, size_t length)
{
    static const char digit[] = "0123456789ABCDEF";
    char *to = out->block + out->end;

    for (size_t i = 0; i < length; i++) {
        *to++ = digit[bytes[i] >> 4];
        *to++ = digit[bytes[i] & 0x0F];
    }
    out->end += 2 * length;
}

/* Writes out what is left; gives whether all of the text could be written. */
static inline bool text_is_out(struct output *out)
{
    flush_block(out);
    return fflush(stdout) == 0 && !ferror(stdout);
}

/* The same for a program that reads standard input. Gives its status: 0, or 1 with a message where the
   input could not be read or the output not be written. */
static inline int end_text(struct output *out, const char *program)
{
    if (text_is_out(out) && !ferror(stdin))
        return 0;
    perror(program);
    return 1;
}

#endif
