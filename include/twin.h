/* The twin of the BMA253 and BMA255 accelerometers, for firmware and harnesses in C99 or C++11 and later. Link libtwin.a or libtwin.so.4
 * (x86-64).
 *
 *     static struct twin chip;
 *     uint8_t id;
 *     twin_power_up(&chip);
 *     if (twin_read(&chip, 0x00, &id, 1) == TWIN_DONE) printf("chip %02X\n", id); // chip FA
 *
 * A record is one chip. It is the caller's own, wherever the caller keeps it: nothing is allocated, and there are no variables behind
 * the scenes. A copy of a record, by assignment or memcpy, is a second chip in the same state; memcmp does not tell whether two are in
 * the same state. Threads: one record, one thread at a time; two records have nothing to do with each other.
 *
 * Every call is answered by a number, and an event that is refused changes neither the record nor the buffer. What the caller owes, since
 * C cannot see it: a pointer that is not NULL leads to a whole struct twin, and a buffer has as many bytes as the count says. */
#ifndef TWIN_H
#define TWIN_H

#include <stdbool.h>
#include <stddef.h>
#include <stdint.h>
#if __STDC_HOSTED__
#include <string.h> /* for the caller: memcpy copies a chip */
#endif

/* The version of this header and of the library beside it: the last number moves where no name does, the middle one where names are
 * added or what was refused is done, the first where a caller may have to be changed. The first is in the library's symbols, so that what
 * was compiled with a header of another one does not link.
 *
 * Since 4.4 offsets are applied: 0x38 to 0x3A take any byte, of which 4.3 refused all but 0 as TWIN_NO_TEST_OR_TRIM, and what is stored of a
 * later sample is the given one plus the offset, held at -2048 or 2047; a caller that writes none of these is answered as before. Since 4.3
 * there are slow motion and no-motion: 0x18 takes the bytes with a 1 in bits 2:0, which 4.2 refused as TWIN_NO_DETECTOR. In turn the write to
 * 0x18 or 0x27 that would bring bit 3 of 0x18 and a code 22 to 31 in bits 7:2 of 0x27 together is TWIN_RESERVED_CODE; 4.2 stored both,
 * without effect. A caller that writes neither is answered as before. Since 4.2 there are low-g and high-g: 0x17 takes any byte, of which
 * 4.1 refused those with a 1 in bits 3:0 as TWIN_NO_DETECTOR; a caller that writes none of these is answered as before. Since 4.1.1 a
 * buffer that overlaps the record is TWIN_BAD_BUFFER whatever its length is; 4.1.0 passed over those above TWIN_LONGEST_READ. Since 4.1 the
 * symbols have it, and the library itself looks at what it is handed, also for a caller without this header; there is a shared library. In
 * 4.0 this header looked: what was compiled with it is compiled anew, as it is. Since 4 there is a clock: twin_event takes microseconds, and
 * 0x21 takes a latch time. Since 3 the watermark stays 1 above its level; 2 showed it at the level alone. */
#define TWIN_VERSION_MAJOR 4
#define TWIN_VERSION_MINOR 4
#define TWIN_VERSION_PATCH 0
#define TWIN_VERSION "4.4.0"

#ifdef __cplusplus
extern "C" {
#endif

/* ---- numbers */

/* What an event answers. 3, which version 1 gave for whatever the twin lacks, is never given again: 11 to 13 say which kind of thing it
 * is. Nor is 14, which versions 2 and 3 gave for a latch time. */
enum twin_answer {
    TWIN_DONE = 0,             /* done, or a write that the chip ignores */
    TWIN_NO_ADDRESS = 1,       /* address above 0x3F */
    TWIN_RESERVED_CODE = 2,    /* write of a code that the sheet reserves, or that would join no-motion in 0x18 and a code 22 to 31 in 0x27 */
    TWIN_OUT_OF_RANGE = 4,     /* x, y or z outside -2048..2047 as given, before its offset */
    TWIN_BAD_LENGTH = 5,       /* read length 0 or above 192 */
    TWIN_PAST_END = 6,         /* read starting below 0x3F that would pass 0x3E */
    TWIN_NO_KIND = 8,          /* a kind of event that does not exist */
    TWIN_NO_DETECTOR = 11,     /* write of a detector bit in 0x16 */
    TWIN_NO_POWER_MODE = 12,   /* write of a power mode in 0x11 */
    TWIN_NO_TEST_OR_TRIM = 13, /* write of self-test, memory, calibration or offset reset in 0x32, 0x33, 0x36 */
    /* for a call that is no event at all; these are looked at first */
    TWIN_MISFIT = 253,         /* power-up of a record that is not aligned, or with a library that needs more than TWIN_ROOM */
    TWIN_BAD_BUFFER = 254,     /* NULL with a count that is not 0, or a buffer that overlaps the record */
    TWIN_NOT_POWERED = 255     /* NULL for a record, or one that was not powered up */
};

/* The kinds of event, as in the bench log. */
enum twin_kind { TWIN_WRITE = 1, TWIN_READ = 2, TWIN_SAMPLE = 3, TWIN_CYCLE = 4, TWIN_CLOCK = 5 };

/* What a pin shows. */
enum twin_level { TWIN_LOW = 0, TWIN_HIGH = 1, TWIN_RELEASED = 2 };

#define TWIN_CHIP 0xFA        /* what register 0x00 holds */
#define TWIN_LONGEST_READ 192 /* bytes */
#define TWIN_ROOM 512         /* bytes of a record, of which the library uses the first twin_size() */

/* ---- the record: room for the library's own, with some left for what later versions add. Its size is that of the major version. Use the
 * functions. */
struct twin {
    uint64_t room[TWIN_ROOM / 8];
};

/* ---- the library. Its five functions have the major version in their symbols: twin_event is twin_4_event there. */
#define TWIN_JOINED(first, major, name) first##major##name
#define TWIN_SYMBOL(major, name) TWIN_JOINED(twin_, major, name)
#define twin_size TWIN_SYMBOL(TWIN_VERSION_MAJOR, _size)
#define twin_alignment TWIN_SYMBOL(TWIN_VERSION_MAJOR, _alignment)
#define twin_power_up TWIN_SYMBOL(TWIN_VERSION_MAJOR, _power_up)
#define twin_event TWIN_SYMBOL(TWIN_VERSION_MAJOR, _event)
#define twin_pins TWIN_SYMBOL(TWIN_VERSION_MAJOR, _pins)

size_t twin_size(void);      /* the bytes of the library's record, at most TWIN_ROOM */
size_t twin_alignment(void); /* what its address is a multiple of */

/* The record becomes that of a chip at power-up, whatever it held: no byte of it stays as it was. Answers TWIN_DONE; or TWIN_NOT_POWERED
 * for NULL; or TWIN_MISFIT, and leaves zeros, which every function refuses. */
uint8_t twin_power_up(struct twin *twin);

/* One event: TWIN_WRITE (address, byte), TWIN_READ (address; length bytes into buffer), TWIN_SAMPLE (x, y, z; byte is the temperature),
 * TWIN_CYCLE or TWIN_CLOCK (microseconds). What the kind does not name does not matter, but the buffer is looked at for every kind: NULL
 * needs length 0. */
uint8_t twin_event(struct twin *twin, uint8_t kind, uint8_t address, uint8_t byte, int16_t x, int16_t y, int16_t z, uint8_t *buffer,
                   size_t length, uint32_t microseconds);

/* Both pin levels, that of INT1 plus 4 times that of INT2, or TWIN_NOT_POWERED. Changes nothing. */
uint8_t twin_pins(const struct twin *twin);

/* ---- what the library looks at first */

/* Whether it was powered up: the library's record begins with register 0x00, which never changes. A record that was left as the memory
 * was, not zeroed, may begin with that byte by chance. */
static inline bool twin_is_powered(const struct twin *twin) {
    return twin != NULL && *(const unsigned char *)twin == TWIN_CHIP;
}

/* Whether it is NULL with a count, or overlaps the record: of whatever length, no buffer that shares a byte with the record gets past
 * this. One of no bytes shares none. */
static inline bool twin_is_bad_buffer(const struct twin *twin, const uint8_t *buffer, size_t length) {
    uintptr_t record = (uintptr_t)twin, start = (uintptr_t)buffer;
    if (buffer == NULL) return length != 0;
    if (length == 0) return false;
    return start < record ? record - start < length : start - record < TWIN_ROOM; /* without a sum, which might pass the last address */
}

/* ---- the events, one function each */

/* A register write. */
static inline uint8_t twin_write(struct twin *twin, uint8_t address, uint8_t byte) {
    return twin_event(twin, TWIN_WRITE, address, byte, 0, 0, 0, NULL, 0, 0);
}

/* A burst read: length bytes from address on into buffer; at 0x3F, the FIFO's frames. A read below 0x3F changes nothing that another caller of
 * the same record sees but 0x02 to 0x07: new-data bits and locks. */
static inline uint8_t twin_read(struct twin *twin, uint8_t address, uint8_t *buffer, size_t length) {
    return twin_event(twin, TWIN_READ, address, 0, 0, 0, 0, buffer, length, 0);
}

/* The nearest number of 16 bits. What it moves lies outside -2048..2047 before and after. */
static inline int16_t twin_nearest_16(int value) {
    return (int16_t)(value < INT16_MIN ? INT16_MIN : value > INT16_MAX ? INT16_MAX : value);
}

/* A sample as it is given, in counts of 12 bits, to which the offsets are added, and the byte of the temperature register 0x08. */
static inline uint8_t twin_sample(struct twin *twin, int x, int y, int z, uint8_t temperature) {
    return twin_event(twin, TWIN_SAMPLE, 0, temperature, twin_nearest_16(x), twin_nearest_16(y), twin_nearest_16(z), NULL, 0, 0);
}

/* The start of an acquisition cycle. */
static inline uint8_t twin_cycle(struct twin *twin) {
    return twin_event(twin, TWIN_CYCLE, 0, 0, 0, 0, 0, NULL, 0, 0);
}

/* Time that passes; no other event takes any. Two clocks in a row equal one of their sum, so a time of more than 32 bits may be cut
 * anywhere. */
static inline uint8_t twin_clock(struct twin *twin, uint32_t microseconds) {
    return twin_event(twin, TWIN_CLOCK, 0, 0, 0, 0, 0, NULL, 0, microseconds);
}

/* The level of a pin: TWIN_LOW, TWIN_HIGH or TWIN_RELEASED; or TWIN_NOT_POWERED. */
static inline uint8_t twin_int1(const struct twin *twin) {
    uint8_t pins = twin_pins(twin);
    return pins == TWIN_NOT_POWERED ? pins : (uint8_t)(pins % 4);
}

static inline uint8_t twin_int2(const struct twin *twin) {
    uint8_t pins = twin_pins(twin);
    return pins == TWIN_NOT_POWERED ? pins : (uint8_t)(pins / 4);
}

/* An answer in words. */
static inline const char *twin_answer_name(uint8_t answer) {
    switch (answer) {
    case TWIN_DONE: return "done";
    case TWIN_NO_ADDRESS: return "address above 0x3F";
    case TWIN_RESERVED_CODE: return "code that the sheet reserves";
    case TWIN_OUT_OF_RANGE: return "sample outside -2048..2047";
    case TWIN_BAD_LENGTH: return "read length 0 or above 192";
    case TWIN_PAST_END: return "read that would pass 0x3E";
    case TWIN_NO_KIND: return "kind of event that does not exist";
    case TWIN_NO_DETECTOR: return "detector that the twin lacks";
    case TWIN_NO_POWER_MODE: return "power mode that the twin lacks";
    case TWIN_NO_TEST_OR_TRIM: return "self-test, memory, calibration or offset reset that the twin lacks";
    case TWIN_MISFIT: return "record that does not fit the library";
    case TWIN_BAD_BUFFER: return "no buffer, or one that overlaps the record";
    case TWIN_NOT_POWERED: return "record that was not powered up";
    default: return "not an answer";
    }
}

/* TWIN_VERSION, as a function. */
static inline const char *twin_version(void) {
    return TWIN_VERSION;
}

#ifdef __cplusplus
}
#endif

#endif
