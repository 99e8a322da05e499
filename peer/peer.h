/* A twin of the BMA255 accelerometer: registers 0x00 to 0x3F, three data channels with their offsets,
   the FIFO, the detectors of any-motion, slow motion or no-motion, low-g and high-g with their latch
   times and both interrupt pins. Plain C11, no heap, updated in place.

   The caller owns a struct peer and starts it with peer_power_up(); the fields are not for use
   outside this header and peer.c. Each event gives back one of the numbers below; a number other
   than PEER_DONE means that neither the twin nor the lent buffer has changed. All names begin with
   peer, so that a program can hold this twin and the one of include/twin.h. */
#ifndef PEER_H
#define PEER_H

#include <stdbool.h>
#include <stddef.h>
#include <stdint.h>

enum {
    PEER_CHIP_NUMBER = 0xFA,
    PEER_DEPTH = 32, /* of the FIFO in FIFO and STREAM mode */
    PEER_AXES = 3,
    PEER_REGISTERS = 0x40,
    PEER_LONGEST_READ = 192
};

/* 3 and 14 are not given any more: 11 to 13 stand in the place of 3 and tell by register what the
   twin lacks; 14 was for latch times. 10 is for a writer of logs, which is not here. */
enum peer_answer {
    PEER_DONE = 0,              /* done, or a write that the chip ignores */
    PEER_WRONG_ADDRESS = 1,     /* address above 0x3F */
    PEER_RESERVED_CODE = 2,     /* write of a code the sheet reserves */
    PEER_OUTSIDE_12_BITS = 4,   /* x, y or z outside -2048..2047, as given */
    PEER_WRONG_READ_LENGTH = 5, /* read length 0 or above 192 */
    PEER_READ_PASSES_3E = 6,    /* read starting below 0x3F that would pass 0x3E */
    PEER_WRONG_VERSION = 7,     /* log version byte not 1 */
    PEER_WRONG_RECORD = 8,      /* record length or kind wrong */
    PEER_LOG_CUT = 9,           /* log cut, or empty */
    PEER_NO_DETECTOR = 11,      /* a detector bit in 0x16 */
    PEER_NO_POWER_MODE = 12,    /* a power mode in 0x11 */
    PEER_NO_TEST_OR_TRIM = 13,  /* self-test, memory, calibration or offset in 0x32, 0x33, 0x36 */
    PEER_TOO_LARGE = 15         /* a total of a sheet would not fit; no event gives it */
};

enum peer_level { PEER_LOW, PEER_HIGH, PEER_RELEASED };

struct peer_pins {
    enum peer_level int1, int2;
};

struct peer_fifo {
    uint8_t frame[PEER_DEPTH][2 * PEER_AXES]; /* a ring; one axis uses the first two of a place */
    uint8_t oldest;                           /* place of the oldest frame */
    uint8_t count;                            /* frames held, never above the depth of the mode */
    bool overrun;
};

/* Any-motion, or slow motion and no-motion. */
struct peer_motion {
    bool status;      /* 0x09 bit 2 of any-motion, bit 3 of the other */
    uint8_t marks;    /* 0x0B bits 2:0 of any-motion, 0 of the other */
    bool negative;    /* 0x0B bit 3 of any-motion, false of the other */
    uint8_t over_run; /* over points in a row, counted up to N; 0 of no-motion */
    uint8_t calm_run; /* calm points in a row, counted up to N; 0 of no-motion */
    uint32_t wait;    /* microseconds until a calm point may set no-motion */
    uint32_t left;    /* microseconds until a temporary status clears; 0 while there is none */
};

/* Low-g or high-g. A run is of samples in a row that are low, or high. */
struct peer_g_detector {
    bool status;   /* 0x09 bit 0 of low-g, bit 1 of high-g */
    bool running;  /* the sample before belongs to a run */
    uint8_t marks; /* 0x0C bits 2:0 of high-g, 0 of low-g */
    bool negative; /* 0x0C bit 3 of high-g, false of low-g */
    uint32_t wait; /* microseconds until the run is long enough; 0 while there is none, or it is */
    uint32_t left; /* as of any-motion */
};

struct peer {
    uint8_t reg[PEER_REGISTERS]; /* 0x09 to 0x0C, 0x0E and 0x3F are worked out when read */
    uint8_t lock[PEER_AXES];     /* the MSB byte held for a locked axis */
    bool locked[PEER_AXES];
    bool fresh_data; /* a sample came since the last cycle start or reset */
    struct peer_fifo fifo;
    int16_t previous[PEER_AXES]; /* the stored sample before, if there is one */
    bool has_previous;
    struct peer_motion motion, slow;
    struct peer_g_detector low, high;
};

void peer_power_up(struct peer *t);
enum peer_answer peer_write(struct peer *t, uint8_t address, uint8_t byte);
enum peer_answer peer_read(struct peer *t, uint8_t address, uint8_t *buffer, size_t length);
enum peer_answer peer_sample(struct peer *t, int x, int y, int z, uint8_t temperature);
enum peer_answer peer_cycle_start(struct peer *t);
enum peer_answer peer_clock(struct peer *t, uint32_t microseconds);
struct peer_pins peer_pins(const struct peer *t);

/* What is stored of an axis of the sample that came last: the given count with its offset. */
static inline int peer_stored(const struct peer *t, int axis)
{
    return t->previous[axis];
}

#endif
