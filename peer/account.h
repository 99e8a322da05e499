/* What became of the samples of a log, and which range and FIFO mode were in force: counted from
   the records and their answers alone, with no look at the twin.

   The caller starts an account with account_power_up() and may set since to zeros at any record, to
   count from there. Counts wrap at 64 bits. */
#ifndef ACCOUNT_H
#define ACCOUNT_H

#include "peer.h"

enum mode { BYPASS, FIFO, STREAM }; /* bits 7:6 of 0x3E */

/* Whether the last write to a register since power-up or soft reset was refused. */
struct doubt {
    bool stands;
    uint8_t byte;    /* what that write wrote, */
    uint64_t record; /* and its record */
};

struct in_force {
    uint8_t g; /* the range: 2, 4, 8 or 16 */
    enum mode mode;
    struct doubt of_range, of_mode;
};

/* The samples whose frames the FIFO holds, each by its number: the first accepted one of the log is
   1. */
struct held {
    uint64_t number[PEER_DEPTH]; /* a ring */
    unsigned oldest;             /* place of the oldest */
    unsigned count;
};

struct counts {
    uint64_t accepted; /* samples */
    uint64_t taken;    /* frames of which at least the first byte was read */
    uint64_t lost;     /* samples dropped because the FIFO was full, new or oldest */
    uint64_t cleared;  /* frames held when a write to 0x3E or a soft reset emptied the FIFO */
    uint64_t refused;  /* events */
    uint64_t readouts; /* accepted reads at 0x3F */
};

struct account {
    uint64_t records;
    uint64_t samples; /* accepted since power-up: the number of the last one */
    struct in_force in_force;
    unsigned frame_bytes; /* of the axes that 0x3E selects */
    struct held held;
    uint64_t lost; /* number of the sample that the last record lost; 0 where it lost none */
    struct counts since;
};

/* Whether a stretch of records ends with a record, and by what. */
enum end { GOES_ON, READOUT, RANGE_SET, RANGE_REFUSED, RESET };

void account_power_up(struct account *a);

/* Counts one more record, with the answer that the twin gave to it. */
enum end account_record(struct account *a, const uint8_t *body, enum peer_answer answer);

#endif
