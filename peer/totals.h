/* The totals of a sheet: what became of the samples of a log, or of many, how much time passed, and of
   each range and axis the smallest, the largest and the sum of the counts that were stored.

   All are exact in 64 bits. Where one would not fit, the number given is PEER_TOO_LARGE, else it is
   PEER_DONE. A sheet without a log is all zeros. */
#ifndef TOTALS_H
#define TOTALS_H

#include "account.h"

enum { TOTAL_RANGES = 4 }; /* 2, 4, 8 and 16 g */

enum total {
    TOTAL_ACCEPTED, /* samples */
    TOTAL_TAKEN,    /* frames, as the account counts them; and lost and cleared ones */
    TOTAL_HELD,     /* frames that the FIFO held at the end of a log */
    TOTAL_LOST,
    TOTAL_CLEARED,
    TOTAL_CLOCK, /* microseconds */
    TOTAL_LOGS,
    TOTAL_REFUSED, /* logs that ended by 7, 8 or 9 */
    TOTAL_COUNTS
};

/* Of the accepted samples in a range, an axis. */
struct span {
    bool any;              /* one came; else the rest is zeros */
    int smallest, largest; /* stored counts */
    int64_t sum;
};

struct totals {
    uint64_t count[TOTAL_COUNTS];
    struct span of[TOTAL_RANGES][PEER_AXES];
};

/* Counts one more record of a log, with the twin's answer to it, and with the account and the twin as
   they are behind it. What would not fit changes nothing. */
enum peer_answer totals_record(struct totals *s, const struct account *a, const struct peer *t,
                               const uint8_t *body, enum peer_answer answer);

/* Ends the totals of a log, which counts up to here, with its account; refused by the reader or not. */
void totals_end(struct totals *s, const struct account *a, bool refused);

/* Joins the totals of more logs to those of a month. What would not fit leaves the month as it is. */
enum peer_answer totals_join(struct totals *month, const struct totals *more);

#endif
