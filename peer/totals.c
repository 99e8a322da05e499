#include "totals.h"

#include "records.h"

static bool add_count(uint64_t *to, uint64_t more)
{
    bool fits = more <= UINT64_MAX - *to;

    if (fits)
        *to += more;
    return fits;
}

static bool add_sum(int64_t *to, int64_t more)
{
    bool fits = more < 0 ? *to >= INT64_MIN - more : *to <= INT64_MAX - more;

    if (fits)
        *to += more;
    return fits;
}

static bool add_span(struct span *to, const struct span *more)
{
    if (!more->any)
        return true;
    if (!to->any || more->smallest < to->smallest)
        to->smallest = more->smallest;
    if (!to->any || more->largest > to->largest)
        to->largest = more->largest;
    to->any = true;
    return add_sum(&to->sum, more->sum);
}

static struct span *spans_in(struct totals *s, uint8_t g)
{
    switch (g) {
    case 2:
        return s->of[0];
    case 4:
        return s->of[1];
    case 8:
        return s->of[2];
    default:
        return s->of[3];
    }
}

/* A sample counts in the range in force, lost or not and whatever 0x3E selects. None of the account's
   counts is above that of accepted samples, which is the first to come round to 0. */
static bool add_sample(struct totals *s, const struct account *a, const struct peer *t)
{
    struct span *in_force = spans_in(s, a->in_force.g);
    struct span next[PEER_AXES];
    bool fits = a->since.accepted > 0;

    for (int axis = 0; axis < PEER_AXES; axis++) {
        int count = peer_stored(t, axis);

        next[axis] = in_force[axis];
        fits &= add_span(&next[axis], &(struct span){true, count, count, count});
    }
    if (fits)
        memcpy(in_force, next, sizeof next);
    return fits;
}

enum peer_answer totals_record(struct totals *s, const struct account *a, const struct peer *t,
                               const uint8_t *body, enum peer_answer answer)
{
    bool fits = true;

    if (body[0] == SAMPLE && answer == PEER_DONE)
        fits = add_sample(s, a, t);
    if (body[0] == CLOCK)
        fits = add_count(&s->count[TOTAL_CLOCK], microseconds_of(body));
    return fits ? PEER_DONE : PEER_TOO_LARGE;
}

void totals_end(struct totals *s, const struct account *a, bool refused)
{
    s->count[TOTAL_ACCEPTED] = a->since.accepted;
    s->count[TOTAL_TAKEN] = a->since.taken;
    s->count[TOTAL_HELD] = a->held.count;
    s->count[TOTAL_LOST] = a->since.lost;
    s->count[TOTAL_CLEARED] = a->since.cleared;
    s->count[TOTAL_LOGS] = 1;
    s->count[TOTAL_REFUSED] = refused;
}

enum peer_answer totals_join(struct totals *month, const struct totals *more)
{
    struct totals both = *month;
    bool fits = true;

    for (int i = 0; i < TOTAL_COUNTS; i++)
        fits &= add_count(&both.count[i], more->count[i]);
    for (int range = 0; range < TOTAL_RANGES; range++)
        for (int axis = 0; axis < PEER_AXES; axis++)
            fits &= add_span(&both.of[range][axis], &more->of[range][axis]);
    if (fits)
        *month = both;
    return fits ? PEER_DONE : PEER_TOO_LARGE;
}
