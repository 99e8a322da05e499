#include "account.h"

#include "records.h"

enum { AT_RANGE = 0x0F, AT_RESET = 0x14, AT_MODE = 0x3E, AT_FRAMES = 0x3F };

void account_power_up(struct account *a)
{
    *a = (struct account){.in_force = {.g = 2, .mode = BYPASS}, .frame_bytes = 2 * PEER_AXES};
}

/* ---- the samples held ---- */

static bool is_full(const struct account *a)
{
    return a->held.count == (a->in_force.mode == BYPASS ? 1 : PEER_DEPTH);
}

static uint64_t take_oldest(struct held *h)
{
    uint64_t number = h->number[h->oldest];

    h->oldest = (h->oldest + 1) % PEER_DEPTH;
    h->count--;
    return number;
}

static void hold(struct held *h, uint64_t number)
{
    h->number[(h->oldest + h->count) % PEER_DEPTH] = number;
    h->count++;
}

static void empty(struct account *a)
{
    a->since.cleared += a->held.count;
    a->held.count = 0;
}

/* ---- records ---- */

/* In a full FIFO there is no room in FIFO mode; the other modes make it. */
static enum end count_sample(struct account *a)
{
    a->samples++;
    a->since.accepted++;
    if (is_full(a)) {
        a->lost = a->in_force.mode == FIFO ? a->samples : take_oldest(&a->held);
        a->since.lost++;
    }
    if (a->lost != a->samples)
        hold(&a->held, a->samples);
    return GOES_ON;
}

/* A frame begun is a frame taken; zeros past the last are no frames. */
static enum end count_read(struct account *a, uint8_t address, unsigned length)
{
    if (address != AT_FRAMES)
        return GOES_ON;
    a->since.readouts++;
    for (unsigned at = 0; at < length && a->held.count > 0; at += a->frame_bytes) {
        take_oldest(&a->held);
        a->since.taken++;
    }
    return READOUT;
}

static uint8_t g_of(uint8_t byte)
{
    switch (byte & 0x0F) {
    case 0x3:
        return 2;
    case 0x5:
        return 4;
    case 0x8:
        return 8;
    default: /* 0xC: the others are refused */
        return 16;
    }
}

static enum end count_write(struct account *a, uint8_t address, uint8_t byte)
{
    struct in_force *now = &a->in_force;

    switch (address) {
    case AT_MODE:
        empty(a);
        now->mode = (enum mode)(byte >> 6);
        now->of_mode.stands = false;
        a->frame_bytes = byte & 3 ? 2 : 2 * PEER_AXES;
        return GOES_ON;
    case AT_RANGE:
        now->g = g_of(byte);
        now->of_range.stands = false;
        return RANGE_SET;
    case AT_RESET:
        if (byte != 0xB6)
            return GOES_ON;
        empty(a);
        *now = (struct in_force){.g = 2, .mode = BYPASS};
        a->frame_bytes = 2 * PEER_AXES;
        return RESET;
    default:
        return GOES_ON;
    }
}

static enum end count_refused_write(struct account *a, uint8_t address, uint8_t byte)
{
    struct doubt doubt = {.stands = true, .byte = byte, .record = a->records};

    if (address == AT_MODE)
        a->in_force.of_mode = doubt;
    if (address != AT_RANGE)
        return GOES_ON;
    a->in_force.of_range = doubt;
    return RANGE_REFUSED;
}

static enum end count_refused(struct account *a, const uint8_t *body)
{
    a->since.refused++;
    return body[0] == WRITE ? count_refused_write(a, body[1], body[2]) : GOES_ON;
}

enum end account_record(struct account *a, const uint8_t *body, enum peer_answer answer)
{
    a->records++;
    a->lost = 0;
    if (answer != PEER_DONE)
        return count_refused(a, body);
    switch ((enum kind)body[0]) {
    case WRITE:
        return count_write(a, body[1], body[2]);
    case READ:
        return count_read(a, body[1], body[2]);
    case SAMPLE:
        return count_sample(a);
    case CYCLE_START:
    case CLOCK:
        break;
    }
    return GOES_ON;
}
