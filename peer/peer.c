#include "peer.h"

#include <stdlib.h>
#include <string.h>

enum {
    X_LSB = 0x02,
    X_MSB = 0x03,
    Y_LSB = 0x04,
    Y_MSB = 0x05,
    Z_LSB = 0x06,
    Z_MSB = 0x07,
    TEMPERATURE = 0x08,
    STATUS_MOTION = 0x09,
    STATUS_DATA = 0x0A,
    STATUS_MARKS = 0x0B,
    STATUS_HIGH = 0x0C,
    STATUS_FIFO = 0x0E,
    RANGE = 0x0F,
    SHADOW = 0x13,
    SOFT_RESET = 0x14,
    ENABLE_MOTION = 0x16,
    ENABLE_DATA = 0x17, /* and low-g and high-g */
    ENABLE_SLOW = 0x18, /* axes of slow motion or no-motion */
    MAP_INT1 = 0x19,
    MAP_DATA = 0x1A,
    MAP_INT2 = 0x1B,
    PIN_DRIVE = 0x20,
    LATCH = 0x21,
    LOW_DURATION = 0x22,
    LOW_THRESHOLD = 0x23,
    G_MODE = 0x24, /* sum mode of low-g and both hystereses */
    HIGH_DURATION = 0x25,
    HIGH_THRESHOLD = 0x26,
    MOTION_COUNT = 0x27, /* and N of slow motion, or the delay of no-motion */
    MOTION_THRESHOLD = 0x28,
    SLOW_THRESHOLD = 0x29,
    WATERMARK_LEVEL = 0x30,
    X_OFFSET = 0x38, /* and y and z behind it */
    KEPT_3B = 0x3B,
    KEPT_3C = 0x3C,
    FIFO_MODE = 0x3E,
    FIFO_DATA = 0x3F
};

/* Bits of 0x09, and of its maps 0x19 and 0x1B. */
enum { SLOW = 0x08, MOTION = 0x04, HIGH = 0x02, LOW = 0x01 };

/* Bits of 0x0A. */
enum { DATA = 0x80, WATERMARK = 0x40, FULL = 0x20 };

/* Bits of 0x17. */
enum { ENABLE_LOW = 0x08, ENABLE_HIGH = 0x07 };

/* Bits of 0x18, and the axes of 0x16 too. */
enum { NO_MOTION = 0x08, ENABLE_AXES = 0x07 };

enum { MODE_BITS = 0xC0, BYPASS = 0x00, FIFO = 0x40 };

static const struct {
    uint8_t reset, mask;
} row[PEER_REGISTERS] = {
    {PEER_CHIP_NUMBER, 0}, {0xFF, 0x00}, {0x00, 0x00}, {0x00, 0x00}, /* 00 */
    {0x00, 0x00},          {0x00, 0x00}, {0x00, 0x00}, {0x00, 0x00}, /* 04 */
    {0x00, 0x00},          {0x00, 0x00}, {0x00, 0x00}, {0x00, 0x00}, /* 08 */
    {0x00, 0x00},          {0xFF, 0x00}, {0x00, 0x00}, {0x03, 0x0F}, /* 0C */
    {0x0F, 0x1F},          {0x00, 0xFE}, {0x00, 0x60}, {0x00, 0xC0}, /* 10 */
    {0x00, 0x00},          {0xFF, 0x00}, {0x00, 0xF7}, {0x00, 0x7F}, /* 14 */
    {0x00, 0x0F},          {0x00, 0xFF}, {0x00, 0xE7}, {0x00, 0xFF}, /* 18 */
    {0xFF, 0x00},          {0xFF, 0x00}, {0x00, 0x3F}, {0xFF, 0x00}, /* 1C */
    {0x05, 0x0F},          {0x00, 0x0F}, {0x09, 0xFF}, {0x30, 0xFF}, /* 20 */
    {0x81, 0xC7},          {0x0F, 0xFF}, {0xC0, 0xFF}, {0x00, 0xFF}, /* 24 */
    {0x14, 0xFF},          {0x14, 0xFF}, {0x04, 0xC7}, {0x0A, 0xDF}, /* 28 */
    {0x18, 0x7F},          {0x48, 0x7F}, {0x08, 0x3F}, {0x11, 0x37}, /* 2C */
    {0x00, 0x3F},          {0xFF, 0x00}, {0x00, 0x07}, {0xF4, 0x00}, /* 30 */
    {0x00, 0x07},          {0xFF, 0x00}, {0x10, 0x00}, {0x00, 0x7F}, /* 34 */
    {0x00, 0xFF},          {0x00, 0xFF}, {0x00, 0xFF}, {0x00, 0xFF}, /* 38 */
    {0x00, 0xFF},          {0xFF, 0x00}, {0x00, 0xC3}, {0x00, 0x00}  /* 3C */
};

/* For how many microseconds each code of 0x21, its low nibble, holds a status; 0 for the four codes
   that are non-latched or latched. */
static const uint32_t hold_time[0x10] = {
    [0x1] = 250000,  [0x2] = 500000,  [0x3] = 1000000, /* 250 and 500 ms, 1 s */
    [0x4] = 2000000, [0x5] = 4000000, [0x6] = 8000000, /* 2, 4 and 8 s */
    [0x9] = 250,     [0xA] = 500,     [0xB] = 1000,    /* 250 and 500 us, 1 ms */
    [0xC] = 12500,   [0xD] = 25000,   [0xE] = 50000    /* 12.5, 25 and 50 ms */
};

static bool non_latched(const struct peer *t)
{
    return (t->reg[LATCH] & 7) == 0;
}

/* How many counts at 2 g one count is worth with each code of 0x0F, its low nibble; 0 for the codes
   that are refused. */
static const uint8_t range_factor[0x10] = {
    [0x3] = 1, [0x5] = 2, [0x8] = 4, [0xC] = 8 /* 2, 4, 8 and 16 g */
};

/* How many counts one step of 0x38 to 0x3A is with each code of 0x0F, its low nibble. */
static const uint8_t offset_step[0x10] = {
    [0x3] = 8, [0x5] = 4, [0x8] = 2, [0xC] = 1 /* 2, 4, 8 and 16 g */
};

/* For how many seconds no-motion waits with each code of 0x27, its bits 7:2; 0 for the codes that
   have no meaning there. */
static uint32_t delay_seconds(uint8_t byte)
{
    uint32_t code = byte >> 2;

    if (code <= 15)
        return code + 1;
    if (code <= 21)
        return 40 + 8 * (code - 16);
    return code <= 31 ? 0 : 88 + 8 * (code - 32);
}

/* The first enabled axis whose size is above a level, or PEER_AXES where there is none. */
static int first_above(unsigned enabled, const int value[PEER_AXES], int level)
{
    int axis = 0;

    while (axis < PEER_AXES && !(enabled >> axis & 1 && abs(value[axis]) > level))
        axis++;
    return axis;
}

/* ---- power-up and soft reset ---- */

void peer_power_up(struct peer *t)
{
    memset(t, 0, sizeof *t);
    for (int address = 0; address < PEER_REGISTERS; address++)
        t->reg[address] = row[address].reset;
}

static void soft_reset(struct peer *t)
{
    uint8_t kept_3b = t->reg[KEPT_3B], kept_3c = t->reg[KEPT_3C];

    peer_power_up(t);
    t->reg[KEPT_3B] = kept_3b;
    t->reg[KEPT_3C] = kept_3c;
}

/* ---- FIFO ---- */

static unsigned fifo_depth(const struct peer *t)
{
    return (t->reg[FIFO_MODE] & MODE_BITS) == BYPASS ? 1 : PEER_DEPTH;
}

static size_t frame_size(const struct peer *t)
{
    return t->reg[FIFO_MODE] & 3 ? 2 : 2 * PEER_AXES;
}

static void drop_oldest(struct peer_fifo *f)
{
    f->oldest = (uint8_t)((f->oldest + 1) % PEER_DEPTH);
    f->count--;
}

static void empty_fifo(struct peer_fifo *f)
{
    f->oldest = 0;
    f->count = 0;
    f->overrun = false;
}

/* Makes a frame of the sample that the channels have just taken, with all new-data bits at 1. */
static void put_frame(struct peer *t)
{
    struct peer_fifo *f = &t->fifo;
    unsigned select = t->reg[FIFO_MODE] & 3;
    const uint8_t *channel = &t->reg[select ? X_LSB + 2 * (select - 1) : X_LSB];

    if (f->count == fifo_depth(t)) {
        f->overrun = true;
        if ((t->reg[FIFO_MODE] & MODE_BITS) == FIFO)
            return;
        drop_oldest(f);
    }
    memcpy(f->frame[(f->oldest + f->count) % PEER_DEPTH], channel, frame_size(t));
    f->count++;
}

static void read_fifo(struct peer *t, uint8_t *buffer, size_t length)
{
    struct peer_fifo *f = &t->fifo;
    size_t size = frame_size(t);

    while (length > 0 && f->count > 0) {
        size_t part = length < size ? length : size;

        memcpy(buffer, f->frame[f->oldest], part);
        drop_oldest(f);
        buffer += part;
        length -= part;
    }
    memset(buffer, 0, length);
}

/* ---- any-motion, slow motion and no-motion ---- */

/* The sign stays. */
static void clear_motion(struct peer_motion *m)
{
    m->status = false;
    m->marks = 0;
    m->over_run = 0;
    m->calm_run = 0;
    m->left = 0;
}

/* The waiting of no-motion begins anew. */
static void begin_wait(struct peer *t)
{
    t->slow.wait = delay_seconds(t->reg[MOTION_COUNT]) * 1000000;
}

static void restart_slow(struct peer *t)
{
    clear_motion(&t->slow);
    begin_wait(t);
}

static void set_motion(const struct peer *t, struct peer_motion *m)
{
    m->status = true;
    m->left = hold_time[t->reg[LATCH]];
}

/* Gives whether it sets the status. */
static bool over_point(const struct peer *t, struct peer_motion *m, unsigned n)
{
    m->calm_run = 0;
    if (m->over_run < n)
        m->over_run++;
    if (m->over_run < n || m->status)
        return false;
    set_motion(t, m);
    return true;
}

static void calm_point(const struct peer *t, struct peer_motion *m, unsigned n)
{
    m->over_run = 0;
    if (m->calm_run < n)
        m->calm_run++;
    if (m->calm_run == n && non_latched(t)) {
        m->status = false;
        m->marks = 0;
    }
}

static void any_motion(struct peer *t, const int difference[PEER_AXES])
{
    struct peer_motion *m = &t->motion;
    unsigned n = (t->reg[MOTION_COUNT] & 3) + 1u;
    int axis = first_above(t->reg[ENABLE_MOTION], difference, 4 * t->reg[MOTION_THRESHOLD]);

    if (axis == PEER_AXES) {
        calm_point(t, m, n);
    } else if (over_point(t, m, n)) {
        m->marks = (uint8_t)(1 << axis);
        m->negative = difference[axis] < 0;
    }
}

static void slow_motion(struct peer *t, bool over)
{
    unsigned n = (t->reg[MOTION_COUNT] >> 2 & 3) + 1u;

    if (over)
        over_point(t, &t->slow, n);
    else
        calm_point(t, &t->slow, n);
}

static void no_motion(struct peer *t, bool over)
{
    struct peer_motion *m = &t->slow;

    if (over) {
        begin_wait(t);
        if (non_latched(t))
            m->status = false;
    } else if (m->wait == 0 && !m->status) {
        set_motion(t, m);
    }
}

static void slow_or_no_motion(struct peer *t, const int difference[PEER_AXES])
{
    int level = 4 * t->reg[SLOW_THRESHOLD];
    bool over = first_above(t->reg[ENABLE_SLOW], difference, level) < PEER_AXES;

    if (t->reg[ENABLE_SLOW] & NO_MOTION)
        no_motion(t, over);
    else
        slow_motion(t, over);
}

/* The first sample gives no point, nor does any while no axis is enabled. */
static void take_point(struct peer *t, const int sample[PEER_AXES])
{
    bool first = !t->has_previous;
    int difference[PEER_AXES];

    for (int axis = 0; axis < PEER_AXES; axis++) {
        difference[axis] = sample[axis] - t->previous[axis];
        t->previous[axis] = (int16_t)sample[axis];
    }
    t->has_previous = true;
    if (!first && t->reg[ENABLE_MOTION] & ENABLE_AXES)
        any_motion(t, difference);
    if (!first && t->reg[ENABLE_SLOW] & ENABLE_AXES)
        slow_or_no_motion(t, difference);
}

/* ---- low-g and high-g ---- */

/* The sign stays. */
static void clear_g(struct peer_g_detector *g)
{
    g->status = false;
    g->running = false;
    g->marks = 0;
    g->wait = 0;
    g->left = 0;
}

static void restart_g(struct peer *t)
{
    clear_g(&t->low);
    clear_g(&t->high);
}

/* A sample that is low, or high: it begins a run, or may set the status if it goes on with one that
   is long enough. Gives whether it sets it. */
static bool g_sample(const struct peer *t, struct peer_g_detector *g, uint8_t duration)
{
    if (!g->running) {
        g->running = true;
        g->wait = (duration + 1u) * 2000;
        return false;
    }
    if (g->wait > 0 || g->status)
        return false;
    g->status = true;
    g->left = hold_time[t->reg[LATCH]];
    return true;
}

/* A sample that is not: it ends a run, and the status if it is far enough from the threshold. */
static void g_pause(const struct peer *t, struct peer_g_detector *g, bool far_enough)
{
    g->running = false;
    g->wait = 0;
    if (far_enough && non_latched(t)) {
        g->status = false;
        g->marks = 0;
    }
}

static int largest(const int size[PEER_AXES])
{
    int of_two = size[0] > size[1] ? size[0] : size[1];

    return of_two > size[2] ? of_two : size[2];
}

/* Every axis is below a level where the largest is, and some axis at or above it where the largest
   is. */
static void low_g(struct peer *t, const int size[PEER_AXES])
{
    bool sum_mode = t->reg[G_MODE] & 0x04;
    int counts = sum_mode ? size[0] + size[1] + size[2] : largest(size);
    int counts_at_2_g = counts * range_factor[t->reg[RANGE]];
    int threshold = 8 * t->reg[LOW_THRESHOLD];
    int hysteresis = 128 * (t->reg[G_MODE] & 3);

    if (counts_at_2_g < threshold)
        g_sample(t, &t->low, t->reg[LOW_DURATION]);
    else
        g_pause(t, &t->low, counts_at_2_g >= threshold + hysteresis);
}

static void high_g(struct peer *t, const int sample[PEER_AXES], const int size[PEER_AXES])
{
    struct peer_g_detector *g = &t->high;
    int threshold = 8 * t->reg[HIGH_THRESHOLD];
    int hysteresis = 128 * (t->reg[G_MODE] >> 6);
    int level = threshold > hysteresis ? threshold - hysteresis : 0;
    int axis = first_above(t->reg[ENABLE_DATA], size, threshold);

    if (axis == PEER_AXES) {
        g_pause(t, g, first_above(t->reg[ENABLE_DATA], size, level) == PEER_AXES);
    } else if (g_sample(t, g, t->reg[HIGH_DURATION])) {
        g->marks = (uint8_t)(1 << axis);
        g->negative = sample[axis] < 0;
    }
}

static void low_and_high_g(struct peer *t, const int sample[PEER_AXES])
{
    const int size[PEER_AXES] = {abs(sample[0]), abs(sample[1]), abs(sample[2])};

    if (t->reg[ENABLE_DATA] & ENABLE_LOW)
        low_g(t, size);
    if (t->reg[ENABLE_DATA] & ENABLE_HIGH)
        high_g(t, sample, size);
}

/* ---- register write ---- */

/* Gives the number of the register where the byte has one of the bits that the twin lacks. */
static enum peer_answer refuse_bits(uint8_t byte, uint8_t lacking, enum peer_answer number)
{
    return byte & lacking ? number : PEER_DONE;
}

/* For what 0x18 and 0x27 would hold: no-motion and a code that has no meaning there. */
static enum peer_answer refuse_together(uint8_t enable, uint8_t count)
{
    return enable & NO_MOTION && delay_seconds(count) == 0 ? PEER_RESERVED_CODE : PEER_DONE;
}

/* The number with which a write is refused, or PEER_DONE. It looks at the byte before the mask. */
static enum peer_answer refuse_write(const struct peer *t, uint8_t address, uint8_t byte)
{
    switch (address) {
    case RANGE:
        return range_factor[byte & 0x0F] == 0 ? PEER_RESERVED_CODE : PEER_DONE;
    case FIFO_MODE:
        return (byte & MODE_BITS) == MODE_BITS ? PEER_RESERVED_CODE : PEER_DONE;
    case 0x11:
        return refuse_bits(byte, 0xE0, PEER_NO_POWER_MODE);
    case ENABLE_MOTION:
        return refuse_bits(byte, 0xF0, PEER_NO_DETECTOR);
    case ENABLE_SLOW:
        return refuse_together(byte, t->reg[MOTION_COUNT]);
    case MOTION_COUNT:
        return refuse_together(t->reg[ENABLE_SLOW], byte);
    case 0x32:
        return refuse_bits(byte, 0x03, PEER_NO_TEST_OR_TRIM);
    case 0x33:
        return refuse_bits(byte, 0x0B, PEER_NO_TEST_OR_TRIM);
    case 0x36:
        return refuse_bits(byte, 0xE7, PEER_NO_TEST_OR_TRIM);
    default:
        return PEER_DONE;
    }
}

static void restart_detectors(struct peer *t, uint8_t address)
{
    switch (address) {
    case RANGE:
    case LATCH:
        clear_motion(&t->motion);
        restart_slow(t);
        restart_g(t);
        break;
    case MOTION_COUNT:
        clear_motion(&t->motion);
        restart_slow(t);
        break;
    case ENABLE_MOTION:
    case MOTION_THRESHOLD:
        clear_motion(&t->motion);
        break;
    case ENABLE_SLOW:
    case SLOW_THRESHOLD:
        restart_slow(t);
        break;
    case ENABLE_DATA:
    case LOW_DURATION:
    case LOW_THRESHOLD:
    case G_MODE:
    case HIGH_DURATION:
    case HIGH_THRESHOLD:
        restart_g(t);
        break;
    }
}

/* What an accepted write does beside storing its byte. */
static void act_on_write(struct peer *t, uint8_t address, uint8_t byte)
{
    restart_detectors(t, address);
    switch (address) {
    case RANGE:
        t->has_previous = false;
        break;
    case SHADOW:
        if (byte & 0x40)
            memset(t->locked, 0, sizeof t->locked);
        break;
    case SOFT_RESET:
        if (byte == 0xB6)
            soft_reset(t);
        break;
    case FIFO_MODE:
        empty_fifo(&t->fifo);
        break;
    }
}

enum peer_answer peer_write(struct peer *t, uint8_t address, uint8_t byte)
{
    enum peer_answer refusal;
    uint8_t mask;

    if (address >= PEER_REGISTERS)
        return PEER_WRONG_ADDRESS;
    refusal = refuse_write(t, address, byte);
    if (refusal != PEER_DONE)
        return refusal;
    mask = row[address].mask;
    t->reg[address] = (uint8_t)((t->reg[address] & ~mask) | (byte & mask));
    act_on_write(t, address, byte);
    return PEER_DONE;
}

/* ---- burst read ---- */

static uint8_t read_lsb(struct peer *t, uint8_t address)
{
    unsigned axis = (address - X_LSB) / 2u;
    uint8_t byte = t->reg[address];

    t->reg[address] &= 0xFE;
    if (!(t->reg[SHADOW] & 0x40)) {
        t->lock[axis] = t->reg[address + 1];
        t->locked[axis] = true;
    }
    return byte;
}

static uint8_t read_msb(struct peer *t, uint8_t address)
{
    unsigned axis = (address - X_MSB) / 2u;
    uint8_t byte = t->locked[axis] ? t->lock[axis] : t->reg[address];

    t->locked[axis] = false;
    return byte;
}

static bool watermark_reached(const struct peer *t)
{
    unsigned level = t->reg[WATERMARK_LEVEL];

    return level >= 1 && level <= fifo_depth(t) && t->fifo.count >= level;
}

/* The byte of 0x09. */
static uint8_t status_motion(const struct peer *t)
{
    return (uint8_t)((t->slow.status ? SLOW : 0) | (t->motion.status ? MOTION : 0) |
                     (t->high.status ? HIGH : 0) | (t->low.status ? LOW : 0));
}

/* The byte of 0x0A. */
static uint8_t status_data(const struct peer *t)
{
    unsigned enabled = t->reg[ENABLE_DATA];
    unsigned status = 0;

    if (enabled & 0x10 && t->fresh_data)
        status |= DATA;
    if (enabled & 0x20 && t->fifo.count == fifo_depth(t))
        status |= FULL;
    if (enabled & 0x40 && watermark_reached(t))
        status |= WATERMARK;
    return (uint8_t)status;
}

static uint8_t read_register(struct peer *t, uint8_t address)
{
    switch (address) {
    case X_LSB:
    case Y_LSB:
    case Z_LSB:
        return read_lsb(t, address);
    case X_MSB:
    case Y_MSB:
    case Z_MSB:
        return read_msb(t, address);
    case STATUS_MOTION:
        return status_motion(t);
    case STATUS_DATA:
        return status_data(t);
    case STATUS_MARKS:
        return t->motion.marks | (t->motion.negative ? 0x08 : 0);
    case STATUS_HIGH:
        return t->high.marks | (t->high.negative ? 0x08 : 0);
    case STATUS_FIFO:
        return t->fifo.count | (t->fifo.overrun ? 0x80 : 0);
    default:
        return t->reg[address];
    }
}

enum peer_answer peer_read(struct peer *t, uint8_t address, uint8_t *buffer, size_t length)
{
    if (address >= PEER_REGISTERS)
        return PEER_WRONG_ADDRESS;
    if (length == 0 || length > PEER_LONGEST_READ)
        return PEER_WRONG_READ_LENGTH;
    if (address == FIFO_DATA) {
        read_fifo(t, buffer, length);
        return PEER_DONE;
    }
    if (address + length > FIFO_DATA)
        return PEER_READ_PASSES_3E;
    for (size_t i = 0; i < length; i++)
        buffer[i] = read_register(t, (uint8_t)(address + i));
    return PEER_DONE;
}

/* ---- sample, cycle start and clock ---- */

enum { LEAST_COUNT = -2048, LARGEST_COUNT = 2047 }; /* of 12 bits */

static bool outside_12_bits(int given)
{
    return given < LEAST_COUNT || given > LARGEST_COUNT;
}

/* What is stored of the given count of an axis: with its offset, held where it would pass 12 bits. */
static int stored_count(const struct peer *t, int axis, int given)
{
    uint8_t byte = t->reg[X_OFFSET + axis];
    int steps = byte < 0x80 ? byte : byte - 0x100;
    int count = given + steps * offset_step[t->reg[RANGE]];

    if (count < LEAST_COUNT)
        return LEAST_COUNT;
    return count > LARGEST_COUNT ? LARGEST_COUNT : count;
}

/* Channels, FIFO and detectors all see the stored sample; the given one alone can be refused. */
enum peer_answer peer_sample(struct peer *t, int x, int y, int z, uint8_t temperature)
{
    int sample[PEER_AXES] = {x, y, z};

    if (outside_12_bits(x) || outside_12_bits(y) || outside_12_bits(z))
        return PEER_OUTSIDE_12_BITS;
    for (int axis = 0; axis < PEER_AXES; axis++) {
        unsigned bits;

        sample[axis] = stored_count(t, axis, sample[axis]);
        bits = (unsigned)sample[axis];
        t->reg[X_LSB + 2 * axis] = (uint8_t)((bits & 0x0F) << 4 | 1);
        t->reg[X_MSB + 2 * axis] = (uint8_t)(bits >> 4);
    }
    t->reg[TEMPERATURE] = temperature;
    t->fresh_data = true;
    put_frame(t);
    take_point(t, sample);
    if (t->reg[ENABLE_DATA] & (ENABLE_LOW | ENABLE_HIGH))
        low_and_high_g(t, sample);
    return PEER_DONE;
}

enum peer_answer peer_cycle_start(struct peer *t)
{
    t->fresh_data = false;
    return PEER_DONE;
}

/* What is left of a time. */
static uint32_t less(uint32_t time, uint32_t microseconds)
{
    return microseconds < time ? time - microseconds : 0;
}

static void pass_time(struct peer_g_detector *g, uint32_t microseconds)
{
    bool temporary = g->left > 0;

    g->wait = less(g->wait, microseconds);
    g->left = less(g->left, microseconds);
    if (temporary && g->left == 0)
        clear_g(g);
}

/* After the end of a temporary status the waiting takes the rest of the clock. */
static void pass_slow_time(struct peer *t, uint32_t microseconds)
{
    struct peer_motion *m = &t->slow;

    if (microseconds < m->left) {
        m->left -= microseconds;
    } else if (m->left > 0) {
        microseconds -= m->left;
        restart_slow(t);
    }
    m->wait = less(m->wait, microseconds);
}

/* Where no temporary status is set, the runs of any-motion and all else stay. */
enum peer_answer peer_clock(struct peer *t, uint32_t microseconds)
{
    struct peer_motion *m = &t->motion;

    if (microseconds < m->left)
        m->left -= microseconds;
    else if (m->left > 0)
        clear_motion(m);
    if (t->reg[ENABLE_SLOW] & ENABLE_AXES)
        pass_slow_time(t, microseconds);
    if (t->reg[ENABLE_DATA] & (ENABLE_LOW | ENABLE_HIGH)) {
        pass_time(&t->low, microseconds);
        pass_time(&t->high, microseconds);
    }
    return PEER_DONE;
}

/* ---- pins ---- */

/* drive: bit 0 is the active level, bit 1 chooses open-drive. */
static enum peer_level pin_level(bool active, unsigned drive)
{
    if (!active && drive & 2)
        return PEER_RELEASED;
    return active == (drive & 1) ? PEER_HIGH : PEER_LOW;
}

struct peer_pins peer_pins(const struct peer *t)
{
    unsigned status = status_data(t), map = t->reg[MAP_DATA], drive = t->reg[PIN_DRIVE];
    unsigned detected = status_motion(t);
    bool data = status & DATA, watermark = status & WATERMARK, full = status & FULL;
    bool int1 = t->reg[MAP_INT1] & detected || (map & 0x01 && data) ||
                (map & 0x02 && watermark) || (map & 0x04 && full);
    bool int2 = t->reg[MAP_INT2] & detected || (map & 0x80 && data) ||
                (map & 0x40 && watermark) || (map & 0x20 && full);

    return (struct peer_pins){pin_level(int1, drive & 3), pin_level(int2, drive >> 2 & 3)};
}
