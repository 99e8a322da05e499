/* Makes bench logs, the same for the same arguments on every machine.

   logs SEED RECORDS    one log of at most RECORDS records, biased to the edges of the rules; about
                        one seed in four gives a damaged log, one in 12 a log without a readout,
                        one in 32 a very short one
   logs SEED RECORDS polls MARKS
   logs SEED RECORDS cuts MARKS
                        the same log with polls put in, which are reads below 0x3F, or with its
                        accepted reads cut, those at 0x3F at whole frames. The file MARKS has a line
                        for each of its records: same, which stands for the next one of the log;
                        data, the same of a read that begins below 0x08, whose bytes a poll before
                        it may change; poll, which was put in; piece, which begins or goes on with
                        the read that the next record goes on with; or rest: from there on the log
                        is as it was
   logs SEED RECORDS sheet
                        another log, for sheets: of few samples that lie close together, so that a
                        single one may be the smallest or the largest of its range and axis; about
                        one seed in four gives a damaged log, one in 16 no record
   logs --big MEGABYTES one long log without damage, with a mix as on a bench, for timing

   Random draws never share an expression with each other: C leaves their order open there. */
#include <inttypes.h>
#include <stdbool.h>
#include <stdint.h>
#include <stdio.h>
#include <stdlib.h>
#include <string.h>

enum { X, Y, Z, AXES };

enum damage {
    NO_DAMAGE,
    VERSION,
    EMPTY,
    CUT,
    WRONG_LENGTH,
    UNKNOWN_KIND,
    UNFIT_KIND,
    GARBAGE,
    ONLY_GARBAGE,
    DAMAGES
};

enum form { PLAIN, POLLED, CUT_UP };

/* What becomes of a log's records besides; its own draws stay the same. */
struct form_of {
    enum form form;
    FILE *marks;
    uint64_t state; /* of the draws for polls and cuts */
    int frame;      /* bytes of a frame, by the records so far */
};

struct log {
    uint64_t state;     /* of the generator */
    uint64_t left;      /* records that may still be written */
    uint64_t undamaged; /* records before the damage */
    enum damage damage;
    bool no_readouts;   /* 0x02 to 0x07 are read instead */
    bool ended;         /* nothing more is written */
    uint64_t bytes;     /* written so far */
    int steps[AXES];    /* the signed bytes of 0x38 to 0x3A, by the records so far */
    int step;           /* the counts of one of them at the range, by the records so far */
    struct form_of other;
};

/* ---- draws ---- */

static uint64_t draw(struct log *l) /* splitmix64 */
{
    uint64_t z = l->state += UINT64_C(0x9E3779B97F4A7C15);

    z = (z ^ z >> 30) * UINT64_C(0xBF58476D1CE4E5B9);
    z = (z ^ z >> 27) * UINT64_C(0x94D049BB133111EB);
    return z ^ z >> 31;
}

static int below(struct log *l, int limit)
{
    return (int)(draw(l) % (uint64_t)limit);
}

static bool one_in(struct log *l, int n)
{
    return below(l, n) == 0;
}

static int pick(struct log *l, const int *from, size_t size)
{
    return from[draw(l) % (size / sizeof *from)];
}

#define PICK(l, ...) pick(l, (const int[]){__VA_ARGS__}, sizeof(const int[]){__VA_ARGS__})

/* ---- records ---- */

static void put_byte(struct log *l, int byte)
{
    if (l->ended)
        return;
    putchar(byte & 0xFF);
    l->bytes++;
}

static void put_length(struct log *l, int length)
{
    put_byte(l, length >> 8);
    put_byte(l, length);
}

static void put_garbage(struct log *l, int length)
{
    while (length-- > 0) {
        int byte = below(l, 256);

        put_byte(l, byte);
    }
}

static void put_sound(struct log *l, const uint8_t *body, int length)
{
    put_length(l, length);
    for (int i = 0; i < length; i++)
        put_byte(l, body[i]);
}

/* Writes the first bytes of a record and ends the log; at 0 it ends at a record boundary. */
static void put_cut(struct log *l, int length, int kind)
{
    int written = below(l, 2 + length);

    for (int i = 0; i < written; i++)
        put_byte(l, i == 0 ? length >> 8 : i == 1 ? length : i == 2 ? kind : i);
    l->ended = true;
}

static void put_wrong_length(struct log *l)
{
    int length = PICK(l, 0, 0, 9, 9, 9, 65535, 65535, 10, 255, 256, 259, 264, 0x0300, 0x0800);

    put_length(l, length);
    length = below(l, 12);
    put_garbage(l, length);
    l->ended = !one_in(l, 4);
}

static void put_unknown_kind(struct log *l)
{
    int kind = PICK(l, 0, 6, 6, 7, 128, 129, 130, 131, 132, 133, 255);
    int length = PICK(l, 1, 3, 8, 2, 4, 5, 6, 7);

    if (one_in(l, 4)) {
        put_cut(l, length, kind);
        return;
    }
    put_length(l, length);
    put_byte(l, kind);
    put_garbage(l, length - 1);
}

static void put_unfit_kind(struct log *l)
{
    static const int fit[] = {0, 3, 3, 8, 1, 5};
    int kind = PICK(l, 1, 2, 3, 4, 5, 5);
    int length = PICK(l, 1, 1, 3, 3, 8, 8, 2, 4, 5, 6, 7);

    if (one_in(l, 2))
        length = one_in(l, 2) ? fit[kind] - 1 : fit[kind] + 1; /* 0 and 9 fit no kind at all */
    if (length == fit[kind])
        length = length % 8 + 1;
    put_length(l, length);
    put_byte(l, kind);
    put_garbage(l, length - 1);
}

static void put_damaged(struct log *l, const uint8_t *body, int length)
{
    switch (l->damage) {
    case CUT:
        put_cut(l, length, body[0]);
        break;
    case WRONG_LENGTH:
        put_wrong_length(l);
        break;
    case UNKNOWN_KIND:
        put_unknown_kind(l);
        break;
    case UNFIT_KIND:
        put_unfit_kind(l);
        break;
    case GARBAGE:
        length = below(l, 100);
        put_garbage(l, length);
        l->ended = true;
        break;
    default:
        put_sound(l, body, length);
        break;
    }
}

/* ---- the same log with polls, or with its reads cut ---- */

static void mark(struct log *l, const char *word)
{
    if (l->other.form != PLAIN)
        fprintf(l->other.marks, "%s\n", word);
}

/* From here on the log is as it was. */
static void end_form(struct log *l)
{
    mark(l, "rest");
    l->other.form = PLAIN;
}

static void put_read_as(struct log *l, const char *word, int address, int count)
{
    mark(l, word);
    put_sound(l, (uint8_t[]){2, (uint8_t)address, (uint8_t)count}, 3);
}

/* Reads below 0x3F: data, statuses or anything, of one byte, of some or of a refused number. */
static void put_polls(struct log *l, struct log *draws)
{
    while (one_in(draws, 3)) {
        int address = PICK(draws, 0x02, 0x03, 0x04, 0x05, 0x06, 0x07, 0x09, 0x0A, 0x0B, 0x0C, 0x0E);
        int anywhere = below(draws, 0x3F);
        int count = one_in(draws, 2) ? 1 : PICK(draws, 0, 2, 3, 6, 13, 62, 63, 192, 193, 255);

        if (one_in(draws, 4))
            address = anywhere;
        put_read_as(l, "poll", address, count);
    }
}

/* An accepted read in pieces, most of the time: at 0x3F of whole frames, and what is left last. */
static void put_pieces(struct log *l, struct log *draws, int address, int count)
{
    int step = address == 0x3F ? l->other.frame : 1;

    while (count > step && !one_in(draws, 3)) {
        int piece = step * (1 + below(draws, (count - 1) / step));

        put_read_as(l, "piece", address, piece);
        address = address == 0x3F ? 0x3F : address + piece;
        count -= piece;
    }
    put_read_as(l, "same", address, count);
}

static bool is_accepted_read(const uint8_t *body)
{
    int end = body[1] == 0x3F ? 0x3F : body[1] + body[2];

    return body[0] == 2 && body[2] >= 1 && body[2] <= 192 && body[1] <= 0x3F && end <= 0x3F;
}

/* What an accepted write says of the frames that come. */
static void note_frame(struct log *l, const uint8_t *body)
{
    if (body[0] == 1 && body[1] == 0x3E && body[2] >> 6 != 3)
        l->other.frame = (body[2] & 3) == 0 ? 6 : 2;
    if (body[0] == 1 && body[1] == 0x14 && body[2] == 0xB6)
        l->other.frame = 6;
}

static void put_formed(struct log *l, const uint8_t *body, int length)
{
    struct log draws = {.state = l->other.state};

    if (l->other.form == POLLED)
        put_polls(l, &draws);
    if (l->other.form == CUT_UP && is_accepted_read(body)) {
        put_pieces(l, &draws, body[1], body[2]);
    } else {
        mark(l, body[0] == 2 && body[1] < 0x08 && l->other.form == POLLED ? "data" : "same");
        put_sound(l, body, length);
    }
    note_frame(l, body);
    l->other.state = draws.state;
}

static int signed_byte(int byte)
{
    return byte < 0x80 ? byte : byte - 0x100;
}

/* What an accepted write says of the offsets of the samples that come. */
static void note_offsets(struct log *l, const uint8_t *body)
{
    static const int step[] = {[0x3] = 8, [0x5] = 4, [0x8] = 2, [0xC] = 1, [0xF] = 0};

    if (body[0] != 1)
        return;
    if (body[1] == 0x0F && step[body[2] & 0x0F] > 0)
        l->step = step[body[2] & 0x0F];
    if (body[1] >= 0x38 && body[1] <= 0x3A)
        l->steps[body[1] - 0x38] = signed_byte(body[2]);
    if (body[1] == 0x14 && body[2] == 0xB6) {
        l->step = 8;
        memset(l->steps, 0, sizeof l->steps);
    }
}

static void put_record(struct log *l, const uint8_t *body, int length)
{
    if (l->left == 0)
        return;
    l->left--;
    note_offsets(l, body);
    if (l->undamaged-- == 0) {
        end_form(l);
        put_damaged(l, body, length);
    } else if (l->other.form != PLAIN) {
        put_formed(l, body, length);
    } else {
        put_sound(l, body, length);
    }
}

static void put_write(struct log *l, int address, int byte)
{
    put_record(l, (uint8_t[]){1, (uint8_t)address, (uint8_t)byte}, 3);
}

/* A readout that would be refused is none, and stays. */
static void put_read(struct log *l, int address, int count)
{
    if (l->no_readouts && address == 0x3F && count >= 1 && count <= 192) {
        address = 0x02;
        count = 6;
    }
    put_record(l, (uint8_t[]){2, (uint8_t)address, (uint8_t)count}, 3);
}

static void put_sample(struct log *l, const int sample[AXES])
{
    uint8_t body[8] = {3};

    for (int axis = X; axis < AXES; axis++) {
        unsigned bits = (unsigned)sample[axis];

        body[1 + 2 * axis] = (uint8_t)(bits >> 8);
        body[2 + 2 * axis] = (uint8_t)bits;
    }
    body[7] = (uint8_t)below(l, 256);
    put_record(l, body, 8);
}

static void put_cycle_start(struct log *l)
{
    put_record(l, (uint8_t[]){4}, 1);
}

static void put_clock(struct log *l, uint32_t microseconds)
{
    uint8_t body[5] = {5};

    for (int i = 0; i < 4; i++)
        body[1 + i] = (uint8_t)(microseconds >> (24 - 8 * i));
    put_record(l, body, 5);
}

/* ---- pieces of scenes ---- */

static void put_any_sample(struct log *l)
{
    int sample[AXES];

    for (int axis = X; axis < AXES; axis++)
        sample[axis] = below(l, 4096) - 2048;
    put_sample(l, sample);
}

static void put_corner_sample(struct log *l)
{
    int sample[AXES];

    for (int axis = X; axis < AXES; axis++)
        sample[axis] =
            PICK(l, -2048, 2047, -2048, 2047, -2047, 2046, 0, -1, 1, 15, 16, -15, -16, -17);
    put_sample(l, sample);
}

/* One axis, or more, outside the 12 bits, mostly by one. */
static void put_outside_sample(struct log *l)
{
    int sample[AXES] = {0, 100, -100};
    int axis = below(l, AXES);

    sample[axis] = PICK(l, -2049, 2048, -2049, 2048, 4095, -4096, 32767, -32768);
    axis = below(l, AXES);
    sample[axis] = PICK(l, 2047, -2048, -2049, 2048);
    put_sample(l, sample);
}

static int within_12_bits(int count)
{
    return count < -2048 ? -2048 : count > 2047 ? 2047 : count;
}

static int offset(const struct log *l, int axis)
{
    return l->steps[axis] * l->step;
}

static int stored(const struct log *l, int axis, int given)
{
    return within_12_bits(given + offset(l, axis));
}

/* Puts the sample of which this one is stored, or the nearest that there is, and gives what is stored
   of it. What is to be stored at an end of the 12 bits is held there, one in two. */
static void put_stored(struct log *l, int sample[AXES])
{
    int given[AXES];

    for (int axis = X; axis < AXES; axis++) {
        bool end = sample[axis] == -2048 || sample[axis] == 2047;

        given[axis] = within_12_bits(sample[axis] - offset(l, axis));
        if (end && one_in(l, 2) && stored(l, axis, sample[axis]) == sample[axis])
            given[axis] = sample[axis];
        sample[axis] = stored(l, axis, given[axis]);
    }
    put_sample(l, given);
}

static int any_offset(struct log *l)
{
    int any = below(l, 256);

    return one_in(l, 3) ? any : PICK(l, 0x00, 0x01, 0x02, 0x7E, 0x7F, 0x80, 0x81, 0xFE, 0xFF);
}

static void put_any_offset(struct log *l)
{
    int axis = below(l, AXES);
    int byte = any_offset(l);

    put_write(l, 0x38 + axis, byte);
}

/* For the samples of a scene: none, others or those that there are. */
static void set_offsets(struct log *l)
{
    int choice = below(l, 4);

    for (int axis = X; axis < AXES; axis++) {
        int byte = any_offset(l);

        if (choice == 0)
            put_write(l, 0x38 + axis, byte);
        else if (choice < 3 && l->steps[axis] != 0)
            put_write(l, 0x38 + axis, 0x00);
    }
}

static int any_length(struct log *l)
{
    if (one_in(l, 3))
        return below(l, 256);
    return PICK(l, 0, 1, 2, 5, 6, 7, 12, 13, 62, 63, 64, 191, 192, 193, 255);
}

/* Reads the registers, whole or the part that shows the statuses. */
static void look(struct log *l)
{
    if (one_in(l, 4))
        put_read(l, 0x00, 63);
    else if (one_in(l, 3))
        put_read(l, 0x02, 13);
    else
        put_read(l, 0x09, 6);
}

static uint32_t any_clock(struct log *l)
{
    uint32_t bits = (uint32_t)draw(l);
    int shift = below(l, 32);

    return bits >> shift; /* short and long ones alike */
}

/* A byte for 0x17: any of the statuses of 0x0A, and now and then low-g and high-g. */
static int any_enable(struct log *l)
{
    int statuses = below(l, 8) << 4;
    int detectors = below(l, 16);

    return statuses | (one_in(l, 3) ? detectors : 0);
}

static int any_fifo_mode(struct log *l)
{
    int mode = below(l, 3);
    int axes = below(l, 4);
    int ignored = one_in(l, 4) ? 0x3C : 0;

    return mode << 6 | axes | ignored;
}

/* ---- scenes ---- */

static void set_watermark(struct log *l)
{
    int level = PICK(l, 0, 1, 2, 3, 31, 32, 33, 63, 64, 0xC2);
    int enable = any_enable(l);

    put_write(l, 0x30, level);
    put_write(l, 0x17, enable);
}

static void disturb_fifo(struct log *l, int mode)
{
    uint32_t microseconds = any_clock(l);

    switch (below(l, 7)) {
    case 0:
        put_write(l, 0x3E, 0xC0 | mode); /* refused, and must empty nothing */
        break;
    case 1:
        put_write(l, 0x3E, mode); /* the same byte empties it all the same */
        break;
    case 2:
        put_outside_sample(l);
        break;
    case 3:
        put_write(l, 0x30, mode); /* empties nothing */
        break;
    case 4:
        put_clock(l, microseconds);
        break;
    default:
        put_any_sample(l);
        break;
    }
}

static void fifo_scene(struct log *l)
{
    int mode = any_fifo_mode(l);
    int fill = PICK(l, 0, 1, 2, 3, 4, 7, 30, 31, 32, 33, 34, 40);
    int readouts = 1 + below(l, 4);

    put_write(l, 0x3E, mode);
    if (one_in(l, 2))
        set_watermark(l);
    while (fill-- > 0) {
        put_any_sample(l);
        if (one_in(l, 8))
            put_read(l, 0x0A, 5);
    }
    while (readouts-- > 0) {
        int length = any_length(l);

        put_read(l, 0x0A, 5);
        put_read(l, 0x3F, length);
        put_read(l, 0x0E, 1);
        if (one_in(l, 3))
            disturb_fifo(l, mode);
    }
}

static void lock_scene(struct log *l)
{
    int events = 6 + below(l, 14);

    while (events-- > 0) {
        int axis = below(l, AXES);
        int choice = below(l, 12);
        int length = 1 + below(l, 7);
        int shadow = PICK(l, 0x00, 0x00, 0x40, 0x80, 0xC0, 0x3F, 0x7F);

        if (choice < 4)
            put_read(l, 0x02 + 2 * axis, 1);
        else if (choice < 7)
            put_read(l, 0x03 + 2 * axis, 1);
        else if (choice < 8)
            put_read(l, 0x02 + axis, length);
        else if (choice < 9)
            put_write(l, 0x13, shadow);
        else
            put_any_sample(l);
    }
}

static void burst_scene(struct log *l)
{
    int reads = 2 + below(l, 6);

    while (reads-- > 0) {
        int address = PICK(l, 0x00, 0x01, 0x02, 0x03, 0x3D, 0x3E, 0x3F, 0x40, 0x41, 0x80, 0xFF);
        int length = any_length(l);

        if (one_in(l, 2))
            address = below(l, 0x42);
        if (one_in(l, 3))
            length = 0x3F - address + below(l, 3) - 1; /* one short, to 0x3E, one past */
        put_read(l, address, length);
        if (one_in(l, 4))
            put_any_sample(l);
    }
}

static void corner_scene(struct log *l)
{
    int mode = any_fifo_mode(l);
    int samples = 2 + below(l, 6);

    put_write(l, 0x3E, mode);
    while (samples-- > 0) {
        if (one_in(l, 3))
            put_outside_sample(l);
        else
            put_corner_sample(l);
        if (one_in(l, 2))
            put_read(l, 0x02, 13);
        if (one_in(l, 2))
            put_read(l, 0x3F, 6);
    }
}

static void write_scene(struct log *l)
{
    int writes = 3 + below(l, 8);

    while (writes-- > 0) {
        int address = PICK(l, 0x0F, 0x11, 0x16, 0x17, 0x18, 0x21, 0x27, 0x29, 0x32, 0x33, 0x36,
                           0x38, 0x39, 0x3A, 0x3E, 0x0F, 0x21, 0x0E, 0x3F, 0x40, 0xFF);
        int byte = below(l, 256);

        if (one_in(l, 3))
            address = below(l, 0x42);
        if (one_in(l, 3))
            byte = 1 << below(l, 8);
        else if (one_in(l, 3))
            byte = PICK(l, 0x00, 0xFF, 0x03, 0x05, 0x08, 0x0C, 0x07, 0x0F, 0x80, 0x87);
        put_write(l, address, byte);
        if (one_in(l, 2))
            put_read(l, address, 1);
    }
    look(l);
}

/* One of these bits, or 0 where there is none. */
static int bit_among(struct log *l, int bits)
{
    int bit = 1 << below(l, 8);

    while (bits != 0 && !(bits & bit))
        bit = 1 << below(l, 8);
    return bits & bit;
}

/* A byte at the edge between the bits that a register refuses and its others: one bit of either
   side, two that are refused, one of each, or some of the others with or without a refused one. */
static int byte_at_edge(struct log *l, int refused)
{
    int others = ~refused & 0xFF;
    int bit = bit_among(l, refused);
    int another = bit_among(l, refused & ~bit);
    int other = bit_among(l, others);
    int some_others = below(l, 256) & others;

    switch (below(l, 7)) {
    case 0:
    case 1:
        return bit;
    case 2:
        return bit | another;
    case 3:
        return bit | other;
    case 4:
        return bit | some_others;
    case 5:
        return other;
    default:
        return some_others;
    }
}

/* Settings that the twin lacks, and their neighbours, with 0x17, 0x18 and 0x38 to 0x3A, of which it
   lacks none any more. A byte that was stored shows in the reads. */
static void lack_scene(struct log *l)
{
    static const struct {
        int address, refused;
    } row[] = {{0x11, 0xE0}, {0x16, 0xF0}, {0x17, 0x00}, {0x18, 0x00}, {0x32, 0x03},
               {0x33, 0x0B}, {0x36, 0xE7}, {0x38, 0x00}, {0x39, 0x00}, {0x3A, 0x00}};
    int turns = 3 + below(l, 6);

    while (turns-- > 0) {
        int chosen = below(l, sizeof row / sizeof *row);
        int address = row[chosen].address;
        int writes = 1 + below(l, 3);

        while (writes-- > 0) {
            int byte = byte_at_edge(l, row[chosen].refused);

            put_write(l, address, byte);
            if (!one_in(l, 4))
                put_read(l, address, 1);
        }
    }
    look(l);
}

/* Writes any bytes to neighbouring addresses, then reads the whole map. */
static void sweep_scene(struct log *l)
{
    int address = below(l, 0x40);
    int writes = 4 + below(l, 16);

    while (writes-- > 0) {
        int byte = one_in(l, 4) ? 0xFF : below(l, 256);

        put_write(l, address++, byte);
    }
    put_read(l, 0x00, 63);
}

/* Ranges, set and refused, with samples, readouts and resets between them. */
static void range_scene(struct log *l)
{
    int mode = any_fifo_mode(l);
    int turns = 2 + below(l, 5);

    put_write(l, 0x3E, mode);
    while (turns-- > 0) {
        int byte = one_in(l, 2) ? PICK(l, 0x03, 0x05, 0x08, 0x0C, 0xF5) : below(l, 256);
        int fill = PICK(l, 0, 0, 1, 2, 5, 31, 32, 33, 36);
        int length = any_length(l);

        put_write(l, 0x0F, byte);
        if (one_in(l, 4))
            put_write(l, 0x0F, byte); /* the same once more, set or refused */
        while (fill-- > 0)
            put_any_sample(l);
        if (one_in(l, 3))
            disturb_fifo(l, mode);
        if (one_in(l, 8))
            put_write(l, 0x14, 0xB6);
        if (!one_in(l, 3))
            put_read(l, 0x3F, length);
    }
}

/* Another mode or the same, a refused one or two, or a soft reset; gives the byte in 0x3E then. */
static int turn_mode(struct log *l, int mode)
{
    int other = any_fifo_mode(l);
    int refused = 0xC0 | below(l, 64);
    int axes = below(l, 64);

    switch (below(l, 8)) {
    case 0:
        put_write(l, 0x3E, refused);
        put_write(l, 0x3E, refused ^ axes);
        return mode;
    case 1:
    case 2:
        put_write(l, 0x3E, refused);
        return mode;
    case 3:
        put_write(l, 0x3E, mode);
        return mode;
    case 4:
        put_write(l, 0x3E, (mode & 0xC0) | axes);
        return (mode & 0xC0) | axes;
    case 5:
        put_write(l, 0x14, 0xB6);
        return 0x00;
    case 6:
        put_write(l, 0x3E, other);
        return other;
    default:
        return mode;
    }
}

static void put_any_samples(struct log *l, int count)
{
    while (count-- > 0)
        put_any_sample(l);
}

/* FIFO modes, set and refused. Before each the FIFO is filled, mostly read in part and filled again,
   so that samples are lost with frames that were held before the readout, and with none. */
static void mode_scene(struct log *l)
{
    int mode = any_fifo_mode(l);
    int turns = 3 + below(l, 5);

    put_write(l, 0x3E, mode);
    while (turns-- > 0) {
        bool bypass = mode >> 6 == 0;
        int fill = bypass ? below(l, 4) : PICK(l, 0, 1, 2, 31, 32, 33, 35);
        int frames = bypass ? 1 : PICK(l, 1, 1, 2, 3, 31, 32);
        int size = mode & 3 ? 2 : 6;
        int unread = below(l, size);
        int more = below(l, 5);

        put_any_samples(l, fill);
        if (!one_in(l, 4))
            put_read(l, 0x3F, frames * size - unread);
        put_any_samples(l, more);
        mode = turn_mode(l, mode);
    }
}

static void reset_scene(struct log *l)
{
    int kept = below(l, 256);
    int command = PICK(l, 0xB6, 0xB6, 0xB6, 0x00, 0xB7, 0x36, 0xFF);

    put_write(l, 0x3B, kept);
    put_write(l, 0x3C, kept ^ 0x5A);
    put_any_sample(l);
    if (one_in(l, 2))
        put_read(l, 0x04, 1); /* leaves a lock behind */
    put_write(l, 0x14, command);
    look(l);
    if (one_in(l, 2))
        put_any_sample(l);
    look(l);
}

/* ---- watermark scene ---- */

struct waiting {
    int mode;  /* the byte of 0x3E */
    int level; /* the byte of 0x30 */
    int held;  /* frames */
};

static int depth(int mode)
{
    return mode >> 6 == 0 ? 1 : 32; /* BYPASS holds one */
}

static int least(int a, int b)
{
    return a < b ? a : b;
}

/* The count itself or a neighbour, now and then a level where the rule changes. */
static int level_near(struct log *l, int count)
{
    int step = below(l, 3) - 1;
    int edge = PICK(l, 0, 1, 2, 31, 32, 33, 63);
    int ignored = one_in(l, 8) ? 0xC0 : 0;

    return (one_in(l, 4) ? edge : (count + step) & 0x3F) | ignored;
}

/* A count below, at or above the level; for a level above the depth, around the depth. */
static int count_near_level(struct log *l, const struct waiting *w)
{
    int step = below(l, 3) - 1;
    int count = least(w->level & 0x3F, depth(w->mode)) + step;

    return count > 0 ? count : 0;
}

static void change_mode(struct log *l, struct waiting *w)
{
    w->mode = any_fifo_mode(l);
    w->held = 0;
    put_write(l, 0x3E, w->mode);
}

static void change_level(struct log *l, struct waiting *w, int count)
{
    w->level = level_near(l, count);
    put_write(l, 0x30, w->level);
}

/* At least one sample, with a look at the status after each of the last three. */
static void fill_to_level(struct log *l, struct waiting *w)
{
    int samples = count_near_level(l, w) - w->held;

    if (samples < 1)
        samples = 1;
    while (samples-- > 0) {
        put_any_sample(l);
        w->held = least(w->held + 1, depth(w->mode));
        if (samples < 3 || one_in(l, 8))
            put_read(l, 0x0A, 1);
    }
}

/* At least one frame, in one readout or more, each of which may break off in its last frame. */
static void drain_to_level(struct log *l, struct waiting *w)
{
    int size = w->mode & 3 ? 2 : 6;
    int frames = w->held - count_near_level(l, w);

    if (frames < 1)
        frames = 1;
    while (frames > 0) {
        int taken = one_in(l, 2) ? frames : 1 + below(l, frames);
        int unread = one_in(l, 2) ? below(l, size) : 0;

        put_read(l, 0x3F, taken * size - unread);
        put_read(l, 0x0A, 5);
        frames -= taken;
        w->held -= least(taken, w->held);
    }
}

static void disturb_watermark(struct log *l, const struct waiting *w)
{
    int others = below(l, 4) << 4;
    int detectors = below(l, 16);

    switch (below(l, 5)) {
    case 0:
        put_write(l, 0x17, others);
        put_read(l, 0x0A, 1);
        put_write(l, 0x17, 0x40 | others);
        break;
    case 1:
        put_write(l, 0x17, 0x40 | others | detectors); /* which leave bit 6 on */
        break;
    case 2:
        put_write(l, 0x3E, 0xC0 | w->mode); /* refused, and must empty nothing */
        break;
    case 3:
        put_outside_sample(l);
        break;
    case 4:
        put_cycle_start(l);
        break;
    }
}

static void watermark_scene(struct log *l)
{
    struct waiting w;
    int others = below(l, 4) << 4;
    int aim = PICK(l, 1, 2, 3, 5, 31, 32);
    int pins = PICK(l, 0x02, 0x40, 0x42);
    int turns = 5 + below(l, 6);

    change_mode(l, &w);
    change_level(l, &w, least(aim, depth(w.mode)));
    put_write(l, 0x17, 0x40 | others);
    if (one_in(l, 2))
        put_write(l, 0x1A, pins);
    while (turns-- > 0) {
        int choice = below(l, 10);

        if (choice < 4)
            fill_to_level(l, &w);
        else if (choice < 6)
            drain_to_level(l, &w);
        else if (choice < 8)
            change_level(l, &w, w.held);
        else if (choice < 9)
            change_mode(l, &w);
        else
            disturb_watermark(l, &w);
        put_read(l, 0x0A, 1);
    }
}

/* ---- any-motion scene ---- */

struct setup {
    int enable, threshold, count, latch;
    int at[AXES]; /* the stored sample before */
};

/* The microseconds for which a byte in 0x21 holds a status; 0 for the codes without a time. */
static uint32_t hold_time(int latch)
{
    static const uint32_t time[] = {0, 250000, 500000, 1000000, 2000000, 4000000, 8000000, 0,
                                    0, 250,    500,    1000,    12500,   25000,   50000,   0};

    return time[latch & 0x0F];
}

/* A code for 0x21 with what may stand beside it: bit 7, a command, and bits that are ignored. */
static int latch_byte(struct log *l, int code)
{
    return PICK(l, 0x00, 0x00, 0x80, 0x70, 0xF0) | code;
}

static int any_latch(struct log *l)
{
    int code = one_in(l, 2) ? PICK(l, 0x0, 0x0, 0x8, 0x7, 0xF) : below(l, 16);

    return latch_byte(l, code);
}

/* A count just below, at or just above a time, or now and then far from it. For the time 0 just
   below is the largest count. */
static uint32_t clock_near(struct log *l, uint32_t time)
{
    uint32_t step = (uint32_t)below(l, 3);
    uint32_t far = any_clock(l);
    int bit = 8 + below(l, 24);

    switch (below(l, 12)) {
    case 0:
        return 0;
    case 1:
        return UINT32_MAX;
    case 2:
        return far;
    case 3:
        return (time - 1) | UINT32_C(1) << bit; /* its lower bytes alone would be below */
    default:
        return time + step - 1;
    }
}

static void set_motion(struct log *l, struct setup *s, int latch)
{
    int n = below(l, 4);
    int others = one_in(l, 3) ? below(l, 64) << 2 : 0; /* of slow motion, with which any goes */
    int slow = one_in(l, 3) ? below(l, 8) : 0;

    set_offsets(l);
    put_write(l, 0x18, slow);
    s->enable = one_in(l, 12) ? 0 : 1 + below(l, 7);
    s->threshold = PICK(l, 0, 1, 2, 5, 20, 100, 254, 255);
    s->count = others | n;
    s->latch = latch;
    put_write(l, 0x27, s->count);
    put_write(l, 0x28, s->threshold);
    put_write(l, 0x21, s->latch);
    put_write(l, 0x16, s->enable);
    for (int axis = X; axis < AXES; axis++)
        s->at[axis] = PICK(l, 0, 5, -3, 2047, -2048, 900);
}

/* Moves one axis by a step at, just above or just below 4 times the threshold. */
static void move(struct log *l, struct setup *s, int axis, bool over)
{
    int size = 4 * s->threshold + (over ? 1 : 0);
    int next;

    if (one_in(l, 4))
        size = over ? size + below(l, 60) : below(l, size + 1);
    else if (!over && size > 0 && one_in(l, 2))
        size--;
    next = one_in(l, 2) ? s->at[axis] + size : s->at[axis] - size;
    if (next > stored(l, axis, 2047))
        next = s->at[axis] - size;
    if (next < stored(l, axis, -2048))
        next = s->at[axis] + size;
    s->at[axis] = within_12_bits(next);
}

/* Puts one point: over on at least one enabled axis, or calm. Other axes move as they like. Gives
   whether it is over: an offset may leave no sample that isn't. */
static bool put_point(struct log *l, struct setup *s, bool over)
{
    int chosen = below(l, AXES);
    int before[AXES] = {s->at[X], s->at[Y], s->at[Z]};

    while ((s->enable & 7) != 0 && !(s->enable >> chosen & 1))
        chosen = (chosen + 1) % AXES;
    for (int axis = X; axis < AXES; axis++) {
        bool enabled = s->enable >> axis & 1;
        bool chance = one_in(l, 2);

        move(l, s, axis, over ? axis == chosen || chance : !enabled && chance);
    }
    put_stored(l, s->at);
    for (int axis = X; axis < AXES; axis++)
        if (s->enable >> axis & 1 && abs(s->at[axis] - before[axis]) > 4 * s->threshold)
            return true;
    return false;
}

static void disturb_motion(struct log *l, struct setup *s)
{
    int range = PICK(l, 0x03, 0x05, 0x08, 0x0C, 0x04, 0xF5);
    int detector = PICK(l, 0x10, 0x20, 0x40, 0x80);
    int latch = any_latch(l);

    switch (below(l, 11)) {
    case 0:
        put_write(l, 0x16, s->enable);
        break;
    case 1:
        put_write(l, 0x27, s->count);
        break;
    case 2:
        put_write(l, 0x28, s->threshold);
        break;
    case 3:
        put_write(l, 0x21, s->latch);
        break;
    case 4:
        s->latch = latch;
        put_write(l, 0x21, s->latch);
        break;
    case 5:
        put_write(l, 0x0F, range);
        break;
    case 6:
        put_write(l, 0x16, detector | s->enable); /* refused, and must clear nothing */
        break;
    case 7:
        put_outside_sample(l);
        break;
    case 8:
        put_cycle_start(l);
        break;
    default:
        put_any_offset(l);
        break;
    }
}

static void motion_scene(struct log *l)
{
    struct setup s;
    int latch = any_latch(l);
    int points = 8 + below(l, 24), run = 0;
    bool over = false;

    set_motion(l, &s, latch);
    put_stored(l, s.at);
    while (points-- > 0) {
        if (run-- == 0) {
            over = !over;
            run = below(l, 5);
        }
        put_point(l, &s, over);
        put_read(l, 0x09, 3);
        if (one_in(l, 8)) {
            uint32_t microseconds = clock_near(l, hold_time(s.latch));

            put_clock(l, microseconds);
            put_read(l, 0x09, 3);
        }
        if (one_in(l, 12)) {
            disturb_motion(l, &s);
            put_read(l, 0x09, 3);
        }
    }
}

/* ---- latch time scene ---- */

/* What is known of a status that is held for a time, to aim at the end of it. With no axis enabled
   the status is never set, and the aim is at nothing. */
struct holding {
    struct setup setup;
    int needed;    /* over points in a row that set it */
    int run;       /* over points in a row */
    uint32_t left; /* microseconds until it clears; 0 while it is not set */
};

static void see_restart(struct holding *h)
{
    h->run = 0;
    h->left = 0;
}

static void begin_holding(struct log *l, struct holding *h)
{
    int range = PICK(l, 0x03, 0x05, 0x08, 0x0C);
    int code = one_in(l, 2) ? 0x1 + below(l, 6) : 0x9 + below(l, 6);
    int latch = latch_byte(l, code);

    put_write(l, 0x0F, range); /* forgets the sample before: the first one gives no point */
    set_motion(l, &h->setup, latch);
    h->needed = (h->setup.count & 3) + 1;
    put_stored(l, h->setup.at);
    see_restart(h);
}

static void put_points(struct log *l, struct holding *h, int points, bool over)
{
    while (points-- > 0) {
        h->run = put_point(l, &h->setup, over) ? h->run + 1 : 0;
        if (h->left == 0 && h->run >= h->needed)
            h->left = hold_time(h->setup.latch);
    }
    put_read(l, 0x09, 3);
}

static void pass_time(struct log *l, struct holding *h, uint32_t microseconds)
{
    put_clock(l, microseconds);
    if (microseconds < h->left)
        h->left -= microseconds;
    else if (h->left > 0)
        see_restart(h);
    if (!one_in(l, 4))
        put_read(l, 0x09, 3);
}

/* What must neither clear the status nor change what is left of its time. */
static void stir(struct log *l, struct holding *h)
{
    int points = 1 + below(l, h->needed + 1);
    int detector = PICK(l, 0x10, 0x20, 0x40, 0x80);
    int map = PICK(l, 0x04, 0x04, 0xFB, 0x00);
    int other = PICK(l, 0x13, 0x17, 0x18, 0x1A, 0x22, 0x26, 0x29, 0x30, 0x3E);

    switch (below(l, 10)) {
    case 0:
    case 1:
        put_points(l, h, points, true);
        break;
    case 2:
    case 3:
        put_points(l, h, points, false);
        break;
    case 4:
        pass_time(l, h, 0);
        break;
    case 5:
        put_write(l, 0x16, detector | h->setup.enable); /* refused */
        break;
    case 6:
        put_write(l, 0x0F, 0x04); /* refused */
        break;
    case 7:
        put_write(l, points & 1 ? 0x19 : 0x1B, map);
        break;
    case 8:
        put_write(l, other, 0x40);
        break;
    case 9:
        put_any_offset(l);
        break;
    }
    put_read(l, 0x09, 3);
}

/* What clears status, marks, runs and the time that is left, whatever that is. */
static void restart(struct log *l, struct holding *h)
{
    int latch = any_latch(l);

    switch (below(l, 7)) {
    case 0:
        begin_holding(l, h); /* with a range first */
        break;
    case 1:
        put_write(l, 0x16, h->setup.enable);
        break;
    case 2:
        put_write(l, 0x21, h->setup.latch);
        break;
    case 3:
        h->setup.latch = latch;
        put_write(l, 0x21, latch);
        break;
    case 4:
        put_write(l, 0x27, h->setup.count);
        break;
    case 5:
        put_write(l, 0x28, h->setup.threshold);
        break;
    case 6:
        put_write(l, 0x14, 0xB6);
        put_read(l, 0x09, 3);
        begin_holding(l, h);
        break;
    }
    see_restart(h);
    put_read(l, 0x09, 3);
}

/* Lets so much time pass, in one event or in more with something between them. */
static void spend(struct log *l, struct holding *h, uint32_t time)
{
    int cuts = PICK(l, 0, 0, 1, 1, 2, 5);

    while (cuts-- > 0) {
        uint32_t any = (uint32_t)(draw(l) % ((uint64_t)time + 1));
        uint32_t part = time > 0 && one_in(l, 4) ? 1 : one_in(l, 4) ? time : any;

        pass_time(l, h, part);
        time -= part;
        if (one_in(l, 2))
            stir(l, h);
        if (one_in(l, 24))
            restart(l, h);
    }
    pass_time(l, h, time);
}

/* Sets the status, or adds to its run while it stands, and goes to the end of its time or beyond;
   then gives fewer points than would set it again, or just as many. */
static void hold_once(struct log *l, struct holding *h)
{
    int behind = below(l, h->needed + 1);
    uint32_t aim;

    for (int i = 0; i < h->needed; i++) {
        put_points(l, h, 1, true);
        if (i + 1 < h->needed && one_in(l, 6)) { /* no time counts before the setting */
            aim = clock_near(l, hold_time(h->setup.latch));
            pass_time(l, h, aim);
        }
    }
    if (one_in(l, 3))
        stir(l, h);
    if (one_in(l, 12))
        restart(l, h);
    aim = clock_near(l, h->left);
    spend(l, h, aim);
    if (h->left > 0 && !one_in(l, 4)) { /* over it by single steps */
        pass_time(l, h, h->left - 1);
        stir(l, h);
        pass_time(l, h, 1);
    }
    put_points(l, h, behind, true);
    if (one_in(l, 2))
        put_points(l, h, 1, false);
}

static void latch_scene(struct log *l)
{
    struct holding h;
    int turns = 1 + below(l, 4);

    begin_holding(l, &h);
    if (one_in(l, 2)) {
        uint32_t before = one_in(l, 2) ? UINT32_MAX : any_clock(l);

        pass_time(l, &h, before);
    }
    while (turns-- > 0)
        hold_once(l, &h);
}

/* ---- low-g and high-g scene ---- */

enum { LOW, HIGH, DETECTORS };

/* What is known of a run and of a status that is held for a time, to aim at the end of each. */
struct g_aim {
    bool running;
    uint32_t wait; /* microseconds until the run is long enough */
    uint32_t left; /* microseconds until the status clears; 0 while it is not held for a time */
};

struct g_setup {
    int range, enable, mode, latch; /* the bytes of 0x0F, 0x17, 0x24 and 0x21 */
    int duration[DETECTORS], threshold[DETECTORS];
    struct g_aim aim[DETECTORS];
};

/* Where a sample lies: of a run, or at either side of the level at which a status clears. */
enum place { FIRST_INSIDE, INSIDE, LAST_OUTSIDE, BEFORE_CLEARING, FIRST_CLEARING, CLEARING };

static int factor(const struct g_setup *g)
{
    switch (g->range & 0x0F) {
    case 0x3:
        return 1;
    case 0x5:
        return 2;
    case 0x8:
        return 4;
    default:
        return 8;
    }
}

/* The sum or the largest size at the place; the first that is inside is the largest that is low. */
static int low_size(struct log *l, const struct g_setup *g, enum place place)
{
    int threshold = 8 * g->threshold[LOW];
    int clearing = threshold + 128 * (g->mode & 3);
    int up = factor(g) - 1; /* what lies between two counts belongs to the upper one */
    int outside = (threshold + up) / factor(g);
    int more = below(l, 200);

    switch (place) {
    case FIRST_INSIDE:
        return outside - 1;
    case INSIDE:
        return outside > 0 ? below(l, outside) : 0;
    case LAST_OUTSIDE:
        return outside;
    case BEFORE_CLEARING:
        return (clearing + up) / factor(g) - 1;
    case FIRST_CLEARING:
        return (clearing + up) / factor(g);
    default:
        return (clearing + up) / factor(g) + more;
    }
}

static int high_size(struct log *l, const struct g_setup *g, enum place place)
{
    int threshold = 8 * g->threshold[HIGH];
    int clearing = threshold - 128 * (g->mode >> 6 & 3);
    int more = one_in(l, 4) ? 2048 : below(l, 200);

    if (clearing < 0)
        clearing = 0;
    switch (place) {
    case FIRST_INSIDE:
        return threshold + 1;
    case INSIDE:
        return threshold + 1 + more;
    case LAST_OUTSIDE:
        return threshold;
    case BEFORE_CLEARING:
        return clearing + 1;
    case FIRST_CLEARING:
        return clearing;
    default:
        return below(l, clearing + 1);
    }
}

/* A count of this size, as near as 12 bits have one, with any sign. */
static int count_of_size(struct log *l, int size)
{
    bool negative = one_in(l, 2);

    size = size < 0 ? 0 : least(size, 2048);
    return negative || size == 2048 ? -size : size;
}

/* Three sizes with this sum. */
static void share(struct log *l, int sum, int size[AXES])
{
    int whole = below(l, AXES);
    int first = sum > 0 ? below(l, sum + 1) : 0;
    int second = sum > first ? below(l, sum - first + 1) : 0;

    if (one_in(l, 3)) {
        first = whole == X ? sum : 0;
        second = whole == Y ? sum : 0;
    }
    size[X] = first;
    size[Y] = second;
    size[Z] = sum - first - second;
}

static void low_sizes(struct log *l, const struct g_setup *g, enum place place, int size[AXES])
{
    int wanted = low_size(l, g, place);
    int chosen = below(l, AXES);

    if (g->mode & 4 && wanted > 0) {
        share(l, wanted, size);
        return;
    }
    for (int axis = X; axis < AXES; axis++) {
        int lower = wanted > 0 ? below(l, wanted + 1) : 0;

        size[axis] = axis == chosen ? wanted : one_in(l, 2) ? lower : 0;
    }
}

/* Inside, some enabled axes have the size and the others any up to the threshold; elsewhere one has
   it and the others up to it. An axis that is not enabled has any size. */
static void high_sizes(struct log *l, const struct g_setup *g, enum place place, int size[AXES])
{
    int wanted = high_size(l, g, place);
    int threshold = 8 * g->threshold[HIGH];
    int chosen = below(l, AXES);

    while (g->enable & 7 && !(g->enable >> chosen & 1))
        chosen = (chosen + 1) % AXES;
    for (int axis = X; axis < AXES; axis++) {
        bool inside = place == FIRST_INSIDE || place == INSIDE;
        int any = one_in(l, 2) ? 2048 : below(l, 2049);
        int lower = below(l, (inside ? threshold : wanted) + 1);
        bool too = one_in(l, 3);

        size[axis] = axis == chosen || too ? wanted : lower;
        if (!(g->enable >> axis & 1))
            size[axis] = any;
    }
}

static bool is_low(const struct g_setup *g, const int size[AXES])
{
    int largest = size[X] > size[Y] ? size[X] : size[Y];
    int counts = g->mode & 4 ? size[X] + size[Y] + size[Z] : largest > size[Z] ? largest : size[Z];

    return counts * factor(g) < 8 * g->threshold[LOW];
}

static bool is_high(const struct g_setup *g, const int size[AXES])
{
    for (int axis = X; axis < AXES; axis++)
        if (g->enable >> axis & 1 && size[axis] > 8 * g->threshold[HIGH])
            return true;
    return false;
}

static void see_sample(struct g_setup *g, int which, bool inside)
{
    struct g_aim *aim = &g->aim[which];

    if (!inside || !aim->running)
        aim->wait = inside ? (uint32_t)(g->duration[which] + 1) * 2000 : 0;
    else if (aim->wait == 0 && aim->left == 0)
        aim->left = hold_time(g->latch);
    aim->running = inside;
}

static void put_g_sample(struct log *l, struct g_setup *g, int which, enum place place)
{
    int size[AXES], sample[AXES];

    if (which == LOW)
        low_sizes(l, g, place, size);
    else
        high_sizes(l, g, place, size);
    for (int axis = X; axis < AXES; axis++)
        sample[axis] = count_of_size(l, size[axis]);
    put_stored(l, sample);
    for (int axis = X; axis < AXES; axis++)
        size[axis] = abs(sample[axis]);
    if (g->enable & 8)
        see_sample(g, LOW, is_low(g, size));
    if (g->enable & 7)
        see_sample(g, HIGH, is_high(g, size));
    if (!one_in(l, 6))
        put_read(l, 0x09, 4);
}

static void put_inside(struct log *l, struct g_setup *g, int which)
{
    put_g_sample(l, g, which, one_in(l, 3) ? INSIDE : FIRST_INSIDE);
}

static void put_outside(struct log *l, struct g_setup *g, int which)
{
    int place = PICK(l, LAST_OUTSIDE, LAST_OUTSIDE, BEFORE_CLEARING, BEFORE_CLEARING,
                     FIRST_CLEARING, FIRST_CLEARING, CLEARING);

    put_g_sample(l, g, which, (enum place)place);
}

static void pass_g_time(struct log *l, struct g_setup *g, uint32_t microseconds)
{
    put_clock(l, microseconds);
    for (int which = LOW; which < DETECTORS; which++) {
        struct g_aim *aim = &g->aim[which];
        bool ends = aim->left > 0 && microseconds >= aim->left;

        aim->left = microseconds < aim->left ? aim->left - microseconds : 0;
        aim->wait = microseconds < aim->wait ? aim->wait - microseconds : 0;
        if (ends)
            *aim = (struct g_aim){.running = false};
    }
    if (one_in(l, 2))
        put_read(l, 0x09, 4);
}

static void see_g_restart(struct g_setup *g)
{
    for (int which = LOW; which < DETECTORS; which++)
        g->aim[which] = (struct g_aim){.running = false};
}

static int any_range(struct log *l)
{
    int ignored = one_in(l, 4) ? 0xF0 : 0;

    return PICK(l, 0x03, 0x05, 0x08, 0x0C) | ignored;
}

static int any_duration(struct log *l)
{
    return one_in(l, 4) ? below(l, 256) : PICK(l, 0, 0, 0, 1, 2, 9, 15, 127, 128, 254, 255);
}

/* 48 of high-g is its largest hysteresis, 16 and 32 are the others. */
static int any_threshold(struct log *l, int which)
{
    if (one_in(l, 4))
        return below(l, 256);
    return which == LOW ? PICK(l, 0, 1, 2, 6, 48, 128, 240, 254, 255)
                        : PICK(l, 0, 1, 15, 16, 17, 32, 47, 48, 49, 192, 254, 255);
}

static int any_g_enable(struct log *l)
{
    int low = PICK(l, 0x08, 0x00, 0x08);
    int axes = one_in(l, 4) ? 0 : 1 + below(l, 7);
    int others = below(l, 16) << 4; /* bit 7 is ignored */

    return low | axes | others;
}

static void put_setup(struct log *l, struct g_setup *g)
{
    put_write(l, 0x0F, g->range);
    put_write(l, 0x21, g->latch);
    put_write(l, 0x22, g->duration[LOW]);
    put_write(l, 0x23, g->threshold[LOW]);
    put_write(l, 0x24, g->mode);
    put_write(l, 0x25, g->duration[HIGH]);
    put_write(l, 0x26, g->threshold[HIGH]);
    put_write(l, 0x17, g->enable);
    see_g_restart(g);
}

/* One in three can fall and be hit at once; of one in eight -2048 is the size that clears low-g. */
static void set_g(struct log *l, struct g_setup *g)
{
    bool both = one_in(l, 3);
    int steps = 1 + below(l, 3);

    g->range = any_range(l);
    g->enable = any_g_enable(l);
    g->mode = below(l, 256);
    g->latch = any_latch(l);
    for (int which = LOW; which < DETECTORS; which++) {
        g->duration[which] = any_duration(l);
        g->threshold[which] = any_threshold(l, which);
    }
    if (both) {
        g->threshold[LOW] = PICK(l, 128, 254, 255);
        g->threshold[HIGH] = PICK(l, 0, 1, 3);
        g->enable |= 0x08;
    }
    if (one_in(l, 8)) {
        g->range = 0x03;
        g->mode = (g->mode & ~3) | steps;
        g->threshold[LOW] = (2048 - 128 * steps) / 8;
        g->enable |= 0x08;
    }
    set_offsets(l);
    put_setup(l, g);
}

/* What restarts nothing of low-g and high-g. */
static void stir_g(struct log *l)
{
    static const struct {
        int address, byte;
    } write[] = {{0x0F, 0x04}, {0x0F, 0xFF}, {0x13, 0x40}, {0x14, 0xB5}, {0x16, 0x07}, {0x16, 0x00},
                 {0x16, 0x17}, {0x18, 0x08}, {0x18, 0x0F}, {0x19, 0x01}, {0x19, 0x02}, {0x19, 0xFC},
                 {0x1A, 0xFF}, {0x1B, 0x01}, {0x1B, 0x02}, {0x1B, 0x07}, {0x1E, 0x3F}, {0x20, 0x0A},
                 {0x20, 0x05}, {0x27, 0x01}, {0x28, 0x01}, {0x29, 0x00}, {0x30, 0x01}, {0x32, 0x01},
                 {0x36, 0x80}, {0x36, 0x10}, {0x3E, 0x80}, {0x3E, 0xC0}, {0x40, 0x00}, {0x57, 0x0F}};
    int chosen = below(l, sizeof write / sizeof *write);

    switch (below(l, 9)) {
    case 0:
        put_outside_sample(l); /* refused, and must end no run */
        break;
    case 1:
        put_cycle_start(l);
        break;
    case 2:
        put_clock(l, 0);
        break;
    case 3:
        put_any_offset(l);
        break;
    default:
        put_write(l, write[chosen].address, write[chosen].byte);
        break;
    }
    put_read(l, 0x09, 4);
}

/* One of 0x17 and 0x22 to 0x26, with the byte that is there or another. */
static void rewrite_g(struct log *l, struct g_setup *g)
{
    bool other = one_in(l, 2);
    int which = below(l, DETECTORS);
    int duration = any_duration(l), threshold = any_threshold(l, which);
    int enable = any_g_enable(l), mode = below(l, 256);

    switch (below(l, 4)) {
    case 0:
        g->enable = other ? enable : g->enable;
        put_write(l, 0x17, g->enable);
        break;
    case 1:
        g->duration[which] = other ? duration : g->duration[which];
        put_write(l, which == LOW ? 0x22 : 0x25, g->duration[which]);
        break;
    case 2:
        g->threshold[which] = other ? threshold : g->threshold[which];
        put_write(l, which == LOW ? 0x23 : 0x26, g->threshold[which]);
        break;
    case 3:
        g->mode = other ? mode : g->mode;
        put_write(l, 0x24, g->mode);
        break;
    }
}

/* What clears statuses, marks, runs and the times that are left of both. */
static void restart_g(struct log *l, struct g_setup *g)
{
    int statuses = 1 << (4 + below(l, 4));
    int range = any_range(l), latch = any_latch(l);

    switch (below(l, 12)) {
    case 0:
    case 1:
        g->range = one_in(l, 2) ? range : g->range;
        put_write(l, 0x0F, g->range);
        break;
    case 2:
    case 3:
        g->latch = one_in(l, 2) ? latch : g->latch;
        put_write(l, 0x21, g->latch);
        break;
    case 4:
        g->enable ^= statuses; /* of 0x0A, not of low-g and high-g */
        put_write(l, 0x17, g->enable);
        break;
    case 5:
        put_write(l, 0x14, 0xB6);
        put_read(l, 0x09, 4);
        put_setup(l, g);
        break;
    default:
        rewrite_g(l, g);
        break;
    }
    see_g_restart(g);
    put_read(l, 0x09, 4);
}

/* Lets so much time pass, in one event or in more, with samples of the run and others between. */
static void spend_g(struct log *l, struct g_setup *g, int which, uint32_t time)
{
    int cuts = PICK(l, 0, 0, 1, 1, 2, 4);

    while (cuts-- > 0) {
        uint32_t any = (uint32_t)(draw(l) % ((uint64_t)time + 1));
        uint32_t part = time > 0 && one_in(l, 4) ? 1 : one_in(l, 4) ? time : any;

        pass_g_time(l, g, part);
        time -= part;
        if (one_in(l, 2))
            put_inside(l, g, which);
        if (one_in(l, 16))
            put_outside(l, g, which);
        if (one_in(l, 4))
            stir_g(l);
        if (one_in(l, 24))
            restart_g(l, g);
    }
    pass_g_time(l, g, time);
}

/* A run up to just before, at or just behind its time, and over it by single steps. */
static void run_once(struct log *l, struct g_setup *g, int which)
{
    uint32_t wait, aim;

    put_inside(l, g, which);
    wait = g->aim[which].wait;
    if (one_in(l, 8))
        restart_g(l, g); /* no run is left that would be long enough then */
    aim = clock_near(l, wait);
    spend_g(l, g, which, aim);
    if (one_in(l, 8))
        put_outside(l, g, which);
    put_inside(l, g, which);
    if (g->aim[which].wait > 0 && !one_in(l, 4)) {
        pass_g_time(l, g, g->aim[which].wait - 1);
        put_inside(l, g, which);
        pass_g_time(l, g, 1);
        put_inside(l, g, which);
    }
}

/* The end of the time for which the status is held, mostly with samples of a run around it. */
static void end_hold(struct log *l, struct g_setup *g, int which)
{
    uint32_t aim = clock_near(l, g->aim[which].left);

    if (one_in(l, 2))
        put_outside(l, g, which);
    if (one_in(l, 2))
        put_inside(l, g, which);
    spend_g(l, g, which, aim);
    if (g->aim[which].left > 0 && !one_in(l, 4)) {
        pass_g_time(l, g, g->aim[which].left - 1);
        put_inside(l, g, which);
        pass_g_time(l, g, 1);
    }
}

static void after_run(struct log *l, struct g_setup *g, int which)
{
    int events = 1 + below(l, 4);

    while (events-- > 0) {
        int choice = below(l, 10);

        if (choice < 5)
            put_outside(l, g, which);
        else if (choice < 6)
            put_inside(l, g, 1 - which);
        else if (choice < 7)
            put_inside(l, g, which);
        else if (choice < 9)
            stir_g(l);
        else
            restart_g(l, g);
    }
}

static void g_scene(struct log *l)
{
    struct g_setup g;
    int turns = 1 + below(l, 4);

    set_g(l, &g);
    if (one_in(l, 2)) {
        int map = PICK(l, 0x01, 0x01, 0x02, 0x02, 0x03, 0xFC);

        put_write(l, 0x19, map);
        put_write(l, 0x1B, ~map);
    }
    if (one_in(l, 8))
        pass_g_time(l, &g, UINT32_MAX);
    while (turns-- > 0) {
        int which = !(g.enable & 8) ? HIGH : !(g.enable & 7) ? LOW : below(l, DETECTORS);

        run_once(l, &g, which);
        if (g.aim[which].left > 0 && !one_in(l, 3))
            end_hold(l, &g, which);
        else
            after_run(l, &g, which);
    }
}

/* ---- slow motion and no-motion scene ---- */

/* What is known of the status and of the waiting, to aim at the end of each. The setup has the bytes
   of 0x18, 0x29, 0x27 and 0x21. */
struct slow {
    struct setup setup;
    bool sampled; /* since the last 0x0F */
    bool set;
    int over, calm; /* points in a row */
    uint32_t wait;  /* microseconds until a calm point may set no-motion */
    uint32_t left;  /* microseconds until the status clears; 0 while it is not held for a time */
};

/* For how many microseconds no-motion waits with a byte in 0x27 that has a meaning there. */
static uint32_t delay(int count)
{
    int code = count >> 2;
    int seconds = code < 16 ? 1 + code : code < 32 ? 40 + 8 * (code - 16) : 88 + 8 * (code - 32);

    return (uint32_t)seconds * 1000000;
}

static void see_slow_restart(struct slow *s)
{
    s->set = false;
    s->over = s->calm = 0;
    s->wait = delay(s->setup.count);
    s->left = 0;
}

static void see_slow_point(struct slow *s, bool over)
{
    int n = (s->setup.count >> 2 & 3) + 1;
    bool no_motion = s->setup.enable & 8;
    bool sets, clears;

    s->over = over ? s->over + 1 : 0;
    s->calm = over ? 0 : s->calm + 1;
    s->wait = over ? delay(s->setup.count) : s->wait;
    sets = no_motion ? !over && s->wait == 0 : s->over >= n;
    clears = no_motion ? over : s->calm >= n;
    if (sets && !s->set) {
        s->set = true;
        s->left = hold_time(s->setup.latch);
    } else if (clears && (s->setup.latch & 7) == 0) {
        s->set = false;
    }
}

/* The first sample behind 0x0F is no point, whichever is wanted. */
static void put_slow_point(struct log *l, struct slow *s, bool over)
{
    over = put_point(l, &s->setup, over);
    if (s->sampled && s->setup.enable & 7)
        see_slow_point(s, over);
    s->sampled = true;
    if (!one_in(l, 6))
        put_read(l, 0x09, 3);
}

static void put_slow_points(struct log *l, struct slow *s, int points, bool over)
{
    while (points-- > 0)
        put_slow_point(l, s, over);
}

/* After the end of a hold the waiting takes the rest of the clock. */
static void pass_slow_time(struct log *l, struct slow *s, uint32_t microseconds)
{
    put_clock(l, microseconds);
    if (microseconds < s->left) {
        s->left -= microseconds;
    } else if (s->left > 0) {
        microseconds -= s->left;
        see_slow_restart(s);
    }
    s->wait = microseconds < s->wait ? s->wait - microseconds : 0;
    if (one_in(l, 2))
        put_read(l, 0x09, 3);
}

/* A write to 0x18 or 0x27, refused where it would bring no-motion and a code from 22 to 31 together;
   gives whether it was accepted. */
static bool put_joined(struct log *l, struct slow *s, int address, int byte)
{
    int enable = address == 0x18 ? byte & 0x0F : s->setup.enable;
    int count = address == 0x27 ? byte : s->setup.count;
    bool refused = enable & 8 && count >> 2 >= 22 && count >> 2 <= 31;

    put_write(l, address, byte);
    if (one_in(l, 3))
        put_read(l, address, 1);
    if (refused)
        return false;
    s->setup.enable = enable;
    s->setup.count = count;
    see_slow_restart(s);
    return true;
}

/* Any of the 64 codes, or one at an end of a range of them, with any N of any-motion. */
static int any_slow_count(struct log *l)
{
    int any = below(l, 64);
    int code = PICK(l, 0, 0, 0, 1, 2, 3, 14, 15, 16, 17, 20, 21, 22, 23, 30, 31, 32, 33, 62, 63);
    int n = below(l, 4);

    return (one_in(l, 2) ? any : code) << 2 | n;
}

/* No-motion, two in three, with an axis, nine in ten; bits 7:4 are ignored. */
static int any_slow_enable(struct log *l)
{
    int mode = PICK(l, 0x00, 0x08, 0x08);
    int axes = one_in(l, 10) ? 0 : 1 + below(l, 7);
    int ignored = one_in(l, 4) ? 0xF0 : 0;

    return mode | axes | ignored;
}

static int any_slow_threshold(struct log *l)
{
    return PICK(l, 0, 1, 2, 5, 20, 100, 254, 255);
}

/* Any-motion on the same points. */
static void set_beside(struct log *l, const struct slow *s)
{
    int axes = below(l, 8);
    int threshold = PICK(l, s->setup.threshold, s->setup.threshold, 0, 255);

    put_write(l, 0x28, threshold);
    put_write(l, 0x16, axes);
}

/* 0x27 before 0x18, or behind it; any code goes with the slow motion that it begins with. */
static void set_slow(struct log *l, struct slow *s)
{
    int range = any_range(l), count = any_slow_count(l), enable = any_slow_enable(l);

    *s = (struct slow){.sampled = true};
    for (int axis = X; axis < AXES; axis++)
        s->setup.at[axis] = PICK(l, 0, 5, -3, 2047, -2048, 900);
    s->setup.threshold = any_slow_threshold(l);
    s->setup.latch = any_latch(l);
    set_offsets(l);
    put_write(l, 0x18, 0x00);
    put_write(l, 0x29, s->setup.threshold);
    put_write(l, 0x21, s->setup.latch);
    put_joined(l, s, 0x27, one_in(l, 2) ? count : 0);
    if (!put_joined(l, s, 0x18, enable) || !put_joined(l, s, 0x27, count)) {
        put_joined(l, s, 0x27, count + 0x40); /* one was refused; codes 38 to 47 have a meaning */
        put_joined(l, s, 0x18, enable);
    }
    if (one_in(l, 2))
        set_beside(l, s);
    if (!one_in(l, 4)) {
        put_write(l, 0x0F, range);
        s->sampled = false;
        see_slow_restart(s);
    }
}

/* What restarts nothing of slow motion and no-motion. */
static void stir_slow(struct log *l, struct slow *s)
{
    static const struct {
        int address, byte;
    } write[] = {{0x0F, 0x04}, {0x0F, 0xF0}, {0x13, 0x40}, {0x14, 0xB5}, {0x16, 0x07}, {0x16, 0x01},
                 {0x16, 0x00}, {0x16, 0x87}, {0x17, 0x7F}, {0x17, 0x00}, {0x19, 0x08}, {0x19, 0xF7},
                 {0x1B, 0x08}, {0x1B, 0xF7}, {0x1E, 0x08}, {0x20, 0x0A}, {0x20, 0x05}, {0x22, 0x00},
                 {0x23, 0xFF}, {0x24, 0x00}, {0x25, 0x00}, {0x26, 0x00}, {0x28, 0x00}, {0x28, 0x01},
                 {0x28, 0xFF}, {0x2A, 0x00}, {0x30, 0x01}, {0x36, 0x80}, {0x3E, 0x80}, {0x3E, 0xC0},
                 {0x58, 0x09}, {0x67, 0x00}};
    int chosen = below(l, sizeof write / sizeof *write);
    int refused = 22 + below(l, 10);

    switch (below(l, 10)) {
    case 0:
        put_outside_sample(l);
        break;
    case 1:
        put_cycle_start(l);
        break;
    case 2:
        put_clock(l, 0);
        break;
    case 3:
    case 4:
        if (s->setup.enable & 8)
            put_joined(l, s, 0x27, refused << 2);
        else if (s->setup.count >> 2 >= 22 && s->setup.count >> 2 <= 31)
            put_joined(l, s, 0x18, 0x08 | s->setup.enable);
        break;
    case 5:
        put_any_offset(l);
        break;
    default:
        put_write(l, write[chosen].address, write[chosen].byte);
        break;
    }
    put_read(l, 0x09, 3);
}

/* What clears the status, and begins its runs and its waiting anew. */
static void restart_slow(struct log *l, struct slow *s)
{
    bool other = one_in(l, 2);
    int range = any_range(l), count = any_slow_count(l), enable = any_slow_enable(l);
    int threshold = any_slow_threshold(l), latch = any_latch(l);

    switch (below(l, 6)) {
    case 0:
        put_write(l, 0x0F, range);
        s->sampled = false;
        break;
    case 1:
        put_joined(l, s, 0x18, other ? enable : s->setup.enable);
        put_read(l, 0x09, 3);
        return;
    case 2:
        put_joined(l, s, 0x27, other ? count : s->setup.count);
        put_read(l, 0x09, 3);
        return;
    case 3:
        s->setup.latch = other ? latch : s->setup.latch;
        put_write(l, 0x21, s->setup.latch);
        break;
    case 4:
        s->setup.threshold = other ? threshold : s->setup.threshold;
        put_write(l, 0x29, s->setup.threshold);
        break;
    case 5:
        put_write(l, 0x14, 0xB6);
        put_read(l, 0x09, 3);
        set_slow(l, s);
        return;
    }
    see_slow_restart(s);
    put_read(l, 0x09, 3);
}

/* Lets so much time pass, in one event or in more, with points and others between. */
static void spend_slow(struct log *l, struct slow *s, uint32_t time)
{
    int cuts = PICK(l, 0, 0, 1, 1, 2, 4);

    while (cuts-- > 0) {
        uint32_t any = (uint32_t)(draw(l) % ((uint64_t)time + 1));
        uint32_t part = time > 0 && one_in(l, 4) ? 1 : one_in(l, 4) ? time : any;

        pass_slow_time(l, s, part);
        time -= part;
        if (one_in(l, 2))
            put_slow_point(l, s, false);
        if (one_in(l, 12))
            put_slow_point(l, s, true);
        if (one_in(l, 4))
            stir_slow(l, s);
        if (one_in(l, 24))
            restart_slow(l, s);
    }
    pass_slow_time(l, s, time);
}

/* Over the end of the waiting by single steps, with a calm point at each. */
static void step_over_wait(struct log *l, struct slow *s)
{
    put_slow_point(l, s, false);
    if (s->wait == 0 || one_in(l, 4))
        return;
    pass_slow_time(l, s, s->wait - 1);
    put_slow_point(l, s, false);
    if (s->wait > 0)
        pass_slow_time(l, s, s->wait);
    put_slow_point(l, s, false);
}

/* The waiting up to just before, at or just behind its time. */
static void wait_once(struct log *l, struct slow *s)
{
    uint32_t aim = clock_near(l, s->wait);

    if (!one_in(l, 3))
        put_slow_point(l, s, false);
    spend_slow(l, s, aim);
    step_over_wait(l, s);
    if (one_in(l, 2))
        put_slow_point(l, s, true);
}

/* The end of a hold, or of the waiting that begins there, mostly in the same clock. */
static void end_slow_hold(struct log *l, struct slow *s)
{
    uint32_t rest = one_in(l, 3) ? 0 : delay(s->setup.count);
    uint32_t aim = clock_near(l, s->left + rest);

    if (one_in(l, 3))
        put_slow_point(l, s, one_in(l, 2));
    spend_slow(l, s, aim);
    step_over_wait(l, s);
}

/* Fewer over points than N, as many or more, and the same of calm points. */
static void count_once(struct log *l, struct slow *s)
{
    int n = (s->setup.count >> 2 & 3) + 1;
    int over = n - 1 + below(l, 3), calm = n - 1 + below(l, 3);

    put_slow_points(l, s, over, true);
    if (one_in(l, 4))
        stir_slow(l, s);
    put_slow_points(l, s, calm, false);
}

static void slow_scene(struct log *l)
{
    struct slow s;
    int turns = 2 + below(l, 4);

    set_slow(l, &s);
    if (one_in(l, 2)) {
        int map = PICK(l, 0x08, 0x08, 0xF7, 0x0C);

        put_write(l, 0x19, map);
        put_write(l, 0x1B, ~map);
    }
    while (turns-- > 0) {
        if (s.left > 0 && !one_in(l, 4))
            end_slow_hold(l, &s);
        else if (s.setup.enable & 8)
            wait_once(l, &s);
        else
            count_once(l, &s);
        if (one_in(l, 6))
            restart_slow(l, &s);
    }
}

/* Any writes to 0x18 and 0x27 in any order, refused where both would have no meaning together. */
static void joined_scene(struct log *l)
{
    int writes = 4 + below(l, 8);

    while (writes-- > 0) {
        int enable = any_slow_enable(l), count = any_slow_count(l);
        bool codes = one_in(l, 2);

        if (codes)
            put_write(l, 0x27, count);
        else
            put_write(l, 0x18, enable);
        if (one_in(l, 2))
            put_read(l, codes ? 0x27 : 0x18, 1);
    }
    look(l);
}

/* ---- offset scenes ---- */

/* A given count that with its offset is one below, at or one above an end of the 12 bits, mostly the
   end that the offset leads to; or that is so by itself. It may be outside, and refused. */
static int count_near_end(struct log *l, int axis)
{
    bool led_to = !one_in(l, 4);
    int end = (offset(l, axis) > 0) == led_to ? 2047 : -2048;
    int beside = below(l, 3) - 1;

    return (one_in(l, 4) ? end : end - offset(l, axis)) + beside;
}

static void put_sample_near_end(struct log *l)
{
    int chosen = below(l, AXES);
    int sample[AXES];

    for (int axis = X; axis < AXES; axis++) {
        int near = count_near_end(l, axis);
        int any = below(l, 4096) - 2048;
        bool too = one_in(l, 3) && near == within_12_bits(near);

        sample[axis] = axis == chosen || too ? near : any;
    }
    put_sample(l, sample);
}

/* The offset of an axis, or the range, which leaves the frames that are there; or what leaves both,
   and now and then a soft reset, which ends them. */
static void change_offset(struct log *l)
{
    int range = any_range(l);
    int trim = PICK(l, 0x80, 0x80, 0x88, 0x98, 0x18, 0x60, 0x07);
    int beside = PICK(l, 0x37, 0x3B, 0x3C);
    int byte = any_offset(l);

    switch (below(l, 12)) {
    case 0:
    case 1:
        put_write(l, 0x0F, range);
        break;
    case 2:
        put_write(l, 0x36, trim); /* refused, or ignored */
        break;
    case 3:
        put_write(l, beside, byte);
        break;
    case 4:
        if (one_in(l, 2))
            put_write(l, 0x14, 0xB6);
        break;
    default:
        put_any_offset(l);
        break;
    }
}

/* Stored samples at the ends of the 12 bits, at each range, in channels and frames. */
static void offset_scene(struct log *l)
{
    int mode = any_fifo_mode(l);
    int range = any_range(l);
    int turns = 4 + below(l, 8);

    put_write(l, 0x0F, range);
    put_write(l, 0x3E, mode);
    for (int axis = X; axis < AXES; axis++) {
        int byte = any_offset(l);

        put_write(l, 0x38 + axis, byte);
    }
    while (turns-- > 0) {
        int samples = 1 + below(l, 3);
        int frames = 1 + below(l, 3);

        while (samples-- > 0)
            put_sample_near_end(l);
        if (!one_in(l, 3))
            put_read(l, 0x02, 6);
        change_offset(l);
        if (one_in(l, 3))
            put_read(l, 0x38, 3);
        if (one_in(l, 2))
            put_read(l, 0x3F, frames * (mode & 3 ? 2 : 6));
    }
    look(l);
}

/* A sample that is given again behind a write to an offset: what is stored jumps by the step. */
struct jump {
    int axis;
    int byte[2]; /* of the offset, in turns */
    int turn;
    int given[AXES];
};

/* A byte at, just below or just above the size in such parts. */
static int threshold_near(struct log *l, int size, int part)
{
    int threshold = size / part + below(l, 3) - 1;

    return threshold < 0 ? 0 : least(threshold, 255);
}

/* Every detector, on that axis and perhaps others, with thresholds near the jump, or near the size
   to which it leads. */
static void set_jump(struct log *l, const struct jump *j)
{
    int axes = (one_in(l, 3) ? below(l, 8) : 0) | 1 << j->axis;
    int steps = signed_byte(j->byte[1]) - signed_byte(j->byte[0]);
    int reached = abs(within_12_bits(j->given[j->axis] + signed_byte(j->byte[1]) * l->step));
    int slow = PICK(l, 0x00, 0x08), count = PICK(l, 0x00, 0x00, 0x01, 0x04, 0x05);
    int latch = one_in(l, 4) ? any_latch(l) : 0x00;
    int any_motion = threshold_near(l, abs(steps) * l->step, 4);
    int slow_motion = threshold_near(l, abs(steps) * l->step, 4);
    int low = threshold_near(l, reached * 8 / l->step, 8), high = threshold_near(l, reached, 8);
    int mode = PICK(l, 0x00, 0x00, 0x04, 0x41, 0xC7);

    put_write(l, 0x18, 0x00);
    put_write(l, 0x27, count);
    put_write(l, 0x28, any_motion);
    put_write(l, 0x29, slow_motion);
    put_write(l, 0x21, latch);
    put_write(l, 0x22, 0x00);
    put_write(l, 0x23, low);
    put_write(l, 0x24, mode);
    put_write(l, 0x25, 0x00);
    put_write(l, 0x26, high);
    put_write(l, 0x16, axes);
    put_write(l, 0x17, 0x08 | axes);
    put_write(l, 0x18, slow | axes);
}

/* Mostly the offset's other byte; now and then a range, which forgets the sample before. */
static void put_jump(struct log *l, struct jump *j)
{
    int beside = below(l, 3) - 1;
    int range = any_range(l);
    uint32_t time = (uint32_t)PICK(l, 2000, 2000, 1000000);
    uint32_t microseconds = clock_near(l, time);

    put_sample(l, j->given);
    if (one_in(l, 2)) {
        put_clock(l, microseconds);
        put_sample(l, j->given);
    }
    put_read(l, 0x09, 4);
    if (one_in(l, 6)) {
        put_write(l, 0x0F, range);
    } else {
        j->turn = 1 - j->turn;
        put_write(l, 0x38 + j->axis, j->byte[j->turn]);
    }
    put_read(l, 0x02, 11); /* what is stored stays, and no status goes */
    if (one_in(l, 3))
        j->given[j->axis] = within_12_bits(j->given[j->axis] + beside);
    if (one_in(l, 4))
        put_clock(l, microseconds);
    put_sample(l, j->given);
    put_read(l, 0x02, 11);
}

static void jump_scene(struct log *l)
{
    struct jump j = {.axis = below(l, AXES)};
    int range = any_range(l), first = any_offset(l), other = any_offset(l), way = below(l, 65) - 32;
    int turns = 2 + below(l, 5);

    j.byte[0] = first;
    j.byte[1] = one_in(l, 2) ? other : (first + way) & 0xFF;
    put_write(l, 0x0F, range);
    for (int axis = X; axis < AXES; axis++) {
        int beside = below(l, 3) - 1;

        j.given[axis] = 8 * (below(l, 33) - 16) + beside;
        put_write(l, 0x38 + axis, axis == j.axis ? first : 0x00);
    }
    if (one_in(l, 4)) {
        int near = count_near_end(l, j.axis);

        j.given[j.axis] = within_12_bits(near);
    }
    set_jump(l, &j);
    while (turns-- > 0)
        put_jump(l, &j);
}

/* Sets the data interrupt and looks at it around samples, cycle starts, clocks and its enable
   bit. */
static void data_scene(struct log *l)
{
    int events = 4 + below(l, 8);

    while (events-- > 0) {
        int enable = any_enable(l);
        uint32_t microseconds = any_clock(l);

        switch (below(l, 5)) {
        case 0:
            put_cycle_start(l);
            break;
        case 1:
            put_write(l, 0x17, enable);
            break;
        case 2:
            put_outside_sample(l);
            break;
        case 3:
            put_clock(l, microseconds);
            break;
        default:
            put_any_sample(l);
            break;
        }
        put_read(l, 0x0A, 1);
    }
}

/* ---- the last scene: only the pins at the end are printed ---- */

enum { PIN_RECORDS = 23 }; /* beside the samples */

static void set_pins(struct log *l)
{
    static const uint8_t address[] = {0x20, 0x19, 0x1A, 0x1B};

    for (size_t i = 0; i < sizeof address; i++) {
        int byte = below(l, 256);

        if (one_in(l, 2)) /* few bits, so that one status alone decides a pin */
            byte = address[i] == 0x1A ? PICK(l, 0x01, 0x02, 0x04, 0x80, 0x40, 0x20, 0x22, 0x42)
                                      : PICK(l, 0x00, 0x04, 0xFB, 0x01, 0xFE, 0x02, 0xFD, 0x08, 0xF7);
        put_write(l, address[i], byte);
    }
}

/* Thresholds that most samples are below and above, and the shortest times. */
static void set_easy_g(struct log *l)
{
    int low = PICK(l, 0xFF, 0xFF, 0x30), high = PICK(l, 0x00, 0x00, 0xC0);

    put_write(l, 0x22, 0x00);
    put_write(l, 0x23, low);
    put_write(l, 0x25, 0x00);
    put_write(l, 0x26, high);
}

/* No-motion after its shortest time, or just before it. */
static void put_rest(struct log *l)
{
    static const int still[AXES] = {1, -2, 3};
    uint32_t wait = clock_near(l, 1000000);

    put_sample(l, still);
    put_clock(l, wait);
    put_sample(l, still);
}

static void pins_scene(struct log *l, int fill)
{
    int mode = any_fifo_mode(l);
    int detectors = one_in(l, 2) ? below(l, 16) : 0;
    int enable = (one_in(l, 3) ? 0x40 : below(l, 8) << 4) | detectors;
    int axes = below(l, 8);
    int slow = one_in(l, 2) ? below(l, 16) : 0;
    int n = slow & 8 ? below(l, 4) : PICK(l, 0, 0, 1, 3, 4, 12);
    int latch = any_latch(l);
    uint32_t microseconds = clock_near(l, hold_time(latch));
    int level = level_near(l, least(fill, depth(mode)));
    int readout = 1 + below(l, 7); /* a frame, mostly, or a part of one */

    set_pins(l);
    put_write(l, 0x17, enable);
    put_write(l, 0x30, level);
    put_write(l, 0x3E, mode);
    put_write(l, 0x27, n);
    put_write(l, 0x21, latch);
    put_write(l, 0x16, axes);
    put_write(l, 0x18, slow);
    if (detectors != 0)
        set_easy_g(l);
    while (fill-- > 0)
        put_any_sample(l);
    if (detectors != 0) {
        uint32_t run = clock_near(l, 2000);

        put_clock(l, run);
        put_any_sample(l);
    }
    if (slow & 8)
        put_rest(l);
    if (one_in(l, 2))
        put_clock(l, microseconds);
    if (one_in(l, 3))
        put_cycle_start(l);
    if (one_in(l, 3))
        put_read(l, 0x3F, readout);
}

/* ---- whole logs ---- */

static void any_scene(struct log *l)
{
    static void (*const scene[])(struct log *) = {
        fifo_scene,   fifo_scene,  watermark_scene, watermark_scene, lock_scene,  burst_scene,
        corner_scene, write_scene, write_scene,     sweep_scene,     lack_scene,  range_scene,
        data_scene,   set_pins,    motion_scene,    motion_scene,    latch_scene, latch_scene,
        mode_scene,   mode_scene,  g_scene,         g_scene,         g_scene,     g_scene,
        slow_scene,   slow_scene,  slow_scene,      slow_scene,      slow_scene,  joined_scene,
        offset_scene, offset_scene, offset_scene,   jump_scene,      jump_scene,  jump_scene,
    };

    if (one_in(l, 16))
        reset_scene(l);
    else
        scene[below(l, sizeof scene / sizeof *scene)](l);
}

static void put_head(struct log *l)
{
    int version = PICK(l, 0, 2, 3, 0x81, 0xFF);

    if (l->damage == EMPTY || l->damage == ONLY_GARBAGE || l->damage == VERSION)
        end_form(l);
    switch (l->damage) {
    case EMPTY:
        l->ended = true;
        break;
    case ONLY_GARBAGE:
        version = below(l, 40);
        put_garbage(l, version);
        l->ended = true;
        break;
    case VERSION:
        put_byte(l, version);
        break;
    default:
        put_byte(l, 1);
        break;
    }
}

static void edge_log(uint64_t seed, uint64_t records, enum form form, FILE *marks)
{
    struct log l = {.state = seed, .undamaged = UINT64_MAX, .step = 8};
    int fill = PICK(&l, 0, 1, 2, 2, 3, 4, 31, 32, 33);
    uint64_t last = (uint64_t)(fill + PIN_RECORDS);

    if (one_in(&l, 32)) { /* a short one, down to the version byte alone */
        uint64_t few = draw(&l) % 8;

        records = few < records ? few : records;
    }
    if (last > records)
        last = records;
    if (one_in(&l, 4)) {
        l.damage = (enum damage)(1 + below(&l, DAMAGES - 1));
        l.undamaged = records > 0 ? draw(&l) % records : 0;
    }
    l.no_readouts = one_in(&l, 12);
    l.other = (struct form_of){.form = form, .marks = marks, .state = ~seed, .frame = 6};
    put_head(&l);
    l.left = records - last;
    while (l.left > 0 && !l.ended)
        any_scene(&l);
    l.left = last;
    pins_scene(&l, fill);
}

/* ---- logs for sheets ---- */

/* How the samples lie, and what the FIFO is set to. */
struct site {
    int centre[AXES], width[AXES]; /* stored counts */
    int mode;                      /* the byte of 0x3E */
    int range;                     /* the byte of 0x0F, */
    bool stays;                    /* which all samples of the log have */
};

static void move_site(struct log *l, struct site *s)
{
    for (int axis = X; axis < AXES; axis++) {
        s->centre[axis] = PICK(l, -1900, -700, -40, -1, 0, 1, 35, 600, 1900);
        s->width[axis] = PICK(l, 0, 0, 1, 5, 40);
    }
}

static void put_site_sample(struct log *l, const struct site *s)
{
    int sample[AXES];

    for (int axis = X; axis < AXES; axis++) {
        int beside = below(l, s->width[axis] + 1);

        sample[axis] = s->centre[axis] + beside;
    }
    put_stored(l, sample);
}

static void put_site_samples(struct log *l, const struct site *s, int count)
{
    while (count-- > 0)
        put_site_sample(l, s);
}

/* Just below or just above the others on each axis, or at an end of the 12 bits. */
static void put_extreme(struct log *l, const struct site *s)
{
    int sample[AXES];

    for (int axis = X; axis < AXES; axis++) {
        int below_all = s->centre[axis] - 1, above_all = s->centre[axis] + s->width[axis] + 1;

        sample[axis] = PICK(l, below_all, above_all, below_all, above_all, -2048, 2047);
    }
    put_stored(l, sample);
}

/* At the end of the range to which no sample may come, with what would be extremes beside it; now and
   then one that an offset would bring in. */
static void put_refused(struct log *l)
{
    int sample[AXES];
    int chosen = below(l, AXES);

    for (int axis = X; axis < AXES; axis++) {
        int outside = PICK(l, -2049, 2048, -2049, 2048, 3000, -3000, 32767, -32768);
        int end = PICK(l, -2048, 2047);

        sample[axis] = axis == chosen ? outside : end;
    }
    if (offset(l, chosen) != 0 && one_in(l, 2))
        sample[chosen] = offset(l, chosen) < 0 ? 2048 : -2049;
    put_sample(l, sample);
}

static void set_site_mode(struct log *l, struct site *s)
{
    s->mode = any_fifo_mode(l);
    put_write(l, 0x3E, s->mode);
}

/* Of so many frames the last is read in part, or none of it. */
static void put_site_readout(struct log *l, const struct site *s, int frames)
{
    int size = s->mode & 3 ? 2 : 6;
    int unread = one_in(l, 2) ? below(l, size) : 0;
    int length = least(frames * size - unread, 192);

    put_read(l, 0x3F, length);
}

/* The FIFO is as full as it gets. FIFO mode loses the newcomer, the others their oldest; either may be
   the extreme, or the sample before it or behind it. */
static void lose_scene(struct log *l, struct site *s)
{
    int aside = PICK(l, 0, 0, 0, 1);
    int behind = below(l, 3);

    set_site_mode(l, s);
    if (s->mode >> 6 == 1) {
        put_site_samples(l, s, depth(s->mode) - aside);
        put_extreme(l, s);
        put_site_samples(l, s, behind);
    } else {
        put_site_samples(l, s, aside);
        put_extreme(l, s);
        put_site_samples(l, s, depth(s->mode) - 1 + behind);
    }
    if (one_in(l, 2))
        put_site_readout(l, s, 1 + behind);
}

/* Back to 2 g and BYPASS, and on in the range that all samples have. */
static void reset_site(struct log *l, struct site *s)
{
    put_write(l, 0x14, 0xB6);
    s->mode = 0x00;
    if (s->stays && s->range != 0x03)
        put_write(l, 0x0F, s->range);
}

/* Frames that are held when they are cleared, or a write that clears none. */
static void clear_scene(struct log *l, struct site *s)
{
    int fill = PICK(l, 0, 1, 1, 2, 3, 7, 31, 32, 33);
    int frames = below(l, 4);

    if (one_in(l, 2))
        set_site_mode(l, s);
    put_site_samples(l, s, fill);
    if (frames > 0)
        put_site_readout(l, s, frames);
    switch (below(l, 5)) {
    case 0:
        put_write(l, 0x3E, s->mode);
        break;
    case 1:
        set_site_mode(l, s);
        break;
    case 2:
        put_write(l, 0x3E, 0xC0 | s->mode); /* refused */
        break;
    case 3:
        put_write(l, 0x14, 0xB5); /* ignored */
        break;
    default:
        reset_site(l, s);
        break;
    }
}

/* Ranges, set and refused, with a single sample in some. */
static void turn_range(struct log *l, struct site *s)
{
    int turns = 1 + below(l, 4);

    while (turns-- > 0) {
        int range = any_range(l);
        int refused = PICK(l, 0x00, 0x04, 0x07, 0x0D, 0xF2, 0xFF);
        int samples = PICK(l, 0, 1, 1, 1, 2, 5);

        if (s->stays || one_in(l, 4))
            put_write(l, 0x0F, refused);
        else
            put_write(l, 0x0F, range);
        if (one_in(l, 2))
            move_site(l, s);
        put_site_samples(l, s, samples);
        if (one_in(l, 4))
            put_extreme(l, s);
    }
}

static void time_scene(struct log *l, struct site *s)
{
    int clocks = 1 + below(l, 5);

    while (clocks-- > 0) {
        uint32_t any = any_clock(l);
        int choice = below(l, 8);

        put_clock(l, choice < 4 ? UINT32_MAX : choice < 6 ? any : choice < 7 ? 0 : 1);
        if (one_in(l, 4))
            put_site_sample(l, s);
    }
}

/* Offsets that hold what is stored at an end, or lead there. */
static void shift_scene(struct log *l, struct site *s)
{
    int samples = 1 + below(l, 4);

    put_any_offset(l);
    put_any_offset(l);
    while (samples-- > 0) {
        if (one_in(l, 2))
            put_sample_near_end(l);
        else
            put_site_sample(l, s);
        if (one_in(l, 4))
            put_refused(l);
    }
    if (one_in(l, 2))
        for (int axis = X; axis < AXES; axis++)
            put_write(l, 0x38 + axis, 0x00);
}

static void refuse_scene(struct log *l, struct site *s)
{
    int turns = 1 + below(l, 3);

    while (turns-- > 0) {
        int length = PICK(l, 0, 193, 255);

        put_refused(l);
        if (one_in(l, 2))
            put_read(l, 0x3F, length);
        if (one_in(l, 2))
            put_site_sample(l, s);
    }
}

/* What a recorder does: cycles, samples, looks at the data and readouts. */
static void record_scene(struct log *l, struct site *s)
{
    int turns = 2 + below(l, 8);

    while (turns-- > 0) {
        int frames = below(l, 3);

        put_cycle_start(l);
        put_site_sample(l, s);
        if (one_in(l, 4))
            put_read(l, 0x02, 6);
        if (frames > 0)
            put_site_readout(l, s, frames);
    }
}

static void sheet_scene(struct log *l, struct site *s)
{
    static void (*const scene[])(struct log *, struct site *) = {
        lose_scene, lose_scene,  clear_scene,  clear_scene, turn_range,
        turn_range, shift_scene, refuse_scene, time_scene,  record_scene};

    scene[below(l, sizeof scene / sizeof *scene)](l, s);
}

static void sheet_log(uint64_t seed, uint64_t records)
{
    struct log l = {.state = -seed, .undamaged = UINT64_MAX, .step = 8};
    struct site s = {.mode = 0x00};
    uint64_t part = (uint64_t)PICK(&l, 1, 1, 4, 16);

    records = records / part > 0 ? 1 + draw(&l) % (records / part) : 0;
    if (one_in(&l, 16))
        records = 0;
    if (one_in(&l, 4)) {
        l.damage = (enum damage)(1 + below(&l, DAMAGES - 1));
        l.undamaged = records > 0 ? draw(&l) % records : 0;
    }
    put_head(&l);
    l.left = records;
    s.range = any_range(&l) & 0x0F;
    s.stays = one_in(&l, 3);
    if (s.range != 0x03 || one_in(&l, 2))
        put_write(&l, 0x0F, s.range);
    move_site(&l, &s);
    while (l.left > 0 && !l.ended)
        sheet_scene(&l, &s);
}

/* ---- the long log ---- */

static void put_bench_sample(struct log *l)
{
    int sample[AXES] = {0, 0, 1024};

    for (int axis = X; axis < AXES; axis++)
        sample[axis] += below(l, 64) - 32;
    put_cycle_start(l);
    put_sample(l, sample);
}

static void put_bench_write(struct log *l)
{
    int level = 1 + below(l, 32);
    int threshold = below(l, 32);
    int mode = PICK(l, 0x80, 0x80, 0x40, 0x81, 0x42);

    switch (below(l, 4)) {
    case 0:
        put_write(l, 0x30, level);
        break;
    case 1:
        put_write(l, 0x28, threshold);
        break;
    case 2:
        put_write(l, 0x21, 0x80);
        break;
    case 3:
        put_write(l, 0x3E, mode);
        break;
    }
}

static void big_log(uint64_t megabytes)
{
    struct log l = {.left = UINT64_MAX, .undamaged = UINT64_MAX, .step = 8};

    put_head(&l);
    put_write(&l, 0x3E, 0x80);
    put_write(&l, 0x17, 0x70);
    put_write(&l, 0x1A, 0x41);
    put_write(&l, 0x19, 0x04);
    put_write(&l, 0x16, 0x07);
    while (l.bytes < megabytes * 1000000) {
        int choice = below(&l, 1000);
        int frames = 1 + below(&l, 32);
        int address = PICK(&l, 0x00, 0x02, 0x09, 0x0E);

        if (choice < 850)
            put_bench_sample(&l);
        else if (choice < 940)
            put_read(&l, 0x3F, 6 * frames);
        else if (choice < 995)
            put_read(&l, address, 6);
        else
            put_bench_write(&l);
    }
}

static bool parse_number(const char *text, uint64_t *number)
{
    char *end;

    *number = strtoull(text, &end, 0);
    return end != text && *end == '\0';
}

static int usage(void)
{
    fputs("usage: logs SEED RECORDS [polls MARKS | cuts MARKS | sheet] | logs --big MEGABYTES\n",
          stderr);
    return 2;
}

int main(int count, char **argument)
{
    static char block[1 << 16];
    uint64_t seed = 0, size = 0;
    bool big = count == 3 && strcmp(argument[1], "--big") == 0;
    bool sheet = count == 4 && strcmp(argument[3], "sheet") == 0;
    enum form form = PLAIN;
    FILE *marks = NULL;

    if (count == 5)
        form = strcmp(argument[3], "polls") == 0  ? POLLED
               : strcmp(argument[3], "cuts") == 0 ? CUT_UP
                                                  : PLAIN;
    if (!(count == 3 || sheet || (count == 5 && form != PLAIN)) ||
        !(big || parse_number(argument[1], &seed)) || !parse_number(argument[2], &size))
        return usage();
    if (form != PLAIN && (marks = fopen(argument[4], "w")) == NULL) {
        perror(argument[4]);
        return 1;
    }
    setvbuf(stdout, block, _IOFBF, sizeof block);
    if (big)
        big_log(size);
    else if (sheet)
        sheet_log(seed, size);
    else
        edge_log(seed, size, form, marks);
    if (marks != NULL && fclose(marks) != 0)
        return 1;
    return fflush(stdout) != 0 || ferror(stdout) ? 1 : 0;
}
