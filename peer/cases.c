/* Checks peer.c, account.c and totals.c by calls and replay.c, answer.c and sheet.c by running them,
   against the cases that the rules print and the edges around them. Usage: cases [REPLAY [ANSWER
   [SHEET]]], commands that run the three programs. */
#include "account.h"
#include "peer.h"
#include "records.h"
#include "text.h"
#include "totals.h"

#include <stdarg.h>
#include <stdio.h>
#include <stdlib.h>
#include <string.h>

static int passed, failed;

static void check(bool holds, const char *what, ...)
{
    va_list values;

    if (holds) {
        passed++;
        return;
    }
    failed++;
    va_start(values, what);
    printf("failed: ");
    vprintf(what, values);
    printf("\n");
    va_end(values);
}

static unsigned draw(unsigned limit)
{
    static uint32_t state = 1;

    state = state * 1664525u + 1013904223u;
    return (state >> 16) % limit;
}

/* ---- helpers on a twin ---- */

static size_t from_hex(const char *hex, uint8_t *bytes)
{
    size_t length = 0;

    for (; *hex != '\0'; hex++)
        if (*hex != ' ') {
            char two[3] = {hex[0], hex[1], '\0'};

            bytes[length++] = (uint8_t)strtoul(two, NULL, 16);
            hex++;
        }
    return length;
}

/* Whether a burst from the address gives these bytes. */
static bool gives(struct peer *t, uint8_t address, const char *hex)
{
    uint8_t wanted[PEER_LONGEST_READ], got[PEER_LONGEST_READ];
    size_t length = from_hex(hex, wanted);

    return peer_read(t, address, got, length) == PEER_DONE && memcmp(wanted, got, length) == 0;
}

static enum peer_answer reads(struct peer *t, uint8_t address, size_t length)
{
    uint8_t buffer[256];

    return peer_read(t, address, buffer, length);
}

static enum peer_answer sample_x(struct peer *t, int x)
{
    return peer_sample(t, x, 0, 0, 0);
}

/* A fresh twin with one register written. */
static struct peer fresh(uint8_t address, uint8_t byte)
{
    struct peer t;

    peer_power_up(&t);
    peer_write(&t, address, byte);
    return t;
}

static bool same_motion(const struct peer_motion *a, const struct peer_motion *b)
{
    return a->status == b->status && a->marks == b->marks && a->negative == b->negative &&
           a->over_run == b->over_run && a->calm_run == b->calm_run && a->wait == b->wait &&
           a->left == b->left;
}

/* Whether two twins are the same in all but padding; neither FIFO, low-g nor high-g has any. */
static bool same(const struct peer *a, const struct peer *b)
{
    return memcmp(a->reg, b->reg, sizeof a->reg) == 0 &&
           memcmp(a->lock, b->lock, sizeof a->lock) == 0 &&
           memcmp(a->locked, b->locked, sizeof a->locked) == 0 && a->fresh_data == b->fresh_data &&
           memcmp(&a->fifo, &b->fifo, sizeof a->fifo) == 0 &&
           memcmp(a->previous, b->previous, sizeof a->previous) == 0 &&
           a->has_previous == b->has_previous && same_motion(&a->motion, &b->motion) &&
           same_motion(&a->slow, &b->slow) &&
           memcmp(&a->low, &b->low, sizeof a->low) == 0 &&
           memcmp(&a->high, &b->high, sizeof a->high) == 0;
}

static bool pins_are(const struct peer *t, enum peer_level int1, enum peer_level int2)
{
    struct peer_pins pins = peer_pins(t);

    return pins.int1 == int1 && pins.int2 == int2;
}

/* ---- both sides of each edge ---- */

static void p1_to_p4(void)
{
    struct peer t;

    peer_power_up(&t);
    check(gives(&t, 0x00, "FA"), "P1 fresh 0x00 reads FA");
    check(peer_write(&t, 0x00, 0x12) == 0 && gives(&t, 0x00, "FA"), "P1 after writing 12, FA");
    check(peer_write(&t, 0x0F, 0xF5) == 0 && gives(&t, 0x0F, "05"), "P2 F5 reads back 05");
    check(peer_write(&t, 0x0F, 0x04) == 2 && gives(&t, 0x0F, "05"), "P2 04 gives 2, 05 remains");
    check(reads(&t, 0x3E, 1) == 0, "P3 0x3E length 1 is 0");
    check(reads(&t, 0x3E, 2) == 6, "P3 0x3E length 2 is 6");
    check(reads(&t, 0x40, 0) == 1, "P3 0x40 length 0 is 1");
    check(reads(&t, 0x3F, 193) == 5, "P3 0x3F length 193 is 5");
    check(sample_x(&t, 2047) == 0, "P4 2047 accepted");
    check(sample_x(&t, 2048) == 4, "P4 2048 gives 4");
    check(gives(&t, 0x3F, "F17F01000100"), "P4 2047 is the only frame");
    check(sample_x(&t, -2049) == 4, "P4 -2049 gives 4");
    check(sample_x(&t, -2048) == 0 && gives(&t, 0x3F, "0180"), "P4 -2048 stored as 01 80");
}

static void p5_to_p7(void)
{
    struct peer t = fresh(0x3E, 0x40);

    for (int i = 1; i <= 32; i++)
        sample_x(&t, 16 * i);
    check(gives(&t, 0x0E, "20"), "P5 32 samples: 20");
    sample_x(&t, 16 * 33);
    check(gives(&t, 0x0E, "A0"), "P5 one more: A0");
    check(gives(&t, 0x3F, "010101000100"), "P5 first frame the first sample");
    t = fresh(0x3E, 0x80);
    for (int i = 1; i <= 33; i++)
        sample_x(&t, 16 * i);
    check(gives(&t, 0x0E, "A0"), "P6 33 samples: A0");
    check(gives(&t, 0x3F, "010201000100"), "P6 first frame the second sample");
    t = fresh(0x3E, 0x40);
    sample_x(&t, 1);
    sample_x(&t, 2);
    check(reads(&t, 0x3F, 1) == 0 && gives(&t, 0x0E, "01"), "P7 reading 1 byte leaves 1");
    sample_x(&t, 3);
    check(gives(&t, 0x3F, "21000100010031") && gives(&t, 0x0E, "00"), "P7 7 from two leaves 0");
}

static void p8_to_p10(void)
{
    struct peer t;

    peer_power_up(&t);
    sample_x(&t, 291);
    check(gives(&t, 0x02, "31"), "P8 0x02 gives 31");
    sample_x(&t, -1);
    check(gives(&t, 0x03, "12") && gives(&t, 0x03, "FF"), "P8 0x03 gives 12, then FF");
    t = fresh(0x16, 0x01);
    peer_write(&t, 0x28, 0x01);
    peer_write(&t, 0x27, 0x00);
    sample_x(&t, 0);
    sample_x(&t, 4);
    check(gives(&t, 0x09, "000000"), "P9 not set at 4");
    sample_x(&t, 9);
    check(gives(&t, 0x09, "040001"), "P9 set at 9, 0x0B is 01");
    t = fresh(0x16, 0x01);
    peer_write(&t, 0x28, 0x01);
    sample_x(&t, 0);
    sample_x(&t, -5);
    check(gives(&t, 0x09, "040009"), "P9 afresh 0, -5: 0x0B is 09");
    check(peer_write(&t, 0x21, 0x01) == 0 && gives(&t, 0x21, "01"), "P10 0x21=01 gives 0");
    check(gives(&t, 0x09, "000008"), "P10 the accepted write cleared all but the sign");
    check(peer_write(&t, 0x21, 0x07) == 0 && gives(&t, 0x21, "07"), "P10 07 gives 0");
}

/* ---- watermark ---- */

static void sample_times(struct peer *t, int times)
{
    while (times-- > 0)
        sample_x(t, 0);
}

/* A fresh twin with the watermark on, in this mode and at this level. */
static struct peer at_level(uint8_t mode, uint8_t level)
{
    struct peer t = fresh(0x17, 0x40);

    peer_write(&t, 0x30, level);
    peer_write(&t, 0x3E, mode);
    return t;
}

static void watermark_of_2(void)
{
    struct peer t = at_level(0x40, 2);

    sample_x(&t, 0);
    check(gives(&t, 0x0A, "00"), "watermark 2, one frame: 0");
    sample_x(&t, 0);
    check(gives(&t, 0x0A, "40"), "watermark 2, two frames: 1");
    sample_x(&t, 0);
    check(gives(&t, 0x0A, "40"), "watermark 2, three frames: 1");
}

/* So many samples, an event as the body of a record, so many samples more: then 0x0A and 0x0E. */
static const struct {
    uint8_t mode, level;
    int before;
    const char *event;
    int after;
    const char *status, *count;
} reached[] = {
    /* FIFO mode */
    {0x40, 1, 0, "", 0, "00", "00"},           {0x40, 1, 1, "", 0, "40", "01"},
    {0x40, 1, 2, "", 0, "40", "02"},           {0x40, 1, 33, "", 0, "40", "A0"},
    {0x40, 2, 1, "", 0, "00", "01"},           {0x40, 2, 2, "", 0, "40", "02"},
    {0x40, 2, 3, "", 0, "40", "03"},           {0x40, 2, 32, "", 0, "40", "20"},
    {0x40, 31, 30, "", 0, "00", "1E"},         {0x40, 31, 31, "", 0, "40", "1F"},
    {0x40, 31, 32, "", 0, "40", "20"},         {0x40, 32, 31, "", 0, "00", "1F"},
    {0x40, 32, 32, "", 0, "40", "20"},         {0x40, 32, 33, "", 0, "40", "A0"},
    /* STREAM mode */
    {0x80, 2, 1, "", 0, "00", "01"},           {0x80, 2, 2, "", 0, "40", "02"},
    {0x80, 2, 3, "", 0, "40", "03"},           {0x80, 32, 31, "", 0, "00", "1F"},
    {0x80, 32, 32, "", 0, "40", "20"},         {0x80, 32, 33, "", 0, "40", "A0"},
    {0x80, 31, 33, "", 0, "40", "A0"},         {0x80, 32, 64, "", 0, "40", "A0"},
    /* BYPASS */
    {0x00, 1, 0, "", 0, "00", "00"},           {0x00, 1, 1, "", 0, "40", "01"},
    {0x00, 1, 2, "", 0, "40", "81"},           {0x00, 2, 1, "", 0, "00", "01"},
    {0x00, 2, 2, "", 0, "00", "81"},           {0x00, 2, 3, "", 0, "00", "81"},
    {0x00, 0, 1, "", 0, "00", "01"},           {0x00, 32, 33, "", 0, "00", "81"},
    /* levels that never fire */
    {0x40, 0, 0, "", 0, "00", "00"},           {0x40, 0, 1, "", 0, "00", "01"},
    {0x40, 0, 33, "", 0, "00", "A0"},          {0x40, 33, 32, "", 0, "00", "20"},
    {0x40, 33, 33, "", 0, "00", "A0"},         {0x40, 63, 32, "", 0, "00", "20"},
    {0x80, 0, 32, "", 0, "00", "20"},          {0x80, 33, 33, "", 0, "00", "A0"},
    {0x80, 63, 63, "", 0, "00", "A0"},         {0x00, 33, 33, "", 0, "00", "81"},
    /* bits 7:6 of 0x30 are ignored */
    {0x40, 0xC2, 1, "", 0, "00", "01"},        {0x40, 0xC2, 3, "", 0, "40", "03"},
    {0x40, 0x40, 1, "", 0, "00", "01"},        {0x80, 0xE0, 32, "", 0, "40", "20"},
    /* readouts of whole and of part frames, to the level and below it */
    {0x40, 2, 3, "02 3F 06", 0, "40", "02"},   {0x40, 2, 3, "02 3F 01", 0, "40", "02"},
    {0x40, 2, 3, "02 3F 07", 0, "00", "01"},   {0x40, 2, 3, "02 3F 0C", 0, "00", "01"},
    {0x40, 2, 2, "02 3F 01", 0, "00", "01"},   {0x40, 2, 2, "02 3F 01", 1, "40", "02"},
    {0x40, 2, 2, "02 3F C0", 1, "00", "01"},   {0x40, 2, 32, "02 3F B4", 0, "40", "02"},
    {0x40, 2, 32, "02 3F B5", 0, "00", "01"},  {0x40, 1, 0, "02 3F 06", 0, "00", "00"},
    {0x40, 32, 33, "02 3F 01", 0, "00", "9F"}, {0x40, 32, 33, "02 3F 01", 1, "40", "A0"},
    {0x80, 31, 33, "02 3F 06", 0, "40", "9F"}, {0x80, 31, 33, "02 3F 07", 0, "00", "9E"},
    {0x40, 33, 33, "02 3F 01", 0, "00", "9F"}, {0x00, 1, 1, "02 3F 01", 0, "00", "00"},
    {0x00, 1, 1, "02 3F 06", 2, "40", "81"},   {0x00, 2, 2, "02 3F 06", 1, "00", "81"},
    {0x41, 3, 5, "02 3F 03", 0, "40", "03"},   {0x41, 3, 5, "02 3F 05", 0, "00", "02"},
    {0x82, 3, 5, "02 3F 04", 0, "40", "03"},   {0x83, 3, 3, "02 3F 01", 0, "00", "02"},
    {0x40, 2, 2, "02 3F C1", 0, "40", "02"},   {0x40, 2, 2, "02 02 06", 0, "40", "02"},
    /* another level while frames wait */
    {0x40, 2, 2, "01 30 00", 0, "00", "02"},   {0x40, 3, 2, "01 30 01", 0, "40", "02"},
    {0x40, 3, 2, "01 30 02", 0, "40", "02"},   {0x40, 2, 2, "01 30 03", 0, "00", "02"},
    {0x40, 2, 2, "01 30 03", 1, "40", "03"},   {0x40, 2, 2, "01 30 04", 1, "00", "03"},
    {0x80, 2, 32, "01 30 21", 0, "00", "20"},  {0x80, 63, 32, "01 30 20", 0, "40", "20"},
    /* another mode, or the same one: empty at first */
    {0x40, 2, 2, "01 3E 40", 0, "00", "00"},   {0x40, 2, 2, "01 3E 40", 2, "40", "02"},
    {0x40, 2, 3, "01 3E 80", 1, "00", "01"},   {0x40, 2, 3, "01 3E 80", 3, "40", "03"},
    {0x40, 2, 3, "01 3E 00", 1, "00", "01"},   {0x40, 1, 3, "01 3E 00", 1, "40", "01"},
    {0x00, 2, 2, "01 3E 40", 2, "40", "02"},   {0x40, 2, 2, "01 3E C0", 0, "40", "02"},
    /* 0x17 bit 6 off, on; low-g and high-g, data and full beside it */
    {0x40, 2, 2, "01 17 00", 1, "00", "03"},   {0x40, 2, 2, "01 17 40", 1, "40", "03"},
    {0x40, 2, 2, "01 17 8F", 1, "00", "03"},   {0x40, 2, 2, "01 18 07", 1, "40", "03"},
    {0x40, 2, 2, "01 17 4F", 1, "40", "03"},   {0x40, 2, 2, "01 17 30", 1, "80", "03"},
    {0x40, 2, 1, "01 17 70", 1, "C0", "02"},   {0x40, 2, 1, "01 17 70", 31, "E0", "20"},
    {0x40, 2, 1, "01 17 60", 30, "40", "1F"},  {0x40, 2, 1, "01 17 60", 31, "60", "20"},
    {0x80, 32, 1, "01 17 60", 30, "00", "1F"}, {0x80, 32, 1, "01 17 60", 32, "60", "A0"},
    {0x40, 2, 1, "01 17 20", 31, "20", "20"},  {0x40, 0, 1, "01 17 60", 31, "20", "20"},
    {0x40, 33, 1, "01 17 60", 32, "20", "A0"}, {0x00, 1, 0, "01 17 60", 1, "60", "01"},
    {0x00, 2, 0, "01 17 60", 1, "20", "01"},   {0x00, 2, 0, "01 17 60", 2, "20", "81"},
    /* events that leave it, and the one that ends it */
    {0x40, 2, 2, "04", 0, "40", "02"},         {0x40, 2, 2, "01 14 B5", 0, "40", "02"},
    {0x40, 2, 1, "03 08 00 00 00 00 00 00", 0, "00", "01"},
    {0x40, 2, 2, "01 14 B6", 3, "00", "81"},
};

static void watermark_reached(void)
{
    for (size_t i = 0; i < sizeof reached / sizeof *reached; i++) {
        struct peer t = at_level(reached[i].mode, reached[i].level);
        uint8_t body[LONGEST_BODY], bytes[UINT8_MAX];

        sample_times(&t, reached[i].before);
        if (from_hex(reached[i].event, body) > 0)
            play_body(&t, body, bytes);
        sample_times(&t, reached[i].after);
        check(gives(&t, 0x0A, reached[i].status) && gives(&t, 0x0E, reached[i].count),
              "3E=%02X, level %d, %d samples, %s, %d samples: %s and %s", reached[i].mode,
              reached[i].level, reached[i].before, reached[i].event, reached[i].after,
              reached[i].status, reached[i].count);
    }
}

/* Level 2 in FIFO mode: the pins after each event, as the body of a record. */
#define ONE_SAMPLE "03 00 00 00 00 00 00 00"
static const struct {
    const char *event;
    enum peer_level int1, int2;
} watched[] = {
    {"01 1A 02", PEER_LOW, PEER_LOW},       /* mapped to INT1 */
    {ONE_SAMPLE, PEER_LOW, PEER_LOW},       /* one frame */
    {ONE_SAMPLE, PEER_HIGH, PEER_LOW},      /* two */
    {ONE_SAMPLE, PEER_HIGH, PEER_LOW},      /* three */
    {"01 1A 40", PEER_LOW, PEER_HIGH},      /* mapped to INT2 */
    {"01 1A 42", PEER_HIGH, PEER_HIGH},     /* to both */
    {"01 20 02", PEER_LOW, PEER_LOW},       /* active levels 0, INT1 open-drive */
    {"02 3F 07", PEER_RELEASED, PEER_HIGH}, /* one frame left */
    {ONE_SAMPLE, PEER_LOW, PEER_LOW},       /* two again */
    {"01 1A A5", PEER_RELEASED, PEER_HIGH}, /* data and full alone mapped */
    {"01 17 60", PEER_RELEASED, PEER_HIGH}, /* full enabled too, and not full */
    {"01 1A 26", PEER_LOW, PEER_HIGH},      /* watermark and full to INT1, full to INT2 */
    {"01 1A 42", PEER_LOW, PEER_LOW},       /* watermark to both */
    {"01 17 30", PEER_RELEASED, PEER_HIGH}, /* 0x17 bit 6 off */
};

static void watermark_pins(void)
{
    struct peer t = at_level(0x40, 2);

    for (size_t i = 0; i < sizeof watched / sizeof *watched; i++) {
        uint8_t body[LONGEST_BODY], bytes[UINT8_MAX];

        from_hex(watched[i].event, body);
        check(play_body(&t, body, bytes) == 0 && pins_are(&t, watched[i].int1, watched[i].int2),
              "level 2, pins after event %zu, %s", i + 1, watched[i].event);
    }
}

static void watermark(void)
{
    watermark_of_2();
    watermark_reached();
    watermark_pins();
}

/* ---- the register table, in the words of the rules ---- */

static const char table[] =
    "00:FA/00 01:FF/00 02:00/00 03:00/00 04:00/00 05:00/00 06:00/00 07:00/00 08:00/00 09:00/00 "
    "0A:00/00 0B:00/00 0C:00/00 0D:FF/00 0E:00/00 0F:03/0F 10:0F/1F 11:00/FE 12:00/60 13:00/C0 "
    "14:00/00 15:FF/00 16:00/F7 17:00/7F 18:00/0F 19:00/FF 1A:00/E7 1B:00/FF 1C:FF/00 1D:FF/00 "
    "1E:00/3F 1F:FF/00 20:05/0F 21:00/0F 22:09/FF 23:30/FF 24:81/C7 25:0F/FF 26:C0/FF 27:00/FF "
    "28:14/FF 29:14/FF 2A:04/C7 2B:0A/DF 2C:18/7F 2D:48/7F 2E:08/3F 2F:11/37 30:00/3F 31:FF/00 "
    "32:00/07 33:F4/00 34:00/07 35:FF/00 36:10/00 37:00/7F 38:00/FF 39:00/FF 3A:00/FF 3B:00/FF "
    "3C:00/FF 3D:FF/00 3E:00/C3";

/* What the twin lacks, in the order of the request: the bits that are refused where one of them is
   1, the bits that are not, and the number. */
static const struct {
    unsigned address;
    const char *refused, *accepted;
    unsigned number;
} lacking[] = {
    {0x16, "7654", "3210", 11}, /* detectors */
    {0x17, "", "76543210", 11}, /* no more: low-g and high-g are there */
    {0x18, "", "76543210", 11}, /* no more: slow motion and no-motion are there */
    {0x11, "765", "43210", 12}, /* power modes */
    {0x32, "10", "765432", 13}, /* self-test */
    {0x33, "310", "76542", 13}, /* memory */
    {0x36, "765210", "43", 13}, /* calibration */
    {0x38, "", "76543210", 13}, /* no more: offsets are applied */
    {0x39, "", "76543210", 13},
    {0x3A, "", "76543210", 13},
};

enum { LACKING = sizeof lacking / sizeof *lacking };

static unsigned bits(const char *numbers)
{
    unsigned byte = 0;

    for (; *numbers != '\0'; numbers++)
        byte |= 1u << (*numbers - '0');
    return byte;
}

static bool nibble_among(unsigned byte, const char *nibbles)
{
    return strchr(nibbles, "0123456789ABCDEF"[byte & 15]) != NULL;
}

/* Whether 0x18 chooses no-motion by bit 3, and 0x27 has a code from 22 to 31 in its bits 7:2. */
static bool no_meaning(unsigned in_18, unsigned in_27)
{
    return in_18 & 8 && in_27 / 4 >= 22 && in_27 / 4 <= 31;
}

/* Where 0x18 and 0x27 hold these before the write. */
static unsigned expected_answer(unsigned address, unsigned byte, unsigned in_18, unsigned in_27)
{
    if (address > 0x3F)
        return 1;
    if (address == 0x0F)
        return nibble_among(byte, "358C") ? 0 : 2;
    if (address == 0x3E)
        return byte < 0xC0 ? 0 : 2;
    if (address == 0x18)
        return no_meaning(byte, in_27) ? 2 : 0;
    if (address == 0x27)
        return no_meaning(in_18, byte) ? 2 : 0;
    for (int i = 0; i < LACKING; i++)
        if (lacking[i].address == address && byte & bits(lacking[i].refused))
            return lacking[i].number;
    return 0;
}

static bool row_holds(unsigned address, unsigned reset, unsigned mask)
{
    for (unsigned byte = 0; byte < 256; byte++) {
        struct peer t;
        uint8_t got;
        unsigned wanted = expected_answer(address, byte, 0x00, 0x00);
        unsigned after = wanted ? reset : (reset & ~mask) | (byte & mask);

        peer_power_up(&t);
        peer_read(&t, (uint8_t)address, &got, 1);
        if (got != reset || peer_write(&t, (uint8_t)address, (uint8_t)byte) != wanted)
            return false;
        peer_read(&t, (uint8_t)address, &got, 1);
        if (got != after)
            return false;
    }
    return true;
}

static void register_table(void)
{
    unsigned address, reset, mask;
    int taken;

    for (const char *p = table; sscanf(p, "%x:%x/%x%n", &address, &reset, &mask, &taken) == 3;
         p += taken)
        check(row_holds(address, reset, mask), "register row %02X", address);
}

/* ---- what the twin lacks ---- */

/* A twin in which any effect of a write shows: overrun, each status, a lock on x, and bytes other
   than those of reset. What is below 2040 and not 0 is both low and high. The second sample sets
   no-motion and the third any-motion and slow motion; the two bytes choose which, with N 1 or 1 s. */
static struct peer busy_with(unsigned in_18, unsigned in_27)
{
    struct peer t = fresh(0x16, 0x07);

    peer_write(&t, 0x11, 0x1E);
    peer_write(&t, 0x17, 0x7F);
    peer_write(&t, 0x18, (uint8_t)in_18);
    peer_write(&t, 0x27, (uint8_t)in_27);
    peer_write(&t, 0x21, 0x0F);
    peer_write(&t, 0x22, 0x00);
    peer_write(&t, 0x23, 0xFF);
    peer_write(&t, 0x25, 0x00);
    peer_write(&t, 0x26, 0x00);
    peer_write(&t, 0x30, 0x01);
    peer_write(&t, 0x32, 0x04);
    peer_sample(&t, -1, 1, 0, 1);
    peer_clock(&t, 1000000);
    peer_sample(&t, -1, 1, 0, 1);
    peer_sample(&t, -2000, 2039, 5, 2);
    reads(&t, 0x02, 1);
    return t;
}

static struct peer busy(void)
{
    return busy_with(0x0F, 0x00);
}

static void write_gives(unsigned address, unsigned byte, unsigned wanted)
{
    struct peer t = busy(), before = t;

    check(peer_write(&t, (uint8_t)address, (uint8_t)byte) == wanted, "%02X=%02X is %u", address,
          byte, wanted);
    if (wanted != 0)
        check(same(&t, &before), "%02X=%02X changes nothing", address, byte);
}

static void bits_lacking(void)
{
    for (int i = 0; i < LACKING; i++) {
        unsigned address = lacking[i].address, number = lacking[i].number;
        unsigned refused = bits(lacking[i].refused), accepted = bits(lacking[i].accepted);

        check((refused ^ accepted) == 0xFF, "each bit of %02X is on one side", address);
        for (unsigned bit = 1; bit < 0x100; bit <<= 1) {
            write_gives(address, bit, bit & refused ? number : 0);
            write_gives(address, bit | accepted, bit & refused ? number : 0);
        }
        write_gives(address, 0x00, 0);
        write_gives(address, refused, refused ? number : 0);
        write_gives(address, 0xFF, refused ? number : 0);
    }
}

static void power_modes_at_once(void)
{
    write_gives(0x11, 0xC0, 12);
    write_gives(0x11, 0xA0, 12);
    write_gives(0x11, 0x60, 12);
    write_gives(0x11, 0xE0, 12);
}

/* Bit 7 is a command, bits 6:4 are ignored: no byte is refused, and the nibble alone is stored. */
static void latch_codes(void)
{
    for (unsigned byte = 0; byte < 256; byte++) {
        struct peer t = busy();
        uint8_t got;

        check(peer_write(&t, 0x21, (uint8_t)byte) == 0 && gives(&t, 0x09, "00E00808"),
              "21=%02X is 0 and clears", byte);
        check(peer_read(&t, 0x21, &got, 1) == 0 && got == (byte & 0x0F), "21=%02X reads %X", byte,
              byte & 0x0F);
    }
}

/* Every write to a twin whose 0x18 and 0x27 hold these. */
static void every_write(unsigned in_18, unsigned in_27)
{
    struct peer before = busy_with(in_18, in_27), t = before;
    int gone = 0, others = 0, changes = 0;

    check(gives(&t, 0x09, "0FE00909FF81"), "the busy twin has each status and overrun set");
    for (unsigned address = 0; address < 0x100; address++)
        for (unsigned byte = 0; byte < 0x100; byte++) {
            unsigned answer;

            t = before;
            answer = peer_write(&t, (uint8_t)address, (uint8_t)byte);
            gone += answer == 3 || answer == 14;
            others += answer != expected_answer(address, byte, in_18, in_27);
            changes += answer != 0 && !same(&t, &before);
        }
    check(gone == 0, "%d writes are answered 3 or 14", gone);
    check(others == 0, "%d writes are answered other than the rules say", others);
    check(changes == 0, "%d refused writes change the twin", changes);
}

static void refusals_by_register(void)
{
    bits_lacking();
    power_modes_at_once();
    latch_codes();
    every_write(0x0F, 0x00); /* no-motion of 1 s */
    every_write(0x07, 0x60); /* slow motion, with a code that has no meaning for the other */
}

/* ---- further edges ---- */

static void refusals_change_nothing(void)
{
    struct peer t = fresh(0x3E, 0x40), before;
    uint8_t buffer[256], untouched[256];

    memset(buffer, 0x5A, sizeof buffer);
    memset(untouched, 0x5A, sizeof untouched);
    peer_sample(&t, 1, 2, 3, 4);
    before = t;
    check(peer_read(&t, 0x40, buffer, 1) == 1, "read at 0x40 is 1");
    check(peer_read(&t, 0xFF, buffer, 255) == 1, "read at 0xFF is 1");
    check(peer_read(&t, 0x00, buffer, 0) == 5, "length 0 is 5");
    check(peer_read(&t, 0x00, buffer, 193) == 5, "length 193 at 0x00 is 5");
    check(peer_read(&t, 0x3F, buffer, 255) == 5, "length 255 at 0x3F is 5");
    check(peer_read(&t, 0x00, buffer, 64) == 6, "length 64 at 0x00 is 6");
    check(peer_write(&t, 0x40, 0) == 1, "write at 0x40 is 1");
    check(peer_write(&t, 0x3E, 0xC0) == 2, "3E=C0 is 2");
    check(peer_sample(&t, 0, 2048, 0, 0) == 4, "y 2048 is 4");
    check(peer_sample(&t, 0, 0, -2049, 0) == 4, "z -2049 is 4");
    check(same(&t, &before), "refusals leave the twin as it was");
    check(memcmp(buffer, untouched, sizeof buffer) == 0, "refusals leave the buffer as it was");
    check(peer_read(&t, 0x00, buffer, 63) == 0, "length 63 at 0x00 is 0");
    check(peer_read(&t, 0x3F, buffer, 192) == 0, "length 192 at 0x3F is 0");
}

static void locks(void)
{
    struct peer t;

    peer_power_up(&t);
    check(gives(&t, 0x02, "00"), "fresh 0x02 is 00, and locks");
    sample_x(&t, 291);
    check(gives(&t, 0x03, "00") && gives(&t, 0x03, "12"), "locked to 0 before any sample");
    check(gives(&t, 0x02, "31") && gives(&t, 0x02, "30"), "new-data bit falls after the read");
    sample_x(&t, -1);
    check(gives(&t, 0x02, "F1"), "the LSB shows the present sample");
    check(gives(&t, 0x03, "FF"), "reading the LSB again locks anew");
    check(gives(&t, 0x02, "F0"), "reading the MSB leaves new-data alone");
    sample_x(&t, 0);
    peer_write(&t, 0x13, 0x80);
    check(gives(&t, 0x03, "FF"), "0x13 with bit 6 at 0 keeps the lock");
    check(gives(&t, 0x02, "01"), "locked once more");
    sample_x(&t, -1);
    peer_write(&t, 0x13, 0x40);
    check(gives(&t, 0x03, "FF"), "0x13 with bit 6 at 1 releases the lock");
    check(gives(&t, 0x02, "F1"), "LSB with shadow off");
    sample_x(&t, 0);
    check(gives(&t, 0x03, "00"), "no lock with shadow off");
}

static void fifo(void)
{
    struct peer t;

    peer_power_up(&t);
    sample_x(&t, 1);
    check(gives(&t, 0x0E, "01"), "BYPASS holds one");
    sample_x(&t, 2);
    check(gives(&t, 0x0E, "81"), "BYPASS overrun at the second");
    check(gives(&t, 0x3F, "21000100010000"), "BYPASS gives the newer, then zero");
    check(gives(&t, 0x0E, "80"), "draining keeps overrun");
    check(peer_write(&t, 0x3E, 0x82) == 0 && gives(&t, 0x0E, "00"), "3E clears overrun");
    peer_sample(&t, 1, -2, 3, 0);
    check(gives(&t, 0x3F, "E1FF00"), "y alone");
    peer_write(&t, 0x3E, 0x83);
    peer_sample(&t, 1, -2, 3, 0);
    check(gives(&t, 0x3F, "3100"), "z alone");
    peer_write(&t, 0x3E, 0x3D);
    peer_sample(&t, 1, -2, 3, 0);
    check(gives(&t, 0x3E, "01") && gives(&t, 0x3F, "110000"), "x alone");
    peer_sample(&t, 1, -2, 3, 0);
    check(peer_write(&t, 0x3E, 0xC1) == 2 && gives(&t, 0x0E, "01"), "refused 3E empties nothing");
    check(peer_write(&t, 0x30, 5) == 0 && gives(&t, 0x0E, "01"), "0x30 empties nothing");
    check(peer_write(&t, 0x3E, 0x01) == 0 && gives(&t, 0x0E, "00"), "the same byte empties");
}

/* N = 2, threshold 4 on y and z. */
static void runs(void)
{
    struct peer t = fresh(0x16, 0x06);

    peer_write(&t, 0x28, 1);
    peer_write(&t, 0x27, 0x01);
    peer_sample(&t, 0, 0, 0, 0);
    peer_sample(&t, 2047, 5, 0, 0);
    check(gives(&t, 0x09, "000000"), "one over point of two");
    peer_sample(&t, -2048, 5, -5, 0);
    check(gives(&t, 0x09, "04000C"), "set at the second, z marked, negative");
    peer_sample(&t, 2047, 10, -5, 0);
    check(gives(&t, 0x09, "04000C"), "not set again");
    peer_sample(&t, -2048, 10, -5, 0);
    check(gives(&t, 0x09, "04"), "one calm point of two; x is not enabled");
    peer_sample(&t, -2048, 10, -5, 0);
    check(gives(&t, 0x09, "000008"), "cleared at the second, sign stays");
    peer_sample(&t, 0, 20, 5, 0);
    peer_sample(&t, 0, 30, 15, 0);
    check(gives(&t, 0x09, "040002"), "y before z, positive");
    check(peer_write(&t, 0x16, 0x16) == 11 && gives(&t, 0x09, "04"), "refused 16 clears nothing");
    check(peer_write(&t, 0x21, 0x87) == 0 && gives(&t, 0x09, "000000"), "0x21 clears");
    peer_sample(&t, 0, 20, 15, 0);
    peer_sample(&t, 0, 10, 15, 0);
    for (int i = 0; i < 4; i++)
        peer_sample(&t, 0, 10, 15, 0);
    check(gives(&t, 0x09, "04000A"), "latched stays");
    check(peer_write(&t, 0x28, 0) == 0 && gives(&t, 0x09, "000008"), "0x28 clears all but sign");
}

static void previous_sample(void)
{
    struct peer t;

    peer_power_up(&t);
    sample_x(&t, -2048);
    check(peer_write(&t, 0x28, 0xFF) == 0 && peer_write(&t, 0x16, 0x01) == 0, "setup");
    sample_x(&t, 2047);
    check(gives(&t, 0x09, "040001"), "the sample before enabling is remembered");
    peer_write(&t, 0x0F, 0x03);
    check(gives(&t, 0x09, "000000"), "0x0F clears");
    sample_x(&t, -2048);
    check(gives(&t, 0x09, "000000"), "0x0F forgets the previous sample");
    sample_x(&t, -1028);
    check(gives(&t, 0x09, "00"), "slope 1020 is calm at FF");
    sample_x(&t, -2048);
    sample_x(&t, -1027);
    check(gives(&t, 0x09, "040001"), "slope 1021 is over at FF");
}

static void soft_reset(void)
{
    struct peer t = fresh(0x3B, 0xAB), wanted;

    peer_write(&t, 0x3C, 0xCD);
    wanted = t;
    peer_write(&t, 0x16, 0x01);
    peer_write(&t, 0x28, 0x00);
    peer_sample(&t, 1, 2, 3, 4);
    peer_sample(&t, 0, 2, 3, 4);
    check(reads(&t, 0x02, 1) == 0, "read that locks");
    check(peer_write(&t, 0x14, 0xB5) == 0 && gives(&t, 0x0E, "81"), "B5 is ignored");
    check(peer_write(&t, 0x14, 0xB6) == 0, "B6 is 0");
    check(same(&t, &wanted), "all as at power-up but 0x3B and 0x3C");
}

static void data_and_full(void)
{
    struct peer t;

    peer_power_up(&t);
    sample_x(&t, 0);
    check(gives(&t, 0x0A, "00"), "no status without its enable bit");
    peer_write(&t, 0x17, 0x30);
    check(gives(&t, 0x0A, "A0"), "data and full show at once");
    check(peer_cycle_start(&t) == 0 && gives(&t, 0x0A, "20"), "cycle start ends data");
    check(sample_x(&t, 2048) == 4 && gives(&t, 0x0A, "20"), "a refused sample is no data");
    check(sample_x(&t, 1) == 0 && gives(&t, 0x0A, "A0"), "an accepted one is");
}

static void pins(void)
{
    struct peer t;

    peer_power_up(&t);
    check(pins_are(&t, PEER_LOW, PEER_LOW), "fresh pins are low");
    peer_write(&t, 0x20, 0x00);
    check(pins_are(&t, PEER_HIGH, PEER_HIGH), "inactive at active level 0 is high");
    peer_write(&t, 0x20, 0x0E);
    check(pins_are(&t, PEER_RELEASED, PEER_RELEASED), "inactive in open-drive is released");
    peer_write(&t, 0x17, 0x30);
    sample_x(&t, 0);
    check(pins_are(&t, PEER_RELEASED, PEER_RELEASED), "unmapped");
    peer_write(&t, 0x1A, 0x81);
    check(pins_are(&t, PEER_LOW, PEER_HIGH), "data on both, open-drive, active levels 0 and 1");
    peer_cycle_start(&t);
    check(pins_are(&t, PEER_RELEASED, PEER_RELEASED), "no data after the cycle start");
    peer_write(&t, 0x1A, 0x04);
    check(pins_are(&t, PEER_LOW, PEER_RELEASED), "full on INT1");
    peer_write(&t, 0x1A, 0x20);
    check(pins_are(&t, PEER_RELEASED, PEER_HIGH), "full on INT2");
    peer_write(&t, 0x17, 0x40);
    peer_write(&t, 0x30, 0x01);
    peer_write(&t, 0x1A, 0x02);
    check(pins_are(&t, PEER_LOW, PEER_RELEASED), "watermark on INT1");
    peer_write(&t, 0x1A, 0x40);
    check(pins_are(&t, PEER_RELEASED, PEER_HIGH), "watermark on INT2");
    peer_write(&t, 0x1A, 0x00);
    peer_write(&t, 0x16, 0x01);
    sample_x(&t, 100);
    peer_write(&t, 0x19, 0x04);
    check(pins_are(&t, PEER_LOW, PEER_RELEASED), "any-motion on INT1");
    peer_write(&t, 0x19, 0xFB);
    peer_write(&t, 0x1B, 0x04);
    check(pins_are(&t, PEER_RELEASED, PEER_HIGH), "any-motion on INT2");
}

/* ---- latch times ---- */

enum { MS = 1000, S = 1000000 }; /* microseconds */

static const struct {
    unsigned code;
    uint32_t time;
} holds[] = {
    {0x1, 250 * MS}, {0x2, 500 * MS}, {0x3, 1 * S},  {0x4, 2 * S},   {0x5, 4 * S},   {0x6, 8 * S},
    {0x9, 250},      {0xA, 500},      {0xB, 1 * MS}, {0xC, 12500},   {0xD, 25 * MS}, {0xE, 50 * MS},
};

enum { HOLDS = sizeof holds / sizeof *holds };

static int at; /* y of the sample before; the twins below are made one after the other */

static void over(struct peer *t, int points)
{
    while (points-- > 0)
        peer_sample(t, 0, at -= 5, 0, 0);
}

static void calm(struct peer *t, int points)
{
    while (points-- > 0)
        peer_sample(t, 0, at, 0, 0);
}

/* All axes, over above 4, N points and a code in 0x21; a sample of zeros came. */
static struct peer armed(unsigned code, int n)
{
    struct peer t = fresh(0x16, 0x07);

    peer_write(&t, 0x28, 0x01);
    peer_write(&t, 0x27, (uint8_t)(n - 1));
    peer_write(&t, 0x21, (uint8_t)code);
    at = 0;
    calm(&t, 1);
    return t;
}

/* The same with the status just set, by y and downwards. */
static struct peer held(unsigned code, int n)
{
    struct peer t = armed(code, n);

    over(&t, n);
    return t;
}

static bool stands(struct peer *t)
{
    return gives(t, 0x09, "04") && gives(t, 0x0B, "0A");
}

/* The sign stays when status and mark go. */
static bool cleared(struct peer *t)
{
    return gives(t, 0x09, "00") && gives(t, 0x0B, "08");
}

static bool stands_after(struct peer *t, uint32_t microseconds)
{
    return peer_clock(t, microseconds) == 0 && stands(t);
}

static bool cleared_after(struct peer *t, uint32_t microseconds)
{
    return peer_clock(t, microseconds) == 0 && cleared(t);
}

/* So many clocks of part leave the status; one of last leaves it too, or clears it. */
static void clocks(unsigned code, uint32_t times, uint32_t part, uint32_t last, bool leaves)
{
    struct peer t = held(code, 1);
    bool before;

    for (uint32_t i = 0; i < times; i++)
        peer_clock(&t, part);
    before = stands(&t);
    check(before && (leaves ? stands_after(&t, last) : cleared_after(&t, last)),
          "21=%02X, %u clocks of %u leave it, one of %u %s it", code, times, part, last,
          leaves ? "leaves" : "clears");
}

static void one_clock(unsigned code, uint32_t time)
{
    clocks(code, 0, 0, 0, true);
    clocks(code, 0, 0, 1, true);
    clocks(code, 0, 0, time - 1, true);
    clocks(code, 0, 0, time, false);
    clocks(code, 0, 0, time + 1, false);
    clocks(code, 0, 0, UINT32_MAX, false);
}

/* Each time is 250 parts of whole microseconds. */
static void many_clocks(unsigned code, uint32_t time)
{
    clocks(code, 1, 1, time - 2, true);
    clocks(code, 1, 1, time - 1, false);
    clocks(code, 1, 1, time, false);
    clocks(code, 1, time - 1, 0, true);
    clocks(code, 1, time - 1, 1, false);
    clocks(code, 1, time - 1, 2, false);
    clocks(code, 1, time - 1, UINT32_MAX, false); /* the sum passes 32 bits */
    clocks(code, 249, time / 250, time / 250 - 1, true);
    clocks(code, 249, time / 250, time / 250, false);
    clocks(code, 249, time / 250, time / 250 + 1, false);
    clocks(code, 1000, 0, time - 1, true);
    clocks(code, 1000, 0, time, false);
    clocks(code, time - 2, 1, 1, true);
    clocks(code, time - 1, 1, 1, false);
}

/* What stands beside the code in 0x21 changes no time. */
static void beside_the_code(unsigned code, uint32_t time)
{
    clocks(0x80 | code, 0, 0, time - 1, true);
    clocks(0x80 | code, 0, 0, time, false);
    clocks(0x70 | code, 1, time - 1, 0, true);
    clocks(0x70 | code, 1, time - 1, 1, false);
}

/* N calm points and more, at the start and the end of the time: neither sooner nor later. */
static void calm_points(unsigned code, uint32_t time)
{
    for (int n = 1; n <= 4; n++) {
        struct peer t = held(code, n);

        calm(&t, 10);
        check(stands(&t), "21=%02X, N %d: calm points leave it", code, n);
        check(stands_after(&t, time - 1), "21=%02X, N %d: calm, then time - 1", code, n);
        calm(&t, 10);
        check(stands(&t), "21=%02X, N %d: calm points after time - 1 leave it", code, n);
        check(cleared_after(&t, 1), "21=%02X, N %d: calm, then time", code, n);
    }
}

/* N over points and more: the time is that since the setting, and the marks are those of it. */
static void over_points(unsigned code, uint32_t time)
{
    for (int n = 1; n <= 4; n++) {
        struct peer t = held(code, n);

        over(&t, 10);
        check(stands_after(&t, time - 1), "21=%02X, N %d: over, then time - 1", code, n);
        peer_sample(&t, 100, at, 100, 0);
        check(stands(&t), "21=%02X, N %d: another mark is not made", code, n);
        peer_sample(&t, 0, at, 0, 0);
        over(&t, 10);
        check(cleared_after(&t, 1), "21=%02X, N %d: over, then time", code, n);
    }
}

/* Over points while the status stood don't count behind it: N fresh ones set it, for the whole
   time. */
static void runs_over_the_end(unsigned code, uint32_t time)
{
    for (int n = 1; n <= 4; n++) {
        struct peer t = held(code, n);

        calm(&t, 1);
        over(&t, n - 1);
        check(cleared_after(&t, time), "21=%02X, N %d: the end", code, n);
        over(&t, n - 1);
        check(cleared(&t), "21=%02X, N %d: too few over points behind the end", code, n);
        check(cleared_after(&t, time), "21=%02X, N %d: a clock for no status", code, n);
        over(&t, 1);
        check(stands(&t), "21=%02X, N %d: N over points behind the end", code, n);
        check(stands_after(&t, time - 1), "21=%02X, N %d: the second time - 1", code, n);
        over(&t, 10);
        check(cleared_after(&t, 1), "21=%02X, N %d: the second time", code, n);
        over(&t, n - 1);
        check(cleared(&t), "21=%02X, N %d: a long run is lost too", code, n);
    }
}

/* A clock that ends nothing leaves the runs, and counts for no time. */
static void before_the_setting(unsigned code, uint32_t time)
{
    struct peer t = armed(code, 3), before;

    over(&t, 2);
    before = t;
    check(peer_clock(&t, UINT32_MAX) == 0 && same(&t, &before), "21=%02X, no status", code);
    check(peer_clock(&t, time - 1) == 0 && same(&t, &before), "21=%02X, none yet", code);
    over(&t, 1);
    check(stands(&t), "21=%02X: the third over point of three", code);
    check(stands_after(&t, time - 1) && cleared_after(&t, 1), "21=%02X: time since then", code);
    before = t;
    check(peer_clock(&t, time) == 0 && same(&t, &before), "21=%02X, none any more", code);
}

/* Each of these writes clears at once; the next setting has the whole time. */
static void restarts(unsigned code, uint32_t time)
{
    const uint8_t writes[][2] = {{0x0F, 0x03},
                                 {0x0F, 0xFC},
                                 {0x16, 0x07},
                                 {0x21, (uint8_t)code},
                                 {0x21, (uint8_t)(0x80 | code)},
                                 {0x27, 0x01},
                                 {0x28, 0x01}};

    for (size_t i = 0; i < sizeof writes / sizeof *writes; i++) {
        unsigned address = writes[i][0];
        struct peer t = held(code, 2);

        check(stands_after(&t, time - 1), "21=%02X: a microsecond is left", code);
        check(peer_write(&t, writes[i][0], writes[i][1]) == 0 && cleared(&t),
              "21=%02X: %02X clears", code, address);
        if (address == 0x0F)
            calm(&t, 1); /* the first sample, which gives no point */
        over(&t, 1);
        check(cleared_after(&t, time), "21=%02X: %02X clears the runs", code, address);
        over(&t, 1); /* the second, whatever clock came between */
        check(stands_after(&t, 1), "21=%02X: %02X clears what was left", code, address);
        check(stands_after(&t, time - 2), "21=%02X: the whole time after %02X", code, address);
        check(cleared_after(&t, 1), "21=%02X: its end after %02X", code, address);
    }
}

static void reset_in_between(unsigned code, uint32_t time)
{
    struct peer t = held(code, 1), wanted;

    peer_power_up(&wanted);
    check(stands_after(&t, time - 1), "21=%02X: before a soft reset", code);
    check(peer_write(&t, 0x14, 0xB6) == 0 && same(&t, &wanted), "21=%02X: soft reset", code);
}

/* Refused writes, and accepted ones to other registers: they neither clear nor extend. */
static void no_restarts(unsigned code, uint32_t time)
{
    static const uint8_t writes[][2] = {
        {0x0F, 0x04}, {0x16, 0x17}, {0x3E, 0xC0}, {0x40, 0x00}, {0x11, 0x80}, {0x38, 0x01},
        {0x13, 0x40}, {0x14, 0xB5}, {0x17, 0x70}, {0x18, 0x08}, {0x19, 0x04}, {0x1A, 0xFF},
        {0x20, 0x00}, {0x22, 0x00}, {0x26, 0x00}, {0x29, 0x00}, {0x30, 0x01}, {0x3E, 0x80}};
    struct peer t;

    for (size_t i = 0; i < sizeof writes / sizeof *writes; i++) {
        t = held(code, 1);
        peer_clock(&t, time - 1);
        peer_write(&t, writes[i][0], writes[i][1]);
        check(stands(&t) && cleared_after(&t, 1), "21=%02X: %02X=%02X is no restart", code,
              writes[i][0], writes[i][1]);
    }
    t = held(code, 1);
    peer_clock(&t, time - 1);
    check(sample_x(&t, 2048) == 4 && peer_cycle_start(&t) == 0 && reads(&t, 0x3F, 6) == 0 &&
              stands(&t) && cleared_after(&t, 1),
          "21=%02X: a refused sample, a cycle start and a readout", code);
}

/* What can be read of a twin: the registers and the frames. */
static void show(const struct peer *t, uint8_t shown[63 + 192])
{
    struct peer copy = *t;

    peer_read(&copy, 0x00, shown, 63);
    peer_read(&copy, 0x3F, shown + 63, 192);
}

/* The end of the time moves 0x09 and 0x0B and nothing else; nor is the sample before forgotten. */
static void nothing_else(unsigned code, uint32_t time)
{
    struct peer t = busy(), before;
    uint8_t shown[63 + 192], wanted[63 + 192];

    peer_write(&t, 0x17, 0x70); /* any-motion alone */
    peer_write(&t, 0x18, 0x00);
    peer_write(&t, 0x21, (uint8_t)code);
    peer_sample(&t, 2047, 2047, 5, 3);
    peer_sample(&t, -2048, 2047, 5, 3);
    reads(&t, 0x02, 1);
    before = t;
    show(&t, wanted);
    check(wanted[0x09] == 0x04 && wanted[0x0A] == 0xE0 && wanted[0x0B] == 0x01, "set up");
    check(peer_clock(&t, 0) == 0 && same(&t, &before), "21=%02X: a clock of 0", code);
    check(peer_clock(&t, time - 1) == 0, "21=%02X: a clock before the end", code);
    show(&t, shown);
    check(memcmp(shown, wanted, sizeof shown) == 0, "21=%02X: nothing to see of it", code);
    check(peer_clock(&t, 1) == 0, "21=%02X: a clock to the end", code);
    show(&t, shown);
    wanted[0x09] = wanted[0x0B] = 0x00;
    check(memcmp(shown, wanted, sizeof shown) == 0, "21=%02X: nothing else moves", code);
    check(gives(&t, 0x03, "80"), "21=%02X: the lock holds", code);
    peer_sample(&t, -2048, 2047, 5, 3);
    check(gives(&t, 0x09, "00"), "21=%02X: no slope to the sample before", code);
    peer_sample(&t, -2048, 1900, 5, 3);
    check(gives(&t, 0x09, "04E00A"), "21=%02X: a slope to it", code);
}

static void held_pins(unsigned code, uint32_t time)
{
    struct peer t = held(code, 1);

    peer_write(&t, 0x19, 0x04);
    check(pins_are(&t, PEER_HIGH, PEER_LOW), "21=%02X: INT1 is active", code);
    peer_clock(&t, time - 1);
    peer_write(&t, 0x1B, 0x04);
    check(pins_are(&t, PEER_HIGH, PEER_HIGH), "21=%02X: both are active at the last", code);
    peer_clock(&t, 1);
    check(pins_are(&t, PEER_LOW, PEER_LOW), "21=%02X: neither is behind the time", code);
}

/* Non-latched and latched: no clock does anything, and calm points do what they did. */
static void codes_without_a_time(void)
{
    static const uint8_t codes[] = {0x0, 0x8, 0x7, 0xF};
    static const uint32_t counts[] = {0, 1, 250, 250 * MS, 8 * S, UINT32_MAX};

    for (size_t i = 0; i < sizeof codes; i++) {
        struct peer t = held(codes[i], 2), before = t;

        for (size_t k = 0; k < sizeof counts / sizeof *counts; k++)
            check(peer_clock(&t, counts[k]) == 0 && same(&t, &before), "21=%02X, clock %u",
                  codes[i], counts[k]);
        calm(&t, 1);
        peer_clock(&t, UINT32_MAX);
        check(stands(&t), "21=%02X: one calm point of two", codes[i]);
        calm(&t, 1);
        check(codes[i] & 7 ? stands(&t) : cleared(&t), "21=%02X: two of two", codes[i]);
    }
}

/* The code in 0x21 at the setting decides, and a write of another one is a restart. */
static void another_code(void)
{
    struct peer t = held(0x6, 1);

    peer_clock(&t, 8 * S - 1);
    check(peer_write(&t, 0x21, 0x9) == 0 && cleared(&t), "8 s to 250 us clears");
    over(&t, 1);
    check(stands_after(&t, 249) && cleared_after(&t, 1), "250 us after 8 s");
    over(&t, 1);
    check(stands_after(&t, 249) && peer_write(&t, 0x21, 0x6) == 0 && cleared(&t),
          "250 us to 8 s clears");
    over(&t, 1);
    check(stands_after(&t, 8 * S - 1) && cleared_after(&t, 1), "8 s after 250 us");
    over(&t, 1);
    check(peer_write(&t, 0x21, 0x7) == 0 && cleared(&t), "8 s to latched clears");
    over(&t, 1);
    check(stands_after(&t, UINT32_MAX) && stands_after(&t, UINT32_MAX), "latched after 8 s");
}

static bool status_set(struct peer *t)
{
    uint8_t byte;

    peer_read(t, 0x09, &byte, 1);
    return byte & 0x04;
}

/* The same time in one clock and in up to four that sum to it. */
static void clock_both(struct peer *whole, struct peer *parts, uint32_t time)
{
    peer_clock(whole, time);
    for (unsigned i = draw(4); i > 0; i--) {
        uint32_t part = draw(2) ? draw(3) : time / (1 + draw(4));

        part = part < time ? part : time;
        peer_clock(parts, part);
        time -= part;
    }
    peer_clock(parts, time);
}

/* Samples, restarts and clocks at random on two twins. One gets a clock at once and the other in
   parts: they stay the same, and the status goes exactly when the time since its setting, summed up
   in 64 bits, reaches that of the code. */
static void sums_at_random(unsigned code, uint32_t time)
{
    struct peer whole = armed(code, 2), parts = whole;
    uint64_t now = 0, set_at = 0;
    int apart = 0, ends = 0;

    for (int i = 0; i < 5000; i++) {
        bool before = status_set(&whole), ended = false;
        unsigned choice = draw(16);

        if (choice < 8) {
            int y = (int)draw(2) * 5;

            peer_sample(&whole, 0, y, 0, 0);
            peer_sample(&parts, 0, y, 0, 0);
        } else if (choice < 15) {
            uint32_t microseconds = draw(20) ? time / 4 + draw(3) - 1 : UINT32_MAX;

            clock_both(&whole, &parts, microseconds);
            now += microseconds;
            ended = before && now - set_at >= time;
            ends += ended;
            apart += status_set(&whole) != (before && !ended);
        } else if (draw(8) == 0) {
            peer_write(&whole, 0x28, 0x01);
            peer_write(&parts, 0x28, 0x01);
        }
        if (!before && status_set(&whole))
            set_at = now;
        apart += !same(&whole, &parts);
    }
    check(apart == 0, "21=%02X: %d events at random part the twins or the time", code, apart);
    check(ends > 100, "21=%02X: %d ends at random", code, ends);
}

static void latch_times(void)
{
    static void (*const test[])(unsigned code, uint32_t time) = {
        one_clock,         many_clocks,        beside_the_code, calm_points,      over_points,
        runs_over_the_end, before_the_setting, restarts,        reset_in_between, no_restarts,
        nothing_else,      held_pins,          sums_at_random};

    for (size_t i = 0; i < sizeof test / sizeof *test; i++)
        for (int k = 0; k < HOLDS; k++)
            test[i](holds[k].code, holds[k].time);
    codes_without_a_time();
    another_code();
}

/* ---- stories ---- */

/* Whether 0x09 and 0x0C have these bytes. */
static bool shows(struct peer *t, unsigned status, unsigned marks)
{
    uint8_t got[4];

    return peer_read(t, 0x09, got, 4) == 0 && got[0] == status && got[3] == marks;
}

/* Whether 0x09 has this byte and 0x0A to 0x0C are 0. */
static bool shows_alone(struct peer *t, unsigned status)
{
    uint8_t got[4];

    return peer_read(t, 0x09, got, 4) == 0 && got[0] == status && !(got[1] | got[2] | got[3]);
}

static bool reads_as(struct peer *t, unsigned address, unsigned byte)
{
    uint8_t got;

    return peer_read(t, (uint8_t)address, &got, 1) == 0 && got == byte;
}

/* Whether six bytes from the address are a sample's: of the channels at 0x02, of a frame at 0x3F. */
static bool sample_at(struct peer *t, uint8_t address, int x, int y, int z)
{
    const int wanted[3] = {x, y, z};
    uint8_t got[6];

    if (peer_read(t, address, got, 6) != 0)
        return false;
    for (int axis = 0; axis < 3; axis++) {
        int bits = got[2 * axis] >> 4 | got[2 * axis + 1] << 4;

        if ((bits < 2048 ? bits : bits - 4096) != wanted[axis])
            return false;
    }
    return true;
}

/* One step of a story: AA=BB writes, and AA=BB!N is refused N; x,y,z is a sample, and x,y,z!N is
   refused N; +N a clock of so many microseconds; AA?BB asks whether AA reads BB, ?SS/MM whether 0x09
   is SS and 0x0C is MM, ?SS whether 0x09 is SS and no mark and no sign is there, @x,y,z whether the
   channels have this sample and >x,y,z whether the next frame is of it. */
static bool step_holds(struct peer *t, const char *step)
{
    unsigned first, second, refusal = 0;
    int x, y, z;

    if (sscanf(step, "%x=%x!%u", &first, &second, &refusal) >= 2)
        return peer_write(t, (uint8_t)first, (uint8_t)second) == refusal;
    if (sscanf(step, "%d,%d,%d!%u", &x, &y, &z, &refusal) >= 3)
        return peer_sample(t, x, y, z, 0) == refusal;
    if (sscanf(step, "@%d,%d,%d", &x, &y, &z) == 3)
        return sample_at(t, 0x02, x, y, z);
    if (sscanf(step, ">%d,%d,%d", &x, &y, &z) == 3)
        return sample_at(t, 0x3F, x, y, z);
    if (sscanf(step, "%x?%x", &first, &second) == 2)
        return reads_as(t, first, second);
    if (sscanf(step, "?%x/%x", &first, &second) == 2)
        return shows(t, first, second);
    if (sscanf(step, "?%x", &first) == 1)
        return shows_alone(t, first);
    return sscanf(step, "+%u", &first) == 1 && peer_clock(t, first) == 0;
}

/* A story holds where each of its steps does. It begins with what opening says; both have a blank
   between steps. */
static void story(const char *opening, const char *rest)
{
    char text[512], *at = text;
    struct peer t;

    peer_power_up(&t);
    snprintf(text, sizeof text, "%s %s", opening, rest);
    while (*at != '\0') {
        char step[32] = "";
        int taken = 0;

        sscanf(at, "%31s%n", step, &taken);
        if (*step != '\0')
            check(step_holds(&t, step), "%s %s: %s", opening, rest, at);
        at += taken;
        at += strspn(at, " ");
    }
}

/* ---- low-g and high-g ---- */

/* Single mode, no hysteresis, 8 times 06 is 48 counts at 2 g, (00 + 1) times 2 ms. */
#define LOW "24=00 23=06 22=00 17=08"
#define LOW_SUM "24=04 23=06 22=00 17=08"

/* "every axis size ... is below 8 times 0x23 at each sample" */
static void low_thresholds(void)
{
    story(LOW, "47,47,47 ?00/00 +2000 47,47,47 ?01/00");
    story(LOW, "-47,-47,-47 +2000 -47,-47,-47 ?01/00");
    story(LOW, "0,0,0 +2000 0,0,0 ?01/00");
    story(LOW, "48,0,0 +2000 48,0,0 ?00/00");
    story(LOW, "0,48,0 +2000 0,48,0 ?00/00");
    story(LOW, "0,0,48 +2000 0,0,48 ?00/00");
    story(LOW, "0,0,-48 +2000 0,0,-48 ?00/00");
    story(LOW, "48,47,47 +2000 0,0,0 ?00/00"); /* the first one */
    story(LOW, "0,0,0 +2000 47,-48,47 ?00/00"); /* the last one */
    story(LOW, "0,0,0 +1000 0,0,48 +1000 0,0,0 ?00/00"); /* one between */
    story(LOW, "0,0,0 +1000 -47,47,47 +1000 0,0,0 ?01/00");
    /* the reset bytes: 8 times 30 hex is 384, 20 ms */
    story("17=08", "383,-383,0 +19999 0,383,0 ?00/00 +1 0,0,-383 ?01/00");
    story("17=08", "384,0,0 +20000 0,0,0 ?00/00");
    /* nothing is below 0 */
    story("24=00 23=00 22=00 17=08", "0,0,0 +2000 0,0,0 ?00/00 +4294967295 0,0,0 ?00/00");
    story("24=04 23=00 22=00 17=08", "0,0,0 +2000 0,0,0 ?00/00");
    /* without bit 3 of 0x17, with all others */
    story("24=00 23=06 22=00 17=F7", "0,0,0 +2000 0,0,0 ?00/00 +512000 0,0,0 ?00/00");
    story("24=00 23=06 22=00 17=00", "0,0,0 +2000 0,0,0 ?00/00");
}

/* "in sum mode (0x24 bit 2) their sum" of sizes */
static void low_sums(void)
{
    story(LOW, "16,16,16 +2000 16,-16,16 ?01/00"); /* single mode: each is below 48 */
    story(LOW_SUM, "15,16,16 +2000 -16,-15,16 ?01/00");
    story(LOW_SUM, "16,16,16 +2000 16,16,16 ?00/00");
    story(LOW_SUM, "16,-16,-16 +2000 -16,16,-16 ?00/00"); /* no sign takes from another */
    story(LOW_SUM, "47,-47,0 +2000 0,47,-47 ?00/00");
    story(LOW_SUM, "47,0,0 +2000 0,0,-47 ?01/00");
    story(LOW_SUM, "48,0,0 +2000 48,0,0 ?00/00");
    story(LOW_SUM, "0,0,0 +2000 0,-48,0 ?00/00");
    /* 8 times FF is 2040; the size of -2048 is 2048, and three of them are above it at any range */
    story("24=04 23=FF 22=00 17=08", "0,0,-2039 +2000 680,680,679 ?01/00");
    story("24=04 23=FF 22=00 17=08", "680,680,680 +2000 0,0,0 ?00/00");
    story("24=04 23=FF 22=00 17=08", "-2048,-2048,-2048 +2000 -2048,-2048,-2048 ?00/00");
    story("24=04 23=FF 22=00 0F=0C 17=08", "-2048,-2048,-2048 +2000 -2048,-2048,-2048 ?00/00");
    story("24=00 23=FF 22=00 0F=0C 17=08", "-2048,-2048,-2048 +2000 -2048,-2048,-2048 ?00/00");
    story("24=00 23=FF 22=00 17=08", "-2048,0,0 +2000 -2048,0,0 ?00/00");
}

/* "in 2 g counts (count times 1, 2, 4, 8 by range)": against 48, 8 and 2040 */
static void low_ranges(void)
{
    story(LOW " 0F=05", "23,-23,23 +2000 23,23,23 ?01/00"); /* 46 */
    story(LOW " 0F=05", "24,0,0 +2000 24,0,0 ?00/00");      /* 48 */
    story(LOW " 0F=08", "11,11,-11 +2000 11,11,11 ?01/00"); /* 44 */
    story(LOW " 0F=08", "0,12,0 +2000 0,12,0 ?00/00");      /* 48 */
    story(LOW " 0F=0C", "-5,5,5 +2000 5,5,5 ?01/00");       /* 40 */
    story(LOW " 0F=0C", "0,0,-6 +2000 0,0,-6 ?00/00");      /* 48 */
    story(LOW_SUM " 0F=05", "8,8,7 +2000 8,7,8 ?01/00");    /* 46 */
    story(LOW_SUM " 0F=05", "8,8,8 +2000 8,8,8 ?00/00");    /* 48 */
    story(LOW_SUM " 0F=08", "4,-4,3 +2000 4,3,4 ?01/00");   /* 44 */
    story(LOW_SUM " 0F=08", "4,-4,4 +2000 4,4,4 ?00/00");   /* 48 */
    story(LOW_SUM " 0F=0C", "2,2,-1 +2000 1,2,2 ?01/00");   /* 40 */
    story(LOW_SUM " 0F=0C", "2,2,-2 +2000 2,2,2 ?00/00");   /* 48 */
    story("24=00 23=01 22=00 17=08", "7,7,7 +2000 7,7,7 ?01/00");
    story("24=00 23=01 22=00 17=08", "8,0,0 +2000 8,0,0 ?00/00");
    story("24=00 23=01 22=00 17=08 0F=0C", "0,0,0 +2000 0,0,0 ?01/00");
    story("24=00 23=01 22=00 17=08 0F=0C", "1,0,0 +2000 1,0,0 ?00/00"); /* 8 */
    story("24=00 23=FF 22=00 17=08", "2039,-2039,0 +2000 0,0,2039 ?01/00");
    story("24=00 23=FF 22=00 17=08", "2040,0,0 +2000 0,0,0 ?00/00");
    story("24=00 23=FF 22=00 17=08 0F=08", "509,509,509 +2000 509,0,0 ?01/00"); /* 2036 */
    story("24=00 23=FF 22=00 17=08 0F=08", "510,0,0 +2000 510,0,0 ?00/00");     /* 2040 */
    story("24=00 23=FF 22=00 17=08 0F=0C", "254,254,254 +2000 -254,0,0 ?01/00"); /* 2032 */
    story("24=00 23=FF 22=00 17=08 0F=0C", "255,0,0 +2000 255,0,0 ?00/00");      /* 2040 */
}

/* "for (0x22 + 1) times 2 ms of clock since the first such sample", "Both set only at a sample" */
static void low_durations(void)
{
    story(LOW, "0,0,0 +1999 0,0,0 ?00/00");
    story(LOW, "0,0,0 +2000 ?00/00 0,0,0 ?01/00");
    story(LOW, "0,0,0 +2001 0,0,0 ?01/00");
    story(LOW, "0,0,0 +1999 ?00/00 +1 ?00/00 0,0,0 ?01/00");
    story(LOW, "0,0,0 +1999 0,0,0 ?00/00 +1 0,0,0 ?01/00");
    story(LOW, "0,0,0 +1 +1 +1997 0,0,0 ?00/00 +0 0,0,0 ?00/00 +1 0,0,0 ?01/00");
    story(LOW, "0,0,0 0,0,0 0,0,0 ?00/00 +2000 0,0,0 ?01/00");
    story(LOW, "+2000 0,0,0 ?00/00 0,0,0 ?00/00 +1999 0,0,0 ?00/00"); /* none before the first */
    story(LOW, "+4294967295 0,0,0 ?00/00 0,0,0 ?00/00 +1999 0,0,0 ?00/00 +1 0,0,0 ?01/00");
    story(LOW, "0,0,0 +4294967295 0,0,0 ?01/00");
    story(LOW, "0,0,0 +4294967295 +1 0,0,0 ?01/00"); /* 2 to the 32 */
    story(LOW, "0,0,0 +4294967295 +4294967295 +4294967295 +4294967295 0,0,0 ?01/00");
    story(LOW, "0,0,0 +1000 0,0,0 +4294966296 0,0,0 ?01/00"); /* the sum is 2 to the 32 */
    story(LOW " 22=01", "0,0,0 +3999 0,0,0 ?00/00 +1 0,0,0 ?01/00");
    story(LOW " 22=09", "0,0,0 +19999 0,0,0 ?00/00 +1 0,0,0 ?01/00");
    story(LOW " 22=FF", "0,0,0 +511999 0,0,0 ?00/00 +1 0,0,0 ?01/00");
    story(LOW " 22=FF", "0,0,0 +511999 ?00/00 0,0,0 +1 0,0,0 ?01/00");
    story(LOW " 25=FF", "0,0,0 +2000 0,0,0 ?01/00"); /* 0x25 is that of high-g */
    story(LOW " 22=FF 25=00", "0,0,0 +511999 0,0,0 ?00/00 +1 0,0,0 ?01/00");
    /* the time passes between samples and the next one decides */
    story(LOW, "0,0,0 +5000 48,0,0 ?00/00 0,0,0 ?00/00 +1999 0,0,0 ?00/00 +1 0,0,0 ?01/00");
}

/* "at each sample": a sample that is not low ends the run, and the next low one is the first */
static void low_runs(void)
{
    story(LOW, "0,0,0 +1999 48,0,0 +1 0,0,0 ?00/00 +1999 0,0,0 ?00/00 +1 0,0,0 ?01/00");
    story(LOW, "0,0,0 +1999 48,0,0 0,0,0 +1 0,0,0 ?00/00 +1998 0,0,0 ?00/00 +1 0,0,0 ?01/00");
    story(LOW, "0,0,0 +1000 47,47,47 +1000 0,0,0 ?01/00");
    story(LOW, "0,0,0 +1000 0,0,0 +999 0,0,0 ?00/00 +1 0,0,0 ?01/00");
    /* what the twin refuses is no sample */
    struct peer t = fresh(0x17, 0x08);

    peer_write(&t, 0x22, 0x00);
    sample_x(&t, 0);
    peer_clock(&t, 1000);
    check(sample_x(&t, 2048) == 4, "a refused sample in a run");
    peer_clock(&t, 1000);
    check(peer_sample(&t, 0, -2049, 0, 0) == 4 && shows(&t, 0, 0), "a refused one sets nothing");
    check(sample_x(&t, 0) == 0 && shows(&t, 0x01, 0), "nor does it end the run");
    check(sample_x(&t, 2048) == 4 && shows(&t, 0x01, 0), "nor does it clear");
    peer_write(&t, 0x22, 0x00);
    sample_x(&t, 0);
    peer_clock(&t, 2000);
    check(peer_cycle_start(&t) == 0 && reads(&t, 0x00, 63) == 0 && reads(&t, 0x3F, 12) == 0 &&
              sample_x(&t, 0) == 0 && shows(&t, 0x01, 0),
          "nor do a cycle start and reads");
    check(peer_cycle_start(&t) == 0 && reads(&t, 0x00, 63) == 0 && shows(&t, 0x01, 0),
          "nor do they clear");
}

/* "It clears at a sample where some axis, or the sum, is at or above that plus 128 times 0x24 bits
   1:0": 48, 176, 304 and 432 at 2 g. Set, then these. */
#define SET_LOW "0,0,0 +2000 0,0,0 ?01/00"

static void low_hysteresis(void)
{
    story(LOW, SET_LOW " 47,47,47 ?01/00 48,0,0 ?00/00");
    story(LOW, SET_LOW " 0,0,-48 ?00/00");
    story(LOW " 24=01", SET_LOW " 48,0,0 ?01/00 175,-175,175 ?01/00 0,176,0 ?00/00");
    story(LOW " 24=02", SET_LOW " 0,0,303 ?01/00 0,0,304 ?00/00");
    story(LOW " 24=03", SET_LOW " 431,0,0 ?01/00 -432,0,0 ?00/00");
    story(LOW " 24=C0", SET_LOW " 48,0,0 ?00/00"); /* bits 7:6 are those of high-g */
    story(LOW " 24=41", SET_LOW " 175,0,0 ?01/00 176,0,0 ?00/00");
    story(LOW " 24=FB", SET_LOW " 431,0,0 ?01/00 432,0,0 ?00/00"); /* bits 5:3 are ignored */
    story(LOW " 24=04", SET_LOW " 15,16,16 ?01/00 16,-16,16 ?00/00");
    story(LOW " 24=05", SET_LOW " 59,58,-58 ?01/00 59,-58,59 ?00/00"); /* 175, 176 */
    story(LOW " 24=07", SET_LOW " 144,144,143 ?01/00 144,144,144 ?00/00"); /* 431, 432 */
    story(LOW " 24=05", SET_LOW " 0,0,175 ?01/00 0,0,176 ?00/00");
    story(LOW " 24=01 0F=05", SET_LOW " 87,0,0 ?01/00 88,0,0 ?00/00"); /* 174, 176 */
    story(LOW " 24=01 0F=08", SET_LOW " 0,43,0 ?01/00 0,44,0 ?00/00"); /* 172, 176 */
    story(LOW " 24=01 0F=0C", SET_LOW " 0,0,21 ?01/00 0,0,22 ?00/00"); /* 168, 176 */
    story(LOW " 24=07 0F=0C", SET_LOW " 18,18,17 ?01/00 18,18,18 ?00/00"); /* 424, 432 */
    /* 2040 and 384 are 2424, which no axis reaches at 2 g; at 4 g 1212 does */
    story(LOW " 24=03 23=FF", SET_LOW " -2048,-2048,-2048 ?01/00");
    story(LOW " 24=07 23=FF", SET_LOW " 808,808,807 ?01/00 808,808,808 ?00/00");
    story(LOW " 24=03 23=FF 0F=05", SET_LOW " 1211,0,0 ?01/00 1212,0,0 ?00/00");
    story(LOW " 24=02 23=FF", SET_LOW " -2048,0,0 ?01/00");
    story(LOW " 24=00 23=FF", SET_LOW " 0,-2048,0 ?00/00");
    story(LOW " 24=01 23=F0", SET_LOW " 2047,2047,2047 ?01/00 0,0,-2048 ?00/00"); /* 2048 */
}

/* Between the threshold and the threshold plus the hysteresis the run ends and the status stays. */
static void low_band(void)
{
    story(LOW " 24=01", "0,0,0 +1000 48,0,0 +1000 0,0,0 ?00/00 +1999 0,0,0 ?00/00 +1 0,0,0 ?01/00");
    story(LOW " 24=01", "0,0,0 +2000 100,0,0 ?00/00 0,0,0 ?00/00");
    story(LOW " 24=01", "48,0,0 +2000 48,0,0 ?00/00");
    story(LOW " 24=01", SET_LOW " 100,0,0 ?01/00 0,0,0 ?01/00 175,0,0 ?01/00 +512000 100,0,0 ?01/00"
                                " 176,0,0 ?00/00 100,0,0 ?00/00 0,0,0 +1999 0,0,0 ?00/00");
    story(LOW, SET_LOW " 48,0,0 ?00/00 0,0,0 ?00/00 +1999 0,0,0 ?00/00 +1 0,0,0 ?01/00");
}

/* Each axis by itself, above 8 times 06, which is 48; (00 + 1) times 2 ms. */
#define HIGH(enable) "24=00 26=06 25=00 17=" enable

/* "at each sample some enabled axis is above 8 times 0x26 in present counts" */
static void high_thresholds(void)
{
    story(HIGH("01"), "49,0,0 ?00/00 +2000 49,0,0 ?02/01");
    story(HIGH("01"), "48,0,0 +2000 48,0,0 ?00/00");
    story(HIGH("01"), "-49,0,0 +2000 -49,0,0 ?02/09");
    story(HIGH("01"), "-48,0,0 +2000 -48,0,0 ?00/00");
    story(HIGH("02"), "0,49,0 +2000 0,49,0 ?02/02");
    story(HIGH("04"), "0,0,-49 +2000 0,0,-49 ?02/0C");
    story(HIGH("01"), "48,2047,-2048 +2000 -48,2047,2047 ?00/00"); /* not enabled */
    story(HIGH("02"), "2047,48,-2048 +2000 2047,-48,2047 ?00/00");
    story(HIGH("04"), "-2048,2047,48 +2000 -2048,2047,48 ?00/00");
    story(HIGH("00"), "2047,2047,2047 +2000 2047,2047,2047 ?00/00");
    story(HIGH("78"), "2047,2047,2047 +2000 2047,2047,2047 ?00/00");
    story(HIGH("07"), "48,48,-48 +2000 49,49,49 ?00/00"); /* the first one */
    story(HIGH("07"), "49,0,0 +2000 48,48,48 ?00/00");    /* the last one */
    story(HIGH("07"), "49,0,0 +1000 0,0,48 +1000 49,0,0 ?00/00");
    /* the counts are those of the range, whatever it is */
    story(HIGH("01") " 0F=05", "48,0,0 +2000 48,0,0 ?00/00 49,0,0 +2000 49,0,0 ?02/01");
    story(HIGH("01") " 0F=08", "48,0,0 +2000 48,0,0 ?00/00 49,0,0 +2000 49,0,0 ?02/01");
    story(HIGH("01") " 0F=0C", "48,0,0 +2000 48,0,0 ?00/00 49,0,0 +2000 49,0,0 ?02/01");
    /* 2040 and 0; the size of -2048 is 2048 */
    story(HIGH("07") " 26=FF", "2040,-2040,2040 +2000 2040,0,0 ?00/00");
    story(HIGH("07") " 26=FF", "2041,0,0 +2000 0,0,-2041 ?02/0C");
    story(HIGH("07") " 26=FF", "-2048,0,0 +2000 0,-2048,0 ?02/0A");
    story(HIGH("07") " 26=FF", "-2048,-2048,-2048 +2000 -2048,-2048,-2048 ?02/09");
    story(HIGH("07") " 26=00", "0,0,0 +2000 0,0,0 ?00/00");
    story(HIGH("07") " 26=00", "0,0,1 +2000 0,-1,0 ?02/0A");
    /* the reset bytes: 8 times C0 hex is 1536, 32 ms */
    story("17=01", "1536,0,0 +32000 1536,0,0 ?00/00");
    story("17=01", "1537,0,0 +31999 1537,0,0 ?00/00 +1 1537,0,0 ?02/01");
}

/* "some enabled axis": not the same one at each sample. The first above at the setting sample is
   marked, x before y before z, and the sign is its own. */
static void high_marks(void)
{
    story(HIGH("07"), "49,0,0 +2000 0,49,0 ?02/02");
    story(HIGH("07"), "0,0,49 +1000 49,0,0 +1000 0,-49,0 ?02/0A");
    story(HIGH("07"), "-49,0,0 +2000 0,0,49 ?02/04"); /* neither axis nor sign of the first */
    story(HIGH("07"), "0,0,49 +2000 -49,49,49 ?02/09");
    story(HIGH("07"), "0,0,49 +2000 48,49,-49 ?02/02");
    story(HIGH("07"), "49,0,0 +2000 -48,-48,49 ?02/04"); /* the sign of an axis that is not above */
    story(HIGH("06"), "0,49,0 +2000 -2048,0,49 ?02/04");
    story(HIGH("05"), "49,0,0 +2000 0,-2048,-49 ?02/0C");
    story(HIGH("03"), "0,49,0 +2000 0,49,-2048 ?02/02");
    story(HIGH("06"), "2047,49,0 +1000 2047,48,48 +1000 2047,49,0 ?00/00");
    /* a status already set is not set again */
    story(HIGH("07"), "49,0,0 +2000 49,0,0 ?02/01 0,-49,0 ?02/01 +2000 0,0,-49 ?02/01");
    /* the marks go with the status, the sign stays until the next setting or soft reset */
    story(HIGH("07"), "0,-49,0 +2000 0,-49,0 ?02/0A 48,48,48 ?00/08 49,0,0 ?00/08 +2000 49,0,0 ?02/01");
    story(HIGH("07"), "0,-49,0 +2000 0,-49,0 25=00 ?00/08 49,0,0 +1999 49,0,0 ?00/08 +1 0,49,0 ?02/02");
    story(HIGH("07"), "0,-49,0 +2000 0,-49,0 17=00 ?00/08 0F=03 ?00/08 14=B5 ?00/08 14=B6 ?00/00");
    story(HIGH("07"), "0,-49,0 +2000 0,-49,0 ?02/0A 14=B6 ?00/00");
}

/* "for (0x25 + 1) times 2 ms" */
static void high_durations(void)
{
    story(HIGH("01"), "49,0,0 +1999 49,0,0 ?00/00");
    story(HIGH("01"), "49,0,0 +2000 ?00/00 49,0,0 ?02/01");
    story(HIGH("01"), "49,0,0 +2001 49,0,0 ?02/01");
    story(HIGH("01"), "49,0,0 +1999 ?00/00 +1 ?00/00 49,0,0 ?02/01");
    story(HIGH("01"), "49,0,0 +1 +1998 49,0,0 ?00/00 +0 49,0,0 ?00/00 +1 49,0,0 ?02/01");
    story(HIGH("01"), "+4294967295 49,0,0 ?00/00 49,0,0 ?00/00 +1999 49,0,0 ?00/00");
    story(HIGH("01"), "49,0,0 +4294967295 +1 49,0,0 ?02/01");
    story(HIGH("01"), "49,0,0 +1000 49,0,0 +4294966296 49,0,0 ?02/01");
    story(HIGH("01"), "49,0,0 +4294967295 +4294967295 49,0,0 ?02/01");
    story(HIGH("01") " 25=01", "49,0,0 +3999 49,0,0 ?00/00 +1 49,0,0 ?02/01");
    story(HIGH("01") " 25=FF", "49,0,0 +511999 49,0,0 ?00/00 +1 49,0,0 ?02/01");
    story(HIGH("01") " 22=FF", "49,0,0 +1999 49,0,0 ?00/00 +1 49,0,0 ?02/01"); /* that of low-g */
    story(HIGH("01") " 22=00 25=0F", "49,0,0 +31999 49,0,0 ?00/00 +1 49,0,0 ?02/01");
    story(HIGH("01"), "49,0,0 +5000 48,0,0 ?00/00 49,0,0 ?00/00 +1999 49,0,0 ?00/00 +1 49,0,0 ?02/01");
    story(HIGH("01"), "49,0,0 +1999 48,0,0 +1 49,0,0 ?00/00 +1999 49,0,0 ?00/00 +1 49,0,0 ?02/01");
}

/* "it clears when all enabled are at or below that less 128 times 0x24 bits 7:6, never less than
   0": of 512 counts, 512, 384, 256 and 128. */
#define SET_HIGH "513,0,0 +2000 513,0,0 ?02/01"

static void high_hysteresis(void)
{
    story(HIGH("01") " 26=40", SET_HIGH " 513,0,0 ?02/01 512,0,0 ?00/00");
    story(HIGH("01") " 26=40 24=40", SET_HIGH " 512,0,0 ?02/01 385,0,0 ?02/01 384,0,0 ?00/00");
    story(HIGH("01") " 26=40 24=80", SET_HIGH " -257,0,0 ?02/01 -256,0,0 ?00/00");
    story(HIGH("01") " 26=40 24=C0", SET_HIGH " 129,0,0 ?02/01 -128,0,0 ?00/00");
    story(HIGH("01") " 26=40 24=07", SET_HIGH " 512,0,0 ?00/00"); /* bits 2:0 are those of low-g */
    story(HIGH("01") " 26=40 24=3F", SET_HIGH " 512,0,0 ?00/00"); /* bits 5:3 are ignored */
    story(HIGH("01") " 26=40 24=43", SET_HIGH " 385,0,0 ?02/01 384,0,0 ?00/00");
    story(HIGH("01") " 26=40 24=40 0F=0C", SET_HIGH " 385,0,0 ?02/01 384,0,0 ?00/00");
    /* all enabled, and no other */
    story(HIGH("03") " 26=40 24=40", SET_HIGH " 0,385,0 ?02/01 384,-385,0 ?02/01 384,384,2047 ?00/00");
    story(HIGH("07") " 26=40 24=40", SET_HIGH " 0,0,-385 ?02/01 384,-384,384 ?00/00");
    story(HIGH("01") " 26=40 24=40", SET_HIGH " 384,2047,-2048 ?00/00");
    story(HIGH("05") " 26=40 24=40", SET_HIGH " 384,-2048,385 ?02/01 384,-2048,384 ?00/00");
    /* never less than 0: there all enabled are 0 */
    story(HIGH("03") " 26=01 24=40", "9,0,0 +2000 9,0,0 ?02/01 1,0,0 ?02/01 0,-1,0 ?02/01 0,0,9 ?00/00");
    story(HIGH("01") " 26=01 24=C0", "9,0,0 +2000 9,0,0 ?02/01 8,0,0 ?02/01 -1,0,0 ?02/01 0,0,0 ?00/00");
    story(HIGH("01") " 26=10 24=40", "129,0,0 +2000 129,0,0 ?02/01 1,0,0 ?02/01 0,0,0 ?00/00");
    story(HIGH("01") " 26=11 24=40", "137,0,0 +2000 137,0,0 ?02/01 9,0,0 ?02/01 8,0,0 ?00/00");
    story(HIGH("01") " 26=0F 24=40", "121,0,0 +2000 121,0,0 ?02/01 1,0,0 ?02/01 0,0,0 ?00/00");
    story(HIGH("01") " 26=00 24=00", "1,0,0 +2000 1,0,0 ?02/01 0,2047,0 ?00/00");
    story(HIGH("01") " 26=00 24=C0", "1,0,0 +2000 -1,0,0 ?02/09 1,0,0 ?02/09 0,0,0 ?00/08");
    /* 2040 less 384 is 1656 */
    story(HIGH("01") " 26=FF 24=C0", "-2048,0,0 +2000 -2048,0,0 ?02/09 1657,0,0 ?02/09 -1656,0,0 ?00/08");
}

/* Between both levels the run ends and the status stays. */
static void high_band(void)
{
    story(HIGH("01") " 26=40 24=40", "513,0,0 +1000 512,0,0 +1000 513,0,0 ?00/00 +1999 513,0,0 ?00/00 "
                                     "+1 513,0,0 ?02/01");
    story(HIGH("01") " 26=40 24=40", "513,0,0 +2000 400,0,0 ?00/00 513,0,0 ?00/00");
    story(HIGH("01") " 26=40 24=40", "400,0,0 +2000 400,0,0 ?00/00");
    story(HIGH("01") " 26=40 24=40", SET_HIGH " 400,0,0 ?02/01 -513,0,0 ?02/01 400,0,0 +512000 "
                                              "400,0,0 ?02/01 384,0,0 ?00/00 400,0,0 ?00/00");
    story(HIGH("01") " 26=40 24=40", SET_HIGH " 384,0,0 ?00/00 513,0,0 ?00/00 +1999 513,0,0 ?00/00 "
                                              "+1 -513,0,0 ?02/09");
}

/* Below 2040 and not 0 is both low and high, and it takes as long. */
#define BOTH "24=00 23=FF 26=00 22=00 25=00 17=0F"
#define SET_BOTH "0,-5,0 +2000 0,-5,0 ?03/0A"

/* What a code in 0x21 makes of a status that is set, and of the run behind it. */
struct latch_story {
    const char *code, *rest;
};

static void latch_stories(const char *opening, const char *setting, const struct latch_story *of,
                          size_t count)
{
    char with_code[128], rest[256];

    for (size_t i = 0; i < count; i++) {
        snprintf(with_code, sizeof with_code, "%s 21=%s", opening, of[i].code);
        snprintf(rest, sizeof rest, "%s %s", setting, of[i].rest);
        story(with_code, rest);
    }
}

static const struct latch_story g_latched[] = {
    /* "Both latch as any-motion does": 0000 and 1000 are non-latched, 0111 and 1111 latched */
    {"00", "0,0,0 ?01/08 2047,2047,2047 ?00/08"},
    {"08", "0,0,0 ?01/08 2047,2047,2047 ?00/08"},
    {"80", "0,2040,0 ?02/0A +4294967295 ?02/0A 0,0,0 ?00/08"},
    {"07", "0,0,0 ?03/0A 2047,2047,2047 ?03/0A +4294967295 0,0,0 ?03/0A"},
    {"0F", "0,0,0 ?03/0A 2047,2047,2047 ?03/0A 1,0,0 +2000 1,0,0 ?03/0A"},
    {"0F", "0,0,0 21=0F ?00/08 1,0,0 ?00/08 +2000 1,0,0 ?03/01"},
    {"07", "21=00 ?00/08 1,0,0 +2000 1,0,0 ?03/01 0,0,0 ?01/00"},
    /* the times of Q-4: neither calm nor low or high samples move the end, which ends the run too */
    {"09", "+249 ?03/0A +1 ?00/08"},
    {"09", "+250 ?00/08"},
    {"09", "+251 ?00/08 +4294967295 ?00/08"},
    {"09", "+4294967295 ?00/08"},
    {"09", "0,0,0 2047,2047,2047 ?03/0A +249 0,0,0 2047,2047,2047 ?03/0A +1 ?00/08"},
    {"09", "0,-5,0 +249 0,-5,0 ?03/0A +1 ?00/08"},
    /* still falling at the end: the next sample is the first of a new run */
    {"09", "+250 0,-5,0 ?00/08 +1999 0,-5,0 ?00/08 +1 0,-5,0 ?03/0A +250 ?00/08"},
    {"09", "+2250 0,-5,0 ?00/08 +1999 0,-5,0 ?00/08 +1 0,5,0 ?03/02"},
    {"09", "+4294967295 0,-5,0 ?00/08 +1999 0,-5,0 ?00/08 +1 0,-5,0 ?03/0A"},
    {"01", "+249999 0,-5,0 ?03/0A +1 ?00/08 0,-5,0 ?00/08 +2000 0,-5,0 ?03/0A"},
    {"06", "0,0,0 +7999999 0,-5,0 ?03/0A +1 0,-5,0 ?00/08 +1999 0,-5,0 ?00/08"},
};

static void g_latches(void)
{
    latch_stories(BOTH, SET_BOTH, g_latched, sizeof g_latched / sizeof *g_latched);
    /* a hold shorter than the run, and a clock before the setting that counts for no hold */
    story(BOTH " 21=0A 22=01", "1,0,0 +2000 1,0,0 ?02/01 +500 1,0,0 ?00/00 +1499 1,0,0 ?00/00 "
                               "+1 1,0,0 ?01/00 +499 1,0,0 ?01/00 +1 1,0,0 ?02/01");
}

/* "each with its own remaining time": of 1 ms; low-g from 2000 to 3000, high-g from 2500 to 3500 and
   any-motion, over above 4, from 2600 to 3600. */
static void g_own_times(void)
{
    story(BOTH " 21=0B 16=01 28=01", "0,0,0 +500 1,0,0 +1500 1,0,0 ?01/00 +500 1,0,0 ?03/01 "
                                     "+100 9,0,0 ?07/01 +399 ?07/01 +1 ?06/01 +499 ?06/01 +1 ?04/00 "
                                     "+99 ?04/00 +1 ?00/00");
    story(BOTH " 21=0B 16=01 28=01", "0,0,0 +500 1,0,0 +1500 1,0,0 +500 1,0,0 +100 9,0,0 ?07/01 "
                                     "+900 ?04/00 +100 ?00/00");
    /* the end of one leaves the run of the other */
    story(BOTH " 21=09 25=01", "1,0,0 +2000 1,0,0 ?01/00 +250 ?00/00 +1750 -1,0,0 ?02/09");
    story(BOTH " 21=09 22=01", "1,0,0 +2000 1,0,0 ?02/01 +250 ?00/00 +1750 -1,0,0 ?01/00");
    story(BOTH " 21=0C 17=08", "1,0,0 +2000 1,0,0 ?01/00 +12499 ?01/00 +1 ?00/00");
    story(BOTH " 21=0C 17=04", "0,0,-1 +2000 0,0,-1 ?02/0C +12499 ?02/0C +1 ?00/08");
    /* the end of any-motion's hold leaves both runs, and their holds leave any-motion's run */
    story(BOTH " 21=09 16=01 28=01", "0,0,0 9,0,0 ?04/00 +250 ?00/00 9,0,0 +1750 9,0,0 ?03/01");
    story(BOTH " 21=09 16=01 28=01 27=01", "1,0,0 +2000 9,0,0 ?03/01 +250 ?00/00 1,0,0 ?04/00");
}

/* "an accepted write to 0x0F, 0x17, 0x21 or 0x22 to 0x26 restarts them: status, marks and runs
   clear", of both, with the same byte or another. */
static const char *const g_restarts[] = {
    "0F=03", "0F=F3", "17=0F", "17=8F", "17=7F", "21=00", "21=80", "22=00", "23=FF", "24=00",
    "24=38", "25=00", "26=00",
};

/* What does not: writes to other registers, refused ones, and B5 to 0x14. */
static const char *const g_others[] = {
    "0F=04!2", "0F=00!2", "10=0F", "11=00", "11=80!12", "12=00", "13=40",    "14=B5",
    "16=00",   "16=17!11", "18=08", "18=0F", "19=03", "1A=FF", "1B=03",   "1E=03",
    "20=00",   "27=03",   "28=00", "29=00", "2A=00",    "2F=00", "30=01",    "38=00",
    "36=80!13", "39=00",   "3A=00", "3B=FF", "3E=40",    "3E=C0!2", "3F=00",  "40=00!1",
    "57=0F!1", "00=00",   "09=00", "0C=00", "1F=00",    "33=00", "36=00",
};

/* A story for each of these writes, which stands where the form has its %s. */
static void each_write(const char *opening, const char *form, const char *const *writes, size_t count)
{
    char rest[256];

    for (size_t i = 0; i < count; i++) {
        snprintf(rest, sizeof rest, form, writes[i]);
        story(opening, rest);
    }
}

#define EACH_WRITE(opening, form, writes) \
    each_write(opening, form, writes, sizeof writes / sizeof *writes)

static void g_writes(void)
{
    EACH_WRITE(BOTH, SET_BOTH " %s ?00/08 0,-5,0 ?00/08 +2000 ?00/08 0,-5,0 ?03/0A", g_restarts);
    EACH_WRITE(BOTH, "0,-5,0 +2000 %s 0,-5,0 ?00/00 +1999 0,-5,0 ?00/00 +1 0,-5,0 ?03/0A", g_restarts);
    EACH_WRITE(BOTH, "0,-5,0 +1999 %s +1 0,-5,0 ?00/00 +2000 0,-5,0 ?03/0A", g_restarts);
    EACH_WRITE(BOTH, SET_BOTH " %s ?03/0A 0,0,0 ?01/08 0,2047,0 ?00/08", g_others);
    EACH_WRITE(BOTH, "0,-5,0 +1999 %s +1 0,-5,0 ?03/0A", g_others);
}

/* The restarts of a hold: nothing is left of its time, and the next one is whole. */
static void g_writes_in_a_hold(void)
{
    char rest[256];

    for (size_t i = 0; i < sizeof g_restarts / sizeof *g_restarts; i++) {
        if (strncmp(g_restarts[i], "21=", 3) == 0)
            continue;
        snprintf(rest, sizeof rest, SET_BOTH " +49999 ?03/0A %s ?00/08 1,0,0 +2000 1,0,0 ?03/01 "
                 "+49999 ?03/01 +1 ?00/00", g_restarts[i]);
        story(BOTH " 21=0E", rest);
    }
    story(BOTH " 21=0E", SET_BOTH " +49999 21=0E ?00/08 1,0,0 +2000 1,0,0 ?03/01 +49999 ?03/01 +1 ?00/00");
    story(BOTH " 21=0E", SET_BOTH " +49999 21=09 ?00/08 1,0,0 +2000 1,0,0 ?03/01 +249 ?03/01 +1 ?00/00");
    story(BOTH " 21=0E", SET_BOTH " +1 21=07 ?00/08 1,0,0 +2000 1,0,0 ?03/01 +4294967295 ?03/01");
    story(BOTH " 21=0E", SET_BOTH " 16=00 27=00 28=00 +49999 ?03/0A 14=B5 13=00 ?03/0A +1 ?00/08");
    story(BOTH " 21=0E", SET_BOTH " 14=B6 ?00/00 +4294967295 ?00/00");
}

/* 0x0F restarts them and asks for no sample before; 0x17 begins anew; any-motion is by itself. */
static void g_beginnings(void)
{
    story(BOTH, "1,0,0 0F=03 1,0,0 +2000 1,0,0 ?03/01");
    story(BOTH " 17=00", "1,0,0 +2000 1,0,0 17=0F ?00/00 1,0,0 ?00/00 +1999 1,0,0 ?00/00 +1 1,0,0 ?03/01");
    story(BOTH " 17=08", "1,0,0 +2000 17=0F 1,0,0 ?00/00 +2000 1,0,0 ?03/01");
    story(BOTH " 17=08", "1,0,0 +2000 1,0,0 ?01/00 17=07 ?00/00 1,0,0 +2000 1,0,0 ?02/01 17=08 ?00/00");
    story(BOTH " 16=01 28=01 21=07", "0,0,0 9,0,0 ?04/00 17=0F ?04/00 22=00 23=FF 24=00 25=00 26=00 ?04/00");
    story(BOTH " 16=01 28=01", "0,0,0 9,0,0 ?04/00 17=7F ?04/00 22=00 ?04/00 9,0,0 ?00/00");
    story(BOTH " 16=01 28=01 27=01", "0,0,0 9,0,0 ?00/00 24=00 18,0,0 ?04/00");
    story(BOTH " 16=01 28=01 27=01", "0,0,0 +2000 9,0,0 ?01/00 16=01 18,0,0 ?01/00 +2000 9,0,0 ?07/01");
}

static void g_pins(void)
{
    struct peer t = busy();

    check(pins_are(&t, PEER_LOW, PEER_LOW), "unmapped");
    for (unsigned map = 0; map < 256; map++) {
        bool mapped = map & 0x0F;

        peer_write(&t, 0x19, (uint8_t)map);
        peer_write(&t, 0x1B, (uint8_t)~map);
        check(pins_are(&t, mapped ? PEER_HIGH : PEER_LOW, (map & 15) == 15 ? PEER_LOW : PEER_HIGH),
              "all four, 19=%02X", map);
    }
    t = fresh(0x17, 0x0F); /* with the reset bytes low below 384, high above 1536 */
    sample_x(&t, 1);
    peer_clock(&t, 20000);
    sample_x(&t, 1);
    peer_write(&t, 0x19, 0x01);
    peer_write(&t, 0x1B, 0xFE);
    check(shows(&t, 0x01, 0x00) && pins_are(&t, PEER_HIGH, PEER_LOW), "low-g on INT1");
    peer_write(&t, 0x19, 0xFE);
    peer_write(&t, 0x1B, 0x01);
    check(pins_are(&t, PEER_LOW, PEER_HIGH), "low-g on INT2");
    sample_x(&t, 2047);
    check(shows(&t, 0x00, 0x00) && pins_are(&t, PEER_LOW, PEER_LOW), "low-g went");
    peer_clock(&t, 32000);
    sample_x(&t, 2047);
    check(shows(&t, 0x02, 0x01) && pins_are(&t, PEER_HIGH, PEER_LOW), "high-g on INT1, with others");
    peer_write(&t, 0x19, 0xFD);
    peer_write(&t, 0x1B, 0x02);
    check(pins_are(&t, PEER_LOW, PEER_HIGH), "high-g on INT2");
    peer_write(&t, 0x20, 0x08);
    check(pins_are(&t, PEER_HIGH, PEER_LOW), "active level 0");
}

/* ---- low-g and high-g, every byte of each register ---- */

/* Whether a first sample, so much clock and a second one set a status. */
static bool sets(const struct peer *t, const int first[3], uint32_t microseconds, const int second[3])
{
    struct peer copy = *t;
    uint8_t status;

    peer_sample(&copy, first[0], first[1], first[2], 0);
    peer_clock(&copy, microseconds);
    peer_sample(&copy, second[0], second[1], second[2], 0);
    peer_read(&copy, 0x09, &status, 1);
    return status != 0;
}

/* A fresh twin with 0x22 to 0x26, 0x0F and 0x17 written. */
static struct peer of_bytes(const char *bytes, uint8_t range, uint8_t enable)
{
    struct peer t = fresh(0x0F, range);
    uint8_t byte[5];

    from_hex(bytes, byte);
    for (uint8_t i = 0; i < 5; i++)
        peer_write(&t, 0x22 + i, byte[i]);
    peer_write(&t, 0x17, enable);
    return t;
}

static void every_duration(void)
{
    static const int still[3] = {0, 0, 0}, hit[3] = {0, 2047, 0};

    for (unsigned byte = 0; byte < 256; byte++) {
        uint32_t time = (byte + 1) * 2 * MS;
        struct peer low = of_bytes("0030000000", 0x03, 0x08);
        struct peer high = of_bytes("0000000030", 0x03, 0x02);

        peer_write(&low, 0x22, (uint8_t)byte);
        peer_write(&high, 0x25, (uint8_t)byte);
        check(!sets(&low, still, time - 1, still) && sets(&low, still, time, still) &&
                  sets(&low, still, time + 1, still),
              "22=%02X", byte);
        check(!sets(&high, hit, time - 1, hit) && sets(&high, hit, time, hit) &&
                  sets(&high, hit, time + 1, hit),
              "25=%02X", byte);
    }
}

/* The counts at each range that are just below 8 times the byte at 2 g, and just not. */
static void every_low_threshold(void)
{
    static const struct {
        uint8_t code;
        int factor;
    } ranges[] = {{0x03, 1}, {0x05, 2}, {0x08, 4}, {0x0C, 8}};

    for (int i = 0; i < 4; i++)
        for (int byte = 1; byte < 256; byte++) {
            struct peer t = of_bytes("0000000000", ranges[i].code, 0x08);
            int not_low = (8 * byte + ranges[i].factor - 1) / ranges[i].factor;
            const int below[3] = {0, 1 - not_low, not_low - 1}, at_it[3] = {-not_low, 0, 0};

            peer_write(&t, 0x23, (uint8_t)byte);
            check(sets(&t, below, 2 * MS, below) && !sets(&t, at_it, 2 * MS, at_it),
                  "0F=%02X, 23=%02X: %d is not low", ranges[i].code, byte, not_low);
        }
}

static void every_high_threshold(void)
{
    for (int byte = 0; byte < 256; byte++) {
        struct peer t = of_bytes("0000000000", 0x08, 0x04);
        const int at_it[3] = {2047, -2048, -8 * byte}, above[3] = {0, 0, -8 * byte - 1};

        peer_write(&t, 0x26, (uint8_t)byte);
        check(!sets(&t, at_it, 2 * MS, at_it) && sets(&t, above, 2 * MS, above), "26=%02X", byte);
    }
}

/* ---- low-g and high-g against their history ---- */

/* What has come since power-up, or the last restart. A sample is judged by the text alone, and a
   status is worked out by going back over the samples. */
struct history {
    struct {
        uint64_t at; /* microseconds */
        int size[3];
        bool negative[3];
    } sample[1000];
    int samples;
    uint64_t now;
    int range, duration[2], threshold[2], mode, enable; /* [0] of low-g, [1] of high-g */
    uint32_t hold;                                      /* 0 for none */
    bool latched;
    bool set[2]; /* the statuses, and since when */
    uint64_t since[2];
    int run_from[2]; /* no sample before this one is of a run */
    unsigned marks;  /* 0x0C */
};

static bool is_low(const struct history *h, int i)
{
    const int *size = h->sample[i].size;
    int limit = 8 * h->threshold[0];

    if (h->mode & 4)
        return (size[0] + size[1] + size[2]) * h->range < limit;
    return size[0] * h->range < limit && size[1] * h->range < limit && size[2] * h->range < limit;
}

static bool ends_low(const struct history *h, int i)
{
    const int *size = h->sample[i].size;
    int limit = 8 * h->threshold[0] + 128 * (h->mode & 3);

    if (h->mode & 4)
        return (size[0] + size[1] + size[2]) * h->range >= limit;
    return size[0] * h->range >= limit || size[1] * h->range >= limit || size[2] * h->range >= limit;
}

static bool axis_above(const struct history *h, int i, int axis, int limit)
{
    return h->enable & 1 << axis && h->sample[i].size[axis] > limit;
}

static bool is_high(const struct history *h, int i)
{
    int limit = 8 * h->threshold[1];

    return axis_above(h, i, 0, limit) || axis_above(h, i, 1, limit) || axis_above(h, i, 2, limit);
}

static bool ends_high(const struct history *h, int i)
{
    int limit = 8 * h->threshold[1] - 128 * (h->mode >> 6);

    if (limit < 0)
        limit = 0;
    return !axis_above(h, i, 0, limit) && !axis_above(h, i, 1, limit) && !axis_above(h, i, 2, limit);
}

static bool of_run(const struct history *h, int which, int i)
{
    return which == 0 ? is_low(h, i) : is_high(h, i);
}

/* The marks that the last sample gives where it sets high-g. */
static unsigned marks_of_last(const struct history *h)
{
    int last = h->samples - 1, axis = 0;

    while (!axis_above(h, last, axis, 8 * h->threshold[1]))
        axis++;
    return 1u << axis | (h->sample[last].negative[axis] ? 8u : 0);
}

static void judge_last(struct history *h, int which)
{
    int last = h->samples - 1, first = last;
    uint64_t needed = (uint64_t)(h->duration[which] + 1) * 2 * MS;

    if (!(h->enable & (which == 0 ? 0x08 : 0x07)))
        return;
    if (!of_run(h, which, last)) {
        bool ends = which == 0 ? ends_low(h, last) : ends_high(h, last);

        if (h->set[which] && ends && !h->latched && h->hold == 0) {
            h->set[which] = false;
            h->marks &= which == 0 ? 0xF : 0x8;
        }
        return;
    }
    while (first > h->run_from[which] && of_run(h, which, first - 1))
        first--;
    if (h->set[which] || h->now - h->sample[first].at < needed)
        return;
    h->set[which] = true;
    h->since[which] = h->now;
    if (which == 1)
        h->marks = marks_of_last(h);
}

static void history_clock(struct history *h, uint64_t microseconds)
{
    h->now += microseconds;
    for (int which = 0; which < 2; which++)
        if (h->set[which] && h->hold > 0 && h->now - h->since[which] >= h->hold) {
            h->set[which] = false;
            h->run_from[which] = h->samples;
            h->marks &= which == 0 ? 0xF : 0x8;
        }
}

/* Near one of the four levels in its own counts, or near 0 or the largest. */
static int size_near_edge(const struct history *h)
{
    int level = 0;

    switch (draw(6)) {
    case 0:
        level = 8 * h->threshold[0] / h->range;
        break;
    case 1:
        level = (8 * h->threshold[0] + 128 * (h->mode & 3)) / h->range;
        break;
    case 2:
        level = 8 * h->threshold[1];
        break;
    case 3:
        level = 8 * h->threshold[1] - 128 * (h->mode >> 6);
        break;
    case 4:
        level = 2048;
        break;
    }
    if (h->mode & 4 && draw(2))
        level /= 3;
    level += (int)draw(3) - 1;
    return level < 0 ? 0 : level > 2048 ? 2048 : level;
}

static void random_sample(struct peer *whole, struct peer *parts, struct history *h)
{
    int sample[3], i = h->samples++;

    for (int axis = 0; axis < 3; axis++) {
        int size = draw(4) ? size_near_edge(h) : 0;

        sample[axis] = draw(2) || size == 2048 ? -size : size;
        h->sample[i].size[axis] = size;
        h->sample[i].negative[axis] = sample[axis] < 0;
    }
    h->sample[i].at = h->now;
    peer_sample(whole, sample[0], sample[1], sample[2], 0);
    peer_sample(parts, sample[0], sample[1], sample[2], 0);
    judge_last(h, 0);
    judge_last(h, 1);
}

static void random_clock(struct peer *whole, struct peer *parts, struct history *h)
{
    unsigned which = draw(2);
    uint32_t time = draw(3) ? (uint32_t)(h->duration[which] + 1) * 2 * MS : h->hold;
    uint32_t microseconds = time / (1 + draw(3)) + draw(3);

    microseconds -= microseconds > 0 && draw(2);
    if (draw(50) == 0)
        microseconds = UINT32_MAX;
    clock_both(whole, parts, microseconds);
    history_clock(h, microseconds);
}

static void write_both(struct peer *whole, struct peer *parts, int address, int byte)
{
    peer_write(whole, (uint8_t)address, (uint8_t)byte);
    peer_write(parts, (uint8_t)address, (uint8_t)byte);
}

/* Settings in which most samples are near an edge, and some fall and hit at once. */
static void random_settings(struct peer *whole, struct peer *parts, struct history *h)
{
    static const int codes[] = {0x03, 0x05, 0x08, 0x0C}, bytes[] = {0, 1, 2, 6, 16, 17, 40, 192, 255};
    unsigned range = draw(4);
    int latch = (int)(draw(2) ? draw(16) : 8 * draw(2));
    unsigned marks = h->marks & 8;

    *h = (struct history){.now = h->now, .marks = marks};
    h->range = 1 << range;
    h->mode = (int)draw(256);
    h->enable = (int)draw(4) ? (int)draw(256) | 8 : (int)draw(256);
    h->latched = latch == 7 || latch == 15;
    for (int i = 0; i < HOLDS; i++)
        if (holds[i].code == (unsigned)latch)
            h->hold = holds[i].time;
    for (int which = 0; which < 2; which++) {
        h->duration[which] = (int)(draw(3) ? draw(3) : draw(256));
        h->threshold[which] = bytes[draw(sizeof bytes / sizeof *bytes)];
        write_both(whole, parts, which == 0 ? 0x22 : 0x25, h->duration[which]);
        write_both(whole, parts, which == 0 ? 0x23 : 0x26, h->threshold[which]);
    }
    write_both(whole, parts, 0x0F, codes[range]);
    write_both(whole, parts, 0x24, h->mode);
    write_both(whole, parts, 0x21, latch);
    write_both(whole, parts, 0x17, h->enable);
    h->mode &= 0xC7;
}

/* Many settings, each with samples and clocks at random. One twin gets a clock at once and the other
   in parts: they stay the same and show what the history says. */
static void g_at_random(void)
{
    struct peer whole, parts;
    static struct history h;
    int apart = 0, seen[2] = {0, 0};

    peer_power_up(&whole);
    parts = whole;
    for (int turn = 0; turn < 4000; turn++) {
        random_settings(&whole, &parts, &h);
        for (int i = 0; i < 60; i++) {
            if (draw(3))
                random_sample(&whole, &parts, &h);
            else
                random_clock(&whole, &parts, &h);
            apart += !same(&whole, &parts);
            apart += !shows(&whole, (h.set[0] ? 1 : 0) | (h.set[1] ? 2 : 0), h.marks);
            seen[0] += h.set[0];
            seen[1] += h.set[1];
        }
    }
    check(apart == 0, "%d events at random part the twins or their history", apart);
    check(seen[0] > 1000 && seen[1] > 1000, "set at random: %d and %d times", seen[0], seen[1]);
}

static void low_and_high_g(void)
{
    low_thresholds();
    low_sums();
    low_ranges();
    low_durations();
    low_runs();
    low_hysteresis();
    low_band();
    high_thresholds();
    high_marks();
    high_durations();
    high_hysteresis();
    high_band();
    g_latches();
    g_own_times();
    g_writes();
    g_writes_in_a_hold();
    g_beginnings();
    g_pins();
    every_duration();
    every_low_threshold();
    every_high_threshold();
    g_at_random();
}

/* ---- slow motion and no-motion ---- */

/* Slow motion on x, over above 4 times 01, which is 4; N 1. */
#define SLOW "29=01 27=00 18=01"

/* "0x29 as threshold in steps of 4 counts, axes in 0x18 bits 2:0" */
static void slow_thresholds(void)
{
    story(SLOW, "0,0,0 ?00 4,0,0 ?00 9,0,0 ?08");
    story(SLOW, "0,0,0 -4,0,0 ?00 -9,0,0 ?08"); /* no marks, and no sign */
    story(SLOW, "9,0,0 ?00 4,0,0 ?08");         /* the first sample gives no point */
    story(SLOW, "0,0,0 0,2047,-2048 ?00 4,-2048,2047 ?00");
    story(SLOW " 18=02", "0,0,0 2047,4,-2048 ?00 -2048,9,2047 ?08");
    story(SLOW " 18=04", "0,0,0 2047,-2048,-4 ?00 0,0,-9 ?08");
    story(SLOW " 18=06", "0,0,0 2047,4,4 ?00 2047,4,9 ?08");
    story(SLOW " 18=07", "0,0,0 4,4,-4 ?00 4,9,-4 ?08");
    story(SLOW " 18=F1", "0,0,0 4,9,9 ?00 9,9,9 ?08 18?01"); /* bits 7:4 are ignored */
    story(SLOW " 18=00", "0,0,0 2047,2047,2047 ?00 0,0,0 ?00");
    story("18=01", "0,0,0 80,0,0 ?00 161,0,0 ?08"); /* the reset bytes: 4 times 14 hex */
    story(SLOW " 29=00", "0,0,0 0,0,0 ?00 1,0,0 ?08");
    story(SLOW " 29=FF", "-2048,0,0 -1028,0,0 ?00 -7,0,0 ?08"); /* 1020, 1021 */
    story(SLOW " 29=FF", "-2048,0,0 2047,0,0 ?08");
    story(SLOW " 29=FF", "2047,0,0 -2048,0,0 ?08");
    /* the counts are those of the range, whatever it is */
    story(SLOW " 0F=05", "0,0,0 4,0,0 ?00 9,0,0 ?08");
    story(SLOW " 0F=08", "0,0,0 4,0,0 ?00 9,0,0 ?08");
    story(SLOW " 0F=0C", "0,0,0 4,0,0 ?00 9,0,0 ?08");
}

/* "counts points as any-motion does, with N from 0x27 bits 3:2 plus 1" */
static void slow_counts(void)
{
    story(SLOW " 27=00", "0,0,0 5,0,0 ?08 5,0,0 ?00");
    story(SLOW " 27=04", "0,0,0 5,0,0 ?00 0,0,0 ?08 0,0,0 ?08 0,0,0 ?00");
    story(SLOW " 27=08", "0,0,0 5,0,0 0,0,0 ?00 5,0,0 ?08 5,0,0 5,0,0 ?08 5,0,0 ?00");
    story(SLOW " 27=0C", "0,0,0 5,0,0 0,0,0 5,0,0 ?00 0,0,0 ?08 0,0,0 0,0,0 0,0,0 ?08 0,0,0 ?00");
    /* bits 1:0 are any-motion's, bits 7:4 are no-motion's: codes 22, 31, 63 and 60 */
    story(SLOW " 27=03", "0,0,0 5,0,0 ?08 5,0,0 ?00");
    story(SLOW " 27=58", "0,0,0 5,0,0 0,0,0 ?00 5,0,0 ?08 5,0,0 5,0,0 ?08 5,0,0 ?00");
    story(SLOW " 27=7F", "0,0,0 5,0,0 0,0,0 5,0,0 ?00 0,0,0 ?08 0,0,0 0,0,0 0,0,0 ?08 0,0,0 ?00");
    story(SLOW " 27=FF", "0,0,0 5,0,0 0,0,0 5,0,0 ?00 0,0,0 ?08 0,0,0 0,0,0 0,0,0 ?08 0,0,0 ?00");
    story(SLOW " 27=F3", "0,0,0 5,0,0 ?08 5,0,0 ?00");
    /* "in a row": a calm point ends a run of over points, and the other way round */
    story(SLOW " 27=04", "0,0,0 5,0,0 5,0,0 0,0,0 ?00 5,0,0 ?08");
    story(SLOW " 27=04", "0,0,0 5,0,0 0,0,0 0,0,0 ?08 5,0,0 5,0,0 ?08 5,0,0 ?00");
    story(SLOW " 27=0C", "0,0,0 5,0,0 0,0,0 5,0,0 5,0,0 0,0,0 5,0,0 0,0,0 ?00 5,0,0 ?08");
    /* not the same axis at each point; clocks count for nothing */
    story(SLOW " 27=04 18=07", "0,0,0 5,0,0 ?00 5,0,5 ?08 5,0,5 ?08 5,0,5 ?00");
    story(SLOW " 27=04", "0,0,0 +4294967295 5,0,0 +4294967295 ?00 0,0,0 ?08 +4294967295 ?08");
    /* more calm points than N before, and more over points: N of the other kind all the same */
    story(SLOW " 27=04", "0,0,0 0,0,0 0,0,0 0,0,0 5,0,0 ?00 0,0,0 5,0,0 0,0,0 ?08 0,0,0 ?08 0,0,0 ?00");
}

/* No-motion on x, calm up to 4, after 1 s. */
#define STILL "29=01 27=00 18=09"
#define SET_STILL "0,0,0 +1000000 0,0,0 ?08"

/* "It fires at a calm point when the clock since the last over point, restart or expiry has reached
   that, and clears at an over point" */
static void no_motion_points(void)
{
    story(STILL, "0,0,0 +999999 0,0,0 ?00 +1 ?00 0,0,0 ?08");
    story(STILL, "0,0,0 +1000000 ?00 0,0,0 ?08");
    story(STILL, "0,0,0 +1000001 0,0,0 ?08");
    story(STILL, "0,0,0 +1 +999998 0,0,0 ?00 +0 0,0,0 ?00 +1 0,0,0 ?08");
    story(STILL, "0,0,0 +4294967295 +4294967295 ?00 0,0,0 ?08");
    /* the waiting begins at the write, before any sample, and whatever samples come */
    story(STILL, "+1000000 0,0,0 ?00 0,0,0 ?08");
    story(STILL, "+999999 0,0,0 0,0,0 ?00 +1 0,0,0 ?08");
    story(STILL, "+999999 0,0,0 +1 0,0,0 ?08");
    story(STILL, "+4294967295 0,0,0 ?00 0,0,0 ?08");
    story("29=01", "0,0,0 0,0,0 +4294967295 18=09 0,0,0 ?00 +999999 0,0,0 ?00 +1 0,0,0 ?08");
    /* 4 is calm, 5 is over: it begins anew there, and nothing fires at an over point */
    story(STILL, "0,0,0 +1000000 4,0,0 ?08");
    story(STILL, "0,0,0 +1000000 -4,2047,-2048 ?08"); /* y and z are not enabled */
    story(STILL, "0,0,0 +1000000 5,0,0 ?00 5,0,0 ?00 +999999 5,0,0 ?00 +1 9,0,0 ?08");
    story(STILL, "0,0,0 +999999 -5,0,0 +1 -5,0,0 ?00 +999998 -5,0,0 ?00 +1 -5,0,0 ?08");
    story(STILL " 18=0E", "0,0,0 +1000000 2047,4,-4 ?08 0,0,0 ?08 0,0,5 ?00");
    story(STILL " 18=0A", "0,0,0 +1000000 2047,5,2047 ?00 +1000000 -2048,9,-2048 ?08");
    story(STILL " 29=00", "0,0,0 +1000000 1,0,0 ?00 +1000000 1,0,0 ?08");
    story(STILL " 29=FF", "0,0,0 +1000000 -1020,0,0 ?08 1,0,0 ?00");
    story("18=0F", "0,0,0 +1000000 80,80,80 ?08 0,0,-1 ?00"); /* the reset bytes */
    /* it clears at one over point, whatever N is, and at nothing else */
    story(STILL, SET_STILL " 0,0,0 4,0,0 ?08 +4294967295 ?08 9,0,0 ?00 9,0,0 ?00");
    story(STILL " 27=03", SET_STILL " 5,0,0 ?00");
    story(STILL " 27=0F", "0,0,0 +3999999 0,0,0 ?00 +1 0,0,0 ?08 5,0,0 ?00");
    story(STILL, SET_STILL " 5,0,0 ?00 +999999 5,0,0 ?00 +1 5,0,0 ?08 +1000000 5,0,0 ?08 0,0,0 ?00");
    story(STILL, SET_STILL " +1000000 5,0,0 ?00 5,0,0 ?00"); /* nothing from before the over point */
    /* no axis: neither fires nor clears */
    story(STILL " 18=08", "0,0,0 +1000000 0,0,0 ?00 +4294967295 0,0,0 2047,0,0 2047,0,0 ?00");
    story(STILL, SET_STILL " 18=08 ?00 +4294967295 0,0,0 0,0,0 ?00");
    /* bit 3 is no axis, nor are the bits above it */
    story(STILL " 18=F8", "0,0,0 +1000000 0,0,0 ?00 18?08");
}

/* Table 21 of the sheet: the ends of each range of codes and what is next to them. */
static void no_motion_codes(void)
{
    static const unsigned seconds[][2] = {{0, 1},   {1, 2},   {2, 3},    {14, 15},  {15, 16},
                                          {16, 40}, {17, 48}, {18, 56},  {19, 64},  {20, 72},
                                          {21, 80}, {32, 88}, {33, 96},  {34, 104}, {62, 328},
                                          {63, 336}};
    char opening[64], rest[128];

    for (size_t i = 0; i < sizeof seconds / sizeof *seconds; i++)
        for (unsigned n = 0; n < 4; n++) {
            unsigned before = seconds[i][1] * S - 1;

            snprintf(opening, sizeof opening, STILL " 27=%02X", seconds[i][0] << 2 | n);
            snprintf(rest, sizeof rest, "0,0,0 +%u 0,0,0 ?00 +1 0,0,0 ?08 5,0,0 ?00", before);
            story(opening, rest);
            snprintf(rest, sizeof rest, "0,0,0 5,0,0 +%u ?00 5,0,0 ?08", before + 1);
            story(opening, rest);
        }
}

/* "2 for the write to 0x18 or 0x27 that would bring no-motion and such a code together" */
static void no_motion_refusals(void)
{
    story("18=08", "27=54 27=57 27=58!2 27=5B!2 27?57 27=7C!2 27=7F!2 27?57 27=80 27?80");
    story("27=57", "18=08 18?08 18=07 27=58 18=08!2 18?07 18=0F!2 18=F8!2 18=F7 18?07");
    story("27=58", "18=08!2 18=09!2 18?00 27=7F 18=08!2 27=80 18=08 18?08 27=7F!2 27?80");
    story("27=7C", "18=0F!2 27=80 18=0F 27=7C!2 18=07 27=7C 27?7C");
    story("18=09 27=FF", "27=5B!2 18=01 27=5B 18=01 18=00 18=09!2 27=00 18=09 27?00");
    /* in slow motion a code without a meaning counts N by its bits 3:2 */
    story(SLOW " 27=58", "0,0,0 5,0,0 0,0,0 18=09!2 ?00 5,0,0 ?08 18=0F!2 ?08 18?01 5,0,0 5,0,0 5,0,0 ?00");
    /* a refused write restarts nothing, and no sample is forgotten */
    story(STILL, "0,0,0 +999999 27=58!2 +1 0,0,0 ?08 27=7F!2 ?08 0F=04!2 16=17!11 ?08 5,0,0 ?00");
    story(STILL " 27=54", "+79999999 27=58!2 18=F9 0,0,0 +79999999 27=7C!2 +1 0,0,0 ?08 27=58!2 ?08");
    story(STILL " 21=09", SET_STILL " +249 27=58!2 ?08 +1 ?00 +999999 27=60!2 0,0,0 ?00 +1 0,0,0 ?08");
    story("18=08 27=58!2", "18=09 29=01 0,0,0 +1000000 0,0,0 ?08"); /* the code is still 0 */
    /* soft reset ends no-motion, and any code is there again */
    story("18=09 27=58!2 14=B6", "27=58 18=01 18=09!2 14=B6 18=09 18?09 27?00");
}

static void every_code(void)
{
    for (unsigned in_18 = 0; in_18 < 16; in_18++)
        for (unsigned in_27 = 0; in_27 < 256; in_27++) {
            unsigned wanted = no_meaning(in_18, in_27) ? 2 : 0, code = in_27 / 4;
            struct peer t = fresh(0x18, (uint8_t)in_18), other = fresh(0x27, (uint8_t)in_27);

            check(peer_write(&t, 0x27, (uint8_t)in_27) == wanted &&
                      peer_write(&other, 0x18, (uint8_t)in_18) == wanted,
                  "18=%02X and 27=%02X are %u in both orders", in_18, in_27, wanted);
            if (wanted == 0 && in_18 > 8) {
                uint32_t time = (code < 16 ? code + 1 : code < 22 ? 8 * code - 88 : 8 * code - 168) * S;

                peer_sample(&t, 0, 0, 0, 0);
                peer_clock(&t, time - 1);
                peer_sample(&t, 0, 0, 0, 0);
                check(shows(&t, 0x00, 0) && peer_clock(&t, 1) == 0 && sample_x(&t, 0) == 0 &&
                          shows(&t, 0x08, 0),
                      "18=%02X, 27=%02X waits %u us", in_18, in_27, time);
            }
        }
}

/* "it latches as any-motion does": of N 2. */
#define SLOW_2 SLOW " 27=04"
#define SET_SLOW "0,0,0 5,0,0 0,0,0 ?08"

static const struct latch_story slow_latched[] = {
    {"00", "0,0,0 ?08 0,0,0 ?00"},
    {"08", "0,0,0 5,0,0 5,0,0 ?08 5,0,0 ?00"},
    {"80", "+4294967295 0,0,0 ?08 0,0,0 ?00"},
    {"07", "0,0,0 0,0,0 0,0,0 +4294967295 ?08"},
    {"0F", "0,0,0 0,0,0 5,0,0 0,0,0 ?08 0,0,0 0,0,0 0,0,0 ?08 21=0F ?00"},
    {"07", "0,0,0 21=00 ?00 5,0,0 ?00 0,0,0 ?08 0,0,0 0,0,0 ?00"},
    /* neither calm nor over points move the end, which ends the runs too */
    {"09", "+249 ?08 +1 ?00"},
    {"09", "+250 ?00 +4294967295 ?00"},
    {"09", "+4294967295 ?00"},
    {"09", "0,0,0 0,0,0 0,0,0 +249 0,0,0 0,0,0 ?08 +1 ?00"},
    {"09", "5,0,0 +249 0,0,0 5,0,0 ?08 +1 ?00"},
    {"09", "5,0,0 0,0,0 5,0,0 +250 0,0,0 ?00 5,0,0 ?08 +249 ?08 +1 ?00"},
    {"09", "0,0,0 5,0,0 +250 0,0,0 ?00 5,0,0 ?08"},
    {"0E", "+49999 ?08 +1 ?00"},
    {"01", "+249999 ?08 +1 ?00"},
    {"06", "+7999999 0,0,0 0,0,0 ?08 +1 ?00 0,0,0 ?00"},
};

static const struct latch_story still_latched[] = {
    {"00", "+4294967295 0,0,0 ?08 5,0,0 ?00 5,0,0 ?00"},
    {"08", "5,0,0 ?00 +1000000 5,0,0 ?08"},
    {"80", "0,0,0 -5,0,0 ?00 +999999 -5,0,0 ?00"},
    {"07", "5,0,0 0,0,0 5,0,0 ?08 +4294967295 0,0,0 ?08"},
    {"0F", "5,0,0 ?08 5,0,0 ?08 21=0F ?00 +999999 5,0,0 ?00 +1 5,0,0 ?08"},
    {"07", "5,0,0 ?08 21=00 ?00 +1000000 5,0,0 ?08 0,0,0 ?00"},
    /* neither calm nor over points move the end */
    {"09", "+249 ?08 +1 ?00"},
    {"09", "5,0,0 ?08 +249 0,0,0 ?08 +1 ?00"},
    {"09", "0,0,0 +249 0,0,0 ?08 +1 ?00"},
    /* the waiting begins at the end, in one clock or more: 250 us, then 1 s */
    {"09", "+250 ?00 0,0,0 ?00 +999999 0,0,0 ?00 +1 ?00 0,0,0 ?08 +249 ?08 +1 ?00"},
    {"09", "+1000249 ?00 0,0,0 ?00 +1 0,0,0 ?08"},
    {"09", "+1000250 ?00 0,0,0 ?08"},
    {"09", "+249 +1000000 0,0,0 ?00 +1 0,0,0 ?08"},
    {"09", "+249 +1000001 ?00 0,0,0 ?08 +250 ?00"},
    {"09", "+1 +1 +1000247 0,0,0 ?00 +1 0,0,0 ?08"},
    {"09", "+4294967295 ?00 0,0,0 ?08 +4294967295 ?00 0,0,0 ?08"},
    {"09", "0,0,0 0,0,0 +1000249 0,0,0 ?00 +1 0,0,0 ?08"},
    {"09", "+1000250 5,0,0 ?00 +999999 5,0,0 ?00 +1 5,0,0 ?08"}, /* an over point behind the end */
    {"09", "+500 5,0,0 +999999 5,0,0 ?00 +1 5,0,0 ?08"},
    {"09", "5,0,0 +1000249 5,0,0 ?00 +1 5,0,0 ?08"}, /* and one before it */
    {"01", "+249999 ?08 +1000000 0,0,0 ?00 +1 0,0,0 ?08"},
    {"01", "+1249999 0,0,0 ?00 +1 0,0,0 ?08"},
    {"01", "+1250000 0,0,0 ?08 +1249999 0,0,0 ?00 +1 0,0,0 ?08"},
    /* a hold of 8 s, longer than the waiting */
    {"06", "+7999999 0,0,0 ?08 +1 0,0,0 ?00 +999999 0,0,0 ?00 +1 0,0,0 ?08"},
    {"06", "+1000000 0,0,0 5,0,0 ?08 +6999999 ?08 +1000000 5,0,0 ?00 +1 5,0,0 ?08"},
    {"06", "+8999999 0,0,0 ?00 +1 0,0,0 ?08"},
    {"06", "+9000000 0,0,0 ?08"},
};

static void slow_latches(void)
{
    latch_stories(SLOW_2, SET_SLOW, slow_latched, sizeof slow_latched / sizeof *slow_latched);
    latch_stories(STILL, SET_STILL, still_latched, sizeof still_latched / sizeof *still_latched);
    /* before the setting an over point begins the waiting anew in each mode of 0x21 */
    story(STILL " 21=07", "0,0,0 +999999 5,0,0 +1 5,0,0 ?00 +999998 5,0,0 ?00 +1 5,0,0 ?08");
    story(STILL " 21=09", "0,0,0 +999999 5,0,0 +1 5,0,0 ?00 +999998 5,0,0 ?00 +1 5,0,0 ?08");
    /* 336 s and 8 s in one clock */
    story(STILL " 27=FC 21=06", "0,0,0 +336000000 0,0,0 ?08 +343999999 0,0,0 ?00 +1 0,0,0 ?08");
    story(STILL " 27=FC 21=06", "0,0,0 +336000000 0,0,0 ?08 +344000000 0,0,0 ?08");
}

/* "an accepted write to 0x0F, 0x18, 0x21, 0x27 or 0x29 restarts it", with the same byte or another
   that leaves x, the mode, the threshold and the time. */
static const char *const slow_restarts[] = {
    "21=00", "21=08", "21=80", "27=00", "27=03", "29=01", "18=09", "18=F9",
};

/* What does not: writes to other registers, any-motion's among them, and refused ones. */
static const char *const slow_others[] = {
    "0F=04!2", "10=0F",   "11=00", "11=80!12", "12=00",    "13=40",    "14=B5", "16=00",
    "16=07",   "16=17!11", "17=00", "17=7F",   "19=08",    "1A=FF",    "1B=08", "1E=08",
    "20=00",   "22=00",   "23=30", "24=81",    "25=0F",    "26=C0",
    "28=00",   "28=FF",   "2A=00", "2F=00",    "30=01",    "32=01!13", "38=00", "36=80!13",
    "39=01",   "3A=80", /* of y and z, which are not enabled */
    "3B=FF",   "3E=40",   "3E=C0!2", "3F=00",  "40=00!1",  "58=09!1",  "69=01!1", "00=00",
    "09=00",   "1F=00",
};

static void slow_writes(void)
{
    EACH_WRITE(STILL, SET_STILL " %s 09?00 0,0,0 09?00 +999999 0,0,0 09?00 +1 0,0,0 09?08", slow_restarts);
    EACH_WRITE(STILL, "0,0,0 +1000000 %s 0,0,0 ?00 +999999 0,0,0 ?00 +1 0,0,0 ?08", slow_restarts);
    EACH_WRITE(STILL, "0,0,0 +999999 %s +1 0,0,0 ?00 +999999 ?00 0,0,0 ?08", slow_restarts);
    EACH_WRITE(STILL " 21=07", SET_STILL " 5,0,0 ?08 %s 09?00 +1000000 5,0,0 09?08", slow_restarts);
    EACH_WRITE(STILL " 21=06", SET_STILL " +7999999 ?08 %s 09?00 +1 0,0,0 ?00 +999999 0,0,0 ?08",
               slow_restarts);
    EACH_WRITE(STILL, SET_STILL " %s 09?08 0,0,0 09?08", slow_others);
    EACH_WRITE(STILL, "0,0,0 +999999 %s +1 0,0,0 09?08", slow_others);
    EACH_WRITE(STILL " 21=09", SET_STILL " +249 %s 09?08 +1 09?00 +999999 0,0,0 09?00 +1 0,0,0 09?08",
               slow_others);
    EACH_WRITE(SLOW_2, "0,0,0 5,0,0 %s 10,0,0 09?08 10,0,0 09?08", slow_others);
    /* 0x0F forgets the sample before: the next one is no point, the one after it may fire */
    story(STILL, SET_STILL " 0F=03 ?00 +1000000 0,0,0 ?00 0,0,0 ?08");
    story(STILL, SET_STILL " 0F=FC ?00 +999999 2047,0,0 2047,0,0 ?00 +1 2047,0,0 ?08");
    story(STILL, "0,0,0 +1000000 0F=05 0,0,0 0,0,0 ?00 +1000000 0,0,0 ?08");
    story(SLOW, "0,0,0 5,0,0 ?08 0F=03 ?00 2047,0,0 ?00 2047,0,0 ?00 -2048,0,0 ?08");
    story(SLOW_2, "0,0,0 5,0,0 0F=03 0,0,0 5,0,0 ?00 0,0,0 ?08");
    /* the others don't: the next sample is a point, and no run is left */
    story(SLOW_2, "0,0,0 5,0,0 18=01 0,0,0 ?00 5,0,0 ?08 18=01 ?00 0,0,0 ?00 5,0,0 ?08");
    story(SLOW_2, "0,0,0 5,0,0 29=01 0,0,0 ?00 5,0,0 ?08 29=00 ?00 0,0,0 ?00 1,0,0 ?08");
    story(SLOW_2, "0,0,0 5,0,0 27=04 0,0,0 ?00 5,0,0 ?08 27=00 ?00 0,0,0 ?08");
    story(SLOW_2, "0,0,0 5,0,0 21=07 0,0,0 ?00 5,0,0 ?08 21=09 ?00 0,0,0 ?00 5,0,0 ?08");
    /* a sample is remembered while no axis is enabled */
    story(SLOW " 18=00", "0,0,0 18=01 5,0,0 ?08");
    story(SLOW " 18=00", "9,0,0 0,0,0 18=01 4,0,0 ?00");
    /* from one mode to the other: nothing is kept */
    story(SLOW, "0,0,0 5,0,0 ?08 18=09 ?00 5,0,0 ?00 +999999 5,0,0 ?00 +1 5,0,0 ?08 18=01 ?00 10,0,0 ?08");
    story(SLOW, "0,0,0 +4294967295 18=09 0,0,0 ?00 +1000000 0,0,0 ?08");
    story(STILL " 27=04", "0,0,0 5,0,0 18=01 0,0,0 ?00 5,0,0 ?08");
    story(STILL, SET_STILL " 14=B6 ?00 0,0,0 +4294967295 0,0,0 ?00");
    /* another time from the write on: 2 s in place of 1 s and the other way round */
    story(STILL, "0,0,0 +999999 27=04 +1999999 0,0,0 ?00 +1 0,0,0 ?08");
    story(STILL " 27=04", "0,0,0 +1999999 27=00 +999999 0,0,0 ?00 +1 0,0,0 ?08");
}

/* Any-motion beside it, on x too, over above 4. 0x0B is any-motion's alone. */
#define ANY "16=01 28=01 "

static void beside_any_motion(void)
{
    story(ANY SLOW, "0,0,0 -5,0,0 09?0C 0B?09 -5,0,0 09?00 0B?08");
    story(ANY SLOW " 27=04", "0,0,0 5,0,0 09?04 10,0,0 09?0C 10,0,0 09?08 10,0,0 09?00");
    story(ANY SLOW " 27=01", "0,0,0 5,0,0 ?08 10,0,0 09?0C 0B?01 10,0,0 09?04 10,0,0 09?00");
    story(ANY SLOW " 29=02", "0,0,0 8,0,0 09?04 17,0,0 09?0C");
    story(ANY SLOW " 28=02", "0,0,0 8,0,0 ?08 17,0,0 09?0C");
    story(ANY SLOW " 18=04", "0,0,0 0,0,-5 ?08 5,0,-5 09?04 0B?01");
    story(ANY STILL, "0,0,0 +1000000 0,0,0 ?08 5,0,0 09?04 5,0,0 09?00");
    story(ANY STILL " 27=03", "0,0,0 +1000000 0,0,0 ?08 5,0,0 ?00 0,0,0 5,0,0 ?00 0,0,0 09?04");
    /* the writes that restart one of them */
    story(ANY SLOW " 21=07", "0,0,0 5,0,0 09?0C 16=01 ?08 10,0,0 09?0C 18=01 09?04 0B?01 27=00 ?00");
    story(ANY SLOW " 21=07", "0,0,0 5,0,0 09?0C 28=01 ?08 10,0,0 09?0C 29=01 09?04 0B?01 15,0,0 09?0C");
    story(ANY SLOW " 27=05", "0,0,0 5,0,0 16=01 10,0,0 ?08 15,0,0 09?0C");
    story(ANY SLOW " 27=05", "0,0,0 5,0,0 28=01 10,0,0 ?08 15,0,0 09?0C");
    story(ANY SLOW " 27=05", "0,0,0 5,0,0 18=01 10,0,0 09?04 15,0,0 09?0C");
    story(ANY SLOW " 27=05", "0,0,0 5,0,0 29=01 10,0,0 09?04 15,0,0 09?0C");
    story(ANY SLOW " 27=05", "0,0,0 5,0,0 27=05 10,0,0 ?00 15,0,0 09?0C 21=00 ?00");
    story(ANY SLOW " 27=05", "0,0,0 5,0,0 18=09 10,0,0 09?04"); /* accepted or refused */
    story(ANY SLOW " 27=59", "0,0,0 5,0,0 18=09!2 10,0,0 09?04 15,0,0 09?0C");
    story(ANY SLOW, "0,0,0 5,0,0 09?0C 0F=03 ?00 100,0,0 ?00 105,0,0 09?0C");
    story(ANY STILL " 27=54", "0,0,0 5,0,0 09?04 27=58!2 09?04 27=54 ?00");
    /* each has its own time, of 1 ms: slow motion from 0 to 1000, any-motion from 500 to 1500 */
    story(ANY SLOW " 27=01 21=0B", "0,0,0 5,0,0 ?08 +500 10,0,0 09?0C +499 09?0C +1 09?04 +499 09?04 +1 ?00");
    story(ANY SLOW " 27=04 21=0B", "0,0,0 5,0,0 09?04 +500 10,0,0 09?0C +499 09?0C +1 ?08 +499 ?08 +1 ?00");
    story(ANY SLOW " 27=04 21=0B", "0,0,0 5,0,0 09?04 +500 10,0,0 09?0C +1000 09?00");
    /* the end of any-motion's leaves the waiting, and no-motion's end leaves any-motion's run */
    story(ANY STILL " 21=01", "0,0,0 5,0,0 09?04 +250000 09?00 +749999 5,0,0 09?00 +1 5,0,0 09?08");
    story(ANY STILL " 27=01 21=09", "0,0,0 +1000000 0,0,0 ?08 5,0,0 ?08 +250 ?00 0,0,0 09?04");
    story(ANY SLOW " 27=04 21=09", "0,0,0 5,0,0 09?04 +250 09?00 10,0,0 09?0C"); /* nor slow motion's run */
    /* low-g beside it: 48 counts, 2 ms */
    story(LOW " " STILL, "0,0,0 +1000000 0,0,0 ?09 22=00 ?08 18=09 ?00 +999999 0,0,0 ?00 +1 0,0,0 ?08");
    story(LOW " " STILL, "0,0,0 +1000000 0,0,0 ?09 18=09 ?01 0,0,0 ?01 48,0,0 ?00");
    story(LOW " " STILL " 21=09", "0,0,0 +1000000 0,0,0 ?09/00 +250 ?00/00 0,0,0 +2000 0,0,0 ?01/00");
}

static void slow_pins(void)
{
    struct peer t = fresh(0x18, 0x01);

    sample_x(&t, 0);
    sample_x(&t, 100);
    check(shows(&t, 0x08, 0) && pins_are(&t, PEER_LOW, PEER_LOW), "slow motion, unmapped");
    peer_write(&t, 0x19, 0x08);
    peer_write(&t, 0x1B, 0xF7);
    check(pins_are(&t, PEER_HIGH, PEER_LOW), "slow motion on INT1");
    peer_write(&t, 0x19, 0xF7);
    peer_write(&t, 0x1B, 0x08);
    check(pins_are(&t, PEER_LOW, PEER_HIGH), "slow motion on INT2");
    sample_x(&t, 100);
    check(shows(&t, 0, 0) && pins_are(&t, PEER_LOW, PEER_LOW), "slow motion went");
    peer_write(&t, 0x18, 0x09);
    peer_clock(&t, 1 * S);
    sample_x(&t, 100);
    check(shows(&t, 0x08, 0) && pins_are(&t, PEER_LOW, PEER_HIGH), "no-motion on INT2");
    peer_write(&t, 0x20, 0x02);
    check(pins_are(&t, PEER_RELEASED, PEER_LOW), "active levels 0, INT1 open-drive");
}

/* What the twin refuses is no sample, and a cycle start and reads move nothing. */
static void slow_samples(void)
{
    struct peer t = fresh(0x18, 0x09);

    sample_x(&t, 0);
    peer_clock(&t, 1 * S);
    check(sample_x(&t, 2048) == 4 && peer_sample(&t, 0, 0, -2049, 0) == 4 && shows(&t, 0, 0),
          "a refused sample is no calm point, and no over point");
    check(peer_cycle_start(&t) == 0 && reads(&t, 0x00, 63) == 0 && reads(&t, 0x3F, 12) == 0 &&
              shows(&t, 0, 0),
          "nor is there one at a cycle start or a read");
    check(sample_x(&t, 80) == 0 && shows(&t, 0x08, 0), "no-motion is set with the sample before them");
    check(sample_x(&t, 2048) == 4 && peer_cycle_start(&t) == 0 && reads(&t, 0x00, 63) == 0 &&
              shows(&t, 0x08, 0),
          "nor do they clear it");
}

/* ---- slow motion and no-motion against their history ---- */

/* The points since power-up or the last settings. Each is judged by the text alone, and the status
   is worked out by going back over them. */
struct points {
    struct {
        uint64_t at; /* microseconds */
        bool over;
    } point[1000];
    int points;
    int from;       /* no point before this one counts: the last restart or expiry */
    uint64_t begun; /* when that was */
    uint64_t now;
    int sample[3];
    bool any_sample;
    int in_18, in_27, threshold; /* the bytes of 0x18, 0x27 and 0x29 */
    uint32_t hold;               /* 0 for none */
    bool latched, set;
    uint64_t since;
};

static uint64_t wait_of(const struct points *p)
{
    int code = p->in_27 >> 2;

    return (uint64_t)(code < 16 ? 1 + code : code < 22 ? 40 + (code - 16) * 8 : 88 + (code - 32) * 8) * S;
}

/* How many points in a row, back from the last, are over or calm. */
static int in_a_row(const struct points *p, bool over)
{
    int count = 0;

    while (p->points - count > p->from && p->point[p->points - 1 - count].over == over)
        count++;
    return count;
}

/* When the last over point, restart or expiry was. */
static uint64_t last_unrest(const struct points *p)
{
    int calm = in_a_row(p, false);

    return p->points - calm > p->from ? p->point[p->points - 1 - calm].at : p->begun;
}

static void judge_point(struct points *p)
{
    bool over = p->point[p->points - 1].over, non_latched = !p->latched && p->hold == 0;
    int n = (p->in_27 >> 2) % 4 + 1;
    bool no_motion = p->in_18 & 8;
    bool sets = no_motion ? !over && p->now - last_unrest(p) >= wait_of(p) : in_a_row(p, true) >= n;
    bool clears = no_motion ? over : in_a_row(p, false) >= n;

    if (!p->set && sets) {
        p->set = true;
        p->since = p->now;
    } else if (p->set && clears && non_latched) {
        p->set = false;
    }
}

static void points_sample(struct points *p, const int sample[3])
{
    bool point = p->any_sample && p->in_18 & 7, over = false;

    for (int axis = 0; axis < 3; axis++) {
        over |= p->in_18 >> axis & 1 && abs(sample[axis] - p->sample[axis]) > 4 * p->threshold;
        p->sample[axis] = sample[axis];
    }
    p->any_sample = true;
    if (!point)
        return;
    p->point[p->points].at = p->now;
    p->point[p->points++].over = over;
    judge_point(p);
}

static void points_restart(struct points *p, uint64_t at)
{
    p->set = false;
    p->from = p->points;
    p->begun = at;
}

static void points_clock(struct points *p, uint32_t microseconds)
{
    p->now += microseconds;
    if (p->set && p->hold > 0 && p->now - p->since >= p->hold)
        points_restart(p, p->since + p->hold);
}

/* Three twins: a clock comes to the second in parts, and the third has no slow motion at all. */
struct three {
    struct peer whole, parts, without;
};

static void write_three(struct three *t, int address, int byte)
{
    write_both(&t->whole, &t->parts, address, byte);
    if (address != 0x18 && address != 0x29)
        peer_write(&t->without, (uint8_t)address, (uint8_t)byte);
}

/* Up to the end of the waiting or of the hold, or one microsecond beside it, or a part of it. */
static void slow_random_clock(struct three *t, struct points *p)
{
    uint64_t waits = last_unrest(p) + wait_of(p), ends = p->since + p->hold;
    uint64_t aim = p->set && draw(2) ? ends : p->set && p->hold > 0 ? ends + wait_of(p) : waits;
    uint64_t time = aim > p->now ? aim - p->now : draw(3) * (uint64_t)S;
    uint32_t microseconds = (uint32_t)(draw(3) ? time : time / (1 + draw(4)));

    microseconds += draw(3);
    microseconds -= microseconds > 0;
    if (draw(60) == 0)
        microseconds = UINT32_MAX;
    peer_clock(&t->without, microseconds);
    clock_both(&t->whole, &t->parts, microseconds);
    points_clock(p, microseconds);
}

/* At either side of the threshold on one axis, calm or as it was on the others. */
static void slow_random_sample(struct three *t, struct points *p)
{
    int sample[3] = {p->sample[0], p->sample[1], p->sample[2]};
    int size = 4 * p->threshold + (draw(4) ? 0 : 1), axis = (int)draw(3);

    sample[axis] += sample[axis] > 0 ? -size : size;
    peer_sample(&t->whole, sample[0], sample[1], sample[2], 0);
    peer_sample(&t->parts, sample[0], sample[1], sample[2], 0);
    peer_sample(&t->without, sample[0], sample[1], sample[2], 0);
    points_sample(p, sample);
}

/* Writes that restart it with the byte that is there, that don't, and that are refused. */
static void slow_random_write(struct three *t, struct points *p, int latch)
{
    const int restarts[][2] = {
        {0x0F, 0x03}, {0x18, p->in_18}, {0x21, latch}, {0x27, p->in_27}, {0x29, p->threshold}};
    const int others[][2] = {{0x16, 0x07}, {0x28, 0x01}, {0x17, 0x0F}, {0x22, 0x00},
                             {0x24, 0x00}, {0x0F, 0x00}, {0x14, 0x00}, {0x30, 0x02}};
    bool restart = draw(2);
    const int *write = restart ? restarts[draw(5)] : others[draw(8)];

    write_three(t, write[0], write[1]);
    if (restart)
        points_restart(p, p->now);
    if (restart && write[0] == 0x0F)
        p->any_sample = false;
    if (p->in_18 & 8)
        write_both(&t->whole, &t->parts, 0x27, (int)(22 + draw(10)) << 2); /* refused */
}

/* Slow motion with any code, and no-motion with any that has a meaning; gives the byte of 0x21. */
static int slow_random_settings(struct three *t, struct points *p)
{
    static const int thresholds[] = {0, 1, 2, 20, 254, 255};
    int latch = (int)(draw(2) ? draw(16) : 8 * draw(2));
    int code = (int)(draw(2) ? draw(4) : draw(64));

    p->points = 0;
    write_three(t, 0x18, 0x00);
    p->in_18 = (int)(draw(8) ? 1 + draw(7) : 0) | (int)draw(2) << 3;
    p->in_27 = (p->in_18 & 8 && code > 21 && code < 32 ? code + 16 : code) << 2 | (int)draw(4);
    p->threshold = thresholds[draw(sizeof thresholds / sizeof *thresholds)];
    p->latched = latch == 7 || latch == 15;
    p->hold = 0;
    for (int i = 0; i < HOLDS; i++)
        if (holds[i].code == (unsigned)latch)
            p->hold = holds[i].time;
    write_three(t, 0x29, p->threshold);
    write_three(t, 0x21, latch);
    write_three(t, 0x27, p->in_27);
    write_three(t, 0x18, p->in_18);
    points_restart(p, p->now);
    return latch;
}

/* Whether 0x09 and 0x0B are those of a twin without slow motion, but for its status. */
static bool beside(struct peer *t, struct peer *without, bool set)
{
    uint8_t got[4], other[4];

    peer_read(t, 0x09, got, 4);
    peer_read(without, 0x09, other, 4);
    return got[0] == (other[0] | (set ? 8 : 0)) && memcmp(got + 1, other + 1, 3) == 0;
}

static void slow_at_random(void)
{
    static struct points p;
    struct three t;
    int apart = 0, seen[2] = {0, 0}, ends = 0;

    peer_power_up(&t.whole);
    peer_write(&t.whole, 0x16, 0x07);
    peer_write(&t.whole, 0x28, 0x01);
    t.parts = t.without = t.whole;
    for (int turn = 0; turn < 6000; turn++) {
        int latch = slow_random_settings(&t, &p);

        for (int i = 0; i < 60; i++) {
            unsigned choice = draw(20);
            bool before = p.set;

            if (choice < 11)
                slow_random_sample(&t, &p);
            else if (choice < 19)
                slow_random_clock(&t, &p);
            else
                slow_random_write(&t, &p, latch);
            apart += !same(&t.whole, &t.parts) || !beside(&t.whole, &t.without, p.set);
            seen[p.in_18 >> 3] += p.set && !before;
            ends += before && !p.set && p.hold > 0;
        }
    }
    check(apart == 0, "slow motion: %d events at random part the twins or their history", apart);
    check(seen[0] > 1000 && seen[1] > 1000 && ends > 1000,
          "set at random: %d and %d times, and %d times ended", seen[0], seen[1], ends);
}

static void slow_and_no_motion(void)
{
    slow_thresholds();
    slow_counts();
    no_motion_points();
    no_motion_codes();
    no_motion_refusals();
    every_code();
    slow_latches();
    slow_writes();
    beside_any_motion();
    slow_pins();
    slow_samples();
    slow_at_random();
}

/* ---- offsets ---- */

enum { REFUSED = 4096 }; /* for what is stored of a given count that is refused 4 */

/* The byte of an axis's offset, a given count of it and what is stored; by hand. The last one below,
   the first and the next one at each end of the 12 bits, and counts that are outside as they are
   given although the offset would bring them in. */
struct stored {
    unsigned byte;
    int given, stored;
};

static const struct stored at_2_g[] = { /* a step is 8 counts */
    {0x00, 0, 0},       {0x00, 2047, 2047},   {0x00, 2048, REFUSED}, {0x00, -2048, -2048},
    {0x00, -2049, REFUSED},
    {0x01, 0, 8},       {0x01, -9, -1},       {0x01, 2038, 2046},    {0x01, 2039, 2047},
    {0x01, 2040, 2047}, {0x01, 2047, 2047},   {0x01, 2048, REFUSED}, {0x01, -2048, -2040},
    {0x01, -2049, REFUSED}, {0x01, -2056, REFUSED},
    {0x7F, 0, 1016},    {0x7F, -1016, 0},     {0x7F, 1030, 2046},    {0x7F, 1031, 2047},
    {0x7F, 1032, 2047}, {0x7F, 2047, 2047},   {0x7F, 2048, REFUSED}, {0x7F, -2048, -1032},
    {0x7F, -2049, REFUSED}, {0x7F, -3064, REFUSED},
    {0x80, 0, -1024},   {0x80, 1024, 0},      {0x80, -1023, -2047},  {0x80, -1024, -2048},
    {0x80, -1025, -2048}, {0x80, -2048, -2048}, {0x80, -2049, REFUSED}, {0x80, 2047, 1023},
    {0x80, 2048, REFUSED}, {0x80, 3071, REFUSED},
    {0x81, 0, -1016},   {0x81, -1031, -2047}, {0x81, -1032, -2048},  {0x81, -1033, -2048},
    {0xFF, 0, -8},      {0xFF, 9, 1},         {0xFF, -2039, -2047},  {0xFF, -2040, -2048},
    {0xFF, -2041, -2048}, {0xFF, -2048, -2048}, {0xFF, -2049, REFUSED}, {0xFF, 2047, 2039},
    {0xFF, 2048, REFUSED}, {0xFF, 2055, REFUSED},
};

static const struct stored at_4_g[] = { /* 4 counts */
    {0x00, 2047, 2047}, {0x00, -2048, -2048},
    {0x01, 0, 4},       {0x01, 2042, 2046},   {0x01, 2043, 2047},    {0x01, 2044, 2047},
    {0x01, 2048, REFUSED}, {0x01, -2048, -2044}, {0x01, -2049, REFUSED},
    {0x7F, 0, 508},     {0x7F, 1538, 2046},   {0x7F, 1539, 2047},    {0x7F, 1540, 2047},
    {0x7F, 2047, 2047}, {0x7F, -2048, -1540}, {0x7F, -2049, REFUSED},
    {0x80, 0, -512},    {0x80, -1535, -2047}, {0x80, -1536, -2048},  {0x80, -1537, -2048},
    {0x80, -2048, -2048}, {0x80, 2047, 1535}, {0x80, 2048, REFUSED},
    {0xFF, 0, -4},      {0xFF, -2043, -2047}, {0xFF, -2044, -2048},  {0xFF, -2045, -2048},
    {0xFF, -2049, REFUSED}, {0xFF, 2047, 2043}, {0xFF, 2048, REFUSED},
};

static const struct stored at_8_g[] = { /* 2 counts */
    {0x00, 2047, 2047}, {0x00, -2048, -2048},
    {0x01, 0, 2},       {0x01, 2044, 2046},   {0x01, 2045, 2047},    {0x01, 2046, 2047},
    {0x01, 2048, REFUSED}, {0x01, -2048, -2046}, {0x01, -2049, REFUSED},
    {0x7F, 0, 254},     {0x7F, 1792, 2046},   {0x7F, 1793, 2047},    {0x7F, 1794, 2047},
    {0x7F, 2047, 2047}, {0x7F, -2048, -1794}, {0x7F, -2049, REFUSED},
    {0x80, 0, -256},    {0x80, -1791, -2047}, {0x80, -1792, -2048},  {0x80, -1793, -2048},
    {0x80, -2048, -2048}, {0x80, 2047, 1791}, {0x80, 2048, REFUSED},
    {0xFF, 0, -2},      {0xFF, -2045, -2047}, {0xFF, -2046, -2048},  {0xFF, -2047, -2048},
    {0xFF, -2049, REFUSED}, {0xFF, 2047, 2045}, {0xFF, 2048, REFUSED},
};

static const struct stored at_16_g[] = { /* 1 count */
    {0x00, 2047, 2047}, {0x00, -2048, -2048},
    {0x01, 0, 1},       {0x01, 2045, 2046},   {0x01, 2046, 2047},    {0x01, 2047, 2047},
    {0x01, 2048, REFUSED}, {0x01, -2048, -2047}, {0x01, -2049, REFUSED},
    {0x7F, 0, 127},     {0x7F, 1919, 2046},   {0x7F, 1920, 2047},    {0x7F, 1921, 2047},
    {0x7F, 2047, 2047}, {0x7F, -2048, -1921}, {0x7F, -2049, REFUSED},
    {0x80, 0, -128},    {0x80, -1919, -2047}, {0x80, -1920, -2048},  {0x80, -1921, -2048},
    {0x80, -2048, -2048}, {0x80, 2047, 1919}, {0x80, 2048, REFUSED},
    {0xFF, 0, -1},      {0xFF, -2046, -2047}, {0xFF, -2047, -2048},  {0xFF, -2048, -2048},
    {0xFF, -2049, REFUSED}, {0xFF, 2047, 2046}, {0xFF, 2048, REFUSED},
};

/* A row on one axis of a fresh twin; the others have no offset and are stored as they are given. */
static void stored_on(unsigned range, int axis, const struct stored *row)
{
    struct peer t = fresh(0x0F, (uint8_t)range), before;
    int given[3] = {100, -200, 300}, stored[3] = {100, -200, 300};
    enum peer_answer wanted = row->stored == REFUSED ? PEER_OUTSIDE_12_BITS : PEER_DONE;

    given[axis] = row->given;
    stored[axis] = row->stored;
    check(peer_write(&t, (uint8_t)(0x38 + axis), (uint8_t)row->byte) == 0, "an offset is accepted");
    before = t;
    check(peer_sample(&t, given[0], given[1], given[2], 7) == wanted,
          "0F=%02X, %02X=%02X: given %d is answered %d", range, 0x38 + axis, row->byte, row->given,
          wanted);
    if (wanted != PEER_DONE)
        check(same(&t, &before), "0F=%02X, given %d: nothing changes", range, row->given);
    else
        check(sample_at(&t, 0x02, stored[0], stored[1], stored[2]) && gives(&t, 0x08, "07") &&
                  sample_at(&t, 0x3F, stored[0], stored[1], stored[2]),
              "0F=%02X, %02X=%02X: given %d is stored as %d", range, 0x38 + axis, row->byte,
              row->given, row->stored);
}

#define STORED(range, rows)                                                                        \
    for (size_t i = 0; i < sizeof rows / sizeof *rows; i++)                                        \
        for (int axis = 0; axis < 3; axis++)                                                       \
            stored_on(range, axis, &rows[i])

static void stored_by_hand(void)
{
    STORED(0x03, at_2_g);
    STORED(0x05, at_4_g);
    STORED(0x08, at_8_g);
    STORED(0x0C, at_16_g);
    STORED(0xF8, at_8_g); /* bits 7:4 of 0x0F are ignored */
}

/* The counts of an offset at a range of so many g: 2048 counts are that many, and a step is a 128th
   of one. */
static int offset_by_text(int g, int steps)
{
    return steps * (2048 / g) / 128;
}

static int stored_by_text(int g, int steps, int given)
{
    int count = given + offset_by_text(g, steps);

    return count > 2047 ? 2047 : count < -2048 ? -2048 : count;
}

/* Each byte reads back as it was written, and moves each count to where the text says. */
static void every_offset(void)
{
    static const struct {
        uint8_t code;
        int g;
    } ranges[] = {{0x03, 2}, {0x05, 4}, {0x08, 8}, {0x0C, 16}};

    for (int i = 0; i < 4; i++)
        for (int byte = 0; byte < 256; byte++) {
            struct peer t = fresh(0x0F, ranges[i].code);
            int steps = byte > 127 ? byte - 256 : byte, apart = 0;

            peer_write(&t, 0x39, (uint8_t)byte);
            apart += !reads_as(&t, 0x39, (unsigned)byte) || !gives(&t, 0x38, "00");
            for (int given = -2048; given <= 2047; given++) {
                apart += peer_sample(&t, given, given, -1 - given, 0) != 0;
                apart += !sample_at(&t, 0x3F, given, stored_by_text(ranges[i].g, steps, given),
                                    -1 - given);
            }
            check(apart == 0, "0F=%02X, 39=%02X: %d apart", ranges[i].code, byte, apart);
        }
}

/* A write to an offset changes only later samples; the step is that of the range at the sample. */
static void offsets_and_samples(void)
{
    story("38=01 39=FE 3A=7F", "0,0,0 @8,-16,1016 >8,-16,1016 1,2,3 @9,-14,1019 >9,-14,1019");
    story("38=80 39=81 3A=FF", "2047,-2048,-2041 @1023,-2048,-2048 38?80 39?81 3A?FF");
    story("3E=40", "1,2,3 38=01 39=02 3A=03 @1,2,3 1,2,3 @9,18,27 38=FF @9,18,27 1,2,3 @-7,18,27 "
                   "39=00 3A=80 >1,2,3 >9,18,27 >-7,18,27 >0,0,0 1,2,3 >-7,2,-1021");
    story("3E=80 38=7F", "2047,0,0 1031,0,0 1030,0,0 38=00 >2047,0,0 >2047,0,0 >2046,0,0 0E?00");
    story("38=01 39=80 3A=7F", "0,0,0 @8,-1024,1016 0F=05 @8,-1024,1016 0,0,0 @4,-512,508 0F=08 "
                               "0,0,0 @2,-256,254 0F=0C 0,0,0 @1,-128,127 0F=04!2 0,0,0 @1,-128,127 "
                               "0F=F3 0,0,0 @8,-1024,1016 38?01 39?80 3A?7F");
    story("3E=40 38=FF", "0,0,0 0F=05 0,0,0 0F=0C 0,0,0 0F=08 >-8,0,0 >-4,0,0 >-1,0,0 0,0,0 >-2,0,0");
    story("0F=0C 38=7F 0F=03", "0,0,0 @1016,0,0"); /* not that of the range at the write */
    /* a soft reset ends them; no other byte at 0x14 does, nor does what 0x36 refuses or ignores */
    story("38=01 39=80 3A=7F 3B=11 3C=22", "14=B5 0,0,0 @8,-1024,1016 14=B6 38?00 39?00 3A?00 3B?11 "
                                           "3C?22 @0,0,0 1,2,3 @1,2,3 >1,2,3");
    story("0F=0C 38=01", "14=B6 38=01 0,0,0 @8,0,0"); /* at 2 g again */
    story("38=01 39=80 3A=7F", "36=80!13 36=40!13 36=20!13 36=E0!13 36=04!13 36=02!13 36=01!13 "
                               "36=90!13 36=88!13 36=10 36=18 36=08 36=00 36?10 37=7F 38?01 39?80 "
                               "3A?7F 0,0,0 @8,-1024,1016");
    /* what is refused leaves the sample before, in channels and frames */
    story("38=80", "2047,0,0 @1023,0,0 2048,0,0!4 3071,0,0!4 0,2048,0!4 @1023,0,0 >1023,0,0 0E?00");
    story("38=7F", "-2048,0,0 -2049,0,0!4 -3064,0,0!4 0,0,-2049!4 @-1032,0,0 >-1032,0,0 0E?00");
}

/* Frames of one axis, and a lock from before the write. */
static void offsets_and_bytes(void)
{
    struct peer t = fresh(0x3E, 0x82);

    peer_write(&t, 0x38, 0x7F);
    peer_sample(&t, 0, -1, 5, 0);
    peer_write(&t, 0x39, 0x01);
    peer_sample(&t, 0, -1, 5, 0);
    peer_write(&t, 0x39, 0xFF);
    peer_sample(&t, 0, -2041, 5, 0);
    check(gives(&t, 0x3F, "F1FF71000180"), "frames of y: -1, 7, -2048");
    check(gives(&t, 0x02, "813F0180510000"), "x 1016, y -2048, z 5");
    check(gives(&t, 0x04, "00") && peer_write(&t, 0x39, 0x7F) == 0, "y is locked, its offset written");
    peer_sample(&t, 0, 0, 5, 0);
    check(gives(&t, 0x05, "80") && gives(&t, 0x05, "3F"), "the locked byte, then that of y 1016");
}

/* "the jump is a slope like any other": any-motion on x, over above 4 or, with 28=02, above 8. */
static void offsets_and_any_motion(void)
{
    story(ANY, "0,0,0 38=01 ?00 0,0,0 09?04 0B?01 0,0,0 09?00");
    story(ANY "28=02", "0,0,0 38=01 0,0,0 ?00 38=00 0,0,0 ?00"); /* 8 */
    story(ANY "28=02", "0,0,0 38=01 1,0,0 09?04 0B?01");         /* 9 */
    story(ANY "28=02", "0,0,0 38=FF 0,0,0 ?00 38=FE -1,0,0 09?04 0B?09");
    story(ANY "28=FE", "0,0,0 38=7F 0,0,0 ?00 38=FF 0,0,0 09?04 0B?09"); /* 1016, 1024 */
    story(ANY "28=FF", "0,0,0 38=7F 4,0,0 ?00");                         /* 1020 */
    story(ANY "28=FF", "0,0,0 38=7F 5,0,0 09?04 0B?01");                 /* 1021 */
    story(ANY "0F=05", "0,0,0 38=01 0,0,0 ?00 38=FF 0,0,0 09?04 0B?09"); /* 4, 8 */
    story(ANY "0F=08", "0,0,0 38=02 0,0,0 ?00 38=05 0,0,0 09?04 0B?01"); /* 4, 6 */
    story(ANY "0F=0C", "0,0,0 38=04 0,0,0 ?00 38=FF 0,0,0 09?04 0B?09"); /* 4, 5 */
    story(ANY "16=02", "0,0,0 38=7F 3A=80 0,0,0 ?00 39=01 0,0,0 09?04 0B?02");
    story(ANY "16=04", "0,0,0 38=7F 39=80 0,0,0 ?00 3A=FF 0,0,0 09?04 0B?0C");
    story(ANY "16=07", "0,0,0 39=01 3A=80 0,0,0 09?04 0B?02"); /* y before z */
    /* between two samples what counts is how they are stored */
    story(ANY "28=00", "0,0,0 38=01 -8,0,0 ?00 38=FF 8,0,0 ?00 38=00 0,0,0 ?00 1,0,0 09?04 0B?01");
    story(ANY "28=00", "0,0,0 38=7F ?00 38=00 0,0,0 ?00"); /* to and fro is no point */
    story(ANY "28=00 38=01", "0,0,0 38=00 8,0,0 ?00 0,0,0 09?04 0B?09");
    story(ANY "28=00 38=7F", "0,0,0 2047,0,0 09?04 1031,0,0 ?00 1500,0,0 ?00 1030,0,0 09?04 0B?09");
    story(ANY "28=00 38=80", "-2048,0,0 -1024,0,0 ?00 -1023,0,0 09?04 0B?01");
    story(ANY "28=02", "2039,0,0 38=02 2039,0,0 ?00 38=7F 2047,0,0 ?00"); /* held after 8 of 16 */
    story(ANY "28=02", "2038,0,0 38=02 2038,0,0 09?04 0B?01");            /* after 9 */
    story(ANY "28=FF 38=7F", "2047,0,0 38=80 -2048,0,0 09?04 0B?09 38=7F 2047,0,0 09?04 -6,0,0 09?04 "
                             "10,0,0 09?00"); /* -4095, 4095, -1037, 16 */
    /* what is refused is no sample before */
    story(ANY "28=00", "0,0,0 38=80 2048,0,0!4 38=00 0,0,0 ?00");
    /* 0x0F forgets the sample before, and so does a soft reset */
    story(ANY "38=01", "0,0,0 0F=0C 0,0,0 ?00 0F=03 0,0,0 ?00 0,0,0 ?00");
    story(ANY "38=7F", "0,0,0 14=B6 16=01 28=01 0,0,0 ?00 5,0,0 09?04");
}

/* "a write to 0x38..0x3A restarts nothing", of the same byte or another: status, marks, runs, what is
   left of a time, and the sample before. */
static void offsets_restart_nothing(void)
{
    story(ANY "27=01", "0,0,0 5,0,0 38=01 ?00 5,0,0 09?04 0B?01"); /* the jump is the second over */
    story(ANY "27=01", "0,0,0 5,0,0 39=7F 3A=80 38=00 10,0,0 09?04 0B?01");
    story(ANY "27=01", "0,0,0 5,0,0 10,0,0 09?04 10,0,0 38=01 09?04 0B?01 2,0,0 09?00");
    story(ANY "21=07", "0,0,0 -5,0,0 09?04 38=01 39=FF 3A=00 09?04 0B?09 -13,0,0 09?04 0B?09");
    story(ANY "21=09", "0,0,0 5,0,0 09?04 +249 38=01 09?04 0B?01 +1 09?00");
    story(SLOW_2, "0,0,0 5,0,0 38=01 5,0,0 ?08 38=01 ?08 5,0,0 38=7F ?08 -1003,0,0 ?00");
    story(SLOW " 21=0A", "0,0,0 38=01 0,0,0 ?08 +499 38=80 39=01 ?08 +1 ?00");
    story(STILL, "0,0,0 +999999 38=01 +1 -8,0,0 ?08 38=00 ?08 0,0,0 ?08");
    story(STILL, "+999999 39=80 38=00 0,0,0 +1 0,0,0 ?08");
    story(STILL " 21=09", SET_STILL " +249 38=01 ?08 +1 ?00 +999999 -8,0,0 ?00 +1 -8,0,0 ?08");
    story(BOTH, SET_BOTH " 38=00 39=01 3A=00 ?03/0A 0,-13,0 ?03/0A 0,-8,0 ?01/08");
    story(BOTH, "0,-5,0 +1999 39=FF +1 0,3,0 ?03/0A");
    story(BOTH " 21=09", SET_BOTH " +249 39=01 38=7F ?03/0A +1 ?00/08");
    story(BOTH " 21=07", SET_BOTH " 39=01 ?03/0A 0,-8,0 ?03/0A");
}

/* Slow motion and no-motion on x: 4 is calm, 5 is over. */
static void offsets_and_slow_motion(void)
{
    story(SLOW, "0,0,0 38=01 0,0,0 ?08 0,0,0 ?00");
    story(SLOW " 29=02", "0,0,0 38=FF 0,0,0 ?00 38=00 1,0,0 ?08"); /* 8, 9 */
    story(SLOW " 0F=0C", "0,0,0 38=04 0,0,0 ?00 38=FF 0,0,0 ?08");
    story(SLOW " 18=02", "0,0,0 38=7F 3A=80 0,0,0 ?00 39=80 0,0,0 ?08");
    story(SLOW " 29=00 38=7F", "1031,0,0 2047,0,0 ?00 38=00 2047,0,0 ?00 2046,0,0 ?08");
    story(SLOW, "0,0,0 38=01 -8,0,0 ?00 -4,0,0 ?00 1,0,0 ?08");
    story(STILL, "0,0,0 +1000000 38=01 0,0,0 ?00 +999999 0,0,0 ?00 +1 0,0,0 ?08 38=00 0,0,0 ?00");
    story(STILL " 0F=08", "0,0,0 +1000000 38=02 0,0,0 ?08 38=FF 0,0,0 ?00"); /* 4, 6 */
    story(STILL " 0F=0C", "0,0,0 +1000000 38=FC 0,0,0 ?08 38=01 0,0,0 ?00"); /* 4, 5 */
    story(STILL " 29=00", "2047,0,0 +1000000 38=7F 2047,0,0 ?08 38=80 2047,0,0 ?00");
    story(STILL " 18=0C", "0,0,0 +1000000 38=7F 39=7F 0,0,0 ?08 3A=01 0,0,0 ?00");
}

/* Low-g below 48 counts at 2 g, which are 6 steps at any range; high-g above 48 of the range. */
static void offsets_and_g(void)
{
    static const char *const ranges[] = {"0F=03", "0F=05", "0F=08", "0F=0C"};

    EACH_WRITE(LOW " 38=06", "%s -1,0,0 +2000 -1,0,0 ?01/00 38=07 -1,0,0 ?00/00", ranges);
    EACH_WRITE(LOW " 38=06", "%s 0,0,0 +2000 0,0,0 ?00/00", ranges);
    EACH_WRITE(LOW " 3A=FA", "%s 0,0,1 +2000 0,0,1 ?01/00", ranges);
    EACH_WRITE(LOW " 3A=FA", "%s 0,0,0 +2000 0,0,0 ?00/00", ranges);
    EACH_WRITE(LOW_SUM " 38=02 39=FE 3A=02", "%s 0,0,0 +2000 0,0,0 ?00/00", ranges);
    EACH_WRITE(LOW_SUM " 38=02 39=FE 3A=02", "%s 0,1,0 +2000 0,0,-1 ?01/00", ranges);
    story(LOW " 39=FA", "0,95,0 +2000 0,95,0 ?01/00 0,96,0 ?00/00");
    story(LOW, "0,0,0 +1000 38=06 0,0,0 38=00 +1000 0,0,0 ?00/00"); /* one sample between is not low */
    story(LOW, "0,0,0 +1000 38=06 38=00 +1000 0,0,0 ?01/00 38=06 ?01/00 0,0,0 ?00/00");
    story(LOW " 24=01 38=05", "7,0,0 +2000 7,0,0 ?01/00 135,0,0 ?01/00 136,0,0 ?00/00"); /* 176 clears */
    story(HIGH("01") " 38=06", "0,0,0 +2000 0,0,0 ?00/00 1,0,0 +2000 1,0,0 ?02/01 0,0,0 ?00/00");
    story(HIGH("02") " 39=FA", "0,0,0 +2000 0,0,0 ?00/00 0,-1,0 +2000 0,-1,0 ?02/0A");
    story(HIGH("04") " 3A=01 38=7F 39=80", "0,0,40 +2000 0,0,40 ?00/00 0,0,41 +2000 0,0,41 ?02/04");
    story(HIGH("01") " 38=FF", "56,0,0 +2000 56,0,0 ?00/00 57,0,0 +2000 57,0,0 ?02/01");
    story(HIGH("01") " 0F=0C 38=30", "0,0,0 +2000 0,0,0 ?00/00 1,0,0 +2000 1,0,0 ?02/01");
    /* the sign is that of the stored sample */
    story(HIGH("01") " 38=F0", "5,0,0 +2000 5,0,0 ?02/09");
    story(HIGH("01") " 38=10", "-5,0,0 +2000 -5,0,0 ?02/01");
    story(HIGH("07"), "0,0,0 38=07 0,0,0 +2000 39=80 38=00 0,0,0 ?02/0A 39=00 ?02/0A 0,0,0 ?00/08");
    /* held at 2047 and -2048, whose size is 2048 */
    story(HIGH("01") " 26=FF 38=7F", "1025,0,0 +2000 2047,0,0 ?02/01 1024,0,0 ?00/00");
    story(HIGH("01") " 26=FF 38=80", "-1016,0,0 +2000 -1016,0,0 ?00/00 -1017,0,0 +2000 -2048,0,0 ?02/09");
    story(LOW " 23=F0 24=01 38=80", "0,0,0 +2000 0,0,0 ?01/00 -1023,0,0 ?01/00 -1500,0,0 ?00/00");
}

/* ---- offsets against the text ---- */

/* A twin with offsets, and one without to which the stored samples are given as the text says. */
struct pair {
    struct peer with, plain;
    int steps[3], g, given[3];
    int apart;                             /* events that part them */
    int held, brought_in, jumps, statuses; /* seen */
};

static void write_pair(struct pair *p, int address, int byte)
{
    unsigned answer = peer_write(&p->with, (uint8_t)address, (uint8_t)byte);

    p->apart += peer_write(&p->plain, (uint8_t)address, (uint8_t)byte) != answer;
}

/* Near an end of the 12 bits as it is given or stored, the same as before, or a small one. */
static int pair_count(const struct pair *p, int axis)
{
    int end = draw(2) ? 2047 : -2048, beside = (int)draw(3) - 1;

    switch (draw(8)) {
    case 0:
        return end + beside;
    case 1:
    case 2:
        return end - offset_by_text(p->g, p->steps[axis]) + beside;
    case 3:
        return (int)draw(65) - 32;
    default:
        return p->given[axis];
    }
}

/* Where one given count is outside, the answer is 4 and nothing changes, whatever would be stored. */
static void pair_sample(struct pair *p)
{
    int given[3], stored[3];
    bool outside = false, in = true;

    for (int axis = 0; axis < 3; axis++) {
        given[axis] = pair_count(p, axis);
        stored[axis] = stored_by_text(p->g, p->steps[axis], given[axis]);
        outside |= given[axis] < -2048 || given[axis] > 2047;
        in &= stored[axis] == given[axis] + offset_by_text(p->g, p->steps[axis]);
    }
    p->apart += peer_sample(&p->with, given[0], given[1], given[2], 9) != (outside ? 4 : 0);
    p->brought_in += outside && in;
    if (outside)
        return;
    p->held += !in;
    memcpy(p->given, given, sizeof given);
    peer_sample(&p->plain, stored[0], stored[1], stored[2], 9);
}

static void pair_offset(struct pair *p)
{
    static const int edges[] = {0x00, 0x01, 0x02, 0x7F, 0x80, 0x81, 0xFF};
    int axis = (int)draw(3), byte = draw(2) ? (int)draw(256) : edges[draw(7)];
    int steps = byte > 127 ? byte - 256 : byte;

    p->apart += peer_write(&p->with, (uint8_t)(0x38 + axis), (uint8_t)byte) != 0;
    p->apart += !reads_as(&p->with, 0x38 + (unsigned)axis, (unsigned)byte);
    p->jumps += p->steps[axis] != steps;
    p->steps[axis] = steps;
}

/* Settings in which most jumps and small samples are near a threshold. */
static void pair_settings(struct pair *p)
{
    static const int codes[] = {0x03, 0x05, 0x08, 0x0C}, bytes[] = {0, 1, 2, 6, 32, 128, 254, 255};
    static const int thresholds[] = {0x23, 0x26, 0x28, 0x29};
    unsigned range = draw(4);

    write_pair(p, 0x0F, codes[range]);
    p->g = 2 << range;
    for (int i = 0; i < 4; i++)
        write_pair(p, thresholds[i], bytes[draw(8)]);
    write_pair(p, 0x22, 0);
    write_pair(p, 0x25, 0);
    write_pair(p, 0x24, (int)draw(256));
    write_pair(p, 0x27, (int)draw(8));
    write_pair(p, 0x21, (int)(draw(2) ? 0 : draw(16)));
    write_pair(p, 0x16, (int)draw(8));
    write_pair(p, 0x17, (int)draw(128));
    write_pair(p, 0x18, (int)draw(16));
    write_pair(p, 0x3E, (int)draw(192));
}

static void pair_read(struct pair *p)
{
    static const uint8_t reads[][2] = {{0x02, 6}, {0x02, 1}, {0x05, 1}, {0x3F, 6}, {0x3F, 20}, {0x3F, 2}};
    const uint8_t *read = reads[draw(6)];
    uint8_t bytes[20], others[20];

    peer_read(&p->with, read[0], bytes, read[1]);
    peer_read(&p->plain, read[0], others, read[1]);
    p->apart += memcmp(bytes, others, read[1]) != 0;
}

/* What else may come: a clock, a read, a refused write, and now and then a soft reset. */
static void pair_other(struct pair *p)
{
    static const uint32_t times[] = {250, 2 * MS, 500 * MS, 1 * S};
    uint32_t time = times[draw(4)];

    switch (draw(8)) {
    case 0:
        write_pair(p, 0x36, 0x80);
        break;
    case 1:
        if (draw(8))
            break;
        write_pair(p, 0x14, 0xB6);
        memset(p->steps, 0, sizeof p->steps);
        p->g = 2;
        break;
    case 2:
    case 3:
        pair_read(p);
        break;
    default:
        peer_clock(&p->with, time);
        peer_clock(&p->plain, time);
        break;
    }
}

/* Whether they are the same in all but 0x38 to 0x3A, which hold what was written. */
static bool pair_agrees(struct pair *p)
{
    struct peer without = p->with;
    bool written = true;

    for (int axis = 0; axis < 3; axis++) {
        written &= p->with.reg[0x38 + axis] == (p->steps[axis] & 0xFF);
        without.reg[0x38 + axis] = 0x00;
    }
    return written && same(&without, &p->plain);
}

static void offsets_at_random(void)
{
    struct pair p = {.g = 2};

    peer_power_up(&p.with);
    p.plain = p.with;
    for (int turn = 0; turn < 3000; turn++) {
        pair_settings(&p);
        for (int i = 0; i < 60; i++) {
            unsigned choice = draw(8);
            uint8_t status;

            if (choice < 4)
                pair_sample(&p);
            else if (choice < 6)
                pair_offset(&p);
            else
                pair_other(&p);
            p.apart += !pair_agrees(&p);
            peer_read(&p.with, 0x09, &status, 1);
            p.statuses |= status;
        }
    }
    check(p.apart == 0, "offsets: %d events at random part the twin from the text", p.apart);
    check(p.held > 1000 && p.brought_in > 1000 && p.jumps > 1000 && p.statuses == 0x0F,
          "held %d, refused though brought in %d, jumps %d, statuses %X", p.held, p.brought_in,
          p.jumps, p.statuses);
}

static void offsets(void)
{
    stored_by_hand();
    every_offset();
    offsets_and_samples();
    offsets_and_bytes();
    offsets_and_any_motion();
    offsets_restart_nothing();
    offsets_and_slow_motion();
    offsets_and_g();
    offsets_at_random();
}

/* ---- programs ---- */

static const char *replay_command = "./replay", *answer_command = "./answer",
                  *sheet_command = "./sheet";

static bool text_is(const char *wanted)
{
    FILE *out = fopen("case.out", "rb");
    char got[4096];
    size_t length;

    if (out == NULL)
        return false;
    length = fread(got, 1, sizeof got, out);
    fclose(out);
    return length == strlen(wanted) && memcmp(got, wanted, length) == 0;
}

/* Whether a program gives this text for case.log, with input in one-byte pieces where slow is
   true. */
static bool gives_text(const char *command, const char *arguments, bool slow, const char *wanted)
{
    char line[256];

    snprintf(line, sizeof line, "%s%s %s%s >case.out", slow ? "dd bs=1 if=case.log 2>&- | " : "",
             command, arguments, slow ? "" : " <case.log");
    return system(line) == 0 && text_is(wanted);
}

static void write_log(const uint8_t *log, size_t length)
{
    FILE *file = fopen("case.log", "wb");

    if (file == NULL || fwrite(log, 1, length, file) != length || fclose(file) != 0) {
        perror("case.log");
        exit(2);
    }
}

/* ---- replay ---- */

static bool replay_gives(bool slow, const char *wanted)
{
    return gives_text(replay_command, "", slow, wanted);
}

static void replay(const char *hex, const char *wanted)
{
    uint8_t log[256];

    write_log(log, from_hex(hex, log));
    check(replay_gives(false, wanted), "%s", hex);
}

static void replay_pins(const char *hex, const char *wanted)
{
    uint8_t log[256];

    write_log(log, from_hex(hex, log));
    check(gives_text(replay_command, "pins", false, wanted), "pins: %s", hex);
}

static const char printed[] =
    "01 00 03 01 3E 40 00 08 03 00 10 FF F0 04 00 05 00 03 02 3F 06";

static void printed_log(void)
{
    static const char wanted[] = "1 0\n2 0\n3 0 010101FF0140\npins 0 0\n";

    replay(printed, wanted);
    check(replay_gives(true, wanted), "the printed log, byte by byte");
}

static void cut_everywhere(void)
{
    static const char *const lines[] = {"1 0\n", "2 0\n", "3 0 010101FF0140\n"};
    static const size_t ends[] = {1, 6, 16, 21};
    uint8_t log[64];
    size_t length = from_hex(printed, log);

    for (size_t cut = 0; cut <= length; cut++) {
        char wanted[128] = "";
        bool boundary = false;
        int whole = 0;

        for (int i = 0; i < 4; i++)
            if (cut == ends[i])
                boundary = true;
        for (; whole < 3 && cut >= ends[whole + 1]; whole++)
            strcat(wanted, lines[whole]);
        if (!boundary)
            sprintf(wanted + strlen(wanted), "%d 9\n", cut == 0 ? 0 : whole + 1);
        strcat(wanted, "pins 0 0\n");
        write_log(log, cut);
        check(replay_gives(false, wanted), "printed log cut at %d", (int)cut);
    }
}

static void stops(void)
{
    replay("02 00 01 04", "0 7\npins 0 0\n");
    replay("00", "0 7\npins 0 0\n");
    replay("01 00 00 00 01 04", "1 8\npins 0 0\n");
    replay("01 00 01 04 00 09", "1 0\n2 8\npins 0 0\n");
    replay("01 FF FF 04", "1 8\npins 0 0\n");
    replay("01 01 03 01 3E 40", "1 8\npins 0 0\n");
    replay("01 00 08 05 00", "1 9\npins 0 0\n");
    replay("01 00 01 05", "1 8\npins 0 0\n");
    replay("01 00 01 00 00 01 04", "1 8\npins 0 0\n");
    replay("01 00 02 04 00", "1 8\npins 0 0\n");
    replay("01 00 03 03 00 00", "1 8\npins 0 0\n");
    replay("01 00 08 01 00 00 00 00 00 00 00", "1 8\npins 0 0\n");
    replay("01 00 01 02", "1 8\npins 0 0\n");
    replay("01 00 03 01 20 0E 00 00", "1 0\n2 8\npins Z Z\n");
    replay("01 00 01 06", "1 8\npins 0 0\n");
    replay("01 00 05 06 00 00 00 00", "1 8\npins 0 0\n");
    replay("01 00 05 00 00 00 00 00", "1 8\npins 0 0\n");
    replay("01 00 05 06 00 00 00", "1 9\npins 0 0\n");
}

static void refusals_go_on(void)
{
    replay("01 00 03 01 40 00 00 03 01 0F 04 00 03 01 21 01 00 08 03 08 00 00 00 00 00 00"
           "00 03 02 3F 00 00 03 02 3F C1 00 03 02 3E 02 00 03 02 40 00 00 01 04 00 03 02 00 01",
           "1 1\n2 2\n3 0\n4 4\n5 5\n6 5\n7 6\n8 1\n9 0\n10 0 FA\npins 0 0\n");
    replay("01 00 08 03 F8 00 07 FF FF FF 80 00 03 02 02 07",
           "1 0\n2 0 0180F17FF1FF80\npins 0 0\n");
    replay("01 00 08 03 F7 FF 00 00 00 00 00 00 08 03 80 00 00 00 00 00 00 00 03 02 00 00",
           "1 4\n2 4\n3 5\npins 0 0\n");
    replay("01 00 03 01 16 80 00 03 01 17 01 00 03 01 18 0C 00 03 01 11 C0 00 03 01 32 05"
           "00 03 01 33 02 00 03 01 36 80 00 03 01 3A 01 00 03 01 21 89 00 03 02 16 03"
           "00 03 01 18 08 00 03 01 21 88 00 03 02 18 01 00 03 02 21 01",
           "1 11\n2 0\n3 0\n4 12\n5 13\n6 13\n7 13\n8 0\n9 0\n10 0 00010C\n11 0\n12 0\n"
           "13 0 08\n14 0 08\npins 0 0\n");
    replay("01 00 03 01 18 08 00 03 01 27 58 00 03 02 27 01 00 03 01 18 07 00 03 01 27 58"
           "00 03 01 18 08 00 03 02 18 01 00 03 02 27 01",
           "1 0\n2 2\n3 0 00\n4 0\n5 0\n6 2\n7 0 07\n8 0 58\npins 0 0\n");
}

#define SAMPLE_AND_STATUS "00 08 03 00 00 00 00 00 00 00 00 03 02 0A 01"
#define THREE_AT_LEVEL_2                                                                           \
    "01 00 03 01 17 40 00 03 01 30 02 00 03 01 1A 02 00 03 01 3E 40" SAMPLE_AND_STATUS             \
        SAMPLE_AND_STATUS SAMPLE_AND_STATUS
#define THEIR_ANSWERS "1 0\n2 0\n3 0\n4 0\n5 0\n6 0 00\n7 0\n8 0 40\n9 0\n10 0 40\n"

static void watermark_log(void)
{
    replay(THREE_AT_LEVEL_2, THEIR_ANSWERS "pins 1 0\n");
    replay(THREE_AT_LEVEL_2 "00 03 02 3F 07 00 03 02 0A 01",
           THEIR_ANSWERS "11 0 01000100010001\n12 0 00\npins 0 0\n");
}

/* A record of this kind and length and nothing more, cut to so many bytes of its body. */
static void one_record(uint8_t kind, size_t length, size_t whole, const char *wanted)
{
    uint8_t log[16] = {1, 0, (uint8_t)length, kind};

    write_log(log, 3 + whole);
    check(replay_gives(false, wanted), "kind %d of length %zu with %zu bytes: %s", kind, length,
          whole, wanted);
}

/* Kind 5 has length 5; a length above 8 is refused before the cut, any other after it. */
static void clock_lengths(void)
{
    static const char done[] = "1 0\npins 0 0\n", wrong[] = "1 8\npins 0 0\n",
                      cut[] = "1 9\npins 0 0\n";

    for (size_t length = 1; length <= 9; length++) {
        one_record(CLOCK, length, length, length == 5 ? done : wrong);
        one_record(CLOCK, length, length - 1, length > 8 ? wrong : cut);
        one_record(CLOCK + 1, length, length, wrong);
        one_record(CLOCK + 1, length, length - 1, length > 8 ? wrong : cut);
    }
    for (size_t whole = 0; whole < 5; whole++)
        one_record(CLOCK, 5, whole, cut);
    replay("01 00 05 05 FF FF FF FF 00", "1 0\n2 9\npins 0 0\n");
    replay("01 00 05 05 FF FF FF FF 00 05 05", "1 0\n2 9\npins 0 0\n");
    replay("01 00 05 05 00 00 00 00 00 01 04 00 04 05 00 00 00", "1 0\n2 0\n3 8\npins 0 0\n");
}

#define HELD_FOR_8_S                                                                               \
    "01 00 03 01 16 01 00 03 01 19 04 00 03 01 21 06 00 08 03 00 00 00 00 00 00 00"                \
    "00 08 03 FF 00 00 00 00 00 00"
#define MARKS "00 03 02 09 03"
#define FIVE_DONE "1 0\n2 0\n3 0\n4 0\n5 0\n"

/* 8 s are 007A1200, and each byte of a count has its place. */
static void clock_log(void)
{
    replay(HELD_FOR_8_S "00 05 05 00 7A 11 FF" MARKS, FIVE_DONE "6 0\n7 0 040009\npins 1 0\n");
    replay(HELD_FOR_8_S "00 05 05 00 7A 12 00" MARKS, FIVE_DONE "6 0\n7 0 000008\npins 0 0\n");
    replay(HELD_FOR_8_S "00 05 05 00 7A 12 01" MARKS, FIVE_DONE "6 0\n7 0 000008\npins 0 0\n");
    replay(HELD_FOR_8_S "00 05 05 01 00 00 00" MARKS, FIVE_DONE "6 0\n7 0 000008\npins 0 0\n");
    replay(HELD_FOR_8_S "00 05 05 00 00 00 FF" MARKS, FIVE_DONE "6 0\n7 0 040009\npins 1 0\n");
    replay(HELD_FOR_8_S "00 05 05 00 00 FF FF" MARKS, FIVE_DONE "6 0\n7 0 040009\npins 1 0\n");
    replay(HELD_FOR_8_S "00 05 05 00 00 00 00" MARKS, FIVE_DONE "6 0\n7 0 040009\npins 1 0\n");
    replay(HELD_FOR_8_S "00 05 05 00 7A 11 FF 00 05 05 00 00 00 00" MARKS "00 05 05 00 00 00 01"
           MARKS, FIVE_DONE "6 0\n7 0\n8 0 040009\n9 0\n10 0 000008\npins 0 0\n");
}

/* Offsets of 8, -1024 and 1016: 2040 and -1025 are held, 2048 is refused. What is read is stored. */
#define OFFSETS "01 00 03 01 38 01 00 03 01 39 80 00 03 01 3A 7F 00 08 03 07 F8 FB FF 00 00 19"

static void offset_log(void)
{
    replay(OFFSETS "00 08 03 08 00 00 00 00 00 00 00 03 02 02 07 00 03 02 3F 06 00 03 02 38 03",
           "1 0\n2 0\n3 0\n4 0\n5 4\n6 0 F17F0180813F19\n7 0 F17F0180813F\n8 0 01807F\npins 0 0\n");
    replay(OFFSETS "00 03 01 36 80 00 03 01 14 B6 00 03 02 38 03 00 08 03 07 F8 FB FF 00 00 19"
           "00 03 02 02 06",
           "1 0\n2 0\n3 0\n4 0\n5 13\n6 0\n7 0 000000\n8 0\n9 0 817FF1BF0100\npins 0 0\n");
}

/* The pins as they are behind each record, and at a stop behind the last one before it. */
static void pins_behind_each(void)
{
    replay_pins(printed, "1 0 0 0\n2 0 0 0\n3 0 010101FF0140 0 0\npins 0 0\n");
    replay_pins(THREE_AT_LEVEL_2 "00 03 02 3F 07 00 03 02 0A 01",
                "1 0 0 0\n2 0 0 0\n3 0 0 0\n4 0 0 0\n5 0 0 0\n6 0 00 0 0\n7 0 1 0\n8 0 40 1 0\n"
                "9 0 1 0\n10 0 40 1 0\n11 0 01000100010001 0 0\n12 0 00 0 0\npins 0 0\n");
    replay_pins(HELD_FOR_8_S "00 05 05 00 7A 11 FF" MARKS "00 05 05 00 00 00 01" MARKS,
                "1 0 0 0\n2 0 0 0\n3 0 0 0\n4 0 0 0\n5 0 1 0\n6 0 1 0\n7 0 040009 1 0\n8 0 0 0\n"
                "9 0 000008 0 0\npins 0 0\n");
    replay_pins("01 00 03 01 20 0E 00 03 01 20 00 00 03 01 0F 04 00 03 02 20 01 00 03 02 20 00"
                "00 03 01 20 01 00 03 01 20 0C 00 00",
                "1 0 Z Z\n2 0 1 1\n3 2 1 1\n4 0 00 1 1\n5 5 1 1\n6 0 0 1\n7 0 1 Z\n8 8 1 Z\n"
                "pins 1 Z\n");
    replay_pins("", "0 9 0 0\npins 0 0\n");
    replay_pins("02 00 01 04", "0 7 0 0\npins 0 0\n");
    replay_pins("01", "pins 0 0\n");
    replay_pins("01 00 01 04 00 03 01 0F", "1 0 0 0\n2 9 0 0\npins 0 0\n");
    replay_pins("01 00 03 01 20 0A 00", "1 0 Z Z\n2 9 Z Z\npins Z Z\n");
}

/* Logs of cycle starts that end around the size of a block; the last line but one tells. */
static void blocks(void)
{
    static uint8_t log[3 * 65536];
    char line[160];

    for (size_t length = 65530; length <= 65542; length++) {
        size_t records = (length - 1) / 3, rest = (length - 1) % 3;

        log[0] = 1;
        for (size_t i = 1; i < sizeof log; i++)
            log[i] = "\0\1\4"[(i - 1) % 3];
        write_log(log, length);
        snprintf(line, sizeof line,
                 "test \"$(%s <case.log | tail -n 2 | tr '\\n' ' ')\" = '%d %d pins 0 0 '",
                 replay_command, (int)(rest ? records + 1 : records), rest ? 9 : 0);
        check(system(line) == 0, "log of %d bytes", (int)length);
    }
}

static void replays(void)
{
    printed_log();
    cut_everywhere();
    stops();
    refusals_go_on();
    watermark_log();
    clock_lengths();
    clock_log();
    offset_log();
    pins_behind_each();
    blocks();
}

/* ---- account ---- */

/* Mostly samples, and what drains or empties the FIFO. A sample's three values are its number, so
   that a frame shows which sample it is of, whichever axes it has. */
static void draw_body(uint8_t body[8], uint64_t number)
{
    static const uint8_t written[] = {0x3E, 0x3E, 0x0F, 0x14};

    memset(body, 0, 8);
    body[0] = draw(8) ? SAMPLE : (uint8_t)(1 + draw(5));
    if (body[0] == SAMPLE) {
        for (int axis = 0; axis < PEER_AXES; axis++) {
            body[1 + 2 * axis] = (uint8_t)(number >> 8 & 0x07);
            body[2 + 2 * axis] = (uint8_t)number;
        }
        body[1] = draw(16) ? body[1] : 0x70; /* refused */
    } else {
        body[1] = body[0] == WRITE ? written[draw(4)] : draw(4) ? 0x3F : 0x0E;
        body[2] = (uint8_t)(draw(2) ? 0xB6 : draw(256));
    }
}

/* The numbers that the frames of a twin show, oldest first, each by its low 11 bits. */
static int frames_of(const struct peer *t, unsigned number[PEER_DEPTH])
{
    struct peer copy = *t;
    uint8_t bytes[PEER_LONGEST_READ], status, setting;
    size_t size;

    peer_read(&copy, 0x0E, &status, 1);
    peer_read(&copy, 0x3E, &setting, 1);
    peer_read(&copy, 0x3F, bytes, sizeof bytes);
    size = setting & 3 ? 2 : 6;
    for (int i = 0; i < (status & 0x7F); i++)
        number[i] = (unsigned)bytes[size * i] >> 4 | (unsigned)bytes[size * i + 1] << 4;
    return status & 0x7F;
}

/* Which sample an accepted one dropped, by the frames before and after it; 0 where none. */
static unsigned dropped(const unsigned *before, int count, const unsigned *after, int count_after,
                        unsigned number)
{
    if (count_after > count)
        return 0;
    return after[count_after - 1] == number ? before[0] : number;
}

/* Plays one record on both. Gives whether they agree: frames held and of which samples, the sample
   that was dropped, and overrun exactly where one was lost since the FIFO was emptied; and whether
   each sample is in one place. */
static bool agree(struct peer *t, struct account *a, uint64_t *lost_when_emptied)
{
    uint8_t body[8], bytes[UINT8_MAX], status;
    unsigned before[PEER_DEPTH], after[PEER_DEPTH], wanted = 0;
    int count = frames_of(t, before), count_after;
    enum peer_answer answer;
    enum end end;

    draw_body(body, a->samples + 1);
    answer = play_body(t, body, bytes);
    end = account_record(a, body, answer);
    if (end == RESET || (body[0] == WRITE && body[1] == 0x3E && answer == PEER_DONE))
        *lost_when_emptied = a->since.lost;
    peer_read(t, 0x0E, &status, 1);
    count_after = frames_of(t, after);
    for (int i = 0; i < count_after; i++)
        if (a->held.number[(a->held.oldest + i) % PEER_DEPTH] % 2048 != after[i])
            return false;
    if (body[0] == SAMPLE && answer == PEER_DONE)
        wanted = dropped(before, count, after, count_after, a->samples % 2048);
    return a->held.count == (unsigned)count_after && a->lost % 2048 == wanted &&
           (a->since.lost > *lost_when_emptied) == status >> 7 &&
           a->since.accepted ==
               a->since.taken + a->since.lost + a->since.cleared + a->held.count;
}

static void account_and_twin(void)
{
    struct peer t;
    struct account a;
    uint64_t lost_when_emptied = 0;
    int apart = 0;

    peer_power_up(&t);
    account_power_up(&a);
    for (int i = 0; i < 200000; i++)
        if (!agree(&t, &a, &lost_when_emptied))
            apart++;
    check(apart == 0, "the account and the twin are apart after %d records", apart);
    check(a.since.taken > 1000 && a.since.lost > 1000 && a.since.cleared > 1000 &&
              a.since.refused > 1000,
          "the account had something to count");
}

/* ---- totals at the ends of 64 bits ---- */

static bool same_span(const struct span *a, const struct span *b)
{
    return a->any == b->any && a->smallest == b->smallest && a->largest == b->largest &&
           a->sum == b->sum;
}

static bool same_totals(const struct totals *a, const struct totals *b)
{
    for (int i = 0; i < TOTAL_COUNTS; i++)
        if (a->count[i] != b->count[i])
            return false;
    for (int range = 0; range < TOTAL_RANGES; range++)
        for (int axis = 0; axis < PEER_AXES; axis++)
            if (!same_span(&a->of[range][axis], &b->of[range][axis]))
                return false;
    return true;
}

/* Totals of which no two are the same, with none at 8 g. */
static struct totals some_totals(unsigned first)
{
    struct totals s = {0};

    for (int i = 0; i < TOTAL_COUNTS; i++)
        s.count[i] = first++;
    for (int range = 0; range < TOTAL_RANGES; range++)
        for (int axis = 0; range != 2 && axis < PEER_AXES; axis++, first += 4)
            s.of[range][axis] = (struct span){true, -(int)first, (int)first + 1, first + 2};
    return s;
}

/* What more logs make of a month: 0 with these totals, or 15 with those that it had. */
static void joins(const struct totals *month, const struct totals *more, const struct totals *wanted,
                  const char *what, int which)
{
    struct totals got = *month;
    enum peer_answer answer = totals_join(&got, more);

    check(answer == (wanted != NULL ? PEER_DONE : PEER_TOO_LARGE) &&
              same_totals(&got, wanted != NULL ? wanted : month),
          "%s %d", what, which);
}

static void joins_of_counts(uint64_t first, uint64_t second, bool fits)
{
    for (int i = 0; i < TOTAL_COUNTS; i++) {
        struct totals month = some_totals(100), more = some_totals(900), both = some_totals(100);

        totals_join(&both, &more);
        month.count[i] = first;
        more.count[i] = second;
        both.count[i] = first + second;
        joins(&month, &more, fits ? &both : NULL, "a count at its end", i);
        joins(&more, &month, fits ? &both : NULL, "a count at its end, the other way", i);
    }
}

static void joins_of_sums(int64_t first, int64_t second, bool fits)
{
    for (int i = 0; i < TOTAL_RANGES * PEER_AXES; i++) {
        struct totals month = some_totals(100), more = some_totals(900), both;
        struct span *of = &month.of[i / PEER_AXES][i % PEER_AXES];
        struct span *beside = &more.of[i / PEER_AXES][i % PEER_AXES];

        *of = (struct span){true, -7, 12, 0};
        *beside = (struct span){true, -3, 40, 0};
        both = month;
        totals_join(&both, &more);
        of->sum = first;
        beside->sum = second;
        both.of[i / PEER_AXES][i % PEER_AXES] =
            (struct span){true, -7, 40, fits ? first + second : 0};
        joins(&month, &more, fits ? &both : NULL, "a sum at its end", i);
        joins(&more, &month, fits ? &both : NULL, "a sum at its end, the other way", i);
    }
}

static void totals_at_their_ends(void)
{
    joins_of_counts(UINT64_MAX, 0, true);
    joins_of_counts(UINT64_MAX, 1, false);
    joins_of_counts(UINT64_MAX - 5, 5, true);
    joins_of_counts(UINT64_MAX - 5, 6, false);
    joins_of_counts(UINT64_MAX, UINT64_MAX, false);
    joins_of_counts(UINT64_MAX / 2 + 1, UINT64_MAX / 2, true);
    joins_of_counts(UINT64_MAX / 2 + 1, UINT64_MAX / 2 + 1, false);
    joins_of_sums(INT64_MAX, 0, true);
    joins_of_sums(INT64_MAX, 1, false);
    joins_of_sums(INT64_MAX - 5, 5, true);
    joins_of_sums(INT64_MAX - 5, 6, false);
    joins_of_sums(INT64_MAX, INT64_MAX, false);
    joins_of_sums(INT64_MIN, 0, true);
    joins_of_sums(INT64_MIN, -1, false);
    joins_of_sums(INT64_MIN + 5, -5, true);
    joins_of_sums(INT64_MIN + 5, -6, false);
    joins_of_sums(INT64_MIN, INT64_MIN, false);
    joins_of_sums(INT64_MIN, INT64_MAX, true);
    joins_of_sums(INT64_MIN, 1, true);
    joins_of_sums(INT64_MAX, -1, true);
}

/* A twin, its account and its totals, at one record after the other. */
struct counting {
    struct peer twin;
    struct account account;
    struct totals totals;
};

static struct counting begin_counting(void)
{
    struct counting c = {.totals = {{0}, {{{0}}}}};

    peer_power_up(&c.twin);
    account_power_up(&c.account);
    return c;
}

static enum peer_answer count_body(struct counting *c, const uint8_t *body)
{
    uint8_t bytes[UINT8_MAX];
    enum peer_answer answer = play_body(&c->twin, body, bytes);

    account_record(&c->account, body, answer);
    return totals_record(&c->totals, &c->account, &c->twin, body, answer);
}

/* A record that fits, or one that leaves the totals as they were. */
static void counts_up(struct counting *c, const char *hex, bool fits)
{
    struct totals before = c->totals;
    uint8_t body[8];
    enum peer_answer answer;

    from_hex(hex, body);
    answer = count_body(c, body);
    check(answer == (fits ? PEER_DONE : PEER_TOO_LARGE), "%s: %d", hex, answer);
    check(fits || same_totals(&c->totals, &before), "%s changes no total where one would not fit",
          hex);
}

static void clock_at_its_end(void)
{
    struct counting c = begin_counting();

    c.totals.count[TOTAL_CLOCK] = UINT64_MAX - UINT32_MAX;
    counts_up(&c, "05 FF FF FF FF", true);
    check(c.totals.count[TOTAL_CLOCK] == UINT64_MAX, "the clock is at its end");
    counts_up(&c, "05 00 00 00 00", true);
    counts_up(&c, "05 00 00 00 01", false);
    counts_up(&c, "05 FF FF FF FF", false);
    counts_up(&c, "03 00 01 00 02 00 03 00", true);
    c.totals.count[TOTAL_CLOCK] = UINT64_MAX - UINT32_MAX + 1;
    counts_up(&c, "05 FF FF FF FF", false);
    counts_up(&c, "05 FF FF FF FE", true);
    check(c.totals.count[TOTAL_CLOCK] == UINT64_MAX, "the clock is at its end again");
}

/* A sum that would pass an end does not fit, though the samples that come would bring it back. The
   other two axes are as they were, whichever it is. */
static void sums_at_their_ends(void)
{
    static const char *const code[TOTAL_RANGES] = {"01 0F 03", "01 0F 05", "01 0F 08", "01 0F 0C"};
    static const char *const at_7[PEER_AXES] = {
        "03 00 07 00 01 00 01 00", "03 00 01 00 07 00 01 00", "03 00 01 00 01 00 07 00"};
    static const char *const at_minus_7[PEER_AXES] = {
        "03 FF F9 FF FF FF FF 00", "03 FF FF FF F9 FF FF 00", "03 FF FF FF FF FF F9 00"};

    for (int i = 0; i < TOTAL_RANGES * PEER_AXES; i++) {
        int range = i / PEER_AXES, axis = i % PEER_AXES;
        struct counting c = begin_counting();
        struct span *s = &c.totals.of[range][axis];

        counts_up(&c, code[range], true);
        *s = (struct span){true, -3, 5, INT64_MAX - 7};
        counts_up(&c, at_7[axis], true);
        check(s->sum == INT64_MAX && s->largest == 7 && s->smallest == -3, "sum %d at its end", i);
        counts_up(&c, at_7[axis], false);
        counts_up(&c, "03 00 01 00 01 00 01 00", false);
        counts_up(&c, "03 08 00 00 01 00 01 00", true); /* refused */
        counts_up(&c, "03 00 00 00 00 00 00 00", true);
        counts_up(&c, at_minus_7[axis], true);
        s->sum = INT64_MIN + 7;
        counts_up(&c, at_minus_7[axis], true);
        check(s->sum == INT64_MIN && s->smallest == -7, "sum %d at its other end", i);
        counts_up(&c, at_minus_7[axis], false);
        counts_up(&c, "03 FF FF FF FF FF FF 00", false);
        counts_up(&c, at_7[axis], true);
        check(s->sum == INT64_MIN + 7, "sum %d is back", i);
    }
}

static void samples_at_their_end(void)
{
    struct counting c = begin_counting();

    c.account.since.accepted = UINT64_MAX - 1;
    counts_up(&c, "03 00 01 00 02 00 03 00", true);
    counts_up(&c, "03 08 00 00 02 00 03 00", true); /* refused */
    counts_up(&c, "02 3F 06", true);
    counts_up(&c, "03 00 01 00 02 00 03 00", false);
}

/* ---- totals against their history ---- */

enum { DIARY = 400 };

/* The records of a log and their answers. */
struct diary {
    int count;
    uint8_t body[DIARY][8];
    enum peer_answer answer[DIARY];
};

/* Mostly samples, some of them outside the 12 bits; ranges, offsets, modes and resets, and clocks. */
static void random_body(uint8_t body[8])
{
    static const uint8_t written[] = {0x0F, 0x0F, 0x0F, 0x38, 0x39, 0x3A, 0x3E, 0x14};

    memset(body, 0, 8);
    body[0] = draw(3) ? SAMPLE : (uint8_t)(1 + draw(5));
    for (int i = 1; i < 8; i++)
        body[i] = (uint8_t)draw(256);
    if (body[0] == SAMPLE) {
        for (int axis = 0; axis < PEER_AXES; axis++) {
            int count = draw(40) ? (int)draw(101) - 70 : (int)draw(4200) - 2100;

            body[1 + 2 * axis] = (uint8_t)((unsigned)count >> 8);
            body[2 + 2 * axis] = (uint8_t)count;
        }
    } else if (body[0] == WRITE) {
        body[1] = written[draw(8)];
        body[2] = body[1] == 0x14 ? (draw(2) ? 0xB6 : 0xB5) : body[2];
    } else if (body[0] == READ) {
        body[1] = draw(4) ? 0x3F : 0x02;
        body[2] = (uint8_t)draw(20);
    }
}

static struct totals random_log(struct diary *d, int records)
{
    struct counting c = begin_counting();
    int unfit = 0;

    for (d->count = 0; d->count < records; d->count++) {
        struct peer before = c.twin;
        uint8_t bytes[UINT8_MAX];

        random_body(d->body[d->count]);
        d->answer[d->count] = play_body(&before, d->body[d->count], bytes);
        unfit += count_body(&c, d->body[d->count]) != PEER_DONE;
    }
    check(unfit == 0, "a short log fits");
    totals_end(&c.totals, &c.account, records % 2);
    return c.totals;
}

/* The byte of a register at a record, by the last write to it that was accepted; a soft reset gives it
   back its first one. */
static unsigned byte_at(const struct diary *d, int record, unsigned address, unsigned first)
{
    while (record-- > 0) {
        const uint8_t *body = d->body[record];

        if (body[0] == WRITE && d->answer[record] == PEER_DONE) {
            if (body[1] == address)
                return body[2];
            if (body[1] == 0x14 && body[2] == 0xB6)
                return first;
        }
    }
    return first;
}

static int g_at(const struct diary *d, int record)
{
    switch (byte_at(d, record, 0x0F, 0x03) & 0x0F) {
    case 0x3:
        return 2;
    case 0x5:
        return 4;
    case 0x8:
        return 8;
    default:
        return 16;
    }
}

static int stored_at(const struct diary *d, int record, int axis)
{
    unsigned byte = byte_at(d, record, 0x38 + (unsigned)axis, 0x00);

    return stored_by_text(g_at(d, record), byte < 0x80 ? (int)byte : (int)byte - 0x100,
                          axis_of(d->body[record], axis));
}

static bool is_accepted_sample(const struct diary *d, int record)
{
    return d->body[record][0] == SAMPLE && d->answer[record] == PEER_DONE;
}

/* Whether a range and an axis have what all the samples of these logs say. */
static bool span_holds(const struct diary *d, int logs, int g, int axis, const struct span *s)
{
    int samples = 0, at_smallest = 0, at_largest = 0, outside = 0;
    int64_t sum = 0;

    for (; logs-- > 0; d++)
        for (int i = 0; i < d->count; i++)
            if (is_accepted_sample(d, i) && g_at(d, i) == g) {
                int count = stored_at(d, i, axis);

                samples++;
                at_smallest += count == s->smallest;
                at_largest += count == s->largest;
                outside += count < s->smallest || count > s->largest;
                sum += count;
            }
    if (samples == 0)
        return !s->any;
    return s->any && at_smallest > 0 && at_largest > 0 && outside == 0 && sum == s->sum;
}

static bool totals_hold(const struct diary *d, int logs, const struct totals *s)
{
    uint64_t accepted = 0, clock = 0;

    for (int log = 0; log < logs; log++)
        for (int i = 0; i < d[log].count; i++) {
            const uint8_t *body = d[log].body[i];

            accepted += is_accepted_sample(&d[log], i);
            if (body[0] == CLOCK)
                clock += (uint64_t)body[1] * 16777216 + body[2] * 65536u + body[3] * 256u + body[4];
        }
    for (int range = 0; range < TOTAL_RANGES; range++)
        for (int axis = 0; axis < PEER_AXES; axis++)
            if (!span_holds(d, logs, 2 << range, axis, &s->of[range][axis]))
                return false;
    return s->count[TOTAL_ACCEPTED] == accepted && s->count[TOTAL_CLOCK] == clock &&
           s->count[TOTAL_LOGS] == (uint64_t)logs &&
           accepted == s->count[TOTAL_TAKEN] + s->count[TOTAL_HELD] + s->count[TOTAL_LOST] +
                           s->count[TOTAL_CLEARED];
}

enum { SOME_LOGS = 7 };

/* The sheet over so many of the logs, joined from one end, from the other and in two parts. */
static void grouped(const struct diary *d, const struct totals *of_log)
{
    struct totals forth = {0}, back = {0}, first = {0}, second = {0};
    int cut = (int)draw(SOME_LOGS + 1);

    for (int i = 0; i < SOME_LOGS; i++) {
        totals_join(&forth, &of_log[i]);
        totals_join(&back, &of_log[SOME_LOGS - 1 - i]);
        totals_join(i < cut ? &first : &second, &of_log[i]);
    }
    totals_join(&first, &second);
    check(totals_hold(d, SOME_LOGS, &forth), "a sheet is what the histories of its logs say");
    check(same_totals(&forth, &back) && same_totals(&forth, &first), "in any grouping");
}

static void totals_at_random(void)
{
    static struct diary diary[SOME_LOGS];
    struct totals of_log[SOME_LOGS], empty = {0};

    for (int turn = 0; turn < 40; turn++) {
        for (int i = 0; i < SOME_LOGS; i++) {
            of_log[i] = random_log(&diary[i], (int)draw(i == 0 ? 4 : turn % 4 ? 30 : DIARY + 1));
            check(totals_hold(&diary[i], 1, &of_log[i]), "totals are what their history says");
            joins(&empty, &of_log[i], &of_log[i], "the empty sheet and log", i);
            joins(&of_log[i], &empty, &of_log[i], "log, the empty sheet behind it", i);
        }
        grouped(diary, of_log);
    }
}

/* ---- in g ---- */

/* Each count at each range: the decimal has the value, no 0 at its end and no exponent, and the 32-bit
   float of it is the count times 1/1024, 1/512, 1/256 or 1/128. */
static void every_count_in_g(void)
{
    static const float step[TOTAL_RANGES] = {1.0f / 1024, 1.0f / 512, 1.0f / 256, 1.0f / 128};
    static struct output out;

    for (int range = 0; range < TOTAL_RANGES; range++)
        for (int count = -2048; count <= 2047; count++) {
            char wanted[32], *last;

            snprintf(wanted, sizeof wanted, "%.12f", (double)count / (1024 >> range));
            for (last = strchr(wanted, '\0') - 1; *last == '0'; last--)
                *last = '\0';
            if (*last == '.')
                *last = '\0';
            out.end = 0;
            put_in_g(&out, count, 2u << range);
            put_char(&out, '\0');
            check(strcmp(out.block, wanted) == 0 &&
                      strtof(out.block, NULL) == (float)count * step[range],
                  "%d at %d g: %s, %s", count, 2 << range, wanted, out.block);
        }
}

/* ---- answer ---- */

/* The log that the next answers are asked of: hex, so many times, behind what there is. */
static void add(int times, const char *hex)
{
    static uint8_t log[4096];
    static size_t length;

    if (times == 0)
        length = 0;
    while (times-- > 0)
        length += from_hex(hex, log + length);
    write_log(log, length);
}

static void begin_log(const char *hex)
{
    add(0, "");
    add(1, hex);
}

static void answers(const char *arguments, const char *wanted)
{
    check(gives_text(answer_command, arguments, false, wanted), "answer %s:\n%s", arguments,
          wanted);
}

#define NONE_LOST "0 accepted, 0 taken, 0 lost, 0 cleared, 0 held before, 0 held after"
#define LOST                                                                                       \
    "lost: no readout of the FIFO (a read at 3F) can give them; a read of 02 to 07 is no readout\n"
#define NO_READOUT "in these records no readout came\n"
#define A_SAMPLE "00 08 03 00 00 00 00 00 00 00"

/* The insurer's log: 16 g, a refused code, 40 samples into a FIFO of 32, two readouts. */
static void begin_spring(void)
{
    begin_log("01 00 03 01 0F 0C 00 03 01 0F 07 00 03 02 0F 01 00 03 01 3E 41");
    add(40, "00 08 03 00 10 00 00 00 00 17 00 01 04");
    add(1, "00 03 02 0E 01 00 03 02 3F 20 00 03 02 0E 01 00 03 02 3F 20 00 03 02 0E 01");
}

static void spring(void)
{
    static const char wanted[] = "1 1 2g 0 0 0 0 0 0 range\n"
                                 "2 2 16g 0 0 0 0 0 1 refused\n"
                                 "3 86 16g? 40 16 8 0 16 0 readout\n"
                                 "87 88 16g? 0 16 0 0 0 0 readout\n"
                                 "89 89 16g? 0 0 0 0 0 0 rest\n"
                                 "end 89\n";

    begin_spring();
    answers("", wanted);
    check(gives_text(answer_command, "", true, wanted), "spring, byte by byte");
    answers("modes", "1 1 2g 0 0 0 0 0 0 range BYPASS\n"
                     "2 2 16g 0 0 0 0 0 1 refused BYPASS\n"
                     "3 86 16g? 40 16 8 0 16 0 readout FIFO\n"
                     "87 88 16g? 0 16 0 0 0 0 readout FIFO\n"
                     "89 89 16g? 0 0 0 0 0 0 rest FIFO\n"
                     "end 89\n");
}

#define SPRING_SETTINGS                                                                            \
    "from record 1: 2g\n"                                                                          \
    "from record 1: BYPASS, 1 frame\n"                                                             \
    "from record 2: 16g\n"                                                                         \
    "record 2 wrote 07 to 0F and was refused 2\n"                                                  \
    "from record 3: 16g?, because record 2 wrote 07 to 0F and was refused\n"                       \
    "from record 5: FIFO, 32 frames\n"

static void spring_in_words(void)
{
    static const char all[] = SPRING_SETTINGS
        "records 1 to 89: 40 accepted, 32 taken, 8 lost, 0 cleared, 0 held before, 0 held after, "
        "1 refused\n" LOST "the log ends after record 89\n";

    begin_spring();
    answers("0 86", SPRING_SETTINGS
            "records 1 to 86: 40 accepted, 16 taken, 8 lost, 0 cleared, 0 held before, "
            "16 held after, 1 refused\n" LOST);
    answers("0 85", SPRING_SETTINGS
            "records 1 to 85: 40 accepted, 0 taken, 8 lost, 0 cleared, 0 held before, "
            "32 held after, 1 refused\n" LOST NO_READOUT);
    answers("86 88", "from record 87: 16g?, because record 2 wrote 07 to 0F and was refused\n"
                     "from record 87: FIFO, 32 frames\n"
                     "records 87 to 88: 0 accepted, 16 taken, 0 lost, 0 cleared, "
                     "16 held before, 0 held after, 0 refused\n");
    answers("all", all);
    check(gives_text(answer_command, "all", true, all), "spring in words, byte by byte");
}

/* Doubt comes with a refused write and goes with an accepted one or a soft reset, no readout. */
static void doubts(void)
{
    begin_log("01 00 03 01 0F 04 00 03 02 3F 06 00 03 01 0F F5 00 03 01 0F 00 00 03 01 0F 1F"
              "00 03 01 14 B6 00 03 01 14 B5");
    answers("", "1 1 2g 0 0 0 0 0 1 refused\n"
                "2 2 2g? 0 0 0 0 0 0 readout\n"
                "3 3 2g? 0 0 0 0 0 0 range\n"
                "4 4 4g 0 0 0 0 0 1 refused\n"
                "5 5 4g? 0 0 0 0 0 1 refused\n"
                "6 6 4g? 0 0 0 0 0 0 reset\n"
                "7 7 2g 0 0 0 0 0 0 rest\n"
                "end 7\n");
    answers("0 7", "from record 1: 2g\n"
                   "from record 1: BYPASS, 1 frame\n"
                   "record 1 wrote 04 to 0F and was refused 2\n"
                   "from record 2: 2g?, because record 1 wrote 04 to 0F and was refused\n"
                   "from record 4: 4g\n"
                   "record 4 wrote 00 to 0F and was refused 2\n"
                   "from record 5: 4g?, because record 4 wrote 00 to 0F and was refused\n"
                   "record 5 wrote 1F to 0F and was refused 2\n"
                   "from record 6: 4g?, because record 5 wrote 1F to 0F and was refused\n"
                   "from record 7: 2g\n"
                   "records 1 to 7: " NONE_LOST ", 3 refused\n");
    answers("2 3", "from record 3: 2g?, because record 1 wrote 04 to 0F and was refused\n"
                   "from record 3: BYPASS, 1 frame\n"
                   "records 3 to 3: " NONE_LOST ", 0 refused\n" NO_READOUT);
    answers("5 8", "from record 6: 4g?, because record 5 wrote 1F to 0F and was refused\n"
                   "from record 6: BYPASS, 1 frame\n"
                   "from record 7: 2g\n"
                   "records 6 to 7: " NONE_LOST ", 0 refused\n" NO_READOUT
                   "the log ends after record 7; what came up to record 8 is not known\n");
    answers("7 8", "the log ends after record 7; what came up to record 8 is not known\n");
    answers("8 18446744073709551615", "the log ends after record 7; what came up to record "
                                      "18446744073709551615 is not known\n");
}

/* A refused write is told where it is the last record asked for; what it does is not. */
static void doubt_at_the_end(void)
{
    begin_log("01 00 03 01 0F 0C 00 03 01 3E C0 00 03 01 0F 04");
    answers("0 1", "from record 1: 2g\n"
                   "from record 1: BYPASS, 1 frame\n"
                   "records 1 to 1: " NONE_LOST ", 0 refused\n" NO_READOUT);
    answers("1 2", "from record 2: 16g\n"
                   "from record 2: BYPASS, 1 frame\n"
                   "record 2 wrote C0 to 3E and was refused 2\n"
                   "records 2 to 2: " NONE_LOST ", 1 refused\n" NO_READOUT);
    answers("2 3", "from record 3: 16g\n"
                   "from record 3: BYPASS?, 1 frame, because record 2 wrote C0 to 3E and was "
                   "refused\n"
                   "record 3 wrote 04 to 0F and was refused 2\n"
                   "records 3 to 3: " NONE_LOST ", 1 refused\n" NO_READOUT);
    answers("2 4", "from record 3: 16g\n"
                   "from record 3: BYPASS?, 1 frame, because record 2 wrote C0 to 3E and was "
                   "refused\n"
                   "record 3 wrote 04 to 0F and was refused 2\n"
                   "from record 4: 16g?, because record 3 wrote 04 to 0F and was refused\n"
                   "records 3 to 3: " NONE_LOST ", 1 refused\n" NO_READOUT
                   "the log ends after record 3; what came up to record 4 is not known\n");
    answers("all", "from record 1: 2g\n"
                   "from record 1: BYPASS, 1 frame\n"
                   "from record 2: 16g\n"
                   "record 2 wrote C0 to 3E and was refused 2\n"
                   "from record 3: BYPASS?, 1 frame, because record 2 wrote C0 to 3E and was "
                   "refused\n"
                   "record 3 wrote 04 to 0F and was refused 2\n"
                   "from record 4: 16g?, because record 3 wrote 04 to 0F and was refused\n"
                   "records 1 to 3: " NONE_LOST ", 2 refused\n" NO_READOUT
                   "the log ends after record 3\n");
}

/* The mode as the range: doubt by a refused write, out of it by an accepted one or a soft reset. A
   write to 0x3E ends no stretch, and the mode of a stretch is the one before its last record; that of
   a rest is the one at its end. */
static void modes_in_doubt(void)
{
    begin_log("01 00 03 01 3E C0 00 03 02 3F 01 00 03 01 3E 40 00 03 01 3E FF 00 03 01 3E C1"
              "00 03 02 3F 01 00 03 01 14 B6 00 03 01 3E 80 00 03 02 3F 01 00 03 01 3E D2"
              "00 03 01 3E BC 00 03 01 0F 08 00 03 01 3E 00 00 03 01 3E C0");
    answers("modes", "1 2 2g 0 0 0 0 0 1 readout BYPASS?\n"
                     "3 6 2g 0 0 0 0 0 2 readout FIFO?\n"
                     "7 7 2g 0 0 0 0 0 0 reset FIFO?\n"
                     "8 9 2g 0 0 0 0 0 0 readout STREAM\n"
                     "10 12 2g 0 0 0 0 0 1 range STREAM\n"
                     "13 14 8g 0 0 0 0 0 1 rest BYPASS?\n"
                     "end 14\n");
    answers("all", "from record 1: 2g\n"
                   "from record 1: BYPASS, 1 frame\n"
                   "record 1 wrote C0 to 3E and was refused 2\n"
                   "from record 2: BYPASS?, 1 frame, because record 1 wrote C0 to 3E and was "
                   "refused\n"
                   "from record 4: FIFO, 32 frames\n"
                   "record 4 wrote FF to 3E and was refused 2\n"
                   "from record 5: FIFO?, 32 frames, because record 4 wrote FF to 3E and was "
                   "refused\n"
                   "record 5 wrote C1 to 3E and was refused 2\n"
                   "from record 6: FIFO?, 32 frames, because record 5 wrote C1 to 3E and was "
                   "refused\n"
                   "from record 8: BYPASS, 1 frame\n"
                   "from record 9: STREAM, 32 frames\n"
                   "record 10 wrote D2 to 3E and was refused 2\n"
                   "from record 11: STREAM?, 32 frames, because record 10 wrote D2 to 3E and was "
                   "refused\n"
                   "from record 12: STREAM, 32 frames\n"
                   "from record 13: 8g\n"
                   "from record 14: BYPASS, 1 frame\n"
                   "record 14 wrote C0 to 3E and was refused 2\n"
                   "from record 15: BYPASS?, 1 frame, because record 14 wrote C0 to 3E and was "
                   "refused\n"
                   "records 1 to 14: " NONE_LOST ", 5 refused\n"
                   "the log ends after record 14\n");
}

/* The mode of a rest, which no record ends, is the one at its end. */
static void mode_of_a_rest(void)
{
    begin_log("01 00 03 01 3E 40");
    answers("modes", "1 1 2g 0 0 0 0 0 0 rest FIFO\nend 1\n");
    begin_log("01 00 03 01 3E 40 00 01 04");
    answers("modes", "1 2 2g 0 0 0 0 0 0 rest FIFO\nend 2\n");
    begin_log("01 00 03 01 3E 80 00 03 01 3E C0 00");
    answers("modes", "1 2 2g 0 0 0 0 0 1 rest STREAM?\nstop 3 9\n");
    begin_log("01 00 03 01 3E C0 00 01 04 00 03 01 14 B6 00 01 04");
    answers("modes", "1 3 2g 0 0 0 0 0 1 reset BYPASS?\n4 4 2g 0 0 0 0 0 0 rest BYPASS\nend 4\n");
}

/* What is written again as it is, also with other ignored bits, other axes or by a soft reset, is
   told once; but where it was in doubt, it is told again. Both may change with one record. */
static void told_once(void)
{
    begin_log("01 00 03 01 0F 03 00 03 01 3E 00 00 03 01 14 B6 00 03 01 0F F5 00 03 01 0F 05"
              "00 03 01 3E 40 00 03 01 3E 7D 00 03 01 3E 40 00 03 01 0F 01 00 03 01 0F 45"
              "00 03 01 3E C0 00 03 01 14 B6 00 03 01 0F 0C 00 03 01 14 B6 00 03 02 3F 01");
    answers("0 15", "from record 1: 2g\n"
                    "from record 1: BYPASS, 1 frame\n"
                    "from record 5: 4g\n"
                    "from record 7: FIFO, 32 frames\n"
                    "record 9 wrote 01 to 0F and was refused 2\n"
                    "from record 10: 4g?, because record 9 wrote 01 to 0F and was refused\n"
                    "from record 11: 4g\n"
                    "record 11 wrote C0 to 3E and was refused 2\n"
                    "from record 12: FIFO?, 32 frames, because record 11 wrote C0 to 3E and was "
                    "refused\n"
                    "from record 13: 2g\n"
                    "from record 13: BYPASS, 1 frame\n"
                    "from record 14: 16g\n"
                    "from record 15: 2g\n"
                    "records 1 to 15: " NONE_LOST ", 2 refused\n");
    answers("6 7", "from record 7: 4g\n"
                   "from record 7: FIFO, 32 frames\n"
                   "records 7 to 7: " NONE_LOST ", 0 refused\n" NO_READOUT);
}

/* Out of doubt is out of it, whatever record once brought it. */
static void told_once_after_doubt(void)
{
    begin_log("01 00 03 01 0F 04 00 03 01 3E C0 00 03 01 0F 03 00 03 01 3E 00 00 03 01 14 B6"
              "00 03 02 3F 01");
    answers("2 6", "from record 3: 2g?, because record 1 wrote 04 to 0F and was refused\n"
                   "from record 3: BYPASS?, 1 frame, because record 2 wrote C0 to 3E and was "
                   "refused\n"
                   "from record 4: 2g\n"
                   "from record 5: BYPASS, 1 frame\n"
                   "records 3 to 6: " NONE_LOST ", 0 refused\n");
}

/* Each refused write has its line, at whatever address; writes that the chip ignores have none, and
   refused reads and samples are only counted. */
static void refused_writes(void)
{
    begin_log("01 00 03 01 11 80 00 03 01 14 B5 00 03 01 00 12 00 03 01 3F FF 00 03 01 15 FF"
              "00 03 01 40 0A 00 03 01 FF B6 00 03 01 16 80 00 03 01 27 58 00 03 01 18 08"
              "00 03 01 32 01 00 03 01 33 02 00 03 01 36 80 00 03 01 38 01 00 03 01 3A FF"
              "00 03 02 40 01 00 03 02 3F 00 00 03 02 3F C1 00 03 02 3E 02"
              "00 08 03 08 00 00 00 00 00 00 00 03 01 11 1E");
    answers("all", "from record 1: 2g\n"
                   "from record 1: BYPASS, 1 frame\n"
                   "record 1 wrote 80 to 11 and was refused 12\n"
                   "record 6 wrote 0A to 40 and was refused 1\n"
                   "record 7 wrote B6 to FF and was refused 1\n"
                   "record 8 wrote 80 to 16 and was refused 11\n"
                   "record 10 wrote 08 to 18 and was refused 2\n"
                   "record 11 wrote 01 to 32 and was refused 13\n"
                   "record 12 wrote 02 to 33 and was refused 13\n"
                   "record 13 wrote 80 to 36 and was refused 13\n"
                   "records 1 to 21: " NONE_LOST ", 13 refused\n" NO_READOUT
                   "the log ends after record 21\n");
    answers("1 7", "from record 2: 2g\n"
                   "from record 2: BYPASS, 1 frame\n"
                   "record 6 wrote 0A to 40 and was refused 1\n"
                   "record 7 wrote B6 to FF and was refused 1\n"
                   "records 2 to 7: " NONE_LOST ", 2 refused\n" NO_READOUT);
}

/* ---- which sample was lost ---- */

/* So many samples, an event as the body of a record, so many samples more: whether the last one
   loses one, and how many samples back. */
static const struct {
    uint8_t mode;
    int before;
    const char *event;
    int after;
    bool lost;
    uint64_t back;
} losses[] = {
    /* FIFO mode: itself */
    {0x40, 0, "", 32, false, 0},           {0x40, 0, "", 33, true, 0},
    {0x40, 0, "", 34, true, 0},            {0x40, 33, "02 3F 01", 1, false, 0},
    {0x40, 33, "02 3F 01", 2, true, 0},    {0x40, 32, "02 3F 07", 2, false, 0},
    {0x40, 32, "02 3F 07", 3, true, 0},    {0x41, 40, "02 3F 03", 2, false, 0},
    {0x41, 40, "02 3F 03", 3, true, 0},    {0x40, 33, "02 3F C0", 32, false, 0},
    {0x40, 33, "02 3F C0", 33, true, 0},   {0x40, 33, "02 3F C1", 1, true, 0},
    {0x40, 33, "02 02 06", 1, true, 0},    {0x40, 40, "01 3E 40", 32, false, 0},
    {0x40, 40, "01 3E 40", 33, true, 0},   {0x40, 33, "01 3E C0", 1, true, 0},
    {0x40, 33, "01 14 B5", 1, true, 0},    {0x40, 33, "01 14 B6", 1, false, 0},
    {0x40, 33, "01 14 B6", 2, true, 1},    {0x40, 40, "01 3E 80", 32, false, 0},
    {0x40, 40, "01 3E 80", 33, true, 32},  {0x40, 40, "01 3E 00", 2, true, 1},
    /* STREAM: 32 back */
    {0x80, 0, "", 32, false, 0},           {0x80, 0, "", 33, true, 32},
    {0x80, 0, "", 34, true, 32},           {0x80, 0, "", 100, true, 32},
    {0x80, 33, "02 3F 01", 1, false, 0},   {0x80, 33, "02 3F 01", 2, true, 32},
    {0x80, 40, "02 3F 07", 2, false, 0},   {0x80, 40, "02 3F 07", 3, true, 32},
    {0x83, 40, "02 3F 3F", 32, false, 0},  {0x83, 40, "02 3F 3F", 33, true, 32},
    {0x82, 31, "02 3F 02", 2, false, 0},   {0x82, 31, "02 3F 02", 3, true, 32},
    {0x80, 40, "01 3E 80", 32, false, 0},  {0x80, 40, "01 3E 80", 33, true, 32},
    {0x80, 33, "01 3E C0", 1, true, 32},   {0x80, 33, "01 3E FF", 1, true, 32},
    {0x80, 33, "02 3F 00", 1, true, 32},   {0x80, 33, "03 08 00 00 00 00 00 00", 1, true, 32},
    {0x80, 33, "01 30 01", 1, true, 32},   {0x80, 40, "01 3E 40", 33, true, 0},
    {0x80, 40, "01 3E 01", 1, false, 0},   {0x80, 40, "01 3E 01", 2, true, 1},
    /* BYPASS: the one before */
    {0x00, 0, "", 1, false, 0},            {0x00, 0, "", 2, true, 1},
    {0x00, 0, "", 3, true, 1},             {0x00, 1, "02 3F 01", 1, false, 0},
    {0x00, 5, "02 3F 01", 1, false, 0},    {0x00, 5, "02 3F 06", 2, true, 1},
    {0x00, 1, "02 02 06", 1, true, 1},     {0x00, 1, "01 3E C0", 1, true, 1},
    {0x00, 1, "03 08 00 00 00 00 00 00", 1, true, 1}, {0x00, 1, "04", 1, true, 1},
    {0x00, 1, "05 FF FF FF FF", 1, true, 1}, {0x00, 3, "01 3E 03", 1, false, 0},
    {0x00, 3, "01 14 B6", 1, false, 0},    {0x00, 3, "01 14 B6", 2, true, 1},
    {0x00, 3, "01 3E 80", 33, true, 32},   {0x00, 3, "01 3E 40", 33, true, 0},
};

static void count_hex(struct peer *t, struct account *a, const char *hex)
{
    uint8_t body[8] = {0}, bytes[UINT8_MAX];

    from_hex(hex, body);
    account_record(a, body, play_body(t, body, bytes));
}

static void which_was_lost(void)
{
    static const char one[] = "03 00 00 00 00 00 00 00";

    for (size_t i = 0; i < sizeof losses / sizeof *losses; i++) {
        char to_mode[16];
        struct account a;
        struct peer t;

        peer_power_up(&t);
        account_power_up(&a);
        snprintf(to_mode, sizeof to_mode, "01 3E %02X", losses[i].mode);
        count_hex(&t, &a, to_mode);
        for (int k = 0; k < losses[i].before; k++)
            count_hex(&t, &a, one);
        if (*losses[i].event != '\0')
            count_hex(&t, &a, losses[i].event);
        for (int k = 0; k < losses[i].after; k++)
            count_hex(&t, &a, one);
        check((a.lost != 0) == losses[i].lost && (!a.lost || a.samples - a.lost == losses[i].back),
              "3E=%02X, %d samples, %s, %d samples: %d back", losses[i].mode, losses[i].before,
              losses[i].event, losses[i].after, (int)(a.samples - a.lost));
    }
}

/* One byte takes a frame; a refused write to 0x3E or a refused read does nothing to them. */
static void begin_frames(void)
{
    begin_log("01 00 08 03 F8 00 07 FF FF FB 80 00 08 03 00 00 00 01 00 02 00 00 03 02 3F 01");
    add(3, A_SAMPLE);
    add(1, "00 03 01 3E 80 00 03 01 3E 40");
    add(3, A_SAMPLE);
    add(1, "00 08 03 08 00 00 00 00 00 00 00 03 01 3E C0 00 03 02 3F 00 00 03 02 3F C1"
           "00 03 02 3F 07 00 03 02 3F 0D" A_SAMPLE "00 03 01 14 B6");
}

static void frames(void)
{
    begin_frames();
    answers("", "1 3 2g 2 1 1 0 0 0 readout\n"
                "4 16 2g 6 2 2 1 1 4 readout\n"
                "17 17 2g 0 1 0 0 0 0 readout\n"
                "18 19 2g 1 0 0 1 0 0 reset\n"
                "end 19\n");
    answers("samples", "sample 1 -2048 2047 -5 0 0\n"
                       "sample 2 0 1 2 1 1\n"
                       "1 3 2g 2 1 1 0 0 0 readout BYPASS\n"
                       "sample 4 0 0 0 0 0\n"
                       "sample 5 0 0 0 1 1\n"
                       "sample 6 0 0 0 1 1\n"
                       "sample 9 0 0 0 0 0\n"
                       "sample 10 0 0 0 0 0\n"
                       "sample 11 0 0 0 0 0\n"
                       "4 16 2g 6 2 2 1 1 4 readout FIFO?\n"
                       "17 17 2g 0 1 0 0 0 0 readout FIFO?\n"
                       "sample 18 0 0 0 0 0\n"
                       "18 19 2g 1 0 0 1 0 0 reset FIFO?\n"
                       "end 19\n");
    answers("10 17", "from record 11: 2g\n"
                     "from record 11: FIFO, 32 frames\n"
                     "record 13 wrote C0 to 3E and was refused 2\n"
                     "from record 14: FIFO?, 32 frames, because record 13 wrote C0 to 3E and was "
                     "refused\n"
                     "records 11 to 17: 1 accepted, 3 taken, 0 lost, 0 cleared, 2 held before, "
                     "0 held after, 4 refused\n");
}

/* So many sample lines of zeros behind text, for records in a row. */
static void add_lines(char *text, int first, int count, const char *lost_and_back)
{
    for (int i = 0; i < count; i++)
        sprintf(text + strlen(text), "sample %d 0 0 0 %s\n", first + i, lost_and_back);
}

/* The lost one in each mode as it is printed, with a readout of two frames in between. */
static void losses_in_lines(uint8_t byte, const char *mode, const char *loss)
{
    char hex[32], text[4096] = "";

    snprintf(hex, sizeof hex, "01 00 03 01 3E %02X", byte);
    begin_log(hex);
    add(33, A_SAMPLE);
    add(1, "00 03 02 3F 07");
    add(3, A_SAMPLE);
    add_lines(text, 2, 32, "0 0");
    add_lines(text, 34, 1, loss);
    sprintf(text + strlen(text), "1 35 2g 33 2 1 0 30 0 readout %s\n", mode);
    add_lines(text, 36, 2, "0 0");
    add_lines(text, 38, 1, loss);
    sprintf(text + strlen(text), "36 38 2g 3 0 1 0 32 0 rest %s\nend 38\n", mode);
    answers("samples", text);
}

/* A recorder that reads 0x02 to 0x07 and never the FIFO; one with a readout and nothing lost. */
static void readouts_or_none(void)
{
    begin_log("01");
    add(3, A_SAMPLE "00 03 02 02 06");
    answers("samples", "sample 1 0 0 0 0 0\nsample 3 0 0 0 1 1\nsample 5 0 0 0 1 1\n"
                       "1 6 2g 3 0 2 0 1 0 rest BYPASS\nend 6\n");
    answers("all", "from record 1: 2g\n"
                   "from record 1: BYPASS, 1 frame\n"
                   "records 1 to 6: 3 accepted, 0 taken, 2 lost, 0 cleared, 0 held before, "
                   "1 held after, 0 refused\n" LOST NO_READOUT
                   "the log ends after record 6\n");
    answers("4 5", "from record 5: 2g\n"
                   "from record 5: BYPASS, 1 frame\n"
                   "records 5 to 5: 1 accepted, 0 taken, 1 lost, 0 cleared, 1 held before, "
                   "1 held after, 0 refused\n" LOST NO_READOUT);
    answers("5 6", "from record 6: 2g\n"
                   "from record 6: BYPASS, 1 frame\n"
                   "records 6 to 6: 0 accepted, 0 taken, 0 lost, 0 cleared, 1 held before, "
                   "1 held after, 0 refused\n" NO_READOUT);
    begin_log("01" A_SAMPLE "00 03 02 3F 06 00 03 02 3F 00");
    answers("all", "from record 1: 2g\n"
                   "from record 1: BYPASS, 1 frame\n"
                   "records 1 to 3: 1 accepted, 1 taken, 0 lost, 0 cleared, 0 held before, "
                   "0 held after, 1 refused\n"
                   "the log ends after record 3\n");
    answers("2 3", "from record 3: 2g\n"
                   "from record 3: BYPASS, 1 frame\n"
                   "records 3 to 3: " NONE_LOST ", 1 refused\n" NO_READOUT);
}

/* A clock is a record like any other: it takes, loses and clears nothing and sets no range. */
static void clocks_in_between(void)
{
    begin_log("01 00 05 05 00 00 00 01 00 03 01 0F 04 00 05 05 FF FF FF FF" A_SAMPLE
              "00 05 05 00 00 00 00 00 03 02 3F 06 00 05 05 3F 3F 3F 3F 00 05 05 0F 0F 0F 0F");
    answers("", "1 2 2g 0 0 0 0 0 1 refused\n"
                "3 6 2g? 1 1 0 0 0 0 readout\n"
                "7 8 2g? 0 0 0 0 0 0 rest\n"
                "end 8\n");
    answers("samples", "1 2 2g 0 0 0 0 0 1 refused BYPASS\n"
                       "sample 4 0 0 0 0 0\n"
                       "3 6 2g? 1 1 0 0 0 0 readout BYPASS\n"
                       "7 8 2g? 0 0 0 0 0 0 rest BYPASS\n"
                       "end 8\n");
    answers("0 6", "from record 1: 2g\n"
                   "from record 1: BYPASS, 1 frame\n"
                   "record 2 wrote 04 to 0F and was refused 2\n"
                   "from record 3: 2g?, because record 2 wrote 04 to 0F and was refused\n"
                   "records 1 to 6: 1 accepted, 1 taken, 0 lost, 0 cleared, 0 held before, "
                   "0 held after, 1 refused\n");
    begin_log("01 00 05 05 00 00 00 01 00 04 05 00 00 00");
    answers("", "1 1 2g 0 0 0 0 0 0 rest\nstop 2 8\n");
}

/* The values of a sample are the given ones, whatever is stored of them. */
static void given_samples(void)
{
    begin_log(OFFSETS "00 08 03 00 01 00 02 00 03 00");
    answers("samples", "sample 4 2040 -1025 0 0 0\n"
                       "sample 5 1 2 3 1 1\n"
                       "1 5 2g 2 0 1 0 1 0 rest BYPASS\n"
                       "end 5\n");
}

/* ---- logs that stop ---- */

static void no_records(void)
{
    begin_log("");
    answers("", "stop 0 9\n");
    answers("modes", "stop 0 9\n");
    answers("all", "the log was refused 9 at record 0\n");
    answers("0 1", "the log was refused 9 after record 0; what came up to record 1 is not known\n");
    begin_log("02 00 01 04");
    answers("samples", "stop 0 7\n");
    answers("all", "the log was refused 7 at record 0\n");
    answers("3 9", "the log was refused 7 after record 0; what came up to record 9 is not known\n");
    begin_log("01");
    answers("", "end 0\n");
    answers("modes", "end 0\n");
    answers("all", "the log ends after record 0\n");
    answers("0 1", "the log ends after record 0; what came up to record 1 is not known\n");
    begin_log("01 00");
    answers("modes", "stop 1 9\n");
    answers("all", "the log was refused 9 at record 1\n");
    answers("0 1", "the log was refused 9 after record 0; what came up to record 1 is not known\n");
}

#define FROM_RECORD_2 "from record 2: 2g\nfrom record 2: BYPASS, 1 frame\n"

static void damaged(void)
{
    begin_log("01 00 01 04 00 01 04 00 01 05");
    answers("", "1 2 2g 0 0 0 0 0 0 rest\nstop 3 8\n");
    answers("modes", "1 2 2g 0 0 0 0 0 0 rest BYPASS\nstop 3 8\n");
    answers("1 2", FROM_RECORD_2 "records 2 to 2: " NONE_LOST ", 0 refused\n" NO_READOUT);
    answers("1 3", FROM_RECORD_2 "records 2 to 2: " NONE_LOST ", 0 refused\n" NO_READOUT
            "the log was refused 8 after record 2; what came up to record 3 is not known\n");
    answers("2 3", "the log was refused 8 after record 2; what came up to record 3 is not known\n");
    answers("all", "from record 1: 2g\nfrom record 1: BYPASS, 1 frame\n"
                   "records 1 to 2: " NONE_LOST ", 0 refused\n" NO_READOUT
                   "the log was refused 8 at record 3\n");
    begin_log("01 00 03 02 3F 01 00 08");
    answers("", "1 1 2g 0 0 0 0 0 0 readout\nstop 2 9\n");
    answers("all", "from record 1: 2g\nfrom record 1: BYPASS, 1 frame\n"
                   "records 1 to 1: " NONE_LOST ", 0 refused\n"
                   "the log was refused 9 at record 2\n");
    begin_log("01 00 03 02 3F 01 00 03 01 3E 40 00 03 01 3E");
    answers("all", "from record 1: 2g\nfrom record 1: BYPASS, 1 frame\n"
                   "from record 3: FIFO, 32 frames\n"
                   "records 1 to 2: " NONE_LOST ", 0 refused\n"
                   "the log was refused 9 at record 3\n");
    answers("1 2", FROM_RECORD_2 "records 2 to 2: " NONE_LOST ", 0 refused\n" NO_READOUT);
    answers("1 3", FROM_RECORD_2 "from record 3: FIFO, 32 frames\n"
            "records 2 to 2: " NONE_LOST ", 0 refused\n" NO_READOUT
            "the log was refused 9 after record 2; what came up to record 3 is not known\n");
}

/* ---- sheet ---- */

/* Over these files, with case.log as standard input: the text, the status and so many lines on standard
   error. */
static void sheet_gives(const char *arguments, int status, int said, const char *wanted)
{
    char line[1024];

    snprintf(line, sizeof line,
             "%s %s <case.log >case.out 2>case.err; test $? = %d -a \"$(wc -l <case.err)\" -eq %d",
             sheet_command, arguments, status, said);
    check(system(line) == 0 && text_is(wanted), "sheet %s:\n%s", arguments, wanted);
    remove("case.err");
}

#define COUNTS(accepted, taken, held, lost, cleared, clock)                                        \
    "accepted " #accepted "\ntaken " #taken "\nheld " #held "\nlost " #lost                        \
    "\ncleared " #cleared "\nclock " #clock "\n"
#define NO_SAMPLE(g) #g "g x none\n" #g "g y none\n" #g "g z none\n"
#define NO_SAMPLES NO_SAMPLE(2) NO_SAMPLE(4) NO_SAMPLE(8) NO_SAMPLE(16)
#define LOGS(logs, refused) "logs " #logs " refused " #refused "\n"

/* Of a log by its name, and of the same on standard input. */
static void sheet_of(const char *hex, int status, const char *wanted)
{
    begin_log(hex);
    sheet_gives("case.log", status, 0, wanted);
    sheet_gives("-", status, 0, wanted);
}

static void sheets_without_samples(void)
{
    sheet_of("01", 0, COUNTS(0, 0, 0, 0, 0, 0) NO_SAMPLES LOGS(1, 0));
    sheet_of("", 3, COUNTS(0, 0, 0, 0, 0, 0) NO_SAMPLES LOGS(1, 1));
    sheet_of("02 00 05 05 00 00 00 09", 3, COUNTS(0, 0, 0, 0, 0, 0) NO_SAMPLES LOGS(1, 1));
    sheet_of("01 00 00", 3, COUNTS(0, 0, 0, 0, 0, 0) NO_SAMPLES LOGS(1, 1));
    sheet_of("01 00 05 05 00 00 00 09", 0, COUNTS(0, 0, 0, 0, 0, 9) NO_SAMPLES LOGS(1, 0));
    sheet_of("01 00 05 05 00 00 00 09 00 05 05 00 00 01", 3,
             COUNTS(0, 0, 0, 0, 0, 9) NO_SAMPLES LOGS(1, 1));
    sheet_of("01 00 05 05 FF FF FF FF 00 05 05 00 00 00 00 00 05 05 FF FF FF FF"
             "00 05 05 FF FF FF FF",
             0, COUNTS(0, 0, 0, 0, 0, 12884901885) NO_SAMPLES LOGS(1, 0));
    sheet_of("01 00 05 05 12 34 56 78 00 05 05 01 00 00 00", 0,
             COUNTS(0, 0, 0, 0, 0, 322197112) NO_SAMPLES LOGS(1, 0));
}

#define ONE_READ COUNTS(1, 1, 0, 0, 0, 0)
#define ONE_HELD COUNTS(1, 0, 1, 0, 0, 0)

/* The printed log, then counts at each range of which the value in g is worked out by hand. */
static void sheets_in_g(void)
{
    sheet_of(printed, 0, ONE_READ "2g x 16 16 16 0.015625 0.015625\n"
                                  "2g y -16 -16 -16 -0.015625 -0.015625\n2g z 1024 1024 1024 1 1\n"
                         NO_SAMPLE(4) NO_SAMPLE(8) NO_SAMPLE(16) LOGS(1, 0));
    sheet_of("01 00 08 03 01 23 FF FD F8 00 00", 0,
             ONE_HELD "2g x 291 291 291 0.2841796875 0.2841796875\n"
                      "2g y -3 -3 -3 -0.0029296875 -0.0029296875\n2g z -2048 -2048 -2048 -2 -2\n"
             NO_SAMPLE(4) NO_SAMPLE(8) NO_SAMPLE(16) LOGS(1, 0));
    sheet_of("01 00 03 01 0F 05 00 08 03 00 01 FF FF 07 FF 00", 0,
             ONE_HELD NO_SAMPLE(2) "4g x 1 1 1 0.001953125 0.001953125\n"
                                   "4g y -1 -1 -1 -0.001953125 -0.001953125\n"
                                   "4g z 2047 2047 2047 3.998046875 3.998046875\n"
             NO_SAMPLE(8) NO_SAMPLE(16) LOGS(1, 0));
    sheet_of("01 00 03 01 0F 08 00 08 03 00 01 FF FF 07 FF 00", 0,
             ONE_HELD NO_SAMPLE(2) NO_SAMPLE(4) "8g x 1 1 1 0.00390625 0.00390625\n"
                                                "8g y -1 -1 -1 -0.00390625 -0.00390625\n"
                                                "8g z 2047 2047 2047 7.99609375 7.99609375\n"
             NO_SAMPLE(16) LOGS(1, 0));
    sheet_of("01 00 03 01 0F 0C 00 08 03 F8 00 FF FF 07 FF 00", 0,
             ONE_HELD NO_SAMPLE(2) NO_SAMPLE(4) NO_SAMPLE(8)
             "16g x -2048 -2048 -2048 -16 -16\n16g y -1 -1 -1 -0.0078125 -0.0078125\n"
             "16g z 2047 2047 2047 15.9921875 15.9921875\n" LOGS(1, 0));
}

#define AT_2_G_ALONE(x, y, z) x "\n" y "\n" z "\n" NO_SAMPLE(4) NO_SAMPLE(8) NO_SAMPLE(16)

/* All accepted samples count, lost ones too: in FIFO mode the last, in STREAM and BYPASS the first. And
   all axes, whatever 0x3E selects. */
static void sheets_of_lost_samples(void)
{
    begin_log("01 00 03 01 3E 40");
    add(32, "00 08 03 00 05 00 05 00 05 00");
    add(1, "00 08 03 07 FF F8 00 00 06 00");
    sheet_gives("case.log", 0, 0,
                COUNTS(33, 0, 32, 1, 0, 0)
                AT_2_G_ALONE("2g x 5 2047 2207 0.0048828125 1.9990234375",
                             "2g y -2048 5 -1888 -2 0.0048828125",
                             "2g z 5 6 166 0.0048828125 0.005859375") LOGS(1, 0));
    begin_log("01 00 03 01 3E 83 00 08 03 07 FF F8 00 00 06 00");
    add(32, "00 08 03 00 05 00 05 00 05 00");
    sheet_gives("case.log", 0, 0,
                COUNTS(33, 0, 32, 1, 0, 0)
                AT_2_G_ALONE("2g x 5 2047 2207 0.0048828125 1.9990234375",
                             "2g y -2048 5 -1888 -2 0.0048828125",
                             "2g z 5 6 166 0.0048828125 0.005859375") LOGS(1, 0));
    begin_log("01 00 08 03 FF F6 00 0A 00 00 00 00 08 03 FF F7 00 09 00 00 00");
    sheet_gives("case.log", 0, 0,
                COUNTS(2, 0, 1, 1, 0, 0)
                AT_2_G_ALONE("2g x -10 -9 -19 -0.009765625 -0.0087890625",
                             "2g y 9 10 19 0.0087890625 0.009765625", "2g z 0 0 0 0 0") LOGS(1, 0));
    begin_spring();
    sheet_gives("case.log", 0, 0,
                COUNTS(40, 32, 0, 8, 0, 0) NO_SAMPLE(2) NO_SAMPLE(4) NO_SAMPLE(8)
                "16g x 16 16 640 0.125 0.125\n16g y 0 0 0 0 0\n16g z 0 0 0 0 0\n" LOGS(1, 0));
}

/* One byte takes a frame; 0x3E and a soft reset clear those that are held. */
static void sheets_of_frames(void)
{
    begin_frames();
    sheet_gives("case.log", 0, 0,
                COUNTS(9, 4, 0, 3, 2, 0)
                AT_2_G_ALONE("2g x -2048 0 -2048 -2 0", "2g y 0 2047 2048 0 1.9990234375",
                             "2g z -5 2 -3 -0.0048828125 0.001953125") LOGS(1, 0));
    begin_log("01 00 03 01 3E 40");
    add(3, A_SAMPLE);
    add(1, "00 03 01 3E C0 00 03 01 14 B5 00 03 02 3F 07 00 03 01 3E 40");
    add(2, A_SAMPLE);
    add(1, "00 03 01 14 B6 00 03 01 14 B6");
    add(1, A_SAMPLE);
    sheet_gives("case.log", 0, 0,
                COUNTS(6, 2, 1, 0, 3, 0)
                AT_2_G_ALONE("2g x 0 0 0 0 0", "2g y 0 0 0 0 0", "2g z 0 0 0 0 0") LOGS(1, 0));
}

/* The range in force at the sample: not one that is refused, nor the one at the readout; a soft reset
   gives back 2 g. */
static void sheets_of_ranges(void)
{
    sheet_of("01 00 08 03 00 64 00 01 00 00 00 00 03 01 0F 05 00 03 02 3F 06"
             "00 08 03 00 64 00 02 00 00 00 00 03 01 0F 04 00 08 03 FF F9 00 03 00 00 00"
             "00 03 01 0F FC 00 08 03 00 08 FF F8 00 00 00 00 03 01 14 B6"
             "00 08 03 00 09 00 04 00 00 00",
             0, COUNTS(5, 1, 1, 2, 1, 0)
             "2g x 9 100 109 0.0087890625 0.09765625\n2g y 1 4 5 0.0009765625 0.00390625\n"
             "2g z 0 0 0 0 0\n"
             "4g x -7 100 93 -0.013671875 0.1953125\n4g y 2 3 5 0.00390625 0.005859375\n"
             "4g z 0 0 0 0 0\n" NO_SAMPLE(8)
             "16g x 8 8 8 0.0625 0.0625\n16g y -8 -8 -8 -0.0625 -0.0625\n16g z 0 0 0 0 0\n"
             LOGS(1, 0));
}

/* What is stored counts, with its offset and held at an end; a given sample that is refused does not,
   on any axis. */
static void sheets_of_stored_counts(void)
{
    sheet_of(OFFSETS "00 08 03 08 00 F8 00 07 FF 00 00 08 03 00 00 F7 FF 00 00 00", 0,
             ONE_HELD AT_2_G_ALONE("2g x 2047 2047 2047 1.9990234375 1.9990234375",
                                   "2g y -2048 -2048 -2048 -2 -2",
                                   "2g z 1016 1016 1016 0.9921875 0.9921875") LOGS(1, 0));
    sheet_of("01 00 03 01 38 FF 00 08 03 00 08 00 00 00 00 00 00 03 01 0F 0C"
             "00 08 03 00 08 00 00 00 00 00 00 03 01 14 B6 00 08 03 00 08 00 00 00 00 00",
             0, COUNTS(3, 0, 1, 1, 1, 0) "2g x 0 8 8 0 0.0078125\n2g y 0 0 0 0 0\n2g z 0 0 0 0 0\n"
             NO_SAMPLE(4) NO_SAMPLE(8)
             "16g x 7 7 7 0.0546875 0.0546875\n16g y 0 0 0 0 0\n16g z 0 0 0 0 0\n" LOGS(1, 0));
}

#define TIME_AND_SAMPLE "01 00 05 05 00 00 00 07 00 08 03 00 01 00 02 00 03 00"

/* A log counts up to where it is refused. */
static void sheets_of_damaged_logs(void)
{
    static const char one[] = COUNTS(1, 0, 1, 0, 0, 7)
        AT_2_G_ALONE("2g x 1 1 1 0.0009765625 0.0009765625", "2g y 2 2 2 0.001953125 0.001953125",
                     "2g z 3 3 3 0.0029296875 0.0029296875") LOGS(1, 1);

    sheet_of(TIME_AND_SAMPLE "00", 3, one);
    sheet_of(TIME_AND_SAMPLE "00 08 03 00 09 00 09 00 09", 3, one);
    sheet_of(TIME_AND_SAMPLE "00 04 05 00 00 00 00 08 03 00 09 00 09 00 09 00", 3, one);
    sheet_of(TIME_AND_SAMPLE "00 09 03 00 09 00 09 00 09 00 00", 3, one);
    sheet_of(TIME_AND_SAMPLE "00 05 06 00 00 00 09 00 05 05 00 00 00 09", 3, one);
}

static void save_log(const char *name)
{
    if (rename("case.log", name) != 0)
        perror(name);
}

#define TWO_LOGS                                                                                   \
    COUNTS(6, 0, 4, 2, 0, 21)                                                                      \
    "2g x -1 5 14 -0.0009765625 0.0048828125\n2g y -4 0 -4 -0.00390625 0\n"                        \
    "2g z 0 2 2 0 0.001953125\n"                                                                   \
    NO_SAMPLE(4) NO_SAMPLE(8)                                                                      \
    "16g x 2 2 2 0.015625 0.015625\n16g y -3 -3 -3 -0.0234375 -0.0234375\n16g z 0 0 0 0 0\n"
#define NOTHING COUNTS(0, 0, 0, 0, 0, 0) NO_SAMPLES

/* Each log starts at power-up, and what each holds at its end is summed. One that ends with 16 g, BYPASS
   and an offset, and one of FIFO mode; one that is empty and one that is cut at its first record. */
static void sheets_of_many(void)
{
    begin_log("01 00 05 05 00 00 00 14 00 08 03 FF FF FF FC 00 00 00 00 08 03 00 00 00 00 00 02 00"
              "00 03 01 0F 0C 00 08 03 00 02 FF FD 00 00 00 00 03 01 38 10");
    save_log("case.a");
    begin_log("01 00 03 01 3E 40 00 08 03 00 05 00 00 00 00 00 00 08 03 00 05 00 00 00 00 00"
              "00 08 03 00 05 00 00 00 00 00 00 05 05 00 00 00 01");
    save_log("case.b");
    begin_log("");
    save_log("case.c");
    begin_log("01 00 05 05 00 00 00");
    save_log("case.d");
    begin_log("01");
    sheet_gives("case.a case.b", 0, 0, TWO_LOGS LOGS(2, 0));
    sheet_gives("case.b case.a", 0, 0, TWO_LOGS LOGS(2, 0));
    sheet_gives("case.b - case.a", 0, 0, TWO_LOGS LOGS(3, 0));
    sheet_gives("case.c case.b case.d case.a", 3, 0, TWO_LOGS LOGS(4, 2));
    sheet_gives("case.b nosuch case.a", 1, 1, TWO_LOGS LOGS(2, 0));
    sheet_gives("case.b . case.c case.a nosuch/a nosuch", 1, 3, TWO_LOGS LOGS(3, 1));
    sheet_gives("nosuch", 1, 1, NOTHING LOGS(0, 0));
    sheet_gives("", 0, 0, NOTHING LOGS(1, 0));
    sheet_gives("$(yes case.log | head -n 1000) case.a case.b", 0, 0, TWO_LOGS LOGS(1002, 0));
}

/* ---- sheets that were printed, joined ---- */

static void print_sheet(const char *log, const char *text)
{
    char line[200];

    snprintf(line, sizeof line, "%s %s >%s", sheet_command, log, text);
    check(system(line) == 0, "sheet %s", log);
}

static void write_text(const char *name, const char *text)
{
    write_log((const uint8_t *)text, strlen(text));
    save_log(name);
}

#define NEAR(lost, clock, x, y)                                                                    \
    COUNTS(0, 0, 0, lost, 0, clock)                                                                \
    NO_SAMPLE(2) NO_SAMPLE(4) "8g x -1 1 " #x " -0.00390625 0.00390625\n8g y 0 0 " #y " 0 0\n"     \
    "8g z none\n" NO_SAMPLE(16)
#define FIRST_OF_TWO                                                                               \
    NEAR(7, 18446744073709551610, 9223372036854775800, -9223372036854775800) LOGS(1, 0)
#define TWO_IN_FULL                                                                                \
    NEAR(11, 18446744073709551615, 9223372036854775807, -9223372036854775808) LOGS(2, 0)

/* What does not fit leaves the month as it was: the sheets before it and those behind it count. */
static void joined_texts(void)
{
    static const char *const second[] = {
        NEAR(0, 6, 0, 0) LOGS(1, 0), NEAR(0, 0, 8, 0) LOGS(1, 0), NEAR(0, 0, 0, -9) LOGS(1, 0),
        NEAR(18446744073709551609, 0, 0, 0) LOGS(1, 0), NEAR(5, 5, 8, -8) LOGS(1, 0)};

    print_sheet("case.a", "case.1");
    print_sheet("case.b", "case.2");
    sheet_gives("--join case.1 case.2", 0, 0, TWO_LOGS LOGS(2, 0));
    write_text("case.1", FIRST_OF_TWO);
    write_text("case.2", NEAR(4, 5, 7, -8) LOGS(1, 0));
    write_log((const uint8_t *)"", 0);
    sheet_gives("--join case.1", 0, 0, FIRST_OF_TWO);
    sheet_gives("--join case.1 case.2", 0, 0, TWO_IN_FULL);
    for (size_t i = 0; i < sizeof second / sizeof *second; i++) {
        write_text("case.3", second[i]);
        write_log((const uint8_t *)"", 0);
        sheet_gives("--join case.1 case.3", 3, 1, FIRST_OF_TWO);
        sheet_gives("--join case.1 case.3 case.2", 3, 1, TWO_IN_FULL);
        sheet_gives("--join nosuch case.1 case.3", 1, 2, FIRST_OF_TWO);
    }
    write_text("case.3", NOTHING LOGS(3, 2));
    write_log((const uint8_t *)"", 0);
    sheet_gives("--join case.3", 3, 0, NOTHING LOGS(3, 2));
}

#define FULL_LOG                                                                                   \
    COUNTS(2, 0, 1, 1, 0, 18446744073709551615)                                                    \
    AT_2_G_ALONE("2g x -1 8 9223372036854775807 -0.0009765625 0.0078125", "2g y 0 0 0 0 0",        \
                 "2g z 0 0 0 0 0") LOGS(1, 0)

/* 5 microseconds and 7 counts are left. A log that passes them at a record adds nothing, though what
   comes would bring the sum back, or the log is refused behind it; the logs beside it count. */
static void logs_that_do_not_fit(void)
{
    static const char *const too_large[] = {
        "01 00 08 03 00 08 00 00 00 00 00 00 08 03 FF FF 00 00 00 00 00",
        "01 00 05 05 00 00 00 05 00 05 05 00 00 00 01 00 01 04", "01 00 05 05 FF FF FF FF 00 00"};

    write_text("case.1", COUNTS(9, 9, 9, 9, 9, 18446744073709551610)
               AT_2_G_ALONE("2g x 0 0 9223372036854775800 0 0", "2g y none", "2g z none") LOGS(9, 9));
    begin_log("01 00 05 05 00 00 00 05 00 08 03 FF FF 00 00 00 00 00 00 08 03 00 08 00 00 00 00 00");
    save_log("case.2");
    for (size_t i = 0; i < sizeof too_large / sizeof *too_large; i++) {
        begin_log(too_large[i]);
        sheet_gives("--from case.1 -", 3, 1, NOTHING LOGS(0, 0));
        sheet_gives("--from case.1 case.log case.2", 3, 1, FULL_LOG);
        sheet_gives("--from case.1 case.2 case.log case.2", 3, 2, FULL_LOG);
        sheet_gives("--from case.1 case.log nosuch", 1, 2, NOTHING LOGS(0, 0));
    }
    sheet_gives("--from case.1 case.2", 0, 0, FULL_LOG);
    sheet_gives("--from nosuch case.2", 1, 1, "");
    sheet_gives("--from case.2 case.2", 2, 1, "");
}

/* A text that is no sheet, to the byte. */
static void no_sheets(void)
{
    static const char *const text[] = {
        "", "accepted 0\n", NOTHING, "\n" NOTHING LOGS(1, 0), NOTHING LOGS(1, 0) "\n",
        NOTHING LOGS(01, 0), NOTHING LOGS(1, -1), NOTHING LOGS(1, 18446744073709551616),
        COUNTS(0, 0, 0, 0, 0, 0) NO_SAMPLE(2) NO_SAMPLE(4) NO_SAMPLE(16) NO_SAMPLE(8) LOGS(1, 0),
        COUNTS(0, 0, 0, 0, 0, 0) "2g x 0 0 0 0 0.0\n2g y none\n2g z none\n" NO_SAMPLE(4)
            NO_SAMPLE(8) NO_SAMPLE(16) LOGS(1, 0),
        COUNTS(0, 0, 0, 0, 0, 0) "2g x 0 0 9223372036854775808 0 0\n2g y none\n2g z none\n"
            NO_SAMPLE(4) NO_SAMPLE(8) NO_SAMPLE(16) LOGS(1, 0)};

    for (size_t i = 0; i < sizeof text / sizeof *text; i++) {
        write_text("case.3", text[i]);
        write_log((const uint8_t *)"", 0);
        sheet_gives("--join case.1 case.3", 2, 1, "");
    }
}

static void remove_sheets(void)
{
    static const char *const name[] = {"case.a", "case.b", "case.c", "case.d",
                                       "case.1", "case.2", "case.3"};

    for (size_t i = 0; i < sizeof name / sizeof *name; i++)
        remove(name[i]);
}

static void sheets(void)
{
    sheets_without_samples();
    sheets_in_g();
    sheets_of_lost_samples();
    sheets_of_frames();
    sheets_of_ranges();
    sheets_of_stored_counts();
    sheets_of_damaged_logs();
    sheets_of_many();
    joined_texts();
    logs_that_do_not_fit();
    no_sheets();
    remove_sheets();
}

/* A line on standard error, nothing on standard output, status 2. */
static void is_wrong_use(const char *command, const char *arguments)
{
    char line[200];

    snprintf(line, sizeof line,
             "%s %s <case.log 2>case.err >case.out; test $? = 2 -a ! -s case.out && "
             "test \"$(wc -l <case.err)\" -eq 1",
             command, arguments);
    check(system(line) == 0, "%s %s is wrong use", command, arguments);
    remove("case.err");
}

static void wrong_use(void)
{
    static const char *const of_answer[] = {
        "x",       "1",     "5 5",     "5 4",           "1 x",       "-1 5",  "+1 5",
        "'' 5",    "1 2 3", "0x1 5",   "all 1",         "all all",   "0 all", "ALL",
        "al",      "alls",  "mode",    "modes samples", "samples 5", "pins",  "''",
        "1 2 all", "' 1' 5", "modes ''", "0 18446744073709551616"};
    static const char *const of_replay[] = {"x", "pin", "PINS", "pinss", "pins pins", "''",
                                            "pins ''", "'' pins", "0 1"};
    static const char *const of_sheet[] = {"--join", "--joins case.log", "--", "--raw case.log",
                                           "--from", "--from case.log"};

    for (size_t i = 0; i < sizeof of_answer / sizeof *of_answer; i++)
        is_wrong_use(answer_command, of_answer[i]);
    for (size_t i = 0; i < sizeof of_replay / sizeof *of_replay; i++)
        is_wrong_use(replay_command, of_replay[i]);
    for (size_t i = 0; i < sizeof of_sheet / sizeof *of_sheet; i++)
        is_wrong_use(sheet_command, of_sheet[i]);
}

/* ---- files that fail ---- */

static void failing_files(const char *program, const char *arguments)
{
    char line[200];

    write_log((const uint8_t *)"\1", 1);
    snprintf(line, sizeof line, "%s %s <case.log 2>&- >/dev/full", program, arguments);
    check(system(line) != 0, "%s: a full disk is not a stop", arguments);
    snprintf(line, sizeof line, "%s %s <. 2>&- >case.out", program, arguments);
    check(system(line) != 0, "%s: an input that can't be read is not a stop", arguments);
}

static void all_failing_files(void)
{
    static const char *const forms[] = {"", "modes", "samples", "0 1", "all"};

    failing_files(replay_command, "");
    failing_files(replay_command, "pins");
    failing_files(sheet_command, "");
    for (size_t i = 0; i < sizeof forms / sizeof *forms; i++) {
        failing_files(answer_command, forms[i]);
        check(system("test ! -s case.out") == 0, "%s: no last line where it can't be read",
              forms[i]);
    }
}

static void answer_texts(void)
{
    spring();
    spring_in_words();
    doubts();
    doubt_at_the_end();
    modes_in_doubt();
    mode_of_a_rest();
    told_once();
    told_once_after_doubt();
    refused_writes();
    frames();
    losses_in_lines(0x40, "FIFO", "1 0");
    losses_in_lines(0x80, "STREAM", "1 32");
    readouts_or_none();
    clocks_in_between();
    given_samples();
    no_records();
    damaged();
}

int main(int count, char **argument)
{
    if (count > 1)
        replay_command = argument[1];
    if (count > 2)
        answer_command = argument[2];
    if (count > 3)
        sheet_command = argument[3];
    p1_to_p4();
    p5_to_p7();
    p8_to_p10();
    watermark();
    register_table();
    refusals_by_register();
    refusals_change_nothing();
    locks();
    fifo();
    runs();
    previous_sample();
    soft_reset();
    data_and_full();
    pins();
    latch_times();
    low_and_high_g();
    slow_and_no_motion();
    offsets();
    replays();
    account_and_twin();
    which_was_lost();
    totals_at_their_ends();
    clock_at_its_end();
    sums_at_their_ends();
    samples_at_their_end();
    totals_at_random();
    every_count_in_g();
    answer_texts();
    sheets();
    wrong_use();
    all_failing_files();
    remove("case.log");
    remove("case.out");
    printf("%d passed, %d failed\n", passed, failed);
    return failed ? 1 : 0;
}
