/* What include/twin.h promises, through the library, as C and as C++. tests/entry builds and runs it. It prints the count of checks and
 * of those that failed. */
#define _DEFAULT_SOURCE
#include <limits.h>
#include <stdio.h>
#include <string.h>
#include <sys/mman.h>
#include "twin.h"

enum { PAGE = 4096, FILL = 0xA5, OTHER_FILL = 0x5A };
static long checks, failed;
#define HOLDS(fact) do { checks++; if (!(fact)) { failed++; fprintf(stderr, "tests/entry.c:%d: %s\n", __LINE__, #fact); } } while (0)

static bool all(const void *bytes, size_t count, int value) {
    const unsigned char *at = (const unsigned char *)bytes;
    for (size_t i = 0; i < count; i++)
        if (at[i] != value) return false;
    return true;
}

/* whether two chips give the same bytes */
static bool read_same(struct twin *a, struct twin *b, uint8_t address, size_t length) {
    uint8_t of_a[192], of_b[192];
    return twin_read(a, address, of_a, length) == TWIN_DONE && twin_read(b, address, of_b, length) == TWIN_DONE
        && memcmp(of_a, of_b, length) == 0;
}

/* whether two chips show the same: registers, frames, pins, and what some motion and time do to them; works on copies */
static bool same(const struct twin *one, const struct twin *other) {
    struct twin a = *one, b = *other;
    for (int turn = 0; turn < 6; turn++) {
        if (twin_pins(&a) != twin_pins(&b) || !read_same(&a, &b, 0x00, 63)) return false;
        if (turn == 0 && !read_same(&a, &b, 0x3F, 192)) return false;
        twin_sample(&a, 100 * turn, -turn, 0, 0);
        twin_sample(&b, 100 * turn, -turn, 0, 0);
        twin_clock(&a, 200);
        twin_clock(&b, 200);
    }
    return true;
}

/* a kind that does not exist gets 8, and neither the record nor the buffer changes */
static void unknown_kinds(struct twin *twin) {
    struct twin before = *twin;
    uint8_t buffer[16];
    memset(buffer, FILL, sizeof buffer);
    for (int kind = 0; kind < 256; kind++) {
        if (kind >= TWIN_WRITE && kind <= TWIN_CLOCK) continue;
        HOLDS(twin_event(twin, (uint8_t)kind, 0x3F, 0xB6, 1, 2, 3, buffer, sizeof buffer, 4) == TWIN_NO_KIND);
        HOLDS(all(buffer, sizeof buffer, FILL));
    }
    HOLDS(same(&before, twin));
}

/* each refusal of an event, with the record and the buffer as they were */
static void refused_events(struct twin *twin) {
    struct twin before = *twin;
    uint8_t buffer[193];
    memset(buffer, FILL, sizeof buffer);
    HOLDS(twin_write(twin, 0x40, 0) == TWIN_NO_ADDRESS);
    HOLDS(twin_read(twin, 0x40, buffer, 0) == TWIN_NO_ADDRESS);
    HOLDS(twin_write(twin, 0x0F, 4) == TWIN_RESERVED_CODE);
    HOLDS(twin_sample(twin, 2048, 0, 0, 0) == TWIN_OUT_OF_RANGE);
    HOLDS(twin_sample(twin, 0, -2049, 0, 0) == TWIN_OUT_OF_RANGE);
    HOLDS(twin_sample(twin, 0, 0, 65536, 0) == TWIN_OUT_OF_RANGE);
    HOLDS(twin_sample(twin, INT_MAX, 0, 0, 0) == TWIN_OUT_OF_RANGE);
    HOLDS(twin_sample(twin, 0, INT_MIN, 0, 0) == TWIN_OUT_OF_RANGE);
    HOLDS(twin_read(twin, 0x3F, buffer, 0) == TWIN_BAD_LENGTH);
    HOLDS(twin_read(twin, 0x3F, buffer, 193) == TWIN_BAD_LENGTH);
    HOLDS(twin_read(twin, 0x00, buffer, 193) == TWIN_BAD_LENGTH);
    HOLDS(twin_read(twin, 0x3E, buffer, 2) == TWIN_PAST_END);
    HOLDS(same(&before, twin) && all(buffer, sizeof buffer, FILL));
}

/* a write and its answer; a refused one changes nothing */
static void written(struct twin *twin, uint8_t address, int byte, uint8_t answer) {
    struct twin before = *twin;
    HOLDS(twin_write(twin, address, (uint8_t)byte) == answer);
    HOLDS(answer == TWIN_DONE || same(&before, twin));
}

/* every byte to each register that has bits of which a 1 is something that the twin lacks */
static void lacking(struct twin *twin) {
    static const struct {
        uint8_t address, bits, answer;
    } lacks[] = {{0x11, 0xE0, TWIN_NO_POWER_MODE},   {0x16, 0xF0, TWIN_NO_DETECTOR},     {0x32, 0x03, TWIN_NO_TEST_OR_TRIM},
                 {0x33, 0x0B, TWIN_NO_TEST_OR_TRIM}, {0x36, 0xE7, TWIN_NO_TEST_OR_TRIM}};
    for (int byte = 0; byte < 256; byte++)
        for (size_t i = 0; i < sizeof lacks / sizeof lacks[0]; i++)
            written(twin, lacks[i].address, byte, byte & lacks[i].bits ? lacks[i].answer : (uint8_t)TWIN_DONE);
}

/* a chip that has just set any-motion, mapped to INT1, with this byte in 0x21 */
static void moved(struct twin *twin, int latch) {
    HOLDS(twin_power_up(twin) == TWIN_DONE && twin_write(twin, 0x21, (uint8_t)latch) == TWIN_DONE);
    HOLDS(twin_write(twin, 0x16, 0x01) == TWIN_DONE && twin_write(twin, 0x19, 0x04) == TWIN_DONE);
    HOLDS(twin_sample(twin, 0, 0, 0, 0) == TWIN_DONE && twin_sample(twin, 500, 0, 0, 0) == TWIN_DONE);
}

/* whether status, mark and pin show the motion, or none of them does */
static bool shows_motion(struct twin *twin, bool motion) {
    uint8_t status[3];
    return twin_read(twin, 0x09, status, sizeof status) == TWIN_DONE && status[0] == (motion ? 0x04 : 0)
        && status[2] == (motion ? 0x01 : 0) && twin_int1(twin) == (motion ? TWIN_HIGH : TWIN_LOW);
}

/* the low nibbles of 0x21 that hold for a time: to the last microsecond before it, whatever the samples are, and no longer */
static void latch_times(struct twin *twin) {
    static const uint32_t times[16] = {0, 250000, 500000, 1000000, 2000000, 4000000, 8000000, 0,
                                       0, 250,    500,    1000,    12500,   25000,   50000,   0};
    for (int byte = 0; byte < 256; byte++) {
        uint32_t time = times[byte % 16];
        moved(twin, byte);
        HOLDS(shows_motion(twin, true));
        if (time == 0) {
            HOLDS(twin_clock(twin, UINT32_MAX) == TWIN_DONE && shows_motion(twin, true));
            HOLDS(twin_sample(twin, 500, 0, 0, 0) == TWIN_DONE && shows_motion(twin, byte % 8 == 7));
            continue;
        }
        HOLDS(twin_clock(twin, time - 1) == TWIN_DONE && twin_sample(twin, 500, 0, 0, 0) == TWIN_DONE && shows_motion(twin, true));
        HOLDS(twin_sample(twin, 0, 0, 0, 0) == TWIN_DONE && twin_clock(twin, 0) == TWIN_DONE && shows_motion(twin, true));
        HOLDS(twin_clock(twin, 1) == TWIN_DONE && shows_motion(twin, false));
        moved(twin, byte);
        HOLDS(twin_clock(twin, UINT32_MAX) == TWIN_DONE && shows_motion(twin, false));
    }
}

/* samples of this y, the last of them microseconds behind the first: the byte of 0x09 then, which both pins show as well */
static int noticed(struct twin *twin, int y, uint32_t microseconds) {
    uint8_t status = 0xFF;
    HOLDS(twin_sample(twin, 0, y, 0, 0) == TWIN_DONE && twin_clock(twin, microseconds) == TWIN_DONE);
    HOLDS(twin_sample(twin, 0, y, 0, 0) == TWIN_DONE && twin_read(twin, 0x09, &status, 1) == TWIN_DONE);
    HOLDS(twin_int1(twin) == status % 2 && twin_int2(twin) == status / 2);
    return status;
}

/* every byte to 0x17: low-g, mapped to INT1, and high-g on y, mapped to INT2, each to the last microsecond before its time and at it */
static void falls_and_hits(struct twin *twin) {
    for (int enables = 0; enables < 256; enables++) {
        uint8_t mark, low = enables & 8 ? 1 : 0, high = enables & 2 ? 2 : 0;
        HOLDS(twin_power_up(twin) == TWIN_DONE && twin_write(twin, 0x19, 1) == TWIN_DONE && twin_write(twin, 0x1B, 2) == TWIN_DONE);
        HOLDS(twin_write(twin, 0x25, 0) == TWIN_DONE && twin_write(twin, 0x17, (uint8_t)enables) == TWIN_DONE);
        HOLDS(noticed(twin, -383, 19999) == 0 && noticed(twin, -383, 1) == low);
        HOLDS(noticed(twin, -1536, 2000) == 0);
        HOLDS(noticed(twin, -2048, 1999) == 0 && noticed(twin, -2048, 1) == high);
        HOLDS(twin_read(twin, 0x0C, &mark, 1) == TWIN_DONE && mark == (high ? 0x0A : 0));
    }
}

/* every byte to 0x18 with each code of 0x27, in both orders: the first write is done, the second refused where it would join no-motion and a
 * code 22 to 31 */
static void joined(struct twin *twin) {
    for (int choice = 0; choice < 256; choice++)
        for (int code = 0; code < 64; code++) {
            uint8_t second = (choice & 8) != 0 && code >= 22 && code <= 31 ? TWIN_RESERVED_CODE : TWIN_DONE;
            HOLDS(twin_power_up(twin) == TWIN_DONE && twin_write(twin, 0x18, (uint8_t)choice) == TWIN_DONE);
            written(twin, 0x27, 4 * code + choice % 4, second);
            HOLDS(twin_power_up(twin) == TWIN_DONE && twin_write(twin, 0x27, (uint8_t)(4 * code + choice % 4)) == TWIN_DONE);
            written(twin, 0x18, choice, second);
        }
}

/* a chip with these bytes in 0x18 and 0x27, and slow motion or no-motion mapped to both pins */
static void choosing(struct twin *twin, uint8_t choice, int code) {
    HOLDS(twin_power_up(twin) == TWIN_DONE && twin_write(twin, 0x19, 8) == TWIN_DONE && twin_write(twin, 0x1B, 8) == TWIN_DONE);
    HOLDS(twin_write(twin, 0x27, (uint8_t)code) == TWIN_DONE && twin_write(twin, 0x18, choice) == TWIN_DONE);
}

/* a sample of this x, and whether status and pins then show slow motion or no-motion, or none of them does */
static bool shows_at(struct twin *twin, int x, bool status) {
    uint8_t byte = 0xFF, level = status ? TWIN_HIGH : TWIN_LOW;
    return twin_sample(twin, x, 0, 0, 0) == TWIN_DONE && twin_read(twin, 0x09, &byte, 1) == TWIN_DONE && byte == (status ? 8 : 0)
        && twin_int1(twin) == level && twin_int2(twin) == level;
}

/* no-motion by some codes: it waits from the write on, whatever was refused since, to the last microsecond before the time and at it; an over
 * point wakes it, and then it waits anew */
static void waits(struct twin *twin) {
    static const struct {
        uint8_t code;
        uint32_t seconds;
    } times[] = {{0, 1}, {1, 2}, {15, 16}, {16, 40}, {17, 48}, {21, 80}, {32, 88}, {33, 96}, {63, 336}};
    for (size_t i = 0; i < sizeof times / sizeof times[0]; i++) {
        uint32_t wait = times[i].seconds * 1000000;
        choosing(twin, 0x09, 4 * times[i].code);
        HOLDS(twin_clock(twin, wait - 1) == TWIN_DONE && shows_at(twin, 0, false) && shows_at(twin, 80, false));
        written(twin, 0x27, 0x58, TWIN_RESERVED_CODE);
        HOLDS(twin_clock(twin, 1) == TWIN_DONE && shows_at(twin, 0, true));
        HOLDS(twin_clock(twin, UINT32_MAX) == TWIN_DONE && shows_at(twin, 80, true) && shows_at(twin, -1, false));
        HOLDS(twin_clock(twin, wait - 1) == TWIN_DONE && shows_at(twin, -1, false) && twin_clock(twin, 1) == TWIN_DONE && shows_at(twin, -1, true));
    }
}

/* slow motion by every byte of 0x27: as many points in a row as bits 3:2 say set it, and as many clear it */
static void slow_motion(struct twin *twin) {
    for (int byte = 0; byte < 256; byte++) {
        int needed = byte / 4 % 4 + 1;
        choosing(twin, 0x01, byte);
        HOLDS(shows_at(twin, 0, false));
        for (int over = 1; over <= needed; over++) HOLDS(shows_at(twin, over % 2 * 81, over == needed));
        for (int calm = 1; calm <= needed; calm++) HOLDS(shows_at(twin, needed % 2 * 81, calm != needed));
    }
}

/* the ranges, and how many counts a step of an offset is in each */
static const struct {
    uint8_t code;
    int step;
} ranges[] = {{0x03, 8}, {0x05, 4}, {0x08, 2}, {0x0C, 1}};

/* a byte of an offset in counts */
static int counts_of(int byte, int step) {
    return (byte < 128 ? byte : byte - 256) * step;
}

static uint8_t sample_on(struct twin *twin, int axis, int given) {
    return twin_sample(twin, axis == 0 ? given : 0, axis == 1 ? given : 0, axis == 2 ? given : 0, 0);
}

/* a sample on one axis: the channels, and the frame of BYPASS, have what is to be stored of it */
static void stores(struct twin *twin, int axis, int given, int stored) {
    uint8_t bytes[6], frame[6];
    int code = stored & 0xFFF;
    HOLDS(sample_on(twin, axis, given) == TWIN_DONE);
    HOLDS(twin_read(twin, 0x02, bytes, 6) == TWIN_DONE && twin_read(twin, 0x3F, frame, 6) == TWIN_DONE && memcmp(bytes, frame, 6) == 0);
    for (int i = 0; i < 3; i++) {
        HOLDS(bytes[2 * i] == (i == axis ? code % 16 * 16 : 0) + 1);
        HOLDS(bytes[2 * i + 1] == (i == axis ? code / 16 : 0));
    }
}

/* an offset of one axis reads back; samples at both ends, at 0, and where what is stored reaches a limit and would pass it; 4 goes by what is
 * given */
static void applied(struct twin *twin, int axis, int byte, int step) {
    int by = counts_of(byte, step);
    int given[] = {-2048, 0, 2047, 2047 - by, 2048 - by, -2048 - by, -2049 - by};
    uint8_t address = (uint8_t)(0x38 + axis), back = (uint8_t)~byte;
    written(twin, address, byte, TWIN_DONE);
    HOLDS(twin_read(twin, address, &back, 1) == TWIN_DONE && back == byte);
    for (size_t i = 0; i < sizeof given / sizeof given[0]; i++) {
        int sum = given[i] + by;
        if (given[i] < -2048 || given[i] > 2047) HOLDS(sample_on(twin, axis, given[i]) == TWIN_OUT_OF_RANGE);
        else stores(twin, axis, given[i], sum < -2048 ? -2048 : sum > 2047 ? 2047 : sum);
    }
    written(twin, address, 0, TWIN_DONE);
}

/* every byte as the offset of each axis, in each range; by a soft reset it is 0 */
static void offsets(struct twin *twin) {
    for (size_t range = 0; range < sizeof ranges / sizeof ranges[0]; range++)
        for (int axis = 0; axis < 3; axis++) {
            HOLDS(twin_power_up(twin) == TWIN_DONE && twin_write(twin, 0x0F, ranges[range].code) == TWIN_DONE);
            for (int byte = 0; byte < 256; byte++) applied(twin, axis, byte, ranges[range].step);
            written(twin, (uint8_t)(0x38 + axis), 0x80, TWIN_DONE);
            HOLDS(twin_write(twin, 0x14, 0xB6) == TWIN_DONE);
            stores(twin, axis, 100, 100);
        }
}

/* every byte as an offset of x between two equal samples, in each range: the range and the offset at the sample count, and the jump is a slope,
 * which any-motion notices above 80 counts */
static void jumps(struct twin *twin) {
    for (size_t range = 0; range < sizeof ranges / sizeof ranges[0]; range++)
        for (int byte = 0; byte < 256; byte++) {
            int by = counts_of(byte, ranges[range].step);
            uint8_t marks = 0xFF;
            HOLDS(twin_power_up(twin) == TWIN_DONE && twin_write(twin, 0x16, 0x01) == TWIN_DONE);
            HOLDS(twin_write(twin, 0x0F, ranges[range].code) == TWIN_DONE && twin_sample(twin, 0, 0, 0, 0) == TWIN_DONE);
            written(twin, 0x38, byte, TWIN_DONE);
            HOLDS(twin_read(twin, 0x0B, &marks, 1) == TWIN_DONE && marks == 0);
            HOLDS(twin_sample(twin, 0, 0, 0, 0) == TWIN_DONE && twin_read(twin, 0x0B, &marks, 1) == TWIN_DONE);
            HOLDS(marks == (by > 80 ? 0x01 : by < -80 ? 0x09 : 0));
        }
}

/* a byte to all three offsets, and 0 again */
static void to_and_fro(struct twin *twin, int byte) {
    for (uint8_t address = 0x38; address <= 0x3A; address++) written(twin, address, byte, TWIN_DONE);
    for (uint8_t address = 0x38; address <= 0x3A; address++) written(twin, address, 0, TWIN_DONE);
}

/* a sample of this x and of y 17, then the byte of 0x09 */
static int status_at(struct twin *twin, int x) {
    uint8_t status = 0xFF;
    HOLDS(twin_sample(twin, x, 17, 0, 0) == TWIN_DONE && twin_read(twin, 0x09, &status, 1) == TWIN_DONE);
    return status;
}

/* every byte to the offsets, and back, restarts no detector: any-motion and slow motion of x, two points in a row above 4 counts; low-g, and
 * high-g of y above 16, 2 ms; and no-motion */
static void restarts_nothing(struct twin *twin) {
    static const uint8_t writes[][2] = {{0x16, 0x01}, {0x28, 0x01}, {0x27, 0x05}, {0x29, 0x01}, {0x18, 0x01},
                                        {0x22, 0x00}, {0x25, 0x00}, {0x26, 0x02}, {0x17, 0x0A}};
    for (int byte = 0; byte < 256; byte++) {
        HOLDS(twin_power_up(twin) == TWIN_DONE);
        for (size_t i = 0; i < sizeof writes / sizeof writes[0]; i++) written(twin, writes[i][0], writes[i][1], TWIN_DONE);
        HOLDS(status_at(twin, 0) == 0 && status_at(twin, 5) == 0 && twin_clock(twin, 1999) == TWIN_DONE);
        to_and_fro(twin, byte);
        HOLDS(status_at(twin, 10) == 0x0C && twin_clock(twin, 1) == TWIN_DONE);
        to_and_fro(twin, byte);
        HOLDS(status_at(twin, 10) == 0x0F);
        to_and_fro(twin, byte);
        HOLDS(status_at(twin, 10) == 0x03);
        choosing(twin, 0x09, 0);
        HOLDS(twin_clock(twin, 999999) == TWIN_DONE && shows_at(twin, 0, false));
        to_and_fro(twin, byte);
        HOLDS(shows_at(twin, 0, false) && twin_clock(twin, 1) == TWIN_DONE);
        to_and_fro(twin, byte);
        HOLDS(shows_at(twin, 0, true));
    }
}

/* every function on a record that is no chip; nothing changes. NULL is also a record */
static void refused_record(struct twin *twin) {
    struct twin before;
    uint8_t buffer[6];
    memset(buffer, FILL, sizeof buffer);
    if (twin != NULL) before = *twin;
    HOLDS(twin_write(twin, 0x0F, 0x03) == TWIN_NOT_POWERED && twin_write(twin, 0x40, 0) == TWIN_NOT_POWERED);
    HOLDS(twin_read(twin, 0x00, buffer, 1) == TWIN_NOT_POWERED && twin_read(twin, 0x3F, NULL, 6) == TWIN_NOT_POWERED);
    HOLDS(twin_sample(twin, 1, 2, 3, 4) == TWIN_NOT_POWERED && twin_sample(twin, INT_MAX, 0, 0, 0) == TWIN_NOT_POWERED);
    HOLDS(twin_cycle(twin) == TWIN_NOT_POWERED && twin_clock(twin, 250) == TWIN_NOT_POWERED);
    for (int kind = 0; kind < 256; kind++)
        HOLDS(twin_event(twin, (uint8_t)kind, 0, 0, 0, 0, 0, buffer, sizeof buffer, 0) == TWIN_NOT_POWERED);
    HOLDS(twin_pins(twin) == TWIN_NOT_POWERED && twin_int1(twin) == TWIN_NOT_POWERED && twin_int2(twin) == TWIN_NOT_POWERED);
    HOLDS(all(buffer, sizeof buffer, FILL));
    HOLDS(twin == NULL || memcmp(&before, twin, sizeof before) == 0);
}

/* zeros are no chip, nor is a record whose first byte is another than the chip's number */
static void not_powered_up(void) {
    struct twin twin;
    HOLDS(twin_power_up(NULL) == TWIN_NOT_POWERED);
    refused_record(NULL);
    memset(&twin, 0, sizeof twin);
    refused_record(&twin);
    HOLDS(twin_power_up(&twin) == TWIN_DONE && twin_write(&twin, 0x0F, 0x05) == TWIN_DONE);
    for (int first = 0; first < 256; first++) {
        if (first == TWIN_CHIP) continue;
        *(unsigned char *)&twin = (unsigned char)first;
        refused_record(&twin);
    }
    *(unsigned char *)&twin = TWIN_CHIP;
    HOLDS(twin_write(&twin, 0x0F, 0x03) == TWIN_DONE);
}

/* a buffer of each place and some lengths around the record: refused exactly where the two overlap, and then nothing changes. One above
 * TWIN_LONGEST_READ is not touched, so it need not be there */
static void overlaps(void) {
    enum { MARGIN = 200, RECORD = 200, AREA = MARGIN + TWIN_ROOM + MARGIN };
    static const size_t lengths[] = {1, 2, 6, 191, 192, 193, 255, 256, 300, 511, 512, 513, 65535, 65536, UINT32_MAX, SIZE_MAX - 200, SIZE_MAX};
    static uint64_t area[AREA / 8];
    uint8_t *base = (uint8_t *)area;
    struct twin *twin = (struct twin *)(void *)(base + RECORD);
    memset(area, FILL, sizeof area);
    HOLDS(twin_power_up(twin) == TWIN_DONE && twin_write(twin, 0x3E, 0x40) == TWIN_DONE);
    for (size_t n = 0; n < sizeof lengths / sizeof *lengths; n++)
        for (size_t at = 0; lengths[n] > TWIN_LONGEST_READ ? at < AREA : at + lengths[n] <= AREA; at++) {
            static uint64_t before[AREA / 8];
            bool overlap = at < RECORD ? lengths[n] > RECORD - at : at < RECORD + TWIN_ROOM;
            enum twin_answer answer = lengths[n] > TWIN_LONGEST_READ ? TWIN_BAD_LENGTH : TWIN_DONE;
            memcpy(before, area, sizeof before);
            HOLDS(twin_read(twin, 0x3F, base + at, lengths[n]) == (overlap ? TWIN_BAD_BUFFER : answer));
            if (overlap || answer != TWIN_DONE) HOLDS(memcmp(before, area, sizeof before) == 0);
            else HOLDS(all(base + at, lengths[n], 0));
            memcpy(before, area, sizeof before);
            HOLDS(twin_event(twin, TWIN_CLOCK, 0, 0, 0, 0, 0, base + at, lengths[n], 1) == (overlap ? TWIN_BAD_BUFFER : TWIN_DONE));
            if (overlap) HOLDS(memcmp(before, area, sizeof before) == 0);
        }
    for (size_t at = 0; at < AREA; at++) HOLDS(twin_read(twin, 0x3F, base + at, 0) == TWIN_BAD_LENGTH);
}

/* whether a buffer and a record, each of some bytes, share one: both by their first and last bytes; none lies behind the last address */
static bool shares(uintptr_t record, uintptr_t start, size_t length) {
    uintptr_t last = length - 1 > UINTPTR_MAX - start ? UINTPTR_MAX : start + (length - 1);
    return length != 0 && start <= record + (TWIN_ROOM - 1) && record <= last;
}

/* places at both ends of the address space, in the middle and around the record, none of which is touched, with lengths of the whole range */
static void far_places(void) {
    const uintptr_t middle = UINTPTR_MAX / 2 + 1, end = UINTPTR_MAX - (TWIN_ROOM - 1);
    const uintptr_t records[] = {8, 512, 1024, 65536, middle - 256, middle, end - 512, end - 8, end};
    const uintptr_t steps[] = {0, 1, 2, 7, 8, 191, 192, 193, 255, 256, 511, 512, 513, 65535, 65536, 65537, UINT32_MAX, UINTPTR_MAX / 2};
    const size_t many = sizeof steps / sizeof *steps;
    for (size_t r = 0; r < sizeof records / sizeof *records; r++)
        for (size_t s = 0; s < 4 * many; s++)
            for (size_t n = 0; n < 2 * many; n++) {
                uintptr_t from = s % 4 == 0 ? 0 : s % 4 == 1 ? UINTPTR_MAX : records[r], step = steps[s / 4];
                uintptr_t start = s % 2 == 0 ? from + step : from - step;
                size_t length = n % 2 == 0 ? steps[n / 2] : SIZE_MAX - steps[n / 2];
                const struct twin *twin = (const struct twin *)records[r];
                if (start == 0) continue; /* that is NULL */
                HOLDS(twin_is_bad_buffer(twin, (const uint8_t *)start, length) == shares(records[r], start, length));
            }
}

/* NULL is a buffer of no bytes and of no more */
static void no_buffer(struct twin *twin) {
    struct twin before = *twin;
    for (size_t length = 1; length < 300; length++) HOLDS(twin_read(twin, 0x3F, NULL, length) == TWIN_BAD_BUFFER);
    HOLDS(twin_read(twin, 0x40, NULL, SIZE_MAX) == TWIN_BAD_BUFFER && twin_event(twin, 0, 0, 0, 0, 0, 0, NULL, 1, 0) == TWIN_BAD_BUFFER);
    HOLDS(memcmp(&before, twin, sizeof before) == 0);
    HOLDS(twin_read(twin, 0x3F, NULL, 0) == TWIN_BAD_LENGTH && twin_read(twin, 0x40, NULL, 0) == TWIN_NO_ADDRESS);
    HOLDS(twin_event(twin, 9, 0, 0, 0, 0, 0, NULL, 0, 0) == TWIN_NO_KIND);
    HOLDS(same(&before, twin));
}

/* power-up leaves no byte as it was, and does not begin on a record that is not aligned */
static void power_up(void) {
    struct twin one, other;
    uint64_t place[TWIN_ROOM / 8 + 1];
    uint8_t (*up)(struct twin *) = twin_power_up;
    memset(&one, FILL, sizeof one);
    memset(&other, OTHER_FILL, sizeof other);
    HOLDS(twin_power_up(&one) == TWIN_DONE && up(&other) == TWIN_DONE);
    for (size_t i = 0; i < sizeof one; i++) HOLDS(((uint8_t *)&one)[i] != FILL || ((uint8_t *)&other)[i] != OTHER_FILL);
    HOLDS(same(&one, &other));
    for (size_t shift = 1; shift < 8; shift++) {
        uint8_t *start = (uint8_t *)place;
        struct twin *shifted = (struct twin *)(void *)(start + shift);
        memset(place, TWIN_CHIP, sizeof place);
        HOLDS(twin_power_up(shifted) == TWIN_MISFIT);
        HOLDS(all(start, shift, TWIN_CHIP) && all(start + shift, TWIN_ROOM, 0) && all(start + shift + TWIN_ROOM, 8 - shift, TWIN_CHIP));
        HOLDS(twin_cycle(shifted) == TWIN_NOT_POWERED);
    }
}

/* a copy is a second chip */
static void copies(void) {
    struct twin one, other;
    uint8_t byte;
    twin_power_up(&one);
    HOLDS(twin_write(&one, 0x0F, 0x05) == TWIN_DONE);
    other = one;
    HOLDS(same(&one, &other));
    HOLDS(twin_write(&other, 0x0F, 0x0C) == TWIN_DONE);
    HOLDS(twin_read(&one, 0x0F, &byte, 1) == TWIN_DONE && byte == 0x05);
    HOLDS(twin_read(&other, 0x0F, &byte, 1) == TWIN_DONE && byte == 0x0C);
}

/* the printed case of 01; the buffer ends with its page, and the bytes before it stay */
static void readout(struct twin *twin, uint8_t *end) {
    uint8_t *buffer = end - 6;
    memset(end - 16, FILL, 16);
    HOLDS(twin_write(twin, 0x3E, 0x40) == TWIN_DONE);
    HOLDS(twin_sample(twin, 16, -16, 1024, 5) == TWIN_DONE);
    HOLDS(twin_read(twin, 0x3F, buffer, 6) == TWIN_DONE);
    HOLDS(memcmp(buffer, "\x01\x01\x01\xFF\x01\x40", 6) == 0 && all(end - 16, 10, FILL));
    HOLDS(twin_read(twin, 0x3F, end - 192, 192) == TWIN_DONE && all(end - 192, 192, 0));
}

/* the data interrupt on each pin, push-pull and open-drive */
static void pins(struct twin *twin) {
    HOLDS(twin_int1(twin) == TWIN_LOW && twin_int2(twin) == TWIN_LOW);
    HOLDS(twin_write(twin, 0x17, 0x10) == TWIN_DONE && twin_write(twin, 0x1A, 0x01) == TWIN_DONE);
    HOLDS(twin_sample(twin, 1, 2, 3, 0) == TWIN_DONE);
    HOLDS(twin_int1(twin) == TWIN_HIGH && twin_int2(twin) == TWIN_LOW);
    HOLDS(twin_write(twin, 0x20, 0x0D) == TWIN_DONE);
    HOLDS(twin_int1(twin) == TWIN_HIGH && twin_int2(twin) == TWIN_RELEASED);
    HOLDS(twin_write(twin, 0x1A, 0x80) == TWIN_DONE);
    HOLDS(twin_int1(twin) == TWIN_LOW && twin_int2(twin) == TWIN_HIGH && twin_pins(twin) == 4);
    HOLDS(twin_cycle(twin) == TWIN_DONE && twin_int2(twin) == TWIN_RELEASED);
}

/* each answer has words of its own, and no other number has any */
static void names(void) {
    static const uint8_t answers[] = {0, 1, 2, 4, 5, 6, 8, 11, 12, 13, 253, 254, 255};
    for (int number = 0; number < 256; number++) {
        bool is_answer = memchr(answers, number, sizeof answers) != NULL;
        HOLDS((strcmp(twin_answer_name((uint8_t)number), "not an answer") == 0) == !is_answer);
        for (int other = 0; is_answer && other < number; other++)
            HOLDS(strcmp(twin_answer_name((uint8_t)number), twin_answer_name((uint8_t)other)) != 0);
    }
}

static void sizes_and_version(void) {
    char version[32];
    snprintf(version, sizeof version, "%d.%d.%d", TWIN_VERSION_MAJOR, TWIN_VERSION_MINOR, TWIN_VERSION_PATCH);
    HOLDS(strcmp(version, TWIN_VERSION) == 0 && strcmp(twin_version(), TWIN_VERSION) == 0);
    HOLDS(sizeof(struct twin) == TWIN_ROOM && TWIN_ROOM == 512);
    HOLDS(twin_size() <= TWIN_ROOM && twin_alignment() <= 8 && TWIN_ROOM % twin_alignment() == 0);
}

/* a page, with a next one that cannot be touched */
static uint8_t *guarded_page(void) {
    uint8_t *page = (uint8_t *)mmap(NULL, 2 * PAGE, PROT_READ | PROT_WRITE, MAP_PRIVATE | MAP_ANONYMOUS, -1, 0);
    if (page == (uint8_t *)MAP_FAILED || mprotect(page + PAGE, PAGE, PROT_NONE) != 0) return NULL;
    memset(page, FILL, PAGE);
    return page;
}

/* events on a record that ends with its page, into a buffer that does; the record's rest and what lies before stay */
static void at_the_edge(uint8_t *page, uint8_t *buffers) {
    struct twin *twin = (struct twin *)(void *)(page + PAGE - TWIN_ROOM);
    twin_power_up(twin);
    pins(twin);
    twin_power_up(twin);
    readout(twin, buffers + PAGE);
    refused_events(twin);
    lacking(twin);
    latch_times(twin);
    falls_and_hits(twin);
    joined(twin);
    waits(twin);
    slow_motion(twin);
    offsets(twin);
    jumps(twin);
    restarts_nothing(twin);
    unknown_kinds(twin);
    no_buffer(twin);
    HOLDS(all((uint8_t *)twin + twin_size(), TWIN_ROOM - twin_size(), 0));
    HOLDS(all(page, PAGE - TWIN_ROOM, FILL) && all(buffers, PAGE - 192, FILL));
}

int main(void) {
    uint8_t *page = guarded_page(), *buffers = guarded_page();
    if (page == NULL || buffers == NULL) return 2;
    sizes_and_version();
    names();
    not_powered_up();
    power_up();
    copies();
    overlaps();
    far_places();
    at_the_edge(page, buffers);
    printf("%ld %ld\n", checks, failed);
    return failed != 0;
}
