/* Recorder firmware against the twin: a driver's usual start-up, a burst readout, an overrun that is noticed, and a jolt that is shown
 * for as long as the latch time says. */
#include <stdio.h>
#include "twin.h"

enum { CHIP_ID = 0x00, INT_STATUS = 0x09, FIFO_STATUS = 0x0E, RANGE = 0x0F, BANDWIDTH = 0x10, SOFT_RESET = 0x14, MOTION_ENABLE = 0x16,
       INT_ENABLE = 0x17, INT_MAP = 0x1A, LATCH = 0x21, WATERMARK = 0x30, FIFO_CONFIG = 0x3E, FIFO_DATA = 0x3F };
enum { FRAME = 6 };

static struct twin chip; /* the bus's other end */

/* The bus: a register pair as an I2C driver has it. A refusal is the slave's NACK. */
static int bus_write(uint8_t address, uint8_t byte) {
    uint8_t answer = twin_write(&chip, address, byte);
    if (answer != TWIN_DONE) printf("  write %02X to %02X refused: %u, %s\n", byte, address, answer, twin_answer_name(answer));
    return answer == TWIN_DONE;
}

static int bus_read(uint8_t address, uint8_t *buffer, size_t length) {
    uint8_t answer = twin_read(&chip, address, buffer, length);
    if (answer != TWIN_DONE) printf("  read of %zu at %02X refused: %u, %s\n", length, address, answer, twin_answer_name(answer));
    return answer == TWIN_DONE;
}

static int start(void) {
    uint8_t id;
    if (!bus_read(CHIP_ID, &id, 1) || id != TWIN_CHIP) return 0;
    printf("chip %02X\n", id);
    return bus_write(SOFT_RESET, 0xB6) && bus_write(RANGE, 0x08) && bus_write(BANDWIDTH, 0x0C) && bus_write(INT_MAP, 0x02)
        && bus_write(INT_ENABLE, 0x40) && bus_write(MOTION_ENABLE, 0x07) && bus_write(LATCH, 0x01) && bus_write(WATERMARK, 0x04)
        && bus_write(FIFO_CONFIG, 0x40);
}

/* Two signed bytes of a frame as a count of 12 bits. */
static int count_of(const uint8_t *axis) { return (int16_t)((uint16_t)(axis[1] << 8 | axis[0])) >> 4; }

static void drain(void) {
    uint8_t status, frames[4 * FRAME];
    if (!bus_read(FIFO_STATUS, &status, 1)) return;
    printf("%u held%s\n", status & 0x7F, status & 0x80 ? ", samples were lost" : "");
    if (!bus_read(FIFO_DATA, frames, sizeof frames)) return;
    for (size_t i = 0; i < sizeof frames; i += FRAME)
        printf("  x %d y %d z %d\n", count_of(frames + i), count_of(frames + i + 2), count_of(frames + i + 4));
}

static void samples(int from, int n) {
    for (int i = from; i < from + n; i++) {
        uint8_t answer = twin_sample(&chip, i, -i, 1000, 0x17);
        if (answer != TWIN_DONE) printf("  sample %d refused: %u, %s\n", i, answer, twin_answer_name(answer));
        twin_cycle(&chip);
    }
}

static void show_int1(void) {
    printf("INT1 %s\n", twin_int1(&chip) == TWIN_HIGH ? "high: four frames wait, or more" : "low");
}

static void show_motion_after(uint32_t microseconds) {
    uint8_t status;
    twin_clock(&chip, microseconds);
    if (!bus_read(INT_STATUS, &status, 1)) return;
    printf("%lu us later: motion %s\n", (unsigned long)microseconds, status & 0x04 ? "shown" : "over");
}

int main(void) {
    uint8_t answer, two[2];
    bus_write(RANGE, 0x08); /* too early */
    answer = twin_power_up(&chip);
    if (answer != TWIN_DONE) return printf("no power-up: %s\n", twin_answer_name(answer)), 1;
    if (!start()) return printf("the start-up failed\n"), 1;
    bus_write(RANGE, 0x07); /* a code that the sheet does not define */
    samples(1, 4);
    show_int1();
    drain();
    samples(5, 40); /* the firmware is late */
    show_int1();
    drain();
    samples(500, 1); /* a jolt; the latch time is 250 ms */
    show_motion_after(249999);
    show_motion_after(1);
    bus_read(FIFO_STATUS, NULL, 1);
    bus_read(FIFO_CONFIG, two, 2);
    return 0;
}
