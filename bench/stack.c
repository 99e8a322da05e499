/* What an event through the entry takes of the stack, in bytes below the caller's own frame, or, with COPIES, how many copies of a
 * store (192 bytes) or more it makes: for bench/stack. A line for each kind of event. */
#include <stdio.h>
#include "../include/twin.h"

#define STORE 192
#define DEEP 8192
#define MARK 0xA5

static struct twin it;
static uint8_t buffer[TWIN_LONGEST_READ];
static unsigned answers; /* so that no call is left out */

static void nothing(void) { }
static void sample(void) { answers += twin_sample(&it, 1, -2, 3, 4); }
static void cycle(void) { answers += twin_cycle(&it); }
static void time_passes(void) { answers += twin_clock(&it, 250); }
static void write_range(void) { answers += twin_write(&it, 0x0F, 0x05); }
static void write_mode(void) { answers += twin_write(&it, 0x3E, 0x80); }
static void soft_reset(void) { answers += twin_write(&it, 0x14, 0xB6); }
static void read_status(void) { answers += twin_read(&it, 0x0E, buffer, 1); }
static void read_data(void) { answers += twin_read(&it, 0x02, buffer, 6); }
static void readout(void) { answers += twin_read(&it, 0x3F, buffer, TWIN_LONGEST_READ); }
static void refused_sample(void) { answers += twin_sample(&it, 4000, 0, 0, 0); }
static void unknown_kind(void) { answers += twin_event(&it, 9, 0, 0, 0, 0, 0, NULL, 0, 0); }

/* a chip with so many samples in a mode */
static void begin(uint8_t mode, int samples) {
    twin_power_up(&it);
    answers += twin_write(&it, 0x3E, mode);
    while (samples-- > 0) sample();
}

#ifdef COPIES
static unsigned copies;
void *__real_memcpy(void *to, const void *from, size_t length);
void *__real_memmove(void *to, const void *from, size_t length);
void *__wrap_memcpy(void *to, const void *from, size_t length) {
    copies += length >= STORE;
    return __real_memcpy(to, from, length);
}
void *__wrap_memmove(void *to, const void *from, size_t length) {
    copies += length >= STORE;
    return __real_memmove(to, from, length);
}
static unsigned measured(void (*event)(void)) {
    copies = 0;
    event();
    return copies;
}
#else
/* The stack below the caller is marked, the event runs there, and what is no longer marked was used. */
__attribute__((noinline)) static void mark(void) {
    volatile unsigned char room[DEEP];
    for (size_t i = 0; i < DEEP; i++) room[i] = MARK;
}
__attribute__((noinline)) static unsigned unmarked(void) {
    volatile unsigned char room[DEEP];
    size_t first = 0;
    while (first < DEEP && room[first] == MARK) first++;
    return (unsigned)(DEEP - first);
}
__attribute__((noinline)) static unsigned used_by(void (*event)(void)) {
    mark();
    event();
    return unmarked();
}
static unsigned measured(void (*event)(void)) {
    return used_by(event) - used_by(nothing);
}
#endif

static const struct {
    const char *name;
    void (*event)(void);
    uint8_t mode;
    int samples; /* so many came before */
} kinds[] = {
    {"sample, STREAM mode, the oldest is dropped", sample, 0x80, 32},
    {"sample, FIFO mode, dropped", sample, 0x40, 32},
    {"sample, FIFO mode, kept", sample, 0x40, 5},
    {"sample, refused", refused_sample, 0x40, 5},
    {"readout of 192 bytes", readout, 0x80, 32},
    {"read of 0x0E", read_status, 0x80, 32},
    {"read of 0x02, 6 bytes", read_data, 0x80, 32},
    {"write of 0x0F", write_range, 0x80, 32},
    {"write of 0x3E", write_mode, 0x80, 32},
    {"soft reset", soft_reset, 0x80, 32},
    {"cycle start", cycle, 0x80, 32},
    {"clock", time_passes, 0x80, 32},
    {"unknown kind", unknown_kind, 0x80, 32},
};

int main(void) {
    for (size_t i = 0; i < sizeof kinds / sizeof *kinds; i++) {
        begin(kinds[i].mode, kinds[i].samples);
        printf("%s: %u\n", kinds[i].name, measured(kinds[i].event));
    }
    return answers == 0 || measured(nothing) != 0;
}
