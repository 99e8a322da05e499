/* The library and the C twin of peer/ in one program: the same events to both, chosen by a seeded generator, and every answer, byte
 * read and pin level is the same. tests/entry builds and runs it; it prints the checks and those that failed. use: both EVENTS */
#include <stdio.h>
#include <stdlib.h>
#include <string.h>
#include "twin.h"
#include "../peer/peer.h"

static struct twin twin;
static struct peer peer;
static uint64_t state = 1;

static unsigned below(unsigned n) {
    state = state * 6364136223846793005u + 1442695040888963407u;
    return (unsigned)((state >> 33) % n);
}

/* one of the registers that do something, or any byte */
static uint8_t an_address(void) {
    static const uint8_t busy[] = {0x0F, 0x13, 0x14, 0x16, 0x17, 0x18, 0x19, 0x1A, 0x1B, 0x20, 0x21,
                                   0x22, 0x23, 0x24, 0x25, 0x26, 0x27, 0x28, 0x29, 0x30, 0x38, 0x39, 0x3A, 0x3E};
    return below(4) ? busy[below(sizeof busy)] : (uint8_t)below(below(8) ? 0x41 : 0x100);
}

/* near a bound, near what an offset at 2 g takes to one, near zero, near what a small threshold or hysteresis makes of low-g and high-g, or
 * anywhere in 16 bits */
static int a_count(void) {
    static const int near[] = {-2048, 2047, -2040, 2039, -1024, 1031, 0, 0, 0, 0, 0, 0, 8, -16, 136, -144};
    return below(40) ? near[below(sizeof near / sizeof *near)] + (int)below(13) - 6 : (int)below(0x10000) - 0x8000;
}

/* one that the register makes something of, or any */
static uint8_t a_byte(uint8_t address) {
    if (address == 0x14) return below(50) ? 0xB5 : 0xB6; /* a soft reset now and then */
    if (below(3) == 0) return (uint8_t)below(0x100);
    switch (address) {
    case 0x17: return (uint8_t)below(0x80);                /* which statuses are enabled, of 0x0A and of low-g and high-g */
    case 0x18: return (uint8_t)below(16);                  /* the axes of slow motion, or of no-motion */
    case 0x19:
    case 0x1B: return (uint8_t)below(16);                  /* which of them show at a pin */
    case 0x22:
    case 0x25: return (uint8_t)below(2);                   /* a run of 2 or 4 ms */
    case 0x23:
    case 0x26: return (uint8_t)(below(4) ? 1 + below(2) : below(2) ? 0 : 0xFF); /* 8 or 16 counts, none, or nearly all */
    case 0x24: return (uint8_t)below(0x100);               /* both hystereses and the mode of low-g */
    case 0x27: return (uint8_t)(below(8) ? below(16) : 0x50 + below(0x34)); /* a wait up to 4 s, or one around the codes that have none */
    case 0x30: return (uint8_t)below(below(2) ? 5 : 35);   /* a level that few frames reach, or one up to 34 */
    case 0x38:
    case 0x39:
    case 0x3A: return (uint8_t)(below(4) ? below(5) - 2 : 0x7E + below(4)); /* a step or two up or down, none, or the most */
    case 0x3E: return (uint8_t)(below(3) << 6 | below(4)); /* a mode, and the axes of a frame */
    case 0x21: return (uint8_t)(below(2) ? below(16) : below(2) << 3); /* any code, or non-latched */
    default: return (uint8_t)below(8);
    }
}

static bool write_both(void) {
    uint8_t address = an_address(), byte = a_byte(address);
    return twin_write(&twin, address, byte) == (uint8_t)peer_write(&peer, address, byte);
}

static bool read_both(void) {
    uint8_t ours[200], theirs[200], address = below(3) ? (uint8_t)below(0x42) : 0x3F;
    size_t length = below(2) ? below(8) : below(200);
    memset(ours, 0xA5, sizeof ours);
    memset(theirs, 0xA5, sizeof theirs);
    return twin_read(&twin, address, ours, length) == (uint8_t)peer_read(&peer, address, theirs, length)
        && memcmp(ours, theirs, sizeof ours) == 0;
}

static bool sample_both(void) {
    int x = a_count(), y = a_count(), z = a_count();
    uint8_t temperature = (uint8_t)below(0x100);
    return twin_sample(&twin, x, y, z, temperature) == (uint8_t)peer_sample(&peer, x, y, z, temperature);
}

/* a latch time or a wait, the time of a run of low-g or high-g or some microseconds around it, a part of one, or anything in 32 bits */
static uint32_t a_time(void) {
    static const uint32_t times[] = {250,     500,     1000,    12500, 25000, 50000, 250000, 500000, 1000000,
                                     2000000, 3000000, 4000000, 8000000, 2000, 2000, 4000,  4000,   6000,   512000};
    uint32_t time = times[below(sizeof times / sizeof *times)];
    if (below(40) == 0) return (uint32_t)(below(0x10000) << 16 | below(0x10000));
    return below(2) ? time + below(3) - 1 : below(time);
}

static bool clock_both(void) {
    uint32_t microseconds = a_time();
    return twin_clock(&twin, microseconds) == (uint8_t)peer_clock(&peer, microseconds);
}

static bool event_both(void) {
    unsigned kind = below(16);
    if (kind < 4) return write_both();
    if (kind < 7) return read_both();
    if (kind < 13) return sample_both();
    if (kind < 15) return clock_both();
    return twin_cycle(&twin) == (uint8_t)peer_cycle_start(&peer);
}

static bool pins_same(void) {
    struct peer_pins pins = peer_pins(&peer);
    return twin_int1(&twin) == (uint8_t)pins.int1 && twin_int2(&twin) == (uint8_t)pins.int2;
}

int main(int argc, char **argv) {
    long events = argc > 1 ? atol(argv[1]) : 1000000, failed = 0;
    twin_power_up(&twin);
    peer_power_up(&peer);
    for (long i = 0; i < events; i++)
        if (!event_both() || !pins_same()) {
            if (failed++ == 0) fprintf(stderr, "tests/both.c: the twins differ at event %ld\n", i + 1);
        }
    printf("%ld %ld\n", events, failed);
    return failed != 0;
}
