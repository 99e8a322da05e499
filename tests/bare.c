/* A caller without twin.h, which declares the library's symbols itself: NULL and a record that was not powered up are refused, a bad
 * buffer too, and a chip answers. tests/entry builds and runs it, on both libraries; it prints the checks and those that failed. */
#include <stdio.h>
#include <string.h>

unsigned char twin_4_power_up(void *record);
unsigned char twin_4_event(void *record, unsigned char kind, unsigned char address, unsigned char byte, short x, short y, short z,
                           unsigned char *buffer, unsigned long length, unsigned microseconds);
unsigned char twin_4_pins(const void *record);

enum { ROOM = 512, BAD_LENGTH = 5, NOT_POWERED = 255, BAD_BUFFER = 254, MISFIT = 253 };
static long checks, failed;
#define HOLDS(fact) do { checks++; if (!(fact)) { failed++; fprintf(stderr, "tests/bare.c:%d: %s\n", __LINE__, #fact); } } while (0)

/* each kind of event, and the pins, on what is no chip */
static void refused(void *record) {
    unsigned char buffer[6] = {0};
    int kind;
    for (kind = 0; kind < 256; kind++)
        HOLDS(twin_4_event(record, (unsigned char)kind, 0x3F, 0, 0, 0, 0, buffer, sizeof buffer, 1) == NOT_POWERED);
    HOLDS(twin_4_event(record, 2, 0x3F, 0, 0, 0, 0, NULL, 6, 0) == NOT_POWERED);
    HOLDS(twin_4_pins(record) == NOT_POWERED);
}

int main(void) {
    static union { double aligned; unsigned char bytes[ROOM + 8]; } place;
    unsigned char *record = place.bytes, id = 0;
    refused(NULL);
    refused(record);
    memset(record, 0xFB, ROOM);
    refused(record);
    HOLDS(twin_4_power_up(NULL) == NOT_POWERED);
    HOLDS(twin_4_power_up(record + 1) == MISFIT && twin_4_pins(record + 1) == NOT_POWERED);
    HOLDS(twin_4_power_up(record) == 0 && twin_4_pins(record) == 0);
    HOLDS(twin_4_event(record, 2, 0, 0, 0, 0, 0, &id, 1, 0) == 0 && id == 0xFA);
    HOLDS(twin_4_event(record, 2, 0, 0, 0, 0, 0, NULL, 1, 0) == BAD_BUFFER);
    HOLDS(twin_4_event(record, 2, 0, 0, 0, 0, 0, record + ROOM - 1, 1, 0) == BAD_BUFFER);
    HOLDS(twin_4_event(record, 2, 0, 0, 0, 0, 0, record + ROOM - 1, 300, 0) == BAD_BUFFER);
    HOLDS(twin_4_event(record, 2, 0, 0, 0, 0, 0, record + ROOM, 300, 0) == BAD_LENGTH);
    HOLDS(twin_4_event(record, 4, 0, 0, 0, 0, 0, NULL, 0, 0) == 0);
    printf("%ld %ld\n", checks, failed);
    return failed != 0;
}
