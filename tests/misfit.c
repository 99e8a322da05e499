/* Power-up with proved functions that do not fit library/entry.c, for which this file stands in: it is refused, and the record with it.
 * tests/entry builds and runs it with library/entry.c alone; it prints the checks and those that failed. */
#include <stdio.h>
#include "twin.h"
#define PROVED(name) TWIN_SYMBOL(TWIN_VERSION_MAJOR, _proved##name)

static size_t size, alignment;
static int calls;

#ifdef __cplusplus
extern "C" {
#endif
size_t PROVED(_size)(void);
size_t PROVED(_alignment)(void);
void PROVED(_power_up)(struct twin *twin);
uint8_t PROVED(_event)(struct twin *twin, uint8_t kind, uint8_t address, uint8_t byte, int16_t x, int16_t y, int16_t z, uint8_t *buffer,
                       size_t length, uint32_t microseconds);
uint8_t PROVED(_pins)(const struct twin *twin);
#ifdef __cplusplus
}
#endif

size_t PROVED(_size)(void) { return size; }
size_t PROVED(_alignment)(void) { return alignment; }
void PROVED(_power_up)(struct twin *twin) {
    calls++;
    *(unsigned char *)twin = TWIN_CHIP;
}
uint8_t PROVED(_event)(struct twin *twin, uint8_t kind, uint8_t address, uint8_t byte, int16_t x, int16_t y, int16_t z, uint8_t *buffer,
                       size_t length, uint32_t microseconds) {
    (void)twin, (void)kind, (void)address, (void)byte, (void)x, (void)y, (void)z, (void)buffer, (void)length, (void)microseconds;
    calls++;
    return 0;
}
uint8_t PROVED(_pins)(const struct twin *twin) {
    (void)twin;
    calls++;
    return 0;
}

/* whether a chip of that size and alignment is powered up; what is refused calls nothing that is proved and answers nothing but 255 */
static bool is_powered_up(size_t its_size, size_t its_alignment) {
    static union { struct twin twin; char room[2 * TWIN_ROOM]; } place;
    struct twin *twin = (struct twin *)(void *)(((uintptr_t)place.room + 63) / 64 * 64 + 8); /* a multiple of 8, not of 16 */
    uint8_t answer;
    bool refused, done;
    size = its_size, alignment = its_alignment, calls = 0;
    *(unsigned char *)twin = TWIN_CHIP;
    answer = twin_power_up(twin);
    refused = answer == TWIN_MISFIT && twin_cycle(twin) == TWIN_NOT_POWERED && twin_int1(twin) == TWIN_NOT_POWERED && calls == 0;
    done = answer == TWIN_DONE && twin_cycle(twin) == TWIN_DONE && twin_int2(twin) == TWIN_LOW && calls == 3;
    if (refused || done) return done;
    fprintf(stderr, "tests/misfit.c: size %zu, alignment %zu: answer %u, %d calls\n", its_size, its_alignment, answer, calls);
    return its_size > TWIN_ROOM || its_alignment > 8; /* what is wrong for these */
}

int main(void) {
    int failed = 0;
    failed += !is_powered_up(1, 1);
    failed += !is_powered_up(312, 4);
    failed += !is_powered_up(TWIN_ROOM, 8);
    failed += is_powered_up(TWIN_ROOM + 1, 8);
    failed += is_powered_up(SIZE_MAX, 8);
    failed += is_powered_up(312, 16);
    printf("6 %d\n", failed);
    return failed != 0;
}
