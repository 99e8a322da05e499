/* The library's functions that C calls. They look at what they are handed and then call the proved ones of crates/twin, which hold for
 * every record and every buffer but cannot tell a pointer to nothing. bin/install-library puts both into the archive and into the
 * shared library, where only these show. */
#pragma GCC visibility push(default)
#include "twin.h"
#pragma GCC visibility pop

/* The proved ones have the major version in their names too: two archives in one program do not take each other's. */
#define proved_size TWIN_SYMBOL(TWIN_VERSION_MAJOR, _proved_size)
#define proved_alignment TWIN_SYMBOL(TWIN_VERSION_MAJOR, _proved_alignment)
#define proved_power_up TWIN_SYMBOL(TWIN_VERSION_MAJOR, _proved_power_up)
#define proved_event TWIN_SYMBOL(TWIN_VERSION_MAJOR, _proved_event)
#define proved_pins TWIN_SYMBOL(TWIN_VERSION_MAJOR, _proved_pins)

#pragma GCC visibility push(hidden)
size_t proved_size(void);
size_t proved_alignment(void);
void proved_power_up(struct twin *twin);
uint8_t proved_event(struct twin *twin, uint8_t kind, uint8_t address, uint8_t byte, int16_t x, int16_t y, int16_t z, uint8_t *buffer,
                     size_t length, uint32_t microseconds);
uint8_t proved_pins(const struct twin *twin);
#pragma GCC visibility pop

size_t twin_size(void) { return proved_size(); }

/* The header's record is made of numbers of 8 bytes: its address is a multiple of 8 also where the proved functions need less. */
size_t twin_alignment(void) { return proved_alignment() > sizeof(uint64_t) ? proved_alignment() : sizeof(uint64_t); }

uint8_t twin_power_up(struct twin *twin) {
    unsigned char *bytes = (unsigned char *)twin; /* which need not be aligned */
    if (twin == NULL) return TWIN_NOT_POWERED;
    for (size_t i = 0; i < sizeof *twin; i++) bytes[i] = 0;
    if (proved_size() > sizeof *twin || (uintptr_t)twin % twin_alignment() != 0) return TWIN_MISFIT;
    proved_power_up(twin);
    return TWIN_DONE;
}

/* What a caller hands over without a buffer: a place for no bytes, which nothing writes to. */
static const uint8_t none = 0;

uint8_t twin_event(struct twin *twin, uint8_t kind, uint8_t address, uint8_t byte, int16_t x, int16_t y, int16_t z, uint8_t *buffer,
                   size_t length, uint32_t microseconds) {
    if (!twin_is_powered(twin)) return TWIN_NOT_POWERED;
    if (twin_is_bad_buffer(twin, buffer, length)) return TWIN_BAD_BUFFER;
    return proved_event(twin, kind, address, byte, x, y, z, buffer == NULL ? (uint8_t *)&none : buffer, length, microseconds);
}

uint8_t twin_pins(const struct twin *twin) {
    return twin_is_powered(twin) ? proved_pins(twin) : (uint8_t)TWIN_NOT_POWERED;
}
