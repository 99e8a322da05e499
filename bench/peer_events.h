#include "../peer/peer.h"
static struct peer it;
static size_t record_size(void) { return sizeof it; }
static void begin(void) { peer_power_up(&it); }
static unsigned event_write(uint8_t a, uint8_t b) { return peer_write(&it, a, b); }
static unsigned event_read(uint8_t a, uint8_t *p, size_t n) { return peer_read(&it, a, p, n); }
static unsigned event_sample(int16_t x, int16_t y, int16_t z, uint8_t t) { return peer_sample(&it, x, y, z, t); }
static unsigned event_cycle(void) { return peer_cycle_start(&it); }
