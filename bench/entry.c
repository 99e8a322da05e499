/* An event through the thin entry, or through the C twin's call, many times: for bench/run. use: entry COUNT, or
 * entry size for the record's bytes. */
#include <stdio.h>
#include <stdlib.h>
#include <string.h>
#include EVENTS

int main(int argc, char **argv) {
    if (argc > 1 && strcmp(argv[1], "size") == 0) return printf("%zu\n", record_size()) < 0;
    long n = argc > 1 ? atol(argv[1]) : 1000000;
    uint8_t buffer[192];
    unsigned long sum = 0;
    begin();
    for (long i = 0; i < n; i++) {
        unsigned k = (unsigned)(i % 16);
        if (k == 0) sum += event_write(0x3E, i % 64 ? 0x40 : 0x80);
        else if (k == 1) sum += event_write(0x0F, (uint8_t)(i >> 4));
        else if (k == 2) sum += event_read(0x02, buffer, 6) + buffer[1];
        else if (k == 3) sum += event_read(0x0E, buffer, 1) + buffer[0];
        else if (k == 4) sum += event_read(0x3F, buffer, 36) + buffer[3];
        else if (k % 2) sum += event_sample((int16_t)(i % 4096 - 2048), (int16_t)(i % 97), (int16_t)-(i % 89), (uint8_t)i);
        else sum += event_cycle();
    }
    printf("%lu\n", sum);
    return 0;
}
