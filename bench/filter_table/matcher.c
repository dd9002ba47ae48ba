/* Matches one event after the other against sixteen filters: the conditions of crates/filter_table, in the same order. */
#include <stdint.h>
#include <stdio.h>
#include <stdlib.h>
#include <string.h>

static int fits(const uint8_t *test, uint8_t value)
{
    uint8_t wrong = (value & test[0]) ^ test[2], exact = test[1];
    return (wrong & exact) == 0 && (exact == 0xFF || (uint8_t)(wrong | exact) != 0xFF);
}

static int takes(uint8_t wanted, uint8_t value)
{
    return wanted == 0xFF || wanted == value;
}

static int matches(const uint8_t filter[20], const uint8_t event[16])
{
    return filter[0] >> 7 && event[2] == 0x02
        && takes(filter[4], event[7]) && takes(filter[5], event[8]) && takes(filter[6], event[10])
        && takes(filter[7], event[11]) && takes(filter[8], event[12])
        && (filter[9] | filter[10] << 8) >> event[13] % 16 & 1
        && fits(filter + 11, event[13]) && fits(filter + 14, event[14]) && fits(filter + 17, event[15]);
}

/* usage: matcher usual|worst EVENTS */
int main(int argc, char **argv)
{
    static const uint8_t usual[20] = {0x80, 0x20, 0x00, 0x10, 0xFF, 0xFF, 0x04, 0xFF, 0x01, 0xFF, 0xFF};
    static const uint8_t worst[20] = {0x80, 0x20, 0x00, 0x10, 0x20, 0x00, 0x04, 0x30, 0x01, 0xFF, 0xFF,
        0xFF, 0x00, 0xFF, 0xFF, 0xF0, 0x10, 0xFF, 0x0F, 0x50};
    uint8_t filters[16][20], event[16] = {0x01, 0x00, 0x02, 0x00, 0xCA, 0x9A, 0x3B, 0x20, 0x00, 0x04, 0x04, 0x30, 0x01, 0x52, 0x10, 0x20};
    if (argc != 3) return 2;
    int is_worst = strcmp(argv[1], "worst") == 0;
    uint32_t events = (uint32_t)strtoul(argv[2], NULL, 10);
    for (int n = 0; n < 16; n++) {
        memcpy(filters[n], is_worst ? worst : usual, 20);
        if (!is_worst) filters[n][6] = (uint8_t)(n + 1);
    }
    uint64_t sum = 0;
    for (uint32_t i = 0; i < events; i++) {
        event[is_worst ? 13 : 10] = (uint8_t)(i % 128);
        /* what the record's reader tests */
        uint16_t id = (uint16_t)(event[0] | event[1] << 8);
        if (id == 0 || id == 0xFFFF || (event[2] != 0x02 && event[2] < 0xC0)) continue;
        for (int n = 0; n < 16; n++) sum += (uint64_t)matches(filters[n], event);
    }
    printf("%llu\n", (unsigned long long)sum);
    return 0;
}
