/* Both calls from C. tests/from_c.rs of the Rust host compiles this, runs it, and knows what it must print. */
#include <inttypes.h>
#include <stdio.h>

#include "futeq.h"

/* Writes a day's quantity, the high byte first. */
static void put_day(uint8_t *at, uint64_t quantity) {
    for (int i = 0; i < 8; i++) {
        at[i] = (uint8_t)(quantity >> (56 - 8 * i));
    }
}

static void show_limit(const char *what, uint64_t free_float, const uint8_t *days, size_t length) {
    uint64_t limit = futeq_limit(free_float, days, length);
    if (limit == 0) {
        printf("%s: out of range\n", what);
    } else {
        printf("%s: a limit of %" PRIu64 " units\n", what, limit);
    }
}

static void show_charge(const char *what, uint64_t violated, uint64_t price) {
    uint64_t charge = futeq_charge(violated, price);
    if (charge == 0) {
        printf("%s: out of range\n", what);
    } else {
        printf("%s: a charge of %" PRIu64 " paise\n", what, charge);
    }
}

int main(void) {
    uint8_t days[3 * 8];
    put_day(days, 10);
    put_day(days + 8, 11);
    put_day(days + 16, 11);
    show_limit("three days", 5000, days, sizeof days);
    show_limit("a byte short", 5000, days, sizeof days - 1);
    show_limit("no day", 5000, days, 0);
    put_day(days, UINT64_C(10000000001));
    show_limit("a day too large", 5000, days, sizeof days);
    show_charge("some units", UINT64_C(1000000000), 1234);
    show_charge("the largest", UINT64_C(320000000000000), 100000000);
    show_charge("no quantity", 0, 1234);
    return 0;
}
