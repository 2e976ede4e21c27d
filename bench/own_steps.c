/* Steps over byte keys through the library for C: each looks at a key of 16 bytes and writes it, a value of 100.
 *
 *     cc -std=c11 -O2 -Ic bench/own_steps.c build/libhidewillow_c.a -o own_steps && ./own_steps STEPS
 */
#include <inttypes.h>
#include <stdio.h>
#include <stdlib.h>
#include <string.h>

#include "hidewillow.h"

enum { KEYS = 100, KEY_BYTES = 16, VALUE_BYTES = 100 };

/* Ends the program where a call is told something else. */
static void must(hidewillow_told told, uint32_t answer) {
    if (told.answer != answer) {
        fprintf(stderr, "answer %" PRIu32 " in place of %" PRIu32 "\n", told.answer, answer);
        exit(1);
    }
}

/* A step of a key, whose value says in each byte how often it was written. */
static void take(hidewillow_own *own, uint64_t number) {
    uint8_t key[KEY_BYTES] = {0}, value[VALUE_BYTES] = {0};
    memcpy(key, &number, sizeof number);
    hidewillow_own_value(own, key, sizeof key, value, sizeof value);
    memset(value, value[0] + 1, sizeof value);
    must(hidewillow_own_look(own, key, sizeof key), HIDEWILLOW_WRITTEN);
    must(hidewillow_own_put(own, key, sizeof key, value, sizeof value), HIDEWILLOW_WRITTEN);
    must(hidewillow_own_take(own), HIDEWILLOW_STEPPED);
}

int main(int count, char **words) {
    uint64_t steps = count > 1 ? strtoull(words[1], NULL, 10) : 0;
    hidewillow_own own = {NULL};
    must(hidewillow_own_open(&own, 7, 1, 1), HIDEWILLOW_OPENED);
    for (uint64_t turn = 0; turn < steps; turn++)
        take(&own, turn % KEYS);
    hidewillow_own_close(&own);
    return 0;
}
