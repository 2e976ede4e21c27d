/* What large sets of guesses leave: in each kernel 64 guesses that rest on one another, keys that rest on all of them, and
 * commits of all but four, the oldest first. The kernels stay open, so the peak of many beside that of one tells what each leaves.
 *
 *     cc -std=c11 -O2 -Ic bench/own_shrunk.c build/libhidewillow_c.a -o own_shrunk && ./own_shrunk KERNELS
 */
#include <inttypes.h>
#include <stdio.h>
#include <stdlib.h>

#include "hidewillow.h"

enum { MOST = 8, OPEN = 64, LEFT = 4, KEYS = 20000 };

/* Ends the program where a call is told something else. */
static hidewillow_told must(hidewillow_told told, uint32_t answer) {
    if (told.answer != answer) {
        fprintf(stderr, "answer %" PRIu32 " in place of %" PRIu32 "\n", told.answer, answer);
        exit(1);
    }
    return told;
}

/* A step that looks at key 0 and writes a key. */
static void draft(hidewillow_own *own, uint32_t key) {
    const uint32_t home = 0;
    must(hidewillow_own_look(own, (const uint8_t *)&home, sizeof home), HIDEWILLOW_WRITTEN);
    must(hidewillow_own_put(own, (const uint8_t *)&key, sizeof key, (const uint8_t *)"1", 1), HIDEWILLOW_WRITTEN);
}

static void shrink(hidewillow_own *own) {
    uint64_t guesses[OPEN];
    for (int i = 0; i < OPEN; i++) {
        draft(own, 0);
        guesses[i] = must(hidewillow_own_guess(own), HIDEWILLOW_GUESSED).number;
    }
    for (uint32_t key = 1; key <= KEYS; key++) {
        draft(own, key);
        must(hidewillow_own_take(own), HIDEWILLOW_STEPPED);
    }
    for (int i = 0; i < OPEN - LEFT; i++)
        must(hidewillow_own_commit(own, guesses[i]), HIDEWILLOW_DONE);
}

int main(int count, char **words) {
    int kernels = count > 1 ? atoi(words[1]) : 1;
    static hidewillow_own owns[MOST];
    for (int i = 0; i < kernels && i < MOST; i++) {
        must(hidewillow_own_open(&owns[i], (uint64_t)i + 1, OPEN, 1), HIDEWILLOW_OPENED);
        shrink(&owns[i]);
    }
    for (int i = 0; i < kernels && i < MOST; i++)
        hidewillow_own_close(&owns[i]);
    return 0;
}
