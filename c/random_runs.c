/* Random runs of kernels over byte strings, each call and what it told printed: rust/examples/random_runs.rs prints the same of
 * the same runs, and its crate's tests hold that against a plain list.
 *
 *     cc -std=c11 c/random_runs.c build/libhidewillow_c.a -o random_runs && ./random_runs 300
 */
#include <inttypes.h>
#include <stdio.h>
#include <stdlib.h>
#include <string.h>

#include "hidewillow.h"

enum { LIMIT = 5, CHANNELS = 3, EVENTS = 40, KEYS = 9, ROOM = 16384, LONGEST = 700 };

static uint64_t state;

/* Numbers that look random (splitmix64). */
static size_t roll(size_t below) {
    state += UINT64_C(0x9E3779B97F4A7C15);
    uint64_t x = state;
    x = (x ^ (x >> 30)) * UINT64_C(0xBF58476D1CE4E5B9);
    x = (x ^ (x >> 27)) * UINT64_C(0x94D049BB133111EB);
    return (size_t)((x ^ (x >> 31)) % below);
}

/* A key is so many bytes of its letter. */
static const size_t key_bytes[KEYS] = {0, 1, 1, 1, 1, 64, 65, LONGEST, LONGEST};
static const size_t value_bytes[] = {0, 1, 8, 4096, 4097, 9000};
static uint8_t keys[KEYS][LONGEST];

static hidewillow_slice key_of(size_t place) {
    hidewillow_slice it = {keys[place], key_bytes[place]};
    return it;
}

/* Ends the program where a call is told something else. */
static hidewillow_told must(hidewillow_told told, uint32_t answer) {
    if (told.answer != answer) {
        fprintf(stderr, "answer %" PRIu32 " in place of %" PRIu32 "\n", told.answer, answer);
        exit(1);
    }
    return told;
}

/* What the parts of a step are made of. */
typedef struct {
    hidewillow_slice looked[3], removed[3];
    hidewillow_write written[3];
    uint8_t values[3][9000];
    char said[16];
    hidewillow_output output;
    hidewillow_step step;
} parts;

static void roll_part(parts *it) {
    hidewillow_slice key = key_of(roll(KEYS));
    size_t kind = roll(4), count = it->step.written_count;
    if (kind == 0) {
        it->looked[it->step.looked_count++] = key;
    } else if (kind == 1) {
        it->removed[it->step.removed_count++] = key;
    } else {
        size_t bytes = value_bytes[roll(6)];
        memset(it->values[count], (int)('a' + roll(26)), bytes);
        hidewillow_write write = {key, {it->values[count], bytes}};
        it->written[it->step.written_count++] = write;
    }
}

static const hidewillow_step *roll_step(parts *it, size_t event) {
    memset(&it->step, 0, sizeof it->step);
    it->step.looked = it->looked, it->step.written = it->written, it->step.removed = it->removed;
    for (size_t left = roll(4); left > 0; left--) roll_part(it);
    if (roll(3) == 0) {
        int bytes = snprintf(it->said, sizeof it->said, "at %zu", event);
        it->output.channel = (uint16_t)roll(CHANNELS);
        it->output.output.bytes = (const uint8_t *)it->said;
        it->output.output.count = (size_t)bytes;
        it->step.said = &it->output;
    }
    return &it->step;
}

static void show(const char *what, const uint8_t *bytes, size_t count) {
    printf(" %s:%zu", what, count);
    if (count > 0) printf("%c%c", bytes[0], bytes[count - 1]);
}

static int by_place(const void *a, const void *b) { return *(const int *)a - *(const int *)b; }

/* Prints the keys that a failure took back, by their places. */
static void show_undone(hidewillow_own *own, uint64_t count) {
    static uint8_t room[ROOM];
    int places[KEYS];
    size_t many = 0;
    for (uint64_t i = 0; i < count && many < KEYS; i++) {
        hidewillow_told told = must(hidewillow_own_undone(own, (size_t)i, room, ROOM), HIDEWILLOW_SHOWN);
        for (size_t place = 0; place < KEYS; place++)
            if (told.bytes == key_bytes[place] && memcmp(room, keys[place], told.bytes) == 0)
                places[many++] = (int)place;
    }
    qsort(places, many, sizeof *places, by_place);
    for (size_t i = 0; i < many; i++) printf(" %d", places[i]);
}

static void decide(hidewillow_own *own, uint64_t guess) {
    if (roll(2) == 0) {
        printf("%s\n", hidewillow_own_commit(own, guess).answer == HIDEWILLOW_DONE ? "committed" : "gone");
        return;
    }
    hidewillow_told told = hidewillow_own_fail(own, guess);
    if (told.answer != HIDEWILLOW_DONE) {
        printf("gone\n");
        return;
    }
    printf("failed");
    show_undone(own, told.number);
    printf(", %zu struck\n", told.bytes);
}

/* Prints what all keys have and depend on, what goes out, and the counts. */
static void look_at_all(hidewillow_own *own) {
    static uint8_t room[ROOM];
    hidewillow_own_counted counts = {0};
    for (size_t place = 0; place < KEYS; place++) {
        hidewillow_slice key = key_of(place);
        hidewillow_told told = hidewillow_own_value(own, key.bytes, key.count, room, ROOM);
        if (told.answer == HIDEWILLOW_SHOWN) show("value", room, told.bytes);
        else printf(" absent");
        for (size_t at = 0;; at++) {
            told = hidewillow_own_tag(own, key.bytes, key.count, at);
            if (told.answer != HIDEWILLOW_SHOWN) break;
            printf("/%" PRIu64, told.number);
        }
    }
    for (uint16_t channel = 0; channel < CHANNELS; channel++)
        for (;;) {
            hidewillow_told told = hidewillow_own_released(own, channel, room, ROOM);
            if (told.answer != HIDEWILLOW_SHOWN) break;
            printf(" out%u:%.*s", channel, (int)told.bytes, room);
        }
    must(hidewillow_own_counts(own, &counts), HIDEWILLOW_SHOWN);
    printf(" keys %zu undecided %zu struck %zu settled %" PRIu64 "\n", counts.keys, counts.undecided,
           counts.struck, counts.settled);
}

static void run(uint64_t seed) {
    static parts it;
    hidewillow_own own = {0};
    uint64_t guesses[EVENTS];
    size_t many = 0;
    state = seed;
    printf("run %" PRIu64 "\n", seed);
    must(hidewillow_own_open(&own, 1, LIMIT, seed), HIDEWILLOW_OPENED);
    for (size_t event = 0; event < EVENTS; event++) {
        size_t kind = roll(10);
        if (kind < 6) {
            must(hidewillow_own_step(&own, roll_step(&it, event)), HIDEWILLOW_WRITTEN);
            if (kind < 3) {
                must(hidewillow_own_take(&own), HIDEWILLOW_STEPPED);
                printf("stepped\n");
                continue;
            }
            hidewillow_told told = hidewillow_own_guess(&own);
            if (told.answer == HIDEWILLOW_GUESSED) guesses[many++] = told.number;
            printf(told.answer == HIDEWILLOW_GUESSED ? "guess %" PRIu64 "\n" : "refused %" PRIu64 "\n", told.number);
        } else if (kind < 9 && many > 0) {
            size_t place = roll(many);
            uint64_t guess = guesses[place];
            memmove(guesses + place, guesses + place + 1, (--many - place) * sizeof *guesses);
            decide(&own, guess);
        } else {
            look_at_all(&own);
        }
    }
    look_at_all(&own);
    hidewillow_own_close(&own);
}

int main(int argc, char **argv) {
    uint64_t runs = argc > 1 ? strtoull(argv[1], NULL, 10) : 300;
    for (size_t place = 0; place < KEYS; place++) memset(keys[place], (int)('a' + place), LONGEST);
    for (uint64_t seed = 1; seed <= runs; seed++) run(seed);
    return 0;
}
