/* Accounts over the caller's own keys: transfers under guesses, a failure, and what is shown.
 *
 *     cc -std=c11 c/accounts.c build/libhidewillow_c.a -o accounts && ./accounts
 */
#include <inttypes.h>
#include <stdio.h>
#include <stdlib.h>
#include <string.h>

#include "hidewillow.h"

enum { CHANNEL = 1 };

static hidewillow_slice slice(const void *bytes, size_t count) {
    hidewillow_slice it = {bytes, count};
    return it;
}

static hidewillow_slice text(const char *it) { return slice(it, strlen(it)); }

/* Ends the program where a call is told something else. */
static hidewillow_told must(hidewillow_told told, uint32_t answer) {
    if (told.answer != answer) {
        fprintf(stderr, "answer %" PRIu32 " in place of %" PRIu32 "\n", told.answer, answer);
        exit(1);
    }
    return told;
}

static int64_t balance(hidewillow_own *own, const char *name) {
    int64_t it = 0;
    uint8_t room[sizeof it] = {0};
    hidewillow_slice key = text(name);
    if (hidewillow_own_value(own, key.bytes, key.count, room, sizeof room).answer == HIDEWILLOW_SHOWN)
        memcpy(&it, room, sizeof it);
    return it;
}

/* Writes a transfer as a step: it looks at both accounts, writes both, and says what it did. */
static void write_transfer(hidewillow_own *own, const char *from, const char *to, int64_t amount) {
    int64_t left = balance(own, from) - amount, more = balance(own, to) + amount;
    char line[80];
    int length = snprintf(line, sizeof line, "%s pays %s %" PRId64, from, to, amount);
    hidewillow_slice looked[] = {text(from), text(to)};
    hidewillow_write written[] = {{text(from), slice(&left, sizeof left)},
                                  {text(to), slice(&more, sizeof more)}};
    hidewillow_output said = {CHANNEL, slice(line, (size_t)length)};
    hidewillow_step step = {looked, 2, written, 2, NULL, 0, &said};
    must(hidewillow_own_step(own, &step), HIDEWILLOW_WRITTEN);
}

static void transfer(hidewillow_own *own, const char *from, const char *to, int64_t amount) {
    write_transfer(own, from, to, amount);
    must(hidewillow_own_take(own), HIDEWILLOW_STEPPED);
}

static uint64_t guess_transfer(hidewillow_own *own, const char *from, const char *to, int64_t amount) {
    write_transfer(own, from, to, amount);
    return must(hidewillow_own_guess(own), HIDEWILLOW_GUESSED).number;
}

/* Shows what can go out. An output that is longer than the room stays, and is told again. */
static void show_outputs(hidewillow_own *own) {
    uint8_t room[80] = {0};
    size_t bytes = 8;
    for (;;) {
        hidewillow_told told = hidewillow_own_released(own, CHANNEL, room, bytes);
        if (told.answer != HIDEWILLOW_SHOWN)
            return;
        if (told.bytes <= bytes)
            printf("  out: %.*s\n", (int)told.bytes, (const char *)room);
        bytes = told.bytes <= bytes ? 8 : sizeof room;
    }
}

static void show(hidewillow_own *own, const char *when) {
    static const char *names[] = {"ann", "bob", "cy"};
    printf("%s:", when);
    for (size_t i = 0; i < 3; i++) {
        hidewillow_slice key = text(names[i]);
        printf(" %s %" PRId64, names[i], balance(own, names[i]));
        for (size_t place = 0;; place++) {
            hidewillow_told told = hidewillow_own_tag(own, key.bytes, key.count, place);
            if (told.answer != HIDEWILLOW_SHOWN)
                break;
            printf("%s%" PRIu64, place == 0 ? " if " : ",", told.number);
        }
        printf(i < 2 ? "," : "\n");
    }
    show_outputs(own);
}

int main(void) {
    hidewillow_own own = {0};
    uint8_t room[16] = {0};
    must(hidewillow_own_open(&own, 1, 0, 42), HIDEWILLOW_REFUSED); /* no guess could be drawn */
    must(hidewillow_own_open(&own, 1, 64, 42), HIDEWILLOW_OPENED);
    transfer(&own, "bank", "ann", 100);
    transfer(&own, "bank", "cy", 10);
    show(&own, "paid in");
    uint64_t wages = guess_transfer(&own, "ann", "bob", 30);
    uint64_t rent = guess_transfer(&own, "bob", "cy", 5);
    show(&own, "two guesses");
    transfer(&own, "cy", "ann", 1);
    show(&own, "a step behind them");
    hidewillow_told told = must(hidewillow_own_fail(&own, wages), HIDEWILLOW_DONE);
    printf("the first fails: %" PRIu64 " keys, %zu guess\n", told.number, told.bytes);
    for (size_t place = 0; place < told.number; place++) {
        hidewillow_told key = must(hidewillow_own_undone(&own, place, room, sizeof room), HIDEWILLOW_SHOWN);
        printf("  back: %.*s\n", (int)key.bytes, (const char *)room);
    }
    must(hidewillow_own_commit(&own, rent), HIDEWILLOW_GONE);
    show(&own, "after it");
    uint64_t again = guess_transfer(&own, "ann", "bob", 20);
    must(hidewillow_own_commit(&own, again), HIDEWILLOW_DONE);
    show(&own, "a guess that holds");
    hidewillow_own_close(&own);
    return 0;
}
