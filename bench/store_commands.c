/* A store that takes as many commands as it is asked for, through the library for C, from one client, with a disk that is always
 * well. bench/store.py counts what that takes, and `checks/store-runs` looks that nothing wants memory which is there.
 *
 *     cc -std=c11 -O2 -Ic bench/store_commands.c build/libhidewillow_c.a -o store_commands
 *     ./store_commands set|get|recover|connect COUNT KEYS PRESENT BATCH
 *
 * It sets PRESENT keys of 16 bytes to values of 100 first. Then it sets or gets COUNT times over KEYS keys, where a batch has BATCH
 * commands; with `recover` it sets them and reads the log again; with `connect` COUNT channels come and go, as many at once as may.
 */
#include <inttypes.h>
#include <stdio.h>
#include <stdlib.h>
#include <string.h>

#include "hidewillow.h"

enum { KEY_BYTES = 16, HEAD_BYTES = 24, ROOM = 1 << 20, PIECE = 1 << 16, MOST_CHANNELS = 9999, SET_FIRST = 1000 };

/* What a request of a key begins with, and what stands behind the key where it is set. */
static const char GET[] = "*2\r\n$3\r\nGET\r\n$16\r\n", SET[] = "*3\r\n$3\r\nSET\r\n$16\r\n", END[] = "\r\n";
static const char VALUE[] = "\r\n$100\r\n0123456789012345678901234567890123456789012345678901234567890123456789"
                            "012345678901234567890123456789\r\n";

static const hidewillow_store_limits LIMITS = {
    .words = 1000, .bytes = 1000000, .line = 1000, .waiting = 10000000, .segment = UINT64_C(1) << 30,
    .undecided = 1000000, .commands = 1000000, .in_flight = 4,
};

/* A store with one client, and the frames that were written, where they are to be read again. */
typedef struct {
    hidewillow_store store;
    uint16_t channel;
    uint8_t *log;
    size_t logged, log_room;
} client;

static uint8_t room[ROOM];

/* Ends the program where a call is told something else. */
static hidewillow_told must(hidewillow_told told, uint32_t answer, const char *call) {
    if (told.answer != answer) {
        fprintf(stderr, "%s: answer %" PRIu32 " %" PRIu64 " in place of %" PRIu32 "\n", call, told.answer, told.number, answer);
        exit(1);
    }
    return told;
}

/* Ends the program where something does not hold. */
static void holds(int does, const char *what) {
    if (!does) {
        fprintf(stderr, "%s\n", what);
        exit(1);
    }
}

/* A request of a key is carried out. */
static void ask(client *of, const char *front, uint64_t number, const char *back) {
    uint8_t request[256];
    size_t begins = strlen(front), ends = strlen(back);
    memcpy(request, front, begins);
    for (size_t i = 0; i < KEY_BYTES; i++, number /= 16) request[begins + i] = (uint8_t)('a' + number % 16);
    memcpy(request + begins + KEY_BYTES, back, ends);
    size_t count = begins + KEY_BYTES + ends;
    hidewillow_told told = must(hidewillow_store_feed(&of->store, of->channel, request, count), HIDEWILLOW_DONE, "feed");
    holds(told.bytes == count && told.number == 1, "a command was not carried out");
}

/* What may go out is taken; something has to. */
static void take_out(client *of) {
    size_t all = 0, count;
    do {
        count = must(hidewillow_store_output(&of->store, of->channel, room, ROOM), HIDEWILLOW_DONE, "output").bytes;
        all += count;
    } while (count > 0);
    holds(all > 0, "a reply is missing");
}

/* Decides what may be decided. It stays a function of its own, so that what it takes can be counted alone. */
__attribute__((noinline)) void decide_all(client *of) {
    while (hidewillow_store_decide(&of->store).answer != HIDEWILLOW_ABSENT) {}
}

static void log_frame(client *of, size_t count) {
    if (of->log_room == 0) return;
    if (of->log_room - of->logged < count) {
        of->log_room = 2 * (of->log_room + count);
        of->log = realloc(of->log, of->log_room);
        holds(of->log != NULL, "out of memory");
    }
    memcpy(of->log + of->logged, room, count);
    of->logged += count;
}

/* What is logged is on the disk, and its replies are taken. */
static void sync_all(client *of) {
    hidewillow_frame_place place = {0};
    hidewillow_told told = hidewillow_store_take_frame(&of->store, room, ROOM, &place);
    if (told.answer == HIDEWILLOW_REFUSED && told.number == 6) return;
    if (told.answer == HIDEWILLOW_REFUSED && told.number == 3) {
        must(hidewillow_store_turn(&of->store), HIDEWILLOW_DONE, "turn");
        told = hidewillow_store_take_frame(&of->store, room, ROOM, &place);
    }
    must(told, HIDEWILLOW_DONE, "take_frame");
    log_frame(of, place.len);
    must(hidewillow_store_synced(&of->store, place.frame), HIDEWILLOW_DONE, "synced");
    decide_all(of);
    take_out(of);
}

static void set_all(client *of, uint64_t count, uint64_t keys, uint64_t batch) {
    for (uint64_t turn = 0; turn < count; turn++) {
        ask(of, SET, turn % keys, VALUE);
        if (turn % batch == batch - 1) sync_all(of);
    }
    sync_all(of);
}

static void get_all(client *of, uint64_t count, uint64_t keys) {
    for (uint64_t turn = 0; turn < count; turn++) {
        ask(of, GET, turn % keys, END);
        take_out(of);
    }
}

/* The log is read again: how many commands it has. It stays a function of its own, so that what it takes can be counted alone. */
__attribute__((noinline)) uint64_t recover(const client *of) {
    hidewillow_recovery log = {NULL};
    hidewillow_read_counted counts = {0};
    must(hidewillow_recovery_open(&log, 1), HIDEWILLOW_OPENED, "recovery_open");
    must(hidewillow_recovery_head(&log, 1, of->log, HEAD_BYTES), HIDEWILLOW_DONE, "recovery_head");
    for (size_t at = 0; at < of->logged; at += PIECE) {
        size_t left = of->logged - at;
        must(hidewillow_recovery_feed(&log, 1, of->log + at, left < PIECE ? left : PIECE), HIDEWILLOW_DONE, "recovery_feed");
    }
    must(hidewillow_recovery_end(&log, 0, 0, &counts), HIDEWILLOW_DONE, "recovery_end");
    hidewillow_recovery_close(&log);
    return counts.commands;
}

/* Channels come, as many as may be beside the one that there is, and go, so many in all. */
static void connect_all(client *of, uint64_t count) {
    static uint16_t others[MOST_CHANNELS];
    size_t many = 0;
    for (uint64_t turn = 0; turn < count; turn++) {
        others[many++] = (uint16_t)must(hidewillow_store_connect(&of->store), HIDEWILLOW_DONE, "connect").number;
        if (many < MOST_CHANNELS) continue;
        while (many > 0) must(hidewillow_store_hang_up(&of->store, others[--many]), HIDEWILLOW_DONE, "hang_up");
    }
}

/* An empty store, whose log begins in the room. */
static void open_store(client *of) {
    hidewillow_recovery nothing = {NULL};
    hidewillow_read_counted counts = {0};
    hidewillow_frame_place place = {0};
    must(hidewillow_recovery_open(&nothing, 1), HIDEWILLOW_OPENED, "recovery_open");
    must(hidewillow_recovery_end(&nothing, 0, 0, &counts), HIDEWILLOW_DONE, "recovery_end");
    must(hidewillow_store_open(&of->store, &nothing, &LIMITS, 7, room, ROOM, &place), HIDEWILLOW_OPENED, "open");
    log_frame(of, place.len);
    of->channel = (uint16_t)must(hidewillow_store_connect(&of->store), HIDEWILLOW_DONE, "connect").number;
}

static uint64_t number(int count, char **words, int place) { return count > place ? strtoull(words[place], NULL, 10) : 0; }

int main(int count, char **words) {
    const char *deed = count > 1 ? words[1] : "";
    uint64_t many = number(count, words, 2), keys = number(count, words, 3), present = number(count, words, 4);
    uint64_t batch = number(count, words, 5);
    client of = {.log_room = strcmp(deed, "recover") ? 0 : PIECE};
    of.log = malloc(PIECE);
    open_store(&of);
    if (present > 0) set_all(&of, present, present, SET_FIRST);
    if (!strcmp(deed, "set") || !strcmp(deed, "recover")) set_all(&of, many, keys, batch);
    else if (!strcmp(deed, "get")) get_all(&of, many, keys);
    else if (!strcmp(deed, "connect")) connect_all(&of, many);
    else holds(0, "usage: store_commands set|get|recover|connect COUNT KEYS PRESENT BATCH");
    if (!strcmp(deed, "recover")) holds(recover(&of) == present + many, "the log has other commands");
    hidewillow_store_close(&of.store);
    free(of.log);
    printf("%" PRIu64 " commands\n", many);
    return 0;
}
