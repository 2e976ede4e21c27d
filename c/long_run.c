/* As many events as it is told, ten million where it is told nothing, in bounded memory, by a desk and then by a kernel of
 * scripts: epochs end as they go, and the texts of each are counted. The desk's server is in the same process, and finds each
 * copy good, but every hundredth; so do the guesses of the kernel come out. Half of what the other process does it does leased.
 *
 *     long_run [desk|play [EVENTS]] */
#include "hidewillow.h"

#include <stdio.h>
#include <stdlib.h>
#include <string.h>
#include <sys/resource.h>

static const char start[] =
    "script computes\n"
    "top:\n"
    "add r1 r2\n"
    "jump top\n"
    "end\n"
    "script reads\n"
    "top:\n"
    "fetch /x\n"
    "say\n"
    "jump top\n"
    "end\n"
    "copy /x 3 \"old\"\n"
    "process 1 computes 1\n"
    "process 2 reads 2\n"
    "limit 101000\n";

/* Of each round; and of each epoch, if no more than the trace may have. */
enum { STEPS = 995, LEASED = 500, ROUNDS = 100, ROOM = 4096 };

/* More than this, in kilobytes, is not to be taken. */
static const long memory_limit = 32 * 1024;

static const uint8_t *bytes(const char *text) { return (const uint8_t *)text; }

/* What was done so far. */
typedef struct { uint64_t events, rounds, texts; } counted;

/* ---- a desk */

static int turn(hidewillow_desk *desk, const char *process)
{
    return hidewillow_desk_turn(desk, bytes(process), 1).answer <= HIDEWILLOW_GUESSED;
}

/* The request that waits is answered, and its reply is given. */
static int answer(hidewillow_desk *desk, int is_good)
{
    static uint8_t room[ROOM], out[HIDEWILLOW_REPLY_BYTES];
    hidewillow_request request;
    hidewillow_told told = hidewillow_desk_request(desk, room, sizeof room);
    if (told.answer != HIDEWILLOW_SHOWN || !hidewillow_request_of(room, told.bytes, &request)) return 0;
    uint64_t kind = is_good ? HIDEWILLOW_IS_YES : HIDEWILLOW_IS_NO, version = is_good ? 0 : request.version + 1;
    size_t count = hidewillow_reply_to(out, request.number, kind, version, bytes("new"), is_good ? 0 : 3);
    told = hidewillow_desk_reply(desk, out, count);
    return told.answer == (is_good ? HIDEWILLOW_COMMITTED : HIDEWILLOW_FAILED);
}

/* A guess and what is said under it, steps of another process, and the decision. How many events that were, or 0. */
static uint64_t desk_round(hidewillow_desk *desk, int is_good)
{
    uint64_t events = STEPS + 4;
    if (!turn(desk, "2") || !turn(desk, "2")) return 0;
    hidewillow_told leased = hidewillow_desk_lease(desk, bytes("1"), 1, LEASED);
    if (leased.answer != HIDEWILLOW_STEPPED || leased.number != LEASED) return 0;
    for (int i = LEASED; i < STEPS; i++)
        if (!turn(desk, "1")) return 0;
    if (!answer(desk, is_good)) return 0;
    if (!is_good) {
        if (!turn(desk, "2") || !turn(desk, "2")) return 0;
        events += 2;
    }
    return turn(desk, "2") ? events : 0;
}

/* How many texts the process said in the epoch that ended. */
static uint64_t texts_left(hidewillow_desk *desk)
{
    uint8_t room[ROOM] = {0};
    uint64_t count = 0;
    while (hidewillow_desk_left(desk, 2, count, room, sizeof room).answer == HIDEWILLOW_SHOWN) count++;
    return count;
}

static int desk_epoch(hidewillow_desk *desk, counted *done)
{
    for (int i = 0; i < ROUNDS; i++) {
        uint64_t more = desk_round(desk, ++done->rounds % 100 != 0);
        if (!more) return 0;
        done->events += more;
    }
    if (hidewillow_desk_epoch(desk).answer != HIDEWILLOW_DONE) return 0;
    done->texts += texts_left(desk);
    return 1;
}

static int run_desk(uint64_t wanted, counted *done)
{
    char text[sizeof start + 6];
    hidewillow_desk desk = {0};
    snprintf(text, sizeof text, "%sworld\n", start);
    if (hidewillow_desk_open(&desk, bytes(text), strlen(text)).answer != HIDEWILLOW_OPENED) return 0;
    int is_well = 1;
    while (is_well && done->events < wanted) is_well = desk_epoch(&desk, done);
    hidewillow_desk_close(&desk);
    return is_well && done->texts == done->rounds;
}

/* ---- a kernel of scripts */

static hidewillow_told line(hidewillow_handle *kernel, const char *text)
{
    uint8_t room[64] = {0};
    return hidewillow_line(kernel, bytes(text), strlen(text), room, sizeof room);
}

/* The same round. */
static uint64_t play_round(hidewillow_handle *kernel, int is_good)
{
    char decision[40];
    hidewillow_told guess = line(kernel, "guess 2 good");
    if (guess.answer != HIDEWILLOW_GUESSED || line(kernel, "step 2 none").answer != HIDEWILLOW_STEPPED) return 0;
    hidewillow_told leased = hidewillow_lease(kernel, bytes("1"), 1, LEASED);
    if (leased.answer != HIDEWILLOW_STEPPED || leased.number != LEASED) return 0;
    for (int i = LEASED; i < STEPS; i++)
        if (line(kernel, "step 1 none").answer != HIDEWILLOW_STEPPED) return 0;
    snprintf(decision, sizeof decision, "%s %llu", is_good ? "commit" : "fail", (unsigned long long)guess.number);
    if (line(kernel, decision).answer != HIDEWILLOW_DONE) return 0;
    if (!is_good) return STEPS + 3;
    return line(kernel, "step 2 none").answer == HIDEWILLOW_STEPPED ? STEPS + 4 : 0;
}

static int play_epoch(hidewillow_handle *kernel, counted *done)
{
    uint8_t room[ROOM] = {0};
    uint64_t events = 0, texts = 0;
    for (int i = 0; i < ROUNDS; i++) {
        uint64_t more = play_round(kernel, ++done->rounds % 100 != 0);
        if (!more) return 0;
        events += more;
    }
    while (hidewillow_released(kernel, 2, texts, room, sizeof room).answer == HIDEWILLOW_SHOWN) texts++;
    hidewillow_told told = hidewillow_epoch(kernel);
    done->texts += texts;
    done->events += events;
    return told.answer == HIDEWILLOW_DONE && told.number == events;
}

static int run_play(uint64_t wanted, counted *done)
{
    hidewillow_handle kernel = {0};
    if (hidewillow_open(&kernel, bytes(start), strlen(start)).answer != HIDEWILLOW_OPENED) return 0;
    int is_well = 1;
    while (is_well && done->events < wanted) is_well = play_epoch(&kernel, done);
    hidewillow_close(&kernel);
    return is_well && done->texts == done->rounds - done->rounds / 100;
}

/* ---- both */

static int run(const char *name, int (*what)(uint64_t, counted *), uint64_t wanted)
{
    counted done = {0};
    if (!what(wanted, &done)) return 0;
    unsigned long long events = done.events, rounds = done.rounds, texts = done.texts;
    return printf("%s: events %llu rounds %llu texts %llu\n", name, events, rounds, texts) > 0;
}

int main(int words, char **word)
{
    const char *only = words > 1 ? word[1] : NULL;
    uint64_t wanted = words > 2 ? strtoull(word[2], NULL, 10) : 10000000;
    struct rusage used;
    if ((!only || !strcmp(only, "desk")) && !run("desk", run_desk, wanted)) return 1;
    if ((!only || !strcmp(only, "play")) && !run("play", run_play, wanted)) return 1;
    if (getrusage(RUSAGE_SELF, &used)) return 1;
    puts(used.ru_maxrss < memory_limit ? "the memory stayed in its bound" : "more memory than there is to be");
    return 0;
}
