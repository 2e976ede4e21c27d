/* A process goes on from a guess, which comes out right once, and wrong once. */
#include "hidewillow.h"

#include <stdio.h>
#include <string.h>

static const char start[] =
    "script main\n"
    "fetch /x\n"
    "say\n"
    "end\n"
    "copy /x 3 \"old\"\n"
    "process 1 main 1\n";

static const uint8_t *bytes(const char *text) { return (const uint8_t *)text; }

/* Makes the call of a line, and prints its answer. */
static hidewillow_told line(hidewillow_handle *kernel, const char *text)
{
    uint8_t room[64] = {0};
    hidewillow_told told = hidewillow_line(kernel, bytes(text), strlen(text), room, sizeof room);
    printf("%-13s %.*s\n", text, (int)told.bytes, (const char *)room);
    return told;
}

/* Prints what is told of the first process, of terminal 1, and of the whole. */
static int look(hidewillow_handle *kernel)
{
    uint8_t room[4096] = {0};
    hidewillow_counted counts = {0};
    hidewillow_told told = hidewillow_value(kernel, bytes("proc 1"), 6, room, sizeof room);
    printf("value: %.*s\n", (int)told.bytes, (const char *)room);
    told = hidewillow_tags(kernel, bytes("proc 1"), 6, room, sizeof room);
    printf("tags: %.*s\n", (int)told.bytes, (const char *)room);
    told = hidewillow_value(kernel, bytes("proc 9"), 6, room, sizeof room);
    if (told.answer != HIDEWILLOW_ABSENT) return 0;
    told = hidewillow_terminal(kernel, 1, room, sizeof room);
    printf("%.*s", (int)told.bytes, (const char *)room);
    told = hidewillow_counts(kernel, &counts);
    printf("guesses %zu steps %zu most open %zu notes %zu\n", counts.guesses, counts.steps, counts.most_open, counts.notes);
    return told.answer == HIDEWILLOW_SHOWN;
}

/* Prints the report. */
static int report(hidewillow_handle *kernel)
{
    uint8_t room[4096] = {0};
    hidewillow_told told = hidewillow_report(kernel, room, sizeof room);
    if (told.answer != HIDEWILLOW_SHOWN || told.bytes > sizeof room) return 0;
    fwrite(room, 1, told.bytes, stdout);
    return puts("") >= 0;
}

/* Goes on from a guess, which is decided so. */
static int play(hidewillow_handle *kernel, const char *decision)
{
    char end[40];
    hidewillow_told guess = line(kernel, "guess 1 good");
    line(kernel, "step 1 none");
    line(kernel, "step 9 none");
    if (!look(kernel)) return 0;
    snprintf(end, sizeof end, "%s %llu", decision, (unsigned long long)guess.number);
    line(kernel, end);
    line(kernel, end);
    return report(kernel);
}

/* Prints where the first fault of a text stands, so many lines further up, and what is wrong there. */
static int fault(const char *call, const char *text, unsigned above)
{
    uint8_t room[1024] = {0};
    hidewillow_fault_place place = {0};
    hidewillow_told told = hidewillow_fault(bytes(text), strlen(text), &place, room, sizeof room);
    if (told.answer != HIDEWILLOW_FAULT || told.bytes > sizeof room) return 0;
    unsigned long long line = place.line - above;
    return printf("%s: answer %u, %llu:%zu: %.*s\n", call, told.answer, line, place.column, (int)told.bytes, (const char *)room) > 0;
}

int main(void)
{
    hidewillow_handle kernel = {0};
    const char *decisions[] = {"commit", "fail"};
    for (int i = 0; i < 2; i++) {
        hidewillow_told told = hidewillow_open(&kernel, bytes(start), strlen(start));
        if (told.answer != HIDEWILLOW_OPENED) return 1;
        int is_played = play(&kernel, decisions[i]);
        hidewillow_close(&kernel);
        if (!is_played) return 1;
    }
    uint8_t none = 0;
    hidewillow_told told = hidewillow_report(&kernel, &none, 0);
    if (told.answer != HIDEWILLOW_CLOSED) return 1;
    told = hidewillow_open(&kernel, bytes("oops\n"), 5);
    if (told.answer != HIDEWILLOW_FAULT || !fault("open", "oops\n", 0)) return 1;
    return !fault("line", "steps\nguess one good", 1);
}
