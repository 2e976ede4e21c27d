/* Plays the scenario of standard input call by call, and prints what `speculate play -` prints; with
 * --counts the counts too. */
#include "hidewillow.h"

#include <stdio.h>
#include <stdlib.h>
#include <string.h>

/* All of standard input, which the caller frees. */
static uint8_t *input(size_t *bytes)
{
    size_t room = 1 << 16;
    uint8_t *text = malloc(room);
    *bytes = 0;
    while (text) {
        *bytes += fread(text + *bytes, 1, room - *bytes, stdin);
        if (*bytes < room) return text;
        uint8_t *more = realloc(text, room *= 2);
        if (!more) free(text);
        text = more;
    }
    return NULL;
}

/* The place behind the line that begins here. */
static const uint8_t *next(const uint8_t *at, const uint8_t *end)
{
    const uint8_t *feed = memchr(at, '\n', (size_t)(end - at));
    return feed ? feed + 1 : end;
}

/* Whether the first word of a line is this one. */
static int begins(const uint8_t *at, const uint8_t *end, const char *word)
{
    size_t length = strlen(word);
    while (at < end && (*at == ' ' || *at == '\t')) at++;
    if ((size_t)(end - at) < length || memcmp(at, word, length)) return 0;
    return at + length == end || strchr(" \t\r\n", at[length]) != NULL;
}

/* The place behind the line that begins a section, or the end. */
static const uint8_t *section(const uint8_t *at, const uint8_t *end)
{
    for (; at < end; at = next(at, end)) {
        const uint8_t *behind = next(at, end);
        if (begins(at, behind, "steps") || begins(at, behind, "world")) return behind;
    }
    return end;
}

/* The length of the line that begins here, without its end. */
static size_t length(const uint8_t *at, const uint8_t *behind)
{
    size_t bytes = (size_t)(behind - at);
    if (bytes > 0 && at[bytes - 1] == '\n') {
        bytes--;
        if (bytes > 0 && at[bytes - 1] == '\r') bytes--;
    }
    return bytes;
}

/* Makes the calls of the lines, and prints a line for each answer. */
static int play(hidewillow_handle *handle, const uint8_t *at, const uint8_t *end)
{
    for (unsigned long number = 1; at < end; at = next(at, end)) {
        uint8_t room[64] = {0};
        size_t bytes = length(at, next(at, end));
        hidewillow_told told = hidewillow_line(handle, at, bytes, room, sizeof room);
        if (told.answer == HIDEWILLOW_FAULT || told.answer == HIDEWILLOW_MEMORY) return 0;
        if (told.answer == HIDEWILLOW_NOTHING) continue;
        printf("%lu %.*s\n", number++, (int)told.bytes, (const char *)room);
    }
    return 1;
}

/* Prints the report, for which it asks twice: first for its length. */
static int report(hidewillow_handle *handle)
{
    uint8_t none = 0;
    hidewillow_told told = hidewillow_report(handle, &none, 0);
    uint8_t *room = calloc(told.bytes + 1, 1);
    if (!room) return 0;
    told = hidewillow_report(handle, room, told.bytes);
    fwrite(room, 1, told.bytes, stdout);
    free(room);
    return told.answer == HIDEWILLOW_SHOWN;
}

/* Prints the counts. */
static int counts(hidewillow_handle *handle)
{
    hidewillow_counted it = {0};
    hidewillow_told told = hidewillow_counts(handle, &it);
    if (told.answer != HIDEWILLOW_SHOWN) return 0;
    puts("counts");
    printf("guesses %zu committed %zu failed %zu struck %zu\n", it.guesses, it.committed, it.failed, it.struck);
    printf("steps %zu back %zu open %zu\n", it.steps, it.taken_back, it.most_open);
    return printf("notes %zu\n", it.notes) > 0;
}

int main(int words, char **word)
{
    int is_counted = words > 1 && !strcmp(word[1], "--counts");
    size_t bytes;
    uint8_t *text = input(&bytes);
    if (!text) return 3;
    const uint8_t *end = text + bytes;
    const uint8_t *lines = section(text, end);
    hidewillow_handle handle = {0};
    hidewillow_told told = hidewillow_open(&handle, text, (size_t)(lines - text));
    int is_played = told.answer == HIDEWILLOW_OPENED;
    if (is_played) {
        is_played = play(&handle, lines, end) && report(&handle) && (!is_counted || counts(&handle));
        hidewillow_close(&handle);
    }
    free(text);
    return is_played ? 0 : 1;
}
