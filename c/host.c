/* Plays a script of calls over the library for C, and compares each answer.
 *
 *     host [again] < SCRIPT
 *
 * A script has lines `> CALL ARGS`, each with a line `< ANSWER` behind it, as the random runs of a store print
 * them. Arguments are numbers, and bytes in hexadecimal digits, of which none are `-`. What has no answer
 * behind it is only called. The last line is `N calls, M wrong`; each wrong one is told of by its line.
 *
 * With the word `again` a call that is told MEMORY is made once more. A recovery that is told so has lost what
 * it read: it is read again from its start. Bytes of which fewer were taken than the script says are given on.
 * Where nothing of a request was done for want of memory, or it was not queued, its client is told so, and what
 * follows has other answers than the script: the play ends there. */
#include "hidewillow.h"

#include <inttypes.h>
#include <stdarg.h>
#include <stdio.h>
#include <stdlib.h>
#include <string.h>

enum { MOST_WORDS = 16, HEAD_BYTES = 24, TRIES = 1000 };

/* ---- bytes that grow */

typedef struct {
    uint8_t *bytes;
    size_t count;
    size_t room;
} buffer;

/* A block that grows; where that is refused once it is tried once more. */
static void *grown(void *block, size_t bytes) {
    void *more = realloc(block, bytes);
    if (!more)
        more = realloc(block, bytes);
    if (!more) {
        fputs("host: out of memory\n", stderr);
        exit(2);
    }
    return more;
}

static void reserve(buffer *to, size_t room) {
    if (to->room >= room && to->bytes)
        return;
    if (room < 2 * to->room)
        room = 2 * to->room;
    if (room < 64)
        room = 64;
    to->bytes = grown(to->bytes, room);
    memset(to->bytes + to->room, 0, room - to->room);
    to->room = room;
}

static void add(buffer *to, const void *bytes, size_t count) {
    reserve(to, to->count + count + 1);
    if (count)
        memcpy(to->bytes + to->count, bytes, count);
    to->count += count;
    to->bytes[to->count] = 0;
}

static void clear(buffer *to) {
    to->count = 0;
    reserve(to, 1);
    to->bytes[0] = 0;
}

static void add_text(buffer *to, const char *format, ...) {
    char text[128];
    va_list given;
    va_start(given, format);
    int count = vsnprintf(text, sizeof text, format, given);
    va_end(given);
    if (count > 0)
        add(to, text, (size_t)count);
}

static void add_hex(buffer *to, const uint8_t *bytes, size_t count) {
    add_text(to, " ");
    if (!count)
        add_text(to, "-");
    for (size_t i = 0; i < count; i++)
        add_text(to, "%02x", bytes[i]);
}

/* A line without its end; whether there is one. */
static int read_line(FILE *from, buffer *line) {
    int byte;
    clear(line);
    while ((byte = getc(from)) != EOF && byte != '\n') {
        uint8_t one = (uint8_t)byte;
        add(line, &one, 1);
    }
    return byte != EOF || line->count;
}

/* ---- the words of a call */

typedef struct {
    char *at[MOST_WORDS];
    size_t count;
    size_t line;
} words;

static void split(buffer *line, words *call) {
    char *at = strtok((char *)line->bytes, " ");
    call->count = 0;
    for (; at && call->count < MOST_WORDS; at = strtok(NULL, " "))
        call->at[call->count++] = at;
}

static void wrong_script(const words *call, const char *why) {
    fprintf(stderr, "host: line %zu: %s\n", call->line, why);
    exit(2);
}

static const char *word(const words *call, size_t place) {
    if (place >= call->count)
        wrong_script(call, "a word is missing");
    return call->at[place];
}

static uint64_t number(const words *call, size_t place) {
    const char *text = word(call, place);
    char *end;
    uint64_t value = strtoull(text, &end, 10);
    if (end == text || *end)
        wrong_script(call, "a number is wanted");
    return value;
}

static unsigned digit(const words *call, char of) {
    if (of >= '0' && of <= '9')
        return (unsigned)(of - '0');
    if (of >= 'a' && of <= 'f')
        return (unsigned)(of - 'a') + 10;
    wrong_script(call, "a digit is wanted");
    return 0;
}

static void bytes_of(const words *call, size_t place, buffer *to) {
    const char *text = word(call, place);
    clear(to);
    if (!strcmp(text, "-"))
        return;
    for (; *text; text += 2) {
        uint8_t byte = (uint8_t)(16 * digit(call, text[0]) + digit(call, text[1]));
        add(to, &byte, 1);
    }
}

/* ---- the host */

/* A call of a recovery since it began. */
typedef struct {
    int is_head;
    uint64_t segment;
    buffer bytes;
} piece;

typedef struct {
    hidewillow_recovery recovery;
    hidewillow_store store;
    uint64_t first;                 /* frame of the segments of the log that is read */
    hidewillow_read_counted counts; /* of the log that was read */
    piece *pieces;
    size_t piece_count;
    buffer given;
    buffer room;
    buffer answer;
    const char *wanted; /* the answer of the script, or null */
    int again;
    int ends;           /* whether what follows has other answers */
} host;

/* Whether the answer is that of the script, where `SHOWN` is written for `DONE` too. */
static int is_wanted(const host *of) {
    const char *told = (const char *)of->answer.bytes, *wanted = of->wanted;
    if (!wanted)
        return 1;
    if (!strncmp(wanted, "SHOWN", 5))
        return !strncmp(told, "DONE", 4) && !strcmp(told + 4, wanted + 5);
    return !strcmp(told, wanted);
}

/* The answer to a call, without its numbers and bytes; whether it is more than a name. */
static int answers(host *of, hidewillow_told told) {
    clear(&of->answer);
    switch (told.answer) {
    case HIDEWILLOW_DONE:
    case HIDEWILLOW_OPENED:
    case HIDEWILLOW_SHOWN:
    case HIDEWILLOW_COMMITTED:
    case HIDEWILLOW_FAILED:
        add_text(&of->answer, "DONE");
        return 1;
    case HIDEWILLOW_ABSENT:
        add_text(&of->answer, "ABSENT");
        return 0;
    case HIDEWILLOW_REFUSED:
        add_text(&of->answer, "REFUSED %" PRIu64, told.number);
        return 0;
    case HIDEWILLOW_MEMORY:
        add_text(&of->answer, "MEMORY");
        return 0;
    case HIDEWILLOW_CLOSED:
        add_text(&of->answer, "CLOSED");
        return 0;
    case HIDEWILLOW_HELD:
        add_text(&of->answer, "HELD");
        return 0;
    default:
        add_text(&of->answer, "ANSWER %" PRIu32, told.answer);
        return 0;
    }
}

static void add_number(host *of, uint64_t value) {
    add_text(&of->answer, " %" PRIu64, value);
}

static void add_place(host *of, hidewillow_frame_place place) {
    add_number(of, place.frame);
    add_number(of, place.segment);
    add_number(of, place.offset);
    add_number(of, place.len);
    add_hex(&of->answer, of->room.bytes, place.len < of->room.room ? place.len : of->room.room);
}

/* ---- recovery */

static void forget(host *of) {
    for (size_t i = 0; i < of->piece_count; i++)
        free(of->pieces[i].bytes.bytes);
    free(of->pieces);
    of->pieces = NULL;
    of->piece_count = 0;
}

static void keep(host *of, int is_head, uint64_t segment) {
    of->pieces = grown(of->pieces, (of->piece_count + 1) * sizeof *of->pieces);
    piece *last = &of->pieces[of->piece_count++];
    *last = (piece){.is_head = is_head, .segment = segment};
    add(&last->bytes, of->given.bytes, of->given.count);
}

static hidewillow_told read_piece(host *of, const piece *it) {
    if (it->is_head)
        return hidewillow_recovery_head(&of->recovery, it->segment, it->bytes.bytes, it->bytes.count);
    return hidewillow_recovery_feed(&of->recovery, it->segment, it->bytes.bytes, it->bytes.count);
}

static hidewillow_told begin(host *of) {
    hidewillow_recovery_close(&of->recovery);
    return hidewillow_recovery_open(&of->recovery, of->first);
}

/* Reads again what was read; what the last piece is told. */
static hidewillow_told read_again(host *of) {
    hidewillow_told told = begin(of);
    for (size_t i = 0; told.answer != HIDEWILLOW_MEMORY && i < of->piece_count; i++)
        told = read_piece(of, &of->pieces[i]);
    return told;
}

/* The first frame of the segments has number 1, or, behind a snapshot, that which is given. */
static void reset(host *of, const words *call) {
    of->first = call->count > 1 ? number(call, 1) : 1;
    hidewillow_store_close(&of->store);
    forget(of);
    hidewillow_told told = begin(of);
    for (int i = 0; of->again && told.answer == HIDEWILLOW_MEMORY && i < TRIES; i++)
        told = begin(of);
    answers(of, told);
}

static void read_next(host *of, const words *call, int is_head) {
    bytes_of(call, 2, &of->given);
    keep(of, is_head, number(call, 1));
    hidewillow_told told = read_piece(of, &of->pieces[of->piece_count - 1]);
    for (int i = 0; of->again && told.answer == HIDEWILLOW_MEMORY && i < TRIES; i++)
        told = read_again(of);
    answers(of, told);
}

static void head(host *of, const words *call) { read_next(of, call, 1); }

static void fed_piece(host *of, const words *call) { read_next(of, call, 0); }

/* All was read; a number of bytes that may have been in flight may follow, and that of a frame that is known as synced. */
static void end(host *of, const words *call) {
    uint64_t in_flight = call->count > 1 ? number(call, 1) : UINT64_MAX;
    uint64_t known = call->count > 2 ? number(call, 2) : 0;
    hidewillow_told told = hidewillow_recovery_end(&of->recovery, in_flight, known, &of->counts);
    for (int i = 0; of->again && told.answer == HIDEWILLOW_MEMORY && i < TRIES; i++) {
        told = read_again(of);
        if (told.answer != HIDEWILLOW_MEMORY)
            told = hidewillow_recovery_end(&of->recovery, in_flight, known, &of->counts);
    }
    answers(of, told);
}

/* What was counted at the end. */
static void found(host *of, const words *call) {
    (void)call;
    clear(&of->answer);
    add_text(&of->answer, "DONE");
    add_number(of, of->counts.frames);
    add_number(of, of->counts.commands);
    add_number(of, of->counts.keys);
    add_number(of, of->counts.next);
    add_number(of, of->counts.segment);
    add_number(of, of->counts.place);
    add_number(of, of->counts.dropped);
}

/* A piece of a snapshot, in a room of so many bytes. */
static hidewillow_told snapshot(host *of, const words *call) {
    size_t room = (size_t)number(call, 1);
    reserve(&of->room, room);
    hidewillow_told told = hidewillow_recovery_snapshot(&of->recovery, of->room.bytes, room);
    if (answers(of, told))
        add_hex(&of->answer, of->room.bytes, told.bytes);
    return told;
}

/* ---- a store; each of these makes its call once */

static hidewillow_told opened(host *of, const words *call) {
    hidewillow_store_limits limits = {
        .in_flight = (uint16_t)number(call, 1),
        .undecided = (uint32_t)number(call, 2),
        .commands = (uint32_t)number(call, 3),
        .segment = number(call, 4),
        .waiting = (size_t)number(call, 5),
        .words = (size_t)number(call, 6),
        .bytes = (size_t)number(call, 7),
        .line = (size_t)number(call, 8),
    };
    hidewillow_frame_place place = {0};
    reserve(&of->room, HEAD_BYTES);
    hidewillow_told told = hidewillow_store_open(&of->store, &of->recovery, &limits, number(call, 9),
                                                 of->room.bytes, of->room.room, &place);
    if (answers(of, told))
        add_place(of, place);
    return told;
}

static hidewillow_told connected(host *of, const words *call) {
    (void)call;
    hidewillow_told told = hidewillow_store_connect(&of->store);
    if (answers(of, told))
        add_number(of, told.number);
    return told;
}

static hidewillow_told hung_up(host *of, const words *call) {
    hidewillow_told told = hidewillow_store_hang_up(&of->store, (uint16_t)number(call, 1));
    answers(of, told);
    return told;
}

/* Whether the last request was answered that its queue had no memory for it: its EXEC carries out nothing. */
static int is_unqueued(host *of) {
    static const char TEXT[] = "-OOM there is no memory to queue the command\r\n";
    uint8_t answer[sizeof TEXT];
    hidewillow_told told = hidewillow_store_ahead(&of->store, answer, sizeof answer);
    return told.answer == HIDEWILLOW_SHOWN && told.bytes == sizeof TEXT - 1 &&
           !memcmp(answer, TEXT, sizeof TEXT - 1);
}

/* Whether there was no memory for a request, and what follows has other answers: nothing of it was done, or it is not
 * queued. */
static int is_undone(host *of, hidewillow_told told) {
    return is_wanted(of) ? told.number == 1 && is_unqueued(of) : told.number == 6;
}

static hidewillow_told fed(host *of, const words *call) {
    hidewillow_told told;
    size_t count = 0;
    bytes_of(call, 2, &of->given);
    do {
        told = (of->again ? hidewillow_store_feed_ahead : hidewillow_store_feed)(
            &of->store, (uint16_t)number(call, 1), of->given.bytes + count, of->given.count - count);
        if (told.answer == HIDEWILLOW_MEMORY && count) {
            told.answer = HIDEWILLOW_DONE;
            told.bytes = 0;
        }
        count += told.bytes;
        if (answers(of, told)) {
            add_number(of, count);
            add_number(of, told.number);
        }
        of->ends = of->again && told.answer == HIDEWILLOW_DONE && is_undone(of, told);
    } while (of->again && told.answer == HIDEWILLOW_DONE && !told.number && count < of->given.count &&
             !is_wanted(of));
    return told;
}

static hidewillow_told told_reply(host *of, const words *call) {
    bytes_of(call, 2, &of->given);
    hidewillow_told told =
        hidewillow_store_tell(&of->store, (uint16_t)number(call, 1), of->given.bytes, of->given.count);
    answers(of, told);
    return told;
}

static hidewillow_told told_unknown(host *of, const words *call) {
    hidewillow_told told = hidewillow_store_tell_unknown(&of->store, (uint16_t)number(call, 1));
    answers(of, told);
    return told;
}

static hidewillow_told closed(host *of, const words *call) {
    hidewillow_told told = hidewillow_store_is_closed(&of->store, (uint16_t)number(call, 1));
    if (answers(of, told))
        add_number(of, told.number);
    return told;
}

/* What may go out. What a call left behind, since it had no memory for more, comes with the next. */
static hidewillow_told output(host *of, const words *call) {
    size_t room = (size_t)number(call, 2), count = 0;
    hidewillow_told told;
    reserve(&of->room, room);
    do {
        told = hidewillow_store_output(&of->store, (uint16_t)number(call, 1), of->room.bytes + count,
                                       room - count);
        count += told.bytes;
        if (answers(of, told)) {
            add_number(of, count);
            add_hex(&of->answer, of->room.bytes, count);
        }
    } while (of->again && told.answer == HIDEWILLOW_DONE && told.bytes && !is_wanted(of));
    return told;
}

static hidewillow_told next_ready(host *of, const words *call) {
    (void)call;
    hidewillow_told told = hidewillow_store_next_ready(&of->store);
    if (answers(of, told))
        add_number(of, told.number);
    return told;
}

/* The room is as long as the next frame. */
static hidewillow_told taken(host *of, const words *call) {
    (void)call;
    hidewillow_store_counted counts = {0};
    hidewillow_frame_place place = {0};
    hidewillow_store_counts(&of->store, &counts);
    reserve(&of->room, counts.next_frame);
    hidewillow_told told = hidewillow_store_take_frame(&of->store, of->room.bytes, of->room.room, &place);
    if (answers(of, told))
        add_place(of, place);
    return told;
}

static hidewillow_told turned(host *of, const words *call) {
    (void)call;
    hidewillow_told told = hidewillow_store_turn(&of->store);
    answers(of, told);
    return told;
}

static hidewillow_told synced(host *of, const words *call) {
    hidewillow_told told = hidewillow_store_synced(&of->store, number(call, 1));
    answers(of, told);
    return told;
}

static hidewillow_told failed(host *of, const words *call) {
    hidewillow_told told = hidewillow_store_failed(&of->store, number(call, 1));
    answers(of, told);
    return told;
}

static hidewillow_told cut_due(host *of, const words *call) {
    (void)call;
    hidewillow_cut_off cut = {0};
    hidewillow_told told = hidewillow_store_cut_due(&of->store, &cut);
    if (answers(of, told)) {
        add_number(of, cut.frame);
        add_number(of, cut.first);
        add_number(of, cut.last);
    }
    return told;
}

static hidewillow_told cut_frame(host *of, const words *call) {
    (void)call;
    hidewillow_frame_place place = {0};
    reserve(&of->room, HEAD_BYTES);
    hidewillow_told told = hidewillow_store_cut_frame(&of->store, of->room.bytes, of->room.room, &place);
    if (answers(of, told))
        add_place(of, place);
    return told;
}

static hidewillow_told cut(host *of, const words *call) {
    hidewillow_told told = hidewillow_store_cut(&of->store, (uint32_t)number(call, 1));
    answers(of, told);
    return told;
}

/* Of a batch 1 is told where it is logged, 2 where it is refused. */
static hidewillow_told decided(host *of, const words *call) {
    (void)call;
    hidewillow_told told = hidewillow_store_decide(&of->store);
    if (answers(of, told)) {
        add_number(of, told.number);
        add_number(of, told.answer == HIDEWILLOW_COMMITTED ? 1 : 2);
    }
    return told;
}

static hidewillow_told value(host *of, const words *call) {
    bytes_of(call, 1, &of->given);
    reserve(&of->room, 64);
    hidewillow_told told = hidewillow_store_value(&of->store, of->given.bytes, of->given.count,
                                                  of->room.bytes, of->room.room);
    if (told.bytes > of->room.room) {
        reserve(&of->room, told.bytes);
        told = hidewillow_store_value(&of->store, of->given.bytes, of->given.count, of->room.bytes,
                                      of->room.room);
    }
    if (answers(of, told))
        add_hex(&of->answer, of->room.bytes, told.bytes);
    return told;
}

static hidewillow_told rests_on(host *of, const words *call) {
    bytes_of(call, 1, &of->given);
    hidewillow_told told = hidewillow_store_rests_on(&of->store, of->given.bytes, of->given.count,
                                                     (size_t)number(call, 2));
    if (answers(of, told))
        add_number(of, told.number);
    return told;
}

/* ---- scripts */

typedef struct {
    const char *name;
    void (*reads)(host *, const words *);
    hidewillow_told (*makes)(host *, const words *);
} kind;

static const kind KINDS[] = {
    {"reset", reset, NULL},          {"head", head, NULL},
    {"piece", fed_piece, NULL},      {"end", end, NULL},
    {"found", found, NULL},          {"snapshot", NULL, snapshot},
    {"open", NULL, opened},          {"connect", NULL, connected},
    {"hang_up", NULL, hung_up},      {"feed", NULL, fed},
    {"tell", NULL, told_reply},       {"tell_unknown", NULL, told_unknown},
    {"closed", NULL, closed},        {"output", NULL, output},
    {"next_ready", NULL, next_ready}, {"take", NULL, taken},
    {"turn", NULL, turned},          {"synced", NULL, synced},
    {"failed", NULL, failed},        {"cut_due", NULL, cut_due},
    {"cut_frame", NULL, cut_frame},  {"cut", NULL, cut},
    {"decide", NULL, decided},       {"value", NULL, value},
    {"rests_on", NULL, rests_on},
};

static void call(host *of, const words *given) {
    const char *name = word(given, 0);
    for (size_t i = 0; i < sizeof KINDS / sizeof *KINDS; i++) {
        const kind *it = &KINDS[i];
        if (strcmp(name, it->name))
            continue;
        if (it->reads) {
            it->reads(of, given);
            return;
        }
        hidewillow_told told = it->makes(of, given);
        for (int j = 0; of->again && told.answer == HIDEWILLOW_MEMORY && j < TRIES; j++)
            told = it->makes(of, given);
        return;
    }
    wrong_script(given, "there is no such call");
}

/* Makes the call that waits, if one does, and compares its answer; whether it is wrong. */
static int made(host *of, buffer *waits, words *given, const char *wanted) {
    if (!waits->count)
        return 0;
    of->wanted = wanted;
    split(waits, given);
    call(of, given);
    clear(waits);
    if (is_wanted(of) || of->ends)
        return 0;
    printf("line %zu: %s\n  told: %s\n", given->line, wanted, (const char *)of->answer.bytes);
    return 1;
}

static int play(host *of, FILE *from) {
    buffer line = {0}, waits = {0};
    words given = {.line = 0};
    size_t calls = 0, wrong = 0;
    for (size_t at = 1; !of->ends && read_line(from, &line); at++) {
        const char *text = (const char *)line.bytes;
        if (!strncmp(text, "> ", 2)) {
            wrong += (size_t)made(of, &waits, &given, NULL);
            given.line = at;
            clear(&waits);
            add(&waits, text + 2, line.count - 2);
            calls++;
        } else if (!strncmp(text, "< ", 2)) {
            wrong += (size_t)made(of, &waits, &given, text + 2);
        }
    }
    wrong += (size_t)made(of, &waits, &given, NULL);
    free(line.bytes);
    free(waits.bytes);
    printf("%zu calls, %zu wrong%s\n", calls, wrong, of->ends ? ", ended for want of memory" : "");
    return wrong != 0 || !calls;
}

int main(int count, char **given) {
    static char in[1 << 16], out[1 << 12];
    setvbuf(stdin, in, _IOFBF, sizeof in);
    setvbuf(stdout, out, _IOFBF, sizeof out);
    host of = {.again = count > 1 && !strcmp(given[1], "again")};
    clear(&of.answer);
    clear(&of.given);
    int told = play(&of, stdin);
    hidewillow_store_close(&of.store);
    hidewillow_recovery_close(&of.recovery);
    forget(&of);
    free(of.given.bytes);
    free(of.room.bytes);
    free(of.answer.bytes);
    return told;
}
