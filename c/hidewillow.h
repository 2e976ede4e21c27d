/* Hidewillow for C: a kernel whose processes go on from guessed replies, or a world of such a
 * kernel and a server.
 *
 * What is at play is held by a handle, which begins as {0}, and holds nothing then. A handle is
 * passed by its address, never written, and used by one thread at a time. It may be
 * moved, as by an assignment, if only the copy is used from then on: it is just the pointer of a
 * block that has what it holds, and no call keeps a pointer that it was given. hidewillow_close
 * lets go of what it holds, after which it may be opened again. Memory comes from malloc, realloc
 * and free. No call starts a thread, waits, or ends the process.
 *
 * What the proofs take for granted, and nothing tests: a handle is {0} or as the last call left it;
 * no pointer is null, not where a length is 0 either; what one call is given does not overlap; a
 * room is set before the call, to any bytes, and so are the counts.
 *
 * A text that a call gives goes into the caller's room, without a zero byte behind it; `bytes` of
 * what the call is told is the text's whole length, of which the room has the first bytes. What of
 * the room the text does not reach is as it was.
 */
#ifndef HIDEWILLOW_H
#define HIDEWILLOW_H

#include <stdbool.h>
#include <stddef.h>
#include <stdint.h>

#ifdef __cplusplus
extern "C" {
#endif

typedef struct { void *at; } hidewillow_handle;

enum hidewillow_answer {
    /* of a line of a kernel */
    HIDEWILLOW_STEPPED = 0,        /* the step is taken; also of a world's `turn` */
    HIDEWILLOW_GUESSED = 1,        /* taken on a guess, `number`; also of a world's `turn` */
    HIDEWILLOW_DONE = 2,           /* the guess is decided; of a store's calls it is done */
    HIDEWILLOW_GONE = 3,           /* another guess's failure had struck it; of a world's `reply`
                                      `number` is the guess */
    HIDEWILLOW_NO_TOKEN = 4,       /* the guess was never drawn, or is decided */
    HIDEWILLOW_REFUSED = 5,        /* nothing has changed; `number` is the refusal: 1 no process,
                                      2 ended, 3 mismatch, 4 needs a reply, 5 blocked, 6 too many
                                      guesses, 7 the trace is full, 9 no room for another name */
    /* of any line, and of a text to be opened */
    HIDEWILLOW_FAULT = 6,          /* nothing has changed; of a line `number` is 1 word, 2 operand,
                                      3 label, 4 too long; of hidewillow_open the first faulty line,
                                      or 0 where the section is a trace or has a line */
    HIDEWILLOW_MEMORY = 7,         /* want of memory: nothing has changed, but that a `serve` may
                                      have taken the oldest request, which the next one answers */
    HIDEWILLOW_NOTHING = 8,        /* the line is blank or a comment: nothing has changed */
    /* of the other calls */
    HIDEWILLOW_OPENED = 9,         /* the handle holds what the text declares */
    HIDEWILLOW_SHOWN = 10,         /* what was asked for is in the room, or in the counts */
    HIDEWILLOW_ABSENT = 11,        /* no entity that is present has this name */
    /* of a line of a world */
    HIDEWILLOW_ASKED = 12,         /* the process waits for the reply to request `number` */
    HIDEWILLOW_YES = 13,           /* the server found the copy good */
    HIDEWILLOW_NO = 14,            /* the server found the copy stale, and sent version `number` */
    HIDEWILLOW_COPY = 15,          /* the server sent version `number` */
    HIDEWILLOW_DROPPED = 16,       /* the server took note that a request is forgotten */
    HIDEWILLOW_COMMITTED = 17,     /* the reply committed guess `number` */
    HIDEWILLOW_FAILED = 18,        /* the reply failed guess `number` */
    HIDEWILLOW_TAKEN = 19,         /* the reply is there for request `number` */
    HIDEWILLOW_FORGOTTEN = 20,     /* the reply is of request `number`, which was forgotten */
    HIDEWILLOW_EDITED = 21,        /* the file has version `number` now */
    HIDEWILLOW_IDLE = 22,          /* no request is to be served, or no reply to be given */
    HIDEWILLOW_OTHER_VERSION = 23, /* the file has another version than the edit expects, or the
                                      last one: nothing has changed */
    /* of a handle */
    HIDEWILLOW_HELD = 24,          /* the handle to open holds something: nothing has changed */
    HIDEWILLOW_CLOSED = 25,        /* the handle holds nothing, of which anything could be told */
    /* of a kernel over its caller's own byte strings */
    HIDEWILLOW_WRITTEN = 26        /* the step that is being written has it */
};

typedef struct {
    uint32_t answer; /* one of the above */
    uint64_t number; /* what the answer names, or 0 */
    size_t bytes;    /* the whole length of the text, or 0 */
} hidewillow_told;

typedef struct {
    size_t guesses;    /* made */
    size_t committed;
    size_t failed;
    size_t struck;     /* by the failure of another */
    size_t steps;      /* taken, those of guesses among them */
    size_t taken_back; /* by failures */
    size_t most_open;  /* the most guesses that were undecided at once */
    size_t notes;      /* held now for what may be taken back */
} hidewillow_counted;

typedef struct {
    uint64_t line;   /* from 1 on */
    size_t column;   /* of the first byte of the word at fault, in its line, from 1 on */
    size_t len;      /* how many bytes the word has; 0 where a word is missing, and then it stands
                        behind the line's last byte */
    uint64_t kind;   /* as the `number` of a line's FAULT */
} hidewillow_fault_place;

/* Opens what a scenario's declarations say, at its start: a world where the text ends with the line
 * `world`, else a kernel. The section has no line that says something. Told: OPENED, and the handle
 * holds it; FAULT or MEMORY, and it holds nothing; or HELD. */
hidewillow_told hidewillow_open(hidewillow_handle *handle, const uint8_t *text, size_t text_bytes);

/* Tells the first fault of a text that is to be opened: where it stands, and in the room what is wrong
 * there and what was expected, as `speculate` prints it behind `FILE:LINE:COLUMN: `. Nothing is opened.
 * Of one line of a section give `steps` or `world`, a line feed and the line, which is line 2 then.
 * Told: FAULT with the line, where `bytes` is 0 without memory for what is wrong; ABSENT where no line
 * is faulty; MEMORY. After the latter two the place and the room are as they were. */
hidewillow_told hidewillow_fault(const uint8_t *text, size_t text_bytes, hidewillow_fault_place *place,
                                 uint8_t *room, size_t room_bytes);

/* Makes the call that a line of the section says: `step PID INPUT`, `guess PID INPUT`, `commit G`
 * or `fail G`; of a world `turn PID`, `serve`, `reply` or `edit NAME VERSION BYTES`. A line comes
 * without its line feed, and without a carriage return before it: here they are bytes of a word.
 * The text is the answer as the program prints it behind the number of the event; it has at most 40
 * bytes. Without memory for it `bytes` is 0, the room is as it was, and the answer holds all the
 * same: no answer to a call that was made has an empty text. */
hidewillow_told hidewillow_line(hidewillow_handle *handle, const uint8_t *line, size_t line_bytes,
                                uint8_t *room, size_t room_bytes);

/* Shows the report that `speculate play` prints behind the answers. Told: SHOWN, MEMORY, or
 * CLOSED. */
hidewillow_told hidewillow_report(hidewillow_handle *handle, uint8_t *room, size_t room_bytes);

/* Shows what an entity has, as the report prints it behind its name. The name is the report's:
 * `proc 1`, `obj 1:1`, `copy /x`. The name is read and looked up; all entities are gone through
 * only for the names of a directory. Told: SHOWN, ABSENT, MEMORY, or CLOSED. */
hidewillow_told hidewillow_value(hidewillow_handle *handle, const uint8_t *name, size_t name_bytes,
                                 uint8_t *room, size_t room_bytes);

/* Shows the undecided guesses that an entity depends on, as `1,3`, or `-`. Told: as of its value. */
hidewillow_told hidewillow_tags(hidewillow_handle *handle, const uint8_t *name, size_t name_bytes,
                                uint8_t *room, size_t room_bytes);

/* Shows the lines of a terminal, as the report has them: how many texts are released and how many
 * wait, and those that are released. Told: SHOWN, MEMORY, or CLOSED. */
hidewillow_told hidewillow_terminal(hidewillow_handle *handle, uint16_t number, uint8_t *room,
                                    size_t room_bytes);

/* Shows the text at a place, from 0 on, among those that a terminal has released in this epoch. What is
 * released stays so: who keeps the next place gets each text once. Told: SHOWN, ABSENT past the last, or
 * CLOSED. */
hidewillow_told hidewillow_released(hidewillow_handle *handle, uint16_t number, size_t place,
                                    uint8_t *room, size_t room_bytes);

/* Begins a new epoch: the trace and the texts of terminals are let go of, so ask for those first, and
 * what is kept of a guess is two bits, so that a long run takes no more memory than an epoch; the
 * state and the numbers of guesses and requests go on. Told: DONE with how many events are let go;
 * REFUSED 1 where a guess is undecided, 2 where a world's request has no reply; MEMORY. */
hidewillow_told hidewillow_epoch(hidewillow_handle *handle);

/* Lends the process of this name, as `1` or `1.2`, has it do up to `count` private instructions away
 * from its kernel, and hands it in: each is a step of the trace without input, as `step PID none`, but
 * the kernel looks at the process once. It stops before an instruction that is not private: one that
 * reads or writes anything but the process itself. Told: STEPPED with how many were done, maybe 0; REFUSED
 * with the refusal of a line, and nothing was done: no process, ended, blocked, the trace is full; or 10
 * where a signal is due, which the next step of the process takes; FAULT where no process can have this
 * name; MEMORY. */
hidewillow_told hidewillow_lease(hidewillow_handle *handle, const uint8_t *name, size_t name_bytes,
                                 uint32_t count);

/* Counts the guesses and the steps so far, in one pass over what was done: each failure costs a run
 * of the steps behind the oldest guess that was undecided there, and no other.
 * Told: SHOWN; or MEMORY or CLOSED, and the counts are as they were. */
hidewillow_told hidewillow_counts(hidewillow_handle *handle, hidewillow_counted *counts);

/* Ends what the handle holds, if anything, and frees its memory. Guesses that are left undecided
 * fail: closing commits nothing, and no text or output that depends on one comes out. The handle
 * holds nothing then. */
void hidewillow_close(hidewillow_handle *handle);

/* ---- A kernel over its caller's own byte strings: keys of up to 65,536 bytes, values and outputs of
 * up to 16,777,216. The caller takes steps in code of his own, and says of each what it looked at,
 * what it wrote and what it said. What he says of a step is kept in a draft, which hidewillow_own_take
 * or hidewillow_own_guess takes in whole; after a refusal the draft is as it was.
 *
 * The handle is used as the other one. Of these calls REFUSED tells the number of a refusal, and
 * nothing has changed: of a part of a step 1 the key is too long, 2 the value is too long; of a guess
 * 3 as many guesses are undecided as may be, 4 the last number is drawn; of hidewillow_own_open 5 the
 * limit is 0. Want of memory is MEMORY. Each call tells CLOSED where the handle holds nothing.
 *
 * What is promised depends on one thing that no call can see: a step is made of what its keys have when it is
 * taken. Read them (hidewillow_own_value), look at each of them, write, and take the step, with no decision
 * and no other step between: what was made of a value that is gone meanwhile would stand without its guess. */

typedef struct { void *at; } hidewillow_own;

typedef struct {
    size_t keys;      /* that are there, depend on a guess, or were taken back by the last failure */
    size_t undecided; /* guesses */
    size_t struck;    /* guesses whose tokens have not come back */
    uint64_t settled; /* each guess below this number is decided */
} hidewillow_own_counted;

/* Opens one in which no key is there, of whose guesses `limit` may be undecided at once, with a number
 * and a seed of the caller's choice. Who doesn't know the seed can't choose keys that are found
 * slowly. Told: OPENED, REFUSED where the limit is 0, MEMORY or HELD. */
hidewillow_told hidewillow_own_open(hidewillow_own *own, uint64_t number, uint16_t limit, uint64_t seed);

/* Lets the draft go. Told: WRITTEN. */
hidewillow_told hidewillow_own_clear(hidewillow_own *own);

/* The step of the draft looked at a key. Told: WRITTEN, REFUSED or MEMORY. */
hidewillow_told hidewillow_own_look(hidewillow_own *own, const uint8_t *key, size_t key_bytes);

/* It sets what a key has; of two writes of a key the later holds. Told: the same. */
hidewillow_told hidewillow_own_put(hidewillow_own *own, const uint8_t *key, size_t key_bytes,
                                   const uint8_t *value, size_t value_bytes);

/* It makes a key absent. Told: the same. */
hidewillow_told hidewillow_own_remove(hidewillow_own *own, const uint8_t *key, size_t key_bytes);

/* It says this to a channel, and nothing that was said in it before. Told: the same. */
hidewillow_told hidewillow_own_say(hidewillow_own *own, uint16_t channel, const uint8_t *output,
                                   size_t output_bytes);

/* Takes the step of the draft, which is empty then. Told: STEPPED or MEMORY. */
hidewillow_told hidewillow_own_take(hidewillow_own *own);

/* Draws the next guess with the step of the draft, which is empty then. Told: GUESSED with the guess
 * as `number`, REFUSED or MEMORY. */
hidewillow_told hidewillow_own_guess(hidewillow_own *own);

/* Commits a guess: nothing depends on it any more. Told: DONE; GONE where another's failure had struck
 * it; NO_TOKEN where it was never drawn or is decided. */
hidewillow_told hidewillow_own_commit(hidewillow_own *own, uint64_t guess);

/* Fails a guess: what depends on it is taken back. Told: DONE, where `number` is how many keys it took
 * back and `bytes` how many guesses it struck, of which hidewillow_own_status tells each; GONE or NO_TOKEN.
 * Outputs that depend on it are dropped: of a channel as many as waited before (hidewillow_own_waiting), less
 * those that may go out since and those that wait still. It takes no memory. */
hidewillow_told hidewillow_own_fail(hidewillow_own *own, uint64_t guess);

/* Shows the key at a place among those that the last failure took back, from 0 on, in an order of its
 * own, each once; until the next step or decision. Told: SHOWN, or ABSENT past the last. */
hidewillow_told hidewillow_own_undone(hidewillow_own *own, size_t place, uint8_t *room,
                                      size_t room_bytes);

/* Shows what a key has. Told: SHOWN or ABSENT. */
hidewillow_told hidewillow_own_value(hidewillow_own *own, const uint8_t *key, size_t key_bytes,
                                     uint8_t *room, size_t room_bytes);

/* Tells the undecided guess at a place among those that a key depends on, from 0 on, by rising number.
 * Told: SHOWN with the guess as `number`, or ABSENT past the last. */
hidewillow_told hidewillow_own_tag(hidewillow_own *own, const uint8_t *key, size_t key_bytes,
                                   size_t place);

/* Shows the next output of a channel that depends on nothing and behind which nothing older waits. It is
 * gone then if the room has all of it; else it stays, and the next of these calls of this channel shows
 * it again. Told: SHOWN, ABSENT where none can go out, or MEMORY. */
hidewillow_told hidewillow_own_released(hidewillow_own *own, uint16_t channel, uint8_t *room,
                                        size_t room_bytes);

/* Counts keys and guesses, in constant time. Told: SHOWN. */
hidewillow_told hidewillow_own_counts(hidewillow_own *own, hidewillow_own_counted *counts);

/* Keys have places: each that is there, depends on a guess, or was taken back by the last failure has one,
 * which it keeps as long, and no other has any. Told: SHOWN with a `number` behind all places. */
hidewillow_told hidewillow_own_places(hidewillow_own *own);

/* Shows the key that has a place. Told: SHOWN, or ABSENT where none has it. */
hidewillow_told hidewillow_own_key(hidewillow_own *own, size_t place, uint8_t *room, size_t room_bytes);

/* Shows the key at a place among those that depend on a guess, from 0 on, each once: its failure would take
 * just these back. Told: SHOWN, or ABSENT past the last. */
hidewillow_told hidewillow_own_dependent(hidewillow_own *own, uint64_t guess, size_t place, uint8_t *room,
                                         size_t room_bytes);

/* Tells what is known of a guess. Told: SHOWN with 1 where it is undecided, and as `bytes` on how many undecided
 * guesses its own step rests, itself among them: where that is 1 its commit stands for good, else the failure of
 * another may take it back; SHOWN with 2 where another's failure struck it and nobody has decided it since;
 * ABSENT where it was never drawn or is decided. */
hidewillow_told hidewillow_own_status(hidewillow_own *own, uint64_t guess);

/* Tells how many outputs of a channel wait: the first that depends on a guess, and all behind it. Told: SHOWN
 * with that `number`. */
hidewillow_told hidewillow_own_waiting(hidewillow_own *own, uint16_t channel);

/* Tells a channel of which hidewillow_own_released shows an output that it did not show before, without
 * going through the others. Told: SHOWN with the channel as `number`, or ABSENT where there is none. */
hidewillow_told hidewillow_own_channel(hidewillow_own *own);

/* Ends what the handle holds, if anything, and frees its memory. Guesses that are left undecided
 * fail: closing commits nothing, and no text or output that depends on one comes out. The handle
 * holds nothing then. */
void hidewillow_own_close(hidewillow_own *own);

/* A step as arrays of slices, written into the draft in one call. */
typedef struct { const uint8_t *bytes; size_t count; } hidewillow_slice;
typedef struct { hidewillow_slice key; hidewillow_slice value; } hidewillow_write;
typedef struct { uint16_t channel; hidewillow_slice output; } hidewillow_output;
typedef struct {
    const hidewillow_slice *looked;
    size_t looked_count;
    const hidewillow_write *written;
    size_t written_count;
    const hidewillow_slice *removed; /* behind what is written */
    size_t removed_count;
    const hidewillow_output *said;   /* or null */
} hidewillow_step;

/* Told: WRITTEN; else as the part that was refused, and the draft is empty. */
static inline hidewillow_told hidewillow_own_step(hidewillow_own *own, const hidewillow_step *step) {
    hidewillow_told told = hidewillow_own_clear(own);
    size_t i;
    for (i = 0; told.answer == HIDEWILLOW_WRITTEN && i < step->looked_count; i++)
        told = hidewillow_own_look(own, step->looked[i].bytes, step->looked[i].count);
    for (i = 0; told.answer == HIDEWILLOW_WRITTEN && i < step->written_count; i++)
        told = hidewillow_own_put(own, step->written[i].key.bytes, step->written[i].key.count,
                                  step->written[i].value.bytes, step->written[i].value.count);
    for (i = 0; told.answer == HIDEWILLOW_WRITTEN && i < step->removed_count; i++)
        told = hidewillow_own_remove(own, step->removed[i].bytes, step->removed[i].count);
    if (told.answer == HIDEWILLOW_WRITTEN && step->said)
        told = hidewillow_own_say(own, step->said->channel, step->said->output.bytes,
                                  step->said->output.count);
    if (told.answer != HIDEWILLOW_WRITTEN)
        hidewillow_own_clear(own);
    return told;
}

/* ---- A desk: a kernel whose cached copies are of files of a server of the caller's. Its requests go
 * out as bytes, and the server's replies come as bytes; no call reads or writes a socket. A turn of a
 * process that fetches or stores a file goes on from the cached copy under a guess, and asks the server
 * whether it is good; without a copy the process waits. The reply commits the guess or fails it.
 *
 * The handle is used as the first one. Each call tells CLOSED where the handle holds nothing.
 *
 * Numbers have eight bytes, the lowest first. A request is eight numbers: its own, from 1 by one; the
 * guess that its reply decides, 0 where a process waits for the reply; a number below which each guess
 * is decided by now; what is asked: 1 the content of a file, 2 whether it has this version, 3 to write
 * these bytes where it has this version; the version, 0 for the first kind; how many bytes the name of
 * the file has, how many those to be written, and on how many guesses the request rests. Behind them
 * stand the name, the bytes, and the numbers of these guesses, by rising number.
 *
 * A reply is four numbers: that of the request; the answer: 1 yes, the file has that version, or the
 * bytes are written and make the next one; 2 no, and this is its content; 3 this is its content; 4
 * dropped; the version of the content, at most 2^63 - 1; and how many bytes it has, at most 512. Behind
 * them stand these bytes. The answers 1 and 4 have version 0 and no bytes. The kind 1 is answered by 3
 * or 4, the others by 1, 2 or 4; a file that was never written has version 0 and no bytes.
 *
 * The server answers requests in their order. It remembers the guesses that it refused (by 2, or by 4),
 * and drops (4) each request that depends on one of them; those below the third number it may forget. */

typedef struct { void *at; } hidewillow_desk;

/* Opens a desk over the kernel that a scenario's declarations say, at its start; the text ends with the
 * line `world`, and the files that it declares are the server's: nothing is kept of them. Told: as of
 * hidewillow_open. */
hidewillow_told hidewillow_desk_open(hidewillow_desk *desk, const uint8_t *text, size_t text_bytes);

/* Takes a turn of the process of this name, as `1` or `1.2`. Told: STEPPED; GUESSED with the guess, of
 * which a request waits then; ASKED with the request for which the process waits; REFUSED with the
 * refusal of a kernel's line; FAULT where no process can have this name; MEMORY. */
hidewillow_told hidewillow_desk_turn(hidewillow_desk *desk, const uint8_t *name, size_t name_bytes);

/* Has the process of this name do up to `count` private instructions away from its kernel, as
 * hidewillow_lease does. A process that waits for a reply is refused as blocked. */
hidewillow_told hidewillow_desk_lease(hidewillow_desk *desk, const uint8_t *name, size_t name_bytes,
                                      uint32_t count);

/* Shows the oldest request that waits to be sent, as bytes. It is taken where the room has all of it;
 * else it stays, and the next of these calls shows it again. Told: SHOWN with the number of the request;
 * IDLE where none waits; MEMORY. */
hidewillow_told hidewillow_desk_request(hidewillow_desk *desk, uint8_t *room, size_t room_bytes);

/* Gives the server's reply, of which these are the bytes, and all. Told: COMMITTED or FAILED with the
 * guess; GONE with the guess, which another's failure had struck; TAKEN with the request, whose process
 * went on; FORGOTTEN with the request. FAULT where the bytes are no reply; REFUSED 1 where it is another
 * request's turn, or that one was not shown whole, 2 where it does not fit what was asked; MEMORY: then
 * nothing has changed. */
hidewillow_told hidewillow_desk_reply(hidewillow_desk *desk, const uint8_t *bytes, size_t byte_count);

/* Tells the request whose reply is next. Told: SHOWN with its number, and `bytes` is how many requests
 * have no reply. */
hidewillow_told hidewillow_desk_pending(hidewillow_desk *desk);

/* Begins a new epoch: what was done so far is let go of, but for two bits of each guess, so that a long
 * run takes no more memory than an epoch; the state, and the numbers of guesses and requests, go on. Told: DONE; REFUSED 1 where a
 * request has no reply; MEMORY. */
hidewillow_told hidewillow_desk_epoch(hidewillow_desk *desk);

/* Shows the text at a place, from 0 on, among those that a terminal had released when the last epoch
 * ended; they are there until the next one ends. Told: SHOWN, or ABSENT past the last. */
hidewillow_told hidewillow_desk_left(hidewillow_desk *desk, uint16_t number, size_t place, uint8_t *room,
                                     size_t room_bytes);

/* The same as those of the first handle, of the desk's kernel in this epoch. */
hidewillow_told hidewillow_desk_report(hidewillow_desk *desk, uint8_t *room, size_t room_bytes);
hidewillow_told hidewillow_desk_value(hidewillow_desk *desk, const uint8_t *name, size_t name_bytes,
                                      uint8_t *room, size_t room_bytes);
hidewillow_told hidewillow_desk_tags(hidewillow_desk *desk, const uint8_t *name, size_t name_bytes,
                                     uint8_t *room, size_t room_bytes);
hidewillow_told hidewillow_desk_terminal(hidewillow_desk *desk, uint16_t number, uint8_t *room,
                                         size_t room_bytes);
hidewillow_told hidewillow_desk_counts(hidewillow_desk *desk, hidewillow_counted *counts);

/* Ends what the handle holds, if anything, and frees its memory. The guesses of requests without a
 * reply fail. The handle holds nothing then. */
void hidewillow_desk_close(hidewillow_desk *desk);

/* ---- Of the bytes: a request that is read where it stands, a reply that is written, and how much is to
 * be read of a stream. */

enum hidewillow_kind { HIDEWILLOW_GET = 1, HIDEWILLOW_CHECK = 2, HIDEWILLOW_STORE = 3 };
enum hidewillow_reply_kind {
    HIDEWILLOW_IS_YES = 1,
    HIDEWILLOW_IS_NO = 2,
    HIDEWILLOW_IS_COPY = 3,
    HIDEWILLOW_IS_DROPPED = 4
};

typedef struct {
    uint64_t number, guess, settled, kind, version;
    const uint8_t *name;
    size_t name_bytes;
    const uint8_t *stored;
    size_t stored_bytes;
    const uint8_t *rests; /* eight bytes a guess: hidewillow_number_at */
    size_t rests_count;
} hidewillow_request;

static inline uint64_t hidewillow_number_at(const uint8_t *bytes, size_t place) {
    uint64_t number = 0;
    int i;
    for (i = 7; i >= 0; i--) number = number << 8 | bytes[8 * place + i];
    return number;
}

static inline void hidewillow_put_number(uint8_t *bytes, size_t place, uint64_t number) {
    int i;
    for (i = 0; i < 8; i++) bytes[8 * place + i] = (uint8_t)(number >> 8 * i);
}

/* How many bytes stand before those of the name, and of a reply before its content; and a room for any reply. */
enum { HIDEWILLOW_REQUEST_HEAD = 64, HIDEWILLOW_REPLY_HEAD = 32, HIDEWILLOW_REPLY_BYTES = 544 };

/* How many bytes stand behind these first 64 of a request. */
static inline size_t hidewillow_request_left(const uint8_t *head) {
    return (size_t)(hidewillow_number_at(head, 5) + hidewillow_number_at(head, 6) +
                    8 * hidewillow_number_at(head, 7));
}

/* How many bytes stand behind these first 32 of a reply. */
static inline size_t hidewillow_reply_left(const uint8_t *head) {
    return (size_t)hidewillow_number_at(head, 3);
}

/* Reads a request that is these bytes. Answered: 1, or 0 where they are none. */
static inline int hidewillow_request_of(const uint8_t *bytes, size_t byte_count,
                                        hidewillow_request *request) {
    uint64_t name_bytes, stored_bytes, rests, left;
    if (byte_count < HIDEWILLOW_REQUEST_HEAD) return 0;
    request->number = hidewillow_number_at(bytes, 0);
    request->guess = hidewillow_number_at(bytes, 1);
    request->settled = hidewillow_number_at(bytes, 2);
    request->kind = hidewillow_number_at(bytes, 3);
    request->version = hidewillow_number_at(bytes, 4);
    name_bytes = hidewillow_number_at(bytes, 5);
    stored_bytes = hidewillow_number_at(bytes, 6);
    rests = hidewillow_number_at(bytes, 7);
    left = byte_count - HIDEWILLOW_REQUEST_HEAD;
    if (name_bytes > left || stored_bytes > left - name_bytes) return 0;
    left -= name_bytes + stored_bytes;
    if (left % 8 || rests != left / 8) return 0;
    request->name = bytes + HIDEWILLOW_REQUEST_HEAD;
    request->name_bytes = (size_t)name_bytes;
    request->stored = request->name + request->name_bytes;
    request->stored_bytes = (size_t)stored_bytes;
    request->rests = request->stored + request->stored_bytes;
    request->rests_count = (size_t)rests;
    return request->kind >= HIDEWILLOW_GET && request->kind <= HIDEWILLOW_STORE;
}

/* Writes a reply into a room of HIDEWILLOW_REPLY_BYTES; of bytes there are at most 512.
 * Answered: how many bytes it has. */
static inline size_t hidewillow_reply_to(uint8_t *room, uint64_t number, uint64_t kind, uint64_t version,
                                         const uint8_t *bytes, size_t byte_count) {
    size_t i;
    hidewillow_put_number(room, 0, number);
    hidewillow_put_number(room, 1, kind);
    hidewillow_put_number(room, 2, version);
    hidewillow_put_number(room, 3, byte_count);
    for (i = 0; i < byte_count; i++) room[HIDEWILLOW_REPLY_HEAD + i] = bytes[i];
    return HIDEWILLOW_REPLY_HEAD + byte_count;
}

/* ---- A store of byte strings whose replies wait for exactly what they depend on. Commands come as bytes on
 * channels, in the protocol that its clients speak, and are carried out at once, in memory, under the guess
 * that the batch which logs them reaches the disk. A reply goes out once all that it depends on is there. No
 * call reads or writes a file or a socket: the host moves bytes, writes frames where it is told, and says
 * what the disk said.
 *
 * A log is segments of the host, each of as many bytes as the limits say, of zeros before it is used. A
 * frame is synced once its own bytes are. What is refused tells its number, and nothing has changed but
 * what is told of below: of a call 1 no channel, 2 a decision is due, 3 full, 4 no ticket, 5 stopped,
 * 6 nothing waits, 7 busy, 8 no number, 9 short, 10 unknown, 11 no cut, 12 limits, 13 key, 14 order,
 * 15 damaged; here the refusals end. Want of memory is MEMORY. Each call tells CLOSED where the handle
 * holds nothing. The handles are used as the first one.
 *
 * A start: hidewillow_recovery_open, then _head of each segment by rising number, then _feed of each
 * segment whole, in pieces, by rising number, then _end; then hidewillow_store_open, whose head is to be
 * written and synced before any other call. So an empty disk begins too.
 *
 * A snapshot, so that the log does not grow for ever: with a handle of its own, beside the store that goes
 * on, read the old snapshot, if there is one, and segments that are full as a start does; then write what
 * _snapshot shows, piece by piece, to a file. Once that is synced it stands for the segments that were
 * read, which may go. A start then tells _open the number of the frame behind it (`next`), and _feed its
 * bytes as those of segment 0, before the first head. */

typedef struct { void *at; } hidewillow_recovery;
typedef struct { void *at; } hidewillow_store;

typedef struct {
    uint64_t frames;   /* that count */
    uint64_t commands; /* that they say, a queue as one */
    uint64_t keys;     /* that are there */
    uint64_t next;     /* the number of the frame that would follow */
    uint64_t segment;  /* where the frames that count end: this segment, */
    uint64_t place;    /* so many bytes from its front */
    uint64_t dropped;  /* bytes behind that count for nothing, up to the last that is not 0 */
    uint64_t damaged;  /* 1 where a whole frame stands at that place that says no works, else 0 */
} hidewillow_read_counted;

/* Begins to read a log. The first frame of its segments has the number `first`: 1, or behind a snapshot what
 * was counted as `next` when that was made. Told: OPENED, MEMORY or HELD. */
hidewillow_told hidewillow_recovery_open(hidewillow_recovery *recovery, uint64_t first);

/* The first 24 bytes of the next segment, or all there are. Segments come by rising number, from 1 on; behind
 * a snapshot the first to come is the last that it stands for, of which no bytes are given, so that the log
 * goes on behind it. Told: DONE; ABSENT where no whole head stands there: the segment counts for nothing;
 * REFUSED 14 where the number does not rise, or a piece of a segment came already, 15 where what came is no
 * snapshot, and all begins anew; MEMORY, and the snapshot, if one came before, comes anew. */
hidewillow_told hidewillow_recovery_head(hidewillow_recovery *recovery, uint64_t segment,
                                         const uint8_t *bytes, size_t byte_count);

/* The next piece of a segment, of any size, or, as segment 0, of a snapshot. What came whole and counts is
 * carried out. Told: DONE; REFUSED 14 where another segment comes first, or this one came already, or a head
 * came before a piece of a snapshot, 15 where what came before is no snapshot, and all begins anew; MEMORY,
 * and all begins anew with the snapshot and the heads: nothing on the disk has changed. */
hidewillow_told hidewillow_recovery_feed(hidewillow_recovery *recovery, uint64_t segment,
                                         const uint8_t *bytes, size_t byte_count);

/* All came. So many bytes may have been in flight, and `known` is the number of the last frame of which a later
 * frame, a head or a mark says that all up to it were told as synced; 0 where nothing is known. Told: DONE;
 * REFUSED 15 where a whole frame says no works, more bytes were dropped than may have been in flight, or `next`
 * is `known` or lower: the counts tell the place, and all begins anew; the same where what came is no
 * snapshot, and nothing is counted; REFUSED 14 where this was told before; MEMORY, and all begins anew. */
hidewillow_told hidewillow_recovery_end(hidewillow_recovery *recovery, uint64_t in_flight, uint64_t known,
                                        hidewillow_read_counted *counts);

/* Shows the next piece of a snapshot of what was found: the next entries, as many as have room, one at least,
 * as a frame. Where nothing was found there is no piece. Told: SHOWN, with `bytes`; ABSENT when all was given;
 * REFUSED 14 before the end, 9 where the room is shorter than the next key and its value with 88 bytes, 8
 * where no number is left; MEMORY. But for SHOWN nothing has changed. */
hidewillow_told hidewillow_recovery_snapshot(hidewillow_recovery *recovery, uint8_t *room,
                                             size_t room_bytes);

/* Ends what the handle holds, if anything, and frees its memory. */
void hidewillow_recovery_close(hidewillow_recovery *recovery);

typedef struct {
    size_t words;       /* of a request, at most */
    size_t bytes;       /* of all its words together */
    size_t line;        /* of a line of it, at least 16 */
    size_t waiting;     /* no more of a channel's replies is taken while more bytes than these wait */
    uint64_t segment;   /* bytes of a segment, at least `undecided` and 48 */
    uint32_t undecided; /* bytes that may be undecided, less than 2^28 - 24 */
    uint32_t commands;  /* whose answers may wait */
    uint16_t in_flight; /* frames that may be, at least 1; more than 63 are 63 */
} hidewillow_store_limits;

typedef struct {
    uint64_t frame;   /* its number */
    uint64_t segment; /* is to be written here, */
    uint64_t offset;  /* so many bytes from the front, */
    size_t len;       /* so many bytes */
} hidewillow_frame_place;

typedef struct {
    uint64_t frame; /* that failed */
    uint64_t first; /* its first batch, and its last */
    uint64_t last;
} hidewillow_cut_off;

typedef struct {
    size_t undecided;    /* bytes */
    uint64_t in_flight;  /* frames */
    size_t open_batches; /* that are undecided and have a guess */
    size_t next_frame;   /* how many bytes the next frame has: as long a room is wanted */
    size_t answers;      /* of commands that wait to be told */
} hidewillow_store_counted;

/* Opens a store with what was read, of which no piece of a snapshot was given. The log goes on behind the
 * last segment whose head was told of; the first 24 bytes of the room are the head of the next one, which
 * is to be written and synced before anything else is done. Who doesn't know the seed can't choose keys
 * that are found slowly. Told: OPENED, and the recovery holds nothing; REFUSED 14 before the end, 12 where
 * the limits are not those of a store, 8 where no number is left for a segment or a frame, 9 where the
 * room is shorter than 24 bytes, 13 where a key was read that no store has; MEMORY, and the room may have
 * the head; CLOSED where the recovery holds nothing; HELD. But for OPENED nothing else has changed. */
hidewillow_told hidewillow_store_open(hidewillow_store *store, hidewillow_recovery *recovery,
                                      const hidewillow_store_limits *limits, uint64_t seed,
                                      uint8_t *room, size_t room_bytes,
                                      hidewillow_frame_place *place);

/* A channel more. Told: DONE, with its number; REFUSED 3; MEMORY. */
hidewillow_told hidewillow_store_connect(hidewillow_store *store);

/* A channel is gone: its replies are dropped, its writes stand. Its number is given again once no answer
 * of it is left. Told: DONE. */
hidewillow_told hidewillow_store_hang_up(hidewillow_store *store, uint16_t channel);

/* Takes bytes that came on a channel, up to the end of a request, which is carried out, or all. Told:
 * DONE, with how many `bytes` were taken; `number` is what became of the request that they end: 0 it is
 * not whole yet or asks for nothing, 1 it was carried out, or an error is its answer; nothing of it was
 * done, which its client is told in its turn, since 2 a key is too long, 3 the store stopped, 4 too many
 * bytes would be undecided, 5 too many batches are, 6 there was no memory; 7 its first word names no
 * command, outside MULTI: the host is asked what its reply is (hidewillow_store_asked), and no byte of the
 * channel is taken until it told (hidewillow_store_tell). REFUSED 2 where `decide` is to
 * be called first, 3 where as many bytes are undecided or answers wait as may, 1, or 4; MEMORY: no byte was taken. */
hidewillow_told hidewillow_store_feed(hidewillow_store *store, uint16_t channel, const uint8_t *bytes,
                                      size_t byte_count);

/* As feed; and of a request that was carried out the answer is shown by hidewillow_store_ahead, as it is
 * under what it depends on: it goes out in its turn, unless nothing of the command is done, which is then told
 * in its place. */
hidewillow_told hidewillow_store_feed_ahead(hidewillow_store *store, uint16_t channel,
                                            const uint8_t *bytes, size_t byte_count);

/* Shows the answer to the request that the last feed_ahead carried out. Told: SHOWN or ABSENT. */
hidewillow_told hidewillow_store_ahead(hidewillow_store *store, uint8_t *room, size_t room_bytes);

/* Shows a word of the request that the host is asked on a channel, by its place from 0 on: the first names
 * no command of the store. Told: SHOWN; ABSENT past the last, and where the host is not asked. */
hidewillow_told hidewillow_store_asked(hidewillow_store *store, uint16_t channel, size_t place,
                                       uint8_t *room, size_t room_bytes);

/* The host tells the reply to what it is asked on a channel: these bytes, as they are. They go out in their
 * turn, behind all older replies of the channel, and feed takes its bytes again. Told: DONE; REFUSED 2, 1,
 * or 4 where the host is not asked; MEMORY: nothing was told. */
hidewillow_told hidewillow_store_tell(hidewillow_store *store, uint16_t channel, const uint8_t *reply,
                                      size_t reply_bytes);

/* The same with the error that clients know, where the host knows no such command either. */
hidewillow_told hidewillow_store_tell_unknown(hidewillow_store *store, uint16_t channel);

/* Tells whether a fault was told on a channel: what comes is dropped, and it is to be hung up once its
 * output is taken. Told: DONE with 1, or 0. */
hidewillow_told hidewillow_store_is_closed(hidewillow_store *store, uint16_t channel);

/* Tells how many bytes the commands take that wait for EXEC on a channel, each word 64 more than its own:
 * more than EXEC logs of them. Told: DONE, with how many `bytes`, 0 where no queue is open. */
hidewillow_told hidewillow_store_queued(hidewillow_store *store, uint16_t channel);

/* Tells whether a request may write whose first word this is: as a command, or by carrying out a queue.
 * Where not it writes nothing, whatever its words are. Told: DONE with 1, or 0; ABSENT where the word names
 * no command. */
hidewillow_told hidewillow_may_write(const uint8_t *word, size_t word_bytes);

/* Moves bytes that may go out on a channel into the room, in the order of what it asked for. To be called
 * until it moves none. Told: DONE, with how many `bytes`; REFUSED 1; MEMORY where none was moved for want
 * of it: nothing is lost. */
hidewillow_told hidewillow_store_output(hidewillow_store *store, uint16_t channel, uint8_t *room,
                                        size_t room_bytes);

/* Tells a channel that there is output for: the same until that is taken. Told: DONE with its number, or
 * ABSENT. */
hidewillow_told hidewillow_store_next_ready(hidewillow_store *store);

/* Takes the next frame into the room, and tells where it is to be written. Told: DONE; REFUSED 5, 6, 7, 8
 * or 9, or 3 where it has no room in its segment (turn then); MEMORY. */
hidewillow_told hidewillow_store_take_frame(hidewillow_store *store, uint8_t *room, size_t room_bytes,
                                            hidewillow_frame_place *place);

/* The log goes on at the front of the next segment. Told: DONE or REFUSED 8. */
hidewillow_told hidewillow_store_turn(hidewillow_store *store);

/* What the disk says of a frame, in any order. Told: DONE; REFUSED 5 or 10. */
hidewillow_told hidewillow_store_synced(hidewillow_store *store, uint64_t frame);
hidewillow_told hidewillow_store_failed(hidewillow_store *store, uint64_t frame);

/* Drops what decisions left of the old values of at most so many keys. A decision of 64 keys or more, as of a
 * FLUSHALL, leaves them, so that it does not take the time of dropping all at once: to be called between
 * other calls until none are left. Nothing that is seen changes. Told: DONE, with of how many keys there
 * are still some in `bytes`. */
hidewillow_told hidewillow_store_let_go(hidewillow_store *store, size_t most);

/* Tells the cut that is to be made, once a frame failed and all that were sent were told of. Told: DONE or
 * ABSENT. */
hidewillow_told hidewillow_store_cut_due(hidewillow_store *store, hidewillow_cut_off *cut);

/* Writes the head that makes the cut into the first 24 bytes of the room, and tells where it is to be
 * written: at the front of the next segment. Told: DONE; REFUSED 8, 9 or 11. */
hidewillow_told hidewillow_store_cut_frame(hidewillow_store *store, uint8_t *room, size_t room_bytes,
                                           hidewillow_frame_place *place);

/* Says that this head is synced (1), or that it could not be written (0): then the store stops, and nothing
 * is logged or decided any more. Told: DONE; REFUSED 5, 8 or 11. */
hidewillow_told hidewillow_store_cut(hidewillow_store *store, uint32_t made);

/* Winds up a store whose log lies in a consensus engine (below), once the leadership is over that it was sent
 * by, each frame has its word, and those that are lost were told as failed. The first of these is cut off
 * with all behind it, and so is what was never sent: all of that is refused and decided, and nothing is to
 * be written. The room is as long as a frame of all that is undecided, `undecided` of the counts and 24; what
 * it has then is nothing. Told: DONE; REFUSED 7 or 11 where a frame waits for its word, 5, 8, or 9; MEMORY.
 * Then a part may be done, and it may be called again. */
hidewillow_told hidewillow_store_lost(hidewillow_store *store, uint8_t *room, size_t room_bytes);

/* Decides the oldest batch, if it can be: what depends on it may go out, or is taken back. To be called until
 * it tells ABSENT, after each word of the disk and each cut. It takes no memory. Told: COMMITTED with the
 * batch, where it is logged; FAILED with the batch, where it was cut off, and `bytes` is how many keys were
 * taken back; ABSENT. */
hidewillow_told hidewillow_store_decide(hidewillow_store *store);

/* Shows what a key has now, whatever it depends on. Told: SHOWN or ABSENT. */
hidewillow_told hidewillow_store_value(hidewillow_store *store, const uint8_t *key, size_t key_bytes,
                                       uint8_t *room, size_t room_bytes);

/* Tells the undecided batch at a place among those that a key depends on, from 0 on, by rising number. Told:
 * SHOWN with the batch, or ABSENT past the last. */
hidewillow_told hidewillow_store_rests_on(hidewillow_store *store, const uint8_t *key, size_t key_bytes,
                                          size_t place);

/* Counts what is undecided, in constant time. Told: SHOWN. */
hidewillow_told hidewillow_store_counts(hidewillow_store *store, hidewillow_store_counted *counts);

/* Ends what the handle holds, if anything, and frees its memory. What is undecided is dropped, and nothing
 * goes out any more. */
void hidewillow_store_close(hidewillow_store *store);

/* ---- What the answers of a consensus engine tell a host whose log lies in one: batches under numbers, put
 * by leaderships. Nothing is held, and each of the four calls is told by its numbers alone.
 *
 * `leadership` is that of the host. `answer` is 0 where a try was carried out (a batch was put, all from a
 * gap on was deleted), 1 where it was not, or where it only looked, and what was seen at that moment is
 * told; and any other number where nothing is known, as after a time out or an error. `leader` is the
 * leadership of the leader that was seen, 0 where there was none; `held` is 0 where nothing stands under
 * the number of the batch, 1 where just its bytes do, else another number; `snap` is up to which number
 * the log was cut; `fenced` is the leadership that deleted last. What was not seen is not looked at. */
enum hidewillow_engine_word {
    /* of a batch, with its number */
    HIDEWILLOW_ENGINE_SYNCED = 0,     /* it stands in the log, and each later leadership reads it */
    HIDEWILLOW_ENGINE_LOST = 1,       /* it does not, and never will */
    HIDEWILLOW_ENGINE_UNKNOWABLE = 2, /* nobody can know: its clients get no answer */
    /* of a round, with its number */
    HIDEWILLOW_ENGINE_STILL = 3,      /* the leadership held at some moment after it was begun */
    /* of a fence */
    HIDEWILLOW_ENGINE_SERVES = 4,     /* nothing stands behind the gap: batches go there */
    /* of a fence and a round */
    HIDEWILLOW_ENGINE_OVER = 5,       /* the leadership is over: no new batch; those under way wait for
                                         words of their own */
    /* of all four */
    HIDEWILLOW_ENGINE_AGAIN = 6,      /* nothing is known: the same is to be asked again */
    /* of a try to lead; of the first, with the number of the leadership */
    HIDEWILLOW_ENGINE_CLAIMED = 7,    /* the leadership is the host's */
    HIDEWILLOW_ENGINE_WAITS = 8,      /* another leads */
    /* of a batch, a fence and a try to lead */
    HIDEWILLOW_ENGINE_BREACH = 9      /* the engine contradicts itself, so something else writes there:
                                         stop, and answer nothing more; never of a round */
};

hidewillow_told hidewillow_engine_batch(uint64_t leadership, uint64_t number, uint32_t answer,
                                        uint64_t leader, uint32_t held, uint64_t snap);
hidewillow_told hidewillow_engine_fence(uint64_t leadership, uint64_t gap, uint32_t answer,
                                        uint64_t leader, uint64_t fenced);
hidewillow_told hidewillow_engine_round(uint64_t leadership, uint64_t number, uint32_t answer,
                                        uint64_t leader);
/* Of a try to lead by a word that nobody else puts: `leadership` is its own where it was put, else that of
 * the leader that was seen; `held` is 1 where that leader has this very word, else another number than 0. */
hidewillow_told hidewillow_engine_lead(uint32_t answer, uint64_t leadership, uint32_t held);

/* Rounds, by which such a host knows that it still leads before it tells what it carried out. The host has
 * them, one for a leadership: they begin as {0}, and only these calls change them. They want no memory, and
 * nothing is to be closed.
 *
 * When something that came on a channel was carried out the host keeps what _carried_out answers as the mark
 * of that channel. Before a batch is sent for the first time, and before it is asked whether the leadership
 * holds, the host calls _take: the batch, or the question, stands for that round; where nothing waits for
 * one, for the last that was taken. Once the batch is SYNCED, or the question is told STILL, the host says so
 * by _still; after OVER or LOST it calls _lost. What a channel puts out may be sent once _may_tell says so of
 * its mark: then nothing that it tells was old when it was carried out.
 *
 * What is refused tells its number, and nothing has changed: of a call of rounds 1 over, 2 nothing waits,
 * 3 no number is left, 4 unknown, as of a round that was not taken; that is all. */
typedef struct {
    uint64_t taken;  /* how many rounds were taken */
    uint64_t held;   /* the last of which it is known that the host led after it */
    bool is_waiting; /* whether something waits for the next */
    bool is_over;    /* whether the host leads no more */
} hidewillow_rounds;

/* Something was carried out: answers its mark. */
uint64_t hidewillow_rounds_carried_out(hidewillow_rounds *rounds);

/* Takes the next round. Told: DONE, with its number; REFUSED 1, 2 or 3, the first that holds. */
hidewillow_told hidewillow_rounds_take(hidewillow_rounds *rounds);

/* The host led at some moment after this round was taken. Told: DONE, also where that is known of a later
 * one; REFUSED 4. */
hidewillow_told hidewillow_rounds_still(hidewillow_rounds *rounds, uint64_t round);

/* The host leads no more: no round is taken, and what is carried out waits for none. */
void hidewillow_rounds_lost(hidewillow_rounds *rounds);

/* Whether what has this mark may be told. */
bool hidewillow_rounds_may_tell(const hidewillow_rounds *rounds, uint64_t mark);

#ifdef __cplusplus
}
#endif
#endif
