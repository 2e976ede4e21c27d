/* Hidewillow's epochs for C: what of the work of real processes may be shown, and what is taken
 * back, while the epochs that it is done in wait for a server's replies.
 *
 * An epoch begins at a checkpoint of the host's, which it goes back to where the server refuses it.
 * What happens belongs to the newest epoch without its reply; where none waits, it counts at once.
 * Replies come in the order in which epochs began. With an accepted epoch what happened in it
 * counts; with a refused one all later ones are refused, and what happened in them is undone, but
 * for what the server told. Checkpoints, names, versions and outputs are numbers of the host; names
 * begin at 1.
 *
 * Epochs are held by a handle, which begins as {0}, and holds nothing then. A handle is passed by its
 * address, never written, and used by one thread at a time. hidewillow_epochs_close lets go of what
 * it holds, after which it may be opened again. Memory comes from malloc, realloc and free. No call
 * starts a thread, waits, or ends the process.
 *
 * What the proofs take for granted, and nothing tests: a handle is {0} or as the last call left it,
 * and no pointer is null.
 */
#ifndef HIDEWILLOW_EPOCHS_H
#define HIDEWILLOW_EPOCHS_H

#include <stddef.h>
#include <stdint.h>

#ifdef __cplusplus
extern "C" {
#endif

typedef struct { void *at; } hidewillow_epochs;

enum hidewillow_epochs_answer {
    HIDEWILLOW_EPOCHS_DONE = 0,    /* it is done; `number` is the epoch that began, or a checkpoint */
    HIDEWILLOW_EPOCHS_SHOWN = 1,   /* `number` is what was asked for */
    HIDEWILLOW_EPOCHS_NONE = 2,    /* there is none */
    HIDEWILLOW_EPOCHS_YES = 3,     /* it is so */
    HIDEWILLOW_EPOCHS_NO = 4,      /* it is not */
    HIDEWILLOW_EPOCHS_REFUSED = 5, /* nothing has changed; `number` is the reason: 1 no name,
                                      2 changed, 3 too many, 4 no number, 5 no limit */
    HIDEWILLOW_EPOCHS_MEMORY = 6,  /* want of memory: nothing has changed */
    HIDEWILLOW_EPOCHS_HELD = 7,    /* the handle holds epochs already */
    HIDEWILLOW_EPOCHS_CLOSED = 8   /* the handle holds nothing */
};

/* What a call is told. */
typedef struct {
    uint32_t answer;
    uint64_t number;
    size_t names; /* of a refusal, how many names are undone; else 0 */
} hidewillow_epochs_answered;

/* Epochs of which nothing has happened: DONE. So many may wait for their replies at once; with 0 the
 * call is refused with reason 5. */
hidewillow_epochs_answered hidewillow_epochs_open(hidewillow_epochs *epochs, uint16_t limit);

/* All stands at this checkpoint, and an epoch begins: DONE, and its number. Refused with reason 3
 * where as many wait as may, with 4 where the last number is taken. */
hidewillow_epochs_answered hidewillow_epochs_begin(hidewillow_epochs *epochs, uint64_t checkpoint);

/* The processes change what is known of a name, to a version, or to nothing: DONE. Refused with reason 1
 * where the name is 0. */
hidewillow_epochs_answered hidewillow_epochs_changed(hidewillow_epochs *epochs, uint64_t name,
                                                     uint64_t version);
hidewillow_epochs_answered hidewillow_epochs_forgot(hidewillow_epochs *epochs, uint64_t name);

/* The server tells the version of a name, or that it is gone, whatever the processes do: DONE. Refused
 * with reason 1 where the name is 0, with 2 where an epoch without its reply has changed it. */
hidewillow_epochs_answered hidewillow_epochs_told(hidewillow_epochs *epochs, uint64_t name,
                                                  uint64_t version);
hidewillow_epochs_answered hidewillow_epochs_lost(hidewillow_epochs *epochs, uint64_t name);

/* The processes say an output on a stream: DONE. */
hidewillow_epochs_answered hidewillow_epochs_said(hidewillow_epochs *epochs, uint16_t stream,
                                                  uint64_t output);

/* The next output of a stream that may be shown, each once: SHOWN, or NONE. */
hidewillow_epochs_answered hidewillow_epochs_shown(hidewillow_epochs *epochs, uint16_t stream);

/* The server accepted the oldest epoch: DONE, and its checkpoint; NONE where no epoch waits. */
hidewillow_epochs_answered hidewillow_epochs_accepted(hidewillow_epochs *epochs);

/* The server refused the oldest epoch, and with it all others: DONE, the checkpoint that all goes back
 * to, and in `names` how many names are undone; NONE where no epoch waits. This takes no memory. */
hidewillow_epochs_answered hidewillow_epochs_refused(hidewillow_epochs *epochs);

/* One of the names that the last refusal has undone, by its place from 0 on, rising: SHOWN, or NONE. */
hidewillow_epochs_answered hidewillow_epochs_undone(hidewillow_epochs *epochs, size_t place);

/* The version that is known of a name now: SHOWN, or NONE. */
hidewillow_epochs_answered hidewillow_epochs_version(hidewillow_epochs *epochs, uint64_t name);

/* Whether an epoch without its reply has changed a name: YES or NO. */
hidewillow_epochs_answered hidewillow_epochs_has_changed(hidewillow_epochs *epochs, uint64_t name);

/* Whether an epoch without its reply goes back to a checkpoint: YES, or NO, and it may be let go of. */
hidewillow_epochs_answered hidewillow_epochs_needs(hidewillow_epochs *epochs, uint64_t checkpoint);

/* Whether what can't be taken back may be done now, since no epoch waits: YES or NO. */
hidewillow_epochs_answered hidewillow_epochs_may_act(hidewillow_epochs *epochs);

/* How many epochs wait for their replies: SHOWN. */
hidewillow_epochs_answered hidewillow_epochs_undecided(hidewillow_epochs *epochs);

/* Ends what the handle holds; epochs that still wait are refused. */
void hidewillow_epochs_close(hidewillow_epochs *epochs);

#ifdef __cplusplus
}
#endif

#endif
