/* Epochs over files of a server: what is shown, what is taken back, what the server tells meanwhile. */
#include "hidewillow_epochs.h"

#include <inttypes.h>
#include <stdio.h>
#include <stdlib.h>

enum { OUT = 1, MAKEFILE = 1, OBJECT = 2, NOTES = 3, NAMES = 3 };

static const char *names[] = {"", "Makefile", "main.o", "notes"};

static hidewillow_epochs_answered must(hidewillow_epochs_answered it, uint32_t answer) {
    if (it.answer != answer) {
        fprintf(stderr, "answer %" PRIu32 " instead of %" PRIu32 "\n", it.answer, answer);
        exit(1);
    }
    return it;
}

/* What may be shown, what is known, and whether something outside may be done. */
static void show(hidewillow_epochs *epochs, const char *when) {
    printf("%s:", when);
    for (uint64_t name = 1; name <= NAMES; name++) {
        hidewillow_epochs_answered known = hidewillow_epochs_version(epochs, name);
        if (known.answer == HIDEWILLOW_EPOCHS_SHOWN)
            printf(" %s %" PRIu64, names[name], known.number);
    }
    for (;;) {
        hidewillow_epochs_answered output = hidewillow_epochs_shown(epochs, OUT);
        if (output.answer == HIDEWILLOW_EPOCHS_NONE)
            break;
        printf(", line %" PRIu64 " is shown", output.number);
    }
    uint64_t waiting = must(hidewillow_epochs_undecided(epochs), HIDEWILLOW_EPOCHS_SHOWN).number;
    int may_act = hidewillow_epochs_may_act(epochs).answer == HIDEWILLOW_EPOCHS_YES;
    printf(", %" PRIu64 " wait, %s\n", waiting, may_act ? "all may act" : "nothing outside may be done");
}

static void refuse(hidewillow_epochs *epochs) {
    hidewillow_epochs_answered back = must(hidewillow_epochs_refused(epochs), HIDEWILLOW_EPOCHS_DONE);
    printf("refused: back to checkpoint %" PRIu64 ", undone:", back.number);
    for (size_t place = 0; place < back.names; place++)
        printf(" %s", names[must(hidewillow_epochs_undone(epochs, place), HIDEWILLOW_EPOCHS_SHOWN).number]);
    printf("\n");
    must(hidewillow_epochs_undone(epochs, back.names), HIDEWILLOW_EPOCHS_NONE);
}

int main(void) {
    hidewillow_epochs epochs = {0};
    must(hidewillow_epochs_begin(&epochs, 1), HIDEWILLOW_EPOCHS_CLOSED);
    must(hidewillow_epochs_open(&epochs, 0), HIDEWILLOW_EPOCHS_REFUSED);
    must(hidewillow_epochs_open(&epochs, 2), HIDEWILLOW_EPOCHS_DONE);
    must(hidewillow_epochs_open(&epochs, 2), HIDEWILLOW_EPOCHS_HELD);
    must(hidewillow_epochs_told(&epochs, MAKEFILE, 10), HIDEWILLOW_EPOCHS_DONE);
    must(hidewillow_epochs_said(&epochs, OUT, 1), HIDEWILLOW_EPOCHS_DONE);
    show(&epochs, "before all");
    must(hidewillow_epochs_begin(&epochs, 100), HIDEWILLOW_EPOCHS_DONE);
    must(hidewillow_epochs_changed(&epochs, OBJECT, 20), HIDEWILLOW_EPOCHS_DONE);
    must(hidewillow_epochs_said(&epochs, OUT, 2), HIDEWILLOW_EPOCHS_DONE);
    must(hidewillow_epochs_begin(&epochs, 101), HIDEWILLOW_EPOCHS_DONE);
    must(hidewillow_epochs_changed(&epochs, OBJECT, 21), HIDEWILLOW_EPOCHS_DONE);
    must(hidewillow_epochs_forgot(&epochs, MAKEFILE), HIDEWILLOW_EPOCHS_DONE);
    must(hidewillow_epochs_said(&epochs, OUT, 3), HIDEWILLOW_EPOCHS_DONE);
    must(hidewillow_epochs_begin(&epochs, 102), HIDEWILLOW_EPOCHS_REFUSED);
    must(hidewillow_epochs_told(&epochs, NOTES, 30), HIDEWILLOW_EPOCHS_DONE);
    must(hidewillow_epochs_has_changed(&epochs, OBJECT), HIDEWILLOW_EPOCHS_YES);
    must(hidewillow_epochs_lost(&epochs, OBJECT), HIDEWILLOW_EPOCHS_REFUSED);
    show(&epochs, "two epochs");
    must(hidewillow_epochs_needs(&epochs, 100), HIDEWILLOW_EPOCHS_YES);
    uint64_t gone = must(hidewillow_epochs_accepted(&epochs), HIDEWILLOW_EPOCHS_DONE).number;
    printf("accepted: checkpoint %" PRIu64 " may go\n", gone);
    must(hidewillow_epochs_needs(&epochs, gone), HIDEWILLOW_EPOCHS_NO);
    show(&epochs, "after it");
    refuse(&epochs);
    show(&epochs, "after that");
    must(hidewillow_epochs_refused(&epochs), HIDEWILLOW_EPOCHS_NONE);
    must(hidewillow_epochs_begin(&epochs, 103), HIDEWILLOW_EPOCHS_DONE);
    hidewillow_epochs_close(&epochs);
    must(hidewillow_epochs_accepted(&epochs), HIDEWILLOW_EPOCHS_CLOSED);
    return 0;
}
