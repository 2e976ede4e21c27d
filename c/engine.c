/* What the answers of a consensus engine tell a host of leadership 3, of its batch 7, its fence at gap 5 and its round 2; and a
 * host's rounds. */
#include "hidewillow.h"

#include <stdio.h>

static const char *const words[] = {"Synced", "Lost", "Unknowable", "Still", "Serves", "Over", "Again", "Claimed", "Waits", "Breach"};

/* Prints what is told, with its number where it has one. */
static void tell(hidewillow_told told)
{
    if (told.answer <= HIDEWILLOW_ENGINE_STILL || told.answer == HIDEWILLOW_ENGINE_CLAIMED) printf(": %s(%llu)\n", words[told.answer], (unsigned long long)told.number);
    else printf(": %s\n", words[told.answer]);
}

static void batch(uint32_t answer, uint64_t leader, uint32_t held, uint64_t snap)
{
    printf("batch %u, leader %llu, held %u, snap %llu", answer, (unsigned long long)leader, held, (unsigned long long)snap);
    tell(hidewillow_engine_batch(3, 7, answer, leader, held, snap));
}

static void fence(uint32_t answer, uint64_t leader, uint64_t fenced)
{
    printf("fence %u, leader %llu, fenced %llu", answer, (unsigned long long)leader, (unsigned long long)fenced);
    tell(hidewillow_engine_fence(3, 5, answer, leader, fenced));
}

static void ask_round(uint32_t answer, uint64_t leader)
{
    printf("round %u, leader %llu", answer, (unsigned long long)leader);
    tell(hidewillow_engine_round(3, 2, answer, leader));
}

static void lead(uint32_t answer, uint64_t leadership, uint32_t held)
{
    printf("lead %u, leadership %llu, held %u", answer, (unsigned long long)leadership, held);
    tell(hidewillow_engine_lead(answer, leadership, held));
}

static void carry_out(hidewillow_rounds *rounds)
{
    printf("carried out: mark %llu\n", (unsigned long long)hidewillow_rounds_carried_out(rounds));
}

/* Prints what a call of rounds is told. */
static void tell_round(const char *call, hidewillow_told told)
{
    if (told.answer == HIDEWILLOW_DONE) printf("%s: done, %llu\n", call, (unsigned long long)told.number);
    else printf("%s: refused, %llu\n", call, (unsigned long long)told.number);
}

/* Prints of which marks it may be told what has them. */
static void show(const hidewillow_rounds *rounds)
{
    printf("may be told:");
    for (uint64_t mark = 0; mark < 3; mark++)
        if (hidewillow_rounds_may_tell(rounds, mark)) printf(" %llu", (unsigned long long)mark);
    printf("\n");
}

static void rounds_of_a_host(void)
{
    hidewillow_rounds rounds = {0};
    tell_round("take", hidewillow_rounds_take(&rounds));
    carry_out(&rounds);
    tell_round("take", hidewillow_rounds_take(&rounds));
    carry_out(&rounds);
    show(&rounds);
    tell_round("still 2", hidewillow_rounds_still(&rounds, 2));
    tell_round("still 1", hidewillow_rounds_still(&rounds, 1));
    show(&rounds);
    tell_round("take", hidewillow_rounds_take(&rounds));
    carry_out(&rounds);
    hidewillow_rounds_lost(&rounds);
    tell_round("take", hidewillow_rounds_take(&rounds));
    tell_round("still 2", hidewillow_rounds_still(&rounds, 2));
    tell_round("still 1", hidewillow_rounds_still(&rounds, 1));
    carry_out(&rounds);
    show(&rounds);
}

int main(void)
{
    batch(0, 0, 0, 0);
    batch(2, 0, 0, 0);
    for (uint64_t leader = 0; leader < 5; leader += leader ? 1 : 3)
        for (uint32_t held = 0; held < 3; held++)
            for (uint64_t snap = 6; snap < 8; snap++) batch(1, leader, held, snap);
    fence(0, 0, 0);
    fence(2, 0, 0);
    for (uint64_t leader = 0; leader < 5; leader += leader ? 1 : 3)
        for (uint64_t fenced = 2; fenced < 4; fenced++) fence(1, leader, fenced);
    ask_round(2, 0);
    for (uint64_t leader = 0; leader < 5; leader += leader ? 1 : 3) ask_round(1, leader);
    lead(0, 3, 0);
    lead(2, 0, 0);
    for (uint32_t held = 0; held < 3; held++) lead(1, 4, held);
    rounds_of_a_host();
    return 0;
}
