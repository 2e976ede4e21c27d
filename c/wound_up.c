/* A store whose log lies in a consensus engine, and whose host leads no more: its first batch is synced, the second is lost, and the
 * third was never sent. Both are refused, and so is what was read of them. */
#include "hidewillow.h"

#include <stdio.h>
#include <string.h>

static void feed(hidewillow_store *store, uint16_t channel, const char *text)
{
    hidewillow_store_feed(store, channel, (const uint8_t *)text, strlen(text));
}

/* Takes the next frame, which the engine is asked to put: its number. */
static uint64_t send_frame(hidewillow_store *store)
{
    uint8_t room[256] = {0};
    hidewillow_frame_place place = {0};
    hidewillow_store_take_frame(store, room, sizeof room, &place);
    return place.frame;
}

/* Prints what a channel of a store is told. */
static void print_output(hidewillow_store *store, uint16_t channel)
{
    uint8_t room[256] = {0};
    hidewillow_told told;
    while ((told = hidewillow_store_output(store, channel, room, sizeof room)).answer == HIDEWILLOW_DONE && told.bytes)
        for (size_t at = 0; at < told.bytes; at++)
            if (room[at] != '\r') putchar(room[at]);
}

static void print_counts(hidewillow_store *store)
{
    uint8_t room[256] = {0};
    hidewillow_store_counted counted = {0};
    hidewillow_store_counts(store, &counted);
    hidewillow_told told = hidewillow_store_value(store, (const uint8_t *)"key", 3, room, sizeof room);
    printf("key has %.*s: %llu frames in flight, %zu bytes undecided, %zu answers\n", (int)told.bytes, room,
           (unsigned long long)counted.in_flight, counted.undecided, counted.answers);
}

static void wind_up(hidewillow_store *store, size_t room_bytes)
{
    uint8_t room[256] = {0};
    hidewillow_told told = hidewillow_store_lost(store, room, room_bytes);
    printf("lost in %zu bytes: %u, %llu\n", room_bytes, told.answer, (unsigned long long)told.number);
}

int main(void)
{
    hidewillow_recovery recovery = {0};
    hidewillow_store store = {0};
    hidewillow_store_limits limits = {.words = 16, .bytes = 128, .line = 64, .waiting = 1024, .segment = 4096, .undecided = 200, .commands = 16, .in_flight = 4};
    hidewillow_read_counted read = {0};
    hidewillow_frame_place place = {0};
    uint8_t head[24] = {0};
    hidewillow_recovery_open(&recovery, 1);
    hidewillow_recovery_end(&recovery, 0, 0, &read);
    hidewillow_store_open(&store, &recovery, &limits, 1, head, sizeof head, &place);
    uint16_t channel = (uint16_t)hidewillow_store_connect(&store).number;
    feed(&store, channel, "SET key a\r\n");
    uint64_t first = send_frame(&store);
    feed(&store, channel, "APPEND key b\r\n");
    uint64_t second = send_frame(&store);
    feed(&store, channel, "SET other c\r\n");
    feed(&store, channel, "GET key\r\n");
    print_counts(&store);
    wind_up(&store, 224);
    hidewillow_store_synced(&store, first);
    wind_up(&store, 224);
    hidewillow_store_failed(&store, second);
    wind_up(&store, 30);
    print_counts(&store);
    wind_up(&store, 224);
    print_counts(&store);
    print_output(&store, channel);
    wind_up(&store, 24);
    hidewillow_store_close(&store);
    return 0;
}
