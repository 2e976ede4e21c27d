/* A desk whose server is another process, at the other end of a socket pair: a process goes on from cached copies while the
 * server's replies are on their way. One copy was stale, so what was done from it is taken back and done again. */
#include "hidewillow.h"

#include <stdio.h>
#include <string.h>
#include <sys/socket.h>
#include <sys/wait.h>
#include <unistd.h>

static const char start[] =
    "script seller\n"
    "fetch /stock\n"
    "say\n"
    "fetch /price\n"
    "say\n"
    "store /log\n"
    "end\n"
    "script reader\n"
    "fetch /news\n"
    "say\n"
    "end\n"
    "copy /stock 3 \"three left\"\n"
    "copy /price 7 \"9 coins\"\n"
    "process 1 seller 1\n"
    "process 2 reader 2\n"
    "world\n";

/* Enough for each request of these scripts, and for each reply. */
enum { ROOM = 4096 };

/* ---- moving bytes */

static int read_all(int socket, uint8_t *into, size_t count)
{
    while (count) {
        ssize_t got = read(socket, into, count);
        if (got <= 0) return 0;
        into += got;
        count -= (size_t)got;
    }
    return 1;
}

static int write_all(int socket, const uint8_t *from, size_t count)
{
    while (count) {
        ssize_t put = write(socket, from, count);
        if (put <= 0) return 0;
        from += put;
        count -= (size_t)put;
    }
    return 1;
}

/* Reads a message whose first bytes tell how many stand behind them: how long it is, or 0. */
static size_t receive(int socket, uint8_t *room, size_t head, size_t (*left)(const uint8_t *head))
{
    if (!read_all(socket, room, head)) return 0;
    size_t behind = left(room);
    if (behind > ROOM - head || !read_all(socket, room + head, behind)) return 0;
    return head + behind;
}

/* ---- the server, in a process of its own */

typedef struct {
    const char *name;
    uint64_t version;
    size_t count;
    uint8_t bytes[512];
} file;

static file files[] = {
    {"/stock", 4, 8, "two left"},
    {"/price", 7, 7, "9 coins"},
    {"/news", 1, 9, "open late"},
    {"/log", 0, 0, ""},
};

static file *file_of(const hidewillow_request *request)
{
    for (size_t i = 0; i < sizeof files / sizeof *files; i++)
        if (strlen(files[i].name) == request->name_bytes && !memcmp(files[i].name, request->name, request->name_bytes))
            return &files[i];
    return NULL;
}

/* The guesses that were refused, on which a later request may depend. */
static uint64_t refused[64];
static size_t refused_count;

static int rests_on_refused(const hidewillow_request *request)
{
    for (size_t i = 0; i < request->rests_count; i++)
        for (size_t j = 0; j < refused_count; j++)
            if (hidewillow_number_at(request->rests, i) == refused[j]) return 1;
    return 0;
}

static uint64_t kind_for(const hidewillow_request *request, file *file)
{
    if (rests_on_refused(request)) return HIDEWILLOW_IS_DROPPED;
    if (request->kind == HIDEWILLOW_GET) return HIDEWILLOW_IS_COPY;
    return file->version == request->version ? HIDEWILLOW_IS_YES : HIDEWILLOW_IS_NO;
}

static void store(file *file, const hidewillow_request *request)
{
    file->version++;
    file->count = request->stored_bytes;
    memcpy(file->bytes, request->stored, request->stored_bytes);
}

/* Answers a request, and says how long the reply is, 0 where there is none. */
static size_t answer(const hidewillow_request *request, uint8_t *room)
{
    file *file = file_of(request);
    if (!file) return 0;
    uint64_t kind = kind_for(request, file);
    int sends = kind == HIDEWILLOW_IS_NO || kind == HIDEWILLOW_IS_COPY;
    if (kind == HIDEWILLOW_IS_YES && request->kind == HIDEWILLOW_STORE) store(file, request);
    if (request->guess && kind != HIDEWILLOW_IS_YES && refused_count < 64) refused[refused_count++] = request->guess;
    return hidewillow_reply_to(room, request->number, kind, sends ? file->version : 0, file->bytes, sends ? file->count : 0);
}

static int serve(int socket)
{
    static uint8_t room[ROOM], out[HIDEWILLOW_REPLY_BYTES];
    size_t count;
    while ((count = receive(socket, room, HIDEWILLOW_REQUEST_HEAD, hidewillow_request_left))) {
        hidewillow_request request;
        if (!hidewillow_request_of(room, count, &request)) return 1;
        size_t replied = answer(&request, out);
        if (!replied || !write_all(socket, out, replied)) return 1;
    }
    return 0;
}

/* ---- the client */

/* Sends the requests that wait. */
static int send_requests(hidewillow_desk *desk, int socket)
{
    static uint8_t room[ROOM];
    for (;;) {
        hidewillow_told told = hidewillow_desk_request(desk, room, sizeof room);
        if (told.answer == HIDEWILLOW_IDLE) return 1;
        if (told.answer != HIDEWILLOW_SHOWN || told.bytes > sizeof room) return 0;
        if (!write_all(socket, room, told.bytes)) return 0;
    }
}

static const char *named(uint32_t answer)
{
    switch (answer) {
    case HIDEWILLOW_STEPPED: return "stepped";
    case HIDEWILLOW_GUESSED: return "guessed";
    case HIDEWILLOW_ASKED: return "asked";
    case HIDEWILLOW_COMMITTED: return "committed";
    case HIDEWILLOW_FAILED: return "failed";
    case HIDEWILLOW_GONE: return "gone";
    case HIDEWILLOW_TAKEN: return "taken";
    case HIDEWILLOW_FORGOTTEN: return "forgotten";
    default: return "refused";
    }
}

/* Takes turns of a process as long as it can go on, without a wait for a reply. */
static int turns(hidewillow_desk *desk, const char *process)
{
    for (;;) {
        hidewillow_told told = hidewillow_desk_turn(desk, (const uint8_t *)process, strlen(process));
        if (told.answer == HIDEWILLOW_REFUSED) return 1;
        if (told.answer > HIDEWILLOW_GUESSED && told.answer != HIDEWILLOW_ASKED) return 0;
        printf("process %s: %s %llu\n", process, named(told.answer), (unsigned long long)told.number);
    }
}

/* Waits for the replies to all requests, and gives them. */
static int replies(hidewillow_desk *desk, int socket)
{
    static uint8_t room[ROOM];
    while (hidewillow_desk_pending(desk).bytes) {
        size_t count = receive(socket, room, HIDEWILLOW_REPLY_HEAD, hidewillow_reply_left);
        if (!count) return 0;
        hidewillow_told told = hidewillow_desk_reply(desk, room, count);
        printf("reply: %s %llu\n", named(told.answer), (unsigned long long)told.number);
        if (told.answer < HIDEWILLOW_COMMITTED && told.answer != HIDEWILLOW_GONE) return 0;
    }
    return 1;
}

static int show(hidewillow_desk *desk)
{
    uint8_t room[ROOM] = {0};
    for (uint16_t number = 1; number <= 2; number++) {
        hidewillow_told told = hidewillow_desk_terminal(desk, number, room, sizeof room);
        if (told.answer != HIDEWILLOW_SHOWN) return 0;
        printf("%.*s", (int)told.bytes, (const char *)room);
    }
    return 1;
}

static int play(hidewillow_desk *desk, int socket)
{
    for (int round = 0; round < 2; round++) {
        if (!turns(desk, "1") || !turns(desk, "2")) return 0;
        if (!show(desk) || !send_requests(desk, socket) || !replies(desk, socket)) return 0;
    }
    if (!turns(desk, "1") || !turns(desk, "2")) return 0;
    return show(desk);
}

/* Ends the epoch, behind which what was released is still there. */
static int end_epoch(hidewillow_desk *desk)
{
    uint8_t room[ROOM] = {0};
    if (hidewillow_desk_epoch(desk).answer != HIDEWILLOW_DONE) return 0;
    for (size_t place = 0;; place++) {
        hidewillow_told told = hidewillow_desk_left(desk, 1, place, room, sizeof room);
        if (told.answer != HIDEWILLOW_SHOWN) break;
        printf("left: %.*s\n", (int)told.bytes, (const char *)room);
    }
    return show(desk);
}

int main(void)
{
    int pair[2], status = 1;
    if (socketpair(AF_UNIX, SOCK_STREAM, 0, pair)) return 1;
    pid_t server = fork();
    if (server < 0) return 1;
    if (!server) {
        close(pair[0]);
        _exit(serve(pair[1]));
    }
    close(pair[1]);
    hidewillow_desk desk = {0};
    int is_played = hidewillow_desk_open(&desk, (const uint8_t *)start, strlen(start)).answer == HIDEWILLOW_OPENED &&
        play(&desk, pair[0]) && end_epoch(&desk);
    hidewillow_desk_close(&desk);
    close(pair[0]);
    waitpid(server, &status, 0);
    return is_played && !status ? 0 : 1;
}
