/* Clients at work on a server of RESP: how many commands a second it answers, and how long they wait.
 *
 *   load PORT mix CONNECTIONS PERCENT_OF_READS PIPELINE SECONDS
 *   load PORT chain COMMANDS [spec]
 *
 * A mix is of GET and SET of 10,000 keys with values of 100 bytes; each connection sends as many commands as its pipeline has, and
 * the next ones when all are answered. It prints commands, seconds, and the medians of reads and of writes in microseconds, where the
 * pipeline is 1. A chain is of INCR of one key, each sent when the one before is answered; with `spec` answers come ahead, and WAITALL
 * ends it. It prints the seconds that it took. */
#define _GNU_SOURCE
#include <arpa/inet.h>
#include <netinet/tcp.h>
#include <stdint.h>
#include <stdio.h>
#include <stdlib.h>
#include <string.h>
#include <sys/epoll.h>
#include <sys/socket.h>
#include <time.h>
#include <unistd.h>

#define KEYS 10000
#define MOST 1000
#define DEEPEST 64
#define BUCKETS 500000 /* of a microsecond */
#define SET_REPLY 5    /* +OK and its end */
#define GET_REPLY 108  /* $100, the value, and their ends */

static struct { int fd, is_read; uint64_t begun; size_t wanted; } links[MOST];
static uint64_t waits[2][BUCKETS], counts[2], state = 88172645463325252u;
static int reads, pipeline;

static uint64_t now(void) {
    struct timespec at;
    clock_gettime(CLOCK_MONOTONIC, &at);
    return (uint64_t)at.tv_sec * 1000000 + (uint64_t)at.tv_nsec / 1000;
}

static uint64_t dice(uint64_t below) {
    state ^= state << 13, state ^= state >> 7, state ^= state << 17;
    return state % below;
}

static _Noreturn void stop(const char *why) {
    fprintf(stderr, "load: %.60s\n", why);
    exit(1);
}

static int connected(int port) {
    struct sockaddr_in to = {.sin_family = AF_INET, .sin_addr.s_addr = htonl(INADDR_LOOPBACK), .sin_port = htons((uint16_t)port)};
    int fd = socket(AF_INET, SOCK_STREAM, 0), one = 1;
    if (connect(fd, (struct sockaddr *)&to, sizeof to) < 0) stop("no connection");
    setsockopt(fd, IPPROTO_TCP, TCP_NODELAY, &one, sizeof one);
    return fd;
}

static void send_all(int fd, const char *text, size_t len) {
    while (len) {
        ssize_t put = write(fd, text, len);
        if (put <= 0) stop("a write failed");
        text += put, len -= (size_t)put;
    }
}

static size_t put_set(char *text, int key) {
    return (size_t)sprintf(text, "*3\r\n$3\r\nSET\r\n$8\r\nkey%05d\r\n$100\r\n%0100d\r\n", key, key);
}

static void ask(int of) {
    static char text[DEEPEST * 256];
    size_t len = 0;
    links[of].wanted = 0;
    for (int at = 0; at < pipeline; at++) {
        int key = (int)dice(KEYS), is_read = (int)dice(100) < reads;
        links[of].is_read = is_read;
        if (is_read) len += (size_t)sprintf(text + len, "*2\r\n$3\r\nGET\r\n$8\r\nkey%05d\r\n", key);
        else len += put_set(text + len, key);
        links[of].wanted += is_read ? GET_REPLY : SET_REPLY;
    }
    links[of].begun = now();
    send_all(links[of].fd, text, len);
}

static uint64_t median(int of) {
    uint64_t seen = 0, at;
    for (at = 0; at < BUCKETS && (seen += waits[of][at]) * 2 < counts[of]; at++) {}
    return counts[of] ? at : 0;
}

/* Sets all keys. */
static void fill(int fd) {
    static char text[100 * 256];
    for (int first = 0; first < KEYS; first += 100) {
        size_t len = 0, left = 100 * SET_REPLY;
        for (int key = first; key < first + 100; key++) len += put_set(text + len, key);
        send_all(fd, text, len);
        while (left) {
            ssize_t got = read(fd, text, left);
            if (got <= 0) stop("the server is gone");
            left -= (size_t)got;
        }
    }
}

/* Takes what came on a connection, and asks again where all is answered; how many commands that were. */
static uint64_t take(int of) {
    static char text[1 << 16];
    ssize_t got = read(links[of].fd, text, sizeof text);
    uint64_t took;
    if (got <= 0 || text[0] == '-') stop(got > 0 ? text : "the server is gone");
    links[of].wanted -= (size_t)got;
    if (links[of].wanted) return 0;
    took = now() - links[of].begun;
    if (pipeline == 1) {
        waits[links[of].is_read][took < BUCKETS ? took : BUCKETS - 1]++;
        counts[links[of].is_read]++;
    }
    ask(of);
    return (uint64_t)pipeline;
}

static int mix(int port, int connections, double seconds) {
    struct epoll_event events[MOST];
    int epoll = epoll_create1(0);
    uint64_t begun, until, answered = 0;
    if (connections < 1 || connections > MOST || pipeline < 1 || pipeline > DEEPEST) stop("too many or too few");
    for (int of = 0; of < connections; of++) {
        struct epoll_event event = {.events = EPOLLIN, .data.u32 = (uint32_t)of};
        links[of].fd = connected(port);
        epoll_ctl(epoll, EPOLL_CTL_ADD, links[of].fd, &event);
    }
    fill(links[0].fd);
    begun = now(), until = begun + (uint64_t)(seconds * 1e6);
    for (int of = 0; of < connections; of++) ask(of);
    while (now() < until) {
        int ready = epoll_wait(epoll, events, MOST, 100);
        for (int at = 0; at < ready; at++) answered += take((int)events[at].data.u32);
    }
    printf("%lu %f %lu %lu\n", answered, (double)(now() - begun) / 1e6, median(1), median(0));
    return 0;
}

/* Sends a request and waits for a line of an answer. */
static void told(int fd, const char *request) {
    char text[256];
    size_t len = 0;
    send_all(fd, request, strlen(request));
    do {
        ssize_t got = read(fd, text + len, sizeof text - len);
        if (got <= 0 || (len += (size_t)got) == sizeof text) stop("the server is gone");
    } while (text[len - 1] != '\n');
    if (memchr(text, '-', len > 2 ? 2 : len)) stop(text);
}

static int chain(int port, int commands, int is_spec) {
    int fd = connected(port);
    uint64_t begun;
    if (is_spec) told(fd, "*1\r\n$4\r\nSPEC\r\n");
    begun = now();
    for (int at = 0; at < commands; at++) told(fd, "*2\r\n$4\r\nINCR\r\n$5\r\nchain\r\n");
    if (is_spec) told(fd, "*1\r\n$7\r\nWAITALL\r\n");
    printf("%f\n", (double)(now() - begun) / 1e6);
    return 0;
}

int main(int count, char **words) {
    if (count >= 4 && !strcmp(words[2], "chain")) return chain(atoi(words[1]), atoi(words[3]), count > 4);
    if (count != 7 || strcmp(words[2], "mix")) return 2;
    reads = atoi(words[4]), pipeline = atoi(words[5]);
    return mix(atoi(words[1]), atoi(words[3]), atof(words[6]));
}
