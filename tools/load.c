/* Asks a server of HTTP on 127.0.0.1 for one path over many connections that stay open.
 *
 *     load PORT CONNECTIONS SECONDS STATUS PATH [FIELD..]
 *
 * A FIELD is a whole field of the request's head, such as `accept: text/plain`. Each connection has one request under way. An answer's length is that of its content-length. An
 * answer of another status than STATUS ends the run. Where the server says that it ends a
 * connection (it may, after some number of requests), another is opened in its place.
 *
 * When the seconds are over, what was asked is awaited, so that the server is idle after the run.
 *
 * One line is printed: answers a second, then in microseconds how long the middle answer took, and
 * the 99th of 100, then how much of a processor the client used (1 is all of one: then the client
 * is what is measured), and how many answers came, with those that came late. */
#include <arpa/inet.h>
#include <errno.h>
#include <netinet/tcp.h>
#include <stdio.h>
#include <stdlib.h>
#include <string.h>
#include <strings.h>
#include <sys/epoll.h>
#include <sys/resource.h>
#include <sys/socket.h>
#include <time.h>
#include <unistd.h>

enum { HEAD = 4096, PIECE = 1 << 18, MOST_TIMES = 1 << 22 };

struct connection {
    int socket;
    double asked;
    char head[HEAD];
    size_t head_len;
    long body_left; /* -1: the head isn't whole */
    int last;       /* the server ends the connection after this answer */
};

static char request[2048];
static size_t request_len;
static const char *status;
static struct sockaddr_in server;
static float *times;
static long answers;
static int under_way, poller, over;

static double now(void) {
    struct timespec t;
    clock_gettime(CLOCK_MONOTONIC, &t);
    return t.tv_sec + t.tv_nsec / 1e9;
}

/* Seconds of processor that this process has used. */
static double used(void) {
    struct rusage u;
    getrusage(RUSAGE_SELF, &u);
    return u.ru_utime.tv_sec + u.ru_stime.tv_sec + (u.ru_utime.tv_usec + u.ru_stime.tv_usec) / 1e6;
}

static void stop(const char *what) {
    fprintf(stderr, "load: %s (%s)\n", what, strerror(errno));
    exit(1);
}

static void ask(struct connection *c) {
    c->asked = now();
    c->head_len = 0;
    c->body_left = -1;
    c->last = 0;
    under_way++;
    if (send(c->socket, request, request_len, MSG_NOSIGNAL) != (ssize_t)request_len) stop("cannot send");
}

static void open_one(struct connection *c) {
    int one = 1;
    c->socket = socket(AF_INET, SOCK_STREAM, 0);
    if (connect(c->socket, (struct sockaddr *)&server, sizeof server)) stop("cannot connect");
    setsockopt(c->socket, IPPROTO_TCP, TCP_NODELAY, &one, sizeof one);
    struct epoll_event event = {.events = EPOLLIN, .data.ptr = c};
    if (epoll_ctl(poller, EPOLL_CTL_ADD, c->socket, &event)) stop("cannot watch");
    ask(c);
}

static void done(struct connection *c) {
    if (answers < MOST_TIMES) times[answers] = (float)(now() - c->asked);
    answers++;
    under_way--;
    if (c->last || over) close(c->socket);
    if (over) return;
    if (c->last) {
        open_one(c);
    } else {
        ask(c);
    }
}

/* Reads a head that is whole. */
static void read_head(struct connection *c) {
    char *length = strcasestr(c->head, "\r\ncontent-length:");
    if (strlen(c->head) < 12 || memcmp(c->head + 9, status, 3)) {
        fprintf(stderr, "%s\n", c->head);
        stop("an answer of another status");
    }
    if (!length) stop("an answer without content-length");
    c->body_left = strtol(length + 17, NULL, 10);
    c->last = strcasestr(c->head, "\r\nconnection: close") != NULL;
}

/* Takes what belongs to the head, and says how many bytes that were. */
static size_t take_head(struct connection *c, const char *bytes, size_t len) {
    size_t room = HEAD - 1 - c->head_len, took = len < room ? len : room, before = c->head_len;
    memcpy(c->head + before, bytes, took);
    c->head[before + took] = 0;
    char *end = strstr(c->head, "\r\n\r\n");
    if (!end) {
        c->head_len += took;
        if (c->head_len == HEAD - 1) stop("a head is too long");
        return took;
    }
    end[2] = 0;
    read_head(c);
    return (size_t)(end + 4 - c->head) - before;
}

static void receive(struct connection *c) {
    static char piece[PIECE];
    ssize_t got = recv(c->socket, piece, PIECE, 0);
    if (got <= 0) stop("the server ended a connection");
    size_t at = c->body_left < 0 ? take_head(c, piece, (size_t)got) : 0;
    if (c->body_left < 0) return;
    c->body_left -= got - (ssize_t)at;
    if (c->body_left < 0) stop("more came than was asked for");
    if (c->body_left == 0) done(c);
}

/* Waits for what comes next, and takes it. */
static void wait_once(void) {
    struct epoll_event events[64];
    int ready = epoll_wait(poller, events, 64, 20000);
    if (ready <= 0) stop("nothing comes");
    for (int i = 0; i < ready; i++) receive(events[i].data.ptr);
}

static int by_time(const void *a, const void *b) {
    float x = *(const float *)a, y = *(const float *)b;
    return (x > y) - (x < y);
}

/* Adds to the request. */
static void add(const char *form, const char *text) {
    request_len += (size_t)snprintf(request + request_len, sizeof request - request_len, form, text);
    if (request_len >= sizeof request) stop("the request is too long");
}

int main(int count, char **words) {
    if (count < 6) {
        fprintf(stderr, "load PORT CONNECTIONS SECONDS STATUS PATH [FIELD..]\n");
        return 2;
    }
    int connections = atoi(words[2]);
    double seconds = atof(words[3]);
    status = words[4];
    if (strlen(status) != 3) stop("a status has three digits");
    add("GET %s HTTP/1.1\r\nhost: localhost\r\n", words[5]);
    for (int i = 6; i < count; i++) add("%s\r\n", words[i]);
    add("%s", "\r\n");
    server.sin_family = AF_INET;
    server.sin_port = htons((unsigned short)atoi(words[1]));
    server.sin_addr.s_addr = htonl(INADDR_LOOPBACK);
    times = malloc(sizeof(float) * MOST_TIMES);
    poller = epoll_create1(0);
    struct connection *all = calloc((size_t)connections, sizeof *all);
    if (!times || !all || poller < 0) stop("no memory");
    double began = now(), used_before = used();
    for (int i = 0; i < connections; i++) open_one(&all[i]);
    while (now() < began + seconds) wait_once();
    double took = now() - began, share = (used() - used_before) / took;
    long in_time = answers;
    over = 1;
    while (under_way) wait_once();
    long kept = answers < MOST_TIMES ? answers : MOST_TIMES;
    qsort(times, (size_t)kept, sizeof *times, by_time);
    printf("%.1f %.1f %.1f %.3f %ld\n", (double)in_time / took, times[kept / 2] * 1e6,
        times[kept * 99 / 100] * 1e6, share, answers);
    return 0;
}
