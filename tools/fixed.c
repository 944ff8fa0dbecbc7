/* A server of HTTP on 127.0.0.1 that answers each request with the bytes of one file, a whole
 * response with its head, and looks at nothing of what is asked but where it ends. A request is
 * one recv and one send, or one sendfile where the response is large: a sendfile of 1 MB takes
 * less than half of a send from memory, of 10 kB it takes more. No server of files in one thread
 * does less: it has a target to read, a file to find and a head to write besides.
 *
 *     fixed FILE [memory]
 *
 * With the argument `memory` a large response is sent from memory, too.
 * It prints the port on which it listens, and serves until it is killed. */
#include <arpa/inet.h>
#include <errno.h>
#include <fcntl.h>
#include <netinet/tcp.h>
#include <signal.h>
#include <stdio.h>
#include <stdlib.h>
#include <string.h>
#include <sys/epoll.h>
#include <sys/sendfile.h>
#include <sys/socket.h>
#include <sys/stat.h>
#include <unistd.h>

enum { LARGE = 1 << 16 };

struct connection {
    int socket;
    int ends_seen; /* how much of a head's end, CR LF CR LF, the last bytes are */
    int owed;      /* responses that aren't sent */
    off_t sent;    /* of the first of them */
};

static int file, from_memory;
static char *response;
static off_t response_len;

static void stop(const char *what) {
    fprintf(stderr, "fixed: %s (%s)\n", what, strerror(errno));
    exit(1);
}

static void load(const char *path) {
    struct stat about;
    file = open(path, O_RDONLY);
    if (file < 0 || fstat(file, &about)) stop(path);
    response_len = about.st_size;
    response = malloc((size_t)response_len);
    if (!response || pread(file, response, (size_t)response_len, 0) != response_len) stop(path);
}

static ssize_t send_piece(struct connection *c) {
    size_t left = (size_t)(response_len - c->sent);
    if (from_memory) return send(c->socket, response + c->sent, left, MSG_NOSIGNAL);
    off_t from = c->sent;
    return sendfile(c->socket, file, &from, left);
}

/* False where the connection is over. */
static int send_owed(struct connection *c) {
    while (c->owed) {
        ssize_t n = send_piece(c);
        if (n < 0) return errno == EAGAIN;
        c->sent += n;
        if (c->sent == response_len) {
            c->sent = 0;
            c->owed--;
        }
    }
    return 1;
}

/* Counts the heads that end in what has come. False where the connection is over. */
static int receive(struct connection *c) {
    char piece[16384];
    ssize_t n = recv(c->socket, piece, sizeof piece, 0);
    if (n < 0) return errno == EAGAIN;
    for (ssize_t i = 0; i < n; i++) {
        if (piece[i] == "\r\n\r\n"[c->ends_seen]) c->ends_seen++;
        else c->ends_seen = piece[i] == '\r';
        if (c->ends_seen == 4) {
            c->ends_seen = 0;
            c->owed++;
        }
    }
    return n > 0;
}

static void open_listener(int listener) {
    struct sockaddr_in name = {.sin_family = AF_INET, .sin_addr.s_addr = htonl(INADDR_LOOPBACK)};
    socklen_t len = sizeof name;
    if (bind(listener, (struct sockaddr *)&name, len) || listen(listener, 128)) stop("cannot listen");
    getsockname(listener, (struct sockaddr *)&name, &len);
    printf("%d\n", ntohs(name.sin_port));
    fflush(stdout);
}

static void place(int poller, int socket) {
    int one = 1;
    struct connection *c = calloc(1, sizeof *c);
    if (!c) stop("no memory");
    setsockopt(socket, IPPROTO_TCP, TCP_NODELAY, &one, sizeof one);
    c->socket = socket;
    struct epoll_event of = {.events = EPOLLIN | EPOLLOUT | EPOLLET, .data.ptr = c};
    if (epoll_ctl(poller, EPOLL_CTL_ADD, socket, &of)) stop("cannot watch");
}

int main(int count, char **words) {
    if (count < 2) {
        fprintf(stderr, "fixed FILE [memory]\n");
        return 2;
    }
    load(words[1]);
    from_memory = count > 2 || response_len < LARGE;
    signal(SIGPIPE, SIG_IGN);
    int listener = socket(AF_INET, SOCK_STREAM | SOCK_NONBLOCK, 0), poller = epoll_create1(0);
    open_listener(listener);
    struct epoll_event event = {.events = EPOLLIN, .data.ptr = NULL};
    if (epoll_ctl(poller, EPOLL_CTL_ADD, listener, &event)) stop("cannot watch");
    for (;;) {
        struct epoll_event events[64];
        int ready = epoll_wait(poller, events, 64, -1);
        for (int i = 0; i < ready; i++) {
            struct connection *c = events[i].data.ptr;
            if (!c) {
                int socket = accept4(listener, NULL, NULL, SOCK_NONBLOCK);
                if (socket >= 0) place(poller, socket);
            } else if (!((events[i].events & EPOLLIN) == 0 || receive(c)) || !send_owed(c)) {
                close(c->socket);
                free(c);
            }
        }
    }
}
