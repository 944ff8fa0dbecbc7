/* Opens connections to a server of HTTP on 127.0.0.1, each for one request.
 *
 *     connect PORT COUNT
 *
 * Fifty are open at once. Each asks for /none, and is reset once it was answered by 404, so that the
 * system keeps nothing of it. Where one isn't answered so, the run ends with status 1 and a line that
 * says how many were. A line is printed after each 100,000. */
#include <arpa/inet.h>
#include <errno.h>
#include <netinet/tcp.h>
#include <stdio.h>
#include <stdlib.h>
#include <string.h>
#include <sys/socket.h>
#include <sys/time.h>
#include <unistd.h>

enum { AT_ONCE = 50, ROOM = 4096 };

static const char request[] = "GET /none HTTP/1.1\r\nhost: localhost\r\n\r\n";
static const char wanted[] = "HTTP/1.1 404 ";
static struct sockaddr_in server;
static long answered;

static void stop(const char *what) {
    printf("%s after %ld (%s)\n", what, answered, strerror(errno));
    exit(1);
}

/* Opens a connection, and asks. A call that takes more than ten seconds fails. */
static int ask(void) {
    struct timeval patience = {.tv_sec = 10};
    int one = 1, to = socket(AF_INET, SOCK_STREAM, 0);
    if (to < 0) stop("no socket");
    setsockopt(to, SOL_SOCKET, SO_RCVTIMEO, &patience, sizeof patience);
    setsockopt(to, SOL_SOCKET, SO_SNDTIMEO, &patience, sizeof patience);
    setsockopt(to, IPPROTO_TCP, TCP_NODELAY, &one, sizeof one);
    if (connect(to, (struct sockaddr *)&server, sizeof server)) stop("cannot connect");
    if (send(to, request, sizeof request - 1, MSG_NOSIGNAL) != sizeof request - 1) stop("cannot send");
    return to;
}

/* Reads what comes, and resets the connection. */
static void receive(int from) {
    struct linger at_once = {.l_onoff = 1, .l_linger = 0};
    char response[ROOM];
    ssize_t got = recv(from, response, ROOM, 0);
    if (got < (ssize_t)sizeof wanted - 1 || memcmp(response, wanted, sizeof wanted - 1)) stop("no answer");
    setsockopt(from, SOL_SOCKET, SO_LINGER, &at_once, sizeof at_once);
    close(from);
    if (++answered % 100000 == 0) fprintf(stderr, "%ld connections\n", answered);
}

int main(int count, char **words) {
    if (count != 3) {
        fprintf(stderr, "connect PORT COUNT\n");
        return 2;
    }
    long left = atol(words[2]);
    server.sin_family = AF_INET;
    server.sin_port = htons((unsigned short)atoi(words[1]));
    server.sin_addr.s_addr = htonl(INADDR_LOOPBACK);
    while (left > 0) {
        int open[AT_ONCE], some = left < AT_ONCE ? (int)left : AT_ONCE;
        for (int i = 0; i < some; i++) open[i] = ask();
        for (int i = 0; i < some; i++) receive(open[i]);
        left -= some;
    }
    printf("%ld answered\n", answered);
    return 0;
}
