/* What is linked with the program that `fuzz` runs: it checks what the program answers, and ends it by
 * a signal where that is no answer, so that the fuzzer sees it.
 *
 * Without arguments the program reads a publish body from standard input. Either it prints a JSON
 * object and a newline, and ends with 0; or it prints a refusal on standard error, and ends with 1.
 *
 * With arguments it serves one connection. A client of its own connects, sends what comes from
 * standard input, and reads to the end. A `?` for the last content-length stands for the number of
 * bytes that follow its head. What comes are whole responses, at least one where
 * anything was sent, none of them a fault, and nothing comes after one that ends the connection.
 * The copies of the process that the fuzzer makes begin once the registry is open, so each finds its
 * files as they were then; and the clock of the day stands still. */
#include <fcntl.h>
#include <pthread.h>
#include <stdarg.h>
#include <stdio.h>
#include <stdlib.h>
#include <string.h>
#include <sys/file.h>
#include <sys/socket.h>
#include <sys/stat.h>
#include <sys/syscall.h>
#include <time.h>
#include <unistd.h>

enum { MOST = 1 << 24, FILES = 64, MOMENT = 1700000000 };

/* Of afl-compiler-rt.o, which isn't there where this is a library for LD_PRELOAD; and the text by
 * which afl-fuzz sees that the program itself says where its copies begin. */
__attribute__((weak)) void __afl_manual_init(void);
__attribute__((used)) static const char begins_itself[] = "##SIG_AFL_DEFER_FORKSRV##";

static void begin_copies(void)
{
    if (__afl_manual_init) __afl_manual_init();
}

static char sent[MOST], came[MOST], errors[4096];
static size_t sent_len, came_len, errors_len;
static int serves, accepted = -1, has_ended;
static pthread_t client;
static struct sockaddr_storage server;
static socklen_t server_len = sizeof server;
static long lengths[FILES];

static void wrong(const char *what)
{
    fprintf(stderr, "fuzzed: %s: %.*s\n", what, (int)(came_len < 2000 ? came_len : 2000), came);
    abort();
}

extern void __libc_free(void *);

/* What a server lets go once its connection has ended is left: all its pages would be copied first. */
void free(void *place)
{
    if (!has_ended) __libc_free(place);
}

int accept4(int door, struct sockaddr *from, socklen_t *len, int flags)
{
    int file = syscall(SYS_accept4, door, from, len, flags);
    if (file >= 0) accepted = file;
    return file;
}

int close(int file)
{
    if (file == accepted) has_ended = 1;
    return syscall(SYS_close, file);
}

/* ---- what the program prints */

static void keep(int file, const char *text, size_t len)
{
    char *place = file == 1 ? came : errors;
    size_t *held = file == 1 ? &came_len : &errors_len, room = file == 1 ? sizeof came : sizeof errors;
    if (serves || (file != 1 && file != 2)) return;
    if (len > room - *held) len = room - *held;
    memcpy(place + *held, text, len);
    *held += len;
}

ssize_t write(int file, const void *text, size_t len)
{
    ssize_t taken = syscall(SYS_write, file, text, len);
    if (taken > 0) keep(file, text, taken);
    return taken;
}

static int is_refusal(const char *text, size_t len)
{
    static const char front[] = "refused: ";
    size_t at = sizeof front - 1;
    if (len <= at + 1 || memcmp(text, front, at) || text[len - 1] != '\n') return 0;
    for (; at < len - 1; at++)
        if (!strchr("ABCDEFGHIJKLMNOPQRSTUVWXYZabcdefghijklmnopqrstuvwxyz", text[at])) return 0;
    return 1;
}

static int is_packument(const char *text, size_t len)
{
    static const char front[] = "{\"_id\":\"", back[] = "}}\n";
    return len > 10 && !memcmp(text, front, sizeof front - 1) && !memcmp(text + len - 3, back, 3);
}

static void check_printed(int status)
{
    int is_answer = status == 0 ? is_packument(came, came_len) && !errors_len
                                : status == 1 && !came_len && is_refusal(errors, errors_len);
    if (!is_answer) wrong("what is printed is no answer");
}

/* ---- what a server answers */

static const char *const statuses[] = {
    "200 OK", "201 Created", "400 Bad Request", "401 Unauthorized", "403 Forbidden", "404 Not Found",
    "409 Conflict", "413 Payload Too Large", NULL,
};

/* Passes over a text at the front of what is left, if it is there. */
static int passes(const char **at, const char *end, const char *text)
{
    size_t len = strlen(text);
    if ((size_t)(end - *at) < len || memcmp(*at, text, len)) return 0;
    *at += len;
    return 1;
}

static int passes_status(const char **at, const char *end, int *is_unknown)
{
    for (int i = 0; statuses[i]; i++)
        if (passes(at, end, statuses[i])) {
            *is_unknown = i == 3;
            return passes(at, end, "\r\n");
        }
    return 0;
}

/* Passes over one response, and says whether it ends the connection. */
static int passes_response(const char **at, const char *end, int *closes)
{
    int is_unknown, is_json;
    if (!passes(at, end, "HTTP/1.1 ") || !passes_status(at, end, &is_unknown)) return 0;
    is_json = passes(at, end, "content-type: application/json\r\n");
    if (!is_json && !passes(at, end, "content-type: application/octet-stream\r\n")) return 0;
    if (!passes(at, end, "content-length: ")) return 0;
    size_t len = 0, digits = 0;
    for (; *at < end && **at >= '0' && **at <= '9' && digits < 9; (*at)++, digits++) len = len * 10 + (**at - '0');
    if (!digits || !passes(at, end, "\r\n")) return 0;
    if (is_unknown && !passes(at, end, "www-authenticate: Bearer\r\n")) return 0;
    *closes = passes(at, end, "connection: close\r\n");
    if (!passes(at, end, "\r\n") || (size_t)(end - *at) < len) return 0;
    if (is_json && (len < 2 || !strchr("{[", (*at)[0]) || !strchr("}]", (*at)[len - 1]))) return 0;
    *at += len;
    return 1;
}

static void check_responses(void)
{
    const char *at = came, *end = came + came_len;
    int closes = 0;
    if (sent_len && !came_len) wrong("nothing is answered");
    while (at < end) {
        if (closes) wrong("something comes after the end of the connection");
        if (!passes_response(&at, end, &closes)) wrong("what comes is no response");
    }
}

/* Sends what the fuzzer gives, while what comes is read. A server may end the connection before all
 * of it was sent. */
static void talk(int connection)
{
    size_t done = 0;
    ssize_t len;
    while (done < sent_len && (len = send(connection, sent + done, sent_len - done, MSG_NOSIGNAL)) > 0) done += len;
    shutdown(connection, SHUT_WR);
    while (came_len < MOST && (len = recv(connection, came + came_len, MOST - came_len, 0)) > 0) came_len += len;
    struct linger at_once = {1, 0};
    setsockopt(connection, SOL_SOCKET, SO_LINGER, &at_once, sizeof at_once);
    close(connection);
}

/* The place of a text among the bytes from there on that are to be sent, or NULL. */
static char *found(char *from, const char *text)
{
    return memmem(from, sent + sent_len - from, text, strlen(text));
}

/* Writes the number of bytes after the last head in the place of its `?`. */
static void fill_length(void)
{
    static const char field[] = "content-length: ?", end_of_head[] = "\r\n\r\n";
    char *place = NULL, *next = sent, *body, number[24];
    while ((next = found(next, field))) place = next++;
    if (!place || !(body = found(place, end_of_head))) return;
    char *mark = place + strlen(field) - 1;
    size_t len = sent + sent_len - (body + strlen(end_of_head)), digits = snprintf(number, sizeof number, "%zu", len);
    if (sent_len + digits > MOST) return;
    memmove(mark + digits, mark + 1, sent + sent_len - (mark + 1));
    memcpy(mark, number, digits);
    sent_len += digits - 1;
}

static void *be_client(void *nothing)
{
    ssize_t len;
    while (sent_len < MOST && (len = syscall(SYS_read, 0, sent + sent_len, MOST - sent_len)) > 0) sent_len += len;
    fill_length();
    int connection = socket(AF_INET, SOCK_STREAM, 0);
    if (connect(connection, (struct sockaddr *)&server, server_len)) wrong("the server takes no connection");
    talk(connection);
    check_responses();
    return nothing;
}

/* ---- where the copies begin */

static void note_lengths(void)
{
    struct stat file;
    for (int i = 3; i < FILES; i++) lengths[i] = !fstat(i, &file) && S_ISREG(file.st_mode) ? (long)file.st_size : -1;
}

/* Takes away what an earlier copy has put after the files. */
static void cut_files(void)
{
    struct stat file;
    for (int i = 3; i < FILES; i++)
        if (lengths[i] >= 0 && !fstat(i, &file) && file.st_size > lengths[i] && ftruncate(i, lengths[i])) wrong("ftruncate");
}

/* The fuzzer starts the program anew before it has ended the one before: neither locks the file. */
int flock(int file, int how)
{
    (void)file, (void)how;
    return 0;
}

int fcntl(int file, int command, ...)
{
    va_list more;
    va_start(more, command);
    void *word = va_arg(more, void *);
    va_end(more);
    int locks = command == F_SETLK || command == F_OFD_SETLK || command == F_SETLKW || command == F_OFD_SETLKW;
    return locks ? 0 : syscall(SYS_fcntl, file, command, word);
}

/* A server makes this once its registry is open, before it listens. */
int epoll_create1(int flags)
{
    note_lengths();
    begin_copies();
    cut_files();
    return syscall(SYS_epoll_create1, flags);
}

int listen(int door, int most)
{
    int status = syscall(SYS_listen, door, most);
    serves = 1;
    if (status || getsockname(door, (struct sockaddr *)&server, &server_len)) wrong("listen");
    if (pthread_create(&client, NULL, be_client, NULL)) wrong("pthread_create");
    return 0;
}

ssize_t read(int file, void *place, size_t len)
{
    static int has_begun;
    if (file == 0 && !has_begun) {
        has_begun = 1;
        begin_copies();
    }
    return syscall(SYS_read, file, place, len);
}

int clock_gettime(clockid_t clock, struct timespec *now)
{
    int status = syscall(SYS_clock_gettime, clock, now);
    if (clock == CLOCK_REALTIME) *now = (struct timespec){MOMENT, 0};
    return status;
}

static void check(int status, void *nothing)
{
    (void)nothing;
    if (!serves) {
        check_printed(status);
    } else if (status || pthread_join(client, NULL)) {
        wrong("the server ends with a fault");
    }
}

__attribute__((constructor)) static void begin(void)
{
    on_exit(check, NULL);
}
