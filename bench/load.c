/* Sends requests and reads their replies, for bench/shards: a thread a seat, each with one request under way.

       load PORT kept|new REQUESTS REPLIES [REQUESTS REPLIES]..

   A seat's file REQUESTS has whole HTTP requests, before each its length in four bytes, the lowest first. The server
   is on this port of 127.0.0.1. All seats begin at once. With `kept` a seat has one connection, and makes a new one
   where a reply says that it closes or ends with it; with `new` it makes one for each request. A reply has a
   `Content-Length`, or ends with the connection; chunks are a fault. A seat stops after its last reply, or at its
   first fault: a reply that doesn't come whole, 30 seconds without a byte, or a status that isn't 200. No request is
   sent twice.

   At the end each seat's file REPLIES gets the bodies of its replies, one behind the other, and a line is printed for
   each seat: when it began and ended, in seconds of CLOCK_MONOTONIC, and its fault, if it has one. The last line is
   `processor S`: the seconds of a processor that all of it took, from the beginning on. The status is 0, or 2 where
   the load can't be read, sent or written at all. */

#define _GNU_SOURCE
#include <arpa/inet.h>
#include <errno.h>
#include <netinet/in.h>
#include <netinet/tcp.h>
#include <pthread.h>
#include <stdarg.h>
#include <stdint.h>
#include <stdio.h>
#include <stdlib.h>
#include <string.h>
#include <strings.h>
#include <sys/socket.h>
#include <sys/time.h>
#include <time.h>
#include <unistd.h>

#define SECONDS 30
#define SOME 65536

struct bytes {
    char *data;
    size_t used;
    size_t room;
};

struct seat {
    const char *replies;
    struct bytes asked, reply, bodies;
    int socket;
    double start, end;
    size_t number;
    char fault[512];
    pthread_t thread;
};

struct head {
    int status;
    int has_length;
    int is_closing;
    size_t length;
    size_t body;
};

static struct sockaddr_in server;
static int is_kept;
static pthread_barrier_t ready;

static void die(const char *what)
{
    fprintf(stderr, "load: %s: %s\n", what, strerror(errno));
    exit(2);
}

static double seconds(clockid_t clock)
{
    struct timespec at;
    clock_gettime(clock, &at);
    return at.tv_sec + at.tv_nsec / 1e9;
}

/* Writes down a seat's fault: 0, for the callers to return. */
static int fails(struct seat *it, const char *format, ...)
{
    int used = snprintf(it->fault, sizeof it->fault, "number %zu ", it->number);
    va_list more;
    va_start(more, format);
    vsnprintf(it->fault + used, sizeof it->fault - used, format, more);
    va_end(more);
    for (char *byte = it->fault; *byte; byte++)
        if (*byte < ' ' || *byte > '~')
            *byte = '?';
    return 0;
}

static void make_room(struct bytes *it, size_t more)
{
    if (it->room - it->used >= more)
        return;
    it->room = 2 * it->room + more;
    it->data = realloc(it->data, it->room);
    if (!it->data)
        die("no room");
}

static void add(struct bytes *it, const char *data, size_t length)
{
    make_room(it, length);
    memcpy(it->data + it->used, data, length);
    it->used += length;
}

static void hang_up(struct seat *it)
{
    if (it->socket >= 0)
        close(it->socket);
    it->socket = -1;
}

static int dial(struct seat *it)
{
    struct timeval limit = {SECONDS, 0};
    int yes = 1;
    it->socket = socket(AF_INET, SOCK_STREAM | SOCK_CLOEXEC, 0);
    if (it->socket < 0)
        return fails(it, "gets no socket: %s", strerror(errno));
    setsockopt(it->socket, IPPROTO_TCP, TCP_NODELAY, &yes, sizeof yes);
    setsockopt(it->socket, SOL_SOCKET, SO_RCVTIMEO, &limit, sizeof limit);
    setsockopt(it->socket, SOL_SOCKET, SO_SNDTIMEO, &limit, sizeof limit);
    if (connect(it->socket, (struct sockaddr *)&server, sizeof server))
        return fails(it, "gets no connection: %s", strerror(errno));
    return 1;
}

static int send_whole(struct seat *it, const char *data, size_t length)
{
    while (length) {
        ssize_t sent = send(it->socket, data, length, MSG_NOSIGNAL);
        if (sent < 0 && errno == EINTR)
            continue;
        if (sent < 0)
            return fails(it, "can't be sent: %s", strerror(errno));
        data += sent;
        length -= sent;
    }
    return 1;
}

/* Reads more of the reply: how many bytes came, 0 where the connection has ended, -1 where it failed. */
static ssize_t receive(struct seat *it)
{
    ssize_t came;
    make_room(&it->reply, SOME);
    do
        came = recv(it->socket, it->reply.data + it->reply.used, SOME, 0);
    while (came < 0 && errno == EINTR);
    if (came > 0)
        it->reply.used += came;
    return came;
}

/* What a head says behind this name, or nothing. The name has the line's end before it and the colon. */
static const char *field(const char *head, const char *name)
{
    const char *found = strcasestr(head, name);
    if (!found)
        return NULL;
    found += strlen(name);
    return found + strspn(found, " \t");
}

static int parse(struct seat *it, struct head *head)
{
    const char *text = it->reply.data;
    int minor;
    if (sscanf(text, "HTTP/1.%d %3d", &minor, &head->status) != 2)
        return fails(it, "is answered with no status: %.80s", text);
    if (field(text, "\r\nTransfer-Encoding:"))
        return fails(it, "is answered in chunks");
    const char *length = field(text, "\r\nContent-Length:");
    const char *connection = field(text, "\r\nConnection:");
    head->has_length = length != NULL;
    if (length && (*length < '0' || *length > '9'))
        return fails(it, "is answered with a length of %.20s", length);
    head->length = length ? strtoull(length, NULL, 10) : 0;
    head->is_closing = minor == 0 || !length || (connection && !strncasecmp(connection, "close", 5));
    return 1;
}

static int read_head(struct seat *it, struct head *head)
{
    char *end;
    it->reply.used = 0;
    while (!it->reply.used || !(end = memmem(it->reply.data, it->reply.used, "\r\n\r\n", 4))) {
        ssize_t came = receive(it);
        if (came <= 0)
            return fails(it, "gets no reply, after %zu bytes: %s", it->reply.used,
                         came ? strerror(errno) : "the connection has ended");
    }
    end[2] = 0;
    head->body = end + 4 - it->reply.data;
    return parse(it, head);
}

static int read_body(struct seat *it, struct head *head)
{
    while (!head->has_length || it->reply.used - head->body < head->length) {
        ssize_t came = receive(it);
        if (!came && !head->has_length)
            break;
        if (came <= 0)
            return fails(it, "gets %zu bytes of a body of %zu: %s", it->reply.used - head->body, head->length,
                         came ? strerror(errno) : "the connection has ended");
    }
    if (!head->has_length)
        head->length = it->reply.used - head->body;
    if (it->reply.used - head->body > head->length)
        return fails(it, "is answered with more bytes than the length says");
    return 1;
}

/* Sends a request and reads its whole reply: whether it was answered 200. */
static int ask(struct seat *it, const char *request, size_t length)
{
    struct head head;
    if (it->socket < 0 && !dial(it))
        return 0;
    if (!send_whole(it, request, length) || !read_head(it, &head) || !read_body(it, &head))
        return 0;
    const char *body = it->reply.data + head.body;
    add(&it->bodies, body, head.length);
    if (!is_kept || head.is_closing)
        hang_up(it);
    if (head.status != 200)
        return fails(it, "is answered %d %.*s", head.status, head.length < 200 ? (int)head.length : 200, body);
    return 1;
}

static void *work(void *argument)
{
    struct seat *it = argument;
    const unsigned char *next = (unsigned char *)it->asked.data, *end = next + it->asked.used;
    pthread_barrier_wait(&ready);
    it->start = seconds(CLOCK_MONOTONIC);
    while (next < end) {
        size_t length = next[0] | next[1] << 8 | next[2] << 16 | (size_t)next[3] << 24;
        it->number++;
        if (!ask(it, (const char *)next + 4, length))
            break;
        next += 4 + length;
    }
    it->end = seconds(CLOCK_MONOTONIC);
    hang_up(it);
    return NULL;
}

static void read_file(struct bytes *it, const char *path)
{
    size_t came;
    FILE *file = fopen(path, "rb");
    if (!file)
        die(path);
    do {
        make_room(it, SOME);
        came = fread(it->data + it->used, 1, SOME, file);
        it->used += came;
    } while (came);
    if (ferror(file))
        die(path);
    fclose(file);
}

static void write_file(const struct bytes *it, const char *path)
{
    FILE *file = fopen(path, "wb");
    if (!file || fwrite(it->data, 1, it->used, file) != it->used || fclose(file))
        die(path);
}

/* All seats at once: the seconds of a processor that they took. */
static double run(struct seat *seats, int count)
{
    pthread_barrier_init(&ready, NULL, count + 1);
    for (int place = 0; place < count; place++)
        if ((errno = pthread_create(&seats[place].thread, NULL, work, &seats[place])))
            die("no thread");
    double before = seconds(CLOCK_PROCESS_CPUTIME_ID);
    pthread_barrier_wait(&ready);
    for (int place = 0; place < count; place++)
        pthread_join(seats[place].thread, NULL);
    return seconds(CLOCK_PROCESS_CPUTIME_ID) - before;
}

int main(int argc, char **argv)
{
    int count = (argc - 3) / 2;
    if (count < 1 || argc != 3 + 2 * count) {
        fprintf(stderr, "load PORT kept|new REQUESTS REPLIES [REQUESTS REPLIES]..\n");
        return 2;
    }
    server.sin_family = AF_INET;
    server.sin_port = htons(atoi(argv[1]));
    server.sin_addr.s_addr = htonl(INADDR_LOOPBACK);
    is_kept = !strcmp(argv[2], "kept");
    struct seat *seats = calloc(count, sizeof *seats);
    if (!seats)
        die("no room");
    for (int place = 0; place < count; place++) {
        seats[place].socket = -1;
        seats[place].replies = argv[4 + 2 * place];
        make_room(&seats[place].bodies, SOME);
        read_file(&seats[place].asked, argv[3 + 2 * place]);
    }
    double took = run(seats, count);
    for (int place = 0; place < count; place++) {
        write_file(&seats[place].bodies, seats[place].replies);
        printf("%.6f %.6f %s\n", seats[place].start, seats[place].end, seats[place].fault);
    }
    printf("processor %.6f\n", took);
    return 0;
}
