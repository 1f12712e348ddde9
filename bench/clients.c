/* Clients for bench/serve.py and bench/kits.py: each connection has one request, and is read to its end.
 *   clients PORT KIND CLIENTS MS SERVICES      KIND is get, post or big
 * So many clients at once ask for so many milliseconds, in turn for each service. Printed are how many requests a second were answered by 200 and a content
 * that ends in the twelve bytes of kinds.h; how many were answered so in all, and how many otherwise; and the microseconds from before a connection of the
 * former was made until its end: in the middle, and what 99 in a hundred, and 999 in a thousand, had at most. */
#define _GNU_SOURCE
#include "kinds.h"
#include <errno.h>
#include <pthread.h>
#include <stdint.h>
#include <sys/epoll.h>
#include <time.h>

enum { MARK = 12 };
struct client { int at, service; size_t sent, got; double begun; char first[MARK], last[MARK]; };
struct part { pthread_t thread; int clients, first, poll; size_t answered, other, room; float *took; char *scratch; };
static enum kind kind;
static char *requests[10];
static int services;
static size_t length, least;
static struct sockaddr_in place;
static double end;

static double now(void) {
    struct timespec t;
    clock_gettime(CLOCK_MONOTONIC, &t);
    return t.tv_sec + t.tv_nsec / 1e9;
}

static void begin(struct part *p, struct client *c) {
    c->sent = c->got = 0;
    c->begun = now();
    c->at = socket(AF_INET, SOCK_STREAM | SOCK_CLOEXEC | SOCK_NONBLOCK, 0);
    if (c->at < 0 || (connect(c->at, (struct sockaddr *)&place, sizeof place) && errno != EINPROGRESS)) die("connect");
    struct epoll_event wanted = {.events = EPOLLIN | EPOLLOUT | EPOLLET, .data.ptr = c};
    epoll_ctl(p->poll, EPOLL_CTL_ADD, c->at, &wanted);
}

static void note(struct part *p, const struct client *c) {
    if (c->got < least || memcmp(c->first, "HTTP/1.1 200", MARK) != 0 || memcmp(c->last, LISTED, MARK) != 0) {
        p->other++;
        return;
    }
    if (p->answered == p->room) p->took = realloc(p->took, sizeof *p->took * (p->room = p->room * 2 + 1024));
    if (!p->took) die("memory");
    p->took[p->answered++] = (float)((now() - c->begun) * 1e6);
}

/* Keeps the first and the last bytes of an answer. */
static void keep(struct client *c, const char *bytes, size_t n) {
    for (size_t i = c->got; i < MARK && i - c->got < n; i++) c->first[i] = bytes[i - c->got];
    size_t fresh = n < MARK ? n : MARK;
    memmove(c->last, c->last + fresh, MARK - fresh);
    memcpy(c->last + MARK - fresh, bytes + n - fresh, fresh);
    c->got += n;
}

static void finish(struct part *p, struct client *c) {
    note(p, c);
    close(c->at);
    if (now() < end) begin(p, c);
    else p->clients--;
}

static void go_on(struct part *p, struct client *c) {
    ssize_t n;
    while (c->sent < length && (n = send(c->at, requests[c->service] + c->sent, length - c->sent, MSG_NOSIGNAL)) > 0) c->sent += (size_t)n;
    while ((n = read(c->at, p->scratch, 1 << 18)) > 0) keep(c, p->scratch, (size_t)n);
    if (n == 0 || (errno != EAGAIN && errno != ENOTCONN)) finish(p, c);
}

static void *drive(void *given) {
    struct part *p = given;
    struct client *all = calloc((size_t)p->clients + 1, sizeof *all);
    struct epoll_event came[64];
    p->poll = epoll_create1(EPOLL_CLOEXEC);
    p->scratch = malloc(1 << 18);
    for (int i = p->clients; i-- > 0; begin(p, &all[i])) all[i].service = (p->first + 2 * i) % services;
    for (int n; p->clients > 0 && (n = epoll_wait(p->poll, came, 64, 10000)) > 0;)
        for (int i = 0; i < n; i++) go_on(p, came[i].data.ptr);
    p->other += (size_t)p->clients;
    return NULL;
}

static int compare(const void *one, const void *other) {
    float x = *(const float *)one, y = *(const float *)other;
    return (x > y) - (x < y);
}

static void make_requests(void) {
    length = request_length(kind);
    least = kind == BIG ? BIG_CONTENT : MARK;
    for (int i = 0; i < services; i++) {
        requests[i] = malloc(length);
        memset(requests[i], 'x', length);
        memcpy(requests[i], HEADS[kind], strlen(HEADS[kind]));
        requests[i][path_place(kind)] = (char)('0' + i);
        if (kind == POST) memcpy(requests[i] + length - MARK, LISTED, MARK);
    }
}

int main(int words, char **word) {
    if (words != 6) return 2;
    int clients = atoi(word[3]);
    struct part parts[2] = {{.clients = (clients + 1) / 2}, {.clients = clients / 2, .first = 1}};
    place = place_of(word[1]);
    kind = kind_of(word[2]);
    services = atoi(word[5]);
    if (services < 1 || services > 10) return 2;
    make_requests();
    double begun = now();
    end = begun + atoi(word[4]) / 1e3;
    for (int i = 0; i < 2; i++) pthread_create(&parts[i].thread, NULL, drive, &parts[i]);
    for (int i = 0; i < 2; i++) pthread_join(parts[i].thread, NULL);
    double ended = now();
    size_t n = parts[0].answered + parts[1].answered;
    float *took = calloc(n + 1, sizeof *took);
    memcpy(took, parts[0].took, sizeof *took * parts[0].answered);
    memcpy(took + parts[0].answered, parts[1].took, sizeof *took * parts[1].answered);
    qsort(took, n, sizeof *took, compare);
    printf("%.0f %zu %zu %.0f %.0f %.0f\n", n / (ended - begun), n, parts[0].other + parts[1].other, took[n / 2], took[n * 99 / 100], took[n * 999 / 1000]);
    return 0;
}
