/* The bare loop that bench/serve.py and bench/counts.py put beside a server.
 *   loop PORT KIND DOORS CHILDREN      KIND is get, post or big
 * DOORS threads accept. Each goes to the child that the request's path names and back, over two pipes and under one lock a child, by as many round trips and
 * with messages as long as those that okws has with a service: for get a Request, a Call, its Rows and a Reply; for post a Request of 262,144 bytes and a
 * Reply; for big a Request and a Reply of a million bytes. Nothing is parsed, decided or kept. */
#define _GNU_SOURCE
#include "kinds.h"
#include <errno.h>
#include <pthread.h>
#include <signal.h>
#include <sys/prctl.h>

struct trip { size_t down, up; };
struct child { pthread_mutex_t turn; int to, from; };
static const struct trip TRIPS[3][2] = {{{50, 14}, {44, 35}}, {{262219, 35}}, {{50, 1000023}}};
static const size_t ROOM = 1 << 21;
static struct child children[10];
static enum kind kind;
static int listener;

/* Whether all of the bytes were read or written. */
static int get(int from, char *bytes, size_t left) {
    for (ssize_t n; left > 0; bytes += n, left -= (size_t)n)
        if ((n = read(from, bytes, left)) <= 0) return 0;
    return 1;
}

static int put(int to, const char *bytes, size_t left) {
    for (ssize_t n; left > 0; bytes += n, left -= (size_t)n)
        if ((n = write(to, bytes, left)) <= 0) return 0;
    return 1;
}

static void serve_child(int to, int from) {
    char *bytes = calloc(1, ROOM);
    prctl(PR_SET_PDEATHSIG, SIGTERM);
    for (;;)
        for (const struct trip *t = TRIPS[kind]; t < TRIPS[kind] + 2 && t->down > 0; t++)
            if (!get(from, bytes, t->down) || !put(to, bytes, t->up)) _exit(0);
}

static void start(struct child *c) {
    int down[2], up[2];
    if (pipe2(down, O_CLOEXEC) || pipe2(up, O_CLOEXEC)) die("pipe");
    pid_t pid = fork();
    if (pid < 0) die("fork");
    if (pid == 0) {
        close(down[1]);
        close(up[0]);
        serve_child(up[1], down[0]);
    }
    pthread_mutex_init(&c->turn, NULL);
    c->to = down[1];
    c->from = up[0];
    close(down[0]);
    close(up[1]);
}

/* The round trips of a request. A message's bytes are whatever stands there. */
static void ask(struct child *c, char *asked, char *said) {
    pthread_mutex_lock(&c->turn);
    for (const struct trip *t = TRIPS[kind]; t < TRIPS[kind] + 2 && t->down > 0; t++)
        if (!put(c->to, asked, t->down) || !get(c->from, said, t->up)) die("child");
    pthread_mutex_unlock(&c->turn);
}

static void *door(void *none) {
    char *asked = calloc(1, ROOM), *said = calloc(1, ROOM);
    size_t content = kind == BIG ? BIG_CONTENT : sizeof LISTED - 1, most = ROOM;
    size_t head = (size_t)snprintf(said, 200, "HTTP/1.1 200 OK\r\nContent-Type: text/plain\r\nContent-Length: %zu\r\nConnection: close\r\n\r\n", content);
    for (;;) {
        int at = accept4(listener, NULL, NULL, SOCK_CLOEXEC);
        if (at < 0) continue;
        if (kind == POST ? get(at, asked, request_length(POST)) : read(at, asked, most) > 0) {
            ask(&children[asked[path_place(kind)] - '0'], asked, said + head);
            memcpy(said + head + content - (sizeof LISTED - 1), LISTED, sizeof LISTED - 1);
            if (!put(at, said, head + content) && errno != EPIPE && errno != ECONNRESET) die("write");
        }
        close(at);
    }
    return none;
}

int main(int words, char **word) {
    if (words != 5) return 2;
    pthread_t other;
    int yes = 1, doors = atoi(word[3]), count = atoi(word[4]);
    struct sockaddr_in place = place_of(word[1]);
    kind = kind_of(word[2]);
    signal(SIGPIPE, SIG_IGN);
    for (int i = 0; i < count && i < 10; i++) start(&children[i]);
    listener = socket(AF_INET, SOCK_STREAM | SOCK_CLOEXEC, 0);
    setsockopt(listener, SOL_SOCKET, SO_REUSEADDR, &yes, sizeof yes);
    if (bind(listener, (struct sockaddr *)&place, sizeof place) || listen(listener, 1024)) die("listen");
    for (int i = 1; i < doors; i++) pthread_create(&other, NULL, door, NULL);
    door(NULL);
}
