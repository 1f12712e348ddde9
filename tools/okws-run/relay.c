/* A relay of a service's frames, which ends the service where a dialog takes too long. */
#include "okws-run.h"
#include <fcntl.h>
#include <poll.h>
#include <signal.h>
#include <sys/prctl.h>
#include <sys/wait.h>
#include <time.h>

/* One way: bytes that came and wait to be put; and of the frame that passes, how many bytes of its length and its kind were seen, and how many are left. */
struct way { int from, to, is_over; size_t begin, end, seen, left; uint8_t kind, bytes[65536]; };
enum { DIALOG_BEGAN = 1, DIALOG_ENDED = 2, PUSH = 0x03, REQUEST = 0x02, REPLY = 0x45 };

/* Follows the frames of bytes that pass, and tells what of a dialog was among them. */
static int follow(struct way *w, const uint8_t *p, size_t size) {
    int told = 0;
    while (size) {
        size_t n = w->seen < 5 ? 1 : size < w->left ? size : w->left;
        if (w->seen < 4) {
            w->left = w->left << 8 | *p;
            w->seen++;
        } else if (w->seen == 4) {
            w->kind = *p;
            w->seen++;
            told |= w->kind == PUSH || w->kind == REQUEST ? DIALOG_BEGAN : 0;
            w->left--;
        } else {
            w->left -= n;
        }
        p += n;
        size -= n;
        if (w->seen == 5 && w->left == 0) {
            told |= w->kind == REPLY ? DIALOG_ENDED : 0;
            w->seen = 0;
        }
    }
    return told;
}

static double now(void) {
    struct timespec t;
    clock_gettime(CLOCK_MONOTONIC, &t);
    return (double)t.tv_sec + (double)t.tv_nsec / 1e9;
}

/* Moves what can be moved on a way that is ready; what of a dialog passed is told. */
static int move(struct way *w) {
    ssize_t n = w->begin < w->end ? write(w->to, w->bytes + w->begin, w->end - w->begin) : read(w->from, w->bytes, sizeof w->bytes);
    if (n < 0 && (errno == EAGAIN || errno == EINTR)) return 0;
    if (n <= 0) {
        w->is_over = 1;
        close(w->to);
        return 0;
    }
    if (w->begin < w->end) {
        w->begin += (size_t)n;
        return 0;
    }
    w->begin = 0;
    w->end = (size_t)n;
    return follow(w, w->bytes, w->end);
}

/* Relays frames until either side has ended, or a dialog takes too long. Behind the end of its input the service has two seconds. */
static void relay(struct way *in, struct way *out, double seconds) {
    double until = 0;
    while (!out->is_over) {
        struct way *ways[] = {in, out};
        struct pollfd ready[2];
        for (int i = 0; i < 2; i++) {
            struct way *w = ways[i];
            int waits = w->begin < w->end;
            ready[i] = (struct pollfd){w->is_over ? -1 : waits ? w->to : w->from, waits ? POLLOUT : POLLIN, 0};
        }
        double left = until - now();
        poll(ready, 2, until == 0 ? -1 : left < 0 ? 0 : (int)(left * 1000) + 1);
        if (until != 0 && now() >= until) {
            if (!in->is_over) fprintf(stderr, "okws-run: a dialog took longer than %g seconds\n", seconds);
            return;
        }
        int told = (ready[1].revents ? move(out) : 0) | (ready[0].revents && !in->is_over ? move(in) : 0);
        if (told & DIALOG_ENDED) until = 0;
        if (told & DIALOG_BEGAN && until == 0) until = now() + seconds;
        if (in->is_over && until == 0) until = now() + 2;
    }
}

/* Ends a service, with what it started in its group, and tells its status. One that has closed its output has half a second to end by itself. */
static int ended(pid_t child, int is_over) {
    int status = 0;
    siginfo_t told = {0};
    struct timespec pause = {0, 10000000};
    for (int i = 0; is_over && i < 50 && told.si_pid == 0; i++) {
        nanosleep(&pause, NULL);
        waitid(P_PID, (id_t)child, &told, WEXITED | WNOHANG | WNOWAIT);
    }
    kill(-child, SIGKILL);
    kill(child, SIGKILL);
    waitpid(child, &status, 0);
    return WIFEXITED(status) ? WEXITSTATUS(status) : 1;
}

int watch(const struct asked *a) {
    int to[2], from[2];
    static struct way in, out;
    pid_t self = getpid();
    if (pipe2(to, O_CLOEXEC) || pipe2(from, O_CLOEXEC)) stop("no pipe:", strerror(errno));
    pid_t child = fork();
    if (child < 0) stop("cannot fork:", strerror(errno));
    if (child == 0) {
        prctl(PR_SET_PDEATHSIG, SIGKILL);
        if (getppid() != self || dup2(to[0], 0) < 0 || dup2(from[1], 1) < 0) _exit(CANNOT);
        become(a);
    }
    close(to[0]);
    close(from[1]);
    signal(SIGPIPE, SIG_IGN);
    in = (struct way){.from = 0, .to = to[1]};
    out = (struct way){.from = from[0], .to = 1};
    int ends[] = {0, 1, to[1], from[0]};
    for (int i = 0; i < 4; i++) fcntl(ends[i], F_SETFL, fcntl(ends[i], F_GETFL) | O_NONBLOCK);
    relay(&in, &out, a->seconds);
    return ended(child, out.is_over);
}
