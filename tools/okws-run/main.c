/* okws-run: starts a service of okws with no more of the machine than is named here. Linux 5.13 or later, x86-64 or ARM64; it needs no privilege.
 *
 *   service guest okws-run [--read PATH].. [--write PATH].. [--run PATH].. [--env NAME=VALUE].. [--network] [--memory MIB] [--seconds N] PROGRAM WORD..
 *
 * PROGRAM has its two pipes, a third one for standard error, and what it needs to start: /usr, /lib* and /bin to read, itself to run, an environment of
 * PATH, LANG and what --env names. It reads and writes no other file, starts no other process, opens no socket, has no capability, reaches no other process.
 *   --read, --write  a file, or a folder with all below it; --write has --read in it
 *   --run            likewise, and PROGRAM may start what stands there, which is confined as PROGRAM is
 *   --network        sockets of the internet's kinds, and the files by which names and certificates are found
 *   --memory         at most so many mebibytes of data, and no shared memory; each process for itself
 *   --seconds        PROGRAM is killed where one dialog takes longer, so that okws answers 502 and launches it again. Frames are relayed then
 * Where the kernel can't confine it, PROGRAM isn't started: a sentence on standard error, and status 126.       cc -O2 -o okws-run *.c
 */
#include "okws-run.h"
#include <fcntl.h>
#include <linux/capability.h>
#include <sys/prctl.h>
#include <sys/resource.h>
#include <sys/syscall.h>
#include <sys/wait.h>

void stop(const char *what, const char *which) {
    fprintf(stderr, "okws-run: %s %s\n", what, which);
    exit(CANNOT);
}

static void drop_capabilities(void) {
    struct __user_cap_header_struct head = {_LINUX_CAPABILITY_VERSION_3, 0};
    struct __user_cap_data_struct none[2] = {{0, 0, 0}, {0, 0, 0}};
    if (syscall(SYS_capset, &head, none)) stop("cannot drop capabilities:", strerror(errno));
}

static void limit(int which, rlim_t most) {
    struct rlimit both = {most, most};
    if (setrlimit(which, &both)) stop("cannot limit:", strerror(errno));
}

/* Passes on what comes from a pipe to standard error, and holds nothing else. */
static void pass_on(int from) {
    char bytes[4096];
    ssize_t n;
    setsid();
    if (dup2(from, 0) < 0 || dup2(2, 1) < 0 || syscall(SYS_close_range, 3, ~0U, 0)) _exit(CANNOT);
    while ((n = read(0, bytes, sizeof bytes)) > 0)
        for (ssize_t put = 0, m; put < n; put += m)
            if ((m = write(2, bytes + put, (size_t)(n - put))) <= 0) break;
    _exit(0);
}

/* Gives the program a standard error of its own, a pipe, and leaves a process that passes on what comes there until all who may write to it have ended. By
 * the server's own the program could cut a file, read a terminal, or shut a socket for the server and all services. */
static void own_errors(void) {
    int ends[2];
    if (fcntl(2, F_GETFD) < 0 && open("/dev/null", O_RDWR) != 2) stop("no standard error", "");
    if (pipe2(ends, O_CLOEXEC)) stop("no pipe:", strerror(errno));
    pid_t first = fork();
    if (first == 0) {
        if (fork() == 0) pass_on(ends[0]);
        _exit(0); /* so that the program has no child that it didn't start */
    }
    if (first < 0 || waitpid(first, NULL, 0) < 0 || dup2(ends[1], 2) < 0) stop("cannot pass on standard error:", strerror(errno));
}

void become(const struct asked *a) {
    const char *program = found(a->program[0]);
    setsid(); /* no terminal of the server's */
    own_errors();
    limit(RLIMIT_CORE, 0);
    if (a->memory) limit(RLIMIT_DATA, a->memory);
    if (syscall(SYS_close_range, 3, ~0U, 0)) stop("cannot close descriptors:", strerror(errno));
    if (prctl(PR_SET_NO_NEW_PRIVS, 1, 0, 0, 0)) stop("cannot refuse privileges:", strerror(errno));
    drop_capabilities();
    confine_files(a, program);
    confine_calls(a);
    execve(program, a->program, (char *const *)a->env);
    stop("cannot start", program);
}

static double number(const char *option, const char *text) {
    char *end = NULL;
    double value = text ? strtod(text, &end) : 0;
    if (!text || *end || !(value > 0 && value < 1e9)) stop("no number above 0 behind", option);
    return value;
}

/* Takes an option that has a value; or stops. */
static void take(struct asked *a, const char *option, char *value) {
    static const char *const paths[] = {[READS] = "--read", [WRITES] = "--write", [RUNS] = "--run"};
    if (!value) stop("no value behind", option);
    for (int i = READS; i <= RUNS; i++) {
        if (strcmp(option, paths[i])) continue;
        if (a->count == PATHS) stop("too many paths:", value);
        a->paths[a->count].access = (access_asked)i;
        a->paths[a->count++].path = value;
        a->runs |= i == RUNS;
        return;
    }
    if (strcmp(option, "--env")) stop("no such option:", option);
    if (a->names == NAMES || !strchr(value, '=')) stop("no NAME=VALUE, or too many:", value);
    a->env[2 + a->names++] = value;
}

#define CALLED "okws-run [--read PATH].. [--write PATH].. [--run PATH].. [--env NAME=VALUE].. [--network] [--memory MIB] [--seconds N] PROGRAM WORD.."

static const char help[] =
    CALLED "\n\n"
    "Starts PROGRAM, a service of okws, with no more of the machine than its words name, or, where the kernel can't confine it, not at all.\n"
    "It reads /usr, /lib*, /bin and itself, has an environment of PATH and LANG, its two pipes and a third one for standard error.\n\n"
    "  --read, --write  a file that it may read, or write and read, or a folder with all below it\n"
    "  --run            likewise, and it may start what stands there, which is confined as it is\n"
    "  --env            a variable more\n"
    "  --network        sockets of the internet's kinds\n"
    "  --memory         at most so many mebibytes of data, each process for itself\n"
    "  --seconds        it is killed where one dialog takes longer\n\n"
    "It ends with PROGRAM's status, and with 126 and a sentence where PROGRAM isn't started.\n";

int main(int count, char **words) {
    static struct asked a = {.env = {"PATH=" SEARCHED, "LANG=C.UTF-8"}};
    int i = 1;
    for (; i < count && words[i][0] == '-'; i++) {
        if (!strcmp(words[i], "--help")) return fputs(help, stdout) == EOF;
        if (!strcmp(words[i], "--network")) a.network = 1;
        else if (!strcmp(words[i], "--memory")) a.memory = (uint64_t)(number(words[i], words[i + 1]) * 1048576), i++;
        else if (!strcmp(words[i], "--seconds")) a.seconds = number(words[i], words[i + 1]), i++;
        else take(&a, words[i], words[i + 1]), i++;
    }
    if (i >= count) stop("no program. It is called so:", CALLED);
    a.program = words + i;
    if (a.seconds > 0) return watch(&a);
    become(&a);
    return CANNOT;
}
