/* Prints the filter that okws-run would set, in place of setting it: a line of four numbers for each instruction, behind a line with this process's number.
 *   filter VERSION RUNS NETWORK MEMORY      the version of Landlock; and 1 or 0 for --run, --network, --memory
 * It is linked with calls.c, in which prctl has the name tell_filter. */
#include "okws-run.h"
#include <linux/filter.h>
#include <linux/seccomp.h>
#include <stdarg.h>
#include <sys/prctl.h>

static long version;

long landlock_version(void) { return version; }

void stop(const char *what, const char *which) {
    fprintf(stderr, "%s %s\n", what, which);
    exit(1);
}

int tell_filter(int option, ...) {
    va_list words;
    va_start(words, option);
    int mode = va_arg(words, int);
    const struct sock_fprog *program = va_arg(words, const struct sock_fprog *);
    va_end(words);
    if (option != PR_SET_SECCOMP || mode != SECCOMP_MODE_FILTER) stop("another call of prctl", "");
    printf("%d\n", (int)getpid());
    for (unsigned short i = 0; i < program->len; i++) {
        struct sock_filter one = program->filter[i];
        printf("%d %d %d %u\n", one.code, one.jt, one.jf, one.k);
    }
    return 0;
}

int main(int count, char **words) {
    static struct asked asked;
    if (count != 5) stop("four words are wanted", "");
    version = atol(words[1]);
    asked.runs = atoi(words[2]);
    asked.network = atoi(words[3]);
    asked.memory = (uint64_t)atoi(words[4]);
    confine_calls(&asked);
    return 0;
}
