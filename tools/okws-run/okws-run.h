/* What the parts of okws-run share. */
#ifndef OKWS_RUN_H
#define OKWS_RUN_H
#define _GNU_SOURCE
#include <errno.h>
#include <stddef.h>
#include <stdint.h>
#include <stdio.h>
#include <stdlib.h>
#include <string.h>
#include <unistd.h>

#define SEARCHED "/usr/local/bin:/usr/bin:/bin"
enum { CANNOT = 126, PATHS = 256, NAMES = 64 };
typedef enum { READS, WRITES, RUNS } access_asked;

/* What the words ask for. */
struct asked {
    struct { access_asked access; const char *path; } paths[PATHS];
    size_t count, names;
    char *env[NAMES + 3];
    int runs, network;
    uint64_t memory;                    /* bytes, or 0 */
    double seconds;                     /* or 0 */
    char **program;
};

/* A sentence on standard error, and the end. */
void stop(const char *what, const char *which);
/* Where a program is that is named by its path, or by a word that is looked up. */
const char *found(const char *program);

/* The version of Landlock that is used, or less than 1. */
long landlock_version(void);
void confine_files(const struct asked *, const char *program);
void confine_calls(const struct asked *);
/* Becomes the program, confined. */
void become(const struct asked *);
/* Starts the program behind a relay of its frames, and tells its status when it has ended. */
int watch(const struct asked *);
#endif
