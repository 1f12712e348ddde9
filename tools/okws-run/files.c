/* Which files a service reaches: Landlock. What headers of the older kernels lack is written out. */
#include "okws-run.h"
#include <fcntl.h>
#include <glob.h>
#include <linux/landlock.h>
#include <sys/stat.h>
#include <sys/syscall.h>

enum { MAY_READ = LANDLOCK_ACCESS_FS_READ_FILE | LANDLOCK_ACCESS_FS_READ_DIR, MAY_RUN = MAY_READ | LANDLOCK_ACCESS_FS_EXECUTE };
enum { MAY_REFER = 1 << 13, MAY_TRUNCATE = 1 << 14, MAY_IOCTL = 1 << 15 };
enum { MAY_WRITE = MAY_READ | LANDLOCK_ACCESS_FS_WRITE_FILE | LANDLOCK_ACCESS_FS_MAKE_REG | LANDLOCK_ACCESS_FS_REMOVE_FILE | LANDLOCK_ACCESS_FS_MAKE_DIR
                        | LANDLOCK_ACCESS_FS_REMOVE_DIR | MAY_REFER | MAY_TRUNCATE };
enum { OF_FILES = LANDLOCK_ACCESS_FS_EXECUTE | LANDLOCK_ACCESS_FS_WRITE_FILE | LANDLOCK_ACCESS_FS_READ_FILE | MAY_TRUNCATE };
struct rules { uint64_t files, ports, scoped; };

#ifndef LANDLOCK_KNOWN          /* the checks confine also as older kernels would */
#define LANDLOCK_KNOWN 1000
#endif

long landlock_version(void) {
    long version = syscall(SYS_landlock_create_ruleset, NULL, 0, LANDLOCK_CREATE_RULESET_VERSION);
    return version < LANDLOCK_KNOWN ? version : LANDLOCK_KNOWN;
}

/* All that this kernel can refuse; ports and other processes' signals and sockets where it can. */
static struct rules all_rules(long version, int network) {
    struct rules r = {.files = MAY_REFER - 1};
    r.files |= version >= 2 ? MAY_REFER : 0;
    r.files |= version >= 3 ? MAY_TRUNCATE : 0;
    r.files |= version >= 5 ? MAY_IOCTL : 0;
    r.ports = version >= 4 && !network ? 3 : 0;
    r.scoped = version >= 6 ? 3 : 0;
    return r;
}

/* Allows this much at a path and below it. A path that isn't there is passed over, unless it must be. */
static void allow(int ruleset, uint64_t known, const char *path, uint64_t access, int must) {
    struct stat what;
    int fd = open(path, O_PATH | O_CLOEXEC);
    if (fd < 0 || fstat(fd, &what)) {
        if (must) stop("cannot open", path);
        return;
    }
    struct landlock_path_beneath_attr beneath = {.allowed_access = access & known & (S_ISDIR(what.st_mode) ? ~0ULL : OF_FILES), .parent_fd = fd};
    if (syscall(SYS_landlock_add_rule, ruleset, LANDLOCK_RULE_PATH_BENEATH, &beneath, 0)) stop("cannot allow", path);
    close(fd);
}

static void allow_pattern(int ruleset, uint64_t known, const char *pattern, uint64_t access) {
    glob_t found;
    if (glob(pattern, 0, NULL, &found)) return;
    for (size_t i = 0; i < found.gl_pathc; i++) allow(ruleset, known, found.gl_pathv[i], access, 0);
    globfree(&found);
}

const char *found(const char *program) {
    if (strchr(program, '/')) return program;
    for (const char *at = SEARCHED; *at; at += strcspn(at, ":"), at += *at == ':') {
        char *path = NULL;
        if (asprintf(&path, "%.*s/%s", (int)strcspn(at, ":"), at, program) < 0) stop("no memory", "");
        if (!access(path, X_OK)) return path;
        free(path);
    }
    stop("no such program:", program);
    return NULL;
}

/* Allows a program to be run (or those of a folder), and what its first line `#!` names; of `#!/usr/bin/env NAME` also NAME. */
static void allow_program(int ruleset, uint64_t known, const char *program) {
    char line[256] = "", interpreter[256], word[256] = "";
    allow(ruleset, known, program, MAY_RUN, 1);
    int fd = open(program, O_RDONLY | O_CLOEXEC);
    ssize_t size = fd < 0 ? 0 : read(fd, line, sizeof line - 1);
    if (fd >= 0) close(fd);
    if (size < 3 || sscanf(line, "#! %255s %255[^ \t\n]", interpreter, word) < 1) return;
    allow(ruleset, known, interpreter, MAY_RUN, 1);
    const char *last = strrchr(interpreter, '/');
    if (last && !strcmp(last, "/env") && word[0]) allow(ruleset, known, found(word), MAY_RUN, 1);
}

static const char *const READ_BY_ALL[] = {"/usr", "/lib", "/lib32", "/lib64", "/libx32", "/bin", "/etc/ld.so.cache", "/etc/localtime", "/etc/alternatives",
    "/etc/ssl/openssl.cnf", "/dev/urandom", "/dev/random"};
static const char *const READ_FOR_NETWORK[] = {"/etc/resolv.conf", "/etc/hosts", "/etc/nsswitch.conf", "/etc/gai.conf", "/etc/host.conf", "/etc/services",
    "/etc/ssl", "/etc/ca-certificates", "/run/systemd/resolve"};
static const char *const LINKERS[] = {"/lib/ld-*.so*", "/lib64/ld-*.so*"};
static const char *const PYTHONS_OWN = "/etc/python3*"; /* a module that Debian's looks for at its start */

void confine_files(const struct asked *a, const char *program) {
    long version = landlock_version();
    if (version < 1)
        stop("this kernel has no Landlock, or a container's filter refuses it, so a service can't be confined.",
            "To start it all the same, leave okws-run and its options out");
    struct rules r = all_rules(version, a->network);
    size_t size = version >= 6 ? 24 : version >= 4 ? 16 : 8;
    int ruleset = (int)syscall(SYS_landlock_create_ruleset, &r, size, 0);
    if (ruleset < 0) stop("no ruleset:", strerror(errno));
    for (size_t i = 0; i < sizeof READ_BY_ALL / sizeof *READ_BY_ALL; i++) allow(ruleset, r.files, READ_BY_ALL[i], MAY_READ, 0);
    for (size_t i = 0; a->network && i < sizeof READ_FOR_NETWORK / sizeof *READ_FOR_NETWORK; i++) allow(ruleset, r.files, READ_FOR_NETWORK[i], MAY_READ, 0);
    for (size_t i = 0; i < sizeof LINKERS / sizeof *LINKERS; i++) allow_pattern(ruleset, r.files, LINKERS[i], MAY_RUN);
    allow_pattern(ruleset, r.files, PYTHONS_OWN, MAY_READ);
    allow(ruleset, r.files, "/dev/null", MAY_READ | LANDLOCK_ACCESS_FS_WRITE_FILE, 0);
    allow_program(ruleset, r.files, program);
    for (size_t i = 0; i < a->count; i++) {
        if (a->paths[i].access == RUNS) allow_program(ruleset, r.files, a->paths[i].path);
        else allow(ruleset, r.files, a->paths[i].path, a->paths[i].access == WRITES ? MAY_WRITE : MAY_READ, 1);
    }
    if (syscall(SYS_landlock_restrict_self, ruleset, 0)) stop("cannot restrict:", strerror(errno));
    close(ruleset);
}
