/* Which system calls a service may make: a filter. The number of the call stands in the accumulator between its rules. */
#include "okws-run.h"
#include <fcntl.h>
#include <linux/audit.h>
#include <linux/filter.h>
#include <linux/fs.h>
#include <linux/fsverity.h>
#include <linux/seccomp.h>
#include <sched.h>
#include <signal.h>
#include <sys/ioctl.h>
#include <sys/mman.h>
#include <sys/prctl.h>
#include <sys/socket.h>
#include <sys/syscall.h>

struct filter { struct sock_filter code[600]; unsigned short size; };
static const unsigned NUMBER = offsetof(struct seccomp_data, nr);

static void put(struct filter *f, unsigned code, unsigned value, unsigned then, unsigned otherwise) {
    if (f->size == sizeof f->code / sizeof *f->code) stop("the filter is too long", "");
    f->code[f->size++] = (struct sock_filter){(unsigned short)code, (unsigned char)then, (unsigned char)otherwise, value};
}
static void put_load(struct filter *f, size_t at) { put(f, BPF_LD | BPF_W | BPF_ABS, (unsigned)at, 0, 0); }
static void put_if(struct filter *f, unsigned value, unsigned then, unsigned otherwise) { put(f, BPF_JMP | BPF_JEQ | BPF_K, value, then, otherwise); }
static void put_answer(struct filter *f, unsigned answer) { put(f, BPF_RET | BPF_K, answer, 0, 0); }
static size_t low_half(int argument) { return offsetof(struct seccomp_data, args) + 8 * (size_t)argument + (__BYTE_ORDER__ == __ORDER_BIG_ENDIAN__ ? 4 : 0); }

static void refuse(struct filter *f, long call, int fault) {
    put_if(f, (unsigned)call, 0, 1);
    put_answer(f, SECCOMP_RET_ERRNO | (unsigned)fault);
}

/* Refuses a call unless this argument is one of two numbers. */
static void refuse_unless(struct filter *f, long call, int argument, unsigned one, unsigned other) {
    put_if(f, (unsigned)call, 0, 5);
    put_load(f, low_half(argument));
    put_if(f, one, 2, 0);
    put_if(f, other, 1, 0);
    put_answer(f, SECCOMP_RET_ERRNO | EPERM);
    put_load(f, NUMBER);
}

/* Refuses a call where these bits of this argument are, or are not, a number. */
static void refuse_bits(struct filter *f, long call, int argument, unsigned bits, unsigned number, int where_equal) {
    put_if(f, (unsigned)call, 0, 5);
    put_load(f, low_half(argument));
    put(f, BPF_ALU | BPF_AND | BPF_K, bits, 0, 0);
    put_if(f, number, where_equal ? 0 : 1, where_equal ? 1 : 0);
    put_answer(f, SECCOMP_RET_ERRNO | EPERM);
    put_load(f, NUMBER);
}

/* What reaches other processes, or files by other ways than Landlock knows, or the kernel itself. */
static const int REFUSED[] = {
    SYS_ptrace, SYS_process_vm_readv, SYS_process_vm_writev, SYS_process_madvise, SYS_process_mrelease, SYS_pidfd_open, SYS_pidfd_getfd, SYS_pidfd_send_signal,
    SYS_kcmp, SYS_migrate_pages, SYS_move_pages, SYS_setpriority, SYS_ioprio_set, SYS_perf_event_open,
    SYS_shmget, SYS_shmat, SYS_shmctl, SYS_semget, SYS_semop, SYS_semtimedop, SYS_semctl, SYS_msgget, SYS_msgsnd, SYS_msgrcv, SYS_msgctl,
    SYS_mq_open, SYS_mq_unlink,
    SYS_truncate, SYS_fchmod, SYS_fchmodat, SYS_fchown, SYS_fchownat, SYS_utimensat, SYS_setxattr, SYS_lsetxattr, SYS_fsetxattr,
    SYS_removexattr, SYS_lremovexattr, SYS_fremovexattr, SYS_name_to_handle_at, SYS_open_by_handle_at, SYS_inotify_init1, SYS_fanotify_init,
    SYS_mount, SYS_umount2, SYS_pivot_root, SYS_chroot, SYS_move_mount, SYS_open_tree, SYS_fsopen, SYS_fsconfig, SYS_fsmount, SYS_fspick, SYS_mount_setattr,
    SYS_unshare, SYS_setns, SYS_add_key, SYS_keyctl, SYS_request_key, SYS_bpf, SYS_userfaultfd, SYS_io_uring_setup, SYS_io_uring_enter, SYS_io_uring_register,
    SYS_quotactl, SYS_acct, SYS_syslog, SYS_kexec_load, SYS_init_module, SYS_finit_module, SYS_delete_module,
#ifdef __x86_64__
    SYS_chmod, SYS_chown, SYS_lchown, SYS_utime, SYS_utimes, SYS_futimesat, SYS_inotify_init,
#endif
};
/* Of processes that are started: in namespaces of their own, or as children of the server. */
enum { ELSEWHERE = CLONE_NEWUSER | CLONE_NEWNS | CLONE_NEWPID | CLONE_NEWNET | CLONE_NEWIPC | CLONE_NEWUTS | CLONE_NEWCGROUP | CLONE_PARENT };
enum { NEWEST_CALL = 451 /* cachestat, of Linux 6.5 */, KIND_OF_SOCKET = 0xf, KIND_OF_MAP = 0xf | MAP_ANONYMOUS };
#if defined __x86_64__
static const unsigned PROCESSOR = AUDIT_ARCH_X86_64;
#elif defined __aarch64__
static const unsigned PROCESSOR = AUDIT_ARCH_AARCH64;
#else
#error "okws-run knows the system calls of x86-64 and ARM64 alone"
#endif

/* Calls of the processor's other kinds end the process; calls that are newer than this list are not there. */
static void put_front(struct filter *f) {
    put_load(f, offsetof(struct seccomp_data, arch));
    put_if(f, PROCESSOR, 1, 0);
    put_answer(f, SECCOMP_RET_KILL_PROCESS);
    put_load(f, NUMBER);
    put(f, BPF_JMP | BPF_JGT | BPF_K, NEWEST_CALL, 0, 1);
    put_answer(f, SECCOMP_RET_ERRNO | ENOSYS);
    refuse(f, SYS_clone3, ENOSYS); /* its flags stand in memory; what finds it missing calls clone */
    refuse(f, SYS_openat2, ENOSYS);
}

/* Who is to end with another process stays so: the signal for it may be set to SIGKILL, and to nothing else. */
static void keep_the_end(struct filter *f) {
    put_if(f, SYS_prctl, 0, 6);
    put_load(f, low_half(0));
    put_if(f, PR_SET_PDEATHSIG, 0, 3);
    put_load(f, low_half(1));
    put_if(f, SIGKILL, 1, 0);
    put_answer(f, SECCOMP_RET_ERRNO | EPERM);
    put_load(f, NUMBER);
}

/* Other processes, as far as a call names one. Since its version 6 Landlock keeps signals in. */
static void refuse_processes(struct filter *f, int runs) {
    unsigned self = (unsigned)getpid();
    static const int of_one[] = {SYS_prlimit64, SYS_sched_setaffinity, SYS_sched_setscheduler, SYS_sched_setparam, SYS_sched_setattr};
    static const int signals[] = {SYS_kill, SYS_tgkill, SYS_rt_sigqueueinfo, SYS_rt_tgsigqueueinfo};
    for (size_t i = 0; i < sizeof of_one / sizeof *of_one; i++) refuse_unless(f, of_one[i], 0, 0, self);
    for (size_t i = 0; landlock_version() < 6 && i < sizeof signals / sizeof *signals; i++) refuse_unless(f, signals[i], 0, self, self);
    if (landlock_version() < 6) refuse(f, SYS_tkill, EPERM);
    refuse_bits(f, SYS_fcntl, 1, ~0U, F_SETOWN, 1);
    refuse_bits(f, SYS_fcntl, 1, ~0U, F_SETOWN_EX, 1);
    keep_the_end(f);
    if (runs) {
        refuse_bits(f, SYS_clone, 0, ELSEWHERE, 0, 0);
        return;
    }
    refuse_bits(f, SYS_clone, 0, CLONE_THREAD, CLONE_THREAD, 0);
    refuse(f, SYS_execveat, EPERM);
#ifdef __x86_64__
    refuse(f, SYS_fork, EPERM);
    refuse(f, SYS_vfork, EPERM);
#endif
}

/* A file that may be read alone could be cut as it is opened, or opened in the mode 3, for which older versions of Landlock ask no right. Leases and notices
 * would hold others up, or tell of them. */
static void refuse_openings(struct filter *f) {
    refuse_bits(f, SYS_openat, 2, O_ACCMODE | O_TRUNC, O_TRUNC, 1);
    refuse_bits(f, SYS_openat, 2, O_ACCMODE, O_ACCMODE, 1);
#ifdef __x86_64__
    refuse_bits(f, SYS_open, 1, O_ACCMODE | O_TRUNC, O_TRUNC, 1);
    refuse_bits(f, SYS_open, 1, O_ACCMODE, O_ACCMODE, 1);
#endif
    refuse_bits(f, SYS_fcntl, 1, ~0U, F_SETLEASE, 1);
    refuse_bits(f, SYS_fcntl, 1, ~0U, F_NOTIFY, 1);
}

/* A pair of streams reaches nobody else; one of datagrams may be sent to any socket of the machine. */
static void refuse_sockets(struct filter *f, int network) {
    static const int others[] = {SYS_socket, SYS_connect, SYS_bind, SYS_listen};
    refuse_unless(f, SYS_socketpair, 0, AF_UNIX, AF_UNIX);
    refuse_bits(f, SYS_socketpair, 1, KIND_OF_SOCKET, SOCK_STREAM, 0);
    if (network) refuse_unless(f, SYS_socket, 0, AF_INET, AF_INET6);
    for (size_t i = 0; !network && i < sizeof others / sizeof *others; i++) refuse(f, others[i], EPERM);
}

/* Memory that no limit of data counts. */
static void refuse_shared_memory(struct filter *f) {
    refuse(f, SYS_memfd_create, EPERM);
    refuse_bits(f, SYS_mmap, 3, KIND_OF_MAP, MAP_SHARED | MAP_ANONYMOUS, 1);
    refuse_bits(f, SYS_mmap, 3, KIND_OF_MAP, 8 /* MAP_DROPPABLE */ | MAP_ANONYMOUS, 1);
}

void confine_calls(const struct asked *a) {
    static struct filter f;
    static const unsigned long controls[] = {TIOCSTI, TIOCLINUX, TIOCSCTTY, FIOSETOWN, SIOCSPGRP, FS_IOC_SETFLAGS, FS_IOC_FSSETXATTR, FS_IOC_ENABLE_VERITY};
    put_front(&f);
    for (size_t i = 0; i < sizeof REFUSED / sizeof *REFUSED; i++) refuse(&f, REFUSED[i], EPERM);
    refuse_processes(&f, a->runs);
    for (size_t i = 0; i < sizeof controls / sizeof *controls; i++) refuse_bits(&f, SYS_ioctl, 1, ~0U, (unsigned)controls[i], 1);
    refuse_openings(&f);
    refuse_sockets(&f, a->network);
    if (a->memory) refuse_shared_memory(&f);
    put_answer(&f, SECCOMP_RET_ALLOW);
    struct sock_fprog program = {f.size, f.code};
    if (prctl(PR_SET_SECCOMP, SECCOMP_MODE_FILTER, &program)) stop("cannot filter system calls:", strerror(errno));
}
