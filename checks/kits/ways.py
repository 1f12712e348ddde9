"""Tries ways around the files and processes that a program may reach: ways.py FILE PID. FILE is one that it may only read, PID another's process. Sockets
that take datagrams have the name `socket` beside the file, and `okws-ways-` with the number of this one's parent.
It prints a line for each: `done`, or the fault's name."""
import ctypes, errno, fcntl, os, socket, sys, termios

FILE, PID = sys.argv[1], int(sys.argv[2])
LIBC = ctypes.CDLL(None, use_errno=True)
F_SETOWN, FIOSETOWN, PTRACE_SEIZE, PRIO_PROCESS, F_SETLEASE, PR_SET_PDEATHSIG = 8, 0x8901, 0x4206, 0, 1024, 1
IO_URING_SETUP, FCHMODAT2, FS_IOC_SETFLAGS = 425, 452, 0x40086602

def c(name, *words):
    """Calls a function of the C library, whose -1 is a fault."""
    if getattr(LIBC, name)(*words) == -1:
        raise OSError(ctypes.get_errno(), name)

def path():
    return os.fsencode(FILE)

def datagram(name):
    """Sends a datagram to another's socket."""
    with socket.socketpair(socket.AF_UNIX, socket.SOCK_DGRAM)[0] as one:
        one.sendto(b'x', name)

WAYS = {
    'cut by its path': lambda: c('truncate', path(), 0),
    'cut as it is opened to be read': lambda: os.close(os.open(FILE, os.O_RDONLY | os.O_TRUNC)),
    'cut in a mode of no right': lambda: os.close(os.open(FILE, os.O_ACCMODE | os.O_TRUNC)),
    'opened to be written': lambda: os.close(os.open(FILE, os.O_WRONLY)),
    'renamed': lambda: os.rename(FILE, FILE),
    'linked': lambda: os.link(FILE, FILE + '.linked'),
    'mode': lambda: os.chmod(FILE, 0o600),
    'mode of what is open': lambda: os.fchmod(os.open(FILE, os.O_RDONLY), 0o600),
    'mode by a new call': lambda: c('syscall', FCHMODAT2, -100, path(), 0o600, 0),
    'owner': lambda: os.chown(FILE, os.getuid(), os.getgid()),
    'times': lambda: os.utime(FILE, (0, 0)),
    'attributes': lambda: os.setxattr(FILE, 'user.a', b'b'),
    'flags': lambda: fcntl.ioctl(os.open(FILE, os.O_RDONLY), FS_IOC_SETFLAGS, bytes(8)),
    'leased': lambda: fcntl.fcntl(os.open(FILE, os.O_RDONLY), F_SETLEASE, fcntl.F_RDLCK),
    'watched': lambda: c('inotify_init1', 0),
    'its limits': lambda: c('prlimit', PID, 0, None, ctypes.create_string_buffer(16)),
    'its priority': lambda: c('setpriority', PRIO_PROCESS, PID, os.getpriority(PRIO_PROCESS, PID)),
    'its processors': lambda: os.sched_setaffinity(PID, os.sched_getaffinity(PID)),
    'a signal': lambda: os.kill(PID, 0),
    'a signal by a descriptor': lambda: os.pidfd_open(PID),
    'a signal for input': lambda: fcntl.fcntl(2, F_SETOWN, PID),
    'a signal for input otherwise': lambda: fcntl.ioctl(2, FIOSETOWN, PID.to_bytes(4, 'little')),
    'a trace': lambda: c('ptrace', PTRACE_SEIZE, PID, 0, 0),
    'shared memory': lambda: c('shmget', 0, 4096, 0o1600),
    'a semaphore': lambda: c('semget', 0, 1, 0o1600),
    'a queue': lambda: c('msgget', 0, 0o1600),
    'a ring of calls': lambda: c('syscall', IO_URING_SETUP, 1, ctypes.create_string_buffer(120)),
    'another namespace': lambda: c('unshare', 0),
    'a socket of this machine': lambda: socket.socket(socket.AF_UNIX).close(),
    'a datagram to a path': lambda: datagram(os.path.join(os.path.dirname(FILE), 'socket')),
    'a datagram to a name': lambda: datagram(f'\0okws-ways-{os.getppid()}'),
    'a pair of raw sockets': lambda: [one.close() for one in socket.socketpair(socket.AF_UNIX, socket.SOCK_RAW)],
    'an end with nobody': lambda: c('prctl', PR_SET_PDEATHSIG, 0, 0, 0, 0),
    'a key of the terminal': lambda: fcntl.ioctl(2, termios.TIOCSTI, b'x'),
    'a process': lambda: os._exit(0) if os.fork() == 0 else None,
    'a program': lambda: os.waitpid(os.posix_spawn('/bin/true', ['true'], {}), 0),
    'removed': lambda: os.remove(FILE),
}
for name, way in WAYS.items():
    try:
        way()
        print(f'{name}: done')
    except OSError as fault:
        print(f'{name}: {errno.errorcode[fault.errno]}')
