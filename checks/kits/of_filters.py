"""What the filter of okws-run answers to system calls on each of its processors. The filter is made by a program of that processor, under an emulation where it
is another one than this machine's, and its instructions are carried out here, for calls by their numbers in the kernel's tables."""
import ctypes, errno, os, platform, shutil, signal, struct, subprocess
from serving import TOP, Skipped, same

# Of each processor its constant of audit(7), the compiler, and what runs its programs on another one.
PROCESSORS = {'x86_64': (0xc000003e, 'x86_64-linux-gnu-gcc', 'qemu-x86_64-static'), 'aarch64': (0xc00000b7, 'aarch64-linux-gnu-gcc', 'qemu-aarch64-static')}
I386, ARM, X32 = 0x40000003, 0x40000028, 0x40000000

# The numbers of calls on x86-64, and on ARM64; None where it has none.
NUMBERS = {
    'read': (0, 63), 'write': (1, 64), 'mmap': (9, 222), 'futex': (202, 98), 'exit_group': (231, 94), 'execve': (59, 221), 'fcntl': (72, 25),
    'ioctl': (16, 29), 'openat': (257, 56), 'open': (2, None), 'openat2': (437, 437), 'chmod': (90, None), 'fchmod': (91, 52), 'fchmodat': (268, 53),
    'fchmodat2': (452, 452), 'truncate': (76, 45), 'utimensat': (280, 88), 'setxattr': (188, 5), 'inotify_init1': (294, 26), 'clone': (56, 220),
    'clone3': (435, 435), 'fork': (57, None), 'vfork': (58, None), 'execveat': (322, 281), 'kill': (62, 129), 'tkill': (200, 130), 'tgkill': (234, 131),
    'prlimit64': (302, 261), 'setpriority': (141, 140), 'ptrace': (101, 117), 'process_vm_readv': (310, 270), 'pidfd_open': (434, 434), 'socket': (41, 198),
    'socketpair': (53, 199), 'bind': (49, 200), 'listen': (50, 201), 'connect': (42, 203), 'prctl': (157, 167), 'shmget': (29, 194), 'semget': (64, 190),
    'msgget': (68, 186), 'memfd_create': (319, 279), 'mount': (165, 40), 'unshare': (272, 97), 'setns': (308, 268), 'bpf': (321, 280),
    'io_uring_setup': (425, 425), 'keyctl': (250, 219), 'cachestat': (451, 451),
}
UNIX, INET, INET6, NETLINK, STREAM, DATAGRAM, CLOEXEC = 1, 2, 10, 16, 1, 2, 0o2000000
THREAD, NEW_USER, CHILD_SIGNAL = 0x10000, 0x10000000, 17
WRITE_ONLY, CREATE, TRUNCATE, MODE_3 = 1, 0o100, 0o1000, 3
SHARED, PRIVATE, DROPPABLE, ANONYMOUS = 1, 2, 8, 0x20
SET_OWNER, SET_LEASE, NOTIFY, GET_FLAGS, TYPE_A_KEY, GET_TERMINAL = 8, 1024, 1026, 3, 0x5412, 0x5401
END_WITH_PARENT = 1
ALLOWED, REFUSED, MISSING, KILLED = 'allowed', 'EPERM', 'ENOSYS', 'killed'
SELF, OTHER = 'self', 'other'


def compiler_of(processor):
    """The compiler's and, on another machine, the emulator's words."""
    if processor == platform.machine():
        return 'cc', []
    _, compiler, emulator = PROCESSORS[processor]
    for tool in (compiler, emulator):
        if not shutil.which(tool):
            raise Skipped(f'{tool} is not there')
    return compiler, [emulator]


def filters_of(processor, *asked):
    """For each of these words of filter.c the number of the process that made the filter, and its instructions."""
    compiler, emulator = compiler_of(processor)
    parts = [f'{TOP}/tools/okws-run/calls.c', f'{TOP}/checks/kits/filter.c']
    strict = ['-O1', *(['-static'] if emulator else []), '-Wall', '-Wextra', '-Werror', f'-I{TOP}/tools/okws-run', '-Dprctl=tell_filter']
    subprocess.run([compiler, *strict, '-o', f'filter-{processor}', *parts], check=True, timeout=60)
    for words in asked:
        told = subprocess.run([*emulator, f'./filter-{processor}', *map(str, words)], stdout=subprocess.PIPE, text=True, check=True, timeout=60).stdout
        made_by, *lines = told.splitlines()
        yield int(made_by), [tuple(map(int, line.split())) for line in lines]


def answer_of(instructions, number, audited, arguments):
    """What a filter answers to a call."""
    data = struct.pack('<IIQ6Q', number, audited, 0, *(list(arguments) + [0] * 6)[:6])
    at, held = 0, 0
    for _ in instructions:
        code, then, otherwise, value = instructions[at]
        at += 1
        if code == 0x20:
            held = struct.unpack_from('<I', data, value)[0]
        elif code == 0x54:
            held &= value
        elif code == 0x15:
            at += then if held == value else otherwise
        elif code == 0x25:
            at += then if held > value else otherwise
        elif code == 0x06:
            return {0x7fff0000: ALLOWED, 0x80000000: KILLED}.get(value) or errno.errorcode[value - 0x50000]
        else:
            raise ValueError(f'an unknown instruction {code}')
    raise ValueError('no answer')


ALWAYS = [
    ('read', [0], ALLOWED), ('write', [1], ALLOWED), ('futex', [], ALLOWED), ('exit_group', [], ALLOWED), ('execve', [], ALLOWED), ('cachestat', [], ALLOWED),
    ('openat', [0, 0, 0], ALLOWED), ('openat', [0, 0, WRITE_ONLY | CREATE | TRUNCATE], ALLOWED), ('openat', [0, 0, TRUNCATE], REFUSED),
    ('openat', [0, 0, MODE_3 | CREATE], REFUSED), ('open', [0, 0], ALLOWED), ('open', [0, TRUNCATE], REFUSED), ('open', [0, MODE_3], REFUSED),
    ('openat2', [], MISSING), ('clone3', [], MISSING), ('fchmodat2', [], MISSING), ('clone', [THREAD], ALLOWED),
    ('fcntl', [0, GET_FLAGS], ALLOWED), ('fcntl', [0, SET_OWNER], REFUSED), ('fcntl', [0, SET_LEASE], REFUSED), ('fcntl', [0, NOTIFY], REFUSED),
    ('ioctl', [0, GET_TERMINAL], ALLOWED), ('ioctl', [0, TYPE_A_KEY], REFUSED), ('ioctl', [0, TYPE_A_KEY | 1 << 32], REFUSED),
    ('mmap', [0, 0, 3, PRIVATE | ANONYMOUS], ALLOWED), ('socketpair', [UNIX, STREAM | CLOEXEC], ALLOWED), ('socketpair', [UNIX, DATAGRAM], REFUSED),
    ('socketpair', [INET, STREAM], REFUSED),
    ('prctl', [END_WITH_PARENT, signal.SIGKILL], ALLOWED), ('prctl', [END_WITH_PARENT, 0], REFUSED), ('prctl', [15], ALLOWED),
    ('prlimit64', [0], ALLOWED), ('prlimit64', [SELF], ALLOWED), ('prlimit64', [OTHER], REFUSED), ('kill', [SELF], ALLOWED), ('tgkill', [SELF], ALLOWED),
    *((name, [], REFUSED) for name in ('chmod', 'fchmod', 'fchmodat', 'truncate', 'utimensat', 'setxattr', 'inotify_init1', 'setpriority', 'ptrace',
                                       'process_vm_readv', 'pidfd_open', 'shmget', 'semget', 'msgget', 'mount', 'unshare', 'setns', 'bpf',
                                       'io_uring_setup', 'keyctl')),
]
CLOSED = [
    ('clone', [CHILD_SIGNAL], REFUSED), ('clone', [THREAD | NEW_USER], ALLOWED), ('fork', [], REFUSED), ('vfork', [], REFUSED), ('execveat', [], REFUSED),
    ('socket', [INET], REFUSED), ('socket', [UNIX], REFUSED), ('connect', [], REFUSED), ('bind', [], REFUSED), ('listen', [], REFUSED),
    ('memfd_create', [], ALLOWED), ('mmap', [0, 0, 3, SHARED | ANONYMOUS], ALLOWED),
    ('kill', [OTHER], REFUSED), ('kill', [0], REFUSED), ('kill', [2 ** 32 - 1], REFUSED), ('tkill', [SELF], REFUSED), ('tgkill', [OTHER], REFUSED),
]
OPEN = [
    ('clone', [CHILD_SIGNAL], ALLOWED), ('clone', [NEW_USER | CHILD_SIGNAL], REFUSED), ('fork', [], ALLOWED), ('vfork', [], ALLOWED), ('execveat', [], ALLOWED),
    ('socket', [INET], ALLOWED), ('socket', [INET6], ALLOWED), ('socket', [UNIX], REFUSED), ('socket', [NETLINK], REFUSED), ('connect', [], ALLOWED),
    ('memfd_create', [], REFUSED), ('mmap', [0, 0, 3, SHARED | ANONYMOUS], REFUSED), ('mmap', [0, 0, 3, DROPPABLE | ANONYMOUS], REFUSED),
    ('mmap', [0, 0, 3, SHARED], ALLOWED), ('kill', [OTHER], ALLOWED), ('tkill', [OTHER], ALLOWED),
]
# The words of filter.c: nothing given on Linux 5.13; all given, and a limit of memory, on Linux 6.12, where Landlock keeps signals in.
ASKED = {(1, 0, 0, 0): CLOSED, (6, 1, 1, 1): OPEN}


def is_filtered_on(processor):
    audited, column = PROCESSORS[processor][0], list(PROCESSORS).index(processor)
    for (made_by, instructions), (words, wanted) in zip(filters_of(processor, *ASKED), ASKED.items()):
        for name, arguments, answer in [*ALWAYS, *wanted]:
            number = NUMBERS[name][column]
            if number is None:
                continue
            given = [made_by if one == SELF else made_by + 1 if one == OTHER else one for one in arguments]
            same((words, name, arguments, answer_of(instructions, number, audited, given)), (words, name, arguments, answer))
        for foreign in {I386, ARM, *(told[0] for told in PROCESSORS.values())} - {audited}:
            same(answer_of(instructions, 0, foreign, []), KILLED)
        for unknown in (453, 600, X32, X32 + 59, 2 ** 32 - 1):
            same(answer_of(instructions, unknown, audited, []), MISSING)


def calls_are_filtered_on_x86_64():
    is_filtered_on('x86_64')


def calls_are_filtered_on_arm64():
    is_filtered_on('aarch64')


def the_kernel_takes_the_filter_of_another_processor():
    """It then ends the process at its first call, which is none of that processor's."""
    other = next(processor for processor in PROCESSORS if processor != platform.machine())
    (_, instructions), = filters_of(other, (1, 0, 0, 0))
    libc, code = ctypes.CDLL(None), b''.join(struct.pack('=HBBI', *one) for one in instructions)
    held = ctypes.create_string_buffer(code)
    program = ctypes.create_string_buffer(struct.pack('@HP', len(instructions), ctypes.addressof(held)))
    pid = os.fork()
    if pid == 0:
        libc.prctl(38, 1, 0, 0, 0)
        libc.prctl(22, 2, program, 0, 0)
        os._exit(0)
    same(os.WTERMSIG(os.waitpid(pid, 0)[1]), signal.SIGSYS)


def nothing_is_started_where_arm64_is_emulated():
    """The emulation of single programs has no Landlock."""
    compiler, emulator = compiler_of('aarch64')
    if not emulator:
        raise Skipped('this machine is an ARM64')
    sources = [f'{TOP}/tools/okws-run/{name}.c' for name in ('calls', 'files', 'main', 'relay')]
    subprocess.run([compiler, '-O2', '-static', '-Wall', '-Wextra', '-Werror', '-o', 'okws-run-arm64', *sources], check=True, timeout=60)
    run = subprocess.run([*emulator, './okws-run-arm64', '/bin/true'], capture_output=True, text=True, timeout=60)
    same((run.returncode, run.stdout, 'has no Landlock' in run.stderr), (126, '', True))


CHECKS = [
    calls_are_filtered_on_x86_64, calls_are_filtered_on_arm64, the_kernel_takes_the_filter_of_another_processor, nothing_is_started_where_arm64_is_emulated,
]
