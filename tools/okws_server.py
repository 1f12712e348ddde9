"""A running `okws serve`: its console over two pipes, its children, and its end."""
import concurrent.futures, dataclasses, os, re, shutil, signal, subprocess, threading, time

PATIENCE = 2.0      # seconds for a child to end by itself, and again once it was told to
COUNTING = 2.0      # seconds for the server to tell its counts, which wait for a launch that is under way
COUNTS = ('connections', 'accepts', 'launches', 'publications', 'logged', 'up', 'down', 'dead')      # as `status` tells them
ANSWERS = re.compile(r'published \d+|relaunched \d+|dead \d+|status( \d+){8}|stopping \d+|refused \d+ \d+|no memory')
IS_CONNECTED = '01'      # the state of a socket of TCP


@dataclasses.dataclass(frozen=True)
class Process:
    """A process by its number and the time of its start, which no later process has both of."""
    pid: int
    start: str
    words: tuple

    def is_there(self):
        return start_of(self.pid) == self.start

    def tell(self, number):
        try:
            os.kill(self.pid, number)
        except ProcessLookupError:
            pass


def start_of(pid):
    """The time of a process's start, or None where there is none that runs."""
    try:
        with open(f'/proc/{pid}/stat') as f:
            fields = f.read().rsplit(')', 1)[1].split()
    except OSError:
        return None
    return None if fields[0] in 'ZX' else fields[19]


def kilobytes(pid):
    """How much memory a process has in use."""
    try:
        with open(f'/proc/{pid}/statm') as f:
            return int(f.read().split()[1]) * os.sysconf('SC_PAGE_SIZE') // 1024
    except OSError:
        return 0


def children_of(pid):
    """The children of a process that run, by their numbers."""
    found = {}
    try:
        for task in os.listdir(f'/proc/{pid}/task'):
            with open(f'/proc/{pid}/task/{task}/children') as f:
                for child in map(int, f.read().split()):
                    with open(f'/proc/{child}/cmdline', 'rb') as words:
                        told = words.read().decode(errors='replace').split('\0')[:-1]
                    if start := start_of(child):
                        found[child] = Process(child, start, tuple(told))
    except OSError:
        pass
    return found


def sockets_at(port, state):
    """How many sockets of 127.0.0.1:PORT are in a state of TCP, as far as can be seen."""
    try:
        with open('/proc/net/tcp') as f:
            return sum(words[1] == f'0100007F:{port:04X}' and words[3] == state for words in map(str.split, f))
    except OSError:
        return 0


def wait_for(processes, seconds):
    """Those of these processes that are there after so many seconds."""
    until = time.monotonic() + seconds
    while any(one.is_there() for one in processes) and time.monotonic() < until:
        time.sleep(0.02)
    return [one for one in processes if one.is_there()]


def end_processes(processes):
    """Waits for these to end by themselves, then tells them to, then ends them."""
    for number in (signal.SIGTERM, signal.SIGKILL):
        processes = wait_for(processes, PATIENCE)
        for one in processes:
            one.tell(number)


class Server:
    """A run of a server, with the words behind `okws`. It ends with this process, however that ends, where the system has setpriv. SIGXFSZ, which
    Python ignores, stays ignored in it, so that a write at a limit on the size of files fails and is counted."""
    def __init__(self, okws, words):
        outlived_by_none = ['setpriv', '--pdeathsig', 'KILL', '--'] if shutil.which('setpriv') else []
        self.process = subprocess.Popen([*outlived_by_none, okws, *words], stdin=subprocess.PIPE, stdout=subprocess.PIPE, process_group=0,
                                        restore_signals=False)
        self.turn, self.counting = threading.Lock(), threading.Lock()
        self.counted = None
        self.last = []

    def ask(self, line, content=b''):
        """The answer to a line of the console and the bytes behind it, or None where the server has ended."""
        with self.turn:
            try:
                self.process.stdin.write(line.encode() + b'\n' + content)
                self.process.stdin.flush()
            except (OSError, ValueError):
                return None
            answer = self.process.stdout.readline().decode(errors='replace').rstrip('\n')
            if ANSWERS.fullmatch(answer):
                return answer
            self.last.append(answer)
            return None

    def counts(self):
        """The server's counts by their names, or None where it has none to tell, or hasn't told them within a bound. One that is late is still
        read, in its turn, so that the next answer is that to the next line; until then nobody asks for another."""
        with self.counting:
            if self.counted is None or self.counted.done():
                self.counted = concurrent.futures.Future()
                threading.Thread(target=lambda told: told.set_result(self.ask('status')), args=(self.counted,), daemon=True).start()
            told = self.counted
        try:
            name, *numbers = (told.result(COUNTING) or 'none').split()
        except concurrent.futures.TimeoutError:
            return None
        return dict(zip(COUNTS, map(int, numbers))) if name == 'status' else None

    def begins(self):
        """Whether the run began: its console answers once its doors are open and its services launched."""
        return self.ask('ready?') is not None

    def is_there(self):
        return self.process.poll() is None

    def has_doors(self):
        """Whether a door serves yet, as far as can be seen: each has a thread beside the console's."""
        try:
            return len(os.listdir(f'/proc/{self.process.pid}/task')) > 1
        except OSError:
            return self.is_there()

    def children(self):
        return children_of(self.process.pid) if self.is_there() else {}

    def close_console(self):
        with self.turn:
            try:
                self.process.stdin.close()
            except OSError:
                pass

    def ends(self):
        """Waits for the run's end: the status, and the lines that it printed last."""
        with self.turn:
            self.last += self.process.stdout.read().decode(errors='replace').splitlines()
        return self.process.wait(), [line for line in self.last if line]

    def end(self, port, grace, hurry):
        """Ends the server once no client is connected, after so many seconds at most or in a hurry, and then its children."""
        until = time.monotonic() + grace
        while self.is_there() and sockets_at(port, IS_CONNECTED) and time.monotonic() < until and not hurry.is_set():
            hurry.wait(0.05)
        children = list(self.children().values())
        self.process.terminate()
        self.process.wait()
        end_processes(children)
