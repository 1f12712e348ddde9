#!/usr/bin/env python3
"""Times okws beside a bare loop in C of the same doors, pipes and round trips to its children (bench/loop.c), in turn, in one run.

    bench/serve.py OKWS FOLDER [ROUNDS [MS [CASE]]]    svc_guest stands in FOLDER; 11 rounds of 300 ms each; all cases, or those whose name begins so

A table is printed, a line for each case and number of clients at once: of the loop and of okws the requests a second, the microseconds of processor time
that a request takes server and children, and the microseconds that a client waits: in the middle, 99 clients in a hundred at most, 999 in a thousand. Each
figure is the middle one of the rounds; `share` is the middle of the rounds' shares of okws' requests a second in the loop's. Then come how much of the time
the host took the processors away, and how much other programs had: where either is more than a few per cent the other figures say little. The yardstick is
the loop itself.

A case is a kind of request, so many services at so many doors, and words for okws. Where a case has several of these, all are measured in one round. With many
services the clients ask them in turn; they have one proxy. Loopback only. Needs cc.
"""
import collections, contextlib, os, resource, shutil, signal, socket, statistics, subprocess, sys, tempfile, time

TOP = os.path.realpath(os.path.join(os.path.dirname(__file__), '..'))
PROXY = """okws 1
proxy main
table main msgs id INT KEY who TEXT note TEXT
row main msgs 1 'ann' 'hi'
row main msgs 2 'bob' 'yo'
query main 1 SELECT id, who FROM msgs ORDER BY id
"""
SERVICE = 'service s{0} {1}\nuri /s{0} s{0}\ngrant s{0} main 1\n'
PROGRAMS = {'get': 'svc_guest', 'post': 'bodies', 'big': 'bodies'}
MANY, MANY_ROUNDS, MANY_TIMES = 10000, 4, 5

Setting = collections.namedtuple('Setting', 'kind services doors words', defaults=[[]])
Case = collections.namedtuple('Case', 'name clients settings')
Run = collections.namedtuple('Run', 'rate cpu middle p99 p999')
CASES = [
    Case('GET of two rows', (1, 2, 8, 64), [Setting('get', 1, 2)]),
    Case('stored rows', (1, 2, 8, 64), [Setting('get', 1, 2, ['--store', 'rows'])]),
    Case('POST of 262,144 bytes', (1, 2, 8, 64), [Setting('post', 1, 2)]),
    Case('reply of 1 MB', (1, 2, 8, 64), [Setting('big', 1, 2)]),
    Case('services', (8, 64), [Setting('get', 1, 1), Setting('get', 1, 2), Setting('get', 2, 2), Setting('get', 2, 4), Setting('get', 4, 4)]),
    Case('many doors', (64, MANY), [Setting('get', 1, 64)]),
]


def a_port():
    with socket.socket() as s:
        s.bind(('127.0.0.1', 0))
        return s.getsockname()[1]


def tree(pid):
    """A process and those that it started."""
    children = []
    for thread in os.listdir(f'/proc/{pid}/task'):
        with open(f'/proc/{pid}/task/{thread}/children') as told:
            children += told.read().split()
    return [pid] + [below for child in children for below in tree(int(child))]


class Server:
    """The loop or okws at a port of its own."""
    def __init__(self, setting, words):
        self.setting, self.port, self.answered = setting, a_port(), 0
        words = [word.replace('PORT', str(self.port)) for word in words]
        self.process = subprocess.Popen(words, stdin=subprocess.DEVNULL, stdout=subprocess.DEVNULL, stderr=subprocess.DEVNULL)
        until = time.monotonic() + 120
        while not self.listens():
            if time.monotonic() > until or self.process.poll() is not None:
                self.end()
                sys.exit(f'{words[0]} does not listen')
            time.sleep(0.01)

    def listens(self):
        with socket.socket() as s:
            return s.connect_ex(('127.0.0.1', self.port)) == 0

    def spent(self):
        """Microseconds of processor time of it and its children."""
        total = 0
        for pid in tree(self.process.pid):
            for thread in os.listdir(f'/proc/{pid}/task'):
                with open(f'/proc/{pid}/task/{thread}/schedstat') as told:
                    total += int(told.read().split()[0])
        return total / 1000

    def peak(self):
        with open(f'/proc/{self.process.pid}/status') as told:
            return [int(line.split()[1]) / 1024 for line in told if line.startswith('VmHWM')][0]

    def measured(self, clients, ms):
        if self.process.poll() is not None:
            sys.exit(f'{self.process.args[0]} has ended with {self.process.returncode}')
        before = self.spent()
        words = [self.port, self.setting.kind, clients, ms, self.setting.services]
        rate, answered, other, *waits = subprocess.run(['./clients', *map(str, words)], capture_output=True, text=True, check=True).stdout.split()
        if other != '0' or answered == '0':
            sys.exit(f'{other} answers of {self.process.args[0]} were other ones, {answered} as wanted: {self.setting}, {clients} clients')
        self.answered += int(answered)
        return Run(float(rate), (self.spent() - before) / int(answered), *map(float, waits))

    def end(self):
        for pid in reversed(tree(self.process.pid)) if self.process.poll() is None else []:
            os.kill(pid, signal.SIGKILL)
        self.process.wait()


def loop_of(setting, wrap=()):
    return Server(setting, [*wrap, './loop', 'PORT', setting.kind, str(setting.doors), str(setting.services)])


def okws_of(setting, okws, wrap=(), wrap_service=''):
    """okws over a site of a setting, with these words before its own, and these before those of each service."""
    with open('site.okws', 'w') as f:
        f.write(PROXY + ''.join(SERVICE.format(i, wrap_service + './' + PROGRAMS[setting.kind]) for i in range(setting.services)))
    return Server(setting, [*wrap, okws, 'serve', 'site.okws', '--port', 'PORT', '--doors', str(setting.doors), '--serve', '1000000', *setting.words])


def own_time():
    """Seconds of processor time of this program and of all that it started and waits for, ended or not."""
    ended = resource.getrusage(resource.RUSAGE_CHILDREN)
    return ended.ru_utime + ended.ru_stime + time.process_time()


def processors():
    """Seconds that the processors were there, those that the host took away, and those that somebody had them."""
    with open('/proc/stat') as told:
        times = [int(word) / os.sysconf('SC_CLK_TCK') for word in told.readline().split()[1:9]]
    return sum(times), times[7], sum(times[:3]) + sum(times[5:7])


class Watch:
    """What part of the time since it was made the host took away, and what part others than these servers and clients had, in per cent."""
    def __init__(self, servers):
        self.servers = servers
        self.begun = self.now()

    def now(self):
        own = own_time() + sum(server.spent() / 1e6 for server in self.servers)
        return *processors(), own

    def told(self):
        there, taken, had, own = (now - then for now, then in zip(self.now(), self.begun))
        return f'{100 * taken / max(there, 0.01):.0f} % | {100 * max(had - own, 0) / max(there, 0.01):.0f} %'


def middle(runs, part):
    return statistics.median(getattr(run, part) for run in runs)


def told(runs):
    waits = ', '.join(f'{middle(runs, part):,.0f}' for part in ('middle', 'p99', 'p999'))
    return f'{middle(runs, "rate"):,.0f} | {middle(runs, "cpu"):,.0f} | {waits}'


def share(pairs, part):
    return statistics.median(getattr(own, part) / max(getattr(loop, part), 0.1) for loop, own in pairs)


def measure(case, servers, clients, rounds, ms):
    """Measures all servers of a case in turn, and prints a line for each of its settings."""
    if clients + 100 > resource.getrlimit(resource.RLIMIT_NOFILE)[0]:
        print(f'{clients:,} clients are left out: there may be fewer open files', flush=True)
        return
    if clients == MANY:
        rounds, ms = min(rounds, MANY_ROUNDS), ms * MANY_TIMES
    watch = Watch([server for pair in servers for server in pair])
    runs = [[tuple(server.measured(clients, ms) for server in pair) for pair in servers] for _ in range(rounds)]
    away = watch.told()
    for setting, pairs in zip(case.settings, zip(*runs)):
        loops, owns = zip(*pairs)
        name = f'{case.name}, {setting.services} at {setting.doors}'
        ratios = f'{share(pairs, "rate"):.2f} | {share(pairs, "cpu"):.2f} | {share(pairs, "p99"):.2f}'
        print(f'| {name} | {clients:,} | {told(loops)} | {told(owns)} | {ratios} | {away} |', flush=True)


def run_case(case, okws, rounds, ms):
    """Measures a case at each number of clients; tells the most memory that one of its servers of okws had, and how many requests that answered."""
    with contextlib.ExitStack() as stack:
        def kept(server):
            stack.callback(server.end)
            return server
        servers = [(kept(loop_of(setting)), kept(okws_of(setting, okws))) for setting in case.settings]
        for pair in servers:
            for server in pair:
                server.measured(1, 50)
        for clients in case.clients:
            measure(case, servers, clients, rounds, ms)
        return max((own.peak(), own.answered) for _, own in servers)


def yardstick(rounds, ms):
    """What the loop takes with one client: the machine's own measure."""
    server = loop_of(CASES[0].settings[0])
    try:
        runs = [server.measured(1, ms) for _ in range(rounds)]
        print(f'yardstick: with one client the loop takes {middle(runs, "cpu"):.0f} us of processor time and {middle(runs, "middle"):.0f} us a request,'
              f' on {os.cpu_count()} processors')
    finally:
        server.end()


@contextlib.contextmanager
def made(services):
    """Makes what is needed in a folder, and stands there."""
    with tempfile.TemporaryDirectory() as folder:
        shutil.copy(os.path.join(services, 'svc_guest'), folder)
        for name in ('loop', 'clients', 'bodies'):
            subprocess.run(['cc', '-O2', '-o', os.path.join(folder, name), f'{TOP}/bench/{name}.c', '-lpthread'], check=True)
        os.chdir(folder)
        try:
            yield
        finally:
            os.chdir('/')


def main(okws, services, rounds='11', ms='300', only=''):
    okws, rounds, ms = os.path.realpath(okws), int(rounds), int(ms)
    cases = [case for case in CASES if case.name.startswith(only)]
    if not cases:
        sys.exit(f'the cases are {", ".join(case.name for case in CASES)}')
    most = resource.getrlimit(resource.RLIMIT_NOFILE)[1]
    resource.setrlimit(resource.RLIMIT_NOFILE, (most, most))
    with made(services):
        begun = time.monotonic()
        yardstick(rounds, ms)
        sides = ' | '.join(f'{side}: a second | us | waits, us' for side in ('loop', 'okws'))
        print(f'| services at doors | clients | {sides} | share | us, times | p99, times | taken | others |\n{"|---" * 13}|', flush=True)
        peaks = {case.name: run_case(case, okws, rounds, ms) for case in cases}
        print('peak memory: ' + ', '.join(f'{name} {peak:.1f} MB after {answered:,}' for name, (peak, answered) in peaks.items()))
        print(f'in all {time.monotonic() - begun:.0f} s')


if __name__ == '__main__':
    main(*sys.argv[1:]) if len(sys.argv) > 2 else sys.exit(__doc__)
