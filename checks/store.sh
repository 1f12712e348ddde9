#!/usr/bin/env bash
# Kills a server whose rows stand in a file at random points of a run of writes, again and again over the same file, and looks whether each write
# that was answered is there afterwards. At the end a second server over the file is refused, and the first goes on.
#   checks/store.sh PROGRAM [TIMES [FOLDER [SEED]]]     so many times (20), with the services of FOLDER, or of this repository's crates
# Loopback only, on ports that the system gives. Every process that is started is ended, by its id. The last line is 'N passed, M failed'.
set -uo pipefail
: "${1:?where is the program, as bin/okws?}"
program=$(realpath "$1")
times=${2:-20}
services=$(realpath "${3:-$(dirname "$0")/../crates}")
seed=${4:-1}
folder=$(mktemp -d)
trap 'rm -rf "$folder"' EXIT
cp "$services/svc_guest" "$folder/" 2>/dev/null || cp "$services/svc_guest/out/svc_guest" "$folder/" || exit 1
cd "$folder" || exit 1
python3 - "$program" "$times" "$seed" <<'P'
import os, random, signal, socket, subprocess, sys, threading, time

PROGRAM, TIMES, DRAWN = sys.argv[1], int(sys.argv[2]), random.Random(int(sys.argv[3]))

SITE = """okws 1
proxy main
table main msgs id INT KEY who TEXT note TEXT
row main msgs 0 'first' ''
query main 1 SELECT id, who FROM msgs ORDER BY id
query main 2 INSERT INTO msgs (id, who, note) VALUES (?1, ?2, ?3)
service guest ./svc_guest
uri /guest guest
grant guest main 1 2
log guest
"""

def a_port():
    with socket.socket() as s:
        s.bind(('127.0.0.1', 0))
        return s.getsockname()[1]

def words(port):
    return [PROGRAM, 'serve', 'site', '--port', str(port), '--serve', '1000000', '--store', 'rows']

def listens(port):
    with open('/proc/net/tcp') as f:
        return any(line.split()[1:4:2] == ['0100007F:%04X' % port, '0A'] for line in f.readlines()[1:])

class Server:
    def __init__(self):
        # Where somebody else has taken its port meanwhile, it is started at another one.
        for _ in range(5):
            self.start(a_port())
            if self.process.poll() != 5:
                break
        if self.process.poll() is not None:
            raise AssertionError(f'the server ended at once, status {self.process.returncode}: {self.process.stdout.read()!r}')

    def start(self, port):
        """Starts the server at a port, and waits until it listens there or has ended."""
        self.port = port
        self.process = subprocess.Popen(words(port), stdin=subprocess.PIPE, stdout=subprocess.PIPE)
        for _ in range(1500):
            if self.process.poll() is not None or listens(port):
                return
            time.sleep(0.02)

    def end(self):
        """Kills it and its children, at once."""
        children = []
        try:
            for task in os.listdir(f'/proc/{self.process.pid}/task'):
                with open(f'/proc/{self.process.pid}/task/{task}/children') as f:
                    children += [int(pid) for pid in f.read().split()]
        except OSError:
            pass
        self.process.kill()
        for pid in children:
            try:
                os.kill(pid, signal.SIGKILL)
            except ProcessLookupError:
                pass
        self.process.wait()
        self.process.stdin.close()
        self.process.stdout.close()

def exchange(port, request):
    with socket.create_connection(('127.0.0.1', port), 30) as s:
        s.sendall(request)
        s.shutdown(socket.SHUT_WR)
        answer = b''
        while piece := s.recv(65536):
            answer += piece
        return answer

def post(port, number):
    form = f'id={number}&who=w{number}&note={"x" * (number % 300)}'
    return exchange(port, f'POST /guest HTTP/1.1\r\nHost: a\r\nContent-Length: {len(form)}\r\n\r\n{form}'.encode())

def shown(port):
    """The numbers that the guestbook shows."""
    head, _, content = exchange(port, b'GET /guest HTTP/1.1\r\nHost: a\r\n\r\n').partition(b'\r\n\r\n')
    if not head.startswith(b'HTTP/1.1 200'):
        raise AssertionError(f'found {head!r}')
    lines = content.decode().splitlines()
    for line in lines:
        number, who = line.split()
        if who != ('first' if number == '0' else 'w' + number):
            raise AssertionError(f'a row was changed: {line!r}')
    return [int(line.split()[0]) for line in lines]

def round_of(number, next_number, answered):
    server = Server()
    try:
        found = shown(server.port)
        missing = sorted(({0} | answered) - set(found))
        if missing or len(found) != len(set(found)):
            raise AssertionError(f'round {number}: lost {missing[:5]}, found {len(found)} of which {len(set(found))} differ')
        if not answered:
            # The first run's first write is answered, however slow the disk is.
            tried, next_number = next_number, next_number + 1
            if not post(server.port, tried).startswith(b'HTTP/1.1 303'):
                raise AssertionError('the first write was not answered')
            answered.add(tried)
        killer = threading.Timer(DRAWN.uniform(0, 0.4), server.end)
        killer.start()
        try:
            while True:
                tried, next_number = next_number, next_number + 1
                if not post(server.port, tried).startswith(b'HTTP/1.1 303'):
                    break
                answered.add(tried)
        except OSError:
            pass
        killer.join()
    finally:
        if server.process.poll() is None:
            server.end()
    return next_number

def each_answered_write_is_there():
    next_number, answered = 1, set()
    for number in range(TIMES):
        next_number = round_of(number, next_number, answered)
    print(f'{len(answered)} of {next_number - 1} writes were answered in {TIMES} runs')

def a_second_server_is_refused():
    server = Server()
    try:
        before = shown(server.port)
        second = subprocess.run(words(a_port()), capture_output=True, stdin=subprocess.DEVNULL, timeout=60)
        if (second.stdout, second.returncode) != (b'store fault\n', 6):
            raise AssertionError(f'the second server said {second.stdout!r}, status {second.returncode}')
        if shown(server.port) != before or not post(server.port, -1).startswith(b'HTTP/1.1 303') or shown(server.port) != sorted(before + [-1]):
            raise AssertionError('the first server lost its rows')
    finally:
        server.end()
    again = Server()
    try:
        if shown(again.port) != sorted(before + [-1]):
            raise AssertionError('the file lost its rows')
    finally:
        again.end()

with open('site', 'w') as f:
    f.write(SITE)
passed = failed = 0
for check in (each_answered_write_is_there, a_second_server_is_refused):
    try:
        check()
        passed += 1
    except (AssertionError, OSError, subprocess.TimeoutExpired) as why:
        failed += 1
        print(f'{check.__name__}: {why}', flush=True)
print(f'{passed} passed, {failed} failed')
sys.exit(failed != 0)
P
