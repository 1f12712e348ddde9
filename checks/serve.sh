#!/usr/bin/env bash
# Serves sites over real sockets with real programs as services, and compares what clients, the console and the log are given.
#   checks/serve.sh PROGRAM [FOLDER [CHECK]]     FOLDER has the services, or the crates whose programs they are; without it this repository's crates
# Hostile services and clients are those of the tables in crates/storm_tests. With CHECK that one alone. Loopback only, on ports that the system gives. Every
# process that is started is ended, by its id.
# The last line is 'N passed, M failed'.
set -uo pipefail
: "${1:?where is the program, as bin/okws?}"
program=$(realpath "$1")
services=$(realpath "${2:-$(dirname "$0")/../crates}")
only=${3:-}
tables=$(realpath "$(dirname "$0")/../crates/storm_tests/src/tables.rt")
folder=$(mktemp -d)
trap 'rm -rf "$folder"' EXIT
for name in svc_guest svc_probe; do
    cp "$services/$name" "$folder/" 2>/dev/null || cp "$services/$name/out/$name" "$folder/" || exit 1
done
cd "$folder" || exit 1
python3 - "$program" "$tables" "$only" <<'P'
import fcntl, os, re, resource, shutil, signal, socket, sqlite3, struct, subprocess, sys, termios, threading, time

PROGRAM, TABLES, ONLY = sys.argv[1:4]

SITE = """okws 1
proxy main
table main msgs id INT KEY who TEXT note TEXT
row main msgs 1 'ann' 'hi'
row main msgs 2 'bob' 'yo'
query main 1 SELECT id, who FROM msgs ORDER BY id
query main 2 INSERT INTO msgs (id, who, note) VALUES (?1, ?2, ?3)
service guest ./svc_guest
service other %s
uri /guest guest
uri /other other
grant guest main 1 2
template page
read guest page
log guest
"""

REPLY_OK = '000000154500c80a746578742f706c61696e00000000026f6b'

def write(path, text):
    with open(path, 'w') as f:
        f.write(text)

def read(path):
    with open(path) as f:
        return f.read()

def program(path, text):
    """A program of the shell."""
    write(path, '#!/bin/sh\n' + text)
    os.chmod(path, 0o755)

def a_port():
    with socket.socket() as s:
        s.bind(('127.0.0.1', 0))
        return s.getsockname()[1]

class Server:
    """A server of a site for so many connections, or for all that come, whose console is a pipe. It and its children are ended at the end of the block."""
    def __init__(self, site, connections, *options, doors=2, port=None, files=None, before='', without=''):
        """With at most so many open files, behind what a shell does before, and without some of its standard streams as the shell writes it."""
        write('site', site)
        self.ports = [port] if port else [a_port() for _ in range(5)]
        self.limit_files = (lambda: resource.setrlimit(resource.RLIMIT_NOFILE, (files, files))) if files else None
        self.shell = ['/bin/sh', '-c', f'{before}exec "$0" "$@" {without}'] if before or without else []
        self.words = ['--doors', str(doors), *(['--serve', str(connections)] if connections is not None else ['--always']), *options]

    def start(self, port):
        """Starts the server at a port, and waits until it has listened there or has ended."""
        self.port = port
        words = [*self.shell, PROGRAM, 'serve', 'site', '--port', str(port), *self.words]
        self.errors = open('errors', 'w+')
        self.process = subprocess.Popen(words, stdin=subprocess.PIPE, stdout=subprocess.PIPE, stderr=self.errors, preexec_fn=self.limit_files)
        self.limit = threading.Timer(120, self.process.kill)
        self.limit.start()
        for _ in range(1500):
            if self.process.poll() is not None or self.has_listened():
                return
            time.sleep(0.02)
        self.__exit__()
        raise AssertionError('the server opened no door')

    def __enter__(self):
        """Where somebody else has taken its port meanwhile, it is started at the next one."""
        for port in self.ports:
            self.start(port)
            if self.process.poll() != 5 or port == self.ports[-1]:
                return self
            self.__exit__()

    def has_listened(self):
        """Whether it has told that it listens: at one that serves no connection the doors are open for a moment alone."""
        return any(line.startswith('okws: listening on ') for line in self.told())

    def listens(self):
        wanted = '0100007F:%04X' % self.port
        with open('/proc/net/tcp') as f:
            return any(line.split()[1:4:2] == [wanted, '0A'] for line in f.readlines()[1:])

    def __exit__(self, *_):
        self.limit.cancel()
        children = self.children() if self.process.poll() is None else []
        for end in [self.process.kill, *(lambda pid=pid: os.kill(pid, signal.SIGKILL) for pid in children)]:
            try:
                end()
            except ProcessLookupError:
                pass
        self.process.wait()
        self.process.stdout.close()
        self.errors.close()

    def children(self):
        """The children of all of its threads."""
        found = []
        for task in os.listdir(f'/proc/{self.process.pid}/task'):
            try:
                with open(f'/proc/{self.process.pid}/task/{task}/children') as f:
                    found += [int(pid) for pid in f.read().split()]
            except OSError:
                pass
        return sorted(found)

    def answers(self, line):
        """What the console answers to this line."""
        self.process.stdin.write(line)
        self.process.stdin.flush()
        return self.process.stdout.readline()

    def told(self):
        """The lines that it told on standard error, in the order of the alphabet: two threads may tell at once."""
        with open('errors') as f:
            return sorted(f.read().splitlines())

    def ends(self):
        """What it printed, and its status, once its console has ended."""
        self.process.stdin.close()
        return self.process.stdout.read().decode(), self.process.wait(60)

def said(*words):
    """What the program prints with these words and no input, and its status."""
    run = subprocess.run([PROGRAM, *words], capture_output=True, stdin=subprocess.DEVNULL, timeout=60)
    return run.stdout.decode(), run.returncode

def heard(pid):
    """How many bytes stand in a process's input that it hasn't taken."""
    with open(f'/proc/{pid}/fd/0', 'rb', buffering=0) as f:
        return struct.unpack('i', fcntl.ioctl(f, termios.FIONREAD, bytes(4)))[0]

def wait_until(holds):
    """Waits until this holds, for thirty seconds at most."""
    for _ in range(3000):
        if holds():
            return
        time.sleep(0.01)
    raise AssertionError('waited in vain')

def gone(pid):
    """Whether a process has ended, waited for or not."""
    try:
        with open(f'/proc/{pid}/stat') as f:
            return f.read().rsplit(')', 1)[1].split()[0] == 'Z'
    except OSError:
        return True

def exchange(port, request, shut=True, wait=30):
    """What the server answers to these bytes, to the end of the connection."""
    with socket.create_connection(('127.0.0.1', port), wait) as s:
        s.sendall(request)
        if shut:
            s.shutdown(socket.SHUT_WR)
        answer = b''
        while piece := s.recv(65536):
            answer += piece
        return answer

def get(port, path='/guest', method='GET'):
    return exchange(port, f'{method} {path} HTTP/1.1\r\nHost: localhost\r\n\r\n'.encode())

def post(port, form, more=''):
    return exchange(port, f'POST /guest HTTP/1.1\r\nHost: localhost\r\n{more}Content-Length: {len(form)}\r\n\r\n{form}'.encode())

def response(status, content, location='', length=None, kind='text/plain'):
    where = f'Location: {location}\r\n' if location else ''
    size = len(content) if length is None else length
    return f'HTTP/1.1 {status}\r\nContent-Type: {kind}\r\n{where}Content-Length: {size}\r\nConnection: close\r\n\r\n{content}'.encode()

def own(status):
    return response(status, f'{status}\n')

def same(found, wanted):
    if found != wanted:
        raise AssertionError(f'found {found!r}, wanted {wanted!r}')

def counts(connections, accepts, launches, publications, logged):
    return f'connections {connections}\naccepts {accepts}\nlaunches {launches}\npublications {publications}\nlogged {logged}\n'

ANN_AND_BOB = response('200 OK', '1 ann\n2 bob\n')
OK = response('200 OK', 'ok')
BAD_GATEWAY = own('502 Bad Gateway')
UNAVAILABLE = own('503 Service Unavailable')

def the_guestbook_shows_and_takes_entries():
    with Server(SITE % './svc_probe', 6, '--log', 'log') as server:
        same(get(server.port), ANN_AND_BOB)
        same(post(server.port, 'id=3&who=cy&note=ho'), response('303 See Other', '', '/guest'))
        same(get(server.port), response('200 OK', '1 ann\n2 bob\n3 cy\n'))
        wait_until(lambda: read('log') == 'guest 1 post 3\n')
        same(post(server.port, 'id=3&who=di&note='), response('409 Conflict', 'taken\n'))
        same(post(server.port, 'id=x&who=di&note='), response('400 Bad Request', 'bad form\n'))
        same(post(server.port, 'id=-4&who=di&note=', 'Expect: 100-continue\r\n'),
             b'HTTP/1.1 100 Continue\r\n\r\n' + response('303 See Other', '', '/guest'))
        same(server.ends(), (counts(6, 6, 2, 0, 2), 0))
    same(read('log'), 'guest 1 post 3\nguest 1 post -4\n')

def a_log_is_appended_to():
    write('kept', 'before\n')
    with Server(SITE % './svc_probe', 1, '--log', 'kept') as server:
        post(server.port, 'id=-7&who=cy&note=')
        same(server.ends(), (counts(1, 1, 2, 0, 1), 0))
    same(read('kept'), 'before\nguest 1 post -7\n')

def a_log_that_cannot_be_opened_is_a_fault_at_the_end():
    with Server(SITE % './svc_probe', 1, '--log', 'nowhere/log') as server:
        same(get(server.port), ANN_AND_BOB)
        same(server.ends(), (counts(1, 1, 2, 0, 0) + 'log fault\n', 7))

def requests_are_refused_by_the_standard():
    with Server(SITE % f'./svc_probe {REPLY_OK}', 11) as server:
        same(exchange(server.port, b'HEAD /other HTTP/1.0\r\n\r\n'), response('200 OK', '', length=2))
        same(exchange(server.port, b'GET /other HTTP/1.1\r\nHost: a\r\nHost: b\r\n\r\n'), own('400 Bad Request'))
        same(get(server.port, method='PUT'), own('501 Not Implemented'))
        same(exchange(server.port, b'POST /guest HTTP/1.1\r\nHost: a\r\nContent-Length: 262145\r\n\r\n'), own('413 Content Too Large'))
        same(exchange(server.port, b'POST /guest HTTP/1.1\r\nHost: a\r\nContent-Length: 3\r\n\r\nab'), own('400 Bad Request'))
        same(exchange(server.port, b''), own('400 Bad Request'))
        for path, answer in [('/guest/x', ANN_AND_BOB), ('/guestx', own('404 Not Found')), ('/%67uest', own('404 Not Found')), ('/', own('404 Not Found'))]:
            same(get(server.port, path), answer)
        same(exchange(server.port, b'GET /guest HTTP/1.1\r\n' + b'A: b\r\n' * 64 + b'A'), own('431 Request Header Fields Too Large'))
        same(server.ends(), (counts(11, 5, 2, 0, 0), 0))

def rows(table):
    """The rows of one of the tables, in their fields."""
    with open(TABLES) as f:
        text = re.search(f'const {table}: &str = "(.*?)";', f.read(), re.S)[1]
    return [line.split(' | ') for line in text.split('\n') if line and not line.startswith('#')]

def written_out(text):
    """A text with its repetitions written out."""
    return re.sub(r'{(\d+) ([^}]*)}', lambda it: int(it[1]) * it[2], text)

# Says what a file has, with the token of its Boot, and takes what comes to its end.
FROM_A_FILE = """#!/usr/bin/env python3
import sys
boot = sys.stdin.buffer.read(34)
with open('said') as f:
    said = bytes.fromhex(f.read().replace('t', boot[14:].hex()))
sys.stdout.buffer.write(said)
sys.stdout.buffer.flush()
sys.stdin.buffer.read()
"""

def that_says(word):
    """The words of a service that says this at its first requests. A line of a configuration has at most 65,536 bytes: what is longer stands in a file."""
    if 2 * len(word) < 65000:
        return f'./svc_probe {word} {word}'
    write('said', word)
    write('from_a_file', FROM_A_FILE)
    os.chmod('from_a_file', 0o755)
    return './from_a_file'

def hostile_services_harm_their_own_dialog_alone():
    for said, _, end in rows('SERVICES'):
        service = that_says('00000017410000t' + written_out(said).replace(' ', '') + REPLY_OK)
        with Server(SITE % service + 'grant other main 1\n', 3, doors=1) as server:
            for _ in range(2):
                same(get(server.port, '/other'), OK if end == 'Reply' else BAD_GATEWAY)
            same(get(server.port), ANN_AND_BOB)
            same(server.ends(), (counts(3, 3, 2 if end == 'Reply' else 4, 0, 0), 0))

def hostile_clients_are_told_what_is_due():
    table = rows('CLIENTS')
    with Server(SITE.replace('./svc_guest', './svc_probe' + f' {REPLY_OK}' * len(table)) % './svc_probe', len(table), doors=1) as server:
        for status, text in table:
            answer = exchange(server.port, written_out(text).replace('~', '\r\n').encode())
            same(answer, OK if status == '200 OK' else own(status))
        same(server.ends()[1], 0)

def a_site_of_no_service_is_served():
    with Server('okws 1\n', 1) as server:
        same(get(server.port), own('404 Not Found'))
        same(server.ends(), (counts(1, 1, 0, 0, 0), 0))

def the_console_is_answered():
    with Server(SITE % './svc_probe', 1) as server:
        same(server.answers(b'publish page 1\na\n'), b'published 1\n')
        same(server.answers(b'relaunch nobody\n'), b'refused 3 2\n')
        same(server.answers(b'relaunch guest\nend\n'), b'relaunched 2\n')
        same(get(server.port), response('200 OK', 'a', kind='text/html'))
        same(server.ends(), (counts(1, 1, 3, 1, 0), 0))

def a_published_page_reaches_a_running_service():
    with Server(SITE % './svc_probe', 3) as server:
        same(get(server.port), ANN_AND_BOB)
        for edition, page, shown in [(1, b'<p>@{rows}</p>', '<p>1 ann\n2 bob\n</p>'), (2, b'@{rows}', '1 ann\n2 bob\n')]:
            same(server.answers(b'publish page %d\n%s' % (len(page), page)), b'published %d\n' % edition)
            same(get(server.port), response('200 OK', shown, kind='text/html'))
        same(server.ends(), (counts(3, 3, 2, 2, 0), 0))

def a_refused_publication_is_dropped():
    with Server(SITE % './svc_probe', 0) as server:
        same(server.answers(b'publish x 4\nend\nend\n'), b'refused 1 2\n')
        same(server.ends(), (counts(0, 0, 2, 0, 0), 0))

def a_bad_frame_is_a_bad_gateway_and_three_of_them_give_the_service_up():
    with Server(SITE % './svc_probe 00000000', 5, doors=1) as server:
        for answer in [BAD_GATEWAY] * 3 + [UNAVAILABLE]:
            same(get(server.port, '/other'), answer)
        same(server.answers(b'relaunch other\n'), b'relaunched 4\n')
        same(get(server.port, '/other'), BAD_GATEWAY)
        same(server.ends(), (counts(5, 5, 6, 0, 0), 0))

def a_killed_child_is_launched_again():
    with Server(SITE % f'./svc_probe {REPLY_OK} {REPLY_OK}', 5, doors=1) as server:
        for _ in range(2):
            same(get(server.port, '/other'), OK)
        killed = server.children()
        for pid in killed:
            os.kill(pid, signal.SIGKILL)
        wait_until(lambda: all(gone(pid) for pid in killed))
        same(get(server.port), BAD_GATEWAY)
        same(get(server.port), ANN_AND_BOB)
        same(get(server.port, '/other'), OK)
        alive = server.children()
        assert len(alive) == 2 and not set(alive) & set(killed), (alive, killed)
        same(server.ends(), (counts(5, 5, 4, 0, 0), 0))

def a_service_that_cannot_start_is_given_up():
    with Server(SITE % './svc_none', 2) as server:
        same(get(server.port, '/other'), UNAVAILABLE)
        same(get(server.port), ANN_AND_BOB)
        same(server.answers(b'relaunch other\n'), b'dead 3\n')
        same(server.ends(), (counts(2, 2, 1, 0, 0), 0))

def a_held_dialog_keeps_no_other_client_waiting():
    with Server(SITE % '/bin/sleep 600', 2) as server:
        wait_until(lambda: len(server.children()) == 2)
        held = []
        client = threading.Thread(target=lambda: held.append(get(server.port, '/other')))
        client.start()
        # Boot has 34 bytes; the sleeping child takes neither it nor the Request behind it.
        wait_until(lambda: any(heard(pid) > 34 for pid in server.children()))
        same(get(server.port), ANN_AND_BOB)
        same(server.answers(b'relaunch other\n'), b'relaunched 2\n')
        client.join(30)
        assert held and held[0] in (BAD_GATEWAY, UNAVAILABLE), held
        same(server.ends(), (counts(2, 2, 3, 0, 0), 0))

def a_taken_port_is_a_fault_and_starts_no_child():
    with socket.socket() as taken:
        taken.bind(('127.0.0.1', 0))
        taken.listen()
        write('marked', SITE % '/usr/bin/touch started')
        same(said('serve', 'marked', '--port', str(taken.getsockname()[1]), '--serve', '1'), ('net fault\n', 5))
        assert not os.path.exists('started')

def words_and_files_are_judged_first():
    write('good', SITE % './svc_probe')
    write('bad', 'okws 1\nproxy main\ngrant guest main 1\n')
    same(said('serve', 'good')[1], 2)
    same(said('serve', 'good', '--port', '1')[1], 2)
    same(said('serve', 'good', '--port', '1', '--serve', '1', '--always')[1], 2)
    same(said('serve', 'good', '--port', '1', '--always', '--patience', '3601')[1], 2)
    same(said('--version'), ('okws 0.1\n', 0))
    same(said('serve', 'good', '--port', '0', '--serve', '1')[1], 2)
    same(said('serve', 'none', '--port', '1', '--serve', '1'), ('read fault\n', 3))
    same(said('serve', 'bad', '--port', '1', '--serve', '1'), ('refused: config line 3 rule 11\n', 4))
    same(said('serve', 'good', '--port', '1', '--serve', '1', '--audit', 'record')[1], 2)

def rows_in_a_file_are_there_in_the_next_run():
    for number, length in [(3, 12), (4, 17)]:
        with Server(SITE % './svc_probe', 3, '--store', 'rows') as server:
            shown = get(server.port)
            same(shown.split(b'Content-Length: ')[1].split(b'\r')[0], b'%d' % length)
            same(post(server.port, f'id={number}&who=cy&note=ho'), response('303 See Other', '', '/guest'))
            same(post(server.port, f'id={number}&who=di&note=ho'), response('409 Conflict', 'taken\n'))
            same(server.ends(), (counts(3, 3, 2, 0, 1), 0))
    same(shown, response('200 OK', '1 ann\n2 bob\n3 cy\n'))

def a_file_of_rows_is_one_servers():
    with Server(SITE % './svc_probe', 3, '--store', 'shared') as server:
        same(get(server.port), ANN_AND_BOB)
        same(said('serve', 'site', '--port', str(a_port()), '--serve', '1', '--store', 'shared'), ('store fault\n', 6))
        same(post(server.port, 'id=3&who=cy&note='), response('303 See Other', '', '/guest'))
        same(get(server.port), response('200 OK', '1 ann\n2 bob\n3 cy\n'))
        same(server.ends(), (counts(3, 3, 2, 0, 1), 0))

def rows_of_other_columns_are_refused_and_kept():
    with Server(SITE % './svc_probe', 1, '--store', 'columns') as server:
        same(post(server.port, 'id=3&who=cy&note='), response('303 See Other', '', '/guest'))
        same(server.ends(), (counts(1, 1, 2, 0, 1), 0))
    for columns in ['id INT KEY who TEXT note BYTES', 'id INT who TEXT note TEXT', 'id INT KEY who TEXT']:
        write('other', f'okws 1\nproxy main\ntable main msgs {columns}\n')
        same(said('serve', 'other', '--port', str(a_port()), '--serve', '0', '--store', 'columns'), ('store fault\n', 6))
    with Server(SITE % './svc_probe', 1, '--store', 'columns') as server:
        same(get(server.port), response('200 OK', '1 ann\n2 bob\n3 cy\n'))
        same(server.ends(), (counts(1, 1, 2, 0, 0), 0))

def a_file_of_rows_that_cannot_be_opened_is_a_fault():
    write('good', SITE % './svc_probe')
    same(said('serve', 'good', '--port', str(a_port()), '--serve', '1', '--store', 'nowhere/rows'), ('store fault\n', 6))

def rows_of_a_file_stay_where_a_port_is_taken():
    with socket.socket() as taken:
        taken.bind(('127.0.0.1', 0))
        taken.listen()
        write('good', SITE % './svc_probe')
        same(said('serve', 'good', '--port', str(taken.getsockname()[1]), '--serve', '1', '--store', 'kept_rows'), ('net fault\n', 5))
    with Server(SITE % './svc_probe', 1, '--store', 'kept_rows') as server:
        same(get(server.port), ANN_AND_BOB)
        same(server.ends(), (counts(1, 1, 2, 0, 0), 0))

def two_hundred_clients_are_served_at_once():
    with Server(SITE % './svc_probe', 200, doors=8) as server:
        answers = []
        clients = [threading.Thread(target=lambda: answers.append(get(server.port))) for _ in range(200)]
        for client in clients:
            client.start()
        for client in clients:
            client.join(60)
        same(answers, [ANN_AND_BOB] * 200)
        same(server.ends(), (counts(200, 200, 2, 0, 0), 0))

def clients_that_reset_harm_no_other():
    with Server(SITE % './svc_probe', 51) as server:
        for i in range(50):
            with socket.create_connection(('127.0.0.1', server.port)) as s:
                s.sendall((b'GET /guest HTTP/1.1\r\nHost: a\r\n\r\n', b'GET /gu', b'')[i % 3])
                s.setsockopt(socket.SOL_SOCKET, socket.SO_LINGER, struct.pack('ii', 1, 0))
        same(get(server.port), ANN_AND_BOB)
        printed, status = server.ends()
        same((printed.splitlines()[0], status), ('connections 51', 0))

def a_run_ends_after_its_connections_and_leaves_no_child():
    with Server(SITE % './svc_probe', 3) as server:
        children = server.children()
        for _ in range(3):
            same(get(server.port), ANN_AND_BOB)
            children += server.children()
        assert len(set(children)) == 2, children
        same(server.ends(), (counts(3, 3, 2, 0, 0), 0))
        assert not any(os.path.exists(f'/proc/{pid}') for pid in children)

def a_port_is_free_at_once_after_a_run():
    port = a_port()
    for _ in range(2):
        with Server(SITE % './svc_probe', 1, port=port) as server:
            same(get(server.port), ANN_AND_BOB)
            same(server.ends(), (counts(1, 1, 2, 0, 0), 0))

def a_service_that_leaves_another_holds_nobody():
    program('leaves', 'exec 3<&0\nsleep 8 <&3 &\n')
    with Server(SITE % './leaves', 5) as server:
        answers = []
        client = threading.Thread(target=lambda: answers.append(get(server.port, '/other')))
        client.start()
        time.sleep(0.3)
        for _ in range(3):
            begun = time.monotonic()
            same(get(server.port), ANN_AND_BOB)
            assert time.monotonic() - begun < 1, time.monotonic() - begun
        begun = time.monotonic()
        assert server.answers(b'relaunch other\n').startswith((b'relaunched', b'dead'))
        client.join(5)
        same(answers, [BAD_GATEWAY])
        assert time.monotonic() - begun < 5, time.monotonic() - begun
        assert get(server.port, '/other') in (BAD_GATEWAY, UNAVAILABLE)
        same(server.ends()[1], 0)

def a_server_without_standard_input_has_no_operator():
    with Server('okws 1\ntemplate page\n', 2, without='<&-') as server:
        same(exchange(server.port, b'publish page 1\na\n'), own('400 Bad Request'))
        same(get(server.port), own('404 Not Found'))
        same(server.ends(), (counts(2, 1, 0, 0, 0), 0))

def a_server_without_standard_output_tells_no_client():
    with Server('okws 1\ntemplate page\n', 2, without='>&-') as server:
        with socket.create_connection(('127.0.0.1', server.port), 30) as client:
            time.sleep(0.3)
            server.process.stdin.write(b'publish nobody 1\na\n')
            server.process.stdin.flush()
            time.sleep(0.3)
            client.sendall(b'GET / HTTP/1.1\r\nHost: a\r\n\r\n')
            answer = b''
            while piece := client.recv(65536):
                answer += piece
        same(answer, own('404 Not Found'))
        same(get(server.port), own('404 Not Found'))
        server.process.stdin.close()
        assert server.process.wait(30) in (8, 10)

def connections_wait_where_there_is_no_descriptor_for_them():
    # 0 to 5: the three standard ones, two doors, and one connection at a time
    with Server('okws 1\n', 3, files=6) as server:
        clients = [socket.create_connection(('127.0.0.1', server.port), 30) for _ in range(2)]
        time.sleep(0.5)
        for client in clients:
            client.sendall(b'GET / HTTP/1.1\r\nHost: a\r\n\r\n')
            answer = b''
            while piece := client.recv(65536):
                answer += piece
            same(answer, own('404 Not Found'))
            client.close()
        same(get(server.port), own('404 Not Found'))
        same(server.ends(), (counts(3, 3, 0, 0, 0), 0))
        same(server.told(), [f'okws: listening on 127.0.0.1:{server.port}'])

def what_goes_wrong_is_told_on_standard_error():
    with Server(SITE % './svc_none', 1, '--log', 'nowhere/log') as server:
        same(get(server.port), ANN_AND_BOB)
        same(server.ends()[1], 7)
        same(server.told(), ['okws: listening on 127.0.0.1:%d' % server.port, 'okws: log: could not be opened: No such file or directory']
             + [f'okws: other {k}: could not be started: No such file or directory' for k in (1, 2, 3)] + ['okws: other: given up after 3 tries'])
    program('ends', 'head -c 40 >/dev/null\nexit 3\n')
    with Server(SITE % './ends', 1) as server:
        same(get(server.port, '/other'), BAD_GATEWAY)
        same(server.ends()[1], 0)
        same(server.told(), ['okws: listening on 127.0.0.1:%d' % server.port, 'okws: other 1: ended with status 3'])
    with Server(SITE % './svc_probe', 1, '--log', '/dev/full') as server:
        same(post(server.port, 'id=3&who=cy&note=')[:12], b'HTTP/1.1 303')
        wait_until(lambda: len(server.told()) == 2)
        same(server.told(), ['okws: listening on 127.0.0.1:%d' % server.port, 'okws: log: could not be written: No space left on device'])
        same(server.ends()[1], 7)

def a_limit_on_the_size_of_files_is_a_fault_where_its_signal_is_ignored():
    write('limited', 'x' * 500 + '\n')
    with Server(SITE % './svc_probe', 2, '--log', 'limited', before="trap '' XFSZ; ulimit -f 1; ") as server:
        same(post(server.port, 'id=3&who=cy&note=')[:12], b'HTTP/1.1 303')
        wait_until(lambda: len(server.told()) == 2)
        same(server.told(), ['okws: listening on 127.0.0.1:%d' % server.port, 'okws: log: could not be written: File too large'])
        same(get(server.port), response('200 OK', '1 ann\n2 bob\n3 cy\n'))
        same(server.ends()[1], 7)

def a_child_has_path_alone_and_three_descriptors():
    with Server(SITE % './svc_probe', 1, '--store', 'bare', '--log', 'bare_log') as server:
        wait_until(lambda: len(server.children()) == 2)
        for pid in server.children():
            wait_until(lambda: b'svc_' in open(f'/proc/{pid}/cmdline', 'rb').read())
            with open(f'/proc/{pid}/environ', 'rb') as f:
                same(f.read(), b'PATH=' + os.environ['PATH'].encode() + b'\0')
            same(sorted(os.listdir(f'/proc/{pid}/fd')), ['0', '1', '2'])
        same(get(server.port), ANN_AND_BOB)
        same(server.ends()[1], 0)

def a_file_of_rows_has_all_rows_after_an_orderly_end():
    with Server(SITE % './svc_probe', 1, '--store', 'whole') as server:
        same(post(server.port, 'id=3&who=cy&note='), response('303 See Other', '', '/guest'))
        same(server.ends()[1], 0)
    shutil.copy('whole.0', 'copied.0')
    with Server(SITE % './svc_probe', 1, '--store', 'copied') as server:
        same(get(server.port), response('200 OK', '1 ann\n2 bob\n3 cy\n'))
        same(server.ends()[1], 0)

def a_new_file_of_rows_has_its_tables_when_the_doors_open():
    with Server(SITE % './svc_probe', 1, '--store', 'begun') as server:
        shutil.copy('begun.0', 'alone.0')
        database = sqlite3.connect('alone.0')
        same(database.execute('SELECT c1 FROM t0 ORDER BY c0').fetchall(), [('ann',), ('bob',)])
        database.close()
        same(get(server.port), ANN_AND_BOB)
        same(server.ends()[1], 0)

def rows_of_tables_or_columns_in_another_order_are_refused():
    for name, lines in [('order_of_tables', ['table main one id INT KEY a TEXT', 'table main two id INT KEY a TEXT']), ('order_of_columns', ['table main one id INT KEY a TEXT b TEXT'])]:
        write('ordered', 'okws 1\nproxy main\n' + '\n'.join(lines) + '\n')
        same(said('serve', 'ordered', '--port', str(a_port()), '--serve', '0', '--store', name)[1], 0)
        changed = lines[::-1] if name == 'order_of_tables' else ['table main one id INT KEY b TEXT a TEXT']
        write('changed', 'okws 1\nproxy main\n' + '\n'.join(changed) + '\n')
        same(said('serve', 'changed', '--port', str(a_port()), '--serve', '0', '--store', name), ('store fault\n', 6))
        same(said('serve', 'ordered', '--port', str(a_port()), '--serve', '0', '--store', name)[1], 0)

def change_schema(path, *statements):
    """Changes what a database says of its tables, and nothing in them."""
    database = sqlite3.connect(path, isolation_level=None)
    database.execute('PRAGMA writable_schema = ON')
    version = database.execute('PRAGMA schema_version').fetchone()[0]
    for statement in statements:
        database.execute(*statement)
    database.execute(f'PRAGMA schema_version = {version + 1}')
    database.close()

def shown_by(path, query):
    database = sqlite3.connect(path)
    rows = database.execute(query).fetchall()
    database.close()
    return rows

def write_past_a_rule(path, word, left_out, statement):
    """Runs a statement at the store's table as if it had been made without this word; what the database says of it is then as it was."""
    was = shown_by(path, 'SELECT rowid, type, name, tbl_name, rootpage, sql FROM sqlite_schema')
    change_schema(path, (f'DELETE FROM sqlite_schema WHERE type = {left_out!r}',), ("UPDATE sqlite_schema SET sql = replace(sql, ?, '')", (word,)))
    database = sqlite3.connect(path)
    with database:
        database.execute(statement)
    database.close()
    change_schema(path, ('DELETE FROM sqlite_schema',), *[('INSERT INTO sqlite_schema (rowid, type, name, tbl_name, rootpage, sql) VALUES (?, ?, ?, ?, ?, ?)', row) for row in was])

def rows_that_do_not_fit_their_table_are_refused_and_kept():
    for name, word, left_out, statement, rows in [
        ('one_key_twice', ' UNIQUE', 'index', 'UPDATE t0 SET c0 = 1', [(1, 'ann'), (1, 'bob')]),
        ('another_kind', ' STRICT', 'none', "UPDATE t0 SET c0 = 'x' WHERE c0 = 2", [(1, 'ann'), ('x', 'bob')]),
    ]:
        with Server(SITE % './svc_probe', 1, '--store', name) as server:
            same(get(server.port), ANN_AND_BOB)
            same(server.ends()[1], 0)
        write_past_a_rule(f'{name}.0', word, left_out, statement)
        same(said('serve', 'site', '--port', str(a_port()), '--serve', '1', '--store', name), ('store fault\n', 6))
        same(shown_by(f'{name}.0', 'SELECT c0, c1 FROM t0 NOT INDEXED ORDER BY id'), rows)

def who_holds_a_file_of_rows_for_a_moment_is_waited_for():
    write('good', 'okws 1\nproxy main\ntable main one id INT KEY a TEXT\n')
    same(said('serve', 'good', '--port', str(a_port()), '--serve', '0', '--store', 'held')[1], 0)
    with Server('okws 1\nproxy main\ntable main one id INT KEY a TEXT\n', 1, '--store', 'held') as server:
        ends = threading.Timer(1, lambda: get(server.port))
        ends.start()
        server.process.stdin.close()
        same(said('serve', 'good', '--port', str(a_port()), '--serve', '0', '--store', 'held')[1], 0)
        ends.join()
        same(server.process.wait(30), 0)

def a_page_of_many_places_is_refused_soon():
    with Server(SITE % './svc_probe', 42, doors=1) as server:
        for number in range(3, 43):
            same(post(server.port, f'id={number}&who={"x" * 5000}&note=')[:12], b'HTTP/1.1 303')
        page = b'@{rows}' * 37449
        same(server.answers(b'publish page %d\n%s' % (len(page), page)), b'published 1\n')
        begun = time.monotonic()
        same(get(server.port)[:12], b'HTTP/1.1 500')
        assert time.monotonic() - begun < 5, time.monotonic() - begun
        get(server.port, '/nowhere')
        same(server.ends()[1], 0)

def silent_clients_keep_no_door():
    with Server(SITE % './svc_probe', 66, '--patience', '2') as server:
        silent = [socket.create_connection(('127.0.0.1', server.port), 30) for _ in range(64)]
        for wait in (0, 2):
            time.sleep(wait)
            begun = time.monotonic()
            same(get(server.port), ANN_AND_BOB)
            assert time.monotonic() - begun < 5, time.monotonic() - begun
        for client in silent:
            same(client.recv(1), b'')
            client.close()
        same(server.ends(), (counts(66, 2, 2, 0, 0), 0))
        same(server.told(), ['okws: doors: 64 faults', f'okws: listening on 127.0.0.1:{server.port}'])

def a_slow_client_is_cut_off():
    with Server(SITE % './svc_probe', 2, '--patience', '2') as server:
        with socket.create_connection(('127.0.0.1', server.port), 30) as client:
            begun = time.monotonic()
            client.settimeout(1)
            for byte in b'GET /guest HTTP/1.1':
                client.sendall(bytes([byte]))
                try:
                    same(client.recv(1), b'')
                    break
                except TimeoutError:
                    pass
                except ConnectionResetError:
                    break
            assert 1.9 < time.monotonic() - begun < 4, time.monotonic() - begun
        same(get(server.port), ANN_AND_BOB)
        same(server.ends(), (counts(2, 1, 2, 0, 0), 0))

def a_client_may_take_its_time_within_its_patience():
    with Server(SITE % './svc_probe', 1, '--patience', '10') as server:
        with socket.create_connection(('127.0.0.1', server.port), 30) as client:
            for piece in (b'GET /gu', b'est HTTP/1.1\r\n', b'Host: a\r\n\r\n'):
                time.sleep(0.5)
                client.sendall(piece)
            answer = b''
            while piece := client.recv(65536):
                answer += piece
        same(answer, ANN_AND_BOB)
        same(server.ends(), (counts(1, 1, 2, 0, 0), 0))

def a_server_without_end_outlives_its_console():
    with Server(SITE % './svc_probe', None) as server:
        same(server.answers(b'relaunch guest\n'), b'relaunched 2\n')
        server.process.stdin.close()
        for _ in range(20):
            same(get(server.port), ANN_AND_BOB)
        same(server.process.poll(), None)
        server.process.terminate()
        same(server.process.wait(10), -signal.SIGTERM)
def refused(port):
    """Whether no client is taken at this port."""
    try:
        socket.create_connection(('127.0.0.1', port), 1).close()
        return False
    except ConnectionRefusedError:
        return True

def a_stop_ends_a_run_whose_console_is_open():
    with Server(SITE % './svc_probe', 1000) as server:
        for _ in range(3):
            same(get(server.port), ANN_AND_BOB)
        begun = time.monotonic()
        # One door or both were waiting for the next connection.
        assert server.answers(b'stop\nrelaunch guest\n') in (b'stopping 4\n', b'stopping 5\n')
        same(server.process.wait(10), 0)
        assert time.monotonic() - begun < 3, time.monotonic() - begun
        assert refused(server.port)
        same(server.process.stdout.read().decode(), counts(3, 3, 2, 0, 0))

def a_stop_tells_no_more_than_were_asked_for():
    with Server(SITE % './svc_probe', 1) as server:
        same(get(server.port), ANN_AND_BOB)
        same(server.answers(b'stop\n'), b'stopping 1\n')
        same((server.process.stdout.read().decode(), server.process.wait(10)), (counts(1, 1, 2, 0, 0), 0))

def what_has_begun_is_answered_behind_a_stop():
    doors = 4
    with Server(SITE % './svc_probe', 1_000_000, doors=doors) as server:
        whole, torn = [0] * 16, []
        def client(place):
            while True:
                try:
                    answer = get(server.port)
                except OSError:
                    return
                if answer == ANN_AND_BOB:
                    whole[place] += 1
                elif answer:
                    torn.append(answer)
        clients = [threading.Thread(target=client, args=(place,)) for place in range(16)]
        for one in clients:
            one.start()
        wait_until(lambda: sum(whole) > 500)
        answer = server.answers(b'stop\n').split()
        for one in clients:
            one.join(30)
        same((server.process.wait(10), answer[0], torn), (0, b'stopping', []))
        same(server.process.stdout.read().decode(), counts(sum(whole), sum(whole), 2, 0, 0))
        assert sum(whole) <= int(answer[1]) <= sum(whole) + doors, (sum(whole), answer)

def a_status_tells_how_a_site_stands():
    with Server(SITE % './svc_probe', 4) as server:
        same(server.answers(b'status\n'), b'status 0 0 2 0 0 2 0 0\n')
        same(get(server.port), ANN_AND_BOB)
        same(post(server.port, 'id=3&who=cy&note=ho'), response('303 See Other', '', '/guest'))
        same(get(server.port, '/nobody'), own('404 Not Found'))
        same(server.answers(b'publish page 2\nab'), b'published 1\n')
        same(server.answers(b'relaunch other\n'), b'relaunched 2\n')
        # A client has its answer before a service is looked after behind it.
        wait_until(lambda: server.answers(b'status\n') == b'status 3 3 3 1 1 2 0 0\n')
        with socket.create_connection(('127.0.0.1', server.port), 30):
            same(server.answers(b'status\n'), b'status 3 3 3 1 1 2 0 0\n')
        same(server.ends(), (counts(4, 3, 3, 1, 1), 0))

def a_status_tells_what_was_given_up():
    with Server(SITE % './svc_none', 0) as server:
        same(server.answers(b'status\n'), b'status 0 0 1 0 0 1 0 1\n')
        same(server.answers(b'status now\n'), b'refused 2 1\n')
        same(server.ends(), (counts(0, 0, 1, 0, 0), 0))

def no_client_waits_behind_the_last_connection():
    with Server(SITE % './svc_probe', 2) as server:
        for _ in range(2):
            same(get(server.port), ANN_AND_BOB)
        wait_until(lambda: not server.listens())
        assert refused(server.port)
        same(server.answers(b'relaunch guest\n'), b'relaunched 2\n')
        same(server.ends(), (counts(2, 2, 3, 0, 0), 0))

CHECKS = [
    the_guestbook_shows_and_takes_entries, a_log_is_appended_to, a_log_that_cannot_be_opened_is_a_fault_at_the_end, requests_are_refused_by_the_standard,
    hostile_services_harm_their_own_dialog_alone, hostile_clients_are_told_what_is_due, a_site_of_no_service_is_served, the_console_is_answered,
    a_published_page_reaches_a_running_service, a_refused_publication_is_dropped,
    a_bad_frame_is_a_bad_gateway_and_three_of_them_give_the_service_up, a_killed_child_is_launched_again, a_service_that_cannot_start_is_given_up,
    a_held_dialog_keeps_no_other_client_waiting, a_taken_port_is_a_fault_and_starts_no_child, words_and_files_are_judged_first,
    rows_in_a_file_are_there_in_the_next_run, a_file_of_rows_is_one_servers, rows_of_other_columns_are_refused_and_kept,
    a_file_of_rows_that_cannot_be_opened_is_a_fault, rows_of_a_file_stay_where_a_port_is_taken,
    two_hundred_clients_are_served_at_once, clients_that_reset_harm_no_other, a_run_ends_after_its_connections_and_leaves_no_child,
    a_port_is_free_at_once_after_a_run, a_service_that_leaves_another_holds_nobody, a_server_without_standard_input_has_no_operator,
    a_server_without_standard_output_tells_no_client, connections_wait_where_there_is_no_descriptor_for_them,
    what_goes_wrong_is_told_on_standard_error, a_limit_on_the_size_of_files_is_a_fault_where_its_signal_is_ignored, a_child_has_path_alone_and_three_descriptors, a_file_of_rows_has_all_rows_after_an_orderly_end,
    a_new_file_of_rows_has_its_tables_when_the_doors_open,
    rows_of_tables_or_columns_in_another_order_are_refused, rows_that_do_not_fit_their_table_are_refused_and_kept, who_holds_a_file_of_rows_for_a_moment_is_waited_for, a_page_of_many_places_is_refused_soon,
    silent_clients_keep_no_door, a_slow_client_is_cut_off, a_client_may_take_its_time_within_its_patience, a_server_without_end_outlives_its_console,
    a_stop_ends_a_run_whose_console_is_open, a_stop_tells_no_more_than_were_asked_for, what_has_begun_is_answered_behind_a_stop, no_client_waits_behind_the_last_connection,
    a_status_tells_how_a_site_stands, a_status_tells_what_was_given_up,
]
passed = failed = 0
for check in CHECKS:
    if ONLY and check.__name__ != ONLY:
        continue
    try:
        check()
        passed += 1
    except (AssertionError, OSError, sqlite3.Error, subprocess.TimeoutExpired) as why:
        failed += 1
        print(f'{check.__name__}: {why}', flush=True)
print(f'{passed} passed, {failed} failed')
sys.exit(failed != 0)
P
