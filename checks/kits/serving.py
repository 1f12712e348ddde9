"""What the checks of this folder share: a server of a site over real sockets, its clients, and the count of what passed."""
import os, shutil, signal, socket, subprocess, sys, threading, time

OKWS = sys.argv[1]
TOP = os.path.realpath(os.path.join(os.path.dirname(__file__), '..', '..'))
PYTHON = '/usr/bin/python3'

class Skipped(Exception):
    """A tool that the check needs isn't there."""

def needs(tool, path=None):
    """Where the tool is."""
    found = path if path and os.path.exists(path) else shutil.which(tool)
    if not found:
        raise Skipped(f'{tool} is not there')
    return found

def write(path, text, mode=0o644):
    with open(path, 'w') as f:
        f.write(text)
    os.chmod(path, mode)

def same(found, wanted):
    if found != wanted:
        raise AssertionError(f'found {found!r}, wanted {wanted!r}')

def wait_until(holds, what='it'):
    """Waits until this holds, for thirty seconds at most."""
    for _ in range(3000):
        if holds():
            return
        time.sleep(0.01)
    raise AssertionError(f'waited in vain: {what}')

def a_port():
    with socket.socket() as s:
        s.bind(('127.0.0.1', 0))
        return s.getsockname()[1]

def listens(port):
    with open('/proc/net/tcp') as f:
        return any(line.split()[1:4:2] == ['0100007F:%04X' % port, '0A'] for line in f.readlines()[1:])

def children_of(pid):
    """The children of all threads of a process."""
    found = []
    try:
        for task in os.listdir(f'/proc/{pid}/task'):
            with open(f'/proc/{pid}/task/{task}/children') as f:
                found += [int(child) for child in f.read().split()]
    except OSError:
        pass
    return found

def tree_of(pid):
    return [pid] + [below for child in children_of(pid) for below in tree_of(child)]

def end(pids):
    for pid in pids:
        try:
            os.kill(pid, signal.SIGKILL)
        except ProcessLookupError:
            pass

class Server:
    """A server of a site, whose console is a pipe and whose standard error is the file `errors`. All of its processes are ended at the end of the block."""
    def __init__(self, site, *options, doors=2, errors='errors', folder='.'):
        write(os.path.join(folder, 'site'), site)
        self.words = ['--doors', str(doors), '--serve', '100000', *options]
        self.errors, self.folder = errors, folder

    def __enter__(self):
        for _ in range(5):
            self.port = a_port()
            with open(self.errors, 'wb') as errors:
                self.process = subprocess.Popen([OKWS, 'serve', 'site', '--port', str(self.port), *self.words], cwd=self.folder, stdin=subprocess.PIPE,
                                                stdout=subprocess.PIPE, stderr=errors)
            self.limit = threading.Timer(300, self.process.kill)
            self.limit.start()
            wait_until(lambda: self.process.poll() is not None or listens(self.port), 'the server listens')
            if self.process.poll() is None:
                return self
            self.__exit__()
        raise AssertionError(f'the server ended with status {self.process.returncode}')

    def __exit__(self, *_):
        self.limit.cancel()
        end(tree_of(self.process.pid) if self.process.poll() is None else [])
        self.process.wait()
        self.process.stdin.close()
        self.process.stdout.close()

    def answers(self, line):
        """What the console answers to this line."""
        self.process.stdin.write(line)
        self.process.stdin.flush()
        return self.process.stdout.readline()

    def publishes(self, template, text):
        content = text.encode()
        self.answers(f'publish {template} {len(content)}\n'.encode() + content)

    @property
    def process_ids(self):
        """The services that run."""
        return sorted(children_of(self.process.pid))

    def says(self):
        with open(self.errors, encoding='utf-8', errors='replace') as f:
            return f.read()

class Answer:
    def __init__(self, text):
        head, _, self.content = text.partition(b'\r\n\r\n')
        self.text = self.content.decode('utf-8', 'replace')
        first, *lines = head.decode('latin-1').split('\r\n')
        self.status = int(first.split()[1]) if first.startswith('HTTP/') else 0
        self.fields = [tuple(line.split(': ', 1)) for line in lines if ': ' in line]

    def field(self, name):
        return [value for key, value in self.fields if key.lower() == name.lower()]

def exchange(port, request, wait=60):
    """What is answered to these bytes, to the end of the connection."""
    with socket.create_connection(('127.0.0.1', port), wait) as s:
        s.sendall(request)
        answer = b''
        while piece := s.recv(65536):
            answer += piece
        return Answer(answer)

def ask(port, target, content=None, method=None, fields=''):
    """What a request is answered. Fields are lines that end in CR LF; content without a type is a form's."""
    length = f'Content-Length: {len(content)}\r\n' if content is not None else ''
    method = method or ('GET' if content is None else 'POST')
    head = f'{method} {target} HTTP/1.1\r\nHost: localhost\r\nConnection: close\r\n{fields}{length}\r\n'
    return exchange(port, head.encode('latin-1') + (content or b''))

def run(checks, only=''):
    """Makes the checks, and tells how many passed, failed and were skipped."""
    passed, failed, skipped = 0, 0, 0
    for check in checks:
        if only and check.__name__ != only:
            continue
        try:
            check()
            passed += 1
        except Skipped as why:
            skipped += 1
            print(f'{check.__name__} is skipped: {why}', flush=True)
        except (AssertionError, OSError, LookupError, ValueError, subprocess.SubprocessError) as why:
            failed += 1
            print(f'{check.__name__}: {type(why).__name__} {why}', flush=True)
    return passed, failed, skipped
