"""What the checks of the tools share: sites in a folder of their own, the tools that are run, and clients."""
import os, socket, subprocess, sys, threading, time

ROOT = os.path.dirname(os.path.dirname(os.path.dirname(os.path.realpath(__file__))))
TOOLS = os.path.join(ROOT, 'tools')
sys.path.insert(0, TOOLS)
SERVICE = f'{sys.executable} {os.path.join(ROOT, "checks", "tools", "notes.py")}'
SITE = f"""okws 1
proxy main
table main msgs id INT KEY who TEXT note TEXT
row main msgs 1 'ann' 'hi'
query main 1 SELECT id, who FROM msgs ORDER BY id
query main 2 INSERT INTO msgs (id, who, note) VALUES (?1, ?2, ?3)
service notes {SERVICE} /notes
uri /notes notes
grant notes main 1 2
template page
read notes page
log notes
"""


class Skipped(Exception):
    """A check that wants a tool that isn't there."""


def write(path, text):
    os.makedirs(os.path.dirname(path) or '.', exist_ok=True)
    with open(path, 'w') as f:
        f.write(text)


def read(path):
    with open(path) as f:
        return f.read()


def same(found, wanted):
    if found != wanted:
        raise AssertionError(f'found {found!r}, wanted {wanted!r}')


def has(found, *parts):
    for part in parts:
        if part not in found:
            raise AssertionError(f'found {found!r}, wanted {part!r} in it')


def a_port():
    with socket.socket() as s:
        s.bind(('127.0.0.1', 0))
        return s.getsockname()[1]


def wait_until(holds, seconds=90):
    until = time.monotonic() + seconds
    while not holds():
        if time.monotonic() > until:
            raise AssertionError('waited in vain')
        time.sleep(0.02)


def run(tool, *words, status=0, more='', **options):
    """What a tool prints, its standard error behind it, once it has ended with this status."""
    settings = {'stdin': subprocess.DEVNULL, 'timeout': 120, **options}
    done = subprocess.run([sys.executable, os.path.join(TOOLS, tool), *words], capture_output=True, text=True, **settings)
    if done.returncode != status:
        raise AssertionError(f'{tool} {" ".join(words)} ended with {done.returncode}: {done.stdout}{done.stderr}')
    return done.stdout + done.stderr


def ask(port, path='/notes', content=None, wait=30, tls=None):
    """The status and the content that a server answers."""
    method = 'GET' if content is None else 'POST'
    body = (content or '').encode()
    with socket.create_connection(('127.0.0.1', port), wait) as plain, tls.wrap_socket(plain, server_hostname='localhost') if tls else plain as s:
        s.sendall(f'{method} {path} HTTP/1.1\r\nHost: localhost\r\nConnection: close\r\nContent-Length: {len(body)}\r\n\r\n'.encode() + body)
        answer = b''
        while piece := s.recv(65536):
            answer += piece
    head, _, told = answer.partition(b'\r\n\r\n')
    return int(head.split()[1]), told.decode()


class Up:
    """A site that okws-up keeps in a folder, until the end of the block."""
    def __init__(self, folder, *options, site=SITE, port=None, environment=None, wait=True):
        write(os.path.join(folder, 'site.okws'), site)
        self.folder, self.port, self.wait = folder, port or a_port(), wait
        self.words = [sys.executable, os.path.join(TOOLS, 'okws-up'), 'site.okws', '--port', str(self.port), '--doors', '4', '--grace', '10', *options]
        self.environment = {**os.environ, **(environment or {})}

    def __enter__(self):
        self.told = os.path.join(self.folder, 'told')
        with open(self.told, 'w') as out:
            self.process = subprocess.Popen(self.words, cwd=self.folder, stdin=subprocess.DEVNULL, stdout=out, stderr=out, env=self.environment)
        self.limit = threading.Timer(300, self.process.kill)
        self.limit.start()
        if self.wait:
            wait_until(lambda: 'serves' in self.events() or self.process.poll() is not None)
        return self

    def __exit__(self, *_):
        self.process.terminate()
        try:
            self.process.wait(90)
        finally:
            self.limit.cancel()
            self.process.kill()

    def events(self):
        return read(self.told)

    def ends(self):
        """The status with which it ends by itself."""
        return self.process.wait(90)

    def ctl(self, *words, status=0):
        return run('okws-ctl', *words, status=status, cwd=self.folder)
