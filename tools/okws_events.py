"""What a box tells of its site: events on standard output, systemd's notices, and the log of what services write."""
import os, socket, threading, time


def now():
    return time.strftime('%Y-%m-%dT%H:%M:%SZ', time.gmtime())


def say(*words):
    """Tells an event."""
    try:
        print(now(), *words, flush=True)
    except OSError:
        pass


def notify(text):
    """Tells systemd, where it asked to be told."""
    path = os.environ.get('NOTIFY_SOCKET')
    if not path:
        return
    try:
        with socket.socket(socket.AF_UNIX, socket.SOCK_DGRAM) as s:
            s.sendto(text.encode(), '\0' + path[1:] if path[0] == '@' else path)
    except OSError as why:
        say(f'systemd was not told: {why}')


class Log:
    """The texts of services: a server writes them into a pipe, and each comes into the file behind the time and the run's number."""
    def __init__(self, path, pipe):
        self.path, self.pipe, self.turn = path, pipe, threading.Lock()
        self.file = open(path, 'ab')
        os.mkfifo(pipe, 0o600)

    def open_anew(self):
        with self.turn:
            opened = open(self.path, 'ab')
            self.file.close()
            self.file = opened

    def begin(self, run):
        """Takes the texts of a run until `end`. The pipe has both ends here before the server opens its own, which therefore doesn't wait."""
        reader = os.open(self.pipe, os.O_RDONLY | os.O_NONBLOCK)
        self.writer = os.open(self.pipe, os.O_WRONLY)
        os.set_blocking(reader, True)
        self.taking = threading.Thread(target=self.take, args=(reader, run), daemon=True)
        self.taking.start()

    def take(self, reader, run):
        with open(reader, 'rb') as lines:
            for line in lines:
                try:
                    with self.turn:
                        self.file.write(f'{now()} {run} '.encode() + line)
                        self.file.flush()
                except OSError as why:
                    say(f'log: {self.path}: {why.strerror}')

    def end(self):
        """Waits until all texts of the run have been taken."""
        os.close(self.writer)
        self.taking.join(5)
