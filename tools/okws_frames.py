"""Frames between okws and its services, taken apart as docs/okws-frames.7.md spells them."""
import dataclasses, struct
import okws_rules

KINDS = {
    0x01: 'Boot', 0x02: 'Request', 0x03: 'Push', 0x04: 'Opened', 0x05: 'Rows', 0x06: 'Changed', 0x07: 'Template', 0x08: 'Logged',
    0x09: 'Denied', 0x0a: 'Failed', 0x0b: 'NoMemory', 0x0c: 'Duplicate', 0x41: 'Open', 0x42: 'Call', 0x43: 'Get', 0x44: 'Log', 0x45: 'Reply',
}
MOST = 1_048_576      # a frame's length


@dataclasses.dataclass
class Frame:
    """A frame's kind, the proxy that it names, and the rest of what it says in words."""
    kind: str
    proxy: int | None
    words: str

    def __str__(self):
        return f'{self.kind} {self.words}'.rstrip()


class NoFrame(Exception):
    """Bytes that are no frame."""


class Payload:
    """The bytes of a frame behind its kind, taken piece by piece."""
    def __init__(self, left):
        self.left = left

    def take(self, size):
        if size > len(self.left):
            raise NoFrame
        taken, self.left = self.left[:size], self.left[size:]
        return taken

    def number(self, form):
        return struct.unpack('>' + form, self.take(struct.calcsize('>' + form)))[0]

    def name(self):
        return shown(self.take(self.number('B')))

    def text(self):
        return shown(self.take(self.number('I')))

    def value(self):
        kind = self.number('B')
        if kind == 1:
            return str(self.number('q'))
        if kind not in (2, 3):
            raise NoFrame
        content = self.take(self.number('I'))
        return f"'{shown(content)}'" if kind == 2 else f"x'{content.hex()}'"


def shown(content):
    """Bytes as a text of one line."""
    return content.decode('utf-8', 'backslashreplace').replace('\r', '\\r').replace('\n', '\\n')


def boot(payload):
    words = f'of service {payload.number("H")}, incarnation {payload.number("I")}'
    for _ in range(payload.number('B')):
        words += f', token for proxy {payload.number("H")} {payload.take(20).hex()}'
    return words


def rows(payload):
    columns, count = payload.number('B'), payload.number('I')
    if columns == 0:
        return f'{count} of no column'
    return '; '.join(', '.join(payload.value() for _ in range(columns)) for _ in range(count)) or 'none'


def call(payload):
    session, query = payload.number('I'), payload.number('H')
    return f'of query {query} in session {session} ({", ".join(payload.value() for _ in range(payload.number("B")))})'


def denied(payload):
    number = payload.number('B')
    return 'by ' + (okws_rules.rule('denied', number) or f'rule {number}')


def reply(payload):
    status, kind, location = payload.number('H'), payload.name(), payload.name()
    return f'{status} {kind}{f", Location {location}," if location else ""} {payload.text()}'


READERS = {
    'Boot': boot, 'Rows': rows, 'Call': call, 'Reply': reply,
    'Request': lambda p: f'{p.text()} {p.text()}'.rstrip(),
    'Push': lambda p: f'of {p.name()}, edition {p.number("I")}: {p.text()}',
    'Opened': lambda p: f'session {p.number("I")}',
    'Changed': lambda p: f'{p.number("Q")} rows',
    'Template': lambda p: f'edition {p.number("I")}: {p.text()}',
    'Denied': denied,
    'Open': lambda p: f'with token {p.take(20).hex()}',
    'Get': Payload.name,
    'Log': Payload.text,
}


def read(content):
    """A whole frame; raises NoFrame."""
    payload = Payload(content)
    if payload.number('I') != len(content) - 4 or not 1 <= len(content) - 4 <= MOST:
        raise NoFrame
    kind = KINDS.get(payload.number('B'))
    if kind is None:
        raise NoFrame
    proxy = payload.number('H') if kind in ('Open', 'Call') else None
    words = READERS[kind](payload) if kind in READERS else ''
    if payload.left:
        raise NoFrame
    return Frame(kind, proxy, words if proxy is None else f'at proxy {proxy} {words}')


def first(content):
    """The frame at the front of these bytes, or None where it isn't whole yet, and what stands behind it; raises NoFrame where none can stand there."""
    if len(content) < 4:
        return None, content
    size = int.from_bytes(content[:4], 'big')
    if not 1 <= size <= MOST:
        raise NoFrame
    if len(content) < 4 + size:
        return None, content
    return read(content[:4 + size]), content[4 + size:]
