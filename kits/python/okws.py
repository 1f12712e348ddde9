"""Services of okws in Python: this one file, over the standard library alone. docs/KITS.md says more, docs/okws-frames.7.md what goes over the pipes.

    import okws

    def page(site, request):
        return 'hello ' + okws.escape(request.query.get('name', 'world'))

    okws.serve(page)

Where standard input and output are pipes, importing this takes both away from the rest of the program: from then on standard input is empty, and
whatever is printed, by the program, by a library or by a child, goes to standard error.
"""
import fcntl, os, re, stat, struct, sys, threading, traceback
from collections.abc import Mapping
from html import escape as escape_html
from typing import NamedTuple
from urllib.parse import quote, unquote_to_bytes

BOOT, REQUEST, PUSH, OPENED, ROWS, CHANGED, TEMPLATE, LOGGED, DENIED, FAILED, NO_MEMORY, DUPLICATE = range(1, 13)
OPEN, CALL, GET, LOG, REPLY = range(0x41, 0x46)
INT, TEXT, BYTES = 1, 2, 3
LONGEST = 1048576
STATUSES = 200, 201, 303, 400, 403, 404, 409, 500
VISIBLE = ''.join(map(chr, range(33, 127)))
RULES = {10: 'NoSuchProxy', 11: 'UnknownToken', 12: 'StaleToken', 13: 'NoSession', 14: 'QueryNotGranted', 15: 'BadArguments', 16: 'AnswerTooLarge',
         17: 'TooManySessions', 20: 'StaleService', 21: 'TemplateNotGranted', 22: 'TemplateUnpublished', 30: 'StaleService', 31: 'LogNotGranted',
         32: 'LogTooLong'}

class Unanswered(Exception):
    """A call was not answered by what it asks for; nothing was changed. It is one of the four below."""

class Denied(Unanswered):
    """The call is denied by the rule of this number (docs/RULES.md)."""
    def __init__(self, rule):
        super().__init__(f'denied by rule {rule}, {RULES.get(rule, "which this kit does not know")}')
        self.rule = rule

class Duplicate(Unanswered):
    """An INSERT's KEY value is taken."""

class Failed(Unanswered):
    """The database failed."""

class NoMemory(Unanswered):
    """The server lacked memory. The call may be made again."""

class Reply(NamedTuple):
    """What a client is answered. A status is one of STATUSES; bytes of a location that no field may have are percent-encoded."""
    content: str | bytes
    status: int = 200
    type: str = 'text/html; charset=utf-8'
    location: str = ''

class Pairs(Mapping):
    """Names and their values. As a mapping it has the first value of each name; `all` has every value of one, `list` all pairs as they came."""
    def __init__(self, pairs, fold=str):
        self.list, self._fold = list(pairs), fold
        self._first = {}
        for name, value in self.list:
            self._first.setdefault(name, value)

    def __getitem__(self, name):
        return self._first[self._fold(name)]

    def __iter__(self):
        return iter(self._first)

    def __len__(self):
        return len(self._first)

    def all(self, name):
        return [value for key, value in self.list if key == self._fold(name)]

def decoded(text):
    """The text that percent-encoded bytes stand for. What isn't UTF-8 in it is U+FFFD."""
    return unquote_to_bytes(text).decode('utf-8', 'replace')

def form_pairs(form):
    """The pairs of a query string, or of a form's content (application/x-www-form-urlencoded)."""
    parts = (part.replace(b'+', b' ').partition(b'=') for part in form.split(b'&') if part)
    return Pairs((decoded(name), decoded(value)) for name, _, value in parts)

def cookie_pairs(fields):
    parts = (part.partition('=') for field in fields.all('cookie') for part in field.split(';') if '=' in part)
    return Pairs((name.strip(), value.strip()) for name, _, value in parts)

def path_and_query(target):
    """The path and the query string of a target, which is `/path?query` or `http://host/path?query`."""
    if not target.startswith('/'):
        target = '/' + re.sub('^[^:]*://[^/?]*/?', '', target)
    path, _, query = target.partition('?')
    return path, query

class Request:
    """What a client asks.

    method, target, version  the words of the first line, as they came
    path, query              of the target: a str, percent-decoded; and Pairs. raw_path and raw_query are as they came
    fields, cookies          Pairs; names of fields in any case, and their values as Latin-1
    content                  bytes
    form                     Pairs of the content, where its type is that of a form or isn't told
    """
    def __init__(self, head, content):
        first, *lines = re.split(b'\r?\n', head.lstrip(b'\r\n'))
        self.method, self.target, self.version = first.decode('latin-1').split()
        self.raw_path, self.raw_query = path_and_query(self.target)
        self.path = decoded(self.raw_path.encode())
        self.query = form_pairs(self.raw_query.encode())
        parts = (line.decode('latin-1').partition(':') for line in lines if line)
        self.fields = Pairs(((name.lower(), value.strip(' \t')) for name, _, value in parts), fold=str.lower)
        self.cookies = cookie_pairs(self.fields)
        self.content = content
        kind = self.fields.get('content-type', '').partition(';')[0].strip().lower()
        self.form = form_pairs(content if kind in ('', 'application/x-www-form-urlencoded') else b'')

def escape(text):
    """The text as it stands in HTML."""
    return escape_html(text).replace('&#x27;', '&#39;')

def fill(template, values):
    """The template with a value for each `@{NAME}`, escaped for HTML, and for each `@{raw:NAME}`, as it is. An `@` that no `{` follows is itself.
    A place without a value, and one that is no place, is a ValueError."""
    def value(place):
        inner = place[1]
        raw = inner is not None and inner.startswith('raw:')
        name = inner[4:] if raw else inner
        if name is None or name not in values:
            raise ValueError(f'no value for {template[place.start():][:80]!r}, at {place.start()} of the template')
        return str(values[name]) if raw else escape(str(values[name]))
    return re.sub(r'@\{(?:((?:raw:)?[A-Za-z0-9_.-]{1,64})\})?', value, template)

def counted(size, text):
    """Bytes behind their length, which takes so many bytes."""
    return len(text).to_bytes(size, 'big') + text

def argument(value):
    if isinstance(value, int):
        return struct.pack('>Bq', INT, value)
    if isinstance(value, str):
        return bytes([TEXT]) + counted(4, value.encode())
    if isinstance(value, (bytes, bytearray, memoryview)):
        return bytes([BYTES]) + counted(4, bytes(value))
    raise TypeError(f'{value!r} is none of int, str and bytes')

def result(payload, at):
    """The value that stands there, and where the next one begins."""
    if payload[at] == INT:
        return int.from_bytes(payload[at + 1:at + 9], 'big', signed=True), at + 9
    end = at + 5 + int.from_bytes(payload[at + 1:at + 5], 'big')
    found = payload[at + 5:end]
    return (found.decode() if payload[at] == TEXT else found), end

def rows_of(payload):
    columns, count = struct.unpack('>BI', payload[:5])
    at, rows = 5, []
    for _ in range(count):
        row = []
        for _ in range(columns):
            value, at = result(payload, at)
            row.append(value)
        rows.append(tuple(row))
    return rows

def frame_of(kind, payload):
    if len(payload) >= LONGEST:
        raise ValueError(f'{len(payload)} bytes in one frame, which has at most {LONGEST - 1}')
    return struct.pack('>IB', len(payload) + 1, kind) + payload

def reply_frame(reply):
    """The frame of a reply. One that has no frame is a ValueError, and one of other types a TypeError."""
    reply = reply if isinstance(reply, Reply) else Reply(reply)
    if not isinstance(reply.content, (str, bytes)):
        raise TypeError(f'the content of a reply is str or bytes, and not {type(reply.content).__name__}')
    if reply.status not in STATUSES:
        raise ValueError(f'a reply has no status {reply.status}, but one of {STATUSES}')
    if not re.fullmatch('[!-~]([ -~]{0,253}[!-~])?', reply.type):
        raise ValueError(f'no content type: {reply.type!r}')
    location = quote(reply.location, safe=VISIBLE).encode()
    if len(location) > 255:
        raise ValueError(f'a location of {len(location)} bytes: it may have 255')
    content = reply.content.encode() if isinstance(reply.content, str) else reply.content
    return frame_of(REPLY, reply.status.to_bytes(2, 'big') + counted(1, reply.type.encode()) + counted(1, location) + counted(4, content))

class Link:
    """The two ends of the pipes. At the end of what is heard, and where nobody hears, it ends the program."""
    def __init__(self, heard, said):
        self._heard, self._said = os.fdopen(heard, 'rb'), said

    def take(self):
        """The kind and the payload of the next frame."""
        size = self._heard.read(4)
        if not size:
            sys.exit(0)
        length = int.from_bytes(size, 'big')
        frame = self._heard.read(length)
        if len(size) < 4 or not frame or len(frame) < length:
            sys.exit('okws: the frames end inside a frame')
        return frame[0], frame[1:]

    def say(self, frame):
        left = memoryview(frame)
        try:
            while left:
                left = left[os.write(self._said, left):]
        except BrokenPipeError:
            sys.exit(0)

def taken_pipes():
    """The link over standard input and output, which are others from then on; or None where they are no pipes."""
    try:
        if not all(stat.S_ISFIFO(os.fstat(fd).st_mode) for fd in (0, 1)):
            return None
    except OSError:
        return None
    link = Link(*(fcntl.fcntl(fd, fcntl.F_DUPFD_CLOEXEC, 3) for fd in (0, 1)))
    null = os.open(os.devnull, os.O_RDWR)
    os.dup2(null, 0)
    try:
        os.dup2(2, 1)
    except OSError:
        os.dup2(null, 1)
    os.close(null)
    sys.stdout.reconfigure(line_buffering=True)
    return link

LINK = taken_pipes()

class Site:
    """The site as this incarnation of the service sees it: its databases, templates and log. A call is for the thread that answers a request, and
    for the time until it is answered. `templates` has the last edition of each template that was pushed, by name."""
    def __init__(self, link):
        self.templates = {}
        self._link, self._sessions, self._tokens = link, {}, {}
        self._caller, self._awaits = None, False
        kind, boot = link.take()
        if kind != BOOT:
            sys.exit(f'okws: the first frame is no Boot, but of kind {kind}')
        self.service, self.incarnation, _ = struct.unpack('>HIB', boot[:7])
        for at in range(7, len(boot), 22):
            self._tokens[int.from_bytes(boot[at:at + 2], 'big')] = boot[at + 2:at + 22]

    def call(self, proxy, query, *values):
        """What a query answers: of a SELECT its rows, a list of tuples; of any other how many rows it changed. Proxies are numbered from 0, in the
        order of their declaration. INT is int, TEXT str, BYTES bytes."""
        where = struct.pack('>H', proxy)
        if proxy not in self._sessions:
            self._sessions[proxy] = self._ask(OPEN, where + self._tokens.get(proxy, bytes(20)))[1]
        arguments = bytes([len(values)]) + b''.join(map(argument, values))
        kind, answer = self._ask(CALL, where + self._sessions[proxy] + struct.pack('>H', query) + arguments)
        return rows_of(answer) if kind == ROWS else int.from_bytes(answer, 'big')

    def template(self, name):
        """The last edition of a template that was pushed, or else the one that is asked for. Where there is none for this service it is Denied, by
        rule 21 or 22."""
        if name not in self.templates:
            self.templates[name] = self._ask(GET, counted(1, name.encode()))[1][8:].decode('utf-8', 'replace')
        return self.templates[name]

    def log(self, text):
        """Writes a line of at most 1,024 bytes to the site's log."""
        self._ask(LOG, counted(4, text.encode()))

    def _ask(self, kind, payload):
        if threading.get_ident() != self._caller:
            raise RuntimeError('a call is for the thread that answers a request, until it is answered')
        frame = frame_of(kind, payload)
        self._awaits = True
        self._link.say(frame)
        kind, answer = self._link.take()
        self._awaits = False
        if kind == DENIED:
            raise Denied(answer[0])
        if kind in (FAILED, NO_MEMORY, DUPLICATE):
            raise {FAILED: Failed, NO_MEMORY: NoMemory, DUPLICATE: Duplicate}[kind]()
        return kind, answer

    def _request(self):
        """The next request. The editions of templates that come before it are kept."""
        while True:
            kind, payload = self._link.take()
            if kind == REQUEST:
                end = 4 + int.from_bytes(payload[:4], 'big')
                return Request(payload[4:end], payload[end + 4:])
            if kind != PUSH:
                sys.exit(f'okws: a frame of kind {kind} is not due')
            end = 1 + payload[0]
            self.templates[payload[1:end].decode()] = payload[end + 8:].decode('utf-8', 'replace')

    def _answered(self, page, request):
        """The frame of what the page answers; where it raises, of 500, and the cause goes to standard error."""
        self._caller = threading.get_ident()
        try:
            return reply_frame(page(self, request))
        except Exception:
            traceback.print_exc()
            if self._awaits:
                sys.exit('okws: a call was broken off, and its answer would be taken for the next one')
            return reply_frame(Reply('500 Internal Server Error\n', 500, 'text/plain'))
        finally:
            self._caller = None

    def serve(self, page):
        while True:
            request = self._request()
            self._link.say(self._answered(page, request))

def serve(page):
    """Answers each request by what `page(site, request)` gives: a Reply, or its content alone. It ends with the frames."""
    if LINK is None:
        sys.exit('okws: a service is started by okws, which gives it two pipes (docs/KITS.md)')
    Site(LINK).serve(page)
