"""A service for the checks: a GET shows the rows in the page, a POST enters one and logs it; below /slow/N it waits N seconds first.
Its argument is its path; with a second one it has no rows, and shows that word, with a third one as its type, in which `+` is a blank."""
import os, struct, sys, time

OWN, WORD = sys.argv[1], sys.argv[2:3]
TYPE = ''.join(sys.argv[3:4]).replace('+', ' ') or 'text/plain'
tokens, sessions, pages = {}, {}, {}


def take(size):
    taken = b''
    while len(taken) < size:
        piece = os.read(0, size - len(taken))
        if not piece:
            sys.exit(0)
        taken += piece
    return taken


def hear():
    """The next frame: its kind and its payload."""
    content = take(struct.unpack('>I', take(4))[0])
    return content[0], content[1:]


def put(kind, payload):
    frame = struct.pack('>IB', 1 + len(payload), kind) + payload
    while frame:
        frame = frame[os.write(1, frame):]


def ask(kind, payload):
    put(kind, payload)
    return hear()


def text(content):
    return struct.pack('>I', len(content)) + content


def call(query, *values):
    """Calls a query at proxy 0, in a session that is opened once."""
    if 0 not in sessions:
        sessions[0] = struct.unpack('>I', ask(0x41, b'\0\0' + tokens[0])[1])[0]
    told = b''.join(b'\1' + struct.pack('>q', v) if isinstance(v, int) else b'\2' + text(v) for v in values)
    return ask(0x42, struct.pack('>HIHB', 0, sessions[0], query, len(values)) + told)


def rows(payload):
    """The rows of one INT and one TEXT, a line each."""
    count, at, lines = struct.unpack('>I', payload[1:5])[0], 5, b''
    for _ in range(count):
        number, size = struct.unpack('>qxI', payload[at + 1:at + 14])
        lines += b'%d %s\n' % (number, payload[at + 14:at + 14 + size])
        at += 14 + size
    return lines


def answer(head, content):
    """The status, the Location and the content that a request is answered with."""
    method, target = head.split(b' ')[:2]
    if b'/slow' in target:
        time.sleep(float(target.rpartition(b'/')[2]))
    if WORD:
        return 200, b'', WORD[0].encode()
    if method != b'POST':
        return 200, b'', pages.get(b'page', b'@{rows}').replace(b'@{rows}', rows(call(1)[1]))
    number, _, who = content.partition(b' ')
    if call(2, int(number), who, b'')[0] == 0x0c:
        return 409, b'', b'taken\n'
    ask(0x44, text(b'entered ' + number))
    return 303, OWN.encode(), b''


while True:
    kind, payload = hear()
    if kind == 1:
        for at in range(7, len(payload), 22):
            tokens[struct.unpack('>H', payload[at:at + 2])[0]] = payload[at + 2:at + 22]
    elif kind == 3:
        size = payload[0]
        pages[payload[1:1 + size]] = payload[1 + size + 8:]
    elif kind == 2:
        size = struct.unpack('>I', payload[:4])[0]
        status, where, said = answer(payload[4:4 + size], payload[8 + size:])
        put(0x45, struct.pack('>HB', status, len(TYPE)) + TYPE.encode() + bytes([len(where)]) + where + text(said))
