"""Each kit against the real server, through services that do what they are asked (asked.py, asked.c, asked.js); and alone over two pipes."""
import os, re, subprocess
from urllib.parse import quote
from serving import OKWS, PYTHON, TOP, Server, ask, needs, same, wait_until, write

LONG = 'n' * 64
SITE = f"""okws 1
proxy main
table main msgs id INT KEY who TEXT note TEXT
row main msgs 1 'ann' 'hi'
row main msgs 2 'bob' 'yo'
query main 1 SELECT id, who FROM msgs ORDER BY id
query main 2 INSERT INTO msgs (id, who, note) VALUES (?1, ?2, ?3)
query main 3 DELETE FROM msgs WHERE id = ?1
query main 4 SELECT who FROM msgs WHERE id = ?1
query main 9 DELETE FROM msgs
proxy side
table side blobs id INT KEY b BYTES
query side 1 INSERT INTO blobs (id, b) VALUES (?1, ?2)
query side 2 SELECT b FROM blobs WHERE id = ?1
proxy other
table other t n INT
query other 1 SELECT n FROM t
template page
template secret
template a
template {LONG}
service py {PYTHON} {TOP}/checks/kits/asked.py {TOP}/kits/python
service c ./asked
service node /usr/bin/node {TOP}/checks/kits/asked.js {TOP}/kits/node
""" + ''.join(f'uri /{s} {s}\ngrant {s} main 1 2 3 4\ngrant {s} side 1 2\nread {s} page\nread {s} a\nread {s} {LONG}\nlog {s}\n' for s in ('py', 'c', 'node'))

# What a request shows, for each kit the same: its target behind the service's path, its content, its fields, and the lines behind the path.
SHOWN = [
    ('/show', None, '', 'GET {}/show', ['', '', '', '']),
    ('/a%20b+c%2Fd/show', None, '', 'GET {}/a b+c/d/show', ['', '', '', '']),
    ('/%ff%e4/show', None, '', 'GET {}/\ufffd\ufffd/show', ['', '', '', '']),
    ('/%zz%/show', None, '', 'GET {}/%zz%/show', ['', '', '', '']),
    ('/show?a=1&b=2&a=&a=3', None, '', 'GET {}/show', ['1||3', '', '', '']),
    ('/show?a=x+y%2Bz&%61=%C3%A4&a', None, '', 'GET {}/show', ['x y+z|\u00e4|', '', '', '']),
    ('/show?a=b=c&&a=%3D%26', None, '', 'GET {}/show', ['b=c|=&', '', '', '']),
    ('/show?a=1?a=2', None, '', 'GET {}/show', ['1?a=2', '', '', '']),
    ('/show', b'a=1&a=2+3%21', '', 'POST {}/show', ['', '1|2 3!', '', '']),
    ('/show', b'a=\xff&a=%ff&a=\xc3%a4&a=%e2%82&a=\xf0\x9f\x98\x80&a=%ed%a0%80', '',
     'POST {}/show', ['', '\ufffd|\ufffd|\u00e4|\ufffd|\U0001f600|\ufffd\ufffd\ufffd', '', '']),
    ('/show', b'?a=1&a=%00', '', 'POST {}/show', ['', '\0', '', '']),
    ('/show', b'', '', 'POST {}/show', ['', '', '', '']),
    ('/show', b'a=1', 'content-type: Application/X-www-form-urlencoded; charset=utf-8\r\n', 'POST {}/show', ['', '1', '', '']),
    ('/show', b'a=1', 'Content-Type: text/plain\r\n', 'POST {}/show', ['', '', '', '']),
    ('/show', None, 'Cookie: c=1; d=2; c=a=b==; c="q"\r\nCookie: c=3\r\n', 'GET {}/show', ['', '', '1|a=b==|"q"|3', '']),
    ('/show', None, 'Cookie: c; =; c=; C=2;c=3\r\n', 'GET {}/show', ['', '', '|3', '']),
    ('/show', None, 'X-A: 1\r\nx-a:\t 2, 3 \r\nX-a:\r\nX-AB: 4\r\n', 'GET {}/show', ['', '', '', '1|2, 3|']),
    ('/show', None, 'Y: b\x85X-A: 1\r\n', 'GET {}/show', ['', '', '', '']),
]

def shown(path, lines, content):
    labels = ['query a', 'form a', 'cookie c', 'field x-a']
    return '\n'.join([path, *(f'{label}: {line}' for label, line in zip(labels, lines)), f'content {len(content or b"")}']) + '\n'

def asks(name, checked):
    """A check of each kit: one server, whose service of this kit is asked."""
    def of(service):
        def check():
            if service == 'node':
                needs('node', '/usr/bin/node')
            with Server('\n'.join(line for line in SITE.split('\n') if service == 'node' or 'node' not in line), '--log', 'log') as server:
                checked(server, service)
        check.__name__ = f'{name}_{service}'
        return check
    return [of(service) for service in ('py', 'c', 'node')]

def running(server, service):
    """The services that run once all of them were launched, since each answers."""
    for one in ['py', 'c'] + ['node'] * (service == 'node'):
        same(ask(server.port, f'/{one}/show').status, 200)
    return server.process_ids

def requests_are_read(server, service):
    for target, content, fields, path, lines in SHOWN:
        answer = ask(server.port, f'/{service}{target}', content, fields=fields)
        same((target, content, answer.status, answer.text), (target, content, 200, shown(path.format(f'/{service}'), lines, content)))
    same(ask(server.port, f'HTTP://a/{service}/show?a=1').text, shown(f'GET /{service}/show', ['1', '', '', ''], b''))
    same(ask(server.port, f'/{service}/show', method='HEAD').content, b'')

def calls_are_answered(server, service):
    answers = {'denied': 'Denied 14\n', 'no-token': 'Denied 11\n', 'arguments': 'Denied 15\n', 'duplicate': 'Duplicate\n', 'long-log': 'Denied 32\n'}
    for asked, text in answers.items():
        same((asked, ask(server.port, f'/{service}/{asked}').text), (asked, text))
    for number in ('7', '-9223372036854775808', '9223372036854775807', '9007199254740993'):
        found = ask(server.port, f'/{service}/keep?id={number}&who=%C3%A4+b').text
        same(found, "[('\u00e4 b',)] [(b'\\x00\\xff\\n',)] 1" + (' true' if service == 'node' else '') + '\n')

def what_has_no_frame_is_not_said(server, service):
    first = running(server, service)
    for asked in ('large-call', 'no-text'):
        answer = ask(server.port, f'/{service}/{asked}')
        same((asked, answer.status, answer.text), (asked, 200, 'Unsaid\n') if service == 'c' else (asked, 500, '500 Internal Server Error\n'))
    answer = ask(server.port, f'/{service}/largest')
    same((answer.status, len(answer.content)), (200, 1048557))
    for asked in ['large', 'status', 'type'] + (['location'] if service == 'c' else ['nothing']):
        answer = ask(server.port, f'/{service}/{asked}')
        same((asked, answer.status, answer.text), (asked, 500, '500 Internal Server Error\n'))
    if service != 'c':
        same(ask(server.port, f'/{service}/location').field('Location'), ['/a%20b%0D%0AX-A:%20%C3%A4%20'])
    same(server.process_ids, first)

def a_stray_print_breaks_no_frame(server, service):
    for _ in range(2):
        answer = ask(server.port, f'/{service}/stray')
        same((answer.status, answer.text), (200, '0 bytes on standard input\n'))
    wait_until(lambda: server.says().count('a stray line\n') == 2, 'stray lines on standard error')
    assert 'a stray line before the first' in server.says(), server.says()

def templates_and_the_log(server, service):
    same(ask(server.port, f'/{service}/template').text, 'none\n' if service == 'c' else 'Denied 22\n')
    if service != 'c':
        same(ask(server.port, f'/{service}/secret').text, 'Denied 21\n')
    for name in ('a', LONG, 'a'):
        server.publishes(name, '')
        same(ask(server.port, f'/{service}/template').text, 'none\n' if service == 'c' else 'Denied 22\n')
    for text in ('one \u00e4', 'two'):
        server.publishes('page', text)
        same(ask(server.port, f'/{service}/template').text, text)
    same(ask(server.port, f'/{service}/log').status, 200)
    same(ask(server.port, f'/{service}/escape?a=%3C%26%3E%22%27').text, '&lt;&amp;&gt;&quot;&#39;')
    if service == 'c':
        return
    for template, filled in [('@{a} @{raw:a}@{x-1._}', '&lt;b&gt; <b>7'), ('@ @@{a} @x{a} a@', '@ @&lt;b&gt; @x{a} a@'), ('', '')]:
        same(ask(server.port, f'/{service}/fill?a={quote(template)}').text, filled)
    for template in ('@{}', '@{a', '@{b}', '@{raw:}', '@{raw:b}', '@{a b}', '@{' + 65 * 'a' + '}'):
        same(ask(server.port, f'/{service}/fill?a={quote(template)}').status, 500)
    if service == 'node':
        same(ask(server.port, '/node/not-awaited').text, 'said\n')

def a_page_that_throws_is_answered_500(server, service):
    if service == 'c':
        return
    first = running(server, service)
    for asked in ['throw', 'unheard-of'] + ['reject'] * (service == 'node'):
        answer = ask(server.port, f'/{service}/{asked}')
        same((answer.status, answer.text), (500, '500 Internal Server Error\n'))
    same(ask(server.port, f'/{service}/duplicate').text, 'Duplicate\n')
    if service == 'py':
        same(ask(server.port, '/py/elsewhere').text, 'a call is for the thread that answers a request, until it is answered\n')
    same(server.process_ids, first)
    assert 'a fault of the page' in server.says(), server.says()

FRAMES = re.findall(r'^    ([<>]) (.*)$', open(f'{TOP}/docs/SERVICES.md').read(), re.M)
BOOT, REQUEST, OPENED, ROWS = [bytes.fromhex(digits) for way, digits in FRAMES if way == '>'][:4]
KITS = {'python': [PYTHON, f'{TOP}/kits/python/hello.py'], 'c': ['./hello'], 'node': ['/usr/bin/node', f'{TOP}/kits/node/hello.js']}

def said(kit, heard, **more):
    if kit == 'node':
        needs('node', '/usr/bin/node')
    run = subprocess.run(KITS[kit], input=heard, stdout=subprocess.PIPE, stderr=subprocess.PIPE, timeout=60, **more)
    return run.stdout, run.stderr, run.returncode

def alone(name, checked):
    def of(kit):
        def check():
            checked(kit)
        check.__name__ = f'{name}_{kit}'
        return check
    return [of(kit) for kit in KITS]

def speaks_the_frames_of_the_page(kit):
    """Open, Call and Reply as docs/SERVICES.md has them for a service that is asked by a GET; the Reply's content is the example's own."""
    content = b'hello world\n1 ann\n2 bob\n'
    kind = b'text/plain; charset=utf-8'
    reply = b'\x45\0\xc8' + bytes([len(kind)]) + kind + b'\0' + len(content).to_bytes(4, 'big') + content
    spoken = [bytes.fromhex(digits) for way, digits in FRAMES if way == '<'][:2] + [len(reply).to_bytes(4, 'big') + reply]
    same(said(kit, BOOT + REQUEST + OPENED + ROWS), (b''.join(spoken), b'a stray line does no harm\n', 0))

def ends_quietly_with_its_input(kit):
    same(said(kit, BOOT), (b'', b'', 0))
    same(said(kit, BOOT + REQUEST + OPENED)[1:], (b'', 0))

def ends_with_a_word_inside_a_frame(kit):
    for heard in (BOOT[:-1], BOOT + REQUEST[:3], BOOT + REQUEST[:9]):
        _, errors, status = said(kit, heard)
        same((errors, status), (b'okws: the frames end inside a frame\n', 1))

def ends_quietly_where_nobody_hears(kit):
    if kit == 'node':
        needs('node', '/usr/bin/node')
    inward, outward = os.pipe()
    os.close(inward)
    run = subprocess.run(KITS[kit], input=BOOT + REQUEST, stdout=outward, stderr=subprocess.PIPE, timeout=60)
    os.close(outward)
    same(run.stderr, b'')

def says_so_where_nobody_started_it(kit):
    if kit == 'node':
        needs('node', '/usr/bin/node')
    run = subprocess.run(KITS[kit], stdin=subprocess.DEVNULL, capture_output=True, timeout=60)
    same((run.stdout, run.returncode), (b'', 1))
    assert b'a service is started by okws' in run.stderr, run.stderr

BROKEN_OFF = """
import signal, sys
sys.path.insert(0, sys.argv[1])
import okws

def late(number, frame):
    raise TimeoutError

def page(site, request):
    signal.signal(signal.SIGALRM, late)
    signal.setitimer(signal.ITIMER_REAL, 0.2)
    site.call(0, 1)

okws.serve(page)
"""

def a_call_that_is_broken_off_ends_a_python_program():
    """Its answer, which comes later, would be taken for another one's."""
    program = subprocess.Popen([PYTHON, '-c', BROKEN_OFF, f'{TOP}/kits/python'], stdin=subprocess.PIPE, stdout=subprocess.PIPE, stderr=subprocess.PIPE)
    program.stdin.write(BOOT + REQUEST)
    program.stdin.flush()
    same(program.wait(60), 1)
    _, errors = program.communicate()
    assert b'okws: a call was broken off' in errors, errors

def the_python_guestbook_speaks_the_frames_of_the_page():
    form, head = b'id=3&who=cy&note=x', b'POST /guest HTTP/1.1\r\nHost: localhost\r\n\r\n'
    request = b'\2' + len(head).to_bytes(4, 'big') + head + len(form).to_bytes(4, 'big') + form
    heard = [bytes.fromhex(digits) for way, digits in FRAMES if way == '>']
    heard.insert(4, len(request).to_bytes(4, 'big') + request)
    run = subprocess.run([PYTHON, f'{TOP}/kits/python/guestbook.py'], input=b''.join(heard), capture_output=True, timeout=60)
    same((run.stdout, run.stderr, run.returncode), (b''.join(bytes.fromhex(digits) for way, digits in FRAMES if way == '<'), b'', 0))

GUESTBOOK = ['the_guestbook_shows_and_takes_entries', 'a_log_is_appended_to', 'a_published_page_reaches_a_running_service', 'the_console_is_answered',
             'rows_in_a_file_are_there_in_the_next_run', 'two_hundred_clients_are_served_at_once']

def guestbook(name, service):
    """The checks of the guestbook that checks/serve.sh makes, of another program that serves it."""
    def check():
        os.makedirs(name, exist_ok=True)
        write(f'{name}/svc_guest', f'#!/bin/sh\nexec {service()}\n', 0o755)
        write(f'{name}/svc_probe', '#!/bin/sh\nexec sleep 600\n', 0o755)
        for one in GUESTBOOK:
            run = subprocess.run([f'{TOP}/checks/serve.sh', OKWS, name, one], capture_output=True, text=True, timeout=300)
            same((one, run.stdout), (one, '1 passed, 0 failed\n'))
    check.__name__ = name
    return check

CHECKS = [
    *asks('requests_are_read', requests_are_read), *asks('calls_are_answered', calls_are_answered),
    *asks('what_has_no_frame_is_not_said', what_has_no_frame_is_not_said), *asks('a_stray_print_breaks_no_frame', a_stray_print_breaks_no_frame),
    *asks('templates_and_the_log', templates_and_the_log), *asks('a_page_that_throws_is_answered_500', a_page_that_throws_is_answered_500),
    *alone('speaks_the_frames_of_the_page', speaks_the_frames_of_the_page), *alone('ends_quietly_with_its_input', ends_quietly_with_its_input),
    *alone('ends_with_a_word_inside_a_frame', ends_with_a_word_inside_a_frame), *alone('ends_quietly_where_nobody_hears', ends_quietly_where_nobody_hears),
    *alone('says_so_where_nobody_started_it', says_so_where_nobody_started_it), the_python_guestbook_speaks_the_frames_of_the_page,
    a_call_that_is_broken_off_ends_a_python_program,
    guestbook('the_python_guestbook_passes_the_guestbooks_checks', lambda: f'{PYTHON} {TOP}/kits/python/guestbook.py'),
]
