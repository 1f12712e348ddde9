"""An existing CGI program and existing WSGI applications as services, alone and behind a front."""
import json, os, re, subprocess, time
from serving import PYTHON, TOP, Server, Skipped, a_port, ask, listens, needs, same, wait_until, write

BRIDGES = f'{TOP}/bridges'
SITE = """okws 1
proxy main
table main msgs id INT KEY who TEXT note TEXT
row main msgs 1 'ann' 'hi'
query main 1 SELECT id, who FROM msgs ORDER BY id
query main 2 INSERT INTO msgs (id, who, note) VALUES (?1, ?2, ?3)
service app {words}
uri /app app
grant app main 1 2
"""
RUN = f'./okws-run --read {BRIDGES} --read {TOP}/kits/python --env PYTHONDONTWRITEBYTECODE=1'

def cgi(program, options='', run=RUN):
    return SITE.format(words=f'{run} --run /usr/bin/cat --run {program} {BRIDGES}/okws-cgi {options} /app {program}')

def wsgi(application, options='', run=RUN):
    return SITE.format(words=f'{run} --read {os.path.dirname(application)} {BRIDGES}/okws-wsgi {options} /app {application}')

PLAIN = f'{TOP}/checks/kits/plain_wsgi.py:application'

def a_cgi_program_is_a_service():
    with Server(cgi(f'{BRIDGES}/examples/hello.cgi')) as server:
        same(ask(server.port, '/app/a%20b/c?x=y+z').text, 'hello x=y+z, by GET at /app and below it at /a b/c\n')
        same(ask(server.port, '/app', b'one\xff').content, b'hello , by POST at /app and below it at \none\xff')
        same(ask(server.port, '/app/%00').status, 400)

def what_a_cgi_program_answers_is_a_reply():
    answers = [
        ('Status: 404 Not Found\\n\\nnone\\n', 404, 'text/plain', [], 'none\n'),
        ('Content-Type: text/html; a=b\\r\\n\\r\\n<p>\\r\\n\\r\\n', 200, 'text/html; a=b', [], '<p>\r\n\r\n'),
        ('Location: /x\\n\\n', 303, 'text/plain', ['/x'], ''),
        ('Status: 401\\nLocation: /x\\n\\n', 403, 'text/plain', ['/x'], ''),
        ('Status: 503\\n\\n', 500, 'text/plain', [], ''),
        ('', 500, 'text/plain', [], None),
        ('no fields', 500, 'text/plain', [], None),
        ('Status: x\\n\\n', 500, 'text/plain', [], None),
    ]
    for said, status, kind, location, content in answers:
        write('said.cgi', f"#!/bin/sh\nprintf '{said}'\n", 0o755)
        with Server(cgi(os.path.abspath('said.cgi'))) as server:
            answer = ask(server.port, '/app')
            content = '500 Internal Server Error\n' if content is None else content
            same((said, answer.status, answer.field('Content-Type'), answer.field('Location'), answer.text), (said, status, [kind], location, content))

def a_cgi_program_gets_its_variables_alone():
    write('env.cgi', "#!/bin/sh\nprintf 'Content-Type: text/plain\\n\\n'\nexport -p\n", 0o755)
    with Server(cgi(os.path.abspath('env.cgi'))) as server:
        fields = ('X-A: 1\r\nX-A: 2\r\nX_B: 3\r\nProxy: http://evil\r\nAuthorization: secret\r\nCookie: a=b\r\nX-Forwarded-For: 9.9.9.9\r\n'
                  'Range: bytes=0-1\r\n')
        told = dict(re.findall(r"^export (\w+)='(.*)'$", ask(server.port, '/app?a=b', fields=fields).text, re.M))
    same((told.pop('SCRIPT_FILENAME'), told.pop('PWD')), (os.path.abspath('env.cgi'), os.path.abspath('.')))
    same(told, {'GATEWAY_INTERFACE': 'CGI/1.1', 'SERVER_PROTOCOL': 'HTTP/1.1', 'SERVER_SOFTWARE': 'okws', 'SERVER_NAME': 'localhost', 'SERVER_PORT': '80',
                'REQUEST_METHOD': 'GET', 'SCRIPT_NAME': '/app', 'PATH_INFO': '', 'QUERY_STRING': 'a=b', 'REMOTE_ADDR': '127.0.0.1', 'CONTENT_LENGTH': '0',
                'CONTENT_TYPE': '', 'PATH': '/usr/local/bin:/usr/bin:/bin', 'REDIRECT_STATUS': '200', 'HTTP_X_A': '1, 2', 'HTTP_COOKIE': 'a=b',
                'HTTP_HOST': 'localhost', 'HTTP_CONNECTION': 'close', 'HTTP_X_FORWARDED_FOR': '9.9.9.9'})

def a_cgi_program_that_takes_too_long_is_ended():
    write('slow.cgi', '#!/bin/sh\nexec sleep 600\n', 0o755)
    # Where a service can't signal what it started, as on older kernels, it ends with it.
    for run, status in ((RUN, 500), (RUN.replace('okws-run', 'okws-run-2'), 502)):
        with Server(cgi(os.path.abspath('slow.cgi'), '--seconds 0.5', run + ' --run /usr/bin/sleep')) as server:
            begun = time.time()
            same([ask(server.port, '/app').status for _ in range(2)], [status] * 2)
            assert time.time() - begun < 60

def a_wsgi_application_gets_its_environment():
    with Server(wsgi(PLAIN)) as server:
        fields = ('Content-Type: text/x\r\nX-A: 1\r\nX-A: 2\r\nX_B: 3\r\nCookie: a=b\r\nCookie: c=d\r\nProxy: http://evil\r\nRange: bytes=0-1\r\n'
                  'X-HTTP-Method-Override: PUT\r\nX-Forwarded-For: 9.9.9.9\r\nX-Forwarded-Proto: https\r\n')
        told = json.loads(ask(server.port, '/app/a%20b/%C3%A4?x=y', b'one\xff', fields=fields).text)
    same(told, {'REQUEST_METHOD': 'POST', 'SCRIPT_NAME': '/app', 'PATH_INFO': '/a b/\u00c3\u00a4', 'QUERY_STRING': 'x=y', 'SERVER_NAME': 'localhost',
                'SERVER_PORT': '80', 'REMOTE_ADDR': '127.0.0.1', 'CONTENT_TYPE': 'text/x', 'HTTP_COOKIE': 'a=b; c=d', 'HTTP_X_A': '1, 2',
                'HTTP_X_B': '', 'HTTP_PROXY': '', 'HTTP_RANGE': '', 'HTTP_X_HTTP_METHOD_OVERRIDE': '', 'wsgi.url_scheme': 'http', 'content': 'one\u00ff'})

def what_a_wsgi_application_answers_is_a_reply():
    with Server(wsgi(PLAIN)) as server:
        for status, wanted in [(200, 200), (201, 201), (204, 200), (301, 303), (401, 403), (409, 409), (410, 404), (418, 400), (503, 500)]:
            answer = ask(server.port, f'/app/status?{status}')
            same((status, answer.status, answer.text), (status, wanted, 'told\n'))
        answer = ask(server.port, '/app/moved')
        same((answer.status, answer.field('Location'), answer.field('Content-Type')), (303, ['/elsewhere?a=b'], ['text/plain']))
        answer = ask(server.port, '/app/parts')
        same((answer.status, answer.text), (201, 'one two\n'))
        same(ask(server.port, '/app/untyped').field('Content-Type'), ['application/octet-stream'])
        same(ask(server.port, '/app/cookie').field('Content-Type'), ['text/plain'])
        for path in ('throw', 'not-begun', 'large'):
            same((path, ask(server.port, f'/app/{path}').status), (path, 500))
        same(ask(server.port, '/app/parts').status, 201)
    with Server(wsgi(PLAIN.replace(':application', ':made()'))) as server:
        same(ask(server.port, '/app/parts').status, 201)

def flask_is_there():
    if subprocess.run([PYTHON, '-c', 'import flask'], capture_output=True).returncode:
        raise Skipped("flask (Debian's python3-flask) is not there")

SHOP = f'{BRIDGES}/examples/shop.py:app'

def a_flask_application_is_a_service():
    flask_is_there()
    with Server(wsgi(SHOP)) as server:
        same(ask(server.port, '/app/').text, '<p>seen 1 times<ul><li>1 ann</ul>')
        same(ask(server.port, '/app/', b'id=2&who=b%C3%B6b', fields='Content-Type: application/x-www-form-urlencoded\r\n').field('Location'), ['/app/'])
        same(ask(server.port, '/app/').text, '<p>seen 1 times<ul><li>1 ann<li>2 b\u00f6b</ul>')
        same(ask(server.port, '/app/none').status, 404)
        same(ask(server.port, '/app/', b'id=2&who=di', fields='Content-Type: application/x-www-form-urlencoded\r\n').status, 500)

class Front:
    """HAProxy with the rules of bridges/front.cfg before a server."""
    def __init__(self, server):
        self.server, self.port = server, a_port()

    def __enter__(self):
        program = needs('haproxy', '/usr/sbin/haproxy')
        with open(f'{BRIDGES}/front.cfg') as f:
            rules = f.read()
        write('front.cfg', f"""defaults
    mode http
    timeout connect 10s
    timeout client 60s
    timeout server 60s
frontend site
    bind 127.0.0.1:{self.port}
    default_backend okws
backend okws
{rules}    server a 127.0.0.1:{self.server.port}
""")
        self.process = subprocess.Popen([program, '-f', 'front.cfg'], stdout=subprocess.DEVNULL, stderr=subprocess.DEVNULL)
        wait_until(lambda: self.process.poll() is not None or listens(self.port), 'the front listens')
        return self

    def __exit__(self, *_):
        self.process.kill()
        self.process.wait()

def statuses_cookies_and_methods_pass_through_a_front():
    needs('haproxy', '/usr/sbin/haproxy')
    with Server(wsgi(PLAIN, '--front')) as server, Front(server) as front:
        for status, wanted in [(200, 200), (204, 204), (301, 301), (401, 401), (429, 429), (503, 503), (418, 400), (599, 500)]:
            answer = ask(front.port, f'/app/status?{status}')
            same((status, answer.status, answer.field('Content-Type')), (status, wanted, ['text/plain']))
        answer = ask(front.port, '/app/moved')
        same((answer.status, answer.field('Location'), answer.field('Set-Cookie'), answer.field('Content-Type')),
             (302, ['/elsewhere?a=b'], ['a=b; Path=/'], ['text/plain']))
        answer = ask(front.port, '/app/cookie')
        same((answer.field('Set-Cookie'), answer.field('Cache-Control'), answer.field('Content-Type')),
             (['a=b=c; Path=/; HttpOnly'], ['no-store, private'], ['text/plain']))
        answer = ask(front.port, '/app/cookies')
        same((answer.status, answer.field('Set-Cookie')), (200, ['c=d']))
        wait_until(lambda: server.says().count('okws-wsgi: dropped okws-cookie=') == 2, 'what is dropped is told')
        for method in ('PUT', 'DELETE', 'PATCH'):
            told = json.loads(ask(front.port, '/app/x', b'one', method=method, fields='X-HTTP-Method-Override: HEAD\r\nX-Forwarded-For: 9.9.9.9\r\n').text)
            same((told['REQUEST_METHOD'], told['content'], told['REMOTE_ADDR'], told['wsgi.url_scheme']), (method, 'one', '127.0.0.1', 'http'))
        told = json.loads(ask(front.port, '/app/x', b'one', fields='X-HTTP-Method-Override: PUT\r\n').text)
        same(told['REQUEST_METHOD'], 'POST')

def a_flask_session_passes_through_a_front():
    flask_is_there()
    with Server(wsgi(SHOP, '--front')) as server, Front(server) as front:
        cookie = ''
        for times in (1, 2, 3):
            answer = ask(front.port, '/app/', fields=f'Cookie: {cookie}\r\n' if cookie else '')
            same((answer.status, answer.text), (200, f'<p>seen {times} times<ul><li>1 ann</ul>'))
            cookie = answer.field('Set-Cookie')[0].partition(';')[0]

CHECKS = [
    a_cgi_program_is_a_service, what_a_cgi_program_answers_is_a_reply, a_cgi_program_gets_its_variables_alone, a_cgi_program_that_takes_too_long_is_ended,
    a_wsgi_application_gets_its_environment, what_a_wsgi_application_answers_is_a_reply, a_flask_application_is_a_service,
    statuses_cookies_and_methods_pass_through_a_front, a_flask_session_passes_through_a_front,
]
