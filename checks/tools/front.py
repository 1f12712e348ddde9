"""Checks of okws-front, with HAProxy itself in front of servers on the loopback address."""
import os, shutil, ssl, subprocess, threading, time, urllib.error, urllib.request
from common import SERVICE, SITE, Skipped, Up, a_port, ask, has, run, same, wait_until, write

SLOW = f"""okws 1
service slow {SERVICE} /slow slow
service quick {SERVICE} /quick quick
uri /slow slow
uri /quick quick
"""
ANN = (200, '1 ann\n')


class Front:
    """HAProxy by what okws-front writes for these sites, until the end of the block."""
    def __init__(self, *words):
        haproxy = shutil.which('haproxy', path=os.environ.get('PATH', '') + ':/usr/sbin')
        if not haproxy:
            raise Skipped('there is no haproxy')
        self.port = a_port()
        write('front.cfg', run('okws-front', '--listen', f'127.0.0.1:{self.port}', '--doors', '4', *words))
        self.words = [haproxy, '-db', '-f', 'front.cfg']

    def __enter__(self):
        same(subprocess.run([*self.words, '-c'], capture_output=True, text=True, timeout=30).returncode, 0)
        self.process = subprocess.Popen(self.words, stdin=subprocess.DEVNULL, stdout=subprocess.DEVNULL, stderr=subprocess.DEVNULL)
        self.limit = threading.Timer(300, self.process.kill)
        self.limit.start()
        wait_until(self.listens)
        return self

    def listens(self):
        try:
            return ask(self.port, '/nobody')[0] == 404
        except OSError:
            return False

    def __exit__(self, *_):
        self.limit.cancel()
        self.process.kill()
        self.process.wait()


class Clients:
    """Clients that ask for a path one request after another, until the end of the block."""
    def __init__(self, port, path, number=3):
        self.answers, self.is_over = [], threading.Event()
        self.threads = [threading.Thread(target=self.go_on, args=(port, path)) for _ in range(number)]

    def go_on(self, port, path):
        while not self.is_over.is_set():
            try:
                self.answers.append(ask(port, path))
            except (OSError, IndexError) as why:
                self.answers.append(why)
            time.sleep(0.01)

    def __enter__(self):
        for thread in self.threads:
            thread.start()
        return self

    def __exit__(self, *_):
        self.is_over.set()
        for thread in self.threads:
            thread.join(40)

    def have(self, more):
        """Waits for so many answers more."""
        wanted = len(self.answers) + more
        wait_until(lambda: len(self.answers) >= wanted)


def requests_go_by_their_paths():
    more = 'service deep %s /notes/deep deep\nuri /notes/deep/ deep\n' % SERVICE
    with Up('routes', site=SITE + more) as up, Front(f'routes/site.okws@{up.port}') as front:
        for path in ('/notes', '/notes/x?a=b', '/notesx', '/notes/deep', '/notes/deep/', '/notes/deep/x', '/', '/%6eotes'):
            same(ask(front.port, path), ask(up.port, path) if path not in ('/notesx', '/', '/%6eotes') else (404, ask(front.port, '/nobody')[1]))
        same(ask(front.port, content='2 bob'), (303, ''))
        same(ask(up.port), (200, '1 ann\n2 bob\n'))
        same(ask(front.port, content='x' * 262145)[0], 413)


def a_service_that_hangs_keeps_its_own_clients_waiting_alone():
    with Up('hangs', site=SLOW) as up, Front(f'hangs/site.okws@{up.port}') as front:
        with Clients(front.port, '/slow/slow/3', number=8):
            time.sleep(0.5)
            for _ in range(3):
                begun = time.monotonic()
                same(ask(front.port, '/quick'), (200, 'quick'))
                assert time.monotonic() - begun < 2, time.monotonic() - begun


def where_one_of_two_machines_is_killed_no_request_of_the_others_services_is_lost():
    other = SITE.replace(' /notes', ' /other').replace("'ann'", "'cy'")
    with Up('machine1') as one, Up('machine2', site=other) as two:
        with Front(f'machine1/site.okws@{one.port}', f'machine2/site.okws@{two.port}') as front:
            same((ask(front.port), ask(front.port, '/other')), (ANN, (200, '1 cy\n')))
            with Clients(front.port, '/other') as clients:
                clients.have(20)
                one.process.kill()
                clients.have(100)
            same(set(clients.answers), {(200, '1 cy\n')})
            assert ask(front.port)[0] == 503, ask(front.port)


def a_service_without_rows_goes_on_at_the_other_server():
    site = SITE + f'service hello {SERVICE} /hello hello\nuri /hello hello\n'
    with Up('twin1', site=site) as one, Up('twin2', site=site) as two, Front(f'twin1/site.okws@{two.port},{one.port}') as front:
        same(ask(front.port, content='2 bob')[0], 303)
        same((ask(two.port), ask(one.port)), ((200, '1 ann\n2 bob\n'), ANN))
        same({ask(front.port) for _ in range(6)}, {(200, '1 ann\n2 bob\n')})
        with Clients(front.port, '/hello') as clients:
            clients.have(20)
            one.process.kill()
            clients.have(60)
        same(set(clients.answers), {(200, 'hello')})


def asked(port, path, method='GET'):
    """The status, the cookie and the type that a server answers."""
    try:
        answer = urllib.request.urlopen(urllib.request.Request(f'http://127.0.0.1:{port}{path}', method=method), timeout=60)
    except urllib.error.HTTPError as why:
        answer = why
    with answer:
        return answer.status, answer.headers['Set-Cookie'], answer.headers['Content-Type']


def what_a_bridge_says_in_a_type_comes_as_fields_and_what_another_says_does_not():
    said = 'hello text/plain;+okws-status=401;+okws-cookie=a=b'
    site = f"""okws 1
service bridged {SERVICE} /bridged {said} okws-cgi --front
service plain {SERVICE} /plain {said}
uri /bridged bridged
uri /plain plain
"""
    with Up('bridged', site=site) as up, Front(f'bridged/site.okws@{up.port}') as front:
        whole = 'text/plain; okws-status=401; okws-cookie=a=b'
        same(asked(up.port, '/bridged'), (200, None, whole))
        same(asked(front.port, '/bridged'), (401, 'a=b', 'text/plain'))
        same(asked(front.port, '/bridged', 'DELETE')[0], 401)
        same(asked(front.port, '/plain'), (200, None, whole))
        same(asked(front.port, '/plain', 'DELETE')[0], 501)


def no_request_is_lost_between_two_runs():
    with Up('runs', '--count', '40') as up, Front(f'runs/site.okws@{up.port}') as front, Clients(front.port, '/notes') as clients:
        clients.have(10)
        wait_until(lambda: 'run 3 serves' in up.events())
    same(set(clients.answers), {ANN})


def clients_come_by_tls():
    if not shutil.which('openssl'):
        raise Skipped('there is no openssl')
    words = ['openssl', 'req', '-x509', '-newkey', 'ec', '-pkeyopt', 'ec_paramgen_curve:prime256v1', '-nodes', '-days', '2', '-subj', '/CN=localhost',
             '-addext', 'subjectAltName=DNS:localhost', '-keyout', 'key.pem', '-out', 'certificate.pem']
    subprocess.run(words, check=True, capture_output=True, timeout=60)
    with open('site.pem', 'w') as out:
        for name in ('certificate.pem', 'key.pem'):
            with open(name) as f:
                out.write(f.read())
    with Up('tls') as up:
        front = Front('--certificate', 'site.pem', f'tls/site.okws@{up.port}')
        tls = ssl.create_default_context(cafile='certificate.pem')
        front.listens = lambda: ask_quietly(front.port, tls) == 404
        with front:
            same(ask(front.port, tls=tls), ANN)


def ask_quietly(port, tls):
    try:
        return ask(port, '/nobody', tls=tls)[0]
    except OSError:
        return None


def what_is_no_front_is_refused():
    write('refused.okws', 'okws 1\ngrant a b 1\n')
    write('good.okws', SITE)
    has(run('okws-front', 'refused.okws@80', status=4), 'refused.okws:2: grant a b 1')
    has(run('okws-front', 'good.okws@80', 'good.okws@81', status=2), 'both own /notes')
    for words in ([], ['good.okws'], ['good.okws@x'], ['good.okws@80,'], ['--doors', 'x', 'good.okws@80']):
        run('okws-front', *words, status=2)
    has(run('okws-front', '--doors', '9', 'good.okws@80,host:81,[::1]:82'), 'server 0 127.0.0.1:80 maxconn 4', 'server 1 host:81 check', 'server 2 [::1]:82 check')


CHECKS = [
    requests_go_by_their_paths, a_service_that_hangs_keeps_its_own_clients_waiting_alone,
    where_one_of_two_machines_is_killed_no_request_of_the_others_services_is_lost, a_service_without_rows_goes_on_at_the_other_server,
    what_a_bridge_says_in_a_type_comes_as_fields_and_what_another_says_does_not, no_request_is_lost_between_two_runs, clients_come_by_tls, what_is_no_front_is_refused,
]
