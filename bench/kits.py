#!/usr/bin/env python3
"""Times services of several kinds behind okws, in turn, in one run: svc_guest plain, behind okws-run and behind its relay; and services in Python, C and Node, a
WSGI application and a CGI program, confined. Each answers a GET with the two rows of the guestbook, the CGI program without asking for them.
    bench/kits.py OKWS SVC_GUEST [ROUNDS [MS]]      9 rounds of 300 ms each at 1 and at 8 clients
It tells medians of requests a second, and each one's share of svc_guest's, plain, as a table; and how much of the time the host took processors away: where that
is more than a few per cent the other figures say little. Needs cc and Debian's python3; what needs node is left out where that isn't there. Loopback only."""
import os, shutil, signal, socket, statistics, subprocess, sys, tempfile, time

TOP = os.path.realpath(os.path.join(os.path.dirname(__file__), '..'))
SITE = """okws 1
proxy main
table main msgs id INT KEY who TEXT note TEXT
row main msgs 1 'ann' 'hi'
row main msgs 2 'bob' 'yo'
query main 1 SELECT id, who FROM msgs ORDER BY id
service guest {words}
uri /s0 guest
grant guest main 1
"""
WSGI = """def app(environ, start_response):
    start_response('200 OK', [('Content-Type', 'text/plain')])
    return [''.join(f'{number} {who}\\n' for number, who in environ['okws.site'].call(0, 1)).encode()]
"""
CGI = "#!/bin/sh\nprintf 'Content-Type: text/plain\\n\\n1 ann\\n2 bob\\n'\n"
PYTHON = f'./okws-run --read {TOP}/kits/python'
BRIDGED = f'{PYTHON} --read {TOP}/bridges --read .'
SERVICES = {
    'svc_guest': './svc_guest',
    'svc_guest behind okws-run': './okws-run ./svc_guest',
    'svc_guest behind okws-run --seconds': './okws-run --seconds 20 ./svc_guest',
    'C': './okws-run ./hello',
    'Python': f'{PYTHON} {TOP}/kits/python/hello.py',
    'Node': f'./okws-run --read {TOP}/kits/node {TOP}/kits/node/hello.js',
    'WSGI': f'{BRIDGED} {TOP}/bridges/okws-wsgi /s0 listed.py:app',
    'CGI': f'{BRIDGED} --run listed.cgi {TOP}/bridges/okws-cgi /s0 listed.cgi',
}

def made(guest):
    """Makes what is needed in the present folder."""
    compiler = ['cc', '-O2', '-o']
    subprocess.run([*compiler, 'clients', f'{TOP}/bench/clients.c', '-lpthread'], check=True)
    subprocess.run([*compiler, 'hello', f'{TOP}/kits/c/hello.c'], check=True)
    subprocess.run(f'cc -O2 -o okws-run {TOP}/tools/okws-run/*.c', shell=True, check=True)
    shutil.copy(guest, 'svc_guest')
    for name, text in (('listed.py', WSGI), ('listed.cgi', CGI)):
        with open(name, 'w') as f:
            f.write(text)
        os.chmod(name, 0o755)

def a_port():
    with socket.socket() as s:
        s.bind(('127.0.0.1', 0))
        return s.getsockname()[1]

def started(okws, name, words):
    """A server of one service, and its port."""
    with open(f'{name}.okws', 'w') as f:
        f.write(SITE.format(words=words))
    port = a_port()
    quiet = {'stdin': subprocess.PIPE, 'stdout': subprocess.DEVNULL, 'stderr': subprocess.DEVNULL}
    return subprocess.Popen([okws, 'serve', f.name, '--port', str(port), '--doors', '2', '--serve', '1000000'], **quiet), port

def tree(pid):
    children = []
    for thread in os.listdir(f'/proc/{pid}/task'):
        with open(f'/proc/{pid}/task/{thread}/children') as told:
            children += told.read().split()
    return [pid] + [below for child in children for below in tree(int(child))]

def rate(port, clients, ms):
    told = subprocess.run(['./clients', str(port), 'get', str(clients), str(ms), '1'], capture_output=True, text=True, check=True).stdout.split()
    if told[2] != '0':
        sys.exit(f'{told[2]} answers at {port} were other ones')
    return float(told[0])

def processors():
    with open('/proc/stat') as told:
        times = [int(word) for word in told.readline().split()[1:9]]
    return sum(times), times[7]

def measure(servers, clients, rounds, ms):
    """Of each server the median of its requests a second, and of its shares of svc_guest's; and how much of the time was taken away, in per cent."""
    begun = processors()
    rates = {name: [] for name in servers}
    for _ in range(rounds):
        for name, (_, port) in servers.items():
            rates[name].append(rate(port, clients, ms))
    ended = processors()
    found = {name: (statistics.median(own), statistics.median(one / other for one, other in zip(own, rates['svc_guest']))) for name, own in rates.items()}
    return found, 100 * (ended[1] - begun[1]) / max(ended[0] - begun[0], 1)

def tell(measured):
    """The figures as a table of the documents, and below it how much was taken away."""
    print('| | ' + ' | '.join(f'{clients} client{"s" * (clients > 1)}: a second | times svc_guest' for clients in measured) + ' |')
    print('|---' * (1 + 2 * len(measured)) + '|')
    for name in SERVICES:
        columns = [f'{found[name][0]:,.0f} | {found[name][1]:.2f}' for found, _ in measured.values() if name in found]
        if columns:
            print(f'| {name} | {" | ".join(columns)} |')
    print('taken away: ' + ', '.join(f'{taken:.0f} %' for _, taken in measured.values()))

def main(okws, guest, rounds='9', ms='300'):
    okws, guest = os.path.realpath(okws), os.path.realpath(guest)
    with tempfile.TemporaryDirectory() as folder:
        os.chdir(folder)
        made(guest)
        wanted = {name: words for name, words in SERVICES.items() if name != 'Node' or os.path.exists('/usr/bin/node')}
        servers = {name: started(okws, name, words) for name, words in wanted.items()}
        try:
            time.sleep(3)
            for _, port in servers.values():
                rate(port, 1, 100)
            tell({clients: measure(servers, clients, int(rounds), ms) for clients in (1, 8)})
        finally:
            for server, _ in servers.values():
                for pid in reversed(tree(server.pid)) if server.poll() is None else []:
                    os.kill(pid, signal.SIGKILL)
                server.wait()
            os.chdir('/')

if len(sys.argv) < 3:
    sys.exit(__doc__)
main(*sys.argv[1:])
