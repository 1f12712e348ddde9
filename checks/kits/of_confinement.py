"""What a service reaches on the machine, plain and behind okws-run."""
import glob, os, re, shutil, socket, subprocess, time
from serving import OKWS, PYTHON, TOP, Server, Skipped, ask, children_of, needs, same, tree_of, wait_until, write
from of_kits import guestbook

SITE = """okws 1
proxy main
table main msgs id INT KEY who TEXT note TEXT
row main msgs 1 'ann' 'hi'
query main 1 SELECT id, who FROM msgs ORDER BY id
query main 2 INSERT INTO msgs (id, who, note) VALUES (?1, ?2, ?3)
service spy {words}
service other /bin/sleep 600
uri /spy spy
uri /other other
grant spy main 1
"""
SPY = f'{PYTHON} {TOP}/checks/kits/spy.py {TOP}/kits/python rows.0'
READS = f'--read {TOP}/checks/kits/spy.py --read {TOP}/kits/python'

# What no service of a site should be able to do to the machine, the server and its sisters; the last is the monitor's to refuse, and is refused plain too.
TRIED = ['read the rows of every proxy', 'read the environment of the server', 'read the memory of the server', 'look at the pipes of another service',
         'list the services of the server', 'read the accounts of the machine', 'write a file where the server runs', 'open a socket', 'start another process',
         'signal the server', 'limit what the server may use', 'lower the priority of the server', 'change the mode of the rows', 'kill another service',
         'call a query that is not granted']

def spied(words):
    """What came of each attempt of the spy that is started by these words."""
    from urllib.parse import quote
    with Server(SITE.format(words=words), '--store', 'rows') as server:
        same(ask(server.port, '/spy').text.split('\n'), TRIED)
        sleeper = next(pid for pid in children_of(server.process.pid) if b'sleep' in open(f'/proc/{pid}/cmdline', 'rb').read())
        found = {attempt: ask(server.port, f'/spy?only={quote(attempt)}&sibling={sleeper}').text for attempt in TRIED}
    for name in os.listdir('.'):
        if name.startswith('rows.') or name == 'planted':
            os.remove(name)
    return found

def refused(found):
    return [attempt for attempt in TRIED if re.match(r'no: (PermissionError|Denied) ', found[attempt])]

def a_plain_spy_reaches_all_but_what_the_monitor_refuses():
    found = spied(SPY)
    same([attempt for attempt in TRIED if found[attempt] == 'yes'], TRIED[:-1])
    same(found[TRIED[-1]], 'no: Denied denied by rule 14, QueryNotGranted')

def a_confined_spy_reaches_nothing():
    found = spied(f'./okws-run {READS} {SPY}')
    same((refused(found), found[TRIED[-1]]), (TRIED, 'no: Denied denied by rule 14, QueryNotGranted'))

def a_spy_behind_a_relay_reaches_nothing():
    same(refused(spied(f'./okws-run --seconds 20 {READS} {SPY}')), TRIED)

def a_spy_reaches_nothing_where_the_kernel_is_older():
    """The versions of Landlock of Linux 5.13, 6.1 and 6.7."""
    for version in (1, 2, 4):
        same((version, refused(spied(f'./okws-run-{version} {READS} {SPY}'))), (version, TRIED))

def tried_ways(*confined):
    """What came of each way around files and processes, of a program that may read one file."""
    shutil.rmtree('ways', ignore_errors=True)
    os.makedirs('ways')
    write('ways/text', 'kept')
    other = subprocess.Popen(['/bin/sleep', '600'], stdin=subprocess.DEVNULL, stdout=subprocess.DEVNULL, stderr=subprocess.DEVNULL)
    heard = [socket.socket(socket.AF_UNIX, socket.SOCK_DGRAM) for _ in range(2)]
    try:
        for one, name in zip(heard, ('ways/socket', f'\0okws-ways-{os.getpid()}')):
            one.bind(name)
        run = subprocess.run([*confined, PYTHON, f'{TOP}/checks/kits/ways.py', 'ways/text', str(other.pid)], stdout=subprocess.PIPE, stderr=subprocess.PIPE,
                             text=True, timeout=60)
        same((other.poll(), run.stderr), (None, ''))
    finally:
        other.kill()
        other.wait()
        for one in heard:
            one.close()
    return dict(line.split(': ') for line in run.stdout.splitlines())

def ways_around_are_refused():
    plain = tried_ways()
    # Without a terminal two of them fail plain too, and some where the kernel or the file system doesn't know them.
    others = ('attributes', 'flags', 'mode by a new call', 'a ring of calls', 'a key of the terminal', 'a signal for input otherwise')
    same({way: fault for way, fault in plain.items() if fault != 'done' and way not in others}, {})
    for program in ('./okws-run', './okws-run-1', './okws-run-2', './okws-run-4'):
        confined = tried_ways(program, '--read', f'{TOP}/checks/kits/ways.py', '--read', 'ways')
        same((program, {way: fault for way, fault in confined.items() if fault not in ('EPERM', 'EACCES', 'ENOSYS')}), (program, {}))
        with open('ways/text') as f:
            same(f.read(), 'kept')

def a_kernel_without_landlock_is_told():
    run = subprocess.run(['./okws-run-0', '/bin/true'], capture_output=True, text=True)
    same((run.returncode, run.stdout), (126, ''))
    assert 'has no Landlock' in run.stderr, run.stderr

def run_confined(options, program, **more):
    return subprocess.run(['./okws-run', *options, *program], capture_output=True, text=True, timeout=60, **more)

def python(text):
    return [PYTHON, '-c', text]

def what_is_named_is_given():
    os.makedirs('given', exist_ok=True)
    write('given/text', 'read me')
    reads = python("print(open('given/text').read())")
    writes = python("import os; open('given/text', 'w').write('x'); os.rename('given/text', 'given/moved'); os.remove('given/moved')")
    runs = python("import subprocess; print(subprocess.run(['./told', 'b'], capture_output=True, text=True).stdout.strip())")
    write('told', '#!/bin/sh\necho a $1; cat /etc/passwd; kill -0 $PPID && echo reached\n', 0o755)
    assert 'PermissionError' in run_confined([], reads).stderr
    same(run_confined(['--read', 'given'], reads).stdout, 'read me\n')
    assert 'PermissionError' in run_confined(['--read', 'given'], writes).stderr
    same(run_confined(['--write', 'given'], writes).stderr, '')
    assert 'PermissionError' in run_confined(['--read', 'told'], runs).stderr
    same(run_confined(['--run', './told', '--run', '/bin/cat'], runs).stdout, 'a b\nreached\n')
    same(run_confined(['--env', 'A=b=c'], python("import os; print(os.environ['A'], sorted(os.environ))")).stdout, "b=c ['A', 'LANG', 'PATH']\n")
    same(run_confined([], ['env'], env={'SECRET': '1'}).stdout, 'PATH=/usr/local/bin:/usr/bin:/bin\nLANG=C.UTF-8\n')

def debians_python_reads_its_own_module():
    """Where it has no compiled one, it would tell on standard error at each start that it may not."""
    own = glob.glob('/etc/python3*/sitecustomize.py')
    if not own:
        raise Skipped("this Python has no module in /etc")
    same(run_confined([], python(f'open({own[0]!r}).close()')).stderr, '')

def a_socket_is_of_the_internets_kinds_and_only_with_network():
    opens = python("import socket; [socket.socket(kind).close() for kind in (socket.AF_INET, socket.AF_INET6)]; socket.socket(socket.AF_UNIX)")
    of_the_internet = python(opens[2].rpartition(';')[0])
    assert 'PermissionError' in run_confined([], of_the_internet).stderr
    same(run_confined(['--network'], of_the_internet).stderr, '')
    assert 'PermissionError' in run_confined(['--network'], opens).stderr

def memory_is_limited():
    fills = python("b = bytearray(300 << 20); print(len(b) >> 20)")
    same(run_confined(['--memory', '500'], fills).stdout, '300\n')
    assert 'MemoryError' in run_confined(['--memory', '100'], fills).stderr
    for shared in ("import mmap; mmap.mmap(-1, 300 << 20)", "import os; os.memfd_create('a')", "import mmap; mmap.mmap(os.open('/dev/zero', 2), 300 << 20)"):
        assert 'PermissionError' in run_confined(['--memory', '100'], python('import os; ' + shared)).stderr, shared

def standard_error_is_not_the_servers():
    tries = python("import os\nfor do in (lambda: os.ftruncate(2, 0), lambda: os.pwrite(2, b'x', 0), lambda: os.read(2, 9)):\n"
                   "    try: do()\n    except OSError: os.write(2, b'refused ')\nos.write(2, b'said')")
    with open('said', 'w+b') as said:
        said.write(b'before ')
        said.flush()
        subprocess.run(['./okws-run', *tries], stderr=said, timeout=60)
        wait_until(lambda: open('said', 'rb').read() == b'before refused refused refused said', 'what was said is passed on')
    ours, theirs = os.openpty()
    os.write(ours, b'typed\n')
    subprocess.run(['./okws-run', *tries], stderr=theirs, stdin=subprocess.DEVNULL, timeout=60)
    wait_until(lambda: b'said' in os.read(ours, 999), 'what was said is passed on')
    same(os.read(theirs, 99), b'typed\n')
    os.close(ours)
    os.close(theirs)

def descriptors_are_not_inherited():
    with open('/etc/passwd') as held:
        os.set_inheritable(held.fileno(), True)
        run = run_confined([], python(f'import os; os.fstat({held.fileno()})'), close_fds=False)
    assert 'Bad file descriptor' in run.stderr, run.stderr

def words_that_ask_for_nothing_are_refused():
    for words in ([], ['--read'], ['--read', 'nowhere', '/bin/true'], ['--memory', 'x', '/bin/true'], ['--seconds', '0', '/bin/true'],
                  ['--all', 'x', '/bin/true'], ['--env', 'A', '/bin/true'], ['nowhere'], ['./nowhere']):
        run = run_confined([], words)
        same((words, run.returncode, run.stdout, run.stderr.startswith('okws-run: ')), (words, 126, '', True))
    run = run_confined([], ['--help'])
    same((run.returncode, run.stdout.startswith('okws-run [--read PATH]..'), run.stderr), (0, True, ''))

def a_dialog_that_takes_too_long_is_ended():
    words = f'./okws-run --seconds 8 --read {TOP}/checks/kits/slow.py --read {TOP}/kits/python {PYTHON} {TOP}/checks/kits/slow.py {TOP}/kits/python'
    with Server(SITE.replace('grant spy main 1\n', '').format(words=words), doors=4) as server:
        same(ask(server.port, '/spy?seconds=0').text, 'slept 0.0\n')
        begun = time.time()
        same(ask(server.port, '/spy?seconds=600').status, 502)
        assert time.time() - begun < 60, time.time() - begun
        assert 'a dialog took longer than 8 seconds' in server.says(), server.says()
        same(ask(server.port, '/spy?seconds=0').text, 'slept 0.0\n')
        time.sleep(8.5) # no dialog is open meanwhile
        same(ask(server.port, '/spy?seconds=0&size=1000000').content, b'a' * 1000000)

def what_a_service_started_ends_with_its_dialog():
    write('lazy', '#!/bin/sh\nsleep 601 &\nexec sleep 602\n', 0o755)
    site = SITE.replace('grant spy main 1\n', '').format(words='./okws-run --seconds 3 --run /usr/bin/sleep ./lazy')
    with Server(site) as server:
        started = []
        wait_until(lambda: started.extend(pid for pid in tree_of(server.process.pid) if '601' in words_of(pid)) or started, 'the service starts another')
        same(ask(server.port, '/spy').status, 502)
        wait_until(lambda: not is_alive(started[0]), 'what it started ends')

def a_confined_service_ends_with_the_server():
    for seconds in ('', '--seconds 20 '):
        words = f'./okws-run {seconds}{READS} {SPY}'
        with Server(SITE.format(words=words), '--store', 'rows') as server:
            same(ask(server.port, '/spy').status, 200)
            started = tree_of(server.process.pid)[1:]
            server.process.kill()
            wait_until(lambda: not any(is_alive(pid) for pid in started if 'spy' in words_of(pid)), 'the service ends')
            for pid in started:
                if is_alive(pid) and 'sleep' in words_of(pid):
                    os.kill(pid, 9)

def words_of(pid):
    try:
        with open(f'/proc/{pid}/cmdline') as f:
            return f.read()
    except OSError:
        return ''

def is_alive(pid):
    try:
        with open(f'/proc/{pid}/stat') as f:
            return f.read().rsplit(')', 1)[1].split()[0] != 'Z'
    except OSError:
        return False

def the_kits_examples_run_confined():
    words = {'python': f'--read {TOP}/kits/python {TOP}/kits/python/hello.py', 'c': './hello', 'node': f'--read {TOP}/kits/node {TOP}/kits/node/hello.js'}
    for kit, service in words.items():
        if kit == 'node':
            needs('node', '/usr/bin/node')
        for options in ('', '--seconds 20 ', '--memory 2000 '):
            with Server(SITE.format(words=f'./okws-run {options}{service}')) as server:
                same((kit, options, ask(server.port, '/spy?name=a+b').text), (kit, options, 'hello a b\n1 ann\n'))

def a_folder(name, **links):
    """A folder with links to these."""
    os.makedirs(name, exist_ok=True)
    for link, target in links.items():
        os.symlink(os.path.abspath(target), f'{name}/{link}')
    return name

def the_site_of_the_examples_is_served():
    needs('node', '/usr/bin/node')
    folder = a_folder('repository', kits=f'{TOP}/kits', bin='.')
    with open(f'{TOP}/examples/hello.okws') as f, Server(f.read(), folder=folder) as server:
        for path in ('/hello', '/hello-c', '/hello-node'):
            same((path, ask(server.port, f'{path}?name=%3Cann%3E').text), (path, 'hello <ann>\n1 ann\n2 bob\n'))

def the_guestbook_of_the_examples_is_served():
    folder = a_folder('bin-folder', **{'okws-run': 'okws-run', 'svc_guest': svc_guest()})
    with open(f'{TOP}/examples/guestbook.okws') as f, Server(f.read(), folder=folder) as server:
        same(ask(server.port, '/guest').text, '1 ann\n2 bob\n')
        server.publishes('page', '<p>@{rows}')
        same(ask(server.port, '/guest', b'id=3&who=cy&note=').status, 303)
        same(ask(server.port, '/guest').text, '<p>1 ann\n2 bob\n3 cy\n')

def page_of_the_kits():
    """The page's first service and its lines of a configuration, and its line of bubblewrap's."""
    with open(f'{TOP}/docs/KITS.md') as f:
        page = f.read()
    program = re.search(r'```python\n(.*?)```', page, re.S)[1]
    lines = re.search(r'^    service hello .*\n    uri .*\n    grant .*\n', page, re.M)[0].replace('    ', '')
    bubblewrap = ' '.join(re.search(r'^    service guest (env -i PATH=.* bwrap .*\n .*)\n', page, re.M)[1].split())
    return program, lines, bubblewrap

SIGNED = "okws 1\nproxy main\ntable main msgs id INT KEY who TEXT\nrow main msgs 1 'ann'\nquery main 1 SELECT id, who FROM msgs\n"

def the_first_service_of_the_page_is_served():
    program, lines, _ = page_of_the_kits()
    folder = a_folder('first', **{'okws-run': 'okws-run'})
    os.makedirs('first/hello')
    shutil.copy(f'{TOP}/kits/python/okws.py', 'first/hello')
    write('first/hello/hello.py', program, 0o755)
    with Server(SIGNED + lines, folder=folder) as server:
        same(ask(server.port, '/hello?name=%3Cbob%3E').text, '<p>hello &lt;bob&gt;, 1 have signed')

def the_pages_line_of_bubblewrap_confines():
    needs('bwrap')
    bubblewrap = page_of_the_kits()[2].replace('--ro-bind guest /guest /guest/guest.py', f'--ro-bind {TOP} {TOP} {SPY}')
    if subprocess.run(bubblewrap.replace(SPY, 'true').split(), capture_output=True).returncode:
        raise Skipped('bwrap gets no namespaces here')
    found = spied('/usr/bin/' + bubblewrap)
    # It runs in a world of its own, where it is its own neighbour: there it may look, write, open sockets and start processes.
    reached = [attempt for attempt in ('read the rows of every proxy', 'look at the pipes of another service', 'read the accounts of the machine',
                                       'change the mode of the rows', 'kill another service', 'call a query that is not granted') if found[attempt] == 'yes']
    same((reached, os.path.exists('planted')), ([], False))

def svc_guest():
    for path in (f'{os.path.dirname(OKWS)}/svc_guest', f'{TOP}/bin/svc_guest', f'{TOP}/crates/svc_guest/out/svc_guest'):
        if os.path.exists(path):
            return path
    raise Skipped('svc_guest is not there')

CHECKS = [
    a_plain_spy_reaches_all_but_what_the_monitor_refuses, a_confined_spy_reaches_nothing, a_spy_behind_a_relay_reaches_nothing,
    a_spy_reaches_nothing_where_the_kernel_is_older, ways_around_are_refused, a_kernel_without_landlock_is_told, what_is_named_is_given,
    debians_python_reads_its_own_module,
    a_socket_is_of_the_internets_kinds_and_only_with_network, memory_is_limited, standard_error_is_not_the_servers, descriptors_are_not_inherited,
    words_that_ask_for_nothing_are_refused,
    a_dialog_that_takes_too_long_is_ended, what_a_service_started_ends_with_its_dialog, a_confined_service_ends_with_the_server, the_kits_examples_run_confined,
    the_site_of_the_examples_is_served, the_guestbook_of_the_examples_is_served, the_first_service_of_the_page_is_served,
    the_pages_line_of_bubblewrap_confines,
    guestbook('the_confined_svc_guest_passes_the_guestbooks_checks', lambda: f'{os.getcwd()}/okws-run {svc_guest()}'),
]
