"""A service that tries what one that an attacker took over may try on the machine, beside its frames. Its words: the kit's folder, and the file of a
proxy's rows. It answers a line for each attempt: what it tried, and `yes` or the fault."""
import os, signal, socket, subprocess, sys
sys.path.insert(0, sys.argv[1])
import okws

SERVER = os.getppid()
ROWS = os.path.abspath(sys.argv[2])

def siblings():
    """The server's other children, found by their parent's number."""
    found = []
    for pid in filter(str.isdigit, os.listdir('/proc')):
        with open(f'/proc/{pid}/stat') as f:
            parent = int(f.read().rsplit(')', 1)[1].split()[1])
        if parent == SERVER and int(pid) != os.getpid():
            found.append(int(pid))
    return sorted(found)

def read(path):
    with open(path, 'rb') as f:
        return f.read(64)

def memory():
    with open(f'/proc/{SERVER}/maps') as f:
        start = int(f.readline().split('-')[0], 16)
    with open(f'/proc/{SERVER}/mem', 'rb') as f:
        f.seek(start)
        return f.read(4)

def pipes(request):
    return [os.readlink(f'/proc/{request.query["sibling"]}/fd/{fd}') for fd in (0, 1)]

def planted():
    with open('planted', 'w') as f:
        f.write('x')

def listening():
    with socket.socket() as s:
        s.bind(('127.0.0.1', 0))

def limited():
    import resource
    resource.prlimit(SERVER, resource.RLIMIT_CORE, resource.prlimit(SERVER, resource.RLIMIT_CORE))

# The sibling is named by the request, so that a service which can't look around still tries to reach it.
ATTEMPTS = {
    'read the rows of every proxy': lambda site, request: read(ROWS),
    'read the environment of the server': lambda site, request: read(f'/proc/{SERVER}/environ'),
    'read the memory of the server': lambda site, request: memory(),
    'look at the pipes of another service': lambda site, request: pipes(request),
    'list the services of the server': lambda site, request: siblings(),
    'read the accounts of the machine': lambda site, request: read('/etc/passwd'),
    'write a file where the server runs': lambda site, request: planted(),
    'open a socket': lambda site, request: listening(),
    'start another process': lambda site, request: subprocess.run(['/usr/bin/id', '-u'], stdout=subprocess.DEVNULL, check=True),
    'signal the server': lambda site, request: os.kill(SERVER, 0),
    'limit what the server may use': lambda site, request: limited(),
    'lower the priority of the server': lambda site, request: os.setpriority(os.PRIO_PROCESS, SERVER, os.getpriority(os.PRIO_PROCESS, SERVER)),
    'change the mode of the rows': lambda site, request: os.chmod(ROWS, 0o600),
    'kill another service': lambda site, request: os.kill(int(request.query['sibling']), signal.SIGKILL),
    'call a query that is not granted': lambda site, request: site.call(0, 2, 5, 'x', 'y'),
}

def page(site, request):
    if 'only' not in request.query:
        return '\n'.join(ATTEMPTS)
    attempt = request.query['only']
    try:
        ATTEMPTS[attempt](site, request)
        return 'yes'
    except Exception as fault:
        return f'no: {type(fault).__name__} {fault}'

okws.serve(page)
