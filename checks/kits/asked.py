"""A service for the checks, over the kit for Python: it does what the last part of the path names, and says what came of it."""
import os, subprocess, sys
from concurrent.futures import ThreadPoolExecutor
sys.path.insert(0, sys.argv[1])
import okws

print('a stray line before the first frame', flush=True)

def shown(site, request):
    pairs = {'query a': request.query.all('a'), 'form a': request.form.all('a'), 'cookie c': request.cookies.all('c'), 'field x-a': request.fields.all('X-A')}
    lines = [f'{request.method} {request.path}', *(f'{name}: {"|".join(values)}' for name, values in pairs.items())]
    return '\n'.join(lines) + f'\ncontent {len(request.content)}\n'

def stray(site, request):
    print('a stray line')
    os.write(1, b'another one\n')
    subprocess.run(['echo', 'one of a child'])
    return f'{len(sys.stdin.read())} bytes on standard input\n'

def kept(site, request):
    number = int(request.query['id'])
    site.call(0, 2, number, request.query['who'], '')
    site.call(1, 1, number, b'\0\xff\n')
    return f'{site.call(0, 4, number)} {site.call(1, 2, number)} {site.call(0, 3, number)}\n'

def called_elsewhere(site, request):
    """What a call of another thread raises."""
    with ThreadPoolExecutor() as others:
        return f'{others.submit(site.log, "elsewhere").exception()}\n'

def thrown(site, request):
    raise LookupError('a fault of the page')

ASKED = {
    'show': shown,
    'stray': stray,
    'keep': kept,
    'throw': thrown,
    'elsewhere': called_elsewhere,
    'escape': lambda site, request: okws.escape(request.query['a']),
    'fill': lambda site, request: okws.fill(request.query['a'], {'a': '<b>', 'x-1._': 7}),
    'denied': lambda site, request: str(site.call(0, 9)),
    'no-token': lambda site, request: str(site.call(2, 1)),
    'arguments': lambda site, request: str(site.call(0, 1, 7)),
    'duplicate': lambda site, request: str(site.call(0, 2, 1, 'ann', '')),
    'large-call': lambda site, request: str(site.call(0, 2, 7, 'a' * 1048576, '')),
    'no-text': lambda site, request: str(site.call(0, 2, 7, '\ud800', '')),
    'template': lambda site, request: site.template('page'),
    'secret': lambda site, request: site.template('secret'),
    'log': lambda site, request: str(site.log('a line\nand ä')),
    'long-log': lambda site, request: str(site.log('a' * 1025)),
    'largest': lambda site, request: okws.Reply('a' * 1048557, type='text/plain'),
    'large': lambda site, request: okws.Reply('a' * 1048558, type='text/plain'),
    'status': lambda site, request: okws.Reply('', 418),
    'type': lambda site, request: okws.Reply('', type='text/plain\r\nX-A: b'),
    'location': lambda site, request: okws.Reply('', 303, 'text/plain', '/a b\r\nX-A: \xe4%20'),
    'nothing': lambda site, request: None,
}

def page(site, request):
    try:
        answer = ASKED[request.path.rpartition('/')[2]](site, request)
    except okws.Denied as denied:
        answer = f'Denied {denied.rule}\n'
    except okws.Duplicate:
        answer = 'Duplicate\n'
    return okws.Reply(answer, type='text/plain') if isinstance(answer, str) else answer

okws.serve(page)
