"""What okws-cgi and okws-wsgi share: the variables that a request gives a program (RFC 3875), and the reply that its answer becomes. A reply has a status out
of eight, a type, a location and the content. What else a program answers is dropped, or passes through a front (docs/KITS.md)."""
import os, sys
from urllib.parse import unquote_to_bytes, urlsplit
sys.path.insert(1, os.path.join(os.path.dirname(os.path.realpath(__file__)), '..', 'kits', 'python'))
import okws

# A reply can't say that a client's copy is still good, nor be a part of a document, so no program is asked for that. `Proxy` would be HTTP_PROXY.
NOT_PASSED = {'content-type', 'content-length', 'proxy', 'range', 'if-range', 'if-match', 'if-none-match', 'if-modified-since', 'if-unmodified-since',
              'x-http-method-override'}
NEAREST = {204: 200, 205: 200, 206: 200, 301: 303, 302: 303, 307: 303, 308: 303, 401: 403, 410: 404}

def options(words, *known):
    """The options in front of some words, by name, and the words behind them. Of the known ones those that end in `=` have a value."""
    given = {}
    while words and words[0].startswith('--'):
        name = words.pop(0)
        if name == '--help':
            print(sys.modules['__main__'].__doc__)
            sys.exit()
        if name + '=' in known and words:
            given[name] = words.pop(0)
        elif name in known:
            given[name] = True
        else:
            sys.exit(f'{os.path.basename(sys.argv[0])}: no such option: {name}')
    return given, words

def host_of(request, scheme):
    try:
        parts = urlsplit('//' + request.fields.get('host', 'localhost'))
        return parts.hostname or 'localhost', str(parts.port or (443 if scheme == 'https' else 80))
    except ValueError:
        return 'localhost', '80'

def fields_of(request, not_passed):
    """The fields of a request as variables. A name with `_` would be another's, and isn't passed."""
    found = {}
    for name, value in request.fields.list:
        if name not in not_passed and '_' not in name:
            key = 'HTTP_' + name.upper().replace('-', '_')
            found[key] = found[key] + ('; ' if name == 'cookie' else ', ') + value if key in found else value
    return found

def scheme_of(request, has_front):
    told = request.fields.get('x-forwarded-proto', 'http') if has_front else 'http'
    return told if told in ('http', 'https') else 'http'

def variables(request, mount, has_front, not_passed=frozenset()):
    """The variables of a request to a program below the path `mount`; text as Latin-1. What a front tells of its client counts only where there is one."""
    told = request.fields if has_front else {}
    scheme = scheme_of(request, has_front)
    name, port = host_of(request, scheme)
    below = request.raw_path[len(mount):] if (request.raw_path + '/').startswith(mount + '/') else request.raw_path
    return {
        **fields_of(request, NOT_PASSED | not_passed),
        'REQUEST_METHOD': told.get('x-http-method-override', request.method) if request.method == 'POST' else request.method,
        'SCRIPT_NAME': mount,
        'PATH_INFO': unquote_to_bytes(below).decode('latin-1'),
        'QUERY_STRING': request.raw_query,
        'SERVER_NAME': name,
        'SERVER_PORT': port,
        'SERVER_PROTOCOL': request.version,
        'SERVER_SOFTWARE': 'okws',
        'REMOTE_ADDR': told.get('x-forwarded-for', '127.0.0.1').split(',')[-1].strip(),
        'CONTENT_LENGTH': str(len(request.content)),
        'CONTENT_TYPE': request.fields.get('content-type', ''),
    }

def nearest(status):
    """The status of a reply that says best what this one says."""
    if status in okws.STATUSES:
        return status
    return NEAREST.get(status, 200 if 200 <= status < 300 else 400 if 400 <= status < 500 else 500)

def carried(kind, status, fields):
    """The content type with what a reply has no place for as its parameters: the status, Cache-Control and, last, a cookie. What doesn't fit any more is told
    on standard error, and dropped."""
    wanted = [('okws-status', str(status))] if status not in okws.STATUSES else []
    wanted += [('okws-cache', value) for name, value in fields if name.lower() == 'cache-control'][:1]
    cookies = [value for name, value in fields if name.lower() == 'set-cookie']
    for name, value in wanted + [('okws-cookie', value) for value in cookies]:
        longer = f'{kind}; {name}={value}'
        if len(longer) > 255 or '; okws-cookie=' in kind:
            print(f'{os.path.basename(sys.argv[0])}: dropped {name}={value}', file=sys.stderr)
        else:
            kind = longer
    return kind

def reply(status, fields, content, has_front, kind):
    """The reply for what a program answered; where it told no type, of this one."""
    told = {name.lower(): value for name, value in reversed(fields)}
    kind = told.get('content-type', kind)
    return okws.Reply(content, nearest(status), carried(kind, status, fields) if has_front else kind, told.get('location', ''))
