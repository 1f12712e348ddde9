"""A WSGI application for the checks, which does what the path names below its mount."""
import json, sys

def answer(environ):
    """The status, the fields and the parts that a path asks for."""
    path = environ['PATH_INFO'].rpartition('/')[2]
    told = {name: environ.get(name, '') for name in ('REQUEST_METHOD', 'SCRIPT_NAME', 'PATH_INFO', 'QUERY_STRING', 'SERVER_NAME', 'SERVER_PORT', 'REMOTE_ADDR',
            'CONTENT_TYPE', 'HTTP_COOKIE', 'HTTP_X_A', 'HTTP_X_B', 'HTTP_PROXY', 'HTTP_RANGE', 'HTTP_X_HTTP_METHOD_OVERRIDE', 'wsgi.url_scheme')}
    told['content'] = environ['wsgi.input'].read().decode('latin-1')
    text = ('Content-Type', 'text/plain')
    return {
        'status': lambda: (environ['QUERY_STRING'] + ' Status', [text], [b'told\n']),
        'moved': lambda: ('302 Found', [text, ('Location', '/elsewhere?a=b'), ('Set-Cookie', 'a=b; Path=/')], [b'']),
        'cookie': lambda: ('200 OK', [text, ('Set-Cookie', 'a=b=c; Path=/; HttpOnly'), ('Cache-Control', 'no-store, private')], [b'told\n']),
        'cookies': lambda: ('200 OK', [text, ('Set-Cookie', 'a=' + 'b' * 300), ('Set-Cookie', 'c=d'), ('Set-Cookie', 'e=f')], [b'told\n']),
        'parts': lambda: ('201 Created', [text], iter([b'', b'one ', b'two\n'])),
        'untyped': lambda: ('200 OK', [], [b'told\n']),
        'large': lambda: ('200 OK', [text], [b'a' * 600000] * 2),
        'throw': lambda: 1 / 0,
    }.get(path, lambda: ('200 OK', [text], [json.dumps(told).encode()]))()

def application(environ, start_response):
    if environ['PATH_INFO'].endswith('/not-begun'):
        return [b'']
    status, fields, parts = answer(environ)
    write = start_response(status, fields)
    write(b'') if environ['PATH_INFO'].endswith('/parts') else None
    return parts

def made():
    return application
