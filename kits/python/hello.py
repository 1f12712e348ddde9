#!/usr/bin/python3
"""Greets whom the query string names, and lists who signed: GET /hello?name=ann."""
import okws

MAIN = 0
ENTRIES = 1

def page(site, request):
    name = request.query.get('name', 'world')
    try:
        entries = site.call(MAIN, ENTRIES)
    except okws.Denied as denied:
        return okws.Reply(f'{denied}\n', 403, 'text/plain; charset=utf-8')
    print('a stray line does no harm')
    lines = [f'hello {name}', *(f'{number} {who}' for number, who in entries)]
    return okws.Reply('\n'.join(lines) + '\n', type='text/plain; charset=utf-8')

okws.serve(page)
