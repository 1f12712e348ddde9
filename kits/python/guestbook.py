#!/usr/bin/python3
"""The guestbook: what svc_guest does (docs/SERVICES.md), in Python."""
import re
import okws

MAIN = 0
ENTRIES, SIGN = 1, 2

def number_of(text):
    """The number of 64 bits with a sign that a text writes, or None."""
    number = int(text) if re.fullmatch('-?[0-9]{1,19}', text) else None
    return number if number is not None and -2 ** 63 <= number < 2 ** 63 else None

def signed(site, form):
    if not {'id', 'who', 'note'} <= set(form) or number_of(form['id']) is None:
        return okws.Reply('bad form\n', 400, 'text/plain')
    number = number_of(form['id'])
    try:
        site.call(MAIN, SIGN, number, form['who'], form['note'])
    except okws.Duplicate:
        return okws.Reply('taken\n', 409, 'text/plain')
    site.log(f'post {number}')
    return okws.Reply('', 303, 'text/plain', '/guest')

def shown(site):
    rows = ''.join(f'{number} {who}\n' for number, who in site.call(MAIN, ENTRIES))
    if 'page' not in site.templates:
        return okws.Reply(rows, type='text/plain')
    return okws.Reply(okws.fill(site.templates['page'], {'rows': rows}), type='text/html')

def page(site, request):
    try:
        return signed(site, request.form) if request.method == 'POST' else shown(site)
    except (okws.Unanswered, ValueError):
        return okws.Reply('refused\n', 500, 'text/plain')

okws.serve(page)
