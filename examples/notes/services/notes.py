"""Shows the newest notes in the page, and takes one from its form."""
import time
import okws

MAIN = 0
NEWEST, ADD = 1, 2


def page(site, request):
    if request.method == 'POST':
        who, note = request.form.get('who', ''), request.form.get('note', '')
        if not who or not note:
            return okws.Reply('a note has a name and a text\n', 400, 'text/plain')
        site.call(MAIN, ADD, -time.time_ns(), who, note)
        site.log(f'a note of {len(note)} letters')
        return okws.Reply('', 303, location='/')
    notes = ''.join(f'<p><b>{okws.escape(who)}</b> {okws.escape(note)}</p>\n' for who, note in site.call(MAIN, NEWEST))
    return okws.fill(site.template('page'), {'notes': notes})


okws.serve(page)
