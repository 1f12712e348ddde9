"""A Flask application as anybody has it, with a form and a session; and with the site's rows, which it finds in environ['okws.site']."""
from flask import Flask, redirect, request, session

app = Flask(__name__)
app.secret_key = b'only for the example'
MAIN, ENTRIES, SIGN = 0, 1, 2

@app.get('/')
def entries():
    session['seen'] = session.get('seen', 0) + 1
    rows = request.environ['okws.site'].call(MAIN, ENTRIES)
    return f'<p>seen {session["seen"]} times<ul>' + ''.join(f'<li>{number} {who}' for number, who in rows) + '</ul>'

@app.post('/')
def sign():
    request.environ['okws.site'].call(MAIN, SIGN, int(request.form['id']), request.form['who'], '')
    return redirect(request.script_root + '/')
