#!/usr/bin/env bash
# Has a browser without a window open the page of the served guestbook, sign it by the page's own form, and see the entry.
#   checks/browser.sh PROGRAM [FOLDER [CHROMIUM]]     FOLDER has svc_guest, or the crates; CHROMIUM is the browser, chromium without it
# It is steered over two pipes. Loopback only, on a port that the system gives. Every process that is started is ended, by its id.
set -uo pipefail
: "${1:?where is the program, as bin/okws?}"
program=$(realpath "$1")
examples=$(realpath "$(dirname "$0")/../examples")
services=$(realpath "${2:-$(dirname "$0")/../crates}")
browser=${3:-chromium}
folder=$(mktemp -d)
trap 'rm -rf "$folder"' EXIT
cp "$services/svc_guest" "$folder/" 2>/dev/null || cp "$services/svc_guest/out/svc_guest" "$folder/" || exit 1
cc -O2 -o "$folder/okws-run" "$examples"/../tools/okws-run/*.c || exit 1
cd "$folder" || exit 1
python3 - "$program" "$examples" "$browser" <<'P'
import json, os, socket, subprocess, sys, threading

PROGRAM, EXAMPLES, BROWSER = sys.argv[1:]
FLAGS = ['--headless', '--no-sandbox', '--disable-gpu', '--disable-dev-shm-usage', '--no-first-run', '--user-data-dir=profile', '--remote-debugging-pipe']

def a_port():
    with socket.socket() as s:
        s.bind(('127.0.0.1', 0))
        return s.getsockname()[1]

class Browser:
    """A browser with one page, which is told commands over descriptor 3 and answers over descriptor 4."""
    def __init__(self):
        inward, self.commands = os.pipe()
        answers, outward = os.pipe()
        words = ['sh', '-c', f'exec "$0" "$@" 3<&{inward} 4>&{outward}', BROWSER, *FLAGS]
        self.process = subprocess.Popen(words, pass_fds=(inward, outward), stdin=subprocess.DEVNULL, stdout=subprocess.DEVNULL, stderr=subprocess.DEVNULL)
        os.close(inward)
        os.close(outward)
        self.answers = os.fdopen(answers, 'rb')
        self.rest, self.number, self.session = b'', 0, None
        target = self.ask('Target.createTarget', url='about:blank')['targetId']
        self.session = self.ask('Target.attachToTarget', targetId=target, flatten=True)['sessionId']
        self.ask('Page.enable')

    def next(self):
        """The next answer or event."""
        while b'\0' not in self.rest:
            piece = self.answers.read1(65536)
            if not piece:
                raise AssertionError('the browser has ended')
            self.rest += piece
        message, self.rest = self.rest.split(b'\0', 1)
        return json.loads(message)

    def ask(self, method, **params):
        self.number += 1
        message = {'id': self.number, 'method': method, 'params': params}
        if self.session:
            message['sessionId'] = self.session
        os.write(self.commands, json.dumps(message).encode() + b'\0')
        self.loaded = False
        while (found := self.next()).get('id') != self.number:
            self.loaded = self.loaded or found.get('method') == 'Page.loadEventFired'
        return found['result']

    def loads(self, method, **params):
        """Waits, after this command, until a page has come."""
        self.ask(method, **params)
        while not self.loaded:
            self.loaded = self.next().get('method') == 'Page.loadEventFired'

    def text(self, expression):
        return self.ask('Runtime.evaluate', expression=expression, returnByValue=True)['result']['value']

def look(address):
    browser = Browser()
    try:
        browser.loads('Page.navigate', url=address)
        same(browser.text('document.title'), 'Guestbook')
        same(browser.text('document.querySelector("pre").textContent'), '1 ann\n2 bob\n')
        fields = {'id': '3', 'who': '<b>cy</b>', 'note': 'hello'}
        fill = ''.join(f'document.querySelector("[name={name}]").value = {json.dumps(value)};' for name, value in fields.items())
        browser.loads('Runtime.evaluate', expression=fill + 'document.querySelector("button").click()')
        same(browser.text('document.location.href'), address)
        same(browser.text('document.querySelector("pre").textContent'), '1 ann\n2 bob\n3 <b>cy</b>\n')
    finally:
        browser.process.kill()
        browser.process.wait()

def same(found, wanted):
    if found != wanted:
        raise AssertionError(f'found {found!r}, wanted {wanted!r}')

port = a_port()
with open(f'{EXAMPLES}/page.html', 'rb') as f:
    page = f.read()
server = subprocess.Popen([PROGRAM, 'serve', f'{EXAMPLES}/guestbook.okws', '--port', str(port), '--doors', '8', '--serve', '1000'],
                          stdin=subprocess.PIPE, stdout=subprocess.PIPE)
limit = threading.Timer(120, server.kill)
limit.start()
failed = 0
try:
    server.stdin.write(b'publish page %d\n%s' % (len(page), page))
    server.stdin.flush()
    same(server.stdout.readline(), b'published 1\n')
    look(f'http://127.0.0.1:{port}/guest')
except (AssertionError, OSError, KeyError) as why:
    failed = 1
    print(f'the guestbook in a browser: {why}')
limit.cancel()
server.kill()
server.wait()
print(f'{1 - failed} passed, {failed} failed')
sys.exit(failed)
P
