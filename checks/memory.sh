#!/usr/bin/env bash
# Has each allocation of a few runs of the built program fail in turn, by a library of its own that a C compiler makes in a temporary folder.
#   checks/memory.sh [PROGRAM]
# A run then ends with status 11, and has printed a front of what it prints else and `no memory` behind that; or with the status that it has
# else, where a call of a service was answered by the frame of want of memory, 0b, or where so many allocations weren't made.
# A server's clients are answered as they are else, or with 507, or with 503 where its service wasn't launched; or it ends with status 11.
# Loopback only, on ports that the system gives. The last line is 'N passed, M failed'.
set -uo pipefail
okws=$(realpath "${1:-crates/okws_program/out/okws_program}")
cd "$(dirname "$0")/.."
folder=$(mktemp -d)
trap 'rm -rf "$folder"' EXIT
cat >"$folder/failing.c" <<'C'
#include <errno.h>
#include <fcntl.h>
#include <stdlib.h>
#include <unistd.h>
static long count, at = -1;
static int fails(void) {
    if (at == -1) at = getenv("FAIL_AT") ? atol(getenv("FAIL_AT")) : 0;
    if (++count != at) return 0;
    if (getenv("FAILED")) close(creat(getenv("FAILED"), 0600));
    return 1;
}
extern void *__libc_malloc(size_t), *__libc_calloc(size_t, size_t), *__libc_realloc(void *, size_t), *__libc_memalign(size_t, size_t);
void *malloc(size_t n) { return fails() ? (errno = ENOMEM, NULL) : __libc_malloc(n); }
void *calloc(size_t n, size_t m) { return fails() ? (errno = ENOMEM, NULL) : __libc_calloc(n, m); }
void *realloc(void *p, size_t n) { return fails() ? (errno = ENOMEM, NULL) : __libc_realloc(p, n); }
void *aligned_alloc(size_t a, size_t n) { return fails() ? (errno = ENOMEM, NULL) : __libc_memalign(a, n); }
int posix_memalign(void **p, size_t a, size_t n) { return fails() || !(*p = __libc_memalign(a, n)) ? ENOMEM : 0; }
C
cc -shared -fPIC -o "$folder/failing.so" "$folder/failing.c" || exit 2
printf 'okws 1\nservice g w\n' >"$folder/site"
printf 'bogus\n' >"$folder/script"
passed=0
failed=0

each() {
    local wanted usual status printed at
    wanted=$("$okws" "$@")
    usual=$?
    for at in $(seq 1 400); do
        printed=$(FAIL_AT=$at LD_PRELOAD="$folder/failing.so" "$okws" "$@")
        status=$?
        if [ "$status" = 11 ] && [ "$(tail -n 1 <<<"$printed")" = "no memory" ] && [[ $wanted$'\n' == "${printed%no memory}"* ]]; then
            passed=$((passed + 1))
        elif [ "$status" = "$usual" ] && { [ "$printed" = "$wanted" ] || grep -q '^heard .* 000000010b$' <<<"$printed"; }; then
            passed=$((passed + 1))
        else
            failed=$((failed + 1))
            echo "$1, allocation $at: status $status, last line: $(tail -n 1 <<<"$printed" | head -c 100)"
        fi
    done
}

each play "$folder/site" "$folder/script"
each play examples/site.okws examples/one_dialog.script
each check examples/site.okws

# A server whose clients ask as the standard has it and as it hasn't, one after the other, until a run comes to no such allocation.
serves() {
    python3 - "$okws" "$folder" <<'P'
import os, select, socket, subprocess, sys, time

OKWS, FOLDER = sys.argv[1:3]
REPLY = ''.join(f'\\{byte:03o}' for byte in bytes.fromhex('000000154500c80a746578742f706c61696e00000000026f6b'))
with open(f'{FOLDER}/says', 'w') as f:
    f.write(f"#!/bin/sh\nprintf '{REPLY}'\nexec cat >/dev/null\n")
os.chmod(f'{FOLDER}/says', 0o755)
with open(f'{FOLDER}/served', 'w') as f:
    f.write(f'okws 1\nservice guest {FOLDER}/says\nuri /guest guest\n')
ASKED = [
    (b'HEAD /guest HTTP/1.0\r\n\r\n', b'200 OK'),
    (b'GET /guest HTTP/1.1\r\nHost: a\r\nHost: b\r\n\r\n', b'400 Bad Request'),
    (b'PUT /guest HTTP/1.1\r\nHost: a\r\n\r\n', b'501 Not Implemented'),
    (b'POST /guest HTTP/1.1\r\nHost: a\r\nContent-Length: 262145\r\n\r\n', b'413 Content Too Large'),
    (b'POST /guest HTTP/1.1\r\nHost: a\r\nContent-Length: 3\r\n\r\nab', b'400 Bad Request'),
    (b'', b'400 Bad Request'),
]

def ask(process, port, request):
    """What is answered, or nothing once the server has ended."""
    for _ in range(3000):
        try:
            with socket.create_connection(('127.0.0.1', port), 30) as s:
                s.sendall(request)
                s.shutdown(socket.SHUT_WR)
                if not select.select([s], [], [], 3)[0] and process.stdin:
                    # (a door without a thread of its own is served once the console has ended)
                    process.stdin.close()
                    process.stdin = None
                answer = b''
                while piece := s.recv(65536):
                    answer += piece
                return answer
        except OSError:
            if process.poll() is not None:
                return b''
            time.sleep(0.01)
    raise SystemExit('the server opened no door')

def run(at):
    """Whether a run in which this allocation fails goes as it may, and whether it came to that."""
    with socket.socket() as s:
        s.bind(('127.0.0.1', 0))
        port = s.getsockname()[1]
    failed = f'{FOLDER}/failed'
    if os.path.exists(failed):
        os.remove(failed)
    words = [OKWS, 'serve', f'{FOLDER}/served', '--port', str(port), '--doors', '1', '--serve', str(len(ASKED))]
    environment = {**os.environ, 'FAIL_AT': str(at), 'FAILED': failed, 'LD_PRELOAD': f'{FOLDER}/failing.so'}
    process = subprocess.Popen(words, stdin=subprocess.PIPE, stdout=subprocess.PIPE, stderr=subprocess.DEVNULL, env=environment)
    told = [ask(process, port, request) for request, _ in ASKED]
    printed, _ = process.communicate(timeout=60)
    starved = process.returncode == 11 and printed.endswith(b'no memory\n')
    for (request, status), answer in zip(ASKED, told):
        may = [status, b'507 Insufficient Storage'] + [b'503 Service Unavailable'] * request.startswith(b'HEAD')
        if not (starved or any(answer.startswith(b'HTTP/1.1 ' + it + b'\r\n') for it in may)):
            print(f'serve, allocation {at}: status {process.returncode}, {request!r} was answered {answer!r}', file=sys.stderr)
            return False, True
    if not starved and process.returncode != 0:
        print(f'serve, allocation {at}: status {process.returncode}', file=sys.stderr)
        return False, True
    return True, os.path.exists(failed)

passed = lost = 0
for at in range(1, 20000):
    good, more = run(at)
    passed, lost = passed + good, lost + (not good)
    if not more:
        break
print(passed, lost)
P
}
read -r good lost < <(serves)
passed=$((passed + good)) failed=$((failed + lost))
echo "$passed passed, $failed failed"
[ "$failed" -eq 0 ]
