#!/usr/bin/env bash
# Serves a million connections of two load tools without end (--always), and then a stop under load: what was begun is answered, by counts.
#   bench/load.sh [OKWS [CONNECTIONS [CLIENTS [DOORS]]]]      at the top of the repository, after make bin and make services; 1000000, 64 and 8
# First `ab` asks so many times, one request a connection, and each must be answered by 200 and the same length. The server's memory once all are
# answered is at most a twentieth more than after the first fifth of them. Then `wrk` asks without a pause, and behind three seconds the console is
# told `stop`: the server ends with 0 within three seconds more, its port is closed, and it has just as many requests that came to a service as the two
# tools had whole answers of 200. It has some connections more, on which a tool wrote nothing before it closed them. wrk begins one, to see whether its
# address can be reached (wrk.connect in its script.c). ab begins connections until it has written all of its requests, and writes nothing on those that
# are set up behind that (start_connect and write_request in its ab.c): fewer than the clients. How many of these there were, the console tells by
# `status` before wrk begins; so the number of all connections is known to the last one. The number that `stop` was answered by is that of the
# connections, and greater by no more than the doors. Clients who were still waiting for a door then had no answer, which wrk counts as errors of its
# sockets.
# Needs ab (apache2-utils), wrk and python3. Loopback only, on a port that the system gives. The last line is 'N passed, M failed'.
set -euo pipefail
okws=$(readlink -f "${1:-bin/okws}")
for tool in ab wrk; do
    command -v "$tool" >/dev/null || { echo "needs $tool"; exit 2; }
done
work=$(mktemp -d)
trap 'rm -rf "$work"' EXIT
cp examples/site.okws "$work"
for name in svc_guest svc_probe; do
    cp "$(dirname "$okws")/$name" "$work" 2>/dev/null || cp "crates/$name/out/$name" "$work"
done
python3 - "$work" "$okws" "${2:-1000000}" "${3:-64}" "${4:-8}" <<'END'
import re, socket, subprocess, sys, time
work, okws, many, clients, doors = sys.argv[1], sys.argv[2], int(sys.argv[3]), int(sys.argv[4]), int(sys.argv[5])
passed = failed = 0
LISTENS, WAITS = "0A", "06"      # of a listener, and of what has ended and keeps its number for a while


def holds(what, is_so):
    global passed, failed
    passed, failed = passed + bool(is_so), failed + (not is_so)
    print(f"{'passed' if is_so else 'FAILED'}: {what}", flush=True)


def number(pattern, text):
    """The number that stands in a tool's account, or 0 where it has no such line."""
    found = re.search(pattern, text)
    return int(found[1]) if found else 0


def resident():
    """Kilobytes of the server's own memory."""
    with open(f"/proc/{server.pid}/status") as told:
        return next(int(line.split()[1]) for line in told if line.startswith("VmRSS"))


def is_open():
    try:
        socket.create_connection(("127.0.0.1", port), 1).close()
        return True
    except OSError:
        return False


def states():
    """The states of the sockets at the port."""
    with open("/proc/net/tcp") as told:
        return {words[3] for words in map(str.split, told) if words[1] == "0100007F:%04X" % port}


def answer(line):
    """What the console answers."""
    server.stdin.write(line)
    server.stdin.flush()
    return server.stdout.readline().decode().strip()


def settled():
    """How many connections have ended and how many requests came to a service, once no client is connected and no more of either are counted."""
    before = None
    for _ in range(120):
        now = [int(word) for word in answer(b"status\n").split()[1:3]]
        if now == before and states() <= {LISTENS, WAITS}:
            break
        before = now
        time.sleep(0.5)
    return now


with socket.socket() as some:
    some.bind(("127.0.0.1", 0))
    port = some.getsockname()[1]
address = f"http://127.0.0.1:{port}/guest"
server = subprocess.Popen([okws, "serve", "site.okws", "--port", str(port), "--always", "--doors", str(doors)], cwd=work, stdin=subprocess.PIPE, stdout=subprocess.PIPE)
try:
    while LISTENS not in states():
        if server.poll() is not None:
            sys.exit("the server has ended")
        time.sleep(0.1)

    # So many connections, and the memory after each tenth of them.
    begun, sizes, account = time.monotonic(), [], []
    ab = subprocess.Popen(["ab", "-n", str(many), "-c", str(clients), address], stdout=subprocess.PIPE, stderr=subprocess.STDOUT, text=True)
    for line in ab.stdout:
        account.append(line)
        if line.startswith("Completed "):
            sizes.append(resident())
    ab.wait()
    account = "".join(account)
    took = time.monotonic() - begun
    print(f"{many} connections in {took:.0f} s, {many / took:.0f} a second; memory at each tenth of them, in kilobytes: {' '.join(map(str, sizes))}", flush=True)
    holds("each connection was answered", (ab.returncode, number(r"Complete requests:\s+(\d+)", account)) == (0, many))
    holds("each answer was 200, and as long as the first", number(r"Failed requests:\s+(\d+)", account) + number(r"Non-2xx responses:\s+(\d+)", account) == 0)
    holds("the memory is level", len(sizes) >= 10 and resident() <= sizes[1] * 1.05)

    ended, came = settled()
    silent = ended - many
    print(f"{ended} connections, {came} requests: ab wrote nothing on {silent} connections", flush=True)
    holds("each request came to a service", came == many)
    holds("ab begins fewer connections than it has clients on which it writes nothing", 0 <= silent < clients)

    # A stop under load.
    wrk = subprocess.Popen(["wrk", "-t", "2", "-c", str(clients), "-d", "10s", address], stdout=subprocess.PIPE, text=True)
    time.sleep(3)
    begun = time.monotonic()
    stopping = answer(b"stop\n")
    told = number(r"^stopping (\d+)$", stopping)
    rest, status = server.stdout.read().decode(), server.wait(60)
    took = time.monotonic() - begun
    holds("the port is closed", not is_open())
    account = wrk.communicate()[0]
    whole = many + number(r"(\d+) requests in", account) - number(r"Non-2xx or 3xx responses: (\d+)", account)
    connections, accepts = number(r"connections (\d+)", rest), number(r"accepts (\d+)", rest)
    print(f"the server ended behind {took:.2f} s, with {status}: {stopping}; connections {connections}, accepts {accepts}; whole answers {whole}")
    print(" ".join(account.split("\n")[-5:]))
    holds("the run ends with 0 within three seconds", (status, took < 3) == (0, True))
    holds("every request that came to a service was answered whole, and no other", accepts == whole)
    holds("the other connections are those on which ab wrote nothing, and the one of wrk", connections == whole + silent + 1)
    holds("the number that was told is that of the connections that were begun, with the doors that waited", connections <= told <= connections + doors)
finally:
    if server.poll() is None:
        server.kill()
        server.wait()
print(f"{passed} passed, {failed} failed")
sys.exit(failed != 0)
END
