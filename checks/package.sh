#!/usr/bin/env bash
# Tries a Debian package as somebody does who has nothing else: in a fresh system of Debian's own packages a new user makes a site, starts it, and has its page.
#   checks/package.sh PACKAGE.deb [SYSTEM]     SYSTEM is a folder that mmdebstrap has filled, which is left as it was but for the package and the user
# It needs root and, without SYSTEM, mmdebstrap and a mirror of Debian, so it isn't in the gate. It prints how long each step took; the page has to be there
# within a minute of the package's coming, and Lintian, where it is there, must find no error in the package. Loopback only, on a port that the system gives.
set -euo pipefail
: "${1:?where is the package, as dist/okws_VERSION.deb?}"
package=$(realpath "$1")
if command -v lintian >/dev/null; then
    lintian --fail-on error "$package"
else
    echo "there is no lintian, so the package isn't looked at"
fi
if [ $# = 2 ]; then
    root=$(realpath "$2")
else
    root=$(mktemp -d)
    trap 'rm -rf "$root"' EXIT
    mmdebstrap --quiet --variant=minbase --include=python3 bookworm "$root"
    echo "a fresh system: $SECONDS s"
fi
begun=$SECONDS
cp "$package" "$root/tmp/okws.deb"
port=$(python3 -c 'import socket; s = socket.socket(); s.bind(("127.0.0.1", 0)); print(s.getsockname()[1])')

# What happens in there: the package comes, a new user makes a site and starts it, and asks for its page, signs, and asks again.
cat >"$root/tmp/try.sh" <<'S'
set -eu
dpkg --install /tmp/okws.deb >/dev/null
id ann >/dev/null 2>&1 || useradd --create-home ann
cat >/tmp/ask.py <<'P'
import sys, time, urllib.request
address = f'http://127.0.0.1:{sys.argv[1]}/'
for _ in range(300):
    try:
        page = urllib.request.urlopen(address).read().decode()
        break
    except OSError:
        time.sleep(0.1)
assert '<h1>Notes</h1>' in page and '<form' in page, page
page = urllib.request.urlopen(address, b'who=ann&note=hello').read().decode()
assert '<b>ann</b> hello' in page, page
P
su - ann -c "
    rm -rf mysite && okws-init mysite
    mysite/start $1 >events &
    site=\$!
    python3 /tmp/ask.py $1 && echo 'the page is there' || { cat events; exit 1; }
    cd mysite && okws-ctl status && okws-show site.okws | grep -A9 '^odd' || true
    okws-ctl stop && wait \$site
    ls rows.0 notes.log
"
S
unshare --mount --pid --fork --kill-child bash -c 'mount -t proc proc "$1/proc" && exec chroot "$1" /bin/sh /tmp/try.sh "$2"' try "$root" "$port"
took=$((SECONDS - begun))
echo "from the package to the page, a note and the end: $took s"
[ "$took" -le 60 ]
