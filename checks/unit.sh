#!/usr/bin/env bash
# Tries the unit okws@.service of a Debian package under a running systemd: in a container of Debian's own packages a site is started, asked, steered, killed,
# restarted, refused and stopped, its log is rotated, and its rows are copied and brought back.
#   checks/unit.sh PACKAGE.deb [SYSTEM]     SYSTEM is a folder that mmdebstrap has filled with systemd, systemd-sysv, python3 and logrotate; it is left as it was
# It needs root, systemd-nspawn and, without SYSTEM, mmdebstrap and a mirror of Debian, so it isn't in the gate. The container has a loopback interface alone.
set -euo pipefail
: "${1:?where is the package, as dist/okws_VERSION.deb?}"
package=$(realpath "$1")
work=$(mktemp -d)
trap 'rm -rf "$work"' EXIT
if [ $# = 2 ]; then
    root=$(realpath "$2")
else
    root=$work/system
    mmdebstrap --quiet --variant=minbase --include=systemd,systemd-sysv,python3,logrotate bookworm "$root"
fi
mkdir "$work/try"
cp "$package" "$work/try/okws.deb"

cat >"$work/try/ask.py" <<'P'
"""ask.py [CONTENT]: the page of the site; with CONTENT after a note was signed by it."""
import sys, urllib.request
print(urllib.request.urlopen('http://127.0.0.1:8080/', *[word.encode() for word in sys.argv[1:]], timeout=30).read().decode())
P

# What happens in there. The first command that fails ends it.
cat >"$work/try/try.sh" <<'S'
set -eux
trap 'journalctl --unit okws@shop --no-pager --output cat | tail -20' ERR
rows=/var/lib/okws/shop/rows page=/etc/okws/shop/templates/page.html
has() { grep -qF -- "$1"; }
asks() { python3 /try/ask.py "$@"; }
waits() { for _ in $(seq 300); do ! "$@" >/dev/null 2>&1 || return 0; sleep 0.1; done; return 1; }
main() { systemctl show --property MainPID --value okws@shop; }

dpkg --install /try/okws.deb
okws-init /tmp/mysite
mkdir -p /etc/okws
cp -r /tmp/mysite /etc/okws/shop
systemctl enable --now okws@shop
asks | has '<h1>Notes</h1>'
asks 'who=ann&note=hello' | has '<b>ann</b> hello'
okws-ctl --site shop status
systemctl show --property StatusText okws@shop | has 'run 1 serves'
pgrep -u root -x okws && exit 1    # it has a user of its own

: "Another page, and another configuration."
sed -i 's/<h1>Notes/<h1>Other notes/' $page
systemctl reload okws@shop
shows() { asks | has 'Other notes'; }
waits shows
okws-ctl --site shop reload | has 'reloaded: 0 published'
echo '# more' >>/etc/okws/shop/site.okws
! okws-ctl --site shop reload || exit 1
systemctl restart okws@shop
okws-ctl --site shop reload
asks | has '<b>ann</b> hello'
okws-ctl --site shop relaunch notes

: "The log, behind logrotate."
logrotate --force /etc/logrotate.d/okws
asks 'who=bob&note=after' >/dev/null
logged() { has 'a note of 5 letters' </var/log/okws/shop/services.log; }
waits logged
has 'a note of 5 letters' </var/log/okws/shop/services.log.1

: "What is killed begins again."
okws-backup $rows /root/copies
asks 'who=cy&note=gone' >/dev/null
pkill -KILL -P "$(main)" -x okws
kill -KILL "$(main)" 2>/dev/null || true
waits asks
asks | has '<b>cy</b> gone'

: "A copy comes back, and rows are taken over."
systemctl stop okws@shop
okws-backup --restore $rows /root/copies
systemctl start okws@shop
! asks | has '<b>cy</b> gone' || exit 1
systemctl stop okws@shop
mkdir /root/new
okws-migrate /etc/okws/shop/site.okws $rows /etc/okws/shop/site.okws /root/new/rows
okws-backup --restore $rows /root/new
systemctl start okws@shop
asks | has '<b>bob</b> after'

: "A refused configuration isn't tried again, and is told in words."
echo 'grant nobody main 1' >>/etc/okws/shop/site.okws
! systemctl restart okws@shop || exit 1
sleep 3
systemctl is-failed okws@shop
journalctl --unit okws@shop --output cat | has 'rule 11 Undeclared'
sed -i '$d' /etc/okws/shop/site.okws
systemctl restart okws@shop
asks >/dev/null

: "The end leaves nothing but the files."
systemctl stop okws@shop
! pgrep -x okws || exit 1
! ls /run/okws/shop || exit 1
systemd-analyze security --no-pager okws@shop | tail -1
echo whole >/try/told
S
cat >"$work/try/try.service" <<'U'
[Unit]
After=multi-user.target
[Service]
Type=oneshot
StandardOutput=file:/try/said
StandardError=inherit
ExecStart=/bin/bash /try/try.sh
ExecStopPost=/bin/systemctl --no-block poweroff
U

# Mounts of its own, with a fresh /run; what Landlock needs is not among the calls that systemd-nspawn leaves a container.
calls="landlock_create_ruleset landlock_add_rule landlock_restrict_self"
words=(--directory="$root" --volatile=overlay --boot --private-network --register=no --keep-unit --console=pipe --quiet "--system-call-filter=$calls"
    "--bind=$work/try:/try" "--bind-ro=$work/try/try.service:/etc/systemd/system/try.service")
timeout 600 unshare --mount sh -c 'mount -t tmpfs tmpfs /run && exec systemd-nspawn "$@"' try "${words[@]}" systemd.wants=try.service \
    </dev/null >"$work/console" 2>&1 || cat "$work/console"
[ "$(cat "$work/try/told" 2>/dev/null)" = whole ] || { cat "$work/try/said"; exit 1; }
tail -3 "$work/try/said"
echo "the unit was tried in $SECONDS s"
