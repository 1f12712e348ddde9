#!/usr/bin/env bash
# Times `okws drill 7 EVENTS` at growing numbers of events: the path of the program is the argument.
#   bench/drill.sh bin/okws
# Prints, a line each, the number of events, seconds of processor time, and the greatest size of the program in memory in kB; and
# at the last one whether a second run prints the same.
set -euo pipefail
okws=$(realpath "$1")
folder=$(mktemp -d)
trap 'rm -rf "$folder"' EXIT

measure() {
    python3 - "$okws" "$1" "$2" <<'PY'
import os, sys
okws, events, out = sys.argv[1:]
there = (os.POSIX_SPAWN_OPEN, 1, out, os.O_WRONLY | os.O_CREAT | os.O_TRUNC, 0o600)
pid = os.posix_spawn(okws, [okws, "drill", "7", events], {}, file_actions=[there])
_, status, used = os.wait4(pid, 0)
seconds = used.ru_utime + used.ru_stime
print(f"{events} events: {seconds:.3f} s, {used.ru_maxrss} kB, status {os.waitstatus_to_exitcode(status)}")
PY
}

for events in 0 1000 10000 100000; do
    measure $events "$folder/first"
done
measure 100000 "$folder/second"
cmp "$folder/first" "$folder/second" && echo "the same"
