#!/usr/bin/env bash
# Times `okws play` on scripts of growing length: the path of the program is the argument.
#   bench/play.sh bin/okws
# Prints, a line each, what is played, its size in bytes, seconds of processor time, and the greatest
# size of the program in memory in kB.
set -euo pipefail
okws=$(realpath "$1")
cd "$(dirname "$0")/.."
folder=$(mktemp -d)
trap 'rm -rf "$folder"' EXIT

measure() {
    local name=$1 script=$2 site=${3:-examples/site.okws}
    python3 - "$okws" "$name" "$script" "$site" <<'PY'
import os, sys
okws, name, script, site = sys.argv[1:]
nowhere = (os.POSIX_SPAWN_OPEN, 1, "/dev/null", os.O_WRONLY, 0)
pid = os.posix_spawn(okws, [okws, "play", site, script], {}, file_actions=[nowhere])
_, status, used = os.wait4(pid, 0)
size = os.path.getsize(script)
seconds = used.ru_utime + used.ru_stime
print(f"{name}: {size} bytes, {seconds:.3f} s, {used.ru_maxrss} kB, status {os.waitstatus_to_exitcode(status)}")
PY
}

open=000000174100000000000000000001ade0b876903df1a0e56a5d40
call=0000000a42000000000000000100
reply=000000154500c80a746578742f706c61696e00000000026f6b

measure "one dialog" examples/one_dialog.script

# Calls of a granted SELECT, all in dialogs of at most 4,000 frames.
for calls in 1000 4000 16000; do
    awk -v calls="$calls" -v open="$open" -v call="$call" -v reply="$reply" 'BEGIN {
        print "launch guest"
        for (i = 0; i < calls; i++) {
            if (i % 2000 == 0) {
                print "accept GET /guest"
                print "dialog " i / 2000
                if (i == 0) print "bytes guest " open
            }
            print "bytes guest " call
            if (i % 2000 == 1999 || i == calls - 1) print "bytes guest " reply
        }
    }' >"$folder/calls"
    measure "$calls calls" "$folder/calls"
done

# Scripts of so many mebibytes: requests with forms of 200 bytes and short requests, which are answered at once, and bytes
# that wait on a link. A request stands in okd's journal, in the run's own list and among the requests.
for size in 1 4 16; do
    awk -v most=$((size * 1048576)) 'BEGIN {
        line = "accept GET /guest/a/path/that/is/owned/by/a/service/which/is/not/up"
        for (n = 0; n + length(line) + 1 <= most; n += length(line) + 1) print line
    }' >"$folder/accepts"
    measure "$size MiB of short requests" "$folder/accepts"
    awk -v most=$((size * 1048576)) 'BEGIN {
        line = "accept POST /guest "
        for (i = 0; i < 100; i++) line = line "6e6f"
        for (n = 0; n + length(line) + 1 <= most; n += length(line) + 1) print line
    }' >"$folder/forms"
    measure "$size MiB of forms" "$folder/forms"
    awk -v most=$((size * 1048576)) 'BEGIN {
        print "launch guest"
        line = "bytes guest 0000000a420000000000000001000000000a42000000000000000100"
        for (n = 13; n + length(line) + 1 <= most; n += length(line) + 1) print line
    }' >"$folder/bytes"
    measure "$size MiB of bytes" "$folder/bytes"
done

# A script of 2.1 MB whose 100 calls hear a megabyte each, all in one dialog and each in one of its own.
for dialogs in 1 100; do
    awk -v dialogs="$dialogs" -v reply="$reply" 'BEGIN {
        print "launch guest\naccept GET /guest\ndialog 0"
        print "bytes guest 000000174100000000000000000001ade0b876903df1a0e56a5d40"
        blob = "61"
        while (length(blob) < 2 * 524280) blob = blob blob
        blob = substr(blob, 1, 2 * 524280)
        for (i = 0; i < 2; i++) printf "bytes guest %08x4200000000000000010103%08x%s\n", 524280 + 15, 524280, blob
        for (i = 0; i < 100; i++) {
            if (dialogs > 1 && i > 0) print "bytes guest " reply "\naccept GET /guest\ndialog " i
            print "bytes guest 0000000a42000000000000000200"
        }
        print "bytes guest " reply
    }' >"$folder/loud"
    measure "$dialogs dialogs that hear 100 MB" "$folder/loud" checks/blobs.okws
done
