#!/usr/bin/env bash
# Runs the built program on worked scripts and compares its status and what it prints: the rows byte by byte, of others
# a line or a count.
#   checks/run.sh [PROGRAM [ROW]]      ROW: only the rows whose name begins so, and nothing else
# A row's files are named ROW-SITE-STATUS. The last line is 'N passed, M failed'.
set -uo pipefail
okws=$(realpath "${1:-crates/okws_program/out/okws_program}")
cd "$(dirname "$0")"
folder=$(mktemp -d)
trap 'rm -rf "$folder"' EXIT
passed=0
failed=0

# told NAME STATUS WANTED: compares the last run's status and its last line, or all of it.
told() {
    if [ "$2" = "$status" ] && cmp -s "$folder/printed" "$3"; then
        passed=$((passed + 1))
    else
        failed=$((failed + 1))
        echo "$1: status $status, printed:"
        head -c 400 "$folder/printed"
    fi
}

run() {
    "$okws" "$@" >"$folder/printed"
    status=$?
}

last() {
    tail -n 1 "$folder/printed" >"$folder/last" && mv "$folder/last" "$folder/printed"
    printf '%s\n' "$1" >"$folder/wanted"
}

# called LINE: keeps the last seven lines that were printed, and wants this one, a blank one, and how the program is called.
called() {
    tail -n 7 "$folder/printed" >"$folder/last" && mv "$folder/last" "$folder/printed"
    cat >"$folder/wanted" <<ROWS
$1

okws check CONFIG
okws play CONFIG SCRIPT
okws drill SEED EVENTS
okws serve CONFIG --port PORT (--serve COUNT | --always) [--doors DOORS] [--patience SECONDS] [--store FILE] [--log FILE]
okws --version
ROWS
}

only=${2:-}
for script in rows/"$only"*.script; do
    row=$(basename "$script" .script)
    site=${row#*-}
    run play "${site%-*}.okws" "$script"
    told "$row" "${row##*-}" "rows/$row.stdout"
done

if [ -n "$only" ]; then
    echo "$passed passed, $failed failed"
    [ "$failed" -eq 0 ]
    exit
fi

# What guest hears doesn't change where its neighbours are launched again, open sessions, call and publish what it may not read; it does where another
# service inserts a row that guest's queries list. The rows' files are those that were just compared with what the program prints.
heard_by_guest() { grep '^heard guest ' "rows/$1.stdout"; }
if diff -q <(heard_by_guest a_world-whole-0) <(heard_by_guest a_world_with_busy_neighbours-whole-0) >/dev/null &&
    ! diff -q <(heard_by_guest a_world-whole-0) <(heard_by_guest a_world_with_another_writer-third-0) >/dev/null; then
    passed=$((passed + 1))
else
    failed=$((failed + 1))
    echo "worlds that look alike: guest hears other bytes"
fi

# Each rule of a script at a line of its own.
while IFS='|' read -r line rule script; do
    printf "$script" >"$folder/script"
    run play whole.okws "$folder/script"
    last "refused: script line $line rule $rule"
    told "rule $rule at line $line" 9 "$folder/wanted"
done <<'ROWS'
1|1|launch\n
2|1|launch guest\nlaunch guest guest\n
3|1|# a comment\n\nbytes guest 0\n
1|2|launch nobody\n
2|2|begin guest\ninstall guest nowhere\n
1|2|publish nothing 00\n
1|3|install guest main\n
1|3|boot guest\n
2|4|launch guest\ninstall guest main\n
2|4|launch guest\nboot guest\n
2|4|launch guest\nup guest\n
1|5|dialog 0\n
2|5|accept GET /guest\ndialog 0\n
4|5|launch guest\naccept GET /guest\ndialog 0\ndialog 0\n
5|6|launch guest\naccept GET /guest\naccept GET /guest\ndialog 0\ndialog 1\n
1|7|up guest\n
1|7|bytes guest 00\n
1|7|end guest\n
3|7|launch guest\nend guest\nbytes guest 00\n
3|7|launch guest\nend guest\nend guest\n
5|7|launch guest\naccept GET /guest\ndialog 0\nend guest\nup guest\n
ROWS
awk 'BEGIN { for (i = 0; i <= 1000000; i++) print "begin guest" }' >"$folder/script"
run play whole.okws "$folder/script"
last "refused: script line 1000001 rule 8"
told "all incarnations spent" 9 "$folder/wanted"
awk 'BEGIN { printf "publish page "; for (i = 0; i < 262145; i++) printf "61"; print "" }' >"$folder/script"
run play whole.okws "$folder/script"
last "refused: script line 1 rule 9"
told "an edition that is too long" 9 "$folder/wanted"
head -c 16777217 /dev/zero | tr '\0' '#' >"$folder/script"
run play whole.okws "$folder/script"
last "refused: script line 0 rule 9"
told "a script that is too long" 9 "$folder/wanted"
head -c 16777216 "$folder/script" >"$folder/longest"
run play whole.okws "$folder/longest"
told "the longest script" 0 /dev/null

# Two rows of bytes that just fit a frame, and a byte more.
for second in 524280 524281; do
    awk -v second=$second 'function line(n,   i) {
        printf "bytes guest %08x4200000000000000010103%08x", n + 15, n
        for (i = 0; i < n; i++) printf "7a"
        print ""
    } BEGIN {
        print "launch guest\naccept GET /guest\ndialog 0"
        print "bytes guest 000000174100000000000000000001ade0b876903df1a0e56a5d40"
        line(524280)
        line(second)
        print "bytes guest 0000000a42000000000000000200"
    }' >"$folder/script"
    run play blobs.okws "$folder/script"
    tail -n 1 "$folder/printed" | cut -c 1-24 >"$folder/front"
    size=$(tail -n 1 "$folder/printed" | wc -c)
    echo "$(cat "$folder/front") $size" >"$folder/printed"
    if [ $second = 524280 ]; then echo "heard guest 1 0010000005 $((14 + 2 * 1048580 + 1))"; else echo "heard guest 1 0000000209 27"; fi >"$folder/wanted"
    told "rows of 524280 and $second bytes" 0 "$folder/wanted"
done

# 4,095 and 4,096 frames before a Reply.
for count in 4095 4096; do
    awk -v count=$count 'BEGIN {
        print "launch guest\naccept GET /guest\ndialog 0"
        for (i = 0; i < count; i++) print "bytes guest 0000000744000000026869"
        print "bytes guest 000000154500c80a746578742f706c61696e00000000026f6b"
    }' >"$folder/script"
    run play whole.okws "$folder/script"
    echo "$(grep -c '^heard guest 1 0000000108$' "$folder/printed") $(tail -n 1 "$folder/printed" | cut -c 1-21)" >"$folder/two"
    mv "$folder/two" "$folder/printed"
    if [ $count = 4095 ]; then echo "4095 answer 0 HTTP/1.1 200"; else echo "4096 answer 0 HTTP/1.1 502"; fi >"$folder/wanted"
    told "$count frames before a Reply" 0 "$folder/wanted"
done

# A service that is revoked at the publisher or the log, and one that has opened all its sessions.
denied() {
    last "heard guest 1 00000002$2"
    told "$1" 0 "$folder/wanted"
}
printf 'launch guest\naccept GET /guest\ndialog 0\n' >"$folder/opening"
{ cat "$folder/opening"; printf 'revoke guest pubd\nbytes guest 00000006430470616765\n'; } >"$folder/script"
run play whole.okws "$folder/script"
denied "a Get after a revocation" 0914
{ cat "$folder/opening"; printf 'revoke guest oklogd\nbytes guest 0000000744000000026869\n'; } >"$folder/script"
run play whole.okws "$folder/script"
denied "a Log after a revocation" 091e
awk 'BEGIN {
    print "launch guest"
    open = "bytes guest 000000174100000000000000000001ade0b876903df1a0e56a5d40"
    for (n = 0; n <= 65536; n++) {
        if (n % 4095 == 0) print "accept GET /guest\ndialog " n / 4095
        print open
        if (n % 4095 == 4094) print "bytes guest 000000154500c80a746578742f706c61696e00000000026f6b"
    }
}' >"$folder/script"
run play whole.okws "$folder/script"
denied "a session above the greatest number" 0911

# Drills: the summary of an empty one, and of one of five events.
kinds() {
    paste -d ' ' <(printf '%s\n' boots requests pushes opened rows changed duplicates templates logged failed nomemory) <(printf '%s\n' "$@") >"$folder/wanted"
}
kinds 2 0 0 0 0 0 0 0 0 0 0
for number in 0 18446744073709551615; do
    run drill $number 0
    told "drill $number 0" 0 "$folder/wanted"
done
kinds 2 3 2 2 0 1 0 0 0 0 0
echo "denied 22 1" >>"$folder/wanted"
run drill 0 5
told "drill 0 5" 0 "$folder/wanted"

# Listings, refusals, words, files and an out that fails.
run check whole.okws
told "listing" 0 listing.stdout
: >"$folder/empty"
run check "$folder/empty"
last "refused: config line 1 rule 1"
told "an empty configuration" 4 "$folder/wanted"
printf 'okws 1\nproxy main\ngrant guest main 1\n' >"$folder/site"
run check "$folder/site"
last "refused: config line 3 rule 11"
told "a service that isn't declared" 4 "$folder/wanted"
echo "read fault" >"$folder/wanted"
run play whole.okws "$folder/nowhere"
told "a script that isn't there" 3 "$folder/wanted"
run check "$folder/nowhere"
told "a configuration that isn't there" 3 "$folder/wanted"
for words in "" "play whole.okws" "check" "serve whole.okws" "--help" "Check whole.okws" "drill" "drill 0" "drill 0 0 0" "drill 0 100001" \
    "--version check whole.okws" "--always" "drill 18446744073709551616 0" "drill 00 0" "drill 0 05" "drill -1 0" "drill +1 0" "drill 0x1 0"; do
    # Words are parted on purpose.
    # shellcheck disable=SC2086
    run $words
    case "$words" in
        "" | --help) called "  -h, --help     Print help" ;;
        *) called "For more information, try '--help'." ;;
    esac
    told "the words '$words'" 2 "$folder/wanted"
done
echo "okws 0.1" >"$folder/wanted"
run --version
told "the version" 0 "$folder/wanted"
run play whole.okws $'\xff'
called "  -h, --help     Print help"
told "a word that isn't UTF-8" 2 "$folder/wanted"
: >"$folder/printed"
"$okws" check whole.okws >/dev/full
status=$?
told "a full device" 8 /dev/null
"$okws" play plain.okws rows/a_page_is_served-plain-0.script >/dev/full
status=$?
told "a full device in a script" 8 /dev/null
"$okws" drill 0 5 >/dev/full
status=$?
told "a full device in a drill" 8 /dev/null

echo "$passed passed, $failed failed"
[ "$failed" -eq 0 ]
