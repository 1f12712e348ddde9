#!/bin/sh
# Times the database that the kit has, alone, beside C's SQLite with the same statements and settings, in turn, in one run: an INSERT, a
# SELECT, an UPDATE and a DELETE by the key, prepared once, at 1,000 and 10,000 rows, each call a transaction of its own and all calls
# of one. It is what bench/store.sh compares without a keeper. The files stand in memory, where a sync is nothing, unless a folder is told.
#   bench/sqlite.sh [PROGRAM [FOLDER [PAGE]]]   at the top of the repository; with a program that was built of bench/sqlite.rt.txt, this one
# Needs cc and C's SQLite with its header, and where the size of a page is told sqlite3 too, which makes both files then.
# Each side has four rounds (ROUNDS=N: so many), and a statement's least time is told; with COUNT=1, its instructions by valgrind instead.
set -eu
copy=$(mktemp -d)
rows=$(mktemp -d -p "${2:-/dev/shm}")
trap 'rm -rf "$copy" "$rows"' EXIT
cc -O2 -o "$copy/c" bench/sqlite.c -lsqlite3
program=${1:-}
if [ -z "$program" ]; then
    bench="$copy/crates/sqlite_bench"
    mkdir -p "$bench/src" "$bench/proofs"
    echo 'sqlite_bench: sqlite' > "$copy/crates.txt"
    cp HANDLES "$copy"
    cp bench/sqlite.rt.txt "$bench/src/main.rt"
    : > "$bench/proofs/Lib.antt"
    (cd "$bench" && rt run </dev/null >"$copy/log" 2>&1) || [ -x "$bench/out/sqlite_bench" ] || { tail "$copy/log"; exit 1; }
    program="$bench/out/sqlite_bench"
fi
fresh() {
    rm -f "$rows"/*
    [ -z "${1:-}" ] || sqlite3 "$rows/rows" "PRAGMA page_size = $1; CREATE TABLE t (id INTEGER PRIMARY KEY, v INTEGER NOT NULL)"
}
# A line for each statement: the side, the mode, how many rows, the place, the number.
timed() {
    for round in $(seq "${ROUNDS:-4}"); do
        fresh "$4"
        "$2" "$3" "$rows/rows" "$5" | awk -v s="$1 $3 $5" '{ print s, NR, $1 }'
    done
}
counted() {
    for many in 0 1 2 3 4; do
        fresh "$4"
        valgrind --tool=callgrind --callgrind-out-file=/dev/null "$2" "$3" "$rows/rows" "$5" "$many" 2>&1 >/dev/null | sed -n 's/.*Collected : //p'
    done | awk -v s="$1 $3 $5" -v rows="$5" 'NR > 1 { print s, NR - 1, int(($1 - last) / rows) } { last = $1 }'
}
for many in 1000 10000; do
    for mode in each one; do
        for side in kit C; do
            [ $side = kit ] && it=$program || it=$copy/c
            if [ -n "${COUNT:-}" ]; then counted $side "$it" $mode "${3:-}" $many; else timed $side "$it" $mode "${3:-}" $many; fi
        done
    done
done | awk -v unit="$([ -n "${COUNT:-}" ] && echo instructions || echo ns)" '
    { k = $2 " " $3 " " $4 " " $1; if (!(k in least) || $5 < least[k]) least[k] = $5 }
    END {
        split("INSERT SELECT UPDATE DELETE", what, " ")
        split("each one", modes, " ")
        split("each a transaction,all in one transaction", how, ",")
        for (rows = 1000; rows <= 10000; rows *= 10) for (m = 1; m <= 2; m++) for (i = 1; i <= 4; i++) {
            k = modes[m] " " rows " " i " "
            kit = least[k "kit"]
            c = least[k "C"]
            printf "%s by the key, %5d rows, %s: %7d %s, C %7d: %.2f times\n", what[i], rows, how[m], kit, unit, c, kit / c
        }
    }'
