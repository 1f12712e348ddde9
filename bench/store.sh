#!/bin/sh
# Times statements over the keeper with a database in a file, at 1,000, 10,000 and 100,000 rows, for keys that come in order
# and for keys that don't, beside the same statements over C's SQLite with the same settings, in turn, in one run: the program is proved in
# a copy of the repository, built by LLVM and run. Both sync each write, which is most of a write's time on a disk, so the files
# stand in memory, where a sync is nothing, unless a folder is told. In memory the keeper takes one to five times the time of C, and no
# more as the rows grow: nearly all of it is the kit's database, whose commit makes a keyed digest of each page that it writes or reads.
#   bench/store.sh [PROGRAM [FOLDER]]      at the top of the repository; with a program that was built of bench/store.rt.txt, this one
# Needs cc and C's SQLite with its header. Each side has two rounds (ROUNDS=N: so many), and a statement's least time is told.
set -eu
below='okws_base okws_plan okws_outer plain_text query_syntax statement_core config_syntax config_reader sqlite_keeper'
copy=$(mktemp -d)
rows=$(mktemp -d -p "${2:-/dev/shm}")
trap 'rm -rf "$copy" "$rows"' EXIT
cc -O2 -o "$copy/c_store" bench/store.c -lsqlite3
program=${1:-}
if [ -z "$program" ]; then
    cp HANDLES "$copy"
    bench="$copy/crates/store_bench"
    mkdir -p "$bench/src" "$bench/proofs/call_many"
    for crate in $below; do
        cp -R "crates/$crate" "$copy/crates"
        grep "^$crate:" crates.txt >> "$copy/crates.txt"
    done
    echo "store_bench: $below sqlite" >> "$copy/crates.txt"
    cp bench/store.rt.txt "$bench/src/main.rt"
    : > "$bench/proofs/Lib.antt"
    cat > "$bench/proofs/call_many/Invariants.antt" <<'END'
use Rattle.std.proofs.Common.{◌≡◌}
use Rattle.store_bench.proofs.call_many.Given as goal

abbrev pub invariant-loop-_i : goal.invariant-loop-_i
invariant-loop-_i g l = g.K.Keeper.tables l.keeper ≡ g.K.Keeper.tables l.initial.keeper
END
    (cd "$bench" && rt run </dev/null >"$copy/log" 2>&1) || [ -x "$bench/out/store_bench" ] || { tail "$copy/log"; exit 1; }
    program="$bench/out/store_bench"
fi
for round in $(seq "${ROUNDS:-2}"); do
    for order in in-order scattered; do
        rm -f "$rows"/rows*
        "$program" "$order" "$rows/rows" | sed 's/^/keeper /'
        rm -f "$rows"/rows*
        "$copy/c_store" "$order" "$rows/rows" | sed 's/^/C /'
    done
done | awk '
    { for (i = 4; i <= 7; i++) { k = $1 " " $2 " " $3 " " i; if (!(k in least) || $i < least[k]) least[k] = $i }; seen[$2 " " $3] = 1 }
    END {
        split("- - - SELECT INSERT UPDATE DELETE", what, " ")
        split("in-order scattered", orders, " ")
        split("1000 10000 100000", all, " ")
        for (o = 1; o <= 2; o++) for (r = 1; r <= 3; r++) for (i = 4; i <= 7; i++) {
            k = orders[o] " " all[r] " " i
            printf "%s by KEY, keys %s, %6d rows: %8d ns, C %8d ns: %.2f times\n", what[i], orders[o], all[r], least["keeper " k], least["C " k], least["keeper " k] / least["C " k]
        }
    }'
