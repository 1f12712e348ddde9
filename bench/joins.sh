#!/bin/sh
# Times joins of two tables of 1,000, 10,000 and 100,000 rows each by the KEY of the second over the keeper with indexes, in a copy of
# the repository, beside C's SQLite in memory, in one run: all pairs, which are as many as the rows, and the one pair of one row.
#   bench/joins.sh   at the top of the repository; needs cc and C's SQLite with its header. It proves the program first, with the crates below it
set -eu
below='okws_base okws_plan okws_outer plain_text query_syntax statement_core config_syntax config_reader row_index row_search index_keeper'
copy=$(mktemp -d)
trap 'rm -rf "$copy"' EXIT
cc -O2 -o "$copy/c" bench/joins.c -lsqlite3
cp HANDLES "$copy"
bench="$copy/crates/joins_bench"
mkdir -p "$bench/src" "$bench/proofs/fill"
for crate in $below; do
    cp -R "crates/$crate" "$copy/crates"
    grep "^$crate:" crates.txt >> "$copy/crates.txt"
done
echo "joins_bench: $below hex" >> "$copy/crates.txt"
cp bench/joins.rt.txt "$bench/src/main.rt"
: > "$bench/proofs/Lib.antt"
cat > "$bench/proofs/fill/Invariants.antt" <<'END'
use Rattle.std.proofs.Common.{◌≡◌}
use Rattle.joins_bench.proofs.fill.Given as goal

abbrev pub invariant-loop-row : goal.invariant-loop-row
invariant-loop-row l = l.keeper.tables.items ≡ l.initial.keeper.tables.items
END
mkdir -p "$bench/proofs/time_rows"
cat > "$bench/proofs/time_rows/Invariants.antt" <<'END'
use Rattle.std.proofs.Common.{◌≡◌}
use Rattle.joins_bench.proofs.time_rows.Given as goal

abbrev pub invariant-loop : goal.invariant-loop
invariant-loop g l = l.keeper.tables.items ≡ l.initial.keeper.tables.items
END
{
    (cd "$bench" && rt run </dev/null)
    "$copy/c"
} | awk '
    $1 == "okws" || $1 == "SQLite" { all[$1 $2] = $3; one[$1 $2] = $4 }
    END {
        for (rows = 1000; rows <= 100000; rows *= 10) {
            a = "okws" rows; b = "SQLite" rows
            printf "all pairs of %6d and %6d rows: %9d us, SQLite %9d us: %.2f times; a pair %5d ns, SQLite %5d ns\n", rows, rows, all[a] / 1000, all[b] / 1000, all[a] / all[b], all[a] / rows, all[b] / rows
            printf "the one pair of one of %6d rows: %9d ns, SQLite %9d ns: %.2f times\n", rows, one[a], one[b], one[a] / one[b]
        }
    }'
