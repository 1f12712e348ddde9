#!/bin/sh
# Times statements over the keeper with indexes at 1,000, 10,000 and 100,000 rows, beside the library's ordered
# map in the same run, in a copy of the repository: the program is proved, built by LLVM and run. Run it at the
# top of the repository.
set -eu
below='okws_base okws_plan okws_outer plain_text query_syntax statement_core config_syntax config_reader row_index row_search index_keeper'
copy=$(mktemp -d)
trap 'rm -rf "$copy"' EXIT
cp HANDLES "$copy"
bench="$copy/crates/rows_bench"
mkdir -p "$bench/src" "$bench/specs" "$bench/proofs/call_many"
for crate in $below; do
    cp -R "crates/$crate" "$copy/crates"
    grep "^$crate:" crates.txt >> "$copy/crates.txt"
done
echo "rows_bench: $below hex" >> "$copy/crates.txt"
cp bench/rows.rt.txt "$bench/src/main.rt"
echo 'pub mod Keys' > "$bench/specs/Lib.antt"
cat > "$bench/specs/Keys.antt" <<'END'
use Rattle.std.specs.Cmp.{IsTotalOrder, on_total}
use Rattle.std.specs.declared.cmp.Ordering.{Ordering}
use Rattle.okws_base.specs.Value.{value_cmp}
use Rattle.row_index.specs.Order.{values_total}
use Rattle.rows_bench.specs.declared.Key.{Key}

abbrev pub key_cmp : Key → Key → Ordering
key_cmp a b = value_cmp a.value b.value

pub keys_total : IsTotalOrder key_cmp
keys_total = on_total (λ (k : Key). k.value) values_total
END
: > "$bench/proofs/Lib.antt"
cat > "$bench/proofs/call_many/Invariants.antt" <<'END'
use Rattle.std.proofs.Common.{◌≡◌}
use Rattle.rows_bench.proofs.call_many.Given as goal

abbrev pub invariant-loop-i : goal.invariant-loop-i
invariant-loop-i l = l.keeper.tables.items ≡ l.initial.keeper.tables.items
END
cd "$bench"
rt run
