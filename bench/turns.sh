#!/bin/sh
# Times taking and giving turns with 1, 2, 4 and 8 threads, beside the library's Mutex in the same run, in a
# copy of the repository, and then what a thread takes of the processor while it waits a second: the program is
# proved, built by LLVM and run. Run it at the top of the repository.
set -eu
below='okws_base turn_lock'
copy=$(mktemp -d)
trap 'rm -rf "$copy"' EXIT
cp HANDLES "$copy"
bench="$copy/crates/turns_bench"
mkdir -p "$bench/src" "$bench/specs" "$bench/proofs/race_turns" "$bench/proofs/wait_a_second" "$bench/proofs/by_turns"
for crate in $below; do
    cp -R "crates/$crate" "$copy/crates"
    grep "^$crate:" crates.txt >> "$copy/crates.txt"
done
echo "turns_bench: $below atomic_table anyhow" >> "$copy/crates.txt"
cp bench/turns.rt.txt "$bench/src/main.rt"
: > "$bench/specs/Lib.antt"
echo 'pub mod Each' > "$bench/proofs/Lib.antt"
cat > "$bench/proofs/Each.antt" <<'END'
-- Each of the new seats is free.
use Rattle.std.proofs.Common.{◌≡◌, ℕ, zero, suc, ◌<◌, List, [], ◌∷◌, length, get_or, false, sym, subst, arith}
use Rattle.atomic_table.specs.Seated.{TableId}
use Rattle.turn_lock.specs.Seats.{SeatIs, AreFresh}

pub each_free : {E : Type 0} (z : TableId) (label k : ℕ) (ys : List (SeatIs E)) → AreFresh z label k ys → (i : ℕ) (y : SeatIs E) → i < length ys → y ≡ get_or ys i y → (y.lock ≡ z) × (y.held ≡ false)
each_free z label k [] a i y l e = absurd (omega arith)
each_free z label k (x ∷ ys) a zero y l e = subst (λ (t : SeatIs _). (t.lock ≡ z) × (t.held ≡ false)) (sym e) (a.0.lock, a.0.free)
each_free z label k (x ∷ ys) a (suc i) y l e = each_free z label k ys a.1 i y (omega arith) e
END
cat > "$bench/proofs/race_turns/Answers.antt" <<'END'
use Rattle.turns_bench.proofs.Each.{each_free}
use Rattle.turns_bench.proofs.race_turns.Goals as goal

pub map_vec-done-requires-after_bounds : goal.map_vec-done-requires-after_bounds
map_vec-done-requires-after_bounds g c κs within = λ i x l e. each_free _ _ 0 c.in-Ok.seats.items c.in-Ok.ensures.ok.3 i x l e
END
sed 's/race_turns/wait_a_second/' "$bench/proofs/race_turns/Answers.antt" > "$bench/proofs/wait_a_second/Answers.antt"
cat > "$bench/proofs/by_turns/Invariants.antt" <<'END'
use Rattle.std.proofs.Common.{◌≡◌, false}
use Rattle.turns_bench.proofs.by_turns.Given as goal

abbrev pub invariant-loop : goal.invariant-loop
invariant-loop g l = (l.seat.lock ≡ l.fn.seat.lock) × (l.seat.held ≡ false)
END
cd "$bench"
rt run
