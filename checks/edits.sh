#!/usr/bin/env bash
# Tries wrong bodies that each crate's proofs must refuse, beside the few in its must-fail/ that the gate tries: those of
# checks/edits/CRATE, over what `rt check` proved of the crate.
#   checks/edits.sh [CRATE ..]     those of these crates; without a name those of all
# Run it where a crate changed. While a crate is tried its must-fail/ holds these edits; it is put back however the run ends.
# The last line is 'N crates passed, M failed'.
set -uo pipefail
cd "$(dirname "$0")/.."
[ $# -gt 0 ] || set -- $(ls checks/edits)
passed=0
failed=0
crate=
back() {
    [ -z "$crate" ] || { rm -rf "crates/$crate/must-fail" && mv "crates/$crate/out/must-fail.kept" "crates/$crate/must-fail"; }
    crate=
}
trap back EXIT
for name in "$@"; do
    [ -d "checks/edits/$name" ] || { echo "$name has no edits in checks/edits"; continue; }
    mkdir -p "crates/$name/out" "crates/$name/must-fail"
    mv "crates/$name/must-fail" "crates/$name/out/must-fail.kept"
    crate=$name
    cp -r "checks/edits/$name" "crates/$name/must-fail"
    if rt must-fail "$name"; then passed=$((passed + 1)); else failed=$((failed + 1)); fi
    back
done
echo "$passed crates passed, $failed failed"
[ "$failed" -eq 0 ]
