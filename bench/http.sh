#!/bin/sh
# Times read_request and respond on a browser's GET and a form's POST, beside the parser of heads alone on the
# same bytes, and the reading of long heads in pieces of all their bytes to single ones, in a copy of the
# repository: the program is proved, built by LLVM and run. Each figure is the fastest of five rounds. Run it at
# the top of the repository.
set -eu
below='okws_base okws_plan okws_outer plain_text http_text http_front'
copy=$(mktemp -d)
trap 'rm -rf "$copy"' EXIT
cp HANDLES "$copy"
bench="$copy/crates/http_bench"
mkdir -p "$bench/src" "$bench/specs"
for crate in $below; do
    cp -R "crates/$crate" "$copy/crates"
    grep "^$crate:" crates.txt >> "$copy/crates.txt"
done
echo "http_bench: $below http httparse" >> "$copy/crates.txt"
cp bench/http.rt.txt "$bench/src/main.rt"
: > "$bench/specs/Lib.antt"
cd "$bench"
rt run
