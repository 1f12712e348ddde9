#!/usr/bin/env bash
# Refuses a proof by hand anywhere but at the three functions that make a told list (`okws_base::told`).
# A told list has no bytes, so nothing but what those three say ties it to what happened: a proof by hand
# of any other function that holds one, directly or in a journal or a column, could give it any list.
set -euo pipefail
cd "$(dirname "$0")/.."
walks=crates/okws_base/proofs/told/Told
allowed="$walks/and/Proof.antt $walks/new/Proof.antt $walks/with_room/Proof.antt"
bad=0
while IFS= read -r file; do
    case " $allowed " in
        *" $file "*) ;;
        *) echo "a proof by hand: $file"; bad=1 ;;
    esac
done < <(find crates -path '*/out' -prune -o -name Proof.antt -print | sort)
# The list's literal stands in its own module alone.
while IFS= read -r file; do
    echo "names a told list: $file"
    bad=1
done < <(grep -rlE --include='*.antt' --exclude-dir=out 'okws_base\.specs\.(contracts|declared)\.told\.Told' crates | grep -v "^$walks/" || true)
[ "$bad" = 0 ] && echo "proofs by hand: the three of okws_base::told"
exit "$bad"
