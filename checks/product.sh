#!/usr/bin/env bash
# Tries what stands around the program: the kits for services with their bridges, the tools of a site's operator, and the guestbook's page in a browser.
#   checks/product.sh PROGRAM
# It needs Python 3.11; what else is tried where it is there, docs/OPERATE.md says. The last line is 'N passed, N failed, N skipped', of all. It fails too where one
# of the three doesn't come to its end, or has nothing passed and nothing skipped.
set -uo pipefail
: "${1:?where is the program, as bin/okws?}"
here=$(dirname "$0")
passed=0 failed=0 skipped=0

# The page in a browser, where there is one, with the svc_guest beside the program, in bin or in the crates.
browser() {
    command -v chromium >/dev/null || { printf 'the page in a browser is skipped: there is no chromium\n0 passed, 0 failed, 1 skipped\n'; return; }
    for folder in "$(dirname "$1")" "$here/../bin" "$here/../crates"; do
        [ ! -x "$folder/svc_guest" ] && [ ! -x "$folder/svc_guest/out/svc_guest" ] || { bash "$here/browser.sh" "$1" "$folder"; return; }
    done
    printf 'the page in a browser is skipped: there is no svc_guest\n0 passed, 0 failed, 1 skipped\n'
}

kits() { bash "$here/kits.sh" "$1"; }
tools() { bash "$here/tools.sh" "$1"; }

for check in kits tools browser; do
    last=""
    while IFS= read -r line; do
        [ -z "$last" ] || echo "$last"
        last=$line
    done < <($check "$1" 2>&1)
    if [[ $last =~ ^([0-9]+)\ passed,\ ([0-9]+)\ failed(,\ ([0-9]+)\ skipped)?$ ]] && [ $((BASH_REMATCH[1] + ${BASH_REMATCH[4]:-0})) -gt 0 ]; then
        passed=$((passed + BASH_REMATCH[1])) failed=$((failed + BASH_REMATCH[2])) skipped=$((skipped + ${BASH_REMATCH[4]:-0}))
    else
        echo "$last"
        echo "$check: it passed nothing, or didn't come to its end"
        failed=$((failed + 1))
    fi
done
echo "$passed passed, $failed failed, $skipped skipped"
[ "$failed" = 0 ]
