#!/usr/bin/env bash
# Runs each example of docs/RULES.md on the built program, and compares the rule that is answered.
#   checks/rules.sh [PROGRAM]
# An example is a fenced block whose first line says what it is: `config LINE RULE` (with `long`: a comment of 65,537 bytes of words as its
# last line; with `bad`: a byte 127 there), `script LINE RULE`, or `denied RULE` (with `session`: after an Open). The last line is 'N passed, M failed'.
set -uo pipefail
okws=$(realpath "${1:-crates/okws_program/out/okws_program}")
cd "$(dirname "$0")"
folder=$(mktemp -d)
trap 'rm -rf "$folder"' EXIT
passed=0
failed=0

# wanted NAME STATUS LINE: the last line that was printed, and the status.
wanted() {
    if [ "$status" = "$2" ] && [ "$(tail -n 1 "$folder/printed")" = "$3" ]; then
        passed=$((passed + 1))
    else
        failed=$((failed + 1))
        echo "$1: status $status, last line: $(tail -n 1 "$folder/printed" | head -c 200)"
    fi
}

config() {
    case "${3:-}" in
    long) { printf 'log '; head -c 65533 /dev/zero | tr '\0' 'x'; echo; } >>"$folder/text" ;;
    bad) printf 'log \177\n' >>"$folder/text" ;;
    esac
    "$okws" check "$folder/text" >"$folder/printed"
    status=$?
    wanted "configuration rule $2" 4 "refused: config line $1 rule $2"
}

script() {
    "$okws" play whole.okws "$folder/text" >"$folder/printed"
    status=$?
    wanted "script rule $2" 9 "refused: script line $1 rule $2"
}

denied() {
    {
        printf 'launch guest\naccept GET /guest\ndialog 0\n'
        [ "${2:-}" = session ] && echo "bytes guest 000000174100000000000000000001ade0b876903df1a0e56a5d40"
        echo "bytes guest $(cat "$folder/text")"
    } >"$folder/script"
    "$okws" play whole.okws "$folder/script" >"$folder/printed"
    status=$?
    wanted "denial $1" 0 "heard guest 1 0000000209$1"
}

# Each block stands in a file of its own, whose first line is the fence's.
awk -v folder="$folder" '
    /^```[a-z]/ && !inside { inside = 1; file = sprintf("%s/block%03d", folder, ++count); print substr($0, 4) >file; next }
    /^```$/ && inside { inside = 0; close(file); next }
    inside { print >file }
' ../docs/RULES.md
for block in "$folder"/block*; do
    read -r kind rest <"$block"
    tail -n +2 "$block" >"$folder/text"
    # The rest is parted into words on purpose.
    # shellcheck disable=SC2086
    case "$kind" in config | script | denied) $kind $rest ;; esac
done
echo "$passed passed, $failed failed"
[ "$failed" -eq 0 ]
