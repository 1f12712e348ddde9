#!/usr/bin/env bash
# Runs the kits, the bridges and okws-run with the real program, over real sockets.
#   checks/kits.sh OKWS [CHECK]
# With CHECK that one alone. Needs cc and Debian's python3; what needs node, flask, haproxy or bubblewrap is skipped, and named, where that isn't there.
# Loopback only, on ports that the system gives. Every process that is started is ended, by its id. The last line is 'N passed, N failed', and
# behind it ', N skipped' where some were.
set -uo pipefail
: "${1:?where is the program, as bin/okws?}"
program=$(realpath "$1")
only=${2:-}
top=$(realpath "$(dirname "$0")/..")
folder=$(mktemp -d)
trap 'rm -rf "$folder"' EXIT
cd "$folder" || exit 1
strict=(-std=c99 -O2 -Wall -Wextra -Werror -pedantic "-I$top/kits/c")
cc "${strict[@]}" -o hello "$top/kits/c/hello.c" || exit 1
# A fault of the kit's in memory ends the service, where the compiler has what finds it.
cc "${strict[@]}" -g -fsanitize=address,undefined -fno-sanitize-recover=all -o asked "$top/checks/kits/asked.c" 2>/dev/null ||
    cc "${strict[@]}" -o asked "$top/checks/kits/asked.c" || exit 1
run=$top/tools/okws-run
cc -O1 -Wall -Wextra -Werror -c "$run"/*.c && cc -o okws-run ./*.o && rm files.o || exit 1
for version in 0 1 2 4; do # as a kernel without Landlock, or with an older one, has it
    cc -O1 -DLANDLOCK_KNOWN=$version -o okws-run-$version "$run/files.c" ./*.o || exit 1
done
export PYTHONDONTWRITEBYTECODE=1
/usr/bin/python3 "$top/checks/kits/run.py" "$program" "$only"
