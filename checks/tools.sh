#!/usr/bin/env bash
# Tries the tools of a site's operator with the real program, over real sockets.
#   checks/tools.sh PROGRAM [CHECK]     with CHECK that one alone
# Loopback only, on ports that the system gives. Every process that is started is ended, by its id. A check that wants a program which isn't there is skipped, by name.
# The last line is 'N passed, N failed, N skipped'.
set -uo pipefail
: "${1:?where is the program, as bin/okws?}"
exec env PYTHONDONTWRITEBYTECODE=1 python3 "$(dirname "$0")/tools/run.py" "$@"
