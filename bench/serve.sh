#!/bin/sh
# Times okws beside a bare loop in C, as bench/serve.py says: the whole table in some four minutes.
#   bench/serve.sh [OKWS [ROUNDS [MS [CASE]]]]      at the top of the repository, after make bin and make services
# svc_guest stands beside the program, or in the crate whose program it is.
set -eu
okws=${1:-bin/okws}
[ $# -eq 0 ] || shift
services=$(dirname "$okws")
[ -x "$services/svc_guest" ] || services=crates/svc_guest/out
exec "$(dirname "$0")/serve.py" "$okws" "$services" "$@"
