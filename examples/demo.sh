#!/usr/bin/env bash
# Serves the guestbook for three requests, shows what they are answered, and ends with what the server printed.
#   examples/demo.sh PORT
set -euo pipefail
cd "$(dirname "$0")"
exec 3< <(exec ./serve.sh "$1" 3 </dev/null)
server=$!
trap 'kill $server 2>/dev/null || true' EXIT
ask() { curl --silent --show-error --max-time 10 "$@" "$address"; }
read -r address <&3
read -r published <&3 || published="the server has not begun"
[ "$published" = "published 1" ] || { echo "$published"; exit 1; }
echo "$address"
echo "$published"
ask
ask --include --data 'id=3&who=cy&note=hello'
ask
cat <&3
wait $server
trap - EXIT
