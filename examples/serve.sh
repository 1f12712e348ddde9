#!/usr/bin/env bash
# Serves the guestbook of examples/guestbook.okws with the page of examples/page.html, by the programs that `make okws-run bin services` left in bin.
#   examples/serve.sh PORT [COUNT]     COUNT is the number of connections after which the server ends; without it it serves until a signal comes
# The page is published on the server's console; the lines that come on standard input go there too. The server's process is this one's.
# A client has a minute for its request; the spare connections that a browser keeps open hold up nobody.
set -euo pipefail
cd "$(dirname "$0")/../bin"
page=../examples/page.html
echo "http://127.0.0.1:$1/guest"
connections=(--always)
[ $# -lt 2 ] || connections=(--serve "$2")
exec 3<&0
exec ./okws serve ../examples/guestbook.okws --port "$1" --doors 8 --patience 60 "${connections[@]}" --log guestbook.log \
    < <(echo "publish page $(wc -c <"$page")"; cat "$page" - <&3)
