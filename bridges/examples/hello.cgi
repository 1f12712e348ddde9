#!/bin/sh
# A CGI program as anybody has it.
printf 'Content-Type: text/plain\n\n'
echo "hello $QUERY_STRING, by $REQUEST_METHOD at $SCRIPT_NAME and below it at $PATH_INFO"
[ "$CONTENT_LENGTH" = 0 ] || cat
