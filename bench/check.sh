#!/bin/sh
# Times `okws check` on lawful configurations of 1, 2 and 4 MB: rows of a table with a KEY column, queries,
# a grant of each, and owned paths. The program's path is the first argument.
set -eu

if [ $# -ne 1 ]; then
    echo "usage: bench/check.sh PROGRAM" >&2
    exit 2
fi
program=$1
folder=$(mktemp -d)
trap 'rm -rf "$folder"' EXIT

# A site with so many rows, and queries, grants and paths in proportion; 10,000 rows give the most queries.
site() {
    awk -v rows="$1" 'BEGIN {
        proxies = 16
        queries = int(rows * 256 / 10000)
        text = "a note that makes the rows as long as those of a real site are: "
        while (length(text) < 310)
            text = text "and on it goes, "
        print "okws 1"
        for (p = 0; p < proxies; p++) {
            printf "proxy p%d\n", p
            printf "table p%d notes id INT KEY who TEXT note TEXT\n", p
        }
        for (s = 0; s < 4; s++)
            printf "service s%d ./service\n", s
        for (i = 0; i < rows; i++)
            printf "row p0 notes %d %cname %d%c %c%s%c\n", i, 39, i, 39, 39, text, 39
        for (p = 0; p < proxies; p++)
            for (q = 0; q < queries; q++)
                printf "query p%d %d SELECT id, who, note FROM notes WHERE id = ?1 ORDER BY id LIMIT %d\n", p, q, q
        for (p = 0; p < proxies; p++)
            for (q = 0; q < queries; q++)
                printf "grant s%d p%d %d\n", q % 4, p, q
        for (i = 0; i < rows / 10; i++)
            printf "uri /of/%d s%d\n", i, i % 4
    }'
}

for rows in 2500 5000 10000; do
    file=$folder/$rows.okws
    site $rows >"$file"
    begun=$(date +%s%N)
    "$program" check "$file" >"$folder/answer" || {
        echo "$program refuses the file of $rows rows: $(head -n 1 "$folder/answer")" >&2
        exit 1
    }
    ended=$(date +%s%N)
    echo "$(wc -c <"$file") bytes, $rows rows, $(grep -c '^query' "$file") queries: $(((ended - begun) / 1000000)) ms"
done
