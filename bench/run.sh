#!/bin/sh
# Accepted batches of one call a second over a file, beside the same rows written by the machine's SQLite.
#
#   bench/run.sh [BATCHES [ROUNDS [FOLDER]]]
#
# SQLite's program is in C (sqlite_rows.c; it needs `cc` and Debian's libsqlite3-dev), and runs with pages of 4,096 bytes, which SQLite
# makes by itself, and of 1,024, which `moo` makes. The three take turns, each on a new file in FOLDER. Prints the median of each, and the
# ratios.
here=$(cd "$(dirname "$0")/.." && pwd) || exit 1
batches=${1:-2000}
rounds=${2:-5}
folder=$(mktemp -d "${3:-${TMPDIR:-/tmp}}/moo-bench.XXXXXX") || exit 1
trap 'rm -rf "$folder"' EXIT
program=$here/crates/moo/out/moo
"$here/.ci/program" || exit 1
cc -O2 -o "$folder/sqlite_rows" "$here/bench/sqlite_rows.c" -lsqlite3 || exit 1

# the figure in front of 'a second'
rate() {
    sed -n 's/.*, \([0-9]*\) a second$/\1/p' "$1"
}

# a round of SQLite with pages of so many bytes
theirs() {
    rm -f "$folder/theirs.db" "$folder/theirs.db-wal"
    "$folder/sqlite_rows" batches "$folder/theirs.db" "$1" "$batches" 2>"$folder/theirs.err" || exit 1
    rate "$folder/theirs.err" >>"$folder/theirs.$1.rates"
}

round=0
while [ "$round" -lt "$rounds" ]; do
    python3 "$here/bench/moo_rate.py" "$program" "$batches" "$folder" 2>"$folder/ours.err" || exit 1
    rate "$folder/ours.err" >>"$folder/ours.rates"
    theirs 4096
    theirs 1024
    round=$((round + 1))
done

median() {
    sort -n "$1" | sed -n "$(((rounds + 1) / 2))p"
}

ours=$(median "$folder/ours.rates")
echo "moo: $ours batches a second (of $(sort -n "$folder/ours.rates" | tr '\n' ' '))"
for page in 4096 1024; do
    rates=$folder/theirs.$page.rates
    echo "SQLite, pages of $page bytes: $(median "$rates") transactions a second (of $(sort -n "$rates" | tr '\n' ' '))"
    awk -v ours="$ours" -v theirs="$(median "$rates")" 'BEGIN { printf "ratio: %.2f\n", ours / theirs }'
done
