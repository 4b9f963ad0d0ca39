#!/usr/bin/env bash
# How fast a client folds: fold_bench takes a snapshot of 1,000,000 rows of three cells, in pages of about 64 KiB, beside `LC_ALL=C sort` on the rows' lines in
# the same run; and then 100,000 pages of one update each, on 1,000,000 rows and on 1,000. The numbers of rows are far from in order. Fails where the snapshot
# takes more than 8 times as long as the sort, where an update on the many rows takes more than 1.5 times as long as one on the few, or where the rows that the
# client has after a snapshot are others. Wants 300 MB of disk and 2 GB of memory.
set -u
cd "$(dirname "$0")/.." || exit 1
. bench/timing.sh
needs rt sort awk

[ -x crates/fold_bench/out/fold_bench ] || (cd crates/fold_bench && rt run -- rows 1 < stdin > /dev/null 2>&1) || { echo "fold.sh: fold_bench does not run"; exit 1; }
program=crates/fold_bench/out/fold_bench
many=1000000
few=1000
updates=100000
runs=2

# taking ROWS UPDATES: the seconds to take the pages of a snapshot of so many rows, and of so many updates behind it
taking() {
    "$program" pages "$1" "$2" > "$folder/pages" || return 1
    seconds "$runs" "$folder/pages" "$program" take || return 1
    [ "$(cat "$answer")" = "pages $((($1 + 499) / 500 + $2))" ] || { echo "fold.sh: taking gives $(cat "$answer")" >&2; return 1; }
}

"$program" rows "$many" > "$folder/rows" || exit 1
sorting=$(LC_ALL=C seconds "$runs" "$folder/rows" sort) || exit 1
cp "$answer" "$folder/sorted"
snapshot=$(taking "$many" 0) || exit 1
"$program" fold < "$folder/pages" | LC_ALL=C sort | cmp -s - "$folder/sorted" || { echo "fold.sh: the client has other rows" >&2; exit 1; }
then_many=$(taking "$many" "$updates") || exit 1
alone_few=$(taking "$few" 0) || exit 1
then_few=$(taking "$few" "$updates") || exit 1
awk -v sorting="$sorting" -v snapshot="$snapshot" -v then_many="$then_many" -v alone_few="$alone_few" -v then_few="$then_few" -v updates="$updates" 'BEGIN {
    many = then_many - snapshot
    few = then_few - alone_few
    printf "sort %.2f s; a snapshot %.2f s, %.1f times\n", sorting, snapshot, snapshot / sorting
    printf "an update on few rows %.1f us; on many %.1f us, %.2f times\n", few / updates * 1e6, many / updates * 1e6, many / few
    exit snapshot > 8 * sorting || many > 1.5 * few
}'
