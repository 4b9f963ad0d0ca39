#!/usr/bin/env bash
# How fast bodies are written and read: MB/s of json_bench beside sha256sum on the same bytes, in the same run. The bodies have 1,000,000 entries of three
# cells, 540 a body (about 64 KiB), so that reading keeps the values of one page at a time. Fails where writing is less than 0.8 as fast as sha256sum, or
# reading less than 0.1; or where the counts are not those of the bodies. Skips where a tool is missing. Wants 160 MB of disk and little memory.
set -u
cd "$(dirname "$0")/.." || exit 1
. bench/timing.sh
needs rt sha256sum awk

[ -x crates/json_bench/out/json_bench ] || (cd crates/json_bench && rt run -- print 1 < stdin > /dev/null 2>&1) || { echo "json.sh: json_bench does not run"; exit 1; }
program=crates/json_bench/out/json_bench
count=1000000

"$program" print "$count" > "$folder/bodies" || exit 1
lines=$(wc -l < "$folder/bodies")
bytes=$(($(wc -c < "$folder/bodies") - lines))
echo "bodies $lines, entries $count, bytes $bytes" > "$folder/wanted"

hashing=$(seconds 3 "$folder/bodies" sha256sum) || exit 1
writing=$(seconds 3 /dev/null "$program" write "$count") || exit 1
cmp -s "$answer" "$folder/wanted" || { echo "json.sh: writing gives $(cat "$answer")" >&2; exit 1; }
reading=$(seconds 3 "$folder/bodies" "$program" read) || exit 1
cmp -s "$answer" "$folder/wanted" || { echo "json.sh: reading gives $(cat "$answer")" >&2; exit 1; }
cat "$folder/wanted"
awk -v bytes="$bytes" -v hash="$hashing" -v writing="$writing" -v reading="$reading" 'BEGIN {
    printf "sha256sum %.0f MB/s; writing %.0f MB/s, ratio %.2f; reading %.0f MB/s, ratio %.2f\n", bytes / hash / 1e6, bytes / writing / 1e6, hash / writing, bytes / reading / 1e6, hash / reading
    exit hash / writing < 0.8 || hash / reading < 0.1
}'
