#!/usr/bin/env bash
# How fast heads of requests are read and routed: request_bench on 1,000,000 heads as browsers and curl send them (300 to 700 bytes), beside httparse alone on
# the same heads, in the same run; and how fast replies with a body of 64 KiB are written, beside sha256sum on as many bytes. Fails where reading and routing
# take more than 8 times as long as parsing, where writing is less than 0.8 as fast as sha256sum, or where the counts are not those of the heads and replies.
# Wants 135 MB of disk.
set -u
cd "$(dirname "$0")/.." || exit 1
. bench/timing.sh
needs rt sha256sum awk

[ -x crates/request_bench/out/request_bench ] || (cd crates/request_bench && rt run -- route 1000 < stdin > /dev/null 2>&1) || { echo "requests.sh: request_bench does not run"; exit 1; }
program=crates/request_bench/out/request_bench
count=1000000

parsing=$(seconds 3 /dev/null "$program" parse "$count") || exit 1
read=$(cat "$answer")
routing=$(seconds 3 /dev/null "$program" route "$count") || exit 1
[ "$(cat "$answer")" = "$read, asks $count" ] || { echo "requests.sh: routing gives $(cat "$answer")" >&2; exit 1; }
echo "$read"
awk -v count="$count" -v parsing="$parsing" -v routing="$routing" 'BEGIN {
    printf "httparse %.2f us a head; read_request and route %.2f us, %.1f times\n", parsing / count * 1e6, routing / count * 1e6, routing / parsing
    exit routing > 8 * parsing
}' || exit 1

# a head of 128 bytes stands before each body
replies=2000
bytes=$((replies * (65536 + 128)))
head -c "$bytes" /dev/zero > "$folder/bytes" || exit 1
hashing=$(seconds 3 "$folder/bytes" sha256sum) || exit 1
writing=$(seconds 3 /dev/null "$program" write "$replies") || exit 1
[ "$(cat "$answer")" = "replies $replies, bytes $bytes" ] || { echo "requests.sh: writing gives $(cat "$answer")" >&2; exit 1; }
awk -v bytes="$bytes" -v hashing="$hashing" -v writing="$writing" 'BEGIN {
    printf "sha256sum %.0f MB/s; write_reply %.0f MB/s, ratio %.1f\n", bytes / hashing / 1e6, bytes / writing / 1e6, hashing / writing
    exit hashing < 0.8 * writing
}'
