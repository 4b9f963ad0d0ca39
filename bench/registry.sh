#!/usr/bin/env bash
# Shows that a look at the registry grows slowly with the handles that live: 1,000,000 looks among 1,000 live handles take at
# most three times as long as among 10. The time of registering them is taken off.
set -eu
cd "$(dirname "$0")"
. ./timing.sh
cd ../crates/shape_registry_cases
[ -x out/shape_registry_cases ] || rt run < /dev/null > /dev/null
looks=1000000

# looking LIVE LOOKS: the least seconds of so many looks among so many live handles; each has to find a ready one
looking() {
    echo "lookups $1 $2" > "$folder/looks"
    seconds 5 "$folder/looks" out/shape_registry_cases || return 1
    [ "$(cat "$answer")" = "$2 ready" ] || { echo "found: $(cat "$answer")" >&2; return 1; }
}

few=$(awk -v all="$(looking 10 $looks)" -v start="$(looking 10 0)" 'BEGIN { print all - start }')
many=$(awk -v all="$(looking 1000 $looks)" -v start="$(looking 1000 0)" 'BEGIN { print all - start }')
echo "among 10: $few s, among 1,000: $many s for $looks looks"
awk -v a="$few" -v b="$many" 'BEGIN { printf "%.1f times the time\n", b / a; exit (b > 3 * a) }'
