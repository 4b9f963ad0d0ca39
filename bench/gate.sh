#!/usr/bin/env bash
# What a gate costs, crate by crate: runs `rt ci NAME` for each crate of crates.txt, one after the other, those that others stand on first, and prints a table
# of the processor seconds of each (its own proofs, must-fail edits, tests and programs), the greatest memory of one of its processes, and what the run passed.
# Costs are those from nothing only for crates that this machine has not kept: run it on a fresh machine, or after a change of the lowest crate. A crate whose
# run takes less than 10 seconds is marked as kept. With names, gate.sh NAME.., only these crates are run, each with those below it that are not kept. The
# machine should do nothing else.
set -u
cd "$(dirname "$0")/.." || exit 1
. bench/timing.sh
needs rt awk tsort /usr/bin/time

# the crates of crates.txt, each behind those that it stands on
in_order() {
    awk -F: '
        /^ *(#|$)/ { next }
        { split($1, words, " "); name = words[1]; crates[name] = $2 }
        END {
            for (name in crates) {
                print name, name
                split(crates[name], below, " ")
                for (i in below) if (below[i] in crates) print below[i], name
            }
        }' crates.txt | tsort
}

# one CRATE: a line of the table
one() {
    local log=$folder/log took=$folder/took passed
    /usr/bin/time -f '%U %S %M %e' -o "$took" rt ci "$1" > "$log" 2>&1
    passed=$(grep -E '^[0-9]+ passed, ' "$log" | tail -n 1)
    tail -n 1 "$took" | awk -v name="$1" -v passed="${passed:-failed}" '{
        kept = $1 + $2 < 10 ? " (kept)" : ""
        printf "| %s | %.0f | %.0f | %.1f | %s%s |\n", name, $1 + $2, $4, $3 / 1048576, passed, kept
    }'
}

echo "Machine: $(nproc) processors, $(awk '/^model name/ { sub(/.*: /, ""); print; exit }' /proc/cpuinfo), $(awk '/^MemTotal/ { printf "%.0f GB", $2 / 1048576 }' /proc/meminfo). $(rt version | head -n 1). $(date -I)."
echo
echo "| Crate | Processor seconds | Seconds | GB of the largest process | Passed |"
echo "|---|---|---|---|---|"
for crate in $(in_order); do
    [ $# = 0 ] || case " $* " in *" $crate "*) ;; *) continue ;; esac
    one "$crate"
done | tee "$folder/table"
awk -F'|' '{ spent += $3; passed += $4; if ($5 > most) most = $5 } END { printf "\n%.1f processor minutes, %.1f minutes one after the other, at most %.1f GB\n", spent / 60, passed / 60, most }' "$folder/table"
