#!/usr/bin/env bash
# Makes the scripts of this folder from their texts and compares them; replays them and compares what is printed, or the last rows of each client with those that
# PostgreSQL had; makes and tries the runs of `runs.cases` and the scripts of `scripts.cases`; takes the frames of its wires, cut into pieces of several sizes, and compares their counts. Skips where a tool is missing. Takes the programs that `rt ci` or `rt run` left, where no source is newer.
set -u
cd "$(dirname "$0")/.." || exit 1

name=check.sh
. examples/programs.sh

status=0
if command -v python3 > /dev/null; then
    for text in examples/*.text; do
        python3 examples/script.py write < "$text" | cmp - "${text%.text}.script" || status=1
        echo "$text"
    done
else
    echo "check.sh: the texts are skipped, there is no python3"
fi
built shape_replay replay
for output in examples/*.output; do
    crates/shape_replay/out/shape_replay replay < "${output%.output}.script" | cmp - "$output" || status=1
    echo "$output"
done
if command -v python3 > /dev/null; then
    for rows in examples/*.rows; do
        crates/shape_replay/out/shape_replay replay < "${rows%.rows}.script" | python3 examples/rows.py "$rows" || status=1
        echo "$rows"
    done
    python3 examples/runs.py crates/shape_replay/out/shape_replay < examples/runs.cases || status=1
    echo examples/runs.cases
    python3 examples/scripts.py --without --all crates/shape_replay/out/shape_replay || status=1
    echo examples/scripts.cases
fi
built stream_bench frames 7
for wire in examples/*.wire; do
    for size in 1 7 100 4096 65536; do
        crates/stream_bench/out/stream_bench frames "$size" < "$wire" | cmp - "${wire%.wire}.counts" || status=1
    done
    echo "$wire"
done
exit $status
