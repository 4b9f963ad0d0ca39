#!/usr/bin/env bash
# Reads the messages of real scripts and writes them back, byte for byte: captures.sh FOLDER, with files NAME.script. Skips where there is none. Takes the
# program that `rt ci` or `rt run` left, where no source is newer.
set -u
[ $# = 1 ] || { echo "captures.sh: skipped, no folder is named"; exit 0; }
folder=$(realpath "$1") || exit 1
cd "$(dirname "$0")/.." || exit 1
[ -n "$(ls "$folder"/*.script 2>/dev/null)" ] || { echo "captures.sh: skipped, there are no scripts"; exit 0; }
name=captures.sh
. examples/programs.sh
built stream_bench frames 7
status=0
for script in "$folder"/*.script; do
    echo "$(basename "$script"): $(crates/stream_bench/out/stream_bench decode again < "$script")" || status=1
done
exit $status
