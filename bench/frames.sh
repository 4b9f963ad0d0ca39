#!/usr/bin/env bash
# How fast the frames of a replication connection are taken: MB/s of stream_bench beside sha256sum on the same file, in the same run.
# The file has about 60 MB: what a real server sends of 40,000 changes (wire.py), again and again. With files NAME.wire (bytes that a server sent behind
# CopyBothResponse), as frames.sh FILE.., those are taken in its place. Fails where pieces of 64 KiB are taken slower than sha256sum reads, or pieces of
# 100 bytes at less than 0.3 of that; where one frame of 64 MB is taken at less than a third of sha256sum's speed; or where the counts are not those of
# the file. Skips where a tool is missing. Wants 200 MB of disk and memory.
set -u
wires=()
for wire in "$@"; do wires+=("$(realpath "$wire")") || exit 1; done
cd "$(dirname "$0")/.." || exit 1
. bench/timing.sh
needs rt python3 sha256sum awk
if [ "${#wires[@]}" = 0 ]; then
    wires=("$folder/real.wire")
    python3 bench/wire.py "$folder/real.wire" 40000
    status=$?
    [ "$status" = 2 ] && { echo "frames.sh: skipped, there is no PostgreSQL"; exit 0; }
    [ "$status" = 0 ] || exit 1
fi

python3 - "$folder" "${wires[@]}" <<'PYTHON'
import struct
import sys

SIZE = 60_000_000


def counted(stream):
    """How many XLogData frames, bytes of their messages and keepalives there are."""
    frames = size = keepalives = place = 0
    while place < len(stream):
        length = struct.unpack('>I', stream[place + 1:place + 5])[0]
        kind = stream[place:place + 1] + stream[place + 5:place + 6]
        frames += kind == b'dw'
        size += length - 29 if kind == b'dw' else 0
        keepalives += kind == b'dk'
        place += 1 + length
    return frames, size, keepalives


stream = b''.join(open(path, 'rb').read() for path in sys.argv[2:])
times = 1 + SIZE // len(stream)
with open(sys.argv[1] + '/many', 'wb') as out:
    out.write(stream * times)
with open(sys.argv[1] + '/many.wanted', 'w') as out:
    out.write('frames %d of %d bytes, keepalives %d, rest 0\n' % tuple(times * count for count in counted(stream)))
with open(sys.argv[1] + '/one', 'wb') as out:
    message = b'w' + struct.pack('>QQQ', 5, 5, 0) + bytes(64_000_000)
    out.write(b'd' + struct.pack('>I', 4 + len(message)) + message)
with open(sys.argv[1] + '/one.wanted', 'w') as out:
    out.write('frames 1 of 64000000 bytes, keepalives 0, rest 0\n')
PYTHON

[ -x crates/stream_bench/out/stream_bench ] || (cd crates/stream_bench && rt run -- frames 7 < stdin > /dev/null 2>&1) || { echo "frames.sh: stream_bench does not run"; exit 1; }
program=crates/stream_bench/out/stream_bench

# taken FILE SIZE: the least seconds of the program over the file in pieces of this size; its answer has to be the one that is wanted
taken() {
    seconds 3 "$folder/$1" "$program" frames "$2" || return 1
    cmp -s "$answer" "$folder/$1.wanted" || { echo "frames.sh: $1 in pieces of $2 gives $(cat "$answer")" >&2; return 1; }
}

status=0
hashing=$(seconds 3 "$folder/many" sha256sum) || exit 1
large=$(taken many 65536) || exit 1
small=$(taken many 100) || exit 1
hashing_one=$(seconds 3 "$folder/one" sha256sum) || exit 1
large_one=$(taken one 65536) || exit 1
small_one=$(taken one 100) || exit 1
cat "$folder/many.wanted"
awk -v bytes="$(wc -c < "$folder/many")" -v hash="$hashing" -v large="$large" -v small="$small" 'BEGIN {
    printf "sha256sum %.0f MB/s; pieces of 64 KiB %.0f MB/s, ratio %.2f; pieces of 100 bytes %.0f MB/s, ratio %.2f\n", bytes / hash / 1e6, bytes / large / 1e6, hash / large, bytes / small / 1e6, hash / small
    exit hash / large < 1.0 || hash / small < 0.3
}' || status=1
awk -v hash="$hashing_one" -v large="$large_one" -v small="$small_one" 'BEGIN {
    printf "one frame of 64 MB: ratio %.2f in pieces of 64 KiB, %.2f in pieces of 100 bytes\n", hash / large, hash / small
    exit hash / large < 0.33 || hash / small < 0.33
}' || status=1
exit $status
