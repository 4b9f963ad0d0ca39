#!/usr/bin/env bash
# How fast a script is replayed: MB/s of shape_replay beside sha256sum on the same file, in the same run.
# The file is a script of about 20 MB, made from a seed: one table, many transactions of a few inserts, and one watch at the end, which prints all
# rows; a larger one would fill the log of its shape, which may have 64 MiB of texts. A script a tenth as large tells whether the time grows with the size; one
# of 60 MB has a client with a clause that selects a tenth of the rows. Each must print rows at its end.
# Fails where replay has less than 0.03 of sha256sum's bytes per second, or with the clause less than 0.06; where ten times the script takes more than
# twelve times the time; or where memory is above 30 bytes per byte of script and 64 MB.
# Skips where a tool is missing. Wants 300 MB of disk and 2 GB of memory.
set -u
cd "$(dirname "$0")/.." || exit 1
. bench/timing.sh
needs rt python3 sha256sum awk

python3 - "$folder" <<'PYTHON'
import random
import struct
import sys

OID = struct.pack('>I', 16384)
COLUMNS = [(b'id', 23), (b'n', 23), (b's', 25)]


def record(kind, payload=b''):
    return kind + struct.pack('>I', len(payload)) + payload


def columns():
    return struct.pack('>H', len(COLUMNS)) + b''.join(name + b'\0' + struct.pack('>I', oid) for name, oid in COLUMNS)


def relation():
    sent = b''.join(b'\1' + name + b'\0' + struct.pack('>Ii', oid, -1) for name, oid in COLUMNS)
    return b'R' + OID + b'public\0items\0f' + struct.pack('>H', len(COLUMNS)) + sent


def row(rng, number):
    values = [b'%d' % number, b'%d' % rng.randrange(1000), bytes(rng.choices(b'abcdefghij ', k=rng.randrange(30)))]
    return struct.pack('>H', 3) + b''.join(b't' + struct.pack('>I', len(value)) + value for value in values)


def opening(query):
    watch = record(b'W', bytes(4))
    yield record(b'T', b'public\0items\0' + OID + columns() + struct.pack('>HH', 1, 0))
    yield record(b'N', query) + watch
    yield record(b'G', bytes(4) + b'1:1:\0' + OID + columns() + bytes(4)) + watch


def transaction(rng, xid, first):
    yield b'B' + struct.pack('>QqI', xid * 100, 0, xid)
    if xid == 1:
        yield relation()
    for number in range(first, first + rng.randrange(1, 9)):
        yield b'I' + OID + b'N' + row(rng, number)
    yield b'C' + struct.pack('>BQQq', 0, xid * 100, xid * 100 + 8, 0)


def write(path, size, query):
    rng = random.Random(60)
    with open(path, 'wb') as out:
        done, xid = sum(out.write(part) for part in opening(query)), 0
        while done < size:
            xid += 1
            for message in transaction(rng, xid, xid * 10):
                done += out.write(record(b'M', message))
        out.write(record(b'W', bytes(4)) + record(b'E'))


write(sys.argv[1] + '/large', 20_000_000, b'table=items')
write(sys.argv[1] + '/small', 2_000_000, b'table=items')
write(sys.argv[1] + '/clause', 60_000_000, b'table=items&where=n+%3C+100')
PYTHON

[ -x crates/shape_replay/out/shape_replay ] || (cd crates/shape_replay && rt run -- replay < stdin > /dev/null 2>&1) || { echo "replay.sh: shape_replay does not run"; exit 1; }
program=$PWD/crates/shape_replay/out/shape_replay

# replayed FILE: the seconds of a replay whose last line but one is a row
replayed() {
    seconds 3 "$1" "$program" replay && tail -n 2 "$answer" | head -n 1 | grep -q '^"' && return
    echo "replay.sh: $(basename "$1"): no rows at the end" >&2
    return 1
}

hashing=$(seconds 3 "$folder/large" sha256sum) || exit 1
small=$(replayed "$folder/small") || exit 1
clause=$(replayed "$folder/clause") || exit 1
large=$(replayed "$folder/large") || exit 1
tail -1 "$answer"
peak=$(python3 - "$program" "$folder/large" <<'PYTHON'
import resource
import subprocess
import sys

subprocess.run([sys.argv[1], 'replay'], stdin=open(sys.argv[2], 'rb'), stdout=subprocess.DEVNULL, check=True)
print(resource.getrusage(resource.RUSAGE_CHILDREN).ru_maxrss * 1024)
PYTHON
) || exit 1
size=$(wc -c < "$folder/large")
awk -v bytes="$size" -v small="$small" -v large="$large" -v clause="$clause" -v hash="$hashing" -v peak="$peak" 'BEGIN {
    printf "replay %.1f MB/s, sha256sum %.1f MB/s, ratio %.3f; with a clause %.3f; ten times the script takes %.1f times the time; %.1f bytes of memory per byte\n", bytes / large / 1e6, bytes / hash / 1e6, hash / large, hash / clause, large / small, peak / bytes
    exit hash / large < 0.03 || hash / clause < 0.06 || large / small > 12 || peak > 30 * bytes + 64e6
}'
