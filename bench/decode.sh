#!/usr/bin/env bash
# How fast messages of pgoutput are read and put together into transactions: MB/s of stream_bench beside sha256sum on the same file, in the same run.
# A script of about 60 MB, made from a seed, has transactions of a few inserts, updates and deletes of a table with full replica identity; two more have one
# transaction each, of 100,000 and of 1,000,000 small changes. Fails where reading is less than half as fast as sha256sum; where reading and assembling is less
# than 0.3 as fast, on the first script or on the transaction of 1,000,000 changes; or where that takes more than twelve times the time of a tenth of it.
# Skips where a tool is missing. Wants 120 MB of disk and 400 MB of memory.
set -u
cd "$(dirname "$0")/.." || exit 1
. bench/timing.sh
needs rt python3 sha256sum awk

python3 - "$folder" <<'PYTHON'
import random
import struct
import sys

rng = random.Random(60)
MB = 60_000_000


def record(message):
    return b'M' + struct.pack('>I', len(message)) + message


def field(text):
    return b't' + struct.pack('>I', len(text)) + text


def row(number):
    note = bytes(rng.choices(b'abcdefghijklmnopqrstuvwxyz ', k=rng.randrange(0, 40)))
    return struct.pack('>H', 4) + field(b'%d' % number) + field(b'%d' % rng.randrange(1000)) + b'n' + field(note)


def relation():
    columns = [(b'id', 23), (b'n', 20), (b'gone', 25), (b'note', 25)]
    texts = b''.join(b'\1' + name + b'\0' + struct.pack('>Ii', oid, -1) for name, oid in columns)
    return b'R' + struct.pack('>I', 16384) + b'public\0items\0f' + struct.pack('>H', len(columns)) + texts


def begin(lsn, xid):
    return b'B' + struct.pack('>QqI', lsn, xid * 1000, xid)


def commit(lsn, xid):
    return b'C' + struct.pack('>BQQq', 0, lsn, lsn + 48, xid * 1000)


def change(kind, old, new):
    oid = struct.pack('>I', 16384)
    if kind == 'I':
        return b'I' + oid + b'N' + new
    if kind == 'U':
        return b'U' + oid + b'O' + old + b'N' + new
    return b'D' + oid + b'O' + old


def transaction(lsn, xid, first):
    yield begin(lsn, xid)
    for number in range(first, first + rng.randrange(1, 9)):
        yield change('IIUD'[rng.randrange(4)], row(number), row(number))
    yield commit(lsn, xid)


# a row of an integer of seven digits and one of three, and two nulls
def small_row(number):
    return struct.pack('>H', 4) + field(b'%d' % (1_000_000 + number)) + field(b'%d' % (100 + number % 900)) + b'nn'


def write_one(path, changes):
    with open(path, 'wb') as out:
        out.write(record(begin(100, 1)) + record(relation()))
        for number in range(changes):
            out.write(record(change('IUD'[number % 3], small_row(number), small_row(number + 1))))
        out.write(record(commit(100, 1)) + b'E\0\0\0\0')
    with open(path + '.wanted', 'w') as out:
        out.write('messages %d\ntransactions 1, changes %d\n' % (changes + 3, changes))


with open(sys.argv[1] + '/script', 'wb') as out:
    size = out.write(record(relation()))
    xid = 0
    while size < MB:
        xid += 1
        for message in transaction(xid * 100, xid, xid * 10):
            size += out.write(record(message))
    out.write(b'E\0\0\0\0')
write_one(sys.argv[1] + '/small', 100_000)
write_one(sys.argv[1] + '/large', 1_000_000)
PYTHON

[ -x crates/stream_bench/out/stream_bench ] || (cd crates/stream_bench && rt run -- frames 7 < stdin > /dev/null 2>&1) || { echo "decode.sh: stream_bench does not run"; exit 1; }
program=crates/stream_bench/out/stream_bench

# assembling RUNS FILE: the least seconds of the program that reads and assembles the file's messages
assembling() {
    seconds "$1" "$folder/$2" "$program" decode assemble || return 1
    [ ! -e "$folder/$2.wanted" ] || cmp -s "$answer" "$folder/$2.wanted" || { echo "decode.sh: of $2 it answers $(cat "$answer")" >&2; return 1; }
}

status=0
hashing=$(seconds 5 "$folder/script" sha256sum) || exit 1
decoding=$(seconds 5 "$folder/script" "$program" decode) || exit 1
whole=$(assembling 5 script) || exit 1
cat "$answer"
awk -v bytes="$(wc -c < "$folder/script")" -v decode="$decoding" -v whole="$whole" -v hash="$hashing" 'BEGIN {
    printf "decode %.0f MB/s, sha256sum %.0f MB/s, ratio %.2f\n", bytes / decode / 1e6, bytes / hash / 1e6, hash / decode
    printf "decode and assemble %.0f MB/s, ratio %.2f\n", bytes / whole / 1e6, hash / whole
    exit hash / decode < 0.5 || hash / whole < 0.3
}' || status=1
hashing=$(seconds 3 "$folder/large" sha256sum) || exit 1
small=$(assembling 3 small) || exit 1
large=$(assembling 3 large) || exit 1
awk -v bytes="$(wc -c < "$folder/large")" -v small="$small" -v large="$large" -v hash="$hashing" 'BEGIN {
    printf "one transaction of 1,000,000 changes: decode and assemble %.0f MB/s, sha256sum %.0f MB/s, ratio %.2f; %.1f times the time of 100,000 changes\n", bytes / large / 1e6, bytes / hash / 1e6, hash / large, large / small
    exit hash / large < 0.3 || large / small > 12
}' || status=1
exit $status
