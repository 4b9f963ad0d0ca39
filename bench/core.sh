#!/usr/bin/env bash
# What an event costs the core: shape_replay over scripts that python3 writes.
# 100,000 commits of one row each into one shape, beside 1 and beside 9,998 open live exchanges on another handle. Then 10,000 commits of one row each into 1
# and into 100 shapes of one table. A script without the commits is taken away from each. Fails where the many exchanges make the commits take more than twice
# the time, or where 100 shapes take more than 100 times one. Skips where a tool is missing. Wants 60 MB of disk.
set -u
cd "$(dirname "$0")/.." || exit 1
. bench/timing.sh
needs rt python3 awk

cat > "$folder/core.py" <<'PYTHON'
"""Writes a script: core.py EXCHANGES SHAPES COMMITS."""
import struct
import sys

COLUMNS = [(b'id', 23), (b'n', 23)]
TABLES = {b'items': 16384, b'others': 16385}


def record(kind, payload=b''):
    return kind + struct.pack('>I', len(payload)) + payload


def columns():
    return struct.pack('>H', len(COLUMNS)) + b''.join(name + b'\0' + struct.pack('>I', oid) for name, oid in COLUMNS)


def declared(name):
    return record(b'T', b'public\0' + name + b'\0' + struct.pack('>I', TABLES[name]) + columns() + struct.pack('>HH', 1, 0))


def asked(query):
    return record(b'Q', b'GET /v1/shape?' + query + b' HTTP/1.1\r\n\r\n')


def snapshot(exchange, name):
    return record(b'G', struct.pack('>I', exchange) + b'1:1:\0' + struct.pack('>I', TABLES[name]) + columns() + bytes(4))


def message(payload):
    return record(b'M', payload)


def relation(name):
    sent = b''.join(b'\1' + column + b'\0' + struct.pack('>Ii', oid, -1) for column, oid in COLUMNS)
    return message(b'R' + struct.pack('>I', TABLES[name]) + b'public\0' + name + b'\0f' + struct.pack('>H', len(COLUMNS)) + sent)


def commit(xid):
    row = struct.pack('>H', 2) + b''.join(b't' + struct.pack('>I', len(text)) + text for text in (b'%d' % xid, b'%d' % (xid % 100)))
    yield message(b'B' + struct.pack('>QqI', xid * 100, 0, xid))
    if xid == 1:
        yield relation(b'items')
    yield message(b'I' + struct.pack('>I', TABLES[b'items']) + b'N' + row)
    yield message(b'C' + struct.pack('>BQQq', 0, xid * 100, xid * 100 + 8, 0))


def script(exchanges, shapes, commits):
    yield declared(b'items') + declared(b'others')
    yield asked(b'table=others&offset=-1') + snapshot(0, b'others')
    for shape in range(shapes):
        yield asked(b'table=items&where=n%%3E%d&offset=-1' % (-1 - shape)) + snapshot(1 + shape, b'items')
    for _ in range(exchanges):
        yield asked(b'table=others&handle=1-replay&offset=0_0&live=true')
    for xid in range(1, commits + 1):
        yield from commit(xid)
    yield record(b'E')


exchanges, shapes, commits = map(int, sys.argv[1:])
sys.stdout.buffer.writelines(script(exchanges, shapes, commits))
PYTHON

[ -x crates/shape_replay/out/shape_replay ] || (cd crates/shape_replay && rt run -- replay < stdin > /dev/null 2>&1) || { echo "core.sh: shape_replay does not run"; exit 1; }
program=$PWD/crates/shape_replay/out/shape_replay

# taking EXCHANGES SHAPES COMMITS: the seconds that the commits take, beside so many open exchanges and into so many shapes
taking() {
    local without with
    python3 "$folder/core.py" "$1" "$2" 0 > "$folder/without" && python3 "$folder/core.py" "$1" "$2" "$3" > "$folder/with" || return 1
    without=$(seconds 3 "$folder/without" "$program" replay) || return 1
    with=$(seconds 3 "$folder/with" "$program" replay) || return 1
    [ "$(tail -n 1 "$answer")" = "end $(($1 + $2 + 1))" ] || { echo "core.sh: the script ends otherwise" >&2; return 1; }
    awk -v with="$with" -v without="$without" 'BEGIN { print with - without }'
}

one=$(taking 1 1 100000) || exit 1
many=$(taking 9998 1 100000) || exit 1
shape=$(taking 1 1 10000) || exit 1
shapes=$(taking 1 100 10000) || exit 1
awk -v one="$one" -v many="$many" -v shape="$shape" -v shapes="$shapes" 'BEGIN {
    printf "a commit beside one open exchange %.1f us, beside 9,998 %.1f us: %.2f times\n", one * 10, many * 10, many / one
    printf "a commit into one shape %.1f us, into 100 shapes %.1f us: %.1f times\n", shape * 100, shapes * 100, shapes / shape
    exit many > 2 * one || shapes > 100 * shape
}'
