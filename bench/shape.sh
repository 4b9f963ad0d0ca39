#!/usr/bin/env bash
# How fast one shape takes commits, beside the reading and assembling of the same commits from messages of pgoutput in the same run (what decode.sh measures): 1,000 of 1,000
# inserts each, and then 100,000 of one update each. A shape takes them without a clause, and one with the clause n > 10 AND s LIKE 'b%'. The time of a shape is what
# shape_bench takes with it, less what it takes to make the commits alone. Fails where the shape without a clause adds its entries less than 0.6 as fast as the changes are
# assembled; where a page of a closed chunk in that log takes more than 1.5 times the time of one in a log of a thousand inserts; where the memory, with the pages of
# all closed chunks held at once, is more than 1.5 bytes for each byte of JSON text in the log; or where a count is wrong. Skips where a tool is missing. Wants 90 MB of
# disk and 300 MB of memory.
set -u
cd "$(dirname "$0")/.." || exit 1
. bench/timing.sh
needs rt python3 awk

# The changes that shape_bench makes, as a script; and what is to be counted of them.
python3 - "$folder" <<'PYTHON'
import struct
import sys

INSERTS = 1_000_000


def record(message):
    return b'M' + struct.pack('>I', len(message)) + message


def field(text):
    return b't' + struct.pack('>I', len(text)) + text.encode()


def row(number):
    return [str(number), str(number * 37 % 1000), '%s text of row %d' % ('ab'[number % 2], number * 7919 % 1_000_003)]


def spelled(cells):
    return struct.pack('>H', 3) + b''.join(map(field, cells))


def relation():
    columns = [(b'id', 23), (b'n', 23), (b's', 25)]
    texts = b''.join(b'\1' + name + b'\0' + struct.pack('>Ii', oid, -1) for name, oid in columns)
    return b'R' + struct.pack('>I', 16384) + b'public\0items\0f' + struct.pack('>H', len(columns)) + texts


def commits():
    for first in range(0, INSERTS, 1000):
        yield [(None, row(number)) for number in range(first, first + 1000)]
    for number in range(INSERTS // 10):
        old = row(number * 7919 % INSERTS)
        yield [(old, [old[0], str((int(old[1]) + 501) % 1000), old[2]])]


def message(old, new):
    start = struct.pack('>I', 16384)
    return b'I' + start + b'N' + spelled(new) if old is None else b'U' + start + b'O' + spelled(old) + b'N' + spelled(new)


def is_selected(cells):
    return cells is not None and int(cells[1]) > 10 and cells[2].startswith('b')


def length(lsn, place, old, new):
    cells = '"id":"%s","n":"%s","s":"%s"' % tuple(new) if old is None else '"n":"%s"' % new[1]
    return len(r'{"headers":{"operation":"insert"},"key":"\"public\".\"items\"/\"%s\"","offset":"%d_%d","value":{%s}}' % (new[0], lsn, 2 * place, cells))


count = changes = entries = selected = size = 0
with open(sys.argv[1] + '/script', 'wb') as out:
    out.write(record(relation()))
    for commit in commits():
        count += 1
        lsn = count * 100
        out.write(record(b'B' + struct.pack('>QqI', lsn, count * 1000, count)))
        for place, (old, new) in enumerate(commit):
            out.write(record(message(old, new)))
            changes += 1
            selected += is_selected(old) or is_selected(new)
            size += length(lsn, place, old, new)
        out.write(record(b'C' + struct.pack('>BQQq', 0, lsn, lsn + 48, count * 1000)))
    out.write(b'E\0\0\0\0')
with open(sys.argv[1] + '/wanted', 'w') as out:
    out.write('%d %d %d %d %d' % (1 + 2 * count + changes, count, changes, selected, size))
PYTHON

[ -x crates/shape_bench/out/shape_bench ] || (cd crates/shape_bench && rt run -- make 1000 < stdin > /dev/null 2>&1) || { echo "shape.sh: shape_bench does not run"; exit 1; }
[ -x crates/stream_bench/out/stream_bench ] || (cd crates/stream_bench && rt run -- frames 7 < stdin > /dev/null 2>&1) || { echo "shape.sh: stream_bench does not run"; exit 1; }
program=crates/shape_bench/out/shape_bench
clause="n > 10 AND s LIKE 'b%'"
inserts=1000000
read -r messages transactions changes selected bytes < "$folder/wanted"

# answers TEXT: the last program answered lines that begin with this text
answers() {
    [[ $(cat "$answer") == "$1"* ]] || { echo "shape.sh: it answers $(cat "$answer"), and not $1" >&2; return 1; }
}

# shape WORDS..: the least seconds of three runs of shape_bench with these words
shape() {
    seconds 3 /dev/null "$program" "$@"
}

# most WORDS..: the most memory of a command, in bytes
most() {
    python3 - "$@" <<'PYTHON'
import resource
import subprocess
import sys

subprocess.run(sys.argv[1:], stdout=subprocess.DEVNULL, check=True)
print(resource.getrusage(resource.RUSAGE_CHILDREN).ru_maxrss * 1024)
PYTHON
}

status=0
counted="transactions $transactions, changes $changes"
assembling=$(seconds 3 "$folder/script" crates/stream_bench/out/stream_bench decode assemble) && answers "messages $messages"$'\n'"$counted" || exit 1
making=$(shape make "$inserts") && answers "$counted" || exit 1
plain=$(shape shape "$inserts") && answers "$counted"$'\n'"entries $changes, bytes $bytes, " || exit 1
tested=$(shape shape "$inserts" 0 "$clause") && answers "$counted"$'\n'"entries $selected, " || exit 1
awk -v assembling="$assembling" -v making="$making" -v plain="$plain" -v tested="$tested" -v changes="$changes" -v selected="$selected" 'BEGIN {
    assembled = changes / assembling; added = changes / (plain - making); passed = changes / (tested - making)
    printf "%d changes: assembled %.0f a second; made in %.2f s\n", changes, assembled, making
    printf "without a clause: %.0f entries a second, ratio %.2f\n", added, added / assembled
    printf "with a clause: %.0f entries and %.0f changes a second, of these ratio %.2f\n", selected / (tested - making), passed, passed / assembled
    exit added / assembled < 0.6
}' || status=1

# pages of closed chunks, so many that they outweigh the log
pages=20000000
little=$(shape shape 1000) || exit 1
small=$(shape shape 1000 "$pages") || exit 1
large=$(shape shape "$inserts" "$pages") && answers "$counted" || exit 1
awk -v pages="$pages" -v little="$little" -v small="$small" -v plain="$plain" -v large="$large" 'BEGIN {
    one = (small - little) / pages; other = (large - plain) / pages
    printf "a page of a closed chunk: %.0f ns in a log of 1,100 entries, %.0f ns in this one, %.2f times\n", one * 1e9, other * 1e9, other / one
    exit other / one > 1.5
}' || status=1

memory=$(most "$program" shape "$inserts") || exit 1
awk -v memory="$memory" -v bytes="$bytes" 'BEGIN {
    printf "memory %.0f MB with the pages held, JSON texts %.0f MB: %.2f bytes a byte\n", memory / 1e6, bytes / 1e6, memory / bytes
    exit memory / bytes > 1.5
}' || status=1
exit $status
