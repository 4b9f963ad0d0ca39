#!/usr/bin/env bash
# Holds the dialogues of pg_dialogue with a real PostgreSQL over TCP: describes a table, reads a snapshot of 1,000,000 rows, opens a replication stream. Starts a server
# of its own, in a temporary folder, on the loopback, with trust. Compares the description with the catalogue and the rows with those of COPY, byte for byte, also of a
# table with quotes, nulls and odd bytes. Then measures rows a second beside `psql -c 'COPY (SELECT * ..) TO STDOUT'` of the same table in the same run; fails where it is
# less than half as fast. Skips where a tool is missing. Wants 600 MB of disk.
set -u
cd "$(dirname "$0")/.." || exit 1
. bench/timing.sh
PATH=$PATH:$(echo /usr/lib/postgresql/*/bin | tr ' ' ':')
needs rt initdb pg_ctl psql cmp awk
program=$PWD/crates/dialogue_run/out/dialogue_run
if [ ! -x "$program" ] || [ -n "$(find crates/*/src -name '*.rt' -newer "$program" | head -n 1)" ]; then
    (cd crates/dialogue_run && rt run < stdin > /dev/null 2>&1)
    [ -x "$program" ] || { echo "dialogue.sh: dialogue_run does not run"; exit 1; }
fi

# as WORDS..: runs a command as the one who may start a server
as() {
    if [ "$(id -u)" = 0 ]; then runuser -u postgres -- "$@"; else "$@"; fi
}

data=$folder/data
port=$((20000 + $$ % 20000))
mkdir "$data" && chmod 711 "$folder" && chmod 700 "$data"
[ "$(id -u)" != 0 ] || chown postgres "$data" || exit 1
as "$(command -v initdb)" -D "$data" -U postgres -A trust -E UTF8 --locale=C > /dev/null || exit 1
as "$(command -v pg_ctl)" -D "$data" -w -l "$data/log" -o "-p $port -c listen_addresses=127.0.0.1 -c unix_socket_directories= -c wal_level=logical -c fsync=off" start > /dev/null || exit 1
trap 'as "$(command -v pg_ctl)" -D "$data" -m immediate stop > /dev/null; rm -rf "$folder"' EXIT

# sql TEXT: what psql prints of a query
sql() {
    psql -X -q -A -t -h 127.0.0.1 -p "$port" -U postgres -d postgres -c "$1"
}

# talk WORD NAME: what a dialogue prints
talk() {
    "$program" "$1" "127.0.0.1:$port" postgres postgres "$2"
}

# same WHAT: compares what was printed into two files
same() {
    cmp -s "$folder/ours" "$folder/theirs" || { echo "dialogue.sh: $1 differs:"; diff "$folder/ours" "$folder/theirs" | head -n 5; exit 1; }
    echo "$1: the same"
}

sql "create table items (id int primary key, n int, amount numeric(10,2), s text); alter table items replica identity full;
     insert into items select i, case when i % 7 = 0 then null else i % 1000 end, i / 100.0, repeat('a note ', i % 9) from generate_series(1, 1000000) i;
     create table \"odd\"\"name\" (id int, \"a\"\"b\" text); insert into \"odd\"\"name\" values (1, E'tab\\t, feed\\n, return\\r, slash\\\\'), (2, null), (3, ''), (4, 'gr\u00fcn');
     create publication pub for table items" || exit 1
sql "select pg_create_logical_replication_slot('pub', 'pgoutput')" > /dev/null || exit 1

talk describe items > "$folder/ours"
{ sql "select 'table ' || 'items'::regclass::oid"; sql "select attname || ' ' || atttypid from pg_attribute where attrelid = 'items'::regclass and attnum > 0 order by attnum"; } > "$folder/theirs"
same 'description of a table'
for name in items 'odd"name'; do
    talk snapshot "$name" > "$folder/ours"
    sql "copy (select * from \"${name//\"/\"\"}\") to stdout" > "$folder/theirs"
    same "snapshot of $(wc -l < "$folder/theirs") rows"
done
talk stream pub > "$folder/ours"
echo open > "$folder/theirs"
same 'opening of a stream'
talk stream none > "$folder/ours"
echo 'error_response 42704' > "$folder/theirs"
same 'opening of a stream without a slot'
talk snapshot none > "$folder/ours"
echo 'error_response 42P01' > "$folder/theirs"
same 'snapshot of no table'

copied() { sql 'copy (select * from items) to stdout'; }
counted() { talk count items; }
printed() { talk snapshot items; }
# the server works as well: what passes is counted, and not the processor time of one side
clock='%R'
theirs=$(seconds 5 /dev/null copied) || exit 1
ours=$(seconds 5 /dev/null counted) || exit 1
grep -q '^1000000 rows 4000000 values$' "$answer" || { echo "dialogue.sh: counted $(cat "$answer")"; exit 1; }
both=$(seconds 5 /dev/null printed) || exit 1
awk -v t="$theirs" -v o="$ours" -v b="$both" 'BEGIN {
    printf "psql COPY: %d rows a second\nsnapshot: %d rows a second\nsnapshot, printed: %d rows a second\n", 1000000 / t, 1000000 / o, 1000000 / b
    exit (t / o < 0.5)
}' || { echo "dialogue.sh: less than half as fast as COPY"; exit 1; }
