#!/usr/bin/env bash
# Tries the edge of the built programs that no proof reaches: the adapters over standard input and output, and `main`. Reads that are short or fail, writes
# that fail, lengths and counts that are only claimed, and input as long and as deep as it may be, all with little memory. Prints what is wrong, and its status
# is 1 then. Skips where a tool is missing. Takes the programs that `rt ci` or `rt run` left, where no source is newer. Wants 200 MB of disk.
set -u
cd "$(dirname "$0")/.." || exit 1
. bench/timing.sh
needs python3 awk dd
name=edge.sh
. examples/programs.sh
built shape_replay replay
built stream_bench frames 7
built where_parser_cases
replay=crates/shape_replay/out/shape_replay
stream=crates/stream_bench/out/stream_bench
parser=crates/where_parser_cases/out/where_parser_cases
script=examples/first_texts.script
wanted=${script%.script}.output
said=$folder/said
failures=0

fails() {
    echo "edge.sh: $1"
    failures=1
}

# ended CASE STATUS COMPLAINT GOT: the program ended with this status and complained so
ended() {
    [ "$4" = "$2" ] || fails "$1: status $4 in the place of $2"
    [ "$(cat "$said")" = "${3:+shape_replay: $3}" ] || fails "$1: it says $(head -c 200 "$said")"
}

# refuses CASE STATUS COMPLAINT FILE WORD..: with the file as input and these words the program ends so, and prints nothing
refuses() {
    "$replay" "${@:5}" < "$4" > "$answer" 2> "$said"
    ended "$1" "$2" "$3" $?
    [ ! -s "$answer" ] || fails "$1: it prints $(head -c 200 "$answer")"
}

# prints CASE FILE COMMAND..: the command prints just what the file holds, and its status is 0
prints() {
    "${@:3}" > "$answer" || fails "$1: its status is not 0"
    cmp -s "$answer" "$2" || fails "$1: it prints $(head -c 200 "$answer")"
}

# in_memory KILOBYTES COMMAND..: the command with that much address space
in_memory() {
    (ulimit -v "$1" && exec "${@:2}")
}

# What is printed where all goes well, and the words of the command line.
prints whole "$wanted" "$replay" replay < "$script"
refuses no_words 2 usage "$script"
refuses another_word 2 usage "$script" Replay
refuses an_empty_word 2 usage "$script" ''
refuses a_word_with_a_blank 2 usage "$script" 'replay '
refuses a_second_word 2 usage "$script" replay replay
refuses an_option_without_a_value 2 usage "$script" replay --chunk
refuses an_option_twice 2 usage "$script" replay --hold 1 --log 9 --hold 1
refuses an_unknown_option 2 usage "$script" replay --chunks 4096
refuses a_chunk_too_small 2 usage "$script" replay --chunk 4095
refuses a_value_with_a_zero_before_it 2 usage "$script" replay --hold 01
prints with_options examples/one_insert.output "$replay" replay --hold 1 --chunk 4096 --shapes 1 < examples/one_insert.script

# Writes: a full device, a closed output, a pipe that nobody reads, a pipe that takes single bytes.
"$replay" replay < "$script" > /dev/full 2> "$said"
ended full_device 4 write_fault $?
"$replay" replay < "$script" >&- 2> "$said"
ended closed_output 4 write_fault $?
{ sleep 0.3; "$replay" replay < "$script" 2> "$said"; echo $? > "$folder/status"; } | :
[ "$(cat "$folder/status")" != 0 ] || fails "closed_pipe: status 0"
bytes_written() { "$replay" replay < "$script" | dd bs=1 status=none; }
prints output_in_single_bytes "$wanted" bytes_written
"$replay" replay < /dev/null > "$answer" 2> /dev/full
[ $? = 6 ] || fails "full_device_for_complaints: another status than 6"
[ ! -s "$answer" ] || fails "full_device_for_complaints: it prints $(head -c 200 "$answer")"

# Reads: pieces of one byte and of a few, no input, a folder, a connection that is cut in the middle.
bytes_read() { dd bs=1 status=none < "$script" | "$replay" replay; }
prints input_in_single_bytes "$wanted" bytes_read
pieces_read() { { head -c 3; sleep 0.1; head -c 4; sleep 0.1; head -c 90; sleep 0.1; cat; } < "$script" | "$replay" replay; }
prints input_in_pieces "$wanted" pieces_read
"$replay" replay <&- > "$answer" 2> "$said"
ended closed_input 3 read_fault $?
[ ! -s "$answer" ] || fails "closed_input: it prints $(head -c 200 "$answer")"
refuses folder_as_input 3 read_fault / replay
python3 - "$replay" "$script" "$wanted" <<'PYTHON' || failures=1
import socket
import struct
import subprocess
import sys
import time

replay, script, wanted = sys.argv[1:]
script, wanted = open(script, 'rb').read(), open(wanted, 'rb').read()
listener = socket.create_server(('127.0.0.1', 0))
sender = socket.create_connection(listener.getsockname())
receiver, _ = listener.accept()
program = subprocess.Popen([replay, 'replay'], stdin=receiver, stdout=subprocess.PIPE, stderr=subprocess.PIPE)
receiver.close()
sender.sendall(script[:len(script) // 2])
time.sleep(0.3)
# With no time to linger the connection is reset, so the next read fails.
sender.setsockopt(socket.SOL_SOCKET, socket.SO_LINGER, struct.pack('ii', 1, 0))
sender.close()
printed, said = program.communicate()
if program.returncode != 3 or said != b'shape_replay: read_fault\n':
    sys.exit('edge.sh: cut_connection: status %d, it says %r' % (program.returncode, said[:200]))
if not wanted.startswith(printed):
    sys.exit('edge.sh: cut_connection: it prints %r' % printed[:200])
PYTHON

# Scripts that end too early, are wrong or too long: nothing is printed. A length that is only claimed takes no memory.
refuses nothing_read 6 unfinished /dev/null replay
for kind in T B O M F Q D G X N S R W U K E; do
    printf '%s\377\377\377\377' "$kind" > "$folder/claim"
    in_memory 200000 "$replay" replay < "$folder/claim" > "$answer" 2> "$said"
    got=$?
    case $got in
        5 | 6) [ ! -s "$answer" ] || fails "claim_of_4_GiB in $kind: it prints $(head -c 200 "$answer")" ;;
        *) fails "claim_of_4_GiB in $kind: status $got, it says $(head -c 200 "$said")" ;;
    esac
done
printf 'M\377\377\377\377' > "$folder/claim"
in_memory 200000 "$replay" replay < "$folder/claim" > "$answer" 2> "$said"
ended claim_of_4_GiB 6 unfinished $?
{ printf 'M\003\377\377\374'; head -c 67108861 /dev/zero; } > "$folder/long"
refuses too_long 7 too_long "$folder/long" replay
# A script may have 67,108,864 bytes: so many are unfinished, and one more is too long.
{ printf 'T\377\377\377\377'; head -c 67108859 /dev/zero; } > "$folder/long"
refuses as_long_as_may_be 6 unfinished "$folder/long" replay
printf '\0' >> "$folder/long"
refuses one_byte_too_long 7 too_long "$folder/long" replay
printf 'M\0\0\0\006T\377\377\377\377\0' > "$folder/claim"
in_memory 200000 "$replay" replay < "$folder/claim" > "$answer" 2> "$said"
ended truncate_of_4294967295 6 unfinished $?
echo "stream refused bad_message 0" | cmp -s "$answer" - || fails "truncate_of_4294967295: it prints $(head -c 200 "$answer")"
echo "wrong 0" > "$folder/wrong"
in_memory 200000 "$stream" decode < "$folder/claim" > "$answer"
[ $? = 1 ] || fails "truncate_of_4294967295: another status than 1"
cmp -s "$answer" "$folder/wrong" || fails "truncate_of_4294967295: it prints $(head -c 200 "$answer")"

# Frames: a length that is only claimed, and 64 MB in small pieces, with room for little more than the message and its copy.
printf 'd\003\377\377\377w' > "$folder/claim"
echo "frames 0 of 0 bytes, keepalives 0, rest 6" > "$folder/none"
frames() { in_memory "$1" "$stream" frames "$2" < "$folder/$3"; }
prints frame_of_64_MB_claimed "$folder/none" frames 200000 100 claim
{ printf 'd\003\320\220\035w'; head -c 24 /dev/zero; head -c 64000000 /dev/zero; } > "$folder/large"
echo "frames 1 of 64000000 bytes, keepalives 0, rest 0" > "$folder/one"
prints frame_of_64_MB "$folder/one" frames 400000 100 large
prints frame_of_64_MB_in_single_bytes "$folder/one" frames 400000 1 large

# Clauses: as deep as they may be and one deeper, and lists of a million members, on a stack of 1 MB.
# parsed CASE CLAUSE ANSWER: awk programs that print the clause and what is to be printed of it
parsed() {
    awk "BEGIN { $2 }" > "$folder/clause"
    awk "BEGIN { $3 }" > "$folder/canonical"
    (ulimit -s 1024 && ulimit -v 4000000 && exec "$parser") < "$folder/clause" > "$answer" || fails "$1: its status is not 0"
    cmp -s "$answer" "$folder/canonical" || fails "$1: it prints $(head -c 200 "$answer")"
}
parsed groups_64 'for (i = 0; i < 64; i++) printf "("; printf "a = 1"; for (i = 0; i < 64; i++) printf ")"; print ""' 'print "\"a\" = 1"'
parsed groups_65 'for (i = 0; i < 65; i++) printf "("; printf "a = 1"; for (i = 0; i < 65; i++) printf ")"; print ""' 'print "too deep 64"'
parsed nots_64 'for (i = 0; i < 64; i++) printf "NOT "; print "a"' 'for (i = 0; i < 64; i++) printf "NOT "; print "\"a\""'
parsed nots_65 'for (i = 0; i < 65; i++) printf "NOT "; print "a"' 'print "too deep 256"'
parsed ands_in_ors_64 'for (i = 0; i < 64; i++) printf i % 2 ? "a OR (" : "a AND ("; printf "a"; for (i = 0; i < 64; i++) printf ")"; print ""' \
    'for (i = 0; i < 63; i++) printf i % 2 ? "\"a\" OR " : "\"a\" AND ("; printf "\"a\" OR \"a\""; for (i = 0; i < 32; i++) printf ")"; print ""'
parsed ors_1000000 'for (i = 1; i < 1000000; i++) printf "a OR "; print "a"' 'for (i = 1; i < 1000000; i++) printf "\"a\" OR "; print "\"a\""'
parsed ands_1000000 'for (i = 1; i < 1000000; i++) printf "a AND "; print "a"' 'for (i = 1; i < 1000000; i++) printf "\"a\" AND "; print "\"a\""'
parsed listed_1000000 'printf "a IN ("; for (i = 1; i < 1000000; i++) printf "1, "; print "1)"' 'printf "\"a\" IN ("; for (i = 1; i < 1000000; i++) printf "1, "; print "1)"'
parsed text_of_8_MB 'printf "a = \047"; for (i = 0; i < 1000000; i++) printf "01234567"; print "\047"' 'printf "\"a\" = \047"; for (i = 0; i < 1000000; i++) printf "01234567"; print "\047"'
parsed groups_open_1000000 'for (i = 0; i < 1000000; i++) printf "("; print ""' 'print "too deep 64"'

[ "$failures" = 0 ] && echo "edge.sh: all as wanted"
exit "$failures"
