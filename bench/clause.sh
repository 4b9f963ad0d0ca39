#!/usr/bin/env bash
# Shows that parsing, printing and dropping a clause take time linear in its text: a clause of ten times as many OR
# members may take at most twelve times as long. The largest text has 16 MB.
set -eu
cd "$(dirname "$0")"
. ./timing.sh
cd ../crates/where_parser_cases
[ -x out/where_parser_cases ] || rt run < /dev/null > /dev/null

# clause COUNT: a clause of that many members, on one line
clause() {
    awk -v n="$1" 'BEGIN { for (i = 1; i < n; i++) printf "a = 1 OR "; print "a = 1" }'
}

# read_in FILE: the least seconds of reading and printing the clause of a file
read_in() {
    seconds 3 "$folder/$1" out/where_parser_cases || return 1
    head -c 9 "$answer" | grep -q '^"a" = 1' || { echo "not read: $(head -c 80 "$answer")" >&2; return 1; }
}

clause 186000 > "$folder/small"
clause 1860000 > "$folder/large"
small=$(read_in small)
large=$(read_in large)
echo "$(wc -c < "$folder/small") bytes: $small s"
echo "$(wc -c < "$folder/large") bytes: $large s"
awk -v a="$small" -v b="$large" 'BEGIN { printf "%.1f times the time for ten times the text\n", b / a; exit (b > 12 * a) }'

# Shows that a clause of 8,192 bytes over a row of 100 columns is evaluated at least 2,000 times a second. No member
# holds, so each is evaluated. The yardstick is awk, with an equal test on as many equal rows.
cd ../where_eval_cases
[ -x out/where_eval_cases ] || rt run < /dev/null > /dev/null
times=4000

# columns: the columns c0 to c99, all integer
columns() {
    awk 'BEGIN { printf "columns "; for (i = 0; i < 100; i++) printf "%sc%d 23", i ? "|" : "", i; print "" }'
}

# row SEPARATOR: a row in which column i holds 1000 + i
row() {
    awk -v between="$1" 'BEGIN { for (i = 0; i < 100; i++) printf "%s%d", i ? between : "", 1000 + i; print "" }'
}

# members WORD FORM: members such as `c7 = 12`, with the word between them, so many that the clause has 8,192 bytes at most
members() {
    awk -v word="$1" -v form="$2" 'BEGIN {
        for (i = 0; ; i++) {
            length_ += length(sprintf(" OR c%d = %d", i % 100, i))
            if (length_ - 4 > 8192) break
            printf "%s" form, i ? " " word " " : "", i % 100 + (form ~ /\$/), i
        }
    }'
}

{ columns; printf 'row '; row '|'; printf 'times %s %s\n' "$times" "$(members OR 'c%d = %d')"; } > "$folder/clause"
row ' ' | awk -v n="$times" '{ for (i = 0; i < n; i++) print }' > "$folder/rows"
printf '%s { found++ } END { print found + 0 }\n' "$(members '||' '$%d == %d')" > "$folder/test.awk"

# finding FILE COMMAND..: the least seconds of a command that reads the file; it has to find no row
finding() {
    seconds 3 "$@" || return 1
    [ "$(cat "$answer")" = 0 ] || { echo "found: $(cat "$answer")" >&2; return 1; }
}

ours=$(finding "$folder/clause" out/where_eval_cases)
theirs=$(finding "$folder/rows" awk -f "$folder/test.awk")
echo "awk: $(awk -v n="$times" -v t="$theirs" 'BEGIN { printf "%d", n / t }') rows a second"
awk -v n="$times" -v t="$ours" 'BEGIN { printf "truth: %d rows a second\n", n / t; exit (n / t < 2000) }'
