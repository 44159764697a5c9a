#!/bin/sh
# edge.sh: what the programs make of standard input that cannot be read, comes in pieces, or ends inside a record. It runs what
#     tools/build
# makes, compares standard output and standard error with what is written here, and needs cc and python3.
set -eu
cd "$(dirname "$0")/.."
made=$(mktemp -d)
trap 'rm -rf "$made"' EXIT
failed=0 compared=0
bin=target/bin

# same CASE OUT ERR: what the last program printed and said, lines as printf takes them.
same() {
    printf "$2" > "$made/out"
    printf "$3" > "$made/err"
    compared=$((compared + 1))
    if cmp -s "$made/out" "$made/printed" && cmp -s "$made/err" "$made/said"; then
        echo "same: $1: '$(tr '\n' '/' < "$made/printed")' '$(tr '\n' '/' < "$made/said")'"
    else
        failed=$((failed + 1))
        echo "DIFFERENT: $1: printed '$(tr '\n' '/' < "$made/printed")' and said '$(tr '\n' '/' < "$made/said")', expected '$2' '$3'"
    fi
}

# from FILE PROGRAM; fed HOW PROGRAM PIECE..
from() { "$2" < "$1" > "$made/printed" 2> "$made/said" || true; }
fed() { python3 tests/feed.py "$@" > "$made/printed" 2> "$made/said" || true; }
closed() { "$1" <&- > "$made/printed" 2> "$made/said" || true; }

directory='standard input: Is a directory\n'
bad='standard input: Bad file descriptor\n'
blocked='standard input: Resource temporarily unavailable\n'
cut='standard input: ends inside a record\n'

# J1, the byte that is one too many, J1 in two pieces.
: > "$made/nothing"
printf '\000' > "$made/00"
head -c 59 examples/J1 > "$made/first"
tail -c +60 examples/J1 > "$made/second"
cat examples/J1 "$made/00" > "$made/more"

for program in page_check check_records judge_records page_infer infer_records; do
    from / $bin/$program
    same "$program, a directory" '' "$directory"
    closed $bin/$program
    same "$program, a closed descriptor" '' "$bad"
    fed nonblocking $bin/$program "$made/nothing" examples/J1
    same "$program, a pipe that is empty at first and not waited for" '' "$blocked"
done

from "$made/nothing" $bin/page_check
same 'page_check, no byte' '2 0 0 0\n' ''
from examples/J1 $bin/page_check
same 'page_check, J1' '0 0 0 0\n' ''
from examples/J1.indented $bin/page_check
same 'page_check, J1 indented' '0 0 0 0\n' ''
from examples/J1.framed $bin/page_check
same 'page_check, J1 framed' '0 0 0 0\n' ''
from "$made/more" $bin/page_check
same 'page_check, J1 and 00' '3 121 0 0\n' ''
fed pieces $bin/page_check "$made/first" "$made/second" "$made/00"
same 'page_check, J1 and 00 in three pieces' '3 121 0 0\n' ''
fed bytes $bin/page_check examples/J1
same 'page_check, J1 byte by byte' '0 0 0 0\n' ''
fed interrupted $bin/page_check examples/J1
same 'page_check, J1 after a signal' '0 0 0 0\n' ''
fed nonblocking $bin/page_check examples/J1 "$made/00"
same 'page_check, J1 and later 00, not waited for' '' "$blocked"
fed nonblocking $bin/page_check "$made/first" "$made/second"
same 'page_check, J1 in two pieces, not waited for' '' "$blocked"
head -c 65535 crates/page_check/stdin > "$made/longest"
from "$made/longest" $bin/page_check
same 'page_check, 65,535 bytes' '0 0 0 0\n' ''
from crates/page_check/stdin $bin/page_check
same 'page_check, 65,536 bytes' '1 0 0 0\n' ''
cat crates/page_check/stdin "$made/longest" > "$made/longer"
from "$made/longer" $bin/page_check
same 'page_check, 131,071 bytes' '1 0 0 0\n' ''

# J1 as a record, 125 bytes; a page that is right, a record of 23 and 12 bytes.
{ printf '\171\000\000\000'; cat examples/J1; } > "$made/job"
cat examples/page.records > "$made/page"

# cuts PROGRAM RECORD LENGTH..: a record, then the same one cut off after so many bytes.
cuts() {
    program=$1 record=$2
    shift 2
    from "$record" $bin/$program
    same "$program, a record" '0 0 0 0\n' ''
    fed bytes $bin/$program "$record" "$record"
    same "$program, two records byte by byte" '0 0 0 0\n0 0 0 0\n' ''
    fed interrupted $bin/$program "$record"
    same "$program, a record after a signal" '0 0 0 0\n' ''
    fed nonblocking $bin/$program "$record" "$record"
    same "$program, a record, and later another, not waited for" '0 0 0 0\n' "$blocked"
    for length in "$@"; do
        { cat "$record"; head -c "$length" "$record"; } > "$made/cut"
        from "$made/cut" $bin/$program
        same "$program, a record and $length bytes of it" '0 0 0 0\n' "$cut"
    done
    { cat "$record"; printf '\000'; } > "$made/lone"
    from "$made/lone" $bin/$program
    same "$program, a record and a lone 00" '0 0 0 0\n' "$cut"
}
cuts check_records "$made/job" 1 2 3 4 5 124
cuts judge_records "$made/page" 1 2 3 4 5 22 23 24 27 28 34

# A record of 75,000 bytes, one cut off in the bytes that are not kept, one of 16,777,337 bytes of which 121 come.
{ printf '\370\044\001\000'; cat examples/J1; head -c 74879 /dev/zero; } > "$made/long"
cat "$made/long" "$made/job" > "$made/long-job"
from "$made/long-job" $bin/check_records
same 'check_records, a record that is too long, and another' '1 0 0 0\n0 0 0 0\n' ''
head -c 75003 "$made/long" > "$made/long-cut"
from "$made/long-cut" $bin/check_records
same 'check_records, a record that is too long, cut off' '' "$cut"
{ printf '\171\000\000\001'; cat examples/J1; } > "$made/top"
from "$made/top" $bin/check_records
same 'check_records, 121 of 16,777,337 bytes' '' "$cut"

# What is no script, or not one alone, gets its numbers on standard error, and nothing else is written.
from "$made/nothing" $bin/page_infer
same 'page_infer, no byte' '' '2 0 0 0\n'
from examples/J1 $bin/page_infer
same 'page_infer, J1 whole' '' '3 56 0 0\n'
fed bytes $bin/page_infer examples/J1.script
cp examples/J1 "$made/expected"
compared=$((compared + 1))
if cmp -s "$made/expected" "$made/printed" && [ ! -s "$made/said" ]; then
    echo "same: page_infer, J1's script byte by byte: J1"
else
    failed=$((failed + 1))
    echo "DIFFERENT: page_infer, J1's script byte by byte"
fi
fed nonblocking $bin/page_infer examples/J1.script "$made/00"
same "page_infer, J1's script and later 00, not waited for" '' "$blocked"
proposal="ok 65 $(tail -c 65 examples/J1 | od -An -v -tx1 | tr -d ' \n' | tr a-f A-F)"
{ printf '\070\000\000\000'; cat examples/J1.script; } > "$made/script"
from "$made/script" $bin/infer_records
same 'infer_records, a record' "$proposal\n" ''
fed bytes $bin/infer_records "$made/script" "$made/script"
same 'infer_records, two records byte by byte' "$proposal\n$proposal\n" ''
{ cat "$made/script"; head -c 59 "$made/script"; } > "$made/cut"
from "$made/cut" $bin/infer_records
same 'infer_records, a record and 59 bytes of it' "$proposal\n" "$cut"

# The program over the calls for C.
cc -o "$made/host" examples/host.c target/staticlib/libexports.a
from examples/J1 "$made/host"
same 'host, J1' '0 0 0 0\n0 0 0 0\n0 0 0 0 65\n0 0 0 0\n' ''
from / "$made/host"
same 'host, a directory' '' "$directory"
compared=$((compared + 1))
if "$made/host" < / 2> "$made/said"; then
    failed=$((failed + 1))
    echo "DIFFERENT: host, a directory: its status is 0"
else
    echo "same: host, a directory: its status is $?"
fi

echo "$compared compared, $failed different"
[ "$failed" -eq 0 ]
