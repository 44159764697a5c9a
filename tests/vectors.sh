#!/bin/sh
# vectors.sh VECTORS: makes anew what the programs of the gate read and have to print. VECTORS is the folder of supplied vectors; the
# random records and those at the limits come from tests/independent, always the same for these seeds. The records called blank have
# much blank text, those called frames many shows in a frame, those called absent many attributes that can be absent, those called
# kinds elements that are wrong in several ways.
set -eu
vectors=$(cd "$1" && pwd)
# What the calls answer since the newest request; it takes the place of the folders of earlier ones.
newest="$vectors/F-6"
cd "$(dirname "$0")/.."
: "${CARGO_TARGET_DIR:=$PWD/target/independent}"
export CARGO_TARGET_DIR
cargo build --release --offline --quiet --manifest-path tests/independent/Cargo.toml
made=$(mktemp -d)
trap 'rm -rf "$made"' EXIT
make="$CARGO_TARGET_DIR/release"
"$make/make-pages" 1 4000 "$made/pages.bin" "$made/pages.verdicts"
"$make/make-jobs" 1 2000 "$made/jobs.bin" "$made/jobs.verdicts"
"$make/limits" "$made/limits.bin" "$made/limits.verdicts"
"$make/job-limits" "$made/job-limits.bin" "$made/job-limits.verdicts"
"$make/make-scripts" 1 1000 "$made/scripts.bin" "$made/scripts.lines"
"$make/make-pages" 2 2000 "$made/blank-pages.bin" "$made/blank-pages.verdicts" blank
"$make/make-jobs" 2 1000 "$made/blank-jobs.bin" "$made/blank-jobs.verdicts" blank
"$make/make-scripts" 2 500 "$made/blank-scripts.bin" "$made/blank-scripts.lines" blank
"$make/make-jobs" 3 1000 "$made/framed-jobs.bin" "$made/framed-jobs.verdicts" frames
"$make/make-scripts" 3 500 "$made/framed-scripts.bin" "$made/framed-scripts.lines" frames
"$make/make-pages" 4 1000 "$made/absent-pages.bin" "$made/absent-pages.verdicts" absent
"$make/make-jobs" 4 1000 "$made/absent-jobs.bin" "$made/absent-jobs.verdicts" absent
"$make/make-scripts" 4 500 "$made/absent-scripts.bin" "$made/absent-scripts.lines" absent
"$make/make-pages" 5 1000 "$made/kinds-pages.bin" "$made/kinds-pages.verdicts" kinds
"$make/make-jobs" 5 1000 "$made/kinds-jobs.bin" "$made/kinds-jobs.verdicts" kinds

# moved PROGRAM RECORDS LINES: the lines of supplied records, of which F-5 and F-6 have moved some. Without them the independent program
# prints the supplied ones.
moved() {
    "$make/$1" before-F-5 < "$2" | cmp - "$3" >&2
    "$make/$1" < "$2"
}

# length N: N as 32 bits, lowest byte first.
length() {
    printf "$(printf '\\%03o\\%03o\\%03o\\%03o' $(($1 % 256)) $(($1 / 256 % 256)) $(($1 / 65536 % 256)) $(($1 / 16777216)))"
}

# A slice that is longer than any buffer: the file's bytes, and zeros.
too_long() {
    length 75000
    cat "$1"
    head -c $((75000 - $(wc -c < "$1"))) /dev/zero
}

# A job of 65,535 bytes that is accepted, and a byte more.
[ "$(head -n 1 "$made/job-limits.verdicts")" = '0 0 0 0' ]
{ tail -c +5 "$made/job-limits.bin" | head -c 65535; printf '\000'; } > crates/page_check/stdin
echo '1 0 0 0' > crates/page_check/stdout

# repeated N BYTES: bytes, in octal, N times.
repeated() {
    for _ in $(seq "$1"); do printf "$2"; done
}

# A job that takes the most stack: its template is 16 elements in one another, each with an attribute that can be absent, and the clause
# of their rule has 16 connectives above `13`.
{
    printf '\001\001\002\000\003\001\004'
    repeated 16 '\022'
    printf '\023\005\001\040'
    repeated 16 '\043\001\045\000\000'
    repeated 16 '\046'
    printf '\047\057\061\000\001\001\001\067\000\002\002\070\077\100\000\000\101\000'
    printf '\100\001\000\101\001\106\000\001\100\002\000\101\001\106\000\001\117'
} > "$made/deep"

# At the end this job, one that is too long, J1, and a byte of a length: no line is for that one.
{
    cat "$vectors"/jobs-*.bin "$newest/job.bin" "$made/jobs.bin" "$made/blank-jobs.bin" "$made/framed-jobs.bin" "$made/absent-jobs.bin" "$made/kinds-jobs.bin" "$made/job-limits.bin"
    length "$(wc -c < "$made/deep")"
    cat "$made/deep"
    too_long examples/J1
    length 121
    cat examples/J1
    printf '\000'
} > crates/check_records/stdin
{
    for supplied in "$vectors"/jobs-*.bin; do
        moved check-records "$supplied" "${supplied%.bin}.verdicts"
    done
    cat "$newest/job.lines" "$made/jobs.verdicts" "$made/blank-jobs.verdicts" "$made/framed-jobs.verdicts" "$made/absent-jobs.verdicts" "$made/kinds-jobs.verdicts" "$made/job-limits.verdicts"
    echo '0 0 0 0'
    echo '1 0 0 0'
    echo '0 0 0 0'
} > crates/check_records/stdout

# At the end a vocabulary and a page that are too long, a page that is right, and one of which 8 of 16,777,224 bytes come.
head -c 23 examples/page.records | tail -c 19 > "$made/vocabulary"
tail -c 8 examples/page.records > "$made/page"
{
    cat "$vectors/pages.bin" "$newest/judge.bin" "$made/pages.bin" "$made/blank-pages.bin" "$made/absent-pages.bin" "$made/kinds-pages.bin" "$made/limits.bin"
    too_long "$made/vocabulary"
    length 8
    cat "$made/page"
    length 19
    cat "$made/vocabulary"
    too_long "$made/page"
    cat examples/page.records
    length 19
    cat "$made/vocabulary"
    length 16777224
    cat "$made/page"
} > crates/judge_records/stdin
{
    moved judge-records "$vectors/pages.bin" "$vectors/pages.verdicts"
    cat "$newest/judge.lines" "$made/pages.verdicts" "$made/blank-pages.verdicts" "$made/absent-pages.verdicts" "$made/kinds-pages.verdicts" "$made/limits.verdicts"
    echo '1 0 0 0'
    echo '1 0 1 0'
    echo '0 0 0 0'
} > crates/judge_records/stdout

# At the end a script that is too long, J1's, and a byte of a length.
{
    cat "$newest/infer.bin" "$made/scripts.bin" "$made/blank-scripts.bin" "$made/framed-scripts.bin" "$made/absent-scripts.bin"
    too_long examples/J1.script
    length 56
    cat examples/J1.script
    printf '\000'
} > crates/infer_records/stdin
{
    cat "$newest/infer.lines" "$made/scripts.lines" "$made/blank-scripts.lines" "$made/framed-scripts.lines" "$made/absent-scripts.lines"
    echo '1 0 0 0'
    echo "ok 65 $(tail -c 65 examples/J1 | od -An -v -tx1 | tr -d ' \n' | tr a-f A-F)"
} > crates/infer_records/stdout

# J1's script, of which J1 comes.
cp examples/J1.script crates/page_infer/stdin
cp examples/J1 crates/page_infer/stdout
