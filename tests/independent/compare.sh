#!/bin/sh
# compare.sh VECTORS: answers on all records of a folder of vectors, compared line by line.
set -eu
vectors=$(cd "$1" && pwd)
cd "$(dirname "$0")"
: "${CARGO_TARGET_DIR:=target}"
export CARGO_TARGET_DIR
cargo build --release --offline --quiet
programs="$CARGO_TARGET_DIR/release"
work=$(mktemp -d)
trap 'rm -rf "$work"' EXIT
status=0

# differing LINES FOUND: the numbers of the lines that are not the same.
differing() {
    awk 'NR == FNR { line[FNR] = $0; next } line[FNR] != $0 { print FNR } END { if (FNR != n) print "count" }' \
        n="$(wc -l < "$1")" "$1" "$2"
}

# answer PROGRAM RECORDS LINES [before-F-n]: leaves the numbers of the records with another line in $work/differing.
answer() {
    "$programs/$1" ${4:-} < "$2" > "$work/found"
    name="$1 $(basename "$(dirname "$2")")/$(basename "$2")"
    lines=$(wc -l < "$3")
    differing "$3" "$work/found" > "$work/differing"
    differ=$(wc -l < "$work/differing")
}

# compare PROGRAM RECORDS LINES
compare() {
    answer "$@"
    if [ "$differ" -eq 0 ]; then
        echo "$name: all $lines agree"
    else
        echo "$name: $differ of $lines differ"
        status=1
    fi
}

# compare_older REQUEST COMMANDS PROGRAM RECORDS LINES SLICES: the lines are older than the request, and the answers from
# before it are compared. If they are older than the commands too, one of these that the reading came to was refused with 3
# there; only such answers may have moved. COMMANDS is "none" where there are no such commands.
compare_older() {
    answer "$3" "$4" "$5" "before-$1"
    : > "$work/refused"
    if [ "$2" != none ]; then
        "$programs/refused-at" "$2" "$6" "$5" < "$4" > "$work/refused"
    fi
    "$programs/$3" < "$4" > "$work/now"
    moved="$(differing "$work/found" "$work/now" | wc -l) moved from $1 on"
    if grep -vxF -f "$work/refused" "$work/differing" > "$work/unexplained"; then
        echo "$name: $(wc -l < "$work/unexplained") of $lines differ from before $1, and not by a 3 at later commands"
        status=1
    elif [ "$differ" -eq 0 ]; then
        echo "$name: all $lines agreed, $moved"
    else
        echo "$name: $((lines - differ)) of $lines agreed, $differ refused with 3 at $2 before, $moved"
    fi
}

for records in "$vectors"/pages*.bin; do
    compare_older F-5 29,39 judge-records "$records" "${records%.bin}.verdicts" 2
done
for records in "$vectors"/jobs*.bin; do
    # A job refused by 9 to 12 reads.
    awk '{ print ($1 > 8) ? "0 0 0 0" : $0 }' "${records%.bin}.verdicts" > "$work/reading"
    compare_older F-5 29,39 read-records "$records" "$work/reading" 1
    compare_older F-5 29,39 check-records "$records" "${records%.bin}.verdicts" 1
done
for kind in judge:judge:2 check:job:1 infer:infer:1 run:run:2; do
    program="${kind%%:*}-records"
    slices=${kind##*:}
    kind=${kind#*:}
    kind=${kind%:*}
    for older in F-1:F-5:29,39 F-2:F-5:39 F-3:F-5:none F-4:F-5:none F-5:F-6:none; do
        folder="$vectors/${older%%:*}"
        older=${older#*:}
        compare_older "${older%:*}" "${older#*:}" "$program" "$folder/$kind.bin" "$folder/$kind.lines" "$slices"
    done
    for landed in F-6; do
        compare "$program" "$vectors/$landed/$kind.bin" "$vectors/$landed/$kind.lines"
    done
done
exit $status
