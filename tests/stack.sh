#!/bin/sh
# stack.sh: builds the static library and runs each call over all records of the gate, each on a thread with as much stack as
# include/page_check.h states; compares the verdicts. CC names the compiler.
set -eu
cd "$(dirname "$0")/.."
: "${CC:=cc}"
made=$(mktemp -d)
trap 'rm -rf "$made"' EXIT
status=0

echo "tools/build"
tools/build > "$made/said" 2>&1 || { cat "$made/said"; exit 1; }
echo "$CC -O2 -Wall -Wextra -pthread tests/stack.c target/staticlib/libexports.a"
"$CC" -O2 -Wall -Wextra -pthread tests/stack.c target/staticlib/libexports.a -o "$made/stack"

# compare CALL CRATE
compare() {
    "$made/stack" "$1" < "crates/$2/stdin" > "$made/found" || { echo "FAILED: $1 ended with status $?"; status=1; return; }
    if cmp "$made/found" "crates/$2/stdout"; then
        echo "$1: all $(wc -l < "$made/found") lines are those of crates/$2/stdout"
    else
        echo "FAILED: $1"
        status=1
    fi
}

compare job check_records
compare judge judge_records
compare infer infer_records
exit $status
