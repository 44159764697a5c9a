#!/bin/sh
# host.sh: builds the static library, compiles examples/host.c and examples/host.rs over it, runs both on examples/J1 and compares what
# they print. CC and RUSTC name the compilers.
set -eu
cd "$(dirname "$0")/.."
: "${CC:=cc}" "${RUSTC:=rustc}"
made=$(mktemp -d)
trap 'rm -rf "$made"' EXIT
status=0

fail() {
    echo "FAILED: $*"
    status=1
}

run() {
    echo "$*"
    "$@"
}

echo "tools/build"
tools/build > "$made/said" 2>&1 || { cat "$made/said"; exit 1; }
run "$CC" -O2 -Wall -Wextra -Iinclude examples/host.c target/staticlib/libexports.a -o "$made/host_c"
run "$RUSTC" --edition 2021 -O -L target/staticlib examples/host.rs -o "$made/host_rs"

# The job's verdict, and the page's; a script's, with the length of its proposal, and that of the job with it.
printf '0 0 0 0\n0 0 0 0\n0 0 0 0 65\n0 0 0 0\n' > "$made/expected"
for host in host_c host_rs; do
    "$made/$host" < examples/J1 > "$made/printed" || fail "$host on examples/J1 ended with status $?"
    if diff "$made/expected" "$made/printed"; then
        echo "$host on examples/J1: as expected"
    else
        fail "$host on examples/J1"
    fi
done

# A folder can be opened, and not read.
for host in host_c host_rs; do
    if "$made/$host" < examples > "$made/printed" 2> "$made/said" || [ $? -ne 1 ] || [ -s "$made/printed" ] || [ ! -s "$made/said" ]; then
        fail "$host on what cannot be read"
    else
        echo "$host on what cannot be read: status 1, $(cat "$made/said")"
    fi
done
exit $status
