#!/bin/sh
# believed.sh: what has to be believed rests on no contract of an inner function, and docs/ARCHITECTURE.md lists every file of it.
set -eu
cd "$(dirname "$0")/.."
status=0
count=0
for file in crates/*/specs/*.antt; do
    module=$(basename "$file" .antt)
    case $module in Lib | Inner) continue ;; esac
    name=$(basename "$(dirname "$(dirname "$file")")")/$module
    count=$((count + 1))
    if grep -n '\.specs\.Inner\.' "$file"; then
        echo "FAILED: $name uses a contract"
        status=1
    fi
    if ! grep -q "^|.*\b$name\b.*|.*|$" docs/ARCHITECTURE.md; then
        echo "FAILED: docs/ARCHITECTURE.md does not list $name"
        status=1
    fi
done
echo "$count files of definitions"
exit $status
