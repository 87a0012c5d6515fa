#!/usr/bin/env bash
# Checks that the README's commands stand there, and that the first one prints what examples/hello.trace has.
set -u
cd "$(dirname "$0")/.."
first='./qconn run < examples/hello.script'
quick='./qconn try run < examples/hello.script'
second='rt ci'
for command in "$quick" "$first" "$second"; do
    grep -qxF "    $command" README.md || { echo "README.md lacks the command: $command"; exit 1; }
done
trace=$(mktemp)
bash -c "$first" >"$trace" || { echo "the README's first command fails"; exit 1; }
cmp "$trace" examples/hello.trace || { echo "the README's first command prints something else"; exit 1; }
bash -c "$quick" >"$trace" 2>/dev/null || { echo "the README's quick command fails"; exit 1; }
cmp "$trace" examples/hello.trace || { echo "the README's quick command prints something else"; exit 1; }
rm -f "$trace"
lines=$(wc -l <README.md)
[ "$lines" -le 150 ] || { echo "README.md has $lines lines, more than 150"; exit 1; }
echo "the README's commands work"
