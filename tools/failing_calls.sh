#!/usr/bin/env bash
# Lets each allocation of the stored run fail in turn, until a number is reached that no allocation has: each of these
# runs must end in status 6, and what it wrote must be a front of the whole text, and behind it the line of status 6.
# Then a source that can't be read and a sink that can't be written, which end in 4 and 5. It proves nothing, and takes
# some seconds for each allocation.
set -u
cd "$(dirname "$0")/.."
./qconn run </ >/dev/null
[ $? -eq 4 ] || { echo "a source that can't be read isn't status 4"; exit 1; }
./qconn run <examples/hello.script >/dev/full
[ $? -eq 5 ] || { echo "a sink that can't be written isn't status 5"; exit 1; }

cd crates/qconn
said=$(mktemp)
n=1
while :; do
    text=$(rt try --fail-alloc "$n" -- run <stdin 2>"$said")
    status=$(sed -n 's/^run=ended status=\([0-9]*\) .*/\1/p' "$said")
    [ "$status" = 0 ] && break
    [ "$status" = 6 ] || { echo "allocation $n: status $status"; exit 1; }
    front=${text%no memory}
    [ "$front" != "$text" ] && [ "$(head -c "${#front}" stdout; echo .)" = "$front." ] ||
        { echo "allocation $n: wrong text"; exit 1; }
    n=$((n + 1))
done
rm -f "$said"
echo "$((n - 1)) failing allocations: each run ended in status 6"
