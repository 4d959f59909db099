#!/bin/sh
# Measures all of figgroup and prints one table, as in bench/results.txt; its rows stand in bench/table.py. It takes at
# most five minutes, and wants four processors that do nothing else.
set -eu
root=$(cd "$(dirname "$0")/.." && pwd)
for words in "bench_lines" "bench_fig scan"; do
    set -- $words
    crate=$1
    shift
    (cd "$root/crates/$crate" && rt run -- "$@") > /dev/null 2>&1 < /dev/null || {
        echo "bench/run.sh: $crate was not built" >&2
        exit 1
    }
done
export PYTHONDONTWRITEBYTECODE=1
exec python3 "$root/bench/table.py"
