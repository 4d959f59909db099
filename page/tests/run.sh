#!/usr/bin/env bash
# Tests the page: its words and rules alone, its server alone, and its pages in a real browser, over the program in bin/ or
# that of FIGGROUP.
#
#   page/tests/run.sh              all tests, two files at a time; SHOTS=FOLDER keeps screenshots there
#   page/tests/run.sh --storm N    four pages and kills, N times
#
# tests/tools.sh installs what is missing. Without a browser it says so, and fails if CI is set. A test that fails once has
# failed.
set -euo pipefail
cd "$(dirname "$0")"

# The tests have a network of their own, if the system allows it. When an address of a machine changes, Chromium stops all
# that it loads (ERR_NETWORK_CHANGED): a page is then an error page, or has no script.
../../tests/tools.sh
own=-n
[ "$(id -u)" = 0 ] || own=-rn
if [ -z "${OWN_NETWORK:-}" ] && unshare "$own" ip link set lo up 2> /dev/null; then
    OWN_NETWORK=1 exec unshare "$own" bash -c 'ip link set lo up && exec ./run.sh "$@"' run "$@"
fi
python=/usr/bin/python3
logs=$(mktemp -d)
trap 'rm -rf "$logs"' EXIT

can_test() {
    command -v chromium > /dev/null && command -v chromedriver > /dev/null && command -v node > /dev/null &&
        "$python" -c 'import tornado, selenium' 2> /dev/null
}

# Runs the tests of files one after the other, and shows what they said where one failed. A file that hangs is ended after
# half an hour: the longest one takes 90 s, and took more than ten minutes on four cores at a load of 35.
run() {
    local file began status=0
    for file; do
        began=$SECONDS
        if timeout --foreground 1800 "$python" -W ignore "$file" > "$logs/$file" 2>&1; then
            echo "page: $file: $(sed -n 's/^Ran \([0-9]* tests*\) in .*/\1/p' "$logs/$file"), $((SECONDS - began)) s$(
                sed -n "s/.*skipped '\(.*\)'$/, skipped: \1/p" "$logs/$file")"
        else
            cat "$logs/$file" >&2
            echo "page: $file failed" >&2
            status=1
        fi
    done
    return "$status"
}

storm() {
    local passed=0 failed=0
    while [ $((passed + failed)) -lt "$1" ]; do
        if run test_storm.py; then passed=$((passed + 1)); else failed=$((failed + 1)); fi
        echo "page: storm: $passed of $((passed + failed)) passed"
    done
    [ "$failed" = 0 ]
}

if ! can_test; then
    echo "page: not tested"
    [ -z "${CI:-}" ]
    exit
fi
if [ "${1-}" = --storm ]; then
    storm "${2:?how often}"
    exit
fi
status=0
if ! node --test *.test.mjs > "$logs/node" 2>&1; then
    cat "$logs/node" >&2
    echo "page: a test in node failed" >&2
    status=1
fi
run test_draw.py test_words.py test_access.py test_large.py test_tutorial.py test_crowd.py &
run test_together.py test_accidents.py test_storm.py test_serve.py test_lost.py test_faults.py test_strangers.py test_kills.py || status=1
wait $! || status=1
exit "$status"
