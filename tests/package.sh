#!/bin/sh
# Makes the Debian package, unpacks it into a folder of its own, and draws with what lies there, without a kit.
set -eu
root=$(cd "$(dirname "$0")/.." && pwd)
folder=$(mktemp -d)
trap 'rm -rf "$folder"' EXIT
cd "$root"
for tool in dpkg-deb make; do
    if ! command -v $tool > /dev/null; then
        echo "package: not run: there is no $tool"
        exit 77
    fi
done
mkdir "$folder/left"
TMPDIR=$folder/left make -s deb TO="$folder" > "$folder/said" 2>&1 || { cat "$folder/said" >&2; exit 1; }
[ -z "$(ls -A "$folder/left")" ] || { echo "package: make left a folder in the temporary folder" >&2; exit 1; }
if GIT_DIR=$folder/none make -s deb TO="$folder/left" > "$folder/said" 2>&1; then exit 1; fi
grep -q '^make deb: the version has' "$folder/said"
dpkg-deb -x "$folder"/figgroup_*_amd64.deb "$folder/root"
PATH=$folder/root/usr/bin:/usr/bin:/bin
mkdir "$folder/day"
cd "$folder/day"
[ "$(command -v figgroup)" = "$folder/root/usr/bin/figgroup" ]
figgroup fig < "$root/examples/red-box/input.jsonl" | cmp - "$root/examples/red-box/expected.fig"
draw site 3 
FIG_EDITOR="cp '$root/examples/draw/saved/first-figure.fig'" draw 2>&1 | grep -q '^figgroup: made 3.1'
draw bring "$root/examples/tutorial/house.fig" 2>&1 | grep -q '^figgroup: made 3.2 to 3.6'
# The page is found, and says what it lacks: designers, or python3-tornado.
draw page 2>&1 | grep -q 'who draws\|python3-tornado'
for page in figgroup draw; do
    cmp "$folder/root/usr/share/man/man1/$page.1" "$root/share/man/$page.1"
    cmp "$folder/root/usr/share/bash-completion/completions/$page" "$root/share/bash-completion/figgroup"
done
# The pages stand as the README links to them, and as messages of draw name them. Each of their links leads somewhere.
for page in docs/FAULTS.md docs/pictures/way.svg examples/red-box/input.jsonl; do
    cmp "$folder/root/usr/share/doc/figgroup/$page" "$root/$page"
done
"$root/tools/links.py" "$folder/root/usr/share/doc/figgroup"
echo "package: draws"
