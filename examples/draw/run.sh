#!/usr/bin/env bash
# Types each word of draw in new folders, and shows what comes. In place of a window stands a command that copies what
# xfig saved, or changes drawing.fig. The program is that of PATH, or else the one beside draw.
set -euo pipefail
example=$(cd "$(dirname "$0")" && pwd)
root=$(cd "$example/../.." && pwd)
saved=$example/saved
folder=$(mktemp -d)
trap 'rm -rf "$folder"' EXIT
cd "$folder"
unset FIG_EDITOR
export GIT_CONFIG_GLOBAL=/dev/null GIT_CONFIG_NOSYSTEM=1 GIT_DEFAULT_HASH=sha1 TZ=UTC
export GIT_AUTHOR_DATE='2026-05-01 10:00 +0000' GIT_COMMITTER_DATE='2026-05-01 10:00 +0000'

# Types a line. Of a refused drawing only the line is shown, as `figgroup take` has tests of its own.
say() {
    local status=0
    echo "\$ $1" | sed "s|$saved/||; s|$root/||"
    bash -o pipefail -c "$1" 2>&1 | sed "s/\(drawing line [0-9]*\):.*/\1/" || status=$?
    [ "$status" = 0 ] || echo "-- status $status"
}

heading() {
    echo
    echo "== $*"
}

draw() {
    "$root/bin/draw" "$@"
}
figgroup() {
    PATH=$PATH:$root/bin command figgroup "$@"
}
export -f draw figgroup
export root

# The commands behind a heading of docs/FAULTS.md.
way_out() {
    awk -v heading="$1" '/^#/ { here = $0 == heading } /^```/ { inside = !inside; next } here && inside' \
        "$root/docs/FAULTS.md"
}

# A folder with a house and a fir that stands at two places.
begin() {
    mkdir "$folder/$1"
    cd "$folder/$1"
    cp "$root"/examples/named/site-*.jsonl .
}

heading "an empty drawing"
mkdir "$folder/empty"
cd "$folder/empty"
say "draw"
say "draw list"
say "draw site 9"
say "draw site 3"
say "draw site 4"
say "draw undo"
say "FIG_EDITOR='cp $saved/first-figure.fig' draw"
say "cat site-3.jsonl"
say "draw undo"
say "draw list"
say "draw undo"
say "draw redo"
say "draw list"
say "draw redo"

heading "figures created by words"
mkdir "$folder/create"
cd "$folder/create"
draw site 1
say "draw create box place 10 20 size 300 400 colour ff0000"
say "draw create circle place 0 0 size 30 30 colour '#00FF00'"
say "draw create polygon place 5 5 points 0,0 90,0 0,90 colour 0000ff"
say "draw create ellipse place 0 0 size 10 30 colour 000000 layer 5"
say "draw list"
say "grep -o '\"layer\":[0-9]*' site-1.jsonl"
say "draw create star place 0 0"
say "draw create box"
say "draw create box red"
say "draw create polygon place 0 0 size 3 4 colour ff0000"
say "draw create box place size 3 4 colour ff0000"
say "draw create box place 0 0 size 3 wide colour ff0000"
say "draw create box place 0 0 size 3 4 colour red"
say "draw create circle place 0 0 size 3 4 colour ff0000"
say "draw create box place 3000000 0 size 3 4 colour ff0000"
say "draw undo"
say "draw list | wc -l"

heading "a window"
begin window
say "draw site 2"
say "FIG_EDITOR=true draw"
say "FIG_EDITOR='cp $saved/move-version.fig' draw"
say "tail -n 1 site-2.jsonl"
say "draw undo"
say "FIG_EDITOR=false draw"
say "FIG_EDITOR='sed -i \"s/4050 660/4000 660/g\" drawing.fig; false' draw"
say "FIG_EDITOR=true draw"
say "FIG_EDITOR=no-editor draw 2>&1 | grep -v 'not found'"
say "FIG_EDITOR='draw undo; true' draw"
say "ls"

heading "a conflict settled in the window"
begin settled
draw site 2 > /dev/null
say "FIG_EDITOR='cp $saved/delete-version.fig' draw"
say "draw status"
say "draw undo"
say "draw list 1.6 | cut -d ' ' -f 1-7"

heading "a drawing refused, then mended"
begin mended
draw site 2 > /dev/null
say "FIG_EDITOR='cp $saved/refused-outline.fig' draw"
say "draw move 10 10 1.1"
say "draw status"
say "FIG_EDITOR=true draw"
say "FIG_EDITOR=\"sed -i 's/^2 2 0 1 0 7 50 -1 -1/2 2 0 0 0 7 50 -1 20/'\" draw"
say "tail -n 1 site-2.jsonl"
say "ls"
say "draw list | sed -n 1,2p"
say "FIG_EDITOR='cp $saved/refused-outline.fig' draw > /dev/null 2>&1"
say "rm drawing.fig"
say "FIG_EDITOR='cp $saved/draw-kinds.fig' draw"
say "draw list"

heading "a drawing refused, then made plain"
begin plain
draw site 2 > /dev/null
say "FIG_EDITOR='cp $root/examples/plain/gold.fig' draw"
say "draw plain"
say "tail -n 1 site-2.jsonl"
say "ls"
say "draw plain"
say "FIG_EDITOR='cp $root/examples/plain/old.fig' draw > /dev/null 2>&1"
say "draw plain"

heading "a drawing with compounds alone"
begin compounds
draw site 2 > /dev/null
say "FIG_EDITOR=\"sed -i '0,/^# figgroup [0-9]/s//6 0 0 4800 3000\\n&/; s/4050 660/4000 660/g; \\\$a -6'\" draw"
say "ls"
say "draw list 1.1"

heading "a drawing brought in"
mkdir "$folder/bring"
cd "$folder/bring"
# What plain.awk tells is tried by examples/plain.
bring() {
    "$root/bin/draw" bring "$@" 2>&1 | sed '/^plain/d'
}
export -f bring
cp "$root/examples/tutorial/house.fig" .
say "draw bring house.fig"
draw site 3
say "draw bring stall.fig"
say "draw bring stall.png"
say "bring $root/examples/plain/old.fig"
head -c 17000000 /dev/zero | tr '\0' ' ' > long.fig
say "draw bring long.fig"
say "bring house.fig"
say "draw list"
say "draw undo"
say "draw list"
# In place of plain.awk a script that tells of two groups.
mkdir -p other/share/figgroup other/bin
cp -r "$root/draw" "$root/page" other
cp "$root/bin/draw" other/bin
cat > other/share/figgroup/plain.awk << 'END'
{ print }
END { print "box-10 2 3" > groups; print "text-14 4 4" > groups; print "box-10 4 5" > groups; print "e\033[2J 1 5" > groups }
END
say "other/bin/draw bring house.fig"
say "cat names"
rm -r other
head -n 9 "$root/examples/red-box/expected.fig" > many.fig
for i in $(seq 996); do printf '2 2 0 0 0 0 50 -1 20 0.000 0 0 -1 0 0 5\n\t 0 0 %d 0 %d 9 0 9 0 0\n' $i $i; done >> many.fig
say "bring many.fig"
say "wc -l < site-3.jsonl"

heading "names and ranges"
begin names
draw site 1 > /dev/null
say "draw name"
say "draw name house 1.3-1.5"
say "draw name fir 1.6"
say "draw name fir"
say "draw name"
say "draw list"
say "draw move 10 0 house 1.1"
say "draw move 10 0 1.1-1.5"
say "draw set 1.3-1.4 colour ffffff"
say "draw delete house"
say "draw restore house 1.1"
say "draw restore 1.1-1.6"
say "draw restore house"
say "draw copy 0 10 1.1-1.6 | grep -v made"
say "draw log house | tail -n 3"
say "draw list house | cut -d ' ' -f 1-5"
say "draw status"
say "draw name sky 1.1-1.10001"
say "draw name sky 1.1-1.1000000000"
say "draw name sky 1.3-1.1"
say "draw name sky 1.1-2.3"
say "draw name 1.1 1.2"
say "draw name wäre 1.2"
say "draw name roof house"
say "draw name shed"
say "draw move 1 1 shed"
say "draw move 1 1 1.7-1.9"
say "draw site 1 Ann"
say "draw site 1 \$'A\\e[31m'"
say "draw site 1 'Ann the first of all who drew here, and the last'"
say "cat designers"

heading "names and designers that others wrote"
begin others
draw site 2 > /dev/null
printf 'car 1.1-1.3\nbad\e[2J 1.1\n2cars 1.1\nhuge 1.1-1.1000000000\nnest car\n\ncar 1.5\nfar 3.1-3.9\nbin \xff\xfe\n' > names
printf '1 Ann\e[31m\n9 Eva\nBen\n2 Ben the second\n2 Ben\n' > designers
say "draw name"
say "draw status"
say "draw move 10 0 car"
say "draw move 10 0 far"
for i in $(seq 20); do echo "n$i 1.1-1.10000"; done > names
say "draw name | cut -c 1-20 | sort | tail -n 3"
head -c 10000000 /dev/zero | tr '\0' '\n' > names
cp names designers
say "draw status"
say "draw move 10 0 car"
say "draw name car 1.1"
rm names designers
ln -s ../kept names
say "draw status"
say "draw name car 1.1"
rm names

heading "one side of all conflicts"
begin sides
draw site 1 > /dev/null
say "draw keep --mine"
say "draw keep --mine"
say "draw list 1.6 | grep -c shown"
say "draw undo"
say "draw keep --theirs 1.6"
say "draw undo"
say "draw keep --mine 1.1 1.6"
say "draw undo"
say "draw keep --site 3"
say "draw keep --site 2 1.9"
say "draw keep --site 9"
say "draw keep --mine"
say "draw undo"
# Site 3 knew nothing of the two, moved the fir, and coloured the roof as site 1 did at once.
{ head -n 6 site-1.jsonl
  echo '{"site":3,"do":"set","object":[1,6],"set":"place","to":[1900,2700]}'
  echo '{"site":3,"do":"set","object":[1,5],"set":"colour","to":"ff0000"}'; } | figgroup edit --site 3 > made 2> /dev/null
draw set 1.5 colour 000000 2> /dev/null
cp made site-3.jsonl
say "draw status"
say "draw keep --theirs"
say "draw keep --theirs 1.5"
say "draw keep --site 3"
say "draw status"

heading "many alike"
begin alike
draw site 1 > /dev/null
cp site-1.jsonl before
draw keep --mine 2> /dev/null
draw name house 1.3-1.5
cp site-*.jsonl ..
draw move 50 0 house 1.1 2> /dev/null
draw set 1.2 size 5000 4000 2> /dev/null
draw set 1.6 points 0,0 10,0 0,10 2> /dev/null
cp site-1.jsonl ../ann.jsonl
cp ../site-1.jsonl .
rm site drawing.last
draw site 2 > /dev/null
draw move 0 -30 1.3-1.5 1.1 2> /dev/null
draw set 1.2 size 4000 2000 2> /dev/null
draw set 1.6 points $(for i in $(seq 0 20); do echo "$i,$((i * i))"; done) 2> /dev/null
cp ../ann.jsonl site-1.jsonl
printf '1 Ann\n2 Ben\n' > designers
say "draw status"
say "draw keep --mine house"
say "draw keep --theirs 1.1-1.2"
say "draw keep --theirs"
say "draw status"

heading "hidden, and changed at once"
begin hidden
draw site 1 > /dev/null
draw keep --mine 2> /dev/null
draw name house 1.3-1.5
cp site-*.jsonl ..
draw delete 1.1 house 2> /dev/null
draw delete 1.2 2> /dev/null
cp site-1.jsonl ../ann.jsonl
cp ../site-1.jsonl .
rm site drawing.last
draw site 2 > /dev/null
draw move 10 10 1.1 house 2> /dev/null
draw delete 1.2 2> /dev/null
echo '{"site":2,"do":"set","object":[1,6],"set":"place","to":[1,1],"aim":[[2,1]]}' > ../commands
cat ../site-*.jsonl ../commands | figgroup edit --site 2 2> /dev/null | sed 's/"id":\[2,2\]/"id":[2,7]/' > /dev/null
cp ../ann.jsonl site-1.jsonl
say "draw status"
say "draw keep --theirs"
say "draw restore 1.1"
say "draw delete house"
say "draw status"
# Who deletes it again agrees, and takes nothing from what is then shown again.
say "draw delete 1.2"
say "draw delete 1.2"
say "draw restore 1.2"
say "draw delete 1.2"
# Each hides a version that the other one keeps.
begin crossed
{ cat site-*.jsonl; echo '{"site":1,"do":"set","object":[1,6],"set":"shown","to":false,"aim":[[2,1]]}'; } |
    figgroup edit --site 1 > ../ann 2> /dev/null
{ cat site-*.jsonl; echo '{"site":2,"do":"set","object":[1,6],"set":"shown","to":false,"aim":[[1,7]]}'; } |
    figgroup edit --site 2 > ../ben 2> /dev/null
cat ../ann >> site-1.jsonl
cat ../ben >> site-2.jsonl
say "draw status"
# A version that was settled away is changed by one who did not know it.
begin ghost
{ cat site-*.jsonl; echo '{"site":2,"do":"set","object":[1,6],"set":"place","to":[1,1],"aim":[[2,1]]}'; } |
    figgroup edit --site 2 > ../ben 2> /dev/null
draw site 1 > /dev/null
draw keep --mine 2> /dev/null
cat ../ben >> site-2.jsonl
say "draw status"
say "draw keep --mine 1.6"
say "draw status"
say "draw list 1.6 | cut -d ' ' -f 1-20"

heading "undo and redo, word by word"
begin undo
draw site 1 > /dev/null
say "draw redo"
say "draw move 10 0 1.1"
say "draw delete 1.2"
say "draw copy 10 10 1.5"
say "draw set 1.3 layer 1"
say "draw list > ../then"
say "draw undo"
say "draw undo"
say "draw undo"
say "draw undo"
say "draw undo"
say "draw redo"
say "draw redo"
say "draw redo"
say "draw redo"
say "draw redo"
say "draw list | sed 's/^1.[0-9]*:/1.N:/' | cmp - <(sed 's/^1.[0-9]*:/1.N:/' ../then)"
say "draw undo"
say "draw set 1.4 colour 000000"
say "draw redo"
say "draw undo"
say "draw undo"
# What another program wrote between is not undone.
echo '{"site":1,"do":"set","object":[1,3],"set":"colour","to":"00ff00"}' > commands
cat site-*.jsonl commands | figgroup edit --site 1 >> site-1.jsonl 2> /dev/null
say "draw undo"
say "draw set 1.3 colour 0000ff"
say "draw undo"
say "draw undo"
# The note of an older draw has one line.
sed -i 1q drawing.last
say "draw undo"
say "draw undo"
# At most 100 words are noted.
awk '{ print } /^undo/ { for (i = 0; i < 100; i++) printf " 1.1-1.1" > "/dev/stderr" }' drawing.last > /dev/null 2> ../spans
sed -i "s/^undo.*/undo$(cat ../spans)/" drawing.last
say "draw set 1.3 colour 0000ff"
say "sed -n '/^undo/p' drawing.last | wc -w"
say "sed -n '/^undo/p' drawing.last | grep -o '[^ ]*\$'"

heading "pictures"
begin pictures
say "draw picture house.pdf"
say "head -n 1 house.pdf"
say "draw picture house.svg"
say "grep -c '<polygon' house.svg"
mkdir without
ln -s "$(command -v python3)" "$(command -v git)" without
say "PATH=\$PWD/without \$root/bin/draw picture house.pdf"
say "PATH=\$PWD/without \$root/bin/draw picture house.png 2>&1 | tail -n 1"

heading "an old drawing"
begin old
draw site 2 > /dev/null
say "FIG_EDITOR='cp $saved/refused-outline.fig' draw > /dev/null 2>&1"
echo '{"site":1,"do":"set","object":[1,1],"set":"place","to":[1000,600]}' > commands
cat site-*.jsonl commands | figgroup edit --site 1 >> site-1.jsonl 2> /dev/null
say "FIG_EDITOR='cp $saved/move-version.fig' draw"
say "tail -n 1 site-2.jsonl"
say "FIG_EDITOR='cp $saved/refused-outline.fig' draw > /dev/null 2>&1"
echo '{"site":2,"do":"set","object":[1,1],"set":"place","to":[2000,600]}' > commands
cat site-*.jsonl commands | figgroup edit --site 2 >> site-2.jsonl 2> /dev/null
say "FIG_EDITOR='cp $saved/move-version.fig' draw"
say "draw undo"
say "rm drawing.fig"
say "draw undo"
# What was drawn is kept by a drawing of the newest.
say "FIG_EDITOR='cp $saved/draw-kinds.fig' draw 2>&1 | tail -n 1"
say "mv drawing.fig kept.fig"
say "FIG_EDITOR='tail -n 2 kept.fig | tee -a' draw > /dev/null"
say "draw list | sed -n 1,3p"

heading "a file that is missing is told before the window opens"
begin missing
draw site 2 > /dev/null
mv site-1.jsonl away
say "FIG_EDITOR='echo opened' draw"
say "ls"
mv away site-1.jsonl
: > site-2.jsonl
echo '{"site":1,"do":"set","object":[1,6],"set":"layer","to":5}' > commands
cat "$root"/examples/named/site-*.jsonl commands | figgroup edit --site 1 >> site-1.jsonl 2> /dev/null
say "FIG_EDITOR='echo opened' draw"

heading "a word that is killed"
begin killed
draw site 1 > /dev/null
cp site-1.jsonl before
mkdir stubs
# Kills the word as it moves a file to this name, before or behind that; or fails to bring a file onto the disk.
cat > stubs/draw.py << 'END'
import os, runpy, sys
move = os.rename
def rename(part, path):
    if os.environ.get('WHEN') == 'before' and path == os.environ['NAME']: os.kill(os.getpid(), 9)
    move(part, path)
    if os.environ.get('WHEN') == 'behind' and path == os.environ['NAME']: os.kill(os.getpid(), 9)
def fsync(file):
    raise OSError(28, 'No space left on device')
os.rename = rename
if 'FULL' in os.environ: os.fsync = fsync
sys.argv[:2] = [sys.argv[1]]
runpy.run_path(sys.argv[0], run_name='__main__')
END
stopped() {
    python3 -S stubs/draw.py "$root/bin/draw" "$@"
}
killed() {
    (WHEN=$1 NAME=$2 stopped "${@:3}" & wait $!) > /dev/null 2>&1 || echo "status $?"
}
export -f stopped
export -f killed
say "killed before drawing.last move 10 10 1.1"
say "draw list 1.1"
say "draw move 10 10 1.1"
say "killed before site-1.jsonl move 10 10 1.1"
say "draw move 10 10 1.1"
say "killed behind site-1.jsonl move 10 10 1.1 1.5"
say "tail -n 2 site-1.jsonl"
say "draw undo"
# What the server of the page was adding, with a part of it added; and what is none of its files.
tail -n 1 site-1.jsonl | sed 's/1,13\]/1,14]/; s/"past":\[12/"past":[13/' > new
(echo "$(wc -c < site-1.jsonl) {}"; cat new) > drawing.redo-1
head -c 20 new >> site-1.jsonl
say "draw undo"
say "tail -n 1 site-1.jsonl | cmp - new"
echo 'a[$(touch ran)] {}' > drawing.redo-1
rm new drawing.taken-1
say "draw undo"
say "FIG_EDITOR='cp $saved/draw-kinds.fig' killed behind drawing.fig"
say "FIG_EDITOR=true draw 2>&1 | grep -v 'place: \|keep --'"
say "FIG_EDITOR='tail -n 2 $saved/draw-kinds.fig | tee -a' killed behind site-1.jsonl"
say "draw list | sed -n 1,2p"
say "FIG_EDITOR=true draw 2>&1 | grep -v 'place: \|keep --'"
say "draw list | sed -n 1,2p"
cp site-1.jsonl before
say "FULL=1 stopped move 10 10 1.1"
say "FULL=1 stopped picture 2>&1 | tail -n 1"
say "cmp before site-1.jsonl"
say "draw undo"
rm -r stubs
say "ls"

heading "links and names"
begin links
draw site 1 > /dev/null
echo kept > ../kept
ln -s ../kept drawing.last
say "draw move 10 10 1.1"
rm drawing.last
ln -s /dev/zero site-3.jsonl
say "draw list"
rm site-3.jsonl
mkfifo site-3.jsonl
say "draw list"
rm site-3.jsonl
say "cat ../kept"
echo '{' > $'site-3 &\\1\n\e[31m.jsonl'
say "draw list"
rm site-3*
mkdir $'a [b] & \n\\c'
cd $'a [b] & \n\\c'
git init -q .
mkdir 'sub [a] *'
cd 'sub [a] *'
cp "$root"/examples/named/site-*.jsonl .
say "draw site 1"
say "draw move 10 10 1.1"
say "draw picture 'one & two.png' 2>&1 | tail -n 1"
say "draw anew 'new & old' 2>&1 | tail -n 1"
say "git status --short -uall . | grep -c 'site\$\|drawing'"
# A repository that was begun behind draw site.
begin later
draw site 1 > /dev/null
git init -q .
say "draw move 10 10 1.1"
say "git status --short"

heading "words for objects"
begin objects
draw site 1 > /dev/null
say "draw list"
say "draw move 100 -50 1.6 1.1"
say "tail -n 3 site-1.jsonl"
say "draw undo"
say "draw copy 600 0 1.5 1.1"
say "draw list | sed -n 1,5p"
say "draw set 1.5 colour b71c1c"
say "draw set 1.5 place 100 200"
say "draw set 1.5 points 0,0 10,0 0,10"
say "draw set 1.5 layer 5"
say "draw set 1.5 shown false"
say "draw set 1.4 size '[30,40]'"
say "tail -n 6 site-1.jsonl"
say "draw delete 1.2 1.6"
say "draw restore 1.2 1.6"
say "draw list 1.6 | cut -d ' ' -f 1-7"
say "draw keep 1.6 2.1"
say "draw delete 1.6"
say "draw restore 1.6"
say "draw list 1.6 | grep -c shown"
say "draw log 1.6"
say "draw picture"
say "draw picture firs.png"
say "cmp drawing.png firs.png"
say "pngtopnm firs.png > firs.ppm"
say "cat site-*.jsonl | figgroup paint --fit --width 800 --height 600 | cmp - firs.ppm"

heading "many objects"
mkdir "$folder/many"
cd "$folder/many"
for i in $(seq 210); do
    echo "{\"site\":1,\"do\":\"create\",\"kind\":\"box\",\"place\":[$i,0],\"size\":[9,9],\"colour\":\"000000\",\"layer\":$i,\"shown\":true}"
done | figgroup edit --site 1 > ../site-1.jsonl 2> /dev/null
cp ../site-1.jsonl .
draw site 1 > /dev/null
say "draw move 5 5 1.1-1.210"
mv site-1.jsonl ../ann.jsonl
cp ../site-1.jsonl .
rm site drawing.last
draw site 2
say "draw move 0 5 1.1-1.210"
cp ../ann.jsonl site-1.jsonl
say "draw name pile 1.1-1.210"
say "draw status"
say "draw keep --theirs"
say "draw status"
say "draw undo"
say "draw status"
say "draw list | sed -n 1p"

heading "what is refused"
begin refused
draw site 1 > /dev/null
cp site-1.jsonl before
say "draw paint"
say "draw help"
say "draw help keep"
say "draw move --help"
say "draw help paint"
say "draw --version | cut -d ' ' -f 1"
say "draw keep fir 1.7"
say "draw keep --site"
say "draw move 10 1.1"
say "draw move 10 10 fir"
say "draw move 10 10 1.1 1.9"
say "draw set 1.9 colour b71c1c"
say "draw set 1.5 colour red"
say "draw set 1.1-1.5 colour red"
say "draw set 1.5 place 100"
say "draw set 1.6 points 0,0 9,0 0,x"
say "draw set 1.5 shown no"
say "draw set 1.5 size 10 10"
say "draw set 1.5 layer high"
say "draw set 1.5 kind box"
say "draw delete"
say "draw delete 1.1 3.4"
say "draw restore 1.1"
say "draw keep 1.6"
say "draw keep 1.6 1.4 3.9"
say "draw move 1000000 0 1.1"
say "draw copy 0 -9999999 1.1-1.2"
say "draw move 1.5 0 1.1"
say "draw picture house.jpg"
say "draw picture nowhere/house.png 2>&1 | tail -n 1"
say "draw watch"
say "cmp before site-1.jsonl"
printf '%s' "$(cat before)" > site-1.jsonl
say "draw delete 1.1"
echo >> site-1.jsonl
say "cmp before site-1.jsonl"
echo '{}' >> site-1.jsonl
say "draw delete 1.1"
say "draw undo"
cp before site-1.jsonl
echo '{"id":[2,2],"object":' >> site-2.jsonl
say "draw delete 1.1"
say "draw delete 1.1-1.3"
say "draw list"
say "FIG_EDITOR=true draw"
sed -i '$d' site-2.jsonl
rm site-1.jsonl
say "draw delete 1.1"
echo 12 > site
say "draw delete 1.1"

heading "a new drawing from today's picture"
begin anew
say "draw anew"
say "draw anew new"
say "ls new"
say "cat site-*.jsonl | figgroup fig > today.fig"
say "figgroup fig < new/site-1.jsonl | cmp - today.fig"
say "draw anew new"
say "cd new && draw site 1"

heading "a page"
mkdir "$folder/page"
cd "$folder/page"
mkdir without
echo "raise ImportError" > without/tornado.py
say "draw page Ann"
say "draw page 9=Ann"
say "draw page 1="
say "draw page 1=Ann --listen"
say "PYTHONPATH=without draw page 1=Ann 2=Ben --port none"
say "ls"

heading "two in git"
mkdir "$folder/git"
cd "$folder/git"
git init -q --bare -b main drawing.git
for name in ann ben; do
    git clone -q drawing.git $name 2> /dev/null
    git -C $name checkout -q -b main 2> /dev/null || true
    git -C $name config user.name $name
    git -C $name config user.email $name@example.org
done
cd ann
say "draw push"
say "draw site 1"
cp "$root/examples/tutorial/house.fig" ..
figgroup import --site 1 < ../house.fig | figgroup edit --site 1 > site-1.jsonl 2> /dev/null
say "draw push"
say "draw status"
say "git status --short"
cd ../ben
say "draw site 2"
say "draw pull"
say "draw set 1.5 colour 4e342e"
say "draw push"
cd ../ann
say "draw set 1.5 colour b71c1c"
say "draw push"
say "draw pull"
say "draw keep 1.5 1.6"
say "draw push"
say "draw log 1.5"
cd ../ben
say "draw pull"
say "draw pull"
say "draw status"
say "draw list | sed -n 1p"
echo '{}' > site-2.jsonl
say "draw push"
git checkout -q site-2.jsonl

heading "one number used twice"
cd ..
git clone -q -c user.name=eva -c user.email=eva@example.org drawing.git eva
cd eva
say "draw site 1"
say "draw set 1.5 colour ffffff"
say "draw copy 600 0 1.1"
say "draw set 1.10 colour ff0000"
(cd ../ann && draw set 1.5 colour 000000 2> /dev/null && draw push > /dev/null)
say "draw pull 2>&1 | grep ^draw"
say "git status --short"
# The way out as docs/FAULTS.md has it, to a number that is free here.
way_out "### One number used twice" | sed 's/new=2/new=3/' > ../way
say "sh ../way"
say "cat site-3.jsonl"
say "draw status"
say "draw push"

heading "what others push takes nothing from this copy"
cd ..
for name in fay gil; do
    git clone -q -c user.name=$name -c user.email=$name@example.org drawing.git $name
done
cd gil
# What fay commits and pushes.
fay() {
    (cd ../fay && git pull -q --no-edit && bash -c "$1" && git add -A -f && git commit -q -m "$1" && git push -q)
}
# gil's file is as it was.
same() {
    cmp ../mine site-4.jsonl && cat site && git log -1 --format=%an
}
export -f same
draw site 4
draw copy 100 100 1.1 2> /dev/null
draw set 1.5 layer 4 2> /dev/null
draw push > /dev/null
cp site-4.jsonl ../mine
fay "echo 1 > site; touch drawing.fig"
say "draw pull"
say "same"
say "ls drawing.fig"
fay "rm drawing.fig; git rm -q --cached site; mv site ../was"
fay "sed -i '\$d' site-4.jsonl"
say "draw pull"
say "same"
say "draw set 1.5 layer 3"
say "draw pull"
cp site-4.jsonl ../mine
fay "git checkout -q HEAD~ -- site-4.jsonl; : > site-1.jsonl"
say "draw pull"
fay "git checkout -q HEAD~ -- site-1.jsonl; sed -i '1s/760/770/' site-4.jsonl"
say "draw pull"
fay "git checkout -q HEAD~ -- site-4.jsonl; sed -i '1s/^/{}\\n/' site-4.jsonl"
say "draw pull"
fay "rm site-4.jsonl"
say "draw pull"
say "cmp ../mine site-4.jsonl"
# The way out as docs/FAULTS.md has it.
way_out "### Lines that others deleted" > ../way
say "sh ../way 2> /dev/null | grep -v '^CONFLICT\|^Automatic merge'"
say "draw pull"
say "cmp ../mine site-4.jsonl"
fay "rm site-2.jsonl; ln -s ../../before site-2.jsonl"
say "draw pull"
fay "rm site-2.jsonl; git checkout -q HEAD~ -- site-2.jsonl; ln -s /dev/zero site-7.jsonl"
say "draw pull"
fay "rm site-7.jsonl; echo one > notes"
echo two > notes
git add notes
git commit -q -m notes
say "draw pull"
git reset -q --hard HEAD~
echo two > notes
say "draw pull"
rm notes
say "draw pull"
# Another drawing of this repository.
mkdir sub
echo 3 > sub/site
echo /sub/site >> .git/info/exclude
fay "mkdir sub; echo 1 > sub/site"
say "draw pull"
say "cat sub/site"
fay "rm -r sub"
say "draw pull"
git add -f site
git commit -q -m site
say "draw push"
git rm -q --cached site
git commit -q -m 'no site'
draw push 2> ../way || true
say "sed 's/commit .*, and/commit N, and/; s/soft [0-9a-f]*/soft N/' ../way"
bash -c "$(sed 's/.*nothing was pushed: //' ../way)" > /dev/null || true  # there is nothing left to commit
say "draw push"

heading "deleted files"
rm site-1.jsonl
say "draw status | grep -v '^site\|waits'"
say "FIG_EDITOR='echo opened' draw"
say "draw pull"
say "git status --short"
say "draw pull"

heading "a log of what others wrote"
mkdir "$folder/log"
cd "$folder/log"
git init -q -b main .
cp "$root"/examples/named/site-*.jsonl .
sed -i 's/"polygon"/"poly\\u001b[2J\\ngon\\u009b"/' site-1.jsonl
cat >> site-2.jsonl << 'END'
{"past":"x"}
{"id":[2,2],"past":[1,"x"]}
{"id":[2,2],"past":[7,1,0,0,0,0,0,0],"aim":5,"set":"place"}
5
{"id":[2,2],"past":[7,1,0,0,0,0,0,0],"object":[1,6],"op":"set","set":"layer","to":"\u001b]0;x\u0007"}
END
git -c user.email=x@example.org -c user.name=$'a) {"id":[1,1],"past":[]} (b\e[2J' add .
git -c user.email=x@example.org -c user.name=$'a) {"id":[1,1],"past":[]} (b\e[2J' commit -q -m odd
say "draw log 2> /dev/null"
say "draw log 2>&1 > /dev/null | cut -d : -f 1-3"

heading "names, undo and a watch among two"
mkdir "$folder/shared"
cd "$folder/shared"
git init -q --bare -b main drawing.git
for name in ann ben; do
    git clone -q -c user.name=$name -c user.email=$name@example.org drawing.git $name 2> /dev/null
    git -C $name checkout -q -b main 2> /dev/null || true
done
cd ann
say "draw site 1 Ann"
say "draw bring $root/examples/tutorial/house.fig"
say "draw name house 1.2-1.3"
say "draw status"
say "draw push"
cd ../ben
say "draw site 2"
say "draw pull"
say "draw name fir 1.4"
say "draw move 100 0 house"
say "draw push"
say "draw set house colour 4e342e"
cd ../ann
say "draw name sun 1.1"
say "draw move 0 -50 house"
say "draw set 1.5 colour b71c1c"
say "draw pull"
say "cat names"
# What was done before the pull is changed back as it was, and stands beside what others did.
say "draw undo"
say "draw undo"
say "draw status"
say "draw redo"
say "draw redo"
say "draw keep --mine"
say "draw push"
# What came of others before a later word stays.
cd ../ben
say "draw pull"
say "draw undo"
say "draw undo"
say "draw set 1.1 layer 0"
say "draw undo"
say "draw push"
cd ../ann
say "(sleep 5; cd ../ben; draw set 1.1 colour ffffff; draw push) > /dev/null 2>&1 & timeout -s INT 36 draw watch --every 15; wait"
say "flock site sh -c 'sleep 2; echo the word ends' & sleep 1; timeout -s INT 15 draw watch; wait"
say "draw watch --every 5"
say "draw watch --every"

heading "what git says is told for what it is"
printf '#!/bin/sh\nprintf "no \\033[31mthanks\\n" >&2\nexit 1\n' > ../drawing.git/hooks/pre-receive
chmod +x ../drawing.git/hooks/pre-receive
draw set 1.1 colour 00ff00 2> /dev/null
say "draw push 2>&1 | grep -v '^To\|^error'"
rm ../drawing.git/hooks/pre-receive
mv ../drawing.git ../elsewhere.git
say "draw pull 2>&1 | sed -n \"s|'/.*/|'|; 1p; \\\$p\""
say "draw push 2>&1 | sed -n \"s|'/.*/|'|; 1p; \\\$p\""
mv ../elsewhere.git ../drawing.git
touch .git/index.lock
say "draw push 2>&1 | sed \"s|'.*/.git/|'.git/|\" | sed -n '1p; \$p'"
rm .git/index.lock
say "draw push"
git checkout -q --detach
say "draw pull"
git checkout -q main
cd ../ben
git pull -q
odd=$'a [b] & \n\\c'
touch "$odd"
git add . && git commit -q -m odd && git push -q
cd ../ann
touch "$odd"
say "draw pull"
rm "$odd"
say "draw pull"
cd ../ben
rm names
ln -s /dev/zero names
git add . && git commit -q -m link && git push -q
cd ../ann
say "draw pull"
cd ../ben
rm names
head -c 10000000 /dev/zero > names
git add . && git commit -q -m long && git push -q
cd ../ann
say "draw pull"
say "draw status"
cd ../ben
head -c 17000000 /dev/zero | tr '\0' '\n' > site-5.jsonl
git add . && git commit -q -m long && git push -q
cd ../ann
say "draw pull"
