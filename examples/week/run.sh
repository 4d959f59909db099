#!/usr/bin/env bash
# A week of two designers with thirty objects, in two clones over git. Of each conflict is shown what is told of it and
# the words that settle it; these are counted. The program is that of PATH, or else the one beside draw.
set -euo pipefail
root=$(cd "$(dirname "$0")/../.." && pwd)
folder=$(mktemp -d)
trap 'rm -rf "$folder"' EXIT
cd "$folder"
unset FIG_EDITOR
export GIT_CONFIG_GLOBAL=/dev/null GIT_CONFIG_NOSYSTEM=1 GIT_DEFAULT_HASH=sha1 PATH=$PATH:$root/bin
words=0 before=0

heading() {
    echo
    echo "== $*"
}

# Types a word in the folder of a designer, and shows what comes.
say() {
    echo "$1\$ draw ${*:2}"
    (cd "$1" && draw "${@:2}" 2>&1)
}

# The same, of a word that settles so many objects.
settle() {
    words=$((words + 1))
    before=$((before + $1))
    say "${@:2}"
}

# Types words of which nothing is shown.
quiet() {
    (cd "$1" && draw "${@:2}" > /dev/null 2>&1)
}

# What one has goes to the other one.
send() {
    quiet "$1" pull
    quiet "$1" push
    quiet "$2" pull
}

# Each sends what was done since they met last, and Ann sees it first.
meet() {
    quiet ben push
    say ann pull
    quiet ann push
}

# A box of this site at this place, in a colour.
box() {
    echo "{\"site\":$1,\"do\":\"create\",\"kind\":\"box\",\"place\":[$2,$3],\"size\":[$4,$5],\"colour\":\"$6\",\"layer\":$7,\"shown\":true}"
}

git init -q --bare -b main drawing.git
for name in ann ben; do
    git clone -q -c user.name=$name -c user.email=$name@example.org drawing.git $name 2> /dev/null
    git -C $name checkout -q -b main 2> /dev/null || true
done

heading "Monday: thirty objects"
say ann site 1 Ann
{
    box 1 0 0 9000 6000 bbdefb 0
    box 1 0 4000 9000 2000 8bc34a 1
    box 1 3000 2000 2500 2000 fff8e1 2
    box 1 2800 1500 2900 500 d84315 3
    box 1 4000 3000 500 1000 6d4c41 4
    for x in 3200 3700 4600 5100; do box 1 $x 2300 300 400 90caf9 5; done
    for x in 0 300 600 900 1200 1500 1800 2100; do box 1 $x 3600 100 700 795548 6; done
    for y in 3700 4000; do box 1 0 $y 2300 100 795548 7; done
    box 1 4000 4000 500 2000 bdbdbd 8
    box 1 7000 2500 800 1800 2e7d32 9
} > commands
figgroup edit --site 1 < commands > ann/site-1.jsonl 2> /dev/null
for name in "sky 1.1" "meadow 1.2" "wall 1.3" "roof 1.4" "door 1.5" "windows 1.6-1.9" "fence 1.10-1.19" "fir 1.21"; do
    quiet ann name $name
done
say ann push
say ben site 2 Ben
say ben pull
{
    box 2 7500 500 800 800 ffd54f 20
    for part in "0 0 1800 400" "400 -300 900 300" "200 300 300 300" "1300 300 300 300" "500 -250 300 200" "900 -250 300 200" \
        "0 100 100 100" "1700 100 100 100"; do
        set -- $part
        box 2 $((6000 + $1)) $((5000 + $2)) $3 $4 c62828 21
    done
} > commands
cat ben/site-1.jsonl commands | figgroup edit --site 2 > made 2> /dev/null
cat made >> ben/site-2.jsonl
quiet ben name sun 2.1
quiet ben name car 2.2-2.9
send ben ann
say ann name

heading "Tuesday: both change fir, roof, sun and car"
quiet ann move 300 0 fir
quiet ann set roof colour b71c1c
quiet ann set sun size 600 600
quiet ann move -500 0 car
quiet ben move 0 200 fir
quiet ben set roof colour 4e342e
quiet ben set sun size 1000 1000
quiet ben move 200 100 car
meet
settle 2 ann keep --mine fir roof
settle 9 ann keep --theirs
send ann ben
say ben status

heading "Wednesday: they settle the car, each for the other"
quiet ann move 100 0 car
quiet ben move 0 100 car
send ben ann
send ann ben
settle 8 ann keep --theirs car
settle 8 ben keep --theirs car
meet
settle 8 ann keep --mine car
send ann ben
say ben status

heading "Wednesday: they settle the sun, each for the own one"
quiet ann set sun colour fff176
quiet ben set sun colour ffb300
send ben ann
send ann ben
settle 1 ann keep --mine sun
settle 1 ben keep --mine sun
meet
settle 1 ann keep --theirs sun
send ann ben
say ben status

heading "Wednesday: a rail deleted and coloured, a post deleted by both"
quiet ann delete 1.18 1.10
quiet ben set 1.18 colour 3e2723
quiet ben delete 1.10
meet
settle 1 ann restore 1.18
send ann ben
say ben status

heading "Thursday: three days without a pull"
quiet ann move 0 100 wall windows door
quiet ann move 50 0 fir
quiet ann move 300 300 car
quiet ben move 100 0 wall windows door
quiet ben set fir place 6000 2500
quiet ben move -100 0 car
meet
settle 6 ann keep --theirs wall windows door
settle 9 ann keep --mine
send ann ben
say ben status

heading "Friday: one moves a car that the other one settled"
quiet ann move 10 10 car
quiet ben move -10 -10 car
send ben ann
send ann ben
settle 8 ann keep --mine car
quiet ann push
quiet ben move 5 5 car
say ben pull
settle 8 ben keep --mine car
send ben ann
say ann status

heading "Saturday: the roof, again in two colours"
quiet ann set roof colour ad1457
quiet ben set roof colour 5d4037
meet
settle 1 ann keep --mine
# Both deleted the post, which figgroup's own status tells until one does it knowing both.
settle 1 ann delete 1.10
send ann ben

heading "Sunday"
say ann status
say ben status
for name in ann ben; do
    cat $name/site-*.jsonl | figgroup status --check > /dev/null && echo "$name: figgroup status --check: $?"
    cat $name/site-*.jsonl | figgroup fig > $name.fig
done
cmp ann.fig ben.fig && echo "both write the same FIG"
echo "settled by $words words; by a word for each object it would be $before"
