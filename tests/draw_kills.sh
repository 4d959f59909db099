#!/usr/bin/env bash
# Kills words of draw by -9 at random moments, so many times, and asks after each: no line is lost, none is half, none
# is double, no id is there twice; the next word goes, and tells what the killed one made. Every other time draw
# alone is killed, and what it had begun, as a window, goes on. Where root can mount a small disk, words find more and
# more room.
#
#     tests/draw_kills.sh [N]
set -euo pipefail
root=$(cd "$(dirname "$0")/.." && pwd)
kills=${1-300}
folder=$(mktemp -d)
disk=
trap 'cd /; [ -z "$disk" ] || umount "$disk"; rm -rf "$folder"' EXIT
export PATH=${FIGGROUP:+${FIGGROUP%/*}:}$root/bin:$PATH
unset FIG_EDITOR

failed() {
    echo "draw_kills: $*" >&2
    exit 1
}

# A drawing of so many polygons of 60 corners, one above the other.
begin() {
    mkdir -p "$1"
    cd "$1"
    rm -f -- *
    draw site 2
    awk -v count="$2" 'BEGIN {
        for (i = 0; i < count; i++) {
            printf "{\"site\":2,\"do\":\"create\",\"kind\":\"polygon\",\"place\":[%d,0],\"points\":[", 100 * i
            for (j = 0; j < 30; j++) printf "[%d,%d],", 10 * j, j % 2
            for (j = 29; j >= 0; j--) printf "[%d,%d]%s", 10 * j, 50 + j % 2, j ? "," : ""
            printf "],\"colour\":\"%06x\",\"layer\":%d,\"shown\":true}\n", i * 99, i + 1
        }
    }' > commands
    figgroup edit --site 2 < commands > site-2.jsonl 2> made || failed "$(cat made)"
    rm commands made
}

# How many polygons are shown.
shown() {
    draw list | wc -l
}

# The own file begins with what it had, each line is an operation, and the numbers are 1, 2 and so on.
whole() {
    cmp -s -n "$(wc -c < "$1")" "$1" site-2.jsonl || failed "a line was lost in $PWD"
    [ -z "$(tail -c 1 site-2.jsonl)" ] || failed "a line is half"
    figgroup check < site-2.jsonl || failed "a line is no operation"
    sed 's/.*"id":\[2,\([0-9]*\)\].*/\1/' site-2.jsonl | awk '$0 != NR { exit 1 }' ||
        failed "a number is missing or twice"
}

# The operations that a word makes where nothing stops it, and for how many milliseconds it may be killed.
wanted() {
    rm -rf ../whole
    cp -r . ../whole
    length=$(date +%s%N)
    (cd ../whole && type_word "$1" > /dev/null 2>&1)
    length=$((($(date +%s%N) - length) / 900000))
    awk -v had="$(wc -l < site-2.jsonl)" 'NR > had' ../whole/site-2.jsonl
}

type_word() {
    case $1 in
    copy) exec draw copy 7 9 $objects ;;
    undo) exec draw undo ;;
    window) exec env FIG_EDITOR="$folder/editor" draw ;;
    esac
}

# Begins a word, and kills it after some milliseconds; every other one when the new own file has begun to be written.
kill_word() {
    local pid
    setsid bash -c "$(declare -f type_word); folder='$folder' objects='$objects' type_word $1" > ../said 2>&1 &
    pid=$!
    if [ $((turn / 2 % 2)) = 0 ]; then
        until [ -e drawing.part-site-2.jsonl ] || ! kill -0 "$pid" 2> /dev/null; do sleep 0.001; done
        set -- "$1" $(($2 % 20))
    fi
    sleep "$(awk -v ms="$2" 'BEGIN { print ms / 1000 }')"
    { if [ $((turn % 2)) = 0 ]; then kill -9 -- "-$pid"; else kill -9 "$pid"; fi; } 2> /dev/null || true
    wait "$pid" 2> /dev/null || true
    flock -w 60 site true  # what goes on has the lock
}

# A kill at a random moment. What the file then has is all of the word or nothing of it.
try() {
    local word=$1 length made
    cp site-2.jsonl ../before
    wanted "$word" > ../wanted
    [ -s ../wanted ] || failed "$word makes nothing"
    kill_word "$word" $((RANDOM % length))
    whole ../before
    tail -c +$(($(wc -c < ../before) + 1)) site-2.jsonl > ../made
    if [ ! -s ../made ]; then made=nothing; none=$((none + 1))
    elif cmp -s ../made ../wanted; then made="$(range < ../made)" all=$((all + 1))
    else failed "$word made something else: $PWD"; fi
    [ ! -f drawing.word ] || stopped "$made"
    grep -q 'figgroup: made 2' ../said && [ "$made" = nothing ] && failed "$word was told, and is not there"
    return 0
}

range() {
    sed 's/.*"id":\[\([0-9]*\),\([0-9]*\)\].*/\1.\2/' |
        awk 'NR == 1 { first = $0 } { last = $0 } END { print first (NR > 1 ? " to " last : "") }'
}

# The next word tells what the killed one made, and opens and takes a drawing that was not taken.
stopped() {
    local count
    told=$((told + 1))
    count=$(shown)
    FIG_EDITOR=true draw > ../next 2>&1 || failed "the next word: $(cat ../next)"
    grep -q "^draw: the word before was stopped, and made $1\$" ../next ||
        failed "the next word told: $(cat ../next); $1"
    whole ../before
    [ ! -e drawing.fig ] && [ "$(shown)" = "$count" ] || failed "figures are lost or double"
}

# With ever more room on a small disk each word makes all or nothing, and says which.
full_disk() {
    local room word status
    disk=$folder/disk
    mkdir "$disk"
    if ! mount -t tmpfs -o size=1m figgroup "$disk" 2> /dev/null; then
        disk=
        echo "draw_kills: the full disk is skipped, as only root can mount a small one"
        return
    fi
    for word in copy window; do
        for room in 0 4 8 40 44 48 52 100 200; do
            begin "$disk/here" 40
            draw move 1 1 2.1 2> /dev/null
            cp site-2.jsonl "$folder/before"
            head -c $(($(df --output=avail -k . | tail -n 1) * 1024 - room * 1024)) /dev/zero > filled
            status=0
            (type_word "$word") > "$folder/said" 2>&1 || status=$?
            whole "$folder/before"
            if [ "$status" = 0 ]; then
                ! cmp -s "$folder/before" site-2.jsonl || failed "$word made nothing on a full disk and did not say it"
            else
                cmp -s "$folder/before" site-2.jsonl || failed "$word was refused on a full disk and made something"
                grep -q 'is the disk full\|No space left\|the editor ended' "$folder/said" ||
                    failed "of a full disk: $(cat "$folder/said")"
            fi
            rm filled
            FIG_EDITOR=true draw > "$folder/said" 2>&1 || failed "behind a full disk: $(cat "$folder/said")"
            # A window whose drawing stayed is taken then: each of the 40 was moved.
            whole "$folder/before"
            [[ $(($(wc -l < site-2.jsonl) - $(wc -l < "$folder/before"))) =~ ^(0|30|40)$ ]] || failed "a part was taken"
        done
    done
    cd "$folder"
    umount "$disk"
    disk=
    echo "draw_kills: the full disk as expected"
}

# In place of a window: moves each polygon by ten.
cat > "$folder/editor" << 'END'
#!/bin/sh
awk '/^\t/ { for (i = 1; i < NF; i += 2) $i += 10; $0 = "\t " $0 } { print }' "$1" > drawing.saved &&
    mv drawing.saved "$1"
END
chmod +x "$folder/editor"
turn=0 all=0 none=0 told=0
objects=$(seq -s ' ' -f '2.%g' 1 30)
RANDOM=${SEED-1}
while [ $turn -lt "$kills" ]; do
    if [ $((turn % 6)) = 0 ]; then
        begin "$folder/here" 30
        draw move 1 1 2.1 2> /dev/null
    fi
    case $((turn % 3)) in
    0) word=copy ;;
    1) word=window ;;
    2) word=undo ;;
    esac
    try $word
    draw undo > /dev/null 2>&1 || true  # where the kill let nothing come there may be nothing to undo
    draw move 1 1 2.1 2> /dev/null  # which the next undo changes back
    turn=$((turn + 1))
done
[ $((all + none)) = "$kills" ] || failed "only $turn kills"
echo "draw_kills: $turn kills as expected: $all words whole, $none not made, $told told by the next word" >&2
full_disk >&2
echo "$turn passed, 0 failed"
