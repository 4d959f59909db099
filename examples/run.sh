#!/bin/sh
# Runs each example and compares its output with what is expected of it: the lines by figgroup, or the program that FIGGROUP
# names, and each FIG text by bench_fig, which reads it and writes what it read. To build bench_fig takes a kit of Rattle:
# what is not run without one is counted. Where there is a window, whose words stand in the file of that name,
# the lines are painted in it and expected.fig is repainted. Where there is a script, it is run as a session of as many
# sites as the file sites says. Where the named text or the status of the lines is expected, or their faults or those of
# commands are, these are compared; and where there are changes, the operations that site 1 makes of them, and the status
# with these. Each picture that the file pictures names, with its lines and its window, is painted anew and compared.
# What an import makes of house.fig is compared with imported.jsonl; what plain.awk makes and tells of a drawing, by each
# awk, with NAME.plain.fig, NAME.txt and NAME.groups, and what site 2 takes of it, beside the lines of the example named,
# with NAME.jsonl. Random drawings are changed and taken, others made plain. Last README, DRAWING, CONFLICTS, FORMATS,
# STRANGERS and by-git are typed, and the scripts of draw and week are run.
set -eu
examples=$(cd "$(dirname "$0")" && pwd)
root=$(dirname "$examples")
tools=$root/tools
figgroup=${FIGGROUP:-$root/bin/figgroup}
reader=$root/crates/bench_fig/out/bench_fig
output=$(mktemp)
pixels=$(mktemp)
trap 'rm -f "$output" "$pixels"' EXIT

path=$(dirname "$figgroup"):$root/bin:$PATH
passed=0
failed=0
left=0

# Counts what can't be run here, and says why.
leave() {
    echo "$1: not run: $2"
    left=$((left + 1))
}

drawn() {
    cat "$@" | "$figgroup" fig
}

named() {
    cat "$@" | "$figgroup" fig --named
}

# The words are split at blanks.
painted() {
    words=$1
    shift
    cat "$@" | "$figgroup" paint $words
}

repainted() {
    "$figgroup" repaint $1 < "$2"
}

edited() {
    "$figgroup" session --sites "$1" < "$2"
}

made() {
    cat "$@" | "$figgroup" edit --site 1
}

told() {
    cat "$@" | "$figgroup" status
}

# The faults of lines that have some.
faults() {
    status=0
    "$figgroup" check < "$1" || status=$?
    [ "$status" = 1 ]
}

# The faults of commands of site 1 that have some.
command_faults() {
    status=0
    "$figgroup" check --site 1 < "$1" || status=$?
    [ "$status" = 1 ]
}

imported() {
    "$figgroup" import --site 1 < "$1"
}

# By which awk: its name.
plain() {
    "$awk" -f "$root/share/figgroup/plain.awk" < "$1" 2> /dev/null || :
}

plain_told() {
    "$awk" -f "$root/share/figgroup/plain.awk" < "$1" 2>&1 > /dev/null || :
}

plain_groups() {
    "$awk" -v groups="$pixels" -f "$root/share/figgroup/plain.awk" < "$1" > /dev/null 2>&1 && cat "$pixels"
}

# What is told of a polygon with 20,000 corners far from each other, and what an import tells then.
plain_far() {
    {
        head -n 9 "$examples/plain/lines.fig"
        echo '2 3 0 0 0 4 50 -1 20 0.000 0 0 -1 0 0 20000'
        "$awk" 'BEGIN { for (i = 0; i < 20000; i++) print i * 7919 % 500000, i * 10007 % 500000 }'
    } | "$awk" -f "$root/share/figgroup/plain.awk" 2>&1 > "$pixels"
    plain_faults "$pixels"
}

# What is told at last of a drawing of 1,001 boxes.
plain_full() {
    {
        head -n 9 "$examples/plain/lines.fig"
        yes '2 2 0 0 0 4 50 -1 20 0.000 0 0 -1 0 0 5 0 0 300 0 300 300 0 300 0 0' | head -n 1001
    } | "$awk" -f "$root/share/figgroup/plain.awk" 2>&1 > /dev/null | tail -n 2
}

# What an import tells of a drawing made plain.
plain_faults() {
    "$figgroup" import --site 1 < "$1" 2>&1 > /dev/null
}

plain_taken() {
    cat "$examples"/named/site-*.jsonl "$1" | "$figgroup" take --site 2
}

again() {
    "$reader" again < "$1"
}

# What the site of a folder takes of a drawing: the operations, and what is told of them.
taken() {
    cat "$1"/site-*.jsonl "$2" | "$figgroup" take --site "$(cat "$1/site")" 2>&1 || [ $? = 1 ]
}

# The picture with the operations that are taken of a drawing.
taken_picture() {
    { cat "$1"/site-*.jsonl; grep '^{' "$2"; } | "$figgroup" paint --fit 2> /dev/null
}

# The picture of what a session comes to: its text without the report.
edited_picture() {
    edited "$1" "$3" | grep -v '^site ' | "$figgroup" repaint $2
}

# Compares what the words behind the first two put out with what is expected of it.
compare() {
    name=$1
    expected=$2
    shift 2
    if "$@" > "$output" && cmp "$output" "$expected"; then
        echo "$name: as expected"
        passed=$((passed + 1))
    else
        echo "$name: differs" >&2
        failed=$((failed + 1))
    fi
}

# The lines of all files.
compare_lines() {
    compare "$(basename "$example")" "$example/expected.fig" drawn "$@"
    # A file for each site: the lines of the others wait for the first site's.
    if [ $# -gt 1 ]; then
        first=$1
        shift
        compare "$(basename "$example"), first site last" "$example/expected.fig" drawn "$@" "$first"
    fi
}

# The operations that site 1 makes of its changes, and the status with these.
compare_changes() {
    compare "$(basename "$example"), edited" "$example/edited.jsonl" made "$@" "$example/changes.jsonl"
    compare "$(basename "$example"), status then" "$example/edited-status.txt" told "$@" "$example/edited.jsonl"
}

# The picture in the example's window, painted by one worker and by three, and repainted.
compare_pictures() {
    window=$(cat "$example/window")
    for words in "$window" "$window --workers 3"; do
        compare "$(basename "$example"), painted $words" "$example/expected.ppm" painted "$words" "$@"
    done
    compare "$(basename "$example"), repainted" "$example/expected.ppm" repainted "$window" "$example/expected.fig"
}

# Each picture of the file pictures, a line of its name, a pattern of the names of its files, and its window.
compare_pngs() {
    while read -r picture files window; do
        python3 "$tools/pixels.py" "$example/$picture" > "$pixels"
        set -- "$example"/$files
        if [ -e "$example/sites" ]; then
            compare "$(basename "$example"), $picture" "$pixels" edited_picture "$(cat "$example/sites")" "$window" "$1"
        else
            compare "$(basename "$example"), $picture" "$pixels" painted "$window" "$@"
        fi
    done < "$example/pictures"
}

# The plain form of the drawing of this name.
compare_plain() {
    drawing=$example/$1
    for awk in $awks; do
        compare "plain by $awk, $1" "$drawing.plain.fig" plain "$drawing.fig"
        compare "plain by $awk, told of $1" "$drawing.txt" plain_told "$drawing.fig"
        if [ -e "$drawing.groups" ]; then
            compare "plain by $awk, groups of $1" "$drawing.groups" plain_groups "$drawing.fig"
        fi
    done
    if [ -s "$drawing.plain.fig" ]; then
        compare "plain, $1 imported" /dev/null plain_faults "$drawing.plain.fig"
    fi
    if [ -e "$drawing.jsonl" ]; then
        compare "plain, $1 taken" "$drawing.jsonl" plain_taken "$drawing.plain.fig"
    fi
}

# What is taken of each drawing of a folder, and that it is painted as the drawing is.
compare_taken() {
    for text in "$1"/*.fig; do
        drawing="xfig, $(basename "$text")"
        compare "$drawing taken" "${text%.fig}.txt" taken "$1" "$text"
        if grep -q '^{' "${text%.fig}.txt"; then
            "$figgroup" repaint --fit < "$text" > "$pixels" 2> /dev/null
            compare "$drawing painted" "$pixels" taken_picture "$1" "${text%.fig}.txt"
        fi
    done
}

is_current() {
    [ -x "$reader" ] || return 1
    newer=$(find "$root/crates.txt" "$root/crates" -name out -prune -o -type f ! -name README.md -newer "$reader" -print | head -n 1)
    [ -z "$newer" ]
}

if ! is_current && ! command -v rt > /dev/null; then
    reader=
elif ! is_current; then
    echo "bench_fig: proving and building" >&2
    if ! said=$(cd "$root/crates/bench_fig" && rt run -- scan 2>&1 < /dev/null); then
        printf '%s\nbench_fig: not built\n' "$said" >&2
        exit 1
    fi
    touch "$reader"
fi

awks=
for awk in mawk gawk; do
    ! command -v $awk > /dev/null || awks="$awks $awk"
done

for example in "$examples"/*/; do
    example=${example%/}
    if [ -e "$example/script.jsonl" ]; then
        compare "$(basename "$example")" "$example/expected.txt" edited "$(cat "$example/sites")" "$example/script.jsonl"
    fi
    set --
    for lines in "$example"/site-*.jsonl "$example/input.jsonl"; do
        [ ! -e "$lines" ] || set -- "$@" "$lines"
    done
    if [ -e "$example/expected.fig" ] && [ $# -gt 0 ]; then
        compare_lines "$@"
    fi
    if [ -e "$example/window" ]; then
        compare_pictures "$@"
    fi
    if [ -e "$example/named.txt" ]; then
        compare "$(basename "$example"), named" "$example/named.txt" named "$@"
    fi
    if [ -e "$example/status.txt" ]; then
        compare "$(basename "$example"), status" "$example/status.txt" told "$@"
    fi
    if [ -e "$example/changes.jsonl" ]; then
        compare_changes "$@"
    fi
    if [ -e "$example/faults.txt" ]; then
        compare "$(basename "$example"), faults" "$example/faults.txt" faults "$@"
    fi
    if [ -e "$example/command-faults.txt" ]; then
        compare "$(basename "$example"), faults of commands" "$example/command-faults.txt" command_faults "$example/commands.jsonl"
    fi
    if [ -e "$example/pictures" ]; then
        compare_pngs
    fi
    if [ -e "$example/imported.jsonl" ]; then
        compare "$(basename "$example"), imported" "$example/imported.jsonl" imported "$example/house.fig"
    fi
    for drawing in "$example"/*.plain.fig; do
        [ ! -e "$drawing" ] || compare_plain "$(basename "$drawing" .plain.fig)"
    done
    [ -e "$example/expected.fig" ] || continue
    for text in "$example"/*.fig; do
        again="$(basename "$example"), $(basename "$text") again"
        if [ -z "$reader" ]; then
            leave "$again" "to build bench_fig takes a kit of Rattle"
        else
            compare "$again" "$example/expected.fig" again "$text"
        fi
    done
done

for awk in $awks; do
    compare "plain by $awk, 1,001 boxes" "$examples/plain/full.txt" plain_full
    compare "plain by $awk, 20,000 corners" "$examples/plain/far.txt" plain_far
done
compare "program" "$examples/program/expected.txt" env PATH="$path" \
    python3 "$examples/program/program.py" "$examples/red-box/input.jsonl"
compare "random drawings made plain" /dev/null env PATH="$path" python3 "$tools/random_plain.py" 1 100
compare "random takes" /dev/null env PATH="$path" python3 "$tools/random_takes.py" 1 400 30

# In place of each window stands what xfig saved of it, named by the site and how many operations it had.
export FIG_EDITOR="cp $examples/tutorial/saved/site-\$(cat site)-\$(wc -l < site-\$(cat site).jsonl).fig"
for folder in "$examples"/xfig/*/; do
    compare_taken "${folder%/}"
done
if command -v fig2dev > /dev/null; then
    compare "README" /dev/null python3 "$tools/transcript.py" "$root/README.md" "$root"
else
    leave README "there is no fig2dev"
fi
for page in DRAWING CONFLICTS FORMATS STRANGERS; do
    compare "$page" /dev/null python3 "$tools/transcript.py" "$root/docs/$page.md" "$root"
done
if command -v git > /dev/null; then
    compare "by-git" /dev/null env GIT_CONFIG_GLOBAL=/dev/null GIT_CONFIG_NOSYSTEM=1 \
        FIG_EDITOR="cp '$examples/by-git/saved/site-'\$(cat site).fig" \
        python3 "$tools/transcript.py" "$examples/by-git/README.md" "$root"
else
    leave by-git "there is no git"
fi
missing=
for tool in git jq pngtopnm flock fig2dev; do
    command -v "$tool" > /dev/null || missing="$missing $tool"
done
if [ -z "$missing" ]; then
    compare "draw" "$examples/draw/expected.txt" env PATH="$path" "$examples/draw/run.sh"
    compare "week" "$examples/week/expected.txt" env PATH="$path" "$examples/week/run.sh"
else
    leave "draw, week" "there is no$missing"
fi
echo "$passed passed, $failed failed, $left not run"
[ "$failed" = 0 ]
