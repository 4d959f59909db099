#!/bin/sh
# Tries whether ./prove --check refuses a program that is not that of its sources: in a copy of the repository a byte of
# each thing that it looks at is changed, or a file is added or taken away. Ends with a line of how many tries were told.
set -eu
root=$(cd "$(dirname "$0")/.." && pwd)
copy=$(mktemp -d)
trap 'rm -rf "$copy" "$copy-kit"' EXIT
passed=0
failed=0

# Makes the copy as it was: what git has of the tree, and bin/ as it stands.
restore() {
    rm -rf "${copy:?}"/*
    (cd "$root" && tar -c --exclude out HANDLES crates.txt prove prove.seconds bin crates) | tar -x -C "$copy"
}

is_taken() {
    "$copy/prove" --check "$@" > "$copy/said" 2>&1
}

tell() {
    if [ "$1" = "$2" ]; then
        passed=$((passed + 1))
        echo "$3: $1"
    else
        failed=$((failed + 1))
        echo "$3: $1, and not $2" >&2
        cat "$copy/said" >&2
    fi
}

# Changes the first byte of a file of the copy that is no digit of its own.
change() {
    first=$(head -c 1 "$copy/$1")
    new=X
    [ "$first" != X ] || new=Y
    { printf %s "$new"; tail -c +2 "$copy/$1"; } > "$copy/changed"
    chmod --reference "$copy/$1" "$copy/changed"
    mv "$copy/changed" "$copy/$1"
}

refuses() {
    if is_taken $2; then tell taken refused "$1"; else tell refused refused "$1"; fi
}

takes() {
    if is_taken $2; then tell taken taken "$1"; else tell refused taken "$1"; fi
}

restore
takes "the tree as it is" ""
for file in bin/figgroup bin/figgroup.sum HANDLES crates/figgroup/src/main.rt crates/gf_base/src/lib.rt \
    crates/gf_ops/specs/Conflict.antt crates/gf_ops/proofs/Lib.antt; do
    restore
    change "$file"
    refuses "a byte of $file" ""
done
restore
sed -i 's/^gf_gate:/gf_gate: itoa/' "$copy/crates.txt"
refuses "a line of crates.txt" ""
restore
touch "$copy/crates/gf_base/src/more.rt"
refuses "a new source" ""
restore
rm "$copy/crates/gf_ops/specs/Conflict.antt"
refuses "a source that is gone" ""
restore
rm "$copy/bin/figgroup"
refuses "no program" ""
restore
mkdir -p "$copy/crates/gf_base/must-fail"
touch "$copy/crates/gf_base/must-fail/more.edit"
takes "a new wrong edit" ""
restore
touch "$copy/crates/gf_base/src/$(printf 'a\nb').rt"
refuses "a source with a line break in its name" ""
restore
ln -s nowhere "$copy/crates/gf_base/src/more.rt"
refuses "a source that can't be read" ""

# In place of a kit a script prints its version: that of the kit that built bin/, or another one.
mkdir "$copy-kit"
PATH=$copy-kit:$PATH
is_kit() {
    printf '#!/bin/sh\necho "%s"\n' "$1" > "$copy-kit/rt"
    chmod +x "$copy-kit/rt"
}
kit=$(sed -n 's/^kit //p' "$root/bin/figgroup.sum")
is_kit "$kit"
restore
cp "$copy/bin/figgroup" "$copy/built"
takes "a built program that is the same" "$copy/built"
change built
refuses "a byte of the built program" "$copy/built"
restore
cp "$copy/bin/figgroup" "$copy/built"
is_kit "kit of tomorrow"
refuses "a program built by another kit" "$copy/built"
# Whoever commits another program writes its sum, too, and any kit into it.
for named in "$kit" "kit of tomorrow"; do
    printf '#!/bin/sh\necho evil\n' > "$copy/bin/figgroup"
    { grep ^sources "$root/bin/figgroup.sum"; echo "kit $named"; echo "program $(sha256sum < "$copy/bin/figgroup" | cut -d ' ' -f 1)"; } \
        > "$copy/bin/figgroup.sum"
    is_kit "$kit"
    refuses "another program, with a sum that names $named" "$copy/built"
done
echo "$passed passed, $failed failed"
[ "$failed" = 0 ]
