#!/usr/bin/env bash
# Asks the completions of bash for words, and compares what they offer with what is expected. Names and site files have
# commands, also behind a byte that is no UTF-8, in the locale C.UTF-8, which Debian always has: none of them runs.
set -eu
export LC_ALL=C.UTF-8
root=$(cd "$(dirname "$0")/.." && pwd)
folder=$(mktemp -d)
trap 'rm -rf "$folder"' EXIT
PATH=${FIGGROUP:+${FIGGROUP%/*}:}$root/bin:$PATH
. "$root/share/bash-completion/figgroup"
cd "$folder"
cp "$root"/examples/named/site-*.jsonl .
printf '%s\n' 'car 1.4 1.5' 'fir 1.6' '$(touch made) 1.1' '`touch made` 1.2' > names

# Compares what is offered for the last of the words with the text.
offers() {
    local expected=$1
    shift
    COMP_WORDS=("$@") COMP_CWORD=$(($# - 1)) COMPREPLY=()
    "_$1" "$1" "${*: -1}" "${*: -2:1}"
    if [ "${COMPREPLY[*]}" != "$expected" ]; then
        printf '%s\n' "completion of $*: ${COMPREPLY[*]}, and not $expected" >&2
        exit 1
    fi
}

offers 'paint' figgroup pa
offers 'status session serve' figgroup s
offers '--width --workers' figgroup paint --w
offers '' figgroup nonsense --w
offers 'site set status' draw s
offers 'plain picture pull push page' draw help p
offers '1.1 1.2 1.3 1.4 1.5 1.6' draw move 50 0 1.
offers 'circle' draw create c
offers 'place points' draw create polygon p
offers 'shown' draw set 1.1 sh
offers '--mine --theirs --site' draw keep -
offers '' draw bring ''
offers 'car' draw move 50 0 c
offers '1.1 1.2 1.3 1.4 1.5 1.6 car fir' draw delete ''
printf 'tree \377$(touch made) 1.1\n\377`touch made` 1.1\nbig\377 1.1\n' >> names
printf '%s\n' $'$(touch made)\377"id":[1,1],"kind"' $'\377$(touch made)"id":[1,7],"kind"\377`touch made`' > site-3.jsonl
offers '1.1 1.2 1.3 1.4 1.5 1.6 1.1 1.7 car fir tree' draw delete ''
[ ! -e made ] || { echo 'completion: a command in names or a site file ran' >&2; exit 1; }
rm names
ln -s /dev/zero names
ln -s /dev/zero site-4.jsonl
offers '1.1 1.2 1.3 1.4 1.5 1.6 1.1 1.7' draw delete ''
echo 'completion: as expected'
