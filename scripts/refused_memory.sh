#!/usr/bin/env bash
# Runs each command of the program once for each allocation that it makes, with that one refused. A run
# has to end as refused for want of memory, or to tell and answer what it does with all of them. Without
# words it may also end as refused for its device, which is in memory and keeps a record there. The last
# line is 'as expected'; else the other runs are told, and the status is 1. It wants cc.
#
# scripts/refused_memory.sh [PROGRAM]: by default what 'rt run' in crates/nfs41 has built.
set -u
here=$(dirname "$(realpath "$0")")
program=$(realpath "${1:-$here/../crates/nfs41/out/nfs41}")
folder=$(mktemp -d)
trap 'rm -r "$folder"' EXIT
cd "$folder" || exit 1
cc -O2 -shared -fPIC -o refused.so "$here/refused_memory.c" || exit 1
"$program" format new.img 256 16 > made.txt || exit 1
cat > lines.txt << 'LINES'
A hello 7 7
A session
A call root ; create f 644 ; write 0 2 6869 ; read 0 9
A take
restart
LINES
others=0

# Whether the last run was refused for want of memory.
was_refused() {
    local name=Memory
    [ -n "$1" ] || name='(Memory|Device)'
    tail -2 told.txt | tr '\n' ' ' | grep -qxE "refused: $name status 1 "
}

# What a command tells and answers on a new volume with this allocation refused, or none for 0.
run() {
    local number=$1
    shift
    cp new.img v.img
    REFUSED=$number COUNTED=count.txt LD_PRELOAD=$folder/refused.so "$program" "$@" < lines.txt 2>&1 |
        sed -E 's/^serving [0-9]+$/serving PORT/'
    echo "status ${PIPESTATUS[0]}"
}

for words in '' 'format v.img 256 16' 'check v.img' 'run v.img lines.txt' 'serve v.img 0 0'; do
    run 0 $words > whole.txt
    count=$(cat count.txt)
    refused=0
    for number in $(seq "$count"); do
        run "$number" $words > told.txt
        if was_refused "$words"; then
            refused=$((refused + 1))
        elif ! cmp -s told.txt whole.txt; then
            others=$((others + 1))
            echo "${words:-no words}, allocation $number:"
            sed 's/^/    /' told.txt
        fi
    done
    echo "${words:-no words}: $refused of $count allocations are missed"
done
[ "$others" = 0 ] || exit 1
echo 'as expected'
