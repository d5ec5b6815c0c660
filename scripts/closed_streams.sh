#!/usr/bin/env bash
# Starts the program as no user should: with standard streams closed, with a word that is not UTF-8,
# beside a server of the same volume, and on a volume that may not be written. Tells what it answers
# and what a check then finds, and compares that with closed_streams.txt. The last line is
# 'as expected'; else the difference is told, and the status is 1. Root alone tries what may not be
# written.
#
# scripts/closed_streams.sh [PROGRAM]: by default what 'rt run' in crates/nfs41 has built.
set -u
here=$(dirname "$(realpath "$0")")
built=$(realpath "${1:-$here/../crates/nfs41/out/nfs41}")
folder=$(mktemp -d)
server=
end() {
    [ -z "$server" ] || kill "$server"
    ! mountpoint -q "$folder/fixed" || umount "$folder/fixed"
    rm -r "$folder"
}
trap end EXIT
# A user with fewer rights starts the program too.
chmod 711 "$folder"
cp "$built" "$folder/nfs41"
cd "$folder" || exit 1
program=$folder/nfs41
user=()
printf 'A hello 7 7\nrestart\n' > lines.txt

# What the program tells and answers with these streams closed, which are named by digits, and what a
# check then finds of the volume in this file.
start() {
    local closed=$1 volume=$2
    shift 2
    (
        exec < lines.txt > out.txt 2> err.txt
        [[ $closed != *0* ]] || exec <&-
        [[ $closed != *1* ]] || exec >&-
        [[ $closed != *2* ]] || exec 2>&-
        exec "${user[@]}" "$program" "$@"
    )
    local status=$?
    sed -E 's/^serving [0-9]+$/serving PORT/; s/^/    /' out.txt err.txt
    echo "    status $status, then $("$program" check "$volume" 2>&1)"
}

# Each command on the volume in this file; a new one stands there before each.
each_command() {
    local closed=$1 volume=$2 words
    for words in '' "format $volume 256 16" "check $volume" "run $volume lines.txt" "serve $volume 0 0"; do
        [ "$volume" != new.img ] || cp mounted.img new.img
        echo "  ${words:-no words}"
        start "$closed" "$volume" $words
    done
}

compare() {
    cmp -s "$1" "$2" && echo '  not a byte of the volume changed' || echo '  the volume changed'
}

with_streams_closed() {
    local closed
    for closed in 0 1 2 01 02 12 012; do
        echo "closed: $closed"
        each_command "$closed" new.img
    done
}

with_a_word_that_is_not_utf_8() {
    echo 'not UTF-8'
    start '' mounted.img check $'\xff'
}

beside_a_server() {
    echo 'beside a server'
    cp mounted.img served.img
    "$program" serve served.img 0 1 > port.txt &
    server=$!
    timeout 60 sh -c 'until grep -q serving port.txt; do sleep 0.1; done'
    cp served.img was.img
    each_command '' served.img
    compare served.img was.img
    kill "$server"
    wait "$server" 2> killed.txt
    server=
    echo "  after it: $("$program" check served.img 2>&1)"
}

on_a_file_that_may_not_be_written() {
    echo 'mode 0444'
    cp mounted.img mode.img
    chmod 444 mode.img
    user=(setpriv --reuid 65534 --regid 65534 --clear-groups)
    each_command '' mode.img
    user=()
    compare mode.img mounted.img
}

on_a_file_system_that_is_read_only() {
    echo 'read-only file system'
    mkdir fixed
    mount -t tmpfs -o size=2m tmpfs fixed || exit 1
    cp mounted.img fixed/volume.img
    mount -o remount,ro fixed
    each_command '' fixed/volume.img
    compare fixed/volume.img mounted.img
}

tell_all() {
    "$program" format mounted.img 256 16 > made.txt
    "$program" serve mounted.img 0 0 > made.txt
    with_streams_closed
    with_a_word_that_is_not_utf_8
    beside_a_server
    [ "$(id -u)" = 0 ] || return 0
    on_a_file_that_may_not_be_written
    on_a_file_system_that_is_read_only
}

# What is expected, up to what root alone tries.
expected() {
    if [ "$(id -u)" = 0 ]; then
        cat "$here/closed_streams.txt"
    else
        sed '/^mode 0444$/,$d' "$here/closed_streams.txt"
    fi
}

tell_all > told.txt
diff <(expected) told.txt || exit 1
echo 'as expected'
