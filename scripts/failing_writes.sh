#!/usr/bin/env bash
# Runs the program on a volume in a real file whose writes fail: by the shell's limit on the size of
# files and, where root runs it, by a file system that is full. What it answers, and what a run after
# it finds, whose writes do not fail, is printed and compared with failing_writes.expected.
#
# scripts/failing_writes.sh [PROGRAM]: by default what 'rt run' in crates/nfs41 has built. Its status
# is 0 where all is as expected; without root the last part is left out, and not compared.
set -u
program=$(realpath "${1:-$(dirname "$0")/../crates/nfs41/out/nfs41}")
expected=$(realpath "$(dirname "$0")/failing_writes.expected")
folder=$(mktemp -d)
trap 'mountpoint -q "$folder/full" && umount "$folder/full"; rm -r "$folder"' EXIT
cd "$folder" || exit 1
volume=volume.img

# a client, and what it asks
script() {
    printf 'A hello 7 7\nA session\n'
    printf 'A call root ; %s\nA take\n' "$@"
}

# What the program tells of a run of such a script, but for what goes before each question, and its
# status. No write of it passes so many units of 1,024 bytes: with the signal ignored that such a write
# raises, it fails.
run() {
    local limit=$1
    shift
    script "$@" > script.txt
    (trap '' XFSZ; ulimit -f "$limit"; "$program" run "$volume" script.txt) 2>&1 |
        sed -E '/ (session|sequence|root) /d; s/^/  /'
    echo "  status ${PIPESTATUS[0]}"
}

# A new volume with a directory a, whose log is empty: a mount empties it.
new_volume() {
    rm -f "$volume"
    "$program" format "$volume" 256 16 > formatted.txt
    run unlimited 'mkdir a 755' > made.txt
    run unlimited 'lookup a' > mounted.txt
}

# The first sector, which a mount writes, is the lowest; the log begins at sector 2, and what is copied
# home at sector 98.
limited() {
    local limit
    for limit in 0 8 392; do
        new_volume
        echo "no write beyond $limit KiB"
        run "$limit" 'mkdir b 755' 'mkdir c 755'
        echo 'after it'
        run unlimited 'lookup a' 'lookup b' 'lookup c' 'mkdir d 755'
    done
}

# A file system of 2 MiB, which another file fills: of the volume's file only what is no zero has a
# place there.
full() {
    mkdir full
    mount -t tmpfs -o size=2m tmpfs full || exit 1
    volume=full/volume.img
    new_volume
    fallocate --dig-holes "$volume"
    head -c 4m /dev/zero > full/rest.bin 2> /dev/null
    echo 'a full file system'
    run unlimited 'mkdir b 755'
    rm full/rest.bin
    echo 'after it'
    run unlimited 'lookup a' 'lookup b' 'mkdir c 755'
}

limited > told.txt
cp "$expected" expected.txt
if [ "$(id -u)" = 0 ]; then
    full >> told.txt
else
    sed -i '/^a full file system$/,$d' expected.txt
fi
cat told.txt
diff expected.txt told.txt && echo 'as expected'
