#!/usr/bin/env bash
# Formats a block device, a loop device over a file, puts an archive into it, serves it, kills the
# server, and reads the files again: so a volume need not be in a regular file. A device of another
# size, a volume that is there, a pipe and a character device are refused. The last line is 'as
# expected'; else the step that failed is printed, and the status is 1. It wants root and losetup.
#
# scripts/block_device.sh [NFS41D]: by default what 'rt run' has built in crates/nfs41d.
set -eu
top=$(realpath "$(dirname "$0")/..")
daemon=$(realpath "${1:-$top/crates/nfs41d/out/nfs41d}")
folder=$(mktemp -d)
device=
server=

end() {
    [ -z "$server" ] || kill -9 "$server" 2> /dev/null || true
    [ -z "$device" ] || losetup -d "$device"
    rm -r "$folder"
}
trap end EXIT

fail() {
    echo "not as expected: $1"
    exit 1
}

# This command is refused with this word, and says so.
refused() {
    word=$1
    shift
    ! "$daemon" "$@" > /dev/null 2> "$folder/error" || fail "$* succeeds"
    grep -q "^refused: $word" "$folder/error" || fail "$*: $(cat "$folder/error")"
}

truncate -s 8M "$folder/file"
device=$(losetup -f --show "$folder/file")
refused Open format "$device" 4096 100
[ "$("$daemon" format "$device" 2048 100)" = formatted ] || fail "format"
refused Volume format "$device" 2048 100
mkdir "$folder/a"
echo hello > "$folder/a/b"
tar -C "$folder" --owner=0 --group=0 -cf "$folder/tar" a
"$daemon" put "$device" "$folder/tar"
"$daemon" serve "$device" 127.0.0.1:0 > "$folder/served" 2> "$folder/lines" &
server=$!
for _ in $(seq 100); do
    ! grep -q ^serving "$folder/served" || break
    sleep 0.1
done
grep -q ^serving "$folder/served" || fail "serve"
refused Open check "$device"
kill -9 "$server"
wait "$server" 2> /dev/null || true
server=
[ "$("$daemon" check "$device")" = "volume 2048 100 run 2" ] || fail "check"
[ "$("$daemon" get "$device" /a/b)" = hello ] || fail "get"
mkfifo "$folder/pipe"
refused Open check "$folder/pipe"
refused Open check /dev/zero
echo "as expected"
