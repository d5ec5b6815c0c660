#!/usr/bin/env bash
# One machine mounts the volumes of two servers, and must see two. It is an emulated one with Debian's
# own kernel, so that the machine at hand needs no NFS client of its own. Linux takes two servers for
# one if both return the same server name and the client id that it holds. So the first server is
# restarted beneath its mount, and both are at the same run when the second one is mounted. What the
# machine saw, and what each volume holds then, is compared with two_servers/expected.txt.
#
# scripts/two_servers.sh [NFS41D [NFS41]]: by default what 'rt run' has built in crates/nfs41d and in
# crates/nfs41. PORT is the port of the first server (20500; the second one has the next), LIMIT for
# how many seconds the machine may tell nothing (900). It wants the Debian packages that are named
# below, and fetches Debian's kernel by 'apt-get download'. The machine connects to the loopback
# interface only.
set -eu
here=$(realpath "$(dirname "$0")")
daemon=$(realpath "${1:-$here/../crates/nfs41d/out/nfs41d}")
program=$(realpath "${2:-$here/../crates/nfs41/out/nfs41}")
port=${PORT:-20500}
packages='qemu-system-x86 busybox-static nfs-common kmod cpio'
server=
. "$here/emulator/machine.sh"

# Serves the volume of this name at this port.
serve() {
    : > served.txt
    "$daemon" "$1.img" "127.0.0.1:$2" < /dev/null >> served.txt 2>&1 &
    server=$!
    await_serving "$server"
}

# What the machine prints between its first line and its last. It asks for a restart of the first
# server by printing a line.
boot() {
    local line status=0
    mkfifo console
    emulate client console -serial stdio
    while IFS= read -r -t "$limit" line || { status=$?; false; }; do
        echo "$line"
        if [ "$line" = '== the first server is killed, and started again' ]; then
            kill_one "$first"
            serve first "$port"
            first=$server
        fi
    done < <(sed -uE 's/\r*$//; 0,/== begins$/d; /^== ends$/,$d; s/port=[0-9]+$/port=PORT/' \
        < console)
    [ "$status" -le 128 ] || echo "nothing told in $limit seconds"
}

# The status of a LOOKUP of each name in a volume.
holds() {
    local name
    {
        printf 'A hello 7 7\nA session\n'
        printf 'A call root ; lookup %s\nA take\n' of-first of-second
    } > script.txt
    "$program" run "$1.img" script.txt | sed -n 's/^A lookup //p' | paste -sd ' ' |
        sed "s/^/LOOKUP of of-first and of-second in the $1 volume: /"
}

wants "$packages"
wants_program "$daemon"
wants_program "$program"
kernel
root_file_system "$here/two_servers/work"
pack
"$program" format first.img 4096 1000
"$program" format second.img 4096 1000
# so that its next run has the number of the second run of the first volume
"$program" serve second.img 0 0 > /dev/null
serve second "$((port + 1))"
second=$server
serve first "$port"
first=$server
boot > told.txt
kill_one "$first"
kill_one "$second"
{
    holds first
    holds second
} >> told.txt
cat told.txt
diff "$here/two_servers/expected.txt" told.txt && echo "as expected, by Linux $version"
