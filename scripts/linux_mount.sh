#!/usr/bin/env bash
# Mounts a served volume from a stock Linux kernel: Debian's own, in an emulated machine, so that
# the machine at hand needs no NFS client of its own. Users work on the mount with busybox and with
# GNU's tools, the server is killed and started again beneath them, once before it could reply, and
# what they saw is compared with linux_mount/expected.txt.
#
# scripts/linux_mount.sh [PROGRAM]: by default what 'rt run' in crates/nfs41 has built.
# PORT is the port that it serves (20490; a relay has the next one), LIMIT for how many seconds the emulated machine may tell
# nothing (900). It wants the Debian packages that are named below, and fetches Debian's kernel by
# 'apt-get download'. The emulated machine asks the loopback interface alone.
set -eu
here=$(realpath "$(dirname "$0")")
program=$(realpath "${1:-$here/../crates/nfs41/out/nfs41}")
port=${PORT:-20490}
packages='qemu-system-x86 busybox-static nfs-common kmod cpio coreutils tar sed util-linux rsync git
    sqlite3 nfs4-acl-tools python3'
gnu='cp mv install mktemp touch du tar sed flock rsync git sqlite3 nfs4_getfacl nfs4_setfacl'
server=
relay=
. "$here/emulator/machine.sh"

# GNU's tools, in a folder of their own.
gnu_tools() {
    local tool
    mkdir -p root/gnu root/usr/share/git-core/templates
    for tool in $gnu; do
        copy_program "$tool" "gnu/$tool"
    done
    echo 'A repository.' > root/usr/share/git-core/templates/description
}

serve() {
    : > served.txt
    "$program" serve volume.img "$port" 1000 < /dev/null >> served.txt 2>&1 &
    server=$!
    await_serving "$server"
}

# Passes on what comes at the next port, up to the first reply to a call that makes a directory.
relays() {
    python3 "$emulator/relay.py" "$((port + 1))" "$port" "$@" &
    relay=$!
}

# What the guest tells between its first line and its last, without the port and the names that are
# picked at random. It asks for a kill by a line of its own: at once, or once a reply was lost.
boot() {
    local line status=0
    mkfifo console
    emulate client console -serial stdio
    while IFS= read -r -t "$limit" line || { status=$?; false; }; do
        echo "$line"
        if [ "$line" = '== kill the server' ]; then
            kill_one "$server"
            serve
        elif [ "$line" = '== kill the server before it replies' ]; then
            wait "$relay"
            kill_one "$server"
            serve
            relays
        fi
    done < <(sed -uE 's/\r*$//; 0,/== begins$/d; /^== ends$/,$d
        s/port=[0-9]+$/port=PORT/
        s/(sed|\.[a-z]+\.)[A-Za-z0-9]{6}([":]| )/\1XXXXXX\2/
        s/ at main\.c.*//' < console)
    [ "$status" -le 128 ] || echo "nothing told in $limit seconds"
}

wants "$packages" python3 $gnu
wants_program "$program"
kernel
root_file_system "$here/linux_mount/work"
gnu_tools
pack
"$program" format volume.img 16384 4000
serve
relays --lose
boot > told.txt
cat told.txt
kill_one "$server"
kill_one "$relay"
"$program" check volume.img
diff "$here/linux_mount/expected.txt" told.txt && echo "as expected, by Linux $version"
