#!/usr/bin/env bash
# Two machines mount one volume at once and work on one tree: emulated ones with Debian's own
# kernel, so that the machine at hand needs no NFS client of its own. The emulator of one is killed
# in the middle, which ends its connection, and it comes back; the server is killed and started
# again beneath both. What they saw is compared with two_machines/expected.txt.
#
# scripts/two_machines.sh [NFS41D [NFS41]]: by default what 'rt run' has built in crates/nfs41d and
# in crates/nfs41. PORT is the port that is served (one that the system picks), LIMIT for how many
# seconds a machine may tell nothing (900). It wants the Debian packages that are named below, and
# fetches Debian's kernel by 'apt-get download'. The machines ask the loopback interface alone.
set -eu -o pipefail
here=$(realpath "$(dirname "$0")")
daemon=$(realpath "${1:-$here/../crates/nfs41d/out/nfs41d}")
program=$(realpath "${2:-$here/../crates/nfs41/out/nfs41}")
port=${PORT:-0}
server=
declare -A emulators to from
. "$here/emulator/machine.sh"

# Starts the server, from the second time on at the same port.
serve() {
    : > served.txt
    "$daemon" volume.img "127.0.0.1:$port" < /dev/null >> served.txt 2>&1 &
    server=$!
    await_serving "$server"
    port=$(sed -n 's/^serving .*://p' served.txt)
}

# Boots a machine, and waits until it takes commands: these come and go over its second serial port.
boot() {
    local name=$1 pipe
    rm -f "$name.in" "$name.out"
    mkfifo "$name.in" "$name.out"
    exec {pipe}<> "$name.in"
    to[$name]=$pipe
    exec {pipe}<> "$name.out"
    from[$name]=$pipe
    emulate "$name" "$name.qemu" -serial "file:$name.console" -serial "pipe:$name"
    emulators[$name]=$!
    await "$name"
}

says() {
    echo "$*" | tee -a told.txt
}

# What a machine tells, up to the end of its command.
hear() {
    local line
    while IFS= read -r -t "$limit" -u "${from[$1]}" line; do
        [ "$line" != '== done' ] || return 0
        echo "$line"
    done
    fail "$1 told nothing in $limit seconds: $(tail -n 5 "$1.qemu" "$1.console")"
}

# Has a machine begin a command, and waits for its end.
begins() {
    echo "$2" >&"${to[$1]}"
}

await() {
    hear "$1" | tee -a told.txt
}

# Has a machine run a command, which is told before what it tells.
on() {
    says "$1# $2"
    begins "$1" "$2"
    await "$1"
}

# Has both run a command at once.
on_both() {
    says "both# $1"
    begins anna "$1"
    begins bert "$1"
    await anna
    await bert
}

mounts() {
    says '== both mount the volume'
    on_both 'mount.nfs4 $server /mnt -o $options'
    on anna 'mkdir /mnt/shared'
    on bert 'ls -1 /mnt'
}

makes_and_reads() {
    says '== each makes files, and reads what the other one made'
    begins anna 'make_files /mnt/anna 100'
    begins bert 'make_files /mnt/bert 200'
    await anna
    await bert
    on_both 'ls -1 /mnt'
    on_both 'cat /mnt/anna/* | md5sum'
    on_both 'cat /mnt/bert/* | md5sum'
}

renames_and_removes() {
    says '== each renames and removes what the other one made'
    on bert 'mv /mnt/anna/file-1 /mnt/shared/of-anna'
    on anna 'mv /mnt/bert/file-1 /mnt/shared/of-bert'
    on bert 'rm /mnt/anna/file-2'
    on anna 'rm /mnt/bert/file-2'
    on_both 'ls /mnt/anna /mnt/bert /mnt/shared | md5sum; cat /mnt/shared/of-* | md5sum'
    on anna 'cd /mnt/anna'
    on bert 'mv /mnt/anna /mnt/shared/moved'
    on anna 'ls | wc -l; cat file-3 | md5sum; cd /'
    on anna 'mv /mnt/shared/moved /mnt/anna'
    on bert 'cat /mnt/anna/file-3 | md5sum'
}

appends() {
    local turn name
    says '== both append to one file in turn'
    for turn in $(seq 10); do
        for name in anna bert; do
            begins "$name" "echo $turn by $name >> /mnt/shared/log"
            await "$name"
        done
    done
    on anna 'wc -l < /mnt/shared/log; tail -n 2 /mnt/shared/log'
    on_both 'md5sum < /mnt/shared/log'
}

is_cut_off() {
    says '== one is cut off while it writes, and the other one goes on'
    on bert 'exec 5<> /mnt/shared/held; echo held >&5; exec 6< /mnt/anna/file-3'
    begins bert 'while :; do cat /mnt/anna/* > /mnt/shared/endless; done'
    begins anna 'work_for 30 /mnt/steps'
    sleep 10
    kill_one "${emulators[bert]}"
    await anna
    on anna 'rm /mnt/shared/endless /mnt/shared/held; ls -1 /mnt/shared'
}

comes_back() {
    says '== it comes back'
    boot bert
    on bert 'mount.nfs4 $server /mnt -o $options'
    on bert 'md5sum < /mnt/shared/log; cat /mnt/bert/* | md5sum'
    on bert 'echo bert is back >> /mnt/shared/log'
    on anna 'tail -n 1 /mnt/shared/log'
}

loses_the_server() {
    says '== the server is killed beneath both, and started again'
    begins anna 'write_synced 20 /mnt/synced-anna'
    begins bert 'write_synced 20 /mnt/synced-bert'
    sleep 8
    kill_one "$server"
    sleep 2
    serve
    await anna
    await bert
    on anna 'has_synced /mnt/synced-bert'
    on bert 'has_synced /mnt/synced-anna'
    on_both 'cat /mnt/anna/* /mnt/bert/* | md5sum'
    on anna 'echo after the kill >> /mnt/shared/log'
    on bert 'tail -n 2 /mnt/shared/log'
}

unmounts() {
    says '== one machine has several connections'
    on bert 'umount /mnt'
    on bert 'mount.nfs4 $server /mnt -o $options,nconnect=4'
    on bert 'cat /mnt/anna/* /mnt/bert/* | md5sum'
    on anna 'work_for 3 /mnt/steps'
    says '== both unmount'
    on_both 'umount /mnt'
}

wants 'qemu-system-x86 busybox-static nfs-common kmod cpio'
wants_program "$daemon"
wants_program "$program"
"$program" format volume.img 16384 4000
serve
kernel
root_file_system "$here/two_machines/work"
pack
boot anna
boot bert
mounts
makes_and_reads
renames_and_removes
appends
is_cut_off
comes_back
loses_the_server
unmounts
kill_one "$server"
says '== the volume'
"$program" check volume.img | tee -a told.txt
diff "$here/two_machines/expected.txt" told.txt && echo "as expected, by Linux $version"
