#!/usr/bin/env bash
# Counts how often a served volume's file is synced for everyday commands of a stock Linux machine:
# an emulated one with Debian's own kernel, so that the machine at hand needs no NFS client of its
# own. Prints each command with its syncs and its requests, by the server's metrics, from just
# before the command to a second after it, when the checkpoint is done.
#
# scripts/linux_syncs.sh [NFS41D [ARGUMENT..]]: by default what 'rt run' has built in crates/nfs41d.
# The arguments are those of 'nfs41d serve', as '--hold all'. In place of the program the word
# nfs-ganesha serves a folder beside the machine's files by that server; its syncs are counted by
# strace, as root, and its requests are not. METRICS is the port of the metrics (20493), LIMIT for
# how many seconds the machine may print nothing (900). It wants the Debian packages that are named
# below, and fetches Debian's kernel by 'apt-get download'. Only the loopback interface is used.
set -eu -o pipefail
here=$(realpath "$(dirname "$0")")
daemon=${1:-$here/../crates/nfs41d/out/nfs41d}
[ "$daemon" = nfs-ganesha ] || daemon=$(realpath "$daemon")
shift $(($# < 1 ? $# : 1))
metrics=127.0.0.1:${METRICS:-20493}
. "$here/emulator/machine.sh"

# The syncs and the requests so far.
counts() {
    if [ "$daemon" = nfs-ganesha ]; then
        echo "$(grep -c ' = 0$' trace || true) 0"
        return
    fi
    curl -s "http://$metrics/metrics" | awk '
        /^nfs41_device_calls_total\{call="sync"\}/ { syncs = $2 }
        /^nfs41_requests_total/ { requests = $2 }
        END { print syncs, requests }'
}

# Each line of the machine that begins with == ends one command, and names the next.
reads_console() {
    local line name= syncs=0 requests=0 new_syncs new_requests
    while IFS= read -r -t "$limit" line; do
        line=${line%$'\r'}
        case $line in
            '== begins') continue ;;
            '== '*) ;;
            *) echo "$line" >&2; continue ;;
        esac
        read -r new_syncs new_requests < <(counts)
        [ -z "$name" ] || echo "$name: $((new_syncs - syncs)), $((new_requests - requests))"
        [ "$line" != '== ends' ] || return 0
        name=${line#== } syncs=$new_syncs requests=$new_requests
    done < console
    fail 'the machine prints nothing'
}

# Serves a new volume, or a new folder, and sets the port.
serves_volume() {
    "$daemon" format volume.img 65536 16384 > formatted.txt
    : > served.txt
    "$daemon" serve --metrics "$metrics" "$@" volume.img 127.0.0.1:0 < /dev/null >> served.txt 2> lines.txt &
    await_serving $!
    port=$(sed -n 's/^serving .*://p' served.txt)
}
serves_folder() {
    local tries
    trap 'kill -9 "$(cat pid)" || true; end' EXIT
    port=20492
    mkdir -p export /var/run/ganesha
    python3 -c "import sys; sys.path.append('$here'); import side_by_side
print(side_by_side.CONFIGURATION.format(port=$port, folder='$folder'))" > ganesha.conf
    strace -f -qq --seccomp-bpf -o trace -e trace=fsync,fdatasync,syncfs,sync_file_range \
        ganesha.nfsd -F -f ganesha.conf -L log -p pid > ganesha.txt 2>&1 &
    for ((tries = 0; tries < limit * 10; tries++)); do
        ! (: < "/dev/tcp/127.0.0.1/$port") 2> /dev/null || return 0
        sleep 0.1
    done
    fail "nfs-ganesha does not serve: $(cat ganesha.txt)"
}

wants 'qemu-system-x86 busybox-static nfs-common kmod cpio coreutils tar rsync git curl' \
    tar rsync git curl
if [ "$daemon" = nfs-ganesha ]; then
    wants 'nfs-ganesha nfs-ganesha-vfs strace' ganesha.nfsd strace
else
    wants_program "$daemon"
fi
kernel
root_file_system "$here/linux_syncs/work"
mkdir -p root/gnu root/usr/share/git-core/templates
for tool in cp dd tar rsync git; do
    copy_program "$tool" "gnu/$tool"
done
ln -s git root/gnu/git-upload-pack
echo 'A repository.' > root/usr/share/git-core/templates/description
pack
if [ "$daemon" = nfs-ganesha ]; then
    serves_folder
else
    serves_volume "$@"
fi
mkfifo console
emulate client console -serial stdio
reads_console
