#!/usr/bin/env bash
# Records what a stock Linux kernel and this server say to each other: Debian's own kernel, in an
# emulated machine, mounts a new volume, works on it as linux_session/work says, and unmounts it.
# Prints the session as rows for test_player: crates/test_player/data/linux.rows is such a print.
#
# scripts/linux_session.sh [PROGRAM]: by default what 'rt run' in crates/nfs41 has built.
# PORT is the port that the machine asks (20491; the server has the next one), LIMIT for how many
# seconds the server may tell nothing (900). It wants the Debian packages that are named below, and
# fetches Debian's kernel by 'apt-get download'. All asks the loopback interface alone.
set -eu
here=$(realpath "$(dirname "$0")")
program=$(realpath "${1:-$here/../crates/nfs41/out/nfs41}")
port=${PORT:-20491}
. "$here/emulator/machine.sh"

wants 'qemu-system-x86 busybox-static nfs-common kmod cpio python3' python3
wants_program "$program"
kernel
root_file_system "$here/linux_session/work"
pack
"$program" format volume.img 256 16 > told.txt
: > served.txt
"$program" serve volume.img "$((port + 1))" 1000 < /dev/null >> served.txt 2>&1 &
await_serving $!
: > console
python3 "$emulator/relay.py" "$port" "$((port + 1))" --told console > session.txt &
emulate client console -serial stdio
wait $!
grep -q '== ends' console || fail "the machine did not come to its end: $(tail -n 5 console)"
python3 "$here/linux_session/rows.py" "$version" < session.txt
