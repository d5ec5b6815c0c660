#!/usr/bin/env bash
# Runs nfs41d under systemd: Debian's own, the first process of an emulated machine with Debian's
# own kernel. The machine's administrator installs the package that package.sh makes, as
# docs/SERVING.md says, and mounts the volume: the first connection starts the server. It is killed,
# restarted and stopped beneath the mount, a second volume has a server of its own, and a file that
# is no volume is not ready. The package is upgraded beneath both mounts, with files open and while
# others are made. It is removed and purged, and the units are installed by hand. What was seen is
# compared with systemd/expected.txt, but for the seconds in brackets.
#
# scripts/systemd.sh [NFS41D [NFS41 [NEWER]]]: by default what 'rt run' has built in crates/nfs41d
# and in crates/nfs41; NEWER is the nfs41d of the upgrade, by default the same again. LIMIT is for
# how many seconds the machine may print nothing (900). It needs root, the Debian packages that are
# named below, and 1.5 GB of memory for the machine; it fetches Debian's kernel by 'apt-get
# download' and Debian's packages by debootstrap. MIRROR is where from.
set -eu
here=$(realpath "$(dirname "$0")")
daemon=$(realpath "${1:-$here/../crates/nfs41d/out/nfs41d}")
program=$(realpath "${2:-$here/../crates/nfs41/out/nfs41}")
newer=$(realpath "${3:-$daemon}")
mirror=${MIRROR:-http://deb.debian.org/debian}
packages='qemu-system-x86 busybox-static nfs-common kmod cpio debootstrap'
. "$here/emulator/machine.sh"

# Debian's packages, without what nobody reads here.
debian() {
    debootstrap --variant=minbase --include=systemd,systemd-sysv,kmod,netbase,nfs-common,iproute2 \
        bookworm root "$mirror" > debootstrap.txt 2>&1 || fail "$(tail debootstrap.txt)"
    rm -rf root/usr/share/doc root/usr/share/locale root/usr/share/man root/var/cache/apt \
        root/var/lib/apt
}

# What its administrator has, and the one unit that is started.
install_work() {
    local file
    mkdir -p root/modules root/download root/other
    while read -r file; do
        cp "$file" root/modules/
        basename "$file"
    done < modules.txt > root/modules/order
    REVISION=1 "$here/package.sh" root/download "$daemon" "$program"
    REVISION=2 "$here/package.sh" root/download "$newer" "$program"
    cp "$daemon" root/download/nfs41d
    cp "$here/nfs41d@.socket" "$here/nfs41d@.service" root/download/
    cp "$here/systemd/work" root/work
    cp "$here/systemd/work.service" root/etc/systemd/system/
    ln -sf lib/systemd/systemd root/init
}

# Boots the machine, and waits until it has told all, since it may still take minutes to go off
# then.
boot() {
    local size=0 silent
    : > console
    qemu-system-x86_64 -machine accel=tcg -cpu max -m 1536 -display none -monitor none -no-reboot \
        -kernel kernel/boot/vmlinuz-* -initrd initrd.gz -nic none -serial file:console \
        -append 'console=ttyS0 quiet loglevel=0 systemd.show_status=0 systemd.unit=work.service' \
        < /dev/null > qemu.txt 2>&1 &
    for ((silent = 0; silent < limit; silent++)); do
        sleep 1
        ! grep -q '^== ends' console && jobs -pr | grep -qx "$!" || return 0
        [ "$(stat -c %s console)" = "$size" ] || silent=0
        size=$(stat -c %s console)
    done
    echo "nothing printed in $limit seconds" >&2
}

wants "$packages" debootstrap dpkg-deb
wants_program "$daemon"
wants_program "$program"
wants_program "$newer"
kernel
debian
install_work
pack
boot
sed -E 's/\r*$//; 0,/== begins$/d; /^== ends$/,$d' console | tee told.txt
sed -E 's/\([0-9.]+ s\)/(N s)/' told.txt | diff "$here/systemd/expected.txt" - &&
    echo "as expected, by systemd" \
        "$(sed -n 's/^Version: //p' <(dpkg-query --admindir=root/var/lib/dpkg -s systemd))"
