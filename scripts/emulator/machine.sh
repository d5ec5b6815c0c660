# Sourced by scripts that emulate machines with Debian's own kernel, which mount a volume that is
# served on this one. From then on a script works in a folder of its own. That goes when it ends,
# and so does what it started.
#
# LIMIT is for how many seconds a machine or a server may tell nothing (900).
limit=${LIMIT:-900}
PATH=$PATH:/usr/sbin:/sbin
emulator=$(realpath "$(dirname "${BASH_SOURCE[0]}")")
folder=$(mktemp -d)
cd "$folder"

end() {
    local process
    for process in $(jobs -pr); do
        kill_one "$process"
    done
    rm -r "$folder"
}
trap end EXIT

# Kills a process of this script, where it still runs, and waits until it is gone.
kill_one() {
    if jobs -pr | grep -qx "$1"; then
        kill -9 "$1"
        wait "$1" 2> /dev/null || true
    fi
}

fail() {
    echo "$1" >&2
    exit 1
}

# Asks for commands, of the Debian packages that are named before them.
wants() {
    local packages=$1 command
    shift
    for command in qemu-system-x86_64 busybox mount.nfs depmod cpio "$@"; do
        command -v "$command" > /dev/null || fail "no $command: apt-get install $packages"
    done
}

# Asks for a program of this repository, which stands in the folder of its crate.
wants_program() {
    [ -x "$1" ] || fail "no program $1: 'rt run' in its crate's folder builds it"
}

# Debian's kernel, and its modules from NFS down to the network card.
kernel() {
    local package
    package=$(apt-cache depends linux-image-amd64 | awk '/Depends: linux-image/ { print $2; exit }')
    apt-get -qq -o APT::Sandbox::User=root download "$package"
    dpkg-deb -x "$package"_*.deb kernel
    version=$(ls kernel/lib/modules)
    depmod -b kernel "$version"
    for module in virtio_pci virtio_net nfsv4; do
        modprobe -d kernel -S "$version" --show-depends "$module"
    done | awk '/^insmod/ && !seen[$2]++ { print $2 }' > modules.txt
}

# Copies a program into the root file system, with the libraries that it is linked to.
copy_program() {
    local library
    cp -L "$(command -v "$1")" "root/$2"
    { ldd "root/$2" || true; } | grep -o '/[^ ]*' | while read -r library; do
        mkdir -p "root$(dirname "$library")"
        cp -Lu "$library" "root$library"
    done
}

# A root file system of busybox and Debian's mount.nfs, where init does the work of this file.
root_file_system() {
    local file
    mkdir -p root/bin root/sbin root/etc root/modules root/proc root/dev root/tmp root/mnt
    cp "$(command -v busybox)" root/bin/
    root/bin/busybox --install -s root/bin
    find root/bin -type l -exec ln -sf busybox {} \;
    copy_program mount.nfs sbin/mount.nfs4
    cp /etc/netconfig root/etc/
    printf 'passwd: files\ngroup: files\nprotocols: files\nhosts: files\n' > root/etc/nsswitch.conf
    printf 'tcp 6 TCP\nudp 17 UDP\n' > root/etc/protocols
    printf 'root:x:0:0::/:/bin/sh\nalice:x:1000:1000::/:/bin/sh\nbob:x:1001:1001::/:/bin/sh\n' \
        > root/etc/passwd
    printf 'root:x:0:\nalice:x:1000:\nbob:x:1001:\n' > root/etc/group
    while read -r file; do
        cp "$file" root/modules/
        basename "$file"
    done < modules.txt > root/modules/order
    cp "$emulator/init" root/
    cp "$1" root/work
}

# Packs it for the kernel.
pack() {
    (cd root && find . | cpio -o -H newc --quiet | gzip -1) > initrd.gz
}

# Starts a machine of this name, in the background. What the emulator itself tells goes to a file;
# the other words are the emulator's.
emulate() {
    local name=$1 told=$2
    shift 2
    qemu-system-x86_64 -machine accel=tcg -m 512 -display none -monitor none -no-reboot \
        -kernel kernel/boot/vmlinuz-* -initrd initrd.gz \
        -append "console=ttyS0 quiet loglevel=0 machine=$name port=$port" \
        -netdev user,id=net,ipv6=off -device virtio-net-pci,netdev=net "$@" \
        < /dev/null > "$told" 2>&1 &
}

# Waits until this server listens, which it tells in served.txt.
await_serving() {
    local tries
    for ((tries = 0; tries < limit * 10; tries++)); do
        ! grep -q '^serving' served.txt || return 0
        jobs -pr | grep -qx "$1" || break
        sleep 0.1
    done
    fail "the server does not serve: $(cat served.txt)"
}
