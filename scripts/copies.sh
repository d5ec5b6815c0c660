#!/usr/bin/env bash
# Prints how many allocations `nfs41 serve` makes for an operation, of how many bytes together, and
# how many copies of 2,048 bytes or more, of how many bytes: what a longer run has more than a
# shorter one, for each of its operations more. The server counts itself (copies.c), so what the
# kernel copies is not told. It wants cc and rustc.
#
# scripts/copies.sh [NFS41 [OPERATION ..]]: by default what `rt run` in crates/nfs41 has built, and
# those operations of nfsload.rs that stand below.
set -eu
here=$(dirname "$(realpath "$0")")
program=$(realpath "${1:-$here/../crates/nfs41/out/nfs41}")
shift || true
[ $# -gt 0 ] || set -- null getattr read readdir write_unstable long_write_unstable write_sync \
    mkdir_rmdir full_mkdir_rmdir
folder=$(mktemp -d -p /dev/shm)
trap 'rm -r "$folder"' EXIT
cd "$folder"
cc -O2 -fno-builtin -shared -fPIC -o copies.so "$here/copies.c" -ldl
rustc --edition 2021 -O -o nfsload "$here/nfsload.rs"

# Serves one connection for so long: what was counted, and how many operations it had.
serve() {
    local port server
    "$program" format volume.img 65536 16000 > serving.txt
    : > serving.txt
    LD_PRELOAD=$folder/copies.so "$program" serve volume.img 0 1 > serving.txt 2> counted.txt &
    server=$!
    until port=$(grep -oE '[0-9]+$' serving.txt); do sleep 0.1; done
    echo | ./nfsload "127.0.0.1:$port" 0 "$1" "$2" times > times.txt
    wait "$server"
    awk '{ print $2, $4, $6, $8 }' counted.txt
    tr ' ' '\n' < times.txt | awk -F: '/:/ { all += $2 } END { print all }'
}

echo "| operation | allocations | their bytes | copies | their bytes |"
echo "|---|---|---|---|---|"
for operation; do
    { serve 0.3 "$operation"; serve 0.9 "$operation"; } | tr '\n' ' ' | awk -v name="$operation" '{
        n = $10 - $5
        printf "| `%s` | %.1f | %.0f | %.1f | %.0f |\n", name, ($6 - $1) / n, ($7 - $2) / n,
            ($8 - $3) / n, ($9 - $4) / n }'
done
