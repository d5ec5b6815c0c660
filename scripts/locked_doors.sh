#!/usr/bin/env bash
# Tries to lock all other machines out of nfs41d: fills the table of client records with records that
# are never confirmed; takes all seats of persistent sessions and goes; has the server write to a
# standard error that is full and that nobody reads; and takes all connections. Then another client
# tries to get in. And those whom the options keep out are not served. The output is compared with
# locked_doors/expected.txt. The last line is 'as expected'; else the difference is printed, and the
# status is 1 (10 seconds). Only root tries a connection from a port below 1024.
#
# scripts/locked_doors.sh [NFS41D [NFS41]]: by default what 'rt run' has built in crates/nfs41d and in
# crates/nfs41. It wants python3.
set -eu
here=$(realpath "$(dirname "$0")")
daemon=$(realpath "${1:-$here/../crates/nfs41d/out/nfs41d}")
program=$(realpath "${2:-$here/../crates/nfs41/out/nfs41}")
folder=$(mktemp -d)
trap 'rm -r "$folder"' EXIT
export PYTHONPATH=$here
timeout 300 python3 -B "$here/locked_doors/main.py" "$daemon" "$program" "$folder" |
    tee "$folder/told.txt"
[ "${PIPESTATUS[0]}" = 0 ] || exit 1
if [ "$(id -u)" = 0 ]; then
    cp "$here/locked_doors/expected.txt" "$folder/expected.txt"
else
    sed '$d' "$here/locked_doors/expected.txt" > "$folder/expected.txt"
fi
diff "$folder/expected.txt" "$folder/told.txt" && echo 'as expected'
