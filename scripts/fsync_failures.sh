#!/usr/bin/env bash
# Serves a volume by nfs41d from a disk that fails one write or sync, and cuts the power later. The
# disk is a FUSE file system that does what Linux does with a file: when a sync fails, what it could
# not write never reaches the disk, reads still return it, and the next sync succeeds.
#
# A client makes directories until a write or a sync fails and the server ends. The server is started
# again, and the client goes on. The power is cut before each write and sync of that second run, and
# after the last one; of the sectors that were not synced then, none, all, or one has reached the
# disk. The next mount must have every directory whose making was acknowledged. That is done for each
# write and sync of the first run. The last line is 'nothing is lost'; else the losses are printed,
# and the status is 1 (5 minutes).
#
# scripts/fsync_failures.sh [NFS41D [NFS41]]: by default what 'rt run' has built in crates/nfs41d and
# in crates/nfs41. It wants root, /dev/fuse and python3.
set -eu
here=$(realpath "$(dirname "$0")")
daemon=$(realpath "${1:-$here/../crates/nfs41d/out/nfs41d}")
program=$(realpath "${2:-$here/../crates/nfs41/out/nfs41}")
[ "$(id -u)" = 0 ] && [ -c /dev/fuse ] || {
    echo 'it wants root and /dev/fuse' >&2
    exit 1
}
folder=$(mktemp -d -p /dev/shm)
trap 'rm -r "$folder"' EXIT
export PYTHONPATH=$here
python3 -B "$here/fsync_failures/main.py" "$daemon" "$program" "$folder"
echo 'nothing is lost'
