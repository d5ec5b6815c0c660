#!/usr/bin/env bash
# Sends nfs41d records of at most 200 bytes that claim up to 2^32 - 1 of what they do not hold, one
# at a time, and counts what it takes of memory for each. Where the claim is refused that is the
# buffers of its COMPOUND, or none; where it is served, a page or a transaction besides. So nothing
# is reserved by a count or a length whose bytes were not read. What each is answered and takes is
# printed and compared with claimed_counts/expected.txt, but for the numbers in brackets. The last
# line is 'as expected'; else the difference is told, and the status is 1. It wants cc and python3.
#
# scripts/claimed_counts.sh [NFS41D [NFS41]]: by default what 'rt run' has built in crates/nfs41d
# and in crates/nfs41.
#
# scripts/claimed_counts.sh --try [NFS41]: a server that 'rt try' builds without a proof from a copy
# of the repository.
# scripts/claimed_counts.sh --wrong [NFS41]: the same with the edits of claimed_counts/wrong, which
# reserve what is claimed. The lines that differ have to be those of its expected.txt.
set -eu
here=$(realpath "$(dirname "$0")")
top=$(dirname "$here")
parts=$here/claimed_counts
kind=proved
case ${1:-} in
    --try | --wrong)
        kind=${1#--}
        shift
        set -- "" "$@"
        ;;
esac
daemon=${1:-$top/crates/nfs41d/out/nfs41d}
program=$(realpath -m "${2:-$top/crates/nfs41/out/nfs41}")
[ "$kind" != proved ] || daemon=$(realpath "$daemon")
server=
building=
folder=$(mktemp -d)
cd "$folder"

end() {
    {
        [ -z "$server" ] || kill -9 "$server" || true
        [ -z "$building" ] || kill "$building" || true
        wait || true
    } 2> /dev/null
    cd /
    rm -r "$folder"
}
trap end EXIT

# A new volume. Without a proved program 'rt try' makes it.
format() {
    if [ -x "$program" ]; then
        "$program" format volume.img 8192 64
    else
        (cd "$top/crates/nfs41" && rt try -- format "$folder/volume.img" 8192 64)
    fi > formatted.txt 2>&1
}

# Makes an edit in the copy: a line 'file: PATH', and pairs of lines 'old: TEXT' and 'new: TEXT', of
# which each old text stands in the file once.
edit() {
    python3 - "$1" << 'EDIT'
import sys

lines = [line.rstrip("\n").partition(": ")[2] for line in open(sys.argv[1])]
path = "copy/" + lines[0]
text = open(path).read()
for old, new in zip(lines[1::2], lines[2::2]):
    assert text.count(old) == 1, f"{sys.argv[1]}: {old}"
    text = text.replace(old, new)
open(path, "w").write(text)
EDIT
}

# The server with these edits, which is linked with what counts. 'rt try' runs a program and keeps
# none, so it is copied while it runs.
build() {
    local name
    mkdir copy tries
    tar -C "$top" -c --exclude 'crates/*/out' crates crates.txt HANDLES | tar -C copy -x
    for name in "$@"; do
        edit "$name"
    done
    mkdir copy/crates/nfs41d/c
    {
        echo '#define SANITIZED'
        cat "$parts/taken.c"
    } > copy/crates/nfs41d/c/taken.c
    (
        cd copy/crates/nfs41d
        export TMPDIR=$folder/tries RT_ALLOW_C=nfs41d RT_SECONDS=600
        exec rt try -- "$folder/volume.img" 127.0.0.1:0
    ) > built.txt 2>&1 &
    building=$!
    until grep -qs '^serving ' tries/*/*/stdout; do
        kill -0 "$building" 2> /dev/null || {
            cat built.txt >&2
            exit 1
        }
        sleep 0.2
    done
    cp tries/*/*/program nfs41d
    kill "$building"
    wait "$building" || true
    building=
    daemon=$folder/nfs41d
}

# Starts the server at a port that the system picks, with what counts before the C library. It
# prints no line for a connection, which would take memory too.
serve() {
    local library=${1:-}
    truncate -s 24 taken
    TAKEN=$folder/taken LD_PRELOAD=$library \
        "$daemon" --quiet volume.img 127.0.0.1:0 < /dev/null > served.txt &
    server=$!
    for _ in $(seq 100); do
        address=$(sed -n 's/^serving //p' served.txt)
        [ -z "$address" ] || return 0
        sleep 0.1
    done
    echo 'the server does not serve' >&2
    exit 1
}

format || {
    cat formatted.txt >&2
    exit 1
}
case $kind in
    try) build ;;
    wrong) build "$parts"/wrong/*.edit ;;
    proved) cc -O2 -shared -fPIC -o taken.so "$parts/taken.c" ;;
esac
if [ "$kind" = proved ]; then serve "$folder/taken.so"; else serve; fi
PYTHONPATH=$here python3 -B "$parts/main.py" "$address" taken | tee told.txt
[ "${PIPESTATUS[0]}" = 0 ] || exit 1
sed -i 's/ ([^()]*)$//' told.txt
if [ "$kind" = wrong ]; then
    grep -vxFf "$parts/expected.txt" told.txt | diff "$parts/wrong/expected.txt" -
else
    diff "$parts/expected.txt" told.txt
fi && echo 'as expected'
