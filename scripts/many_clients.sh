#!/usr/bin/env bash
# Many connections of one server: a million requests from 16 at once, each beside a small model,
# over connections that are reset at random places, while curl reads the counters; 10,000
# connections in turn; peers that misbehave. What holds is compared with many_clients/expected.txt.
#
# scripts/many_clients.sh [NFS41D [NFS41]]: by default what 'rt run' has built in crates/nfs41d and
# in crates/nfs41. The volume lies in memory. REQUESTS is how many requests (1000000), SEED what
# they are picked by (1), METRICS where the counters are (127.0.0.1:20520). With ADDRESS and PROCESS
# it asks a server that runs here already, which is to have neither clients nor files, and its
# counters at METRICS. It wants rustc and curl.
set -eu
here=$(realpath "$(dirname "$0")")
daemon=$(realpath "${1:-$here/../crates/nfs41d/out/nfs41d}")
program=$(realpath "${2:-$here/../crates/nfs41/out/nfs41}")
requests=${REQUESTS:-1000000}
seed=${SEED:-1}
address=${ADDRESS:-}
metrics=${METRICS:-127.0.0.1:20520}
server=
reader=
folder=$(mktemp -d -p /dev/shm)
cd "$folder"

end() {
    [ -z "$server" ] || kill -9 "$server"
    [ -z "$reader" ] || kill "$reader"
    cd /
    rm -r "$folder"
}
trap end EXIT

# Starts the server at a port that the system picks.
serve() {
    "$program" format volume.img 65536 16000
    "$daemon" --metrics "$metrics" volume.img 127.0.0.1:0 < /dev/null > served.txt 2> lines.txt &
    server=$!
    for _ in $(seq 100); do
        address=$(sed -n 's/^serving //p' served.txt)
        [ -z "$address" ] || return 0
        sleep 0.1
    done
    echo 'the server does not serve' >&2
    exit 1
}

# Reads a page of counters.
read_counters() {
    curl -sf -m 5 -o page.txt -w '%{time_total}\n' "http://$metrics/metrics" || echo failed
}

# Reads it again and again, up to the first check's end.
read_meanwhile() {
    while [ ! -s told.txt ]; do
        read_counters >> times.txt
        sleep 0.2
    done
}

# What came of that, and whether the counters have all requests.
tell_counters() {
    local pages failed counted
    pages=$(wc -l < times.txt)
    failed=$(grep -c failed times.txt || true)
    read_counters > last.txt
    counted=$(sed -n 's/^nfs41_requests_total //p' page.txt)
    echo "$pages pages, $(sort -n times.txt | tail -1) s at most, $counted requests" >&2
    [ "$pages" -gt 0 ] && [ "$failed" = 0 ] && [ "$counted" -ge "$requests" ] &&
        echo 'counters: curl reads them meanwhile, and they have every request' ||
        echo "counters: $failed of $pages pages are missing"
}

# Ends it, and looks at what it left.
check() {
    kill -9 "$server"
    wait "$server" 2> /dev/null || true
    server=
    "$program" check volume.img
}

rustc --edition 2021 -O -o many_clients "$here/many_clients/main.rs"
[ -n "$address" ] || serve
read_meanwhile &
reader=$!
./many_clients "$address" "${PROCESS:-$server}" "$requests" "$seed" | tee told.txt
[ "${PIPESTATUS[0]}" = 0 ] || exit 1
wait "$reader"
reader=
tell_counters | tee -a told.txt
[ -z "$server" ] || check
sed "s/^1000000 /$requests /" "$here/many_clients/expected.txt" | diff - told.txt &&
    echo 'as expected'
