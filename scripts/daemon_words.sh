#!/usr/bin/env bash
# Gives nfs41d each form of its command line: every command, every option with values that it takes
# and with values that it refuses, and files that are volumes, are none, or are served. What it
# prints and its exit status are compared with daemon_words/expected.txt. The last line is 'as
# expected'; else the difference is printed, and the status is 1 (10 seconds). A server that serves
# is ended by SIGTERM.
#
# scripts/daemon_words.sh [NFS41D]: by default what 'rt run' has built in crates/nfs41d.
set -u
here=$(dirname "$(realpath "$0")")
daemon=$(realpath "${1:-$here/../crates/nfs41d/out/nfs41d}")
[ -x "$daemon" ] || {
    echo "no program $daemon: 'rt run' in its crate's folder builds it" >&2
    exit 1
}
# How many seconds a server may take to mount.
patience=60
folder=$(mktemp -d)
server=
end() {
    [ -z "$server" ] || kill -9 "$server"
    rm -r "$folder"
}
trap end EXIT
cd "$folder" || exit 1
# With these it would take the journal for its reader, and a socket from systemd.
export LC_ALL=C
unset JOURNAL_STREAM INVOCATION_ID LISTEN_FDS LISTEN_PID NOTIFY_SOCKET

# What was printed: lines of standard output, and behind a '!' those of standard error. The usage is
# shown once.
shown() {
    sed 's/^/    /' out.txt
    cmp -s err.txt usage.txt && echo '  ! that usage' || sed 's/^/  ! /' err.txt
}

# The same for every release, at any port, and for every volume.
without_numbers() {
    sed -E 's/^(.{4}nfs41d) [0-9]+\.[0-9.]+/\1 VERSION/; s/\(rattle-kit[^)]*\)$/(KIT)/
        s/^(.{4}(serving|listening on) .*:)[0-9]+$/\1PORT/; s/:[0-9]+(, metrics on )/:PORT\1/
        /other[.]img/s/:[1-9][0-9]+/:PORT/; s#d{250}[d/]*#dddd../#
        s/ identity [0-9a-f]{32}$/ identity IDENTITY/'
}

# Tries these words. Those of 256 bytes or more are cut in what is printed.
words() {
    local word
    printf '$ nfs41d'
    for word; do
        case $word in
            '') word="''" ;;
            *[!a-zA-Z0-9./:=_,+-]*) word=$(printf '%q' "$word") ;;
        esac
        [ "${#word}" -lt 256 ] || word="${word:0:4}..(${#word} bytes)"
        printf ' %s' "$word"
    done
    echo
}

# The program with these words, which is to end.
try() {
    words "$@"
    timeout "$patience" "$daemon" "$@" < /dev/null > out.txt 2> err.txt
    local status=$?
    shown
    echo "  status $status"
}

# Starts the program with these words, and waits until it serves or has ended.
start() {
    local tries
    : > out.txt
    "$daemon" "$@" < /dev/null > out.txt 2> err.txt &
    server=$!
    for ((tries = 0; tries < patience * 10; tries++)); do
        ! grep -q '^serving' out.txt || return 0
        kill -0 "$server" 2> /dev/null || return 0
        sleep 0.1
    done
}

# Ends it.
stop() {
    local status
    kill "$server" 2> /dev/null
    wait "$server" 2> /dev/null
    status=$?
    server=
    [ "$status" = 143 ] && echo '  serves' || echo "  status $status"
}

# The program with these words, which is to serve.
serves() {
    words "$@"
    start "$@"
    shown
    stop
}

# Drops the root of the volume in this file, in the first sector of its node table.
damage() {
    dd if=/dev/zero of="$1" bs=4096 count=1 seek=148 conv=notrunc status=none
}

# Sets how often the volume in this file was mounted to the highest number.
wear() {
    printf '\377\377\377\377' | dd of="$1" bs=1 seek=20 conv=notrunc status=none
}

# Sets the version of the volume in this file to one that is not there yet.
of_a_later_version() {
    printf '\377' | dd of="$1" bs=1 seek=11 conv=notrunc status=none
}

# A new volume in this file.
volume() {
    rm -f "$1"
    "$daemon" format "$1" 256 16 > out.txt
}

helping() {
    echo '== help'
    try --help
    try -h
    try help
    try --version
    try -V
    try serve --help
    try format --help
    try check --help
    for words in ls get tar put; do
        try "$words" --help
    done
    try help serve
    try help put
    try help help
    echo '== no form'
    try
    cp err.txt usage.txt
    try serve
    try --no-such-option
    try --no-such-option v.img
    try -x v.img
    try v.img 127.0.0.1:0 more
    try help mount
    try help serve more
    try mount v.img
    try serve serve v.img
    try check --version
    try $'\xff'
}

formatting() {
    echo '== format'
    try format new.img 256 16
    echo "  mode $(stat -c %a new.img), $(stat -c %s new.img) bytes"
    try format new.img 256 16
    try format new.img 512 16
    try format --force new.img 512 32
    echo "  $(stat -c %s new.img) bytes"
    try format new.img --force 256 16
    printf 'no volume\n' > text
    try format text 256 16
    damage new.img
    try format new.img 256 16
    try format --force later.img 256 16
    of_a_later_version later.img
    try format later.img 256 16
    truncate -s 8192 later.img
    try format later.img 256 16
    mkdir folder
    try format folder 256 16
    mkfifo pipe
    try format pipe 256 16
    try format absent/new.img 256 16
    try format '' 256 16
    try format --force forced.img 256 16
    echo '== format: sizes'
    for words in '255 16' '65537 16' '256 1' '256 92' '256 93' '65536 16384' '65536 16385' \
        '-256 16' '+256 16' '0x100 16' '256.0 16' '4294967552 16' '256 sixteen'; do
        rm -f new.img
        try format new.img $words
    done
    rm -f new.img
    try format new.img 256 ''
    echo '== format: layout 3'
    try format new.img 64M
    echo "  mode $(stat -c %a new.img), $(stat -c %s new.img) bytes"
    try check new.img
    try format new.img 64M
    try format --force --nodes 20 --log 288 --seats 64 new.img 16M
    try format --force --nodes 20 --log 288 new.img 3M
    try check new.img
    for words in 2544K 2548K 1T 16T 17T 16777217M 64 64m 64MB 0G -1G '' M 1.5G; do
        rm -f new.img
        try format --nodes 20 --log 288 new.img "$words"
    done
    for words in '--nodes 1' '--nodes 16100' '--log 287' '--log 1023' '--nodes x' '--log -1' \
        '--seats 0' '--seats 65' '--seats five'; do
        rm -f new.img
        try format $words new.img 64M
    done
    try format --nodes 20 new.img 256 16
    try format --log 288 new.img 256 16
    rm -f new.img
    echo "== format: other words"
    try format
    try format new.img
    try format new.img 256
    try format new.img 256 16 more
    try format --quiet new.img 256 16
    try format --force --force new.img 256 16
    try format --force=yes new.img 256 16
    try format -- --force 256 16
    [ ! -e new.img ] || echo 'a refused format has made a file'
}

checking() {
    echo '== check'
    volume v.img
    try check v.img
    try check text.txt
    printf 'no volume\n' > text.txt
    try check text.txt
    try check folder
    : > empty.img
    try check empty.img
    cp v.img short.img
    truncate -s 8192 short.img
    try check short.img
    cp v.img damaged.img
    damage damaged.img
    try check damaged.img
    cp v.img worn.img
    wear worn.img
    try check worn.img
    cp v.img later.img
    of_a_later_version later.img
    try check later.img
    try check pipe
    try check
    try check v.img more
    try check --force v.img
}

# Commands on the files of a volume. archives.sh has what they do.
archives() {
    local words
    echo '== ls, get, tar, put: other words'
    for words in ls 'ls v.img' 'ls v.img / more' get 'get v.img' tar 'tar v.img more' put \
        'put v.img' 'put v.img - more' 'put --force v.img -'; do
        try $words
    done
}

# Options of serve: each is tried with a value that it takes, and with others.
options() {
    echo '== serve: options that it takes'
    for words in '' '--name alpha' "--name $(printf 'n%.0s' {1..1024})" '--name=alpha' \
        '--forget-after 86400' '--forget-after 0' '--forget-after 4294967295' \
        '--allow 192.0.2.0/28' '--allow 192.0.2.7' '--allow 2001:db8::/32' '--allow 0.0.0.0/0' \
        '--allow 192.0.2.0/28 --allow 198.51.100.7/32' '--privileged-ports' \
        '--hold changes' '--hold=all' '--hold none' '--no-persistent-sessions' \
        '--no-persistent-sessions --hold none' '--free-seats' '--quiet' \
        '--metrics 127.0.0.1:0'; do
        serves $words v.img 127.0.0.1:0
    done
    serves serve --quiet v.img 127.0.0.1:0
    serves v.img 127.0.0.1:0 --quiet
    serves --quiet -- v.img 127.0.0.1:0
    serves v.img '[::1]:0'
    echo '== serve: files that are named as commands'
    volume help
    serves ./help 127.0.0.1:0
    serves serve help 127.0.0.1:0
    echo '== serve: options that it refuses'
    for words in "--name $(printf 'n%.0s' {1..1025})" '--name a --name b' \
        '--forget-after' '--forget-after -1' '--forget-after soon' '--forget-after 1.5' \
        '--forget-after 4294967296' '--allow' '--allow 192.0.2.0/33' '--allow 192.0.2.0/' \
        '--allow 192.0.2/24' '--allow 2001:db8::/129' '--allow example.net/24' \
        '--privileged-ports=yes' '--hold' '--hold some' '--hold all --hold all' \
        '--no-persistent-sessions --hold all' '--no-persistent-sessions --hold changes' \
        '--no-persistent-sessions=yes' '--free-seats=yes' '--quiet=yes' \
        '--quiet --quiet' '--metrics' '--metrics 127.0.0.1' '--metrics localhost:9100' \
        '--metrics 127.0.0.1:65536' '--force' '--quiet serve'; do
        try $words v.img 127.0.0.1:0
    done
    try --name '' v.img 127.0.0.1:0
    echo '== serve: addresses that it refuses'
    for words in localhost:2049 2049 :2049 127.0.0.1 127.0.0.1: 127.0.0.1:65536 127.0.0.256:0 \
        ::1:0 '[::1]' 192.0.2.1:0; do
        try v.img "$words"
    done
    try v.img
}

# Files that cannot be served, and what may be done with one that is served.
files() {
    local name taken long
    echo '== serve: files that it refuses'
    for name in absent.img text.txt folder empty.img short.img damaged.img worn.img later.img \
        pipe; do
        try "$name" 127.0.0.1:0
    done
    try '' 127.0.0.1:0
    echo '== a volume that is served'
    start --quiet v.img 127.0.0.1:0
    taken=$(sed -n 's/^serving //p' out.txt)
    try v.img 127.0.0.1:0
    try check v.img
    try format v.img 256 16
    try format --force v.img 256 16
    echo '== an address that is taken'
    volume other.img
    try other.img "$taken"
    try --metrics "$taken" other.img 127.0.0.1:0
    try check other.img
    stop
    echo '== a path that is too long for a name'
    long=$(printf 'd%.0s' {1..250})
    mkdir -p "$long/$long/$long/$long"
    cp other.img "$long/$long/$long/$long/"
    try "$long/$long/$long/$long/other.img" 127.0.0.1:0
    serves --name long "$long/$long/$long/$long/other.img" 127.0.0.1:0
}

for part in helping formatting checking archives options files; do
    "$part"
done | without_numbers | tee told.txt
diff "$here/daemon_words/expected.txt" told.txt && echo 'as expected'
