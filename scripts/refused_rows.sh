#!/usr/bin/env bash
# Plays each row of some files of test_player once for each allocation that it makes, with that one
# refused. The call that is refused for want of memory is made once more, and then the row has to end
# as it is written: the state was as before. What the player itself takes, and the record that its
# device in memory keeps, are counted apart. The last line is 'as expected'; else the other runs are
# told, and the status is 1. It wants cc.
#
# scripts/refused_rows.sh [FILE ..]: files of rows, by default those below. PLAYER is the program, by
# default what 'rt run' in crates/test_player has built.
set -u
here=$(dirname "$(realpath "$0")")
data=$here/../crates/test_player/data
player=$(realpath "${PLAYER:-$here/../crates/test_player/out/test_player}")
[ $# -gt 0 ] || set -- sessions.rows persistent.rows operations.rows changes.rows lists.rows
folder=$(mktemp -d)
trap 'rm -r "$folder"' EXIT
cc -O2 -shared -fPIC -o "$folder/refused.so" "$here/refused_memory.c" || exit 1

# The records of a file, and this row of it.
row_of() {
    awk -v wanted="$2" '
        /^row / { is_shown = $2 == wanted }
        /^[A-Z][A-Z_0-9]* = / { is_shown = 1 }
        is_shown' "$1"
}

# How the row that stands in row.rows ends with this allocation refused, or none for 0.
play() {
    REFUSED=$1 COUNTED=count.$1 AFTER_OUTPUT=1 LD_PRELOAD=$folder/refused.so \
        "$player" again "$data/shared.records" row.rows 2>&1 | tail -n +2
}

# What became of one refused allocation.
verdict() {
    local told
    told=$(play "$1")
    case $told in
        *': ok, 1 again') echo again ;;
        *': ok, 0 again') echo unseen ;;
        *'no memory'*) echo own ;;
        *'Refused(Device)'* | *'no device: '* | *'ted: Device') echo record ;;
        *) printf 'other %s, allocation %s: %s\n' "$ROW" "$1" "$told" ;;
    esac
    rm -f "count.$1"
}

export -f play verdict
export folder data player
mkdir "$folder/work"
cd "$folder/work" || exit 1
for file in "$@"; do
    for ROW in $(sed -n 's/^row //p' "$data/$file"); do
        export ROW
        row_of "$data/$file" "$ROW" > row.rows
        play 0 | grep -q ': ok, 0 again$' || echo "other $ROW, with all its memory"
        seq "$(cat count.0)" | xargs -P "$(nproc)" -I N bash -c 'verdict N'
    done
done > told.txt
grep '^other' told.txt
echo "$(grep -c again told.txt) calls came again, $(grep -c unseen told.txt) refusals were not seen," \
    "$(grep -c own told.txt) were the player's, $(grep -c record told.txt) the device's record"
grep -q '^other' told.txt && exit 1
echo 'as expected'
