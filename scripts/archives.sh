#!/usr/bin/env bash
# Puts archives of GNU tar into volumes, writes volumes as archives for GNU tar and for a larger
# volume, gets files, lists directories, and tries what is refused. The output is compared with
# archives.expected. The last line is 'as expected'; else the difference is printed, and the status
# is 1 (10 seconds).
#
# scripts/archives.sh [NFS41D]: by default what 'rt run' has built in crates/nfs41d. It wants GNU tar
# and python3.
set -eu
here=$(realpath "$(dirname "$0")")
daemon=$(realpath "${1:-$here/../crates/nfs41d/out/nfs41d}")
folder=$(mktemp -d)
trap 'chmod -R u+rwx "$folder"; rm -r "$folder"' EXIT
told=$folder/told.txt
mkdir "$folder/work"
cd "$folder/work"

# A tree with what is hard: modes, times, owners, empty and long names, sizes about a block.
long=$(printf 'n%.0s' $(seq 200))
mkdir -p tree/empty "tree/$long/$long" tree/private
printf 'hello\n' > tree/hello
: > tree/nothing
head -c 512 /dev/zero > tree/block
head -c 513 /dev/zero > tree/more
python3 -c 'import sys; sys.stdout.buffer.write(bytes(i * i % 251 for i in range(1500000)))' > tree/large
printf 'deep\n' > "tree/$long/$long/file"
printf 'umlaut\n' > tree/grüße
mid=$(printf 'm%.0s' $(seq 60))
mkdir "tree/$mid"
printf 'prefix\n' > "tree/$mid/$mid"
chmod 444 tree/block
chmod 600 tree/private
chmod 640 tree/hello
chmod 555 tree/empty
at() { find tree -exec touch -d "$1 UTC" {} +; }
pack() { tar -C tree --sort=name --owner=1001 --group=3000000 "$@" -c .; }
fresh() { rm -f "$1"; "$daemon" format "$1" "$2" "$3" > /dev/null; }

try_all() {
echo '== an archive goes in, and comes out with the same bytes, owners, modes and times'
at '2024-02-29 23:59:58'
for format in gnu pax; do
    pack --format=$format > $format.tar
    fresh $format.img 1024 64
    "$daemon" put $format.img $format.tar
    "$daemon" tar $format.img > $format.out
    for it in tar out; do
        TZ=UTC tar tvf $format.$it --numeric-owner --full-time | sort > $format.$it.list
    done
    cmp $format.tar.list $format.out.list && mkdir $format && tar -C $format -xf $format.out &&
        diff -r tree $format && echo $format
done
cmp gnu.out pax.out
pack --format=ustar --exclude="$long" --group=100 > ustar.tar
fresh ustar.img 1024 64
"$daemon" put ustar.img ustar.tar && "$daemon" tar ustar.img | tar tv --numeric-owner | wc -l

echo '== nanoseconds, and the standard input'
at '2001-09-09 01:46:40.123456789'
fresh nanos.img 1024 64
pack --format=pax | "$daemon" put nanos.img -
"$daemon" tar nanos.img > nanos.tar
mkdir nanos && tar -C nanos -xf nanos.tar
(cd nanos && TZ=UTC find . -printf '%T+\n' | sort -u)

echo '== a larger volume gets the same bytes'
fresh larger.img 4096 512
"$daemon" tar nanos.img | "$daemon" put larger.img -
"$daemon" tar larger.img | cmp - nanos.tar && echo same

echo '== a list that no mode says'
python3 - > acl.tar <<'END'
import io, sys, tarfile
out = tarfile.open(fileobj=sys.stdout.buffer, mode="w|", format=tarfile.PAX_FORMAT)
def put(name, kind, acl):
    it = tarfile.TarInfo(name); it.type = kind; it.mtime = 7; it.uid = 5; it.mode = 0o600
    it.size = 3 if kind == tarfile.REGTYPE else 0
    it.pax_headers = {"SCHILY.acl.ace": acl}
    out.addfile(it, io.BytesIO(b"abc"))
put("a", tarfile.DIRTYPE, "owner@:rwxpdDaARWcCos:fd-----:allow,group:7:w:fi:deny:7")
put("a/listed", tarfile.REGTYPE, "user:alice:r-----a-R-c--s:-------:allow:12,everyone@:x::allow")
out.close()
END
fresh acl.img 256 16
"$daemon" put acl.img acl.tar
"$daemon" ls acl.img /
"$daemon" ls acl.img /a
"$daemon" tar acl.img | strings | grep SCHILY | cut -d' ' -f2-

echo '== looking writes nothing'
before=$(sha256sum < nanos.img)
"$daemon" ls nanos.img / | sed "s/$long/LONG/"
"$daemon" ls nanos.img "/$long/./$long/"
"$daemon" ls nanos.img hello
"$daemon" get nanos.img /hello
"$daemon" get nanos.img large | cmp - tree/large
chmod 400 nanos.img
"$daemon" get nanos.img "//$long//$long/file"
[ "$before" = "$(sha256sum < nanos.img)" ] && "$daemon" check nanos.img

echo '== what is refused'
refused() {
    echo "-- $*"
    "$daemon" "$@" 2>&1 > /dev/null |
        sed "s/$long/LONG/g; s/GNUSparseFile\.[0-9]*/GNUSparseFile.N/; s/l\{256\}/LONGER/" || true
}
refused ls nanos.img /missing
refused ls nanos.img /hello/below
refused get nanos.img /empty
refused get nanos.img /
refused put larger.img gnu.tar
refused put missing.img gnu.tar
refused put larger.img missing.tar
mkdir odd && cd odd
ln -s there symbolic && tar -cf ../symbolic.tar symbolic
: > solo && : > one && ln one two && tar -cf ../hard.tar one two
mkfifo pipe && tar -cf ../pipe.tar pipe
truncate -s 1M sparse && tar -Scf ../sparse.tar sparse && tar --format=pax -Scf ../sparse2.tar sparse
truncate -s 16777217 huge && tar -cf ../huge.tar huge
mkdir -p up/up && tar -cPf ../dots.tar up/../one
head -c 600000 /dev/zero > room && tar -cf ../room.tar room
touch -d 1969-12-31 old && tar -cf ../old.tar old
tar -cf ../twice.tar solo && tar -rf ../twice.tar solo
cd ..
head -c 2000 gnu.tar > cut.tar
head -c 512 gnu.tar > short.tar
head -c 4096 /dev/urandom > noise.tar
python3 - <<'END'
import io, tarfile
def make(name, path, headers):
    with tarfile.open(name, "w", format=tarfile.PAX_FORMAT) as out:
        it = tarfile.TarInfo(path); it.pax_headers = headers
        out.addfile(it, io.BytesIO())
make("audit.tar", "it", {"SCHILY.acl.ace": "everyone@:r::audit"})
make("longer.tar", "l" * 256, {})
make("bytes.tar", "a\x01", {"comment": "c" * 1100000})
END
for it in symbolic hard pipe sparse sparse2 huge dots room old twice cut short noise audit longer bytes; do
    fresh odd.img 256 16
    refused put odd.img $it.tar
done
"$daemon" put 2>&1 | cut -c1-13 || true
}

try_all | tee "$told"
[ "${PIPESTATUS[0]}" = 0 ] || exit 1
diff "$here/archives.expected" "$told" && echo 'as expected'
