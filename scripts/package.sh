#!/usr/bin/env bash
# Makes a Debian package of the programs: what they are started by (systemd's template units), the
# user whom they run as, manual pages and documents.
#
# scripts/package.sh [FOLDER [NFS41D [NFS41]]] writes nfs41_VERSION_amd64.deb to FOLDER (the current
# one) and prints its name. By default it takes the proved programs, which 'rt run' leaves in
# crates/nfs41d/out and crates/nfs41/out. REVISION (1) is the package's own number: raise it to
# install another build of one version over the one before. It wants dpkg-deb and gzip.
set -eu
here=$(realpath "$(dirname "$0")")
top=$(realpath "$here/..")
folder=$(realpath "${1:-.}")
daemon=$(realpath "${2:-$top/crates/nfs41d/out/nfs41d}")
program=$(realpath "${3:-$top/crates/nfs41/out/nfs41}")
for file in "$daemon" "$program"; do
    [ -x "$file" ] || { echo "no program $file: 'rt run' in its crate's folder builds it" >&2; exit 1; }
done

root=$(mktemp -d)
trap 'rm -r "$root"' EXIT
chmod 755 "$root"

put() { # MODE FROM TO
    install -D -m "$1" "$2" "$root/$3"
}

put 755 "$daemon" usr/sbin/nfs41d
put 755 "$program" usr/sbin/nfs41
for unit in nfs41d@.service nfs41d@.socket; do
    put 644 "$here/$unit" "lib/systemd/system/$unit"
done
sed -i 's#/usr/local/sbin/#/usr/sbin/#' "$root/lib/systemd/system/nfs41d@.service"
put 644 "$here/package/nfs41.sysusers" usr/lib/sysusers.d/nfs41.conf
put 644 "$here/package/nfs41.tmpfiles" usr/lib/tmpfiles.d/nfs41.conf
for page in nfs41 nfs41d; do
    put 644 "$top/docs/man/$page.8" "usr/share/man/man8/$page.8"
    gzip -9n "$root/usr/share/man/man8/$page.8"
done
for page in README.md docs/SERVING.md docs/CLIENTS.md docs/LIMITS.md docs/SCRIPTS.md docs/FORMAT.md; do
    put 644 "$top/$page" "usr/share/doc/nfs41/$(basename "$page")"
done

# "nfs41d 0.2.0 (..)": the program says its version itself.
version=$("$daemon" --version | awk '{ print $2; exit }')-${REVISION:-1}
size=$(du -sk "$root" | cut -f1)
mkdir "$root/DEBIAN"
sed "s/@VERSION@/$version/; s/@SIZE@/$size/" "$here/package/control" > "$root/DEBIAN/control"
for script in postinst prerm postrm; do
    install -m 755 "$here/package/$script" "$root/DEBIAN/$script"
done
dpkg-deb --root-owner-group -Zxz --build "$root" "$folder/nfs41_${version}_amd64.deb" > /dev/null
echo "$folder/nfs41_${version}_amd64.deb"
