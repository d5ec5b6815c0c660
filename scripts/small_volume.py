#!/usr/bin/env python3
"""The files of crates/nfs41d/data/small.img, of which the gate has 'nfs41d tar' write an archive.

scripts/small_volume.py           writes them as an archive, for 'nfs41d put SMALL.IMG -' after
                                  'nfs41d format SMALL.IMG 256 16'
scripts/small_volume.py ARCHIVE   prints 'as expected' if this archive has just these files, with
                                  their owners, modes, times, access control lists and bytes
"""
import io
import sys
import tarfile

LIST = "owner@:rwxpdDaAcCos:fd:allow,group:7:w:fi:deny:7,everyone@:rx::allow"
NEW_YEAR = "1767225600"


def entry(name, content=None, mode=0o644, owner=0, group=0, time=NEW_YEAR, acl=None):
    info = tarfile.TarInfo(name)
    info.type = tarfile.DIRTYPE if content is None else tarfile.REGTYPE
    info.mode, info.uid, info.gid = mode, owner, group
    info.mtime = int(time.split(".")[0])
    info.size = len(content or b"")
    if "." in time:
        info.pax_headers["mtime"] = time
    if acl:
        info.pax_headers["SCHILY.acl.ace"] = acl
    return info, content


ENTRIES = [
    entry("./", mode=0o777),
    entry("./welcome.txt", b"A volume of 256 sectors and 16 nodes.\n"),
    entry("./empty", b"", 0o600, 1001, 100, "0"),
    entry("./files/", mode=0o750, owner=1001, group=100, time="1709251198.000000001"),
    entry("./files/three-blocks", bytes(i * i % 251 for i in range(8193)), 0o444, 1001, 3_000_000,
          NEW_YEAR + ".123456789"),
    entry("./files/grüße", b"names are UTF-8\n", time="4102444800"),
    entry("./files/" + "n" * 150, b"a path of more than 100 bytes\n"),
    entry("./shared/", mode=0o755, owner=1001, acl=LIST),
]


def write(stream):
    with tarfile.open(fileobj=stream, mode="w|", format=tarfile.PAX_FORMAT) as archive:
        for info, content in ENTRIES:
            archive.addfile(info, io.BytesIO(content or b""))


def read(stream):
    """Returns all that an archive has of each path."""
    entries = {}
    with tarfile.open(fileobj=stream) as archive:
        for info in archive:
            time = info.pax_headers.get("mtime", str(info.mtime).removesuffix(".0"))
            acl = info.pax_headers.get("SCHILY.acl.ace")
            content = archive.extractfile(info).read() if info.isreg() else None
            assert info.name not in entries
            entries[info.name] = (
                info.type, info.mode, info.uid, info.gid, time, acl, content
            )
    return entries


if len(sys.argv) == 1:
    write(sys.stdout.buffer)
else:
    wanted = io.BytesIO()
    write(wanted)
    wanted.seek(0)
    with open(sys.argv[1], "rb") as stream:
        assert read(stream) == read(wanted)
    print("as expected")
