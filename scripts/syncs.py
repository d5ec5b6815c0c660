#!/usr/bin/env python3
"""Prints how many syncs and writes of its volume `nfs41 serve` makes for one operation, by strace:
where each request comes right after another, and 20 ms after it; and then what it does before the
replies, and after them (the checkpoint).

    scripts/syncs.py [NFS41 [FOLDER]]

By default of what `rt run` in crates/nfs41 has built, on a volume in /var/tmp.
A figure is what a longer run has more than a shorter one, for each of its operations more. The
operations are those of nfsload.rs: mkdir_rmdir and rename are two requests, create_remove is three.
Wants strace and rustc.
"""
import collections
import os
import pathlib
import re
import shutil
import subprocess
import sys
import tempfile

import side_by_side

OPERATIONS = "write_sync mkdir_rmdir create_remove rename".split()
CALLS = "read,recvfrom,write,sendto,pwrite64,pwritev,fsync,fdatasync"
LINE = re.compile(r"(\w+)\(\d+<([^>]*)>.* = (-?\d+)")


def count(trace, volume):
    """Returns how many syncs and writes of the volume stand before replies, and behind them."""
    counts, before = collections.Counter(), False
    for line in pathlib.Path(trace).read_text().splitlines():
        found = LINE.search(line)
        if not found:
            continue
        call, path, result = found[1], found[2], int(found[3])
        if path == volume and call.endswith("sync"):
            counts[before, "sync"] += 1
        elif path == volume and call.startswith("pwrite"):
            counts[before, "write"] += 1
        elif path.startswith(("TCP", "socket")) and result > 0:
            before = call in ("read", "recvfrom")
    return counts


def serve(program, load, folder, operation, seconds, pause):
    """Returns the counts of one run, and how many operations it had."""
    volume, trace = f"{folder}/volume.img", f"{folder}/trace"
    words = [program, "format", volume, "2048", "512"]
    subprocess.run(words, check=True, stdout=subprocess.DEVNULL)
    words = ["strace", "-f", "-qq", "-y", "-o", trace, "-e", f"trace={CALLS}"]
    server, port = side_by_side.start_serving([*words, program, "serve", volume, "0", "1"])
    words = [load, f"127.0.0.1:{port}", "0", str(seconds), operation, "times"]
    known = {**os.environ, "PAUSE": str(pause)} if pause else None
    told = subprocess.check_output(words, text=True, input="\n", env=known)
    server.wait()
    times = re.findall(r" \d+:(\d+)", told)
    return count(trace, volume), sum(map(int, times))


def each(program, load, folder, operation, pause):
    """Returns the counts for one operation."""
    short, few = serve(program, load, folder, operation, 0.2, pause)
    long, many = serve(program, load, folder, operation, 1.2, pause)
    return {key: (long[key] - short[key]) / (many - few) for key in long}


def main():
    program = os.path.abspath(sys.argv[1] if len(sys.argv) > 1 else side_by_side.PROGRAM)
    folder = tempfile.mkdtemp(dir=sys.argv[2] if len(sys.argv) > 2 else "/var/tmp")
    load = side_by_side.build_load(folder)
    side_by_side.PROGRAM = program
    print("| operation | right after another: syncs, writes | after 20 ms | its checkpoint |")
    print("|---|---|---|---|")
    for operation in OPERATIONS:
        close = each(program, load, folder, operation, 0)
        apart = each(program, load, folder, operation, 20)
        pairs = []
        for counts, keys in ((close, (True, False)), (apart, (True,)), (apart, (False,))):
            sums = [sum(counts.get((key, kind), 0) for key in keys) for kind in ("sync", "write")]
            pairs.append("{:.1f}, {:.1f}".format(*sums))
        print(f"| `{operation}` | {' | '.join(pairs)} |")
    shutil.rmtree(folder, ignore_errors=True)


if __name__ == "__main__":
    main()
