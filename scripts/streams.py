#!/usr/bin/env python3
"""Streams files of 16 MiB to and from `nfs41d`, on a volume of layout 2 and on one of layout 3, and
nfs-ganesha in turns, over 1 and 4 connections at once, and prints how many megabytes go a second.

    scripts/streams.py [ROUNDS] [SECONDS] [FOLDER]

After `rt run` in crates/nfs41d, as root; NFS41D in the environment names another program. Needs
rustc, and nfs-ganesha with its VFS module. First the servers keep their files in memory (/dev/shm),
then in a new folder in FOLDER (/var/tmp), whose file system has to write what is synced to a disk.
Each server has transfers of its own size: 8 KiB on layout 2, 1 MiB otherwise; BYTES in the
environment gives all of them one size. A figure is the median over the rounds, and behind it stands
its ratio to nfs-ganesha's.
"""
import os
import re
import shutil
import statistics
import subprocess
import sys
import tempfile

import many_side_by_side
import side_by_side

WAYS = "write write_sync read".split()
PROCESSES = (1, 4)
OTHER = many_side_by_side.OTHER
LAYOUTS = (2, 3)


def transfer_bytes(name):
    """Returns the bytes of a READ or WRITE of this server."""
    return os.environ.get("BYTES") or ("8192" if name.endswith("layout 2") else str(1 << 20))


def build(folder):
    program = f"{folder}/nfsstream"
    source = side_by_side.TOP / "scripts/nfsstream.rs"
    subprocess.run(["rustc", "-O", "--edition=2021", "-o", program, source], check=True)
    return program


def drive(program, port, count, seconds, size):
    """Returns how many megabytes so many processes move a second, for each way."""
    words = [program, f"127.0.0.1:{port}", "0", str(seconds), size, ",".join(WAYS)]
    pipe = subprocess.PIPE
    processes = [subprocess.Popen(words, stdin=pipe, stdout=pipe, text=True) for _ in range(count)]
    for process in processes:
        process.stdout.readline()
    rates = {}
    for way in WAYS:
        for process in processes:
            many_side_by_side.ask(process)
        told = [process.stdout.readline() for process in processes]
        rates[way] = sum(int(re.search(r"bytes_s (\d+)", it).group(1)) for it in told) / 1e6
    for process in processes:
        process.communicate()
        if process.returncode != 0:
            sys.exit("a process failed")
    return rates


def compare(where, rounds, seconds):
    """Measures all servers in turns, with their files in a new folder there."""
    folder = tempfile.mkdtemp(dir=where)
    program = build(folder)
    servers = {
        **{
            f"{many_side_by_side.DAEMON_NAME}{it}": many_side_by_side.start_nfs41d(folder, it)
            for it in LAYOUTS
        },
        OTHER: side_by_side.start_ganesha(folder),
    }
    print(f"\nFiles in {where}:\n\n| connections | way | server | MB a second (ratio) |")
    print("|---|---|---|---|")
    for count in PROCESSES:
        rates = {name: [] for name in servers}
        for _ in range(rounds):
            for name, (_, port, *_) in servers.items():
                size = transfer_bytes(name)
                rates[name].append(drive(program, port, count, seconds, size))
        for way in WAYS:
            medians = {name: statistics.median(it[way] for it in rates[name]) for name in servers}
            for name, rate in medians.items():
                ratio = rate / medians[OTHER]
                print(f"| {count} | `{way}` | {name} | {rate:.0f} ({ratio:.2f}) |")
    side_by_side.end(servers)
    shutil.rmtree(folder, ignore_errors=True)


def main():
    rounds = int(sys.argv[1]) if len(sys.argv) > 1 else 5
    seconds = float(sys.argv[2]) if len(sys.argv) > 2 else 1
    where = sys.argv[3] if len(sys.argv) > 3 else "/var/tmp"
    compare("/dev/shm", rounds, seconds)
    compare(where, rounds, seconds)


if __name__ == "__main__":
    main()
