#!/usr/bin/env python3
"""Drives `nfs41d`, on a volume of layout 2 and on one of layout 3, and nfs-ganesha in turns, each by
1, 4 and 16 processes at once, and prints how many requests a second all of them make, the 50th and
the 99th percentile of their times, and how often `nfs41d` syncs its volume for one.

    scripts/many_side_by_side.py [ROUNDS] [SECONDS] [FOLDER]

After `rt run` in crates/nfs41 and crates/nfs41d, as root; NFS41 and NFS41D in the environment name
other programs, and PERSIST has the processes ask for persistent sessions. Needs rustc, and
nfs-ganesha with its VFS module. First the servers keep their files in memory (/dev/shm), then in a new folder in FOLDER
(/var/tmp), whose file system has to write what is synced to a disk. Each process has one
connection, and makes one request at a time (scripts/nfsload.rs). Beside one process `nfs41 serve`
takes a turn too. A figure is the median over the rounds of that round's; behind a rate stands its
ratio to nfs-ganesha's. `mkdir_rmdir` counts two requests as one; nfs-ganesha's VFS module syncs
neither of them.
"""
import collections
import os
import re
import shutil
import statistics
import subprocess
import sys
import tempfile
import urllib.request

import side_by_side

OPERATIONS = "null getattr read write_unstable write_sync mkdir_rmdir".split()
PROCESSES = (1, 4, 16)
DAEMON = os.environ.get("NFS41D") or side_by_side.TOP / "crates/nfs41d/out/nfs41d"
DAEMON_NAME = "nfs41d, layout "
ALONE = "nfs41 serve"
OTHER = "nfs-ganesha"

SYNCS = re.compile(r'nfs41_device_calls_total{call="sync"} (\d+)')

Figures = collections.namedtuple("Figures", "rate half most syncs")


def start_nfs41d(folder, layout):
    """Returns the process, its port, and where it serves metrics."""
    volume = f"{folder}/layout{layout}.img"
    size = ["65536", "16000"] if layout == 2 else ["256M"]
    subprocess.run([DAEMON, "format", volume, *size], check=True, stdout=subprocess.DEVNULL)
    metrics = f"127.0.0.1:{side_by_side.free_port()}"
    words = [DAEMON, volume, "127.0.0.1:0", "--quiet", "--metrics", metrics]
    return *side_by_side.start_serving(words), f"http://{metrics}/metrics"


def syncs_so_far(page):
    """Returns how often a server that has such a page has synced its volume."""
    if not page:
        return 0
    with urllib.request.urlopen(page) as reply:
        return int(SYNCS.search(reply.read().decode()).group(1))


def percentile(times, percent):
    """Returns the time that so many of a hundred stay below, in microseconds."""
    wanted, below = sum(times.values()) * percent / 100, 0
    for tenths in sorted(times):
        below += times[tenths]
        if below > wanted:
            return tenths / 10
    return 0


def ask(process):
    """Has a process make its next kind of request."""
    process.stdin.write("\n")
    process.stdin.flush()


def measure(processes, page):
    """Returns the figures of all processes together for their next kind of request."""
    before = syncs_so_far(page)
    for process in processes:
        ask(process)
    rate, times = 0, collections.Counter()
    for process in processes:
        told = process.stdout.readline()
        rate += float(re.search(r"ops_s (\d+)", told).group(1))
        for tenths, count in re.findall(r" (\d+):(\d+)", told):
            times[int(tenths)] += int(count)
    syncs = (syncs_so_far(page) - before) / max(1, sum(times.values()))
    return Figures(rate, percentile(times, 50), percentile(times, 99), syncs)


def drive(load, port, count, seconds, page=None):
    """Returns the figures of each operation for so many processes."""
    words = [load, f"127.0.0.1:{port}", "0", str(seconds), ",".join(OPERATIONS), "times"]
    pipe = subprocess.PIPE
    processes = [subprocess.Popen(words, stdin=pipe, stdout=pipe, text=True) for _ in range(count)]
    for process in processes:
        process.stdout.readline()
    figures = {operation: measure(processes, page) for operation in OPERATIONS}
    for process in processes:
        process.communicate()
        if process.returncode != 0:
            sys.exit("a process failed")
    return figures


def tell(count, figures):
    """Prints the rows of so many processes, by the figures of each server's rounds."""
    for operation in OPERATIONS:
        medians = {
            name: Figures(*map(statistics.median, zip(*(it[operation] for it in rounds))))
            for name, rounds in figures.items()
        }
        for name, (rate, half, most, syncs) in medians.items():
            ratio = rate / medians[OTHER].rate
            counted = f"{syncs:.2f}" if name.startswith(DAEMON_NAME) else ""
            print(f"| {count} | `{operation}` | {name} | {rate:.0f} ({ratio:.2f})", end="")
            print(f" | {half:.1f} | {most:.1f} | {counted} |")


def compare(where, rounds, seconds):
    """Measures all servers in turns, with their files in a new folder there."""
    folder = tempfile.mkdtemp(dir=where)
    load = side_by_side.build_load(folder)
    servers = {
        **{f"{DAEMON_NAME}{layout}": start_nfs41d(folder, layout) for layout in (2, 3)},
        ALONE: side_by_side.start_nfs41(folder, rounds),
        OTHER: side_by_side.start_ganesha(folder),
    }
    print(f"\nFiles in {where}:\n")
    print("| processes | operation | server | a second (ratio) | half below, µs", end="")
    print(" | 99 % below, µs | syncs |\n|---|---|---|---|---|---|---|")
    for count in PROCESSES:
        names = [name for name in servers if count == 1 or name != ALONE]
        figures = {name: [] for name in names}
        for _ in range(rounds):
            for name in names:
                _, port, *page = servers[name]
                figures[name].append(drive(load, port, count, seconds, *page))
        tell(count, figures)
    side_by_side.end(servers)
    shutil.rmtree(folder, ignore_errors=True)


def main():
    rounds = int(sys.argv[1]) if len(sys.argv) > 1 else 5
    seconds = float(sys.argv[2]) if len(sys.argv) > 2 else 1
    where = sys.argv[3] if len(sys.argv) > 3 else "/var/tmp"
    compare("/dev/shm", rounds, seconds)
    compare(where, rounds, seconds)


if __name__ == "__main__":
    main()
