#!/usr/bin/env python3
"""Runs rt and prints the processor seconds that it took for each crate.

    scripts/gate_cost.py             at the top of the repository: the gate, rt ci
    scripts/gate_cost.py WORD ..     other words of rt, as `check` in a crate's folder

rt runs within this process. For each process that it starts, the system tells what that one took, with all that it
started itself, once it has ended. The sum is what the whole run took; `rest` are rt itself, linking, the programs and the tests.
Behind the table stand the steps that took most memory, and the edits that must fail which took longest.
"""
import importlib.machinery
import importlib.util
import os
import resource
import shutil
import subprocess
import sys
import threading
import time
from collections import Counter

COLUMNS = ("library", "tests", "edits", "rest")
COPIED = bytes(268 * 1024)
LONGEST, LARGEST = 20, 8
taken = Counter()
# The processor seconds of each edit, and the most memory in GB that a process of each step held.
edits, memory = Counter(), {}
# The edit that this thread tries.
trying = threading.local()
started = subprocess.Popen.__init__


def part_of(words, folder):
    """Returns the crate and the column that a process belongs to."""
    words = [str(it) for it in words]
    if "--crate-name" not in words:
        return "", "rest"
    name = words[words.index("--crate-name") + 1]
    if os.path.basename(folder or "").startswith("rt-edit-"):
        return name, "edits"
    return name, "tests" if "--test" in words else "library"


def start(self, args, *more, **named):
    self.part = part_of(args if isinstance(args, list) else [args], named.get("cwd"))
    self.edit = getattr(trying, "edit", None)
    started(self, args, *more, **named)


def wait_for(self, flags):
    try:
        pid, status, used = os.wait4(self.pid, flags)
    except ChildProcessError:
        return self.pid, 0
    if pid:
        seconds = used.ru_utime + used.ru_stime
        taken[self.part] += seconds
        step = f"{self.part[0]} {self.edit or self.part[1]}".strip()
        memory[step] = max(memory.get(step, 0), used.ru_maxrss / 1e6)
        if self.edit:
            edits[step] += seconds
    return pid, status


def naming_edits(must_fail):
    """Returns must_fail so that what it starts is told under the edit's name."""

    def call(crate, edit, *more):
        trying.edit = os.path.basename(edit).removesuffix(".edit")
        try:
            return must_fail(crate, edit, *more)
        finally:
            trying.edit = None

    return call


def run_rt(words):
    subprocess.Popen.__init__, subprocess.Popen._try_wait = start, wait_for
    file = os.path.realpath(shutil.which("rt"))
    loader = importlib.machinery.SourceFileLoader("rt", file)
    rt = importlib.util.module_from_spec(importlib.util.spec_from_loader("rt", loader))
    loader.exec_module(rt)
    rt.must_fail = naming_edits(rt.must_fail)
    return rt.main(words)


def yardstick():
    """Returns how many gigabytes a second one processor copies from cache to cache."""
    to, best = bytearray(COPIED), 0
    for _ in range(20):
        begin = time.perf_counter()
        for _ in range(200):
            to[:] = COPIED
        best = max(best, 200 * len(COPIED) / (time.perf_counter() - begin))
    return best / 1e9


def show(wall):
    whole = sum(sum(resource.getrusage(it)[:2]) for it in (resource.RUSAGE_SELF, resource.RUSAGE_CHILDREN))
    taken["", "rest"] = whole - sum(it for (name, _), it in taken.items() if name)
    names = sorted({it for it, _ in taken if it}, key=lambda it: -sum(taken[it, kind] for kind in COLUMNS))
    print("| processor seconds | library | tests | edits | rest | sum |\n|---|---|---|---|---|---|")
    for name in [*names, "", "sum"]:
        row = [sum(it for (of, k), it in taken.items() if k == kind and name in (of, "sum")) for kind in COLUMNS]
        cells = " | ".join(f"{it:.0f}" if it else "" for it in [*row, sum(row)])
        print(f"| {'`' + name + '`' if name not in ('', 'sum') else name or 'beside them'} | {cells} |")
    largest = sorted(memory.items(), key=lambda it: -it[1])[:LARGEST]
    print("most memory, in GB: " + ", ".join(f"{step} {it:.1f}" for step, it in largest))
    for step, seconds in edits.most_common(LONGEST):
        print(f"{seconds:6.0f} {step}, {memory[step]:.1f} GB")
    print(f"{len(edits)} edits; {whole / 60:.1f} processor minutes, {wall / 60:.1f} minutes by the clock, {os.cpu_count()} processors; one copies {yardstick():.0f} GB a second")


if __name__ == "__main__":
    begin = time.monotonic()
    status = run_rt(sys.argv[1:] or ["ci"])
    show(time.monotonic() - begin)
    sys.exit(status)
