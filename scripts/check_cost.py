#!/usr/bin/env python3
"""Tells where the check of a crate spends its time, at the top of the repository.

    scripts/check_cost.py CRATE             each module of the crate, by its seconds
    scripts/check_cost.py CRATE EDIT ..     each of these must-fail edits, by the stages of its check

Both begin with a check from nothing, in one process, over the libraries below, which `rt check` in the crate's folder has built
before. It keeps each module's file as the module ends, so a module's seconds are those since the file before: they are the
clock's, and tell little beside other work. Of a function F, `F.Proof.decls` are the goals without an answer, `F.Answers.decls`
those that have one; `F.Lts`, `F.Mir`, `F.Code` and `F.Tie` are what the toolchain makes of its body.

Of an edit the stage `session` is the check, with the search that fails, and `offers` prints the goals that are left, which is
not done where an answer fails.
"""
import importlib.machinery
import importlib.util
import os
import re
import resource
import shutil
import sys
import tempfile

ROWS = 60
SHORTEST = 0.5


def load_rt():
    file = os.path.realpath(shutil.which("rt"))
    loader = importlib.machinery.SourceFileLoader("rt", file)
    rt = importlib.util.module_from_spec(importlib.util.spec_from_loader("rt", loader))
    loader.exec_module(rt)
    return rt


def used():
    return sum(resource.getrusage(resource.RUSAGE_CHILDREN)[:2])


def tell_modules(seed):
    """Prints the modules that a check left in a folder, the longest first."""
    files = [f"{at}/{name}" for at, _, names in os.walk(seed) for name in names if name.endswith(".oantt")]
    files.sort(key=os.path.getmtime)
    rows = [(os.path.getmtime(it) - os.path.getmtime(before), os.path.basename(it)) for before, it in zip(files, files[1:])]
    for seconds, name in sorted(rows, reverse=True)[:ROWS]:
        print(f"{seconds:8.2f} {name.removesuffix('.oantt')}")


def tell_edit(rt, crate, name, seed, room):
    """Prints what an edit's check took over the seed, and why it is refused."""
    texts, why = rt.read_edit(f"{crate.folder}/must-fail/{name}.edit", crate.folder)
    if why:
        return print(f"{name}: {why}")
    over, stages, before = f"{room}/{name}", f"{room}/stages", used()
    shutil.copytree(seed, over)
    ran = rt.checked(crate, texts, ["--jobs", "1", "--stage-times", stages], over)
    with open(stages) as it:
        times = re.findall(r"^stage (\S+) (\S+)", it.read(), re.M)
    longest = " ".join(f"{stage} {float(seconds):.1f}" for stage, seconds in times if float(seconds) > SHORTEST)
    first = next((it for it in ran.stdout.split("\n") if re.match(r"(note: )?\S+:\d+:\d+: (error|it is not proved)", it)), "")
    print(f"{used() - before:6.1f} {name}: {longest}\n       {first[:150] if ran.returncode else 'NOT REFUSED'}", flush=True)
    shutil.rmtree(over)


def main(name, *edits):
    rt = load_rt()
    crate = next(it for it in rt.rtlib.crates_below(os.getcwd()) if it.name == name)
    with tempfile.TemporaryDirectory() as room:
        seed, before = f"{room}/seed", used()
        os.mkdir(seed)
        ran = rt.checked(crate, {}, ["--jobs", "1"], seed)
        print(f"{used() - before:.0f} processor seconds, status {ran.returncode}")
        if ran.returncode:
            sys.exit(ran.stdout[-2000:])
        if not edits:
            tell_modules(seed)
        for edit in edits:
            tell_edit(rt, crate, edit, seed, room)


if __name__ == "__main__":
    main(*sys.argv[1:])
