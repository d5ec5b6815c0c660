#!/usr/bin/env python3
"""Serves a volume from a disk that fails one write or sync, and cuts the power later. Prints what
the next mount has lost, as the head of ../fsync_failures.sh says.

    main.py NFS41D NFS41 FOLDER
"""
import pathlib
import subprocess
import sys
import time

import nfs_calls
from disk import Disk, Mounted
from nfs_calls import opaque, u32

# The directories that a client makes in each run. After some of them it pauses, long enough for the
# server to make a checkpoint.
MADE = 4
PAUSES_AFTER = (1, 3)
PAUSE_SECONDS = 0.03
# A program that takes longer than this hangs.
PATIENCE = 60
# The losses that are printed for one failure.
PRINTED = 3


class Client:
    """A client that makes directories, and those whose making was acknowledged."""

    def __init__(self, flags):
        self.flags = flags
        self.made = []
        self.asked = 0

    def works(self, address):
        """Makes directories until there are enough, or the server ends."""
        with nfs_calls.connect(address) as stream:
            session = self.session(stream)
            for number in range(1, MADE + 1):
                if session is None or not self.makes(stream, session, number):
                    return
                if number in PAUSES_AFTER:
                    time.sleep(PAUSE_SECONDS)

    def session(self, stream):
        """Returns a session's id, or None if the server ends."""
        owner = opaque(b"client")
        reply = nfs_calls.ask(stream, nfs_calls.compound(nfs_calls.exchange_id(owner)))
        client = reply and int.from_bytes(reply[44:52], "big")
        call = client and nfs_calls.create_session(client, flags=self.flags)
        reply = call and nfs_calls.ask(stream, nfs_calls.compound(call))
        return reply and reply[44:60]

    def makes(self, stream, session, number):
        self.asked += 1
        name = f"made-{self.asked}"
        given = nfs_calls.attributes(nfs_calls.MODE, u32(0o755))
        operation = nfs_calls.make_directory(opaque(name.encode()), given)
        operations = u32(nfs_calls.PUTROOTFH) + operation
        reply = nfs_calls.ask(stream, nfs_calls.in_session(session, number, operations, 2))
        if reply and nfs_calls.number_at(reply, 24) == 0:
            self.made.append(name)
        return reply


class Power:
    """What power cuts leave, and how many directories had been made by then."""

    def __init__(self, disk, client):
        self.disk = disk
        self.client = client
        self.is_watched = False
        self.images = {}

    def note(self):
        """Takes the images that a cut at this moment leaves."""
        if self.is_watched:
            for image in self.disk.after_power_cuts():
                self.images[image] = len(self.client.made)


class Trial:
    """The programs, and a folder for their volumes."""

    def __init__(self, daemon, program, folder):
        self.daemon = daemon
        self.program = program
        self.folder = pathlib.Path(folder)
        self.served = self.folder / "served.img"
        self.served.touch()

    def formatted(self):
        image = self.folder / "formatted.img"
        words = [self.program, "format", image, "256", "64"]
        subprocess.run(words, check=True, stdout=subprocess.DEVNULL)
        return image.read_bytes()

    def serve(self, client):
        """Serves the volume to the client, and ends the server. Returns its refusal, if any."""
        words = [self.daemon, "--quiet", self.served, "127.0.0.1:0"]
        pipes = {"stdout": subprocess.PIPE, "stderr": subprocess.PIPE, "text": True}
        server = subprocess.Popen(words, stdin=subprocess.DEVNULL, **pipes)
        line = server.stdout.readline()
        if line:
            client.works(line.split()[1])
        if line and server.poll() is None:
            # the last checkpoint may be the one that fails
            time.sleep(PAUSE_SECONDS)
            server.kill()
        return server.communicate(timeout=PATIENCE)[1].strip()

    def lost(self, image, names):
        """Returns what a mount of the image has lost of these directories, empty if it has all."""
        volume, script = self.folder / "cut.img", self.folder / "script.txt"
        volume.write_bytes(image)
        lines = ["A hello 7 7", "A session"]
        lines += [f"A call root ; lookup {name}\nA take" for name in names]
        script.write_text("\n".join(lines) + "\n")
        words = [self.program, "run", volume, script]
        ran = subprocess.run(words, capture_output=True, text=True, timeout=PATIENCE)
        missing = len(names) - ran.stdout.count("A lookup 0\n")
        return ran.stderr.strip() or (f"{missing} of {len(names)} directories" if missing else "")

    def fails(self, content, number, drops_all, flags):
        """Fails the call of this number, serves the volume again, and cuts the power. Returns which
        call failed (None if there were fewer calls), how many power cuts were tried, and what they
        lost."""
        client = Client(flags)
        disk = Disk(content, number, drops_all)
        power = Power(disk, client)
        mounted = Mounted(str(self.served), disk, power.note)
        try:
            self.serve(client)
            if disk.failed is None:
                return None, 0, []
            power.is_watched = True
            power.note()
            refused = self.serve(client)
            power.note()
            power.is_watched = False
        finally:
            mounted.unmount()
        lost = [f"served again: {refused}"] if refused else []
        made = client.made
        lost += filter(None, (self.lost(it, made[:n]) for it, n in power.images.items()))
        return disk.failed, len(power.images), lost


def fail_each(trial, content, title, drops_all, flags):
    """Fails each call once, and prints the outcome. Returns whether nothing was lost."""
    calls, cuts, losses = {"write": 0, "sync": 0}, 0, 0
    for number in range(1, 1000):
        failed, more, lost = trial.fails(content, number, drops_all, flags)
        if failed is None:
            break
        calls[failed] += 1
        cuts += more
        losses += len(lost)
        for what in lost[:PRINTED]:
            print(f"  call {number}, a {failed}, fails; later the power is cut: {what}", flush=True)
        if len(lost) > PRINTED:
            print(f"  .. and {len(lost) - PRINTED} more", flush=True)
    print(f"{title}: {calls['write']} writes and {calls['sync']} syncs failed, each once;", end=" ")
    print(f"{cuts} power cuts after them, {losses} with a loss", flush=True)
    return losses == 0


def main():
    trial = Trial(*sys.argv[1:])
    content = trial.formatted()
    plain, persistent = 0, nfs_calls.PERSISTENT
    rounds = [
        ("nothing of a failed sync lands", True, plain),
        ("half of a failed sync lands", False, plain),
        ("nothing lands, persistent session", True, persistent),
    ]
    results = [fail_each(trial, content, *each) for each in rounds]
    sys.exit(0 if all(results) else 1)


main()
