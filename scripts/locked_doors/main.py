#!/usr/bin/env python3
"""Fills the tables of a server, and prints whether another client gets in.

    main.py NFS41D NFS41 FOLDER
"""
import fcntl
import os
import pathlib
import re
import signal
import subprocess
import sys

import nfs_calls
from nfs_calls import PERSISTENT, compound, create_session, exchange_id, number_at, opaque

# docs/LIMITS.md
MAX_CONNECTIONS, MAX_CLIENTS, MAX_SESSIONS, SEATS = 16, 64, 32, 5
PIPE_BYTES = 4096
# A second address of this machine; any port.
OTHER = ("127.0.0.2", 0)
# A port that only root gets.
PRIVILEGED = ("127.0.0.1", 1022)
# Seconds to wait for a reply, and for a process to end.
PATIENCE = 10
STATUSES = {0: "OK", 10008: "DELAY"}


class Server:
    """A running server, and a connection to it."""

    def __init__(self, daemon, volume, options=(), error=subprocess.DEVNULL):
        words = [daemon, *options, volume, "127.0.0.1:0"]
        self.process = subprocess.Popen(words, stdout=subprocess.PIPE, stderr=error, text=True)
        self.address = self.process.stdout.readline().split()[1]
        self.stream = self.connect()

    def __enter__(self):
        return self

    def __exit__(self, *_):
        self.stream.close()
        self.process.send_signal(signal.SIGKILL)
        self.process.wait(PATIENCE)

    def connect(self, source=None):
        stream = nfs_calls.connect(self.address, source)
        stream.settimeout(PATIENCE)
        return stream

    def ask(self, operation):
        """Sends one operation. Returns its status in words, and the reply."""
        reply = nfs_calls.ask(self.stream, compound(operation))
        status = number_at(reply, 24)
        return STATUSES.get(status, f"status {status}"), reply

    def exchange_id(self, owner):
        """Returns the status, and the client's number."""
        status, reply = self.ask(exchange_id(opaque(owner.encode())))
        return status, int.from_bytes(reply[44:52], "big")

    def create_session(self, client, flags=0, sequence=1):
        """Returns the status, and whether the session is persistent."""
        status, reply = self.ask(create_session(client, flags=flags, sequence=sequence))
        return status, status == "OK" and number_at(reply, 64) & PERSISTENT == PERSISTENT

    def new_session(self, owner, flags=0):
        return self.create_session(self.exchange_id(owner)[1], flags)

    def serves(self, source=None):
        """Tells whether it replies to a NULL on another connection."""
        with self.connect(source) as stream:
            try:
                reply = nfs_calls.ask(stream, nfs_calls.NULL)
            except (TimeoutError, ConnectionError):
                reply = None
        return "not served" if reply is None else "served"


def tell(*words, end="\n"):
    print(*words, end=end, flush=True)


def client_records(daemon, volume):
    """A client sends one EXCHANGE_ID after the other, and confirms none."""
    with Server(daemon, volume) as server:
        server.new_session("mounted")
        for number in range(MAX_CLIENTS - 1):
            server.exchange_id(f"nobody {number}")
        tell(f"{MAX_CLIENTS} client records, of which one is confirmed")
        status, client = server.exchange_id("new")
        tell("  EXCHANGE_ID of another client:", status)
        if status == "OK":
            tell("  CREATE_SESSION:", server.create_session(client)[0])
        tell("  CREATE_SESSION of the confirmed one:", server.new_session("mounted")[0])


def word_of(created):
    status, persists = created
    return f"{status}, {'persistent' if persists else 'not persistent'}"


def seats(daemon, volume):
    """Machines that have persistent sessions go, and never come back."""
    with Server(daemon, volume) as server:
        for number in range(SEATS):
            server.new_session(f"gone {number}", PERSISTENT)
        tell(f"{SEATS} persistent sessions")
        tell("  a session of another client:", word_of(server.new_session("new", PERSISTENT)))
    for options in ([], ["--free-seats"]):
        with open(volume.with_suffix(".txt"), "w+") as error:
            with Server(daemon, volume, options, error) as server:
                tell("the server is started again", *options)
                printed = sum(line.startswith("seat ") for line in open(error.name))
                tell("  seats that it prints:", printed)
                tell("  a session of another client:", end=" ")
                tell(word_of(server.new_session("new", PERSISTENT)))


def full_standard_error(daemon, volume):
    """Nobody reads standard error, and a client makes the server write to it."""
    reads, writes = os.pipe()
    fcntl.fcntl(writes, fcntl.F_SETPIPE_SZ, PIPE_BYTES)
    os.write(writes, bytes(fcntl.fcntl(writes, fcntl.F_GETPIPE_SZ)))
    with Server(daemon, volume, error=writes) as server:
        client = server.exchange_id("mounted")[1]
        for number in range(MAX_SESSIONS):
            server.create_session(client, sequence=number + 1)
        tell(f"{MAX_SESSIONS} sessions, and a standard error that is full")
        try:
            status = server.create_session(client, sequence=MAX_SESSIONS + 1)[0]
        except TimeoutError:
            status = "no reply"
        tell("  one session more:", status)
        tell("  another connection:", server.serves())
    os.close(writes)
    os.close(reads)


def places(daemon, volume):
    """One address takes all places, and says nothing."""
    with Server(daemon, volume) as server:
        taken = [server.connect() for _ in range(MAX_CONNECTIONS)]
        tell(f"{MAX_CONNECTIONS} silent connections of one address")
        tell("  a connection of another address:", server.serves(OTHER))
        for stream in taken:
            stream.close()


def refusals(error):
    """What the server printed of connections that it refused, without their ports."""
    lines = pathlib.Path(error.name).read_text().splitlines()
    return [re.sub(r":\d+:", ":PORT:", line) for line in lines if line.startswith("refused ")]


def guests(daemon, volume):
    """Options choose who is served."""
    elsewhere, other = ["--allow", "192.0.2.0/28"], ["--allow", f"{OTHER[0]}/32"]
    here = ["--allow", "127.0.0.0/8"]
    for options in (elsewhere, other, elsewhere + here):
        with open(volume.with_suffix(".txt"), "w+") as error:
            with Server(daemon, volume, options, error) as server:
                tell(*options)
                tell("  a connection of 127.0.0.1:", server.serves())
                tell(f"  a connection of {OTHER[0]}:", server.serves(OTHER))
                tell("  it prints:", *refusals(error) or ["nothing of that"])
    with Server(daemon, volume, ["--privileged-ports"]) as server:
        tell("--privileged-ports")
        tell("  a connection from another port:", server.serves())
        if os.geteuid() == 0:
            tell("  one from a port below 1024:", server.serves(PRIVILEGED))


def main():
    daemon, program, folder = sys.argv[1:]
    for act in (client_records, seats, full_standard_error, places, guests):
        volume = pathlib.Path(folder) / f"{act.__name__}.img"
        words = [program, "format", volume, "256", "64"]
        subprocess.run(words, check=True, stdout=subprocess.DEVNULL)
        act(daemon, volume)


main()
