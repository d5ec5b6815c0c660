#!/usr/bin/env python3
"""Sends the records of records.py to a server, one at a time, and prints what each is answered and
what the server takes of memory for it.

    main.py ADDRESS:PORT TAKEN

TAKEN is the file in which taken.c counts for the server. The server is to have neither clients nor
files.
"""
import mmap
import struct
import sys

import nfs_calls
import records
from nfs_calls import MODE, NULL, attributes, compound, make_directory
from nfs_calls import number_at, opaque, receive, u32
from records import A, CHANGES, F, HELD, LITTLE, ROOT

# As many bytes has a record at most.
LONGEST_RECORD = 200

# So many NULLs are answered to another connection before and behind each record, so that the server
# has done with it, and each takes so many bytes.
SETTLES = 2
NULL_BYTES = 28

STATUSES = {
    0: "OK",
    27: "FBIG",
    10036: "BADXDR",
    10070: "TOO_MANY_OPS",
    10071: "OP_NOT_IN_SESSION",
}


def answer_of(reply):
    """What a reply tells of its call."""
    if reply is None:
        return "closed"
    if not reply:
        return "waited for"
    if number_at(reply, 8):
        return f"AUTH_ERROR {number_at(reply, 16)}"
    if number_at(reply, 20):
        return "GARBAGE_ARGS" if number_at(reply, 20) == 4 else "not accepted"
    if len(reply) == 24:
        return "OK"
    status = number_at(reply, 24)
    return STATUSES.get(status, f"status {status}")


class Server:
    """A server that is asked, and what it takes."""

    def __init__(self, address, taken):
        self.address = address
        self.taken = taken
        self.witness = self.connect()
        self.stream = self.connect()

    def connect(self):
        return nfs_calls.connect(self.address)

    def connect_anew(self):
        """Ends the connection for another one."""
        self.stream.close()
        self.stream = self.connect()

    def ask(self, record):
        """The reply; empty where the record is waited for, None where the connection ends."""
        if record == records.HALF:
            self.stream.sendall(record)
            return b""
        return nfs_calls.ask(self.stream, record)

    def settle(self):
        """Waits until the server has done with what was sent."""
        for _ in range(SETTLES):
            self.witness.sendall(NULL)
            receive(self.witness, NULL_BYTES)

    def measure(self, may, act):
        """What an act gives, and in words what was taken for it."""
        self.settle()
        self.taken[:] = bytes(len(self.taken))
        given = act()
        self.settle()
        _, together, largest = struct.unpack("3Q", self.taken)
        together -= SETTLES * NULL_BYTES
        what = may.what
        if together > may.most or largest > may.largest:
            what = f"more than {what}"
        elif together < may.least:
            what = f"less than {what}"
        told = f"{together} bytes, in one piece at most {largest}" if together else "0 bytes"
        return given, f"takes {what} ({told})"

    def tell_connection(self):
        _, takes = self.measure(HELD, self.connect_anew)
        print(f"a connection: {takes}", flush=True)

    def tell(self, name, may, record):
        """Prints what comes of a record. Another connection follows one that ended or waits."""
        assert len(record) <= LONGEST_RECORD, name
        reply, takes = self.measure(may, lambda: self.ask(record))
        print(f"{name}: {answer_of(reply)}, {takes}", flush=True)
        if not reply:
            self.connect_anew()
        return reply

    def new_client(self, owner):
        """The number of a client, which is not confirmed."""
        record = compound(nfs_calls.exchange_id(opaque(owner)))
        reply = self.tell("EXCHANGE_ID", LITTLE, record)
        return struct.unpack_from(">Q", reply, 44)[0]

    def new_session(self, name, may, client, flags):
        record = compound(nfs_calls.create_session(client, flags=flags))
        reply = self.tell(name, may, record)
        return Session(self, reply[44:60])


class Session:
    """Its requests, one after the other."""

    def __init__(self, server, name):
        self.server = server
        self.name = name
        self.number = 1

    def request(self, operations, count):
        return nfs_calls.in_session(self.name, self.number, operations, count)

    def goes_on(self, reply):
        """Where SEQUENCE is answered OK the next number is due."""
        if number_at(reply, 40) == 0:
            self.number += 1

    def does(self, operations, count):
        """Operations that are answered OK, of which nothing is told."""
        reply = self.server.ask(self.request(operations, count))
        assert answer_of(reply) == "OK", answer_of(reply)
        self.goes_on(reply)

    def tell(self, name, may, operations, count):
        self.goes_on(self.server.tell(name, may, self.request(operations, count)))

    def fill(self):
        """Makes directories with more names than a page has, and a file of 10,000 bytes."""
        mode = attributes(MODE, u32(0o755))
        for letter in range(40):
            name = opaque(bytes([65 + letter]) * 250)
            self.does(ROOT + make_directory(name, mode), 2)
        self.does(ROOT + records.open_file(A, F, mode), 2)
        for offset in (0, 5000):
            content = opaque(b"x" * 5000)
            self.does(records.FILE + records.write(offset, content), 3)


def main():
    address, name = sys.argv[1:]
    with open(name, "r+b") as file:
        server = Server(address, mmap.mmap(file.fileno(), 24))
    server.tell_connection()
    for call in records.CALLS:
        server.tell(*call)
    client = server.new_client(b"claims")
    for call in records.session_calls(client):
        server.tell(*call)
    session = server.new_session("CREATE_SESSION, 2^32 - 1 of each", LITTLE, client, 0)
    for request in records.OF_ROOT:
        session.tell(*request)
    session.fill()
    for request in records.OF_FULL:
        session.tell(*request)
    client = server.new_client(b"persists")
    session = server.new_session("CREATE_SESSION, persistent", CHANGES, client, 1)
    for request in records.PERSISTENT:
        session.tell(*request)


main()
