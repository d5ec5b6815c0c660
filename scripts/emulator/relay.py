#!/usr/bin/env python3
"""Passes on what a client and a server of ONC RPC over TCP say to each other.

    relay.py PORT SERVER              listens at PORT, and connects to port SERVER for each client
    relay.py PORT SERVER --told FILE  prints it: a line `call HEX` or `reply HEX` for each record,
                                      its header first, and `user TEXT` for each line `== TEXT`
                                      that the file was told since the record before
    relay.py PORT SERVER --lose       ends instead of passing on the reply to the first call that
                                      makes a directory

It ends with a signal, or with the reply that it loses.
"""
import argparse
import contextlib
import os
import socket
import struct
import threading

HEADER = 4
# A CREATE (RFC 8881, section 18.4) of a directory.
MAKES = struct.pack(">II", 6, 2)


class Relay:
    def __init__(self, told, loses):
        self.console = open(told, errors="replace") if told else None
        self.loses = loses
        self.lost = None
        self.lock = threading.Lock()

    def note(self, kind, record):
        """Prints a record, behind what users did before it."""
        if self.console is None:
            return
        for line in self.console:
            if line.startswith("== "):
                print("user", line[3:].rstrip("\r\n"), flush=True)
        print(kind, record.hex(), flush=True)

    def called(self, record):
        self.note("call", record)
        if self.loses and MAKES in record:
            self.lost = xid_of(record)

    def replied(self, record):
        if xid_of(record) == self.lost:
            os._exit(0)
        self.note("reply", record)

    def passes(self, source, sink, looks):
        """Passes on records up to the end of one of both peers."""
        with contextlib.suppress(OSError):
            while header := whole(source, HEADER):
                record = header + whole(source, struct.unpack(">I", header)[0] & 0x7FFFFFFF)
                with self.lock:
                    looks(record)
                sink.sendall(record)
        with contextlib.suppress(OSError):
            sink.shutdown(socket.SHUT_RDWR)


def xid_of(record):
    return record[HEADER : HEADER + 4]


def whole(source, size):
    """Reads so many bytes, or fewer where the peer has ended."""
    read = b""
    while len(read) < size:
        more = source.recv(size - len(read))
        if not more:
            break
        read += more
    return read


def main():
    words = argparse.ArgumentParser(usage=__doc__)
    words.add_argument("port", type=int)
    words.add_argument("server", type=int)
    words.add_argument("--told")
    words.add_argument("--lose", action="store_true")
    words = words.parse_args()
    relay = Relay(words.told, words.lose)
    listener = socket.create_server(("127.0.0.1", words.port))
    while True:
        client, _ = listener.accept()
        server = socket.create_connection(("127.0.0.1", words.server))
        answers = threading.Thread(target=relay.passes, args=(server, client, relay.replied))
        answers.start()
        relay.passes(client, server, relay.called)
        answers.join()


main()
