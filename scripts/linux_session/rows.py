#!/usr/bin/env python3
"""Turns what emulator/relay.py prints into rows for test_player.

    rows.py VERSION < SESSION

The times in replies become the moment of a row. Operations are named as RFC 8881 has them.
"""
import struct
import sys
import textwrap
import time

WIDTH = 100
# The moment of a row, in nanoseconds since 1970.
MOMENT = [0, 0, 5]
# How long ago a session may have been, in seconds.
DAY = 86400
FRONT = """\
# The session of a Linux client on one connection, as it was recorded: a stock kernel of Debian 12
# ({version}) mounts a new volume of 256 sectors and 16 nodes, works on it and unmounts it.
# Above each call stands what a user does, and the operations that the kernel sends for it. The
# replies are those that it was given, with the moment of a row in place of their times."""
# The bytes of a record before a call's credential, and before a reply's COMPOUND.
CALL_FRONT, REPLY_FRONT = 28, 28


class Reader:
    """What stands in a call, as RFC 4506 spells it."""

    def __init__(self, data):
        self.data, self.at = data, 0

    def take(self, size):
        taken = self.data[self.at : self.at + size]
        self.at += size
        return taken

    def word(self):
        return struct.unpack(">I", self.take(4))[0]

    def wide(self):
        return struct.unpack(">Q", self.take(8))[0]

    def opaque(self):
        size = self.word()
        taken = self.take(size)
        self.take(-size % 4)
        return taken

    def words(self):
        return [self.word() for _ in range(self.word())]


def created(call):
    kind = call.word()
    if kind == 5:
        call.opaque()
    elif kind in (3, 4):
        call.wide()
    call.opaque()
    attributes(call)


def attributes(call):
    call.words()
    call.opaque()


def state_and_attributes(call):
    call.take(16)
    attributes(call)


def opened(call):
    call.take(20)
    call.opaque()
    if call.word() == 1:
        mode = call.word()
        if mode in (2, 3):
            call.take(8)
        if mode != 2:
            attributes(call)
    if call.word() == 0:
        call.opaque()


def read(call):
    call.take(16)
    offset, size = call.wide(), call.word()
    return f" of {size:,} bytes at {offset:,}"


def written(call):
    call.take(16)
    offset, _ = call.wide(), call.word()
    return f" of {len(call.opaque()):,} bytes at {offset:,}"


def last(call):
    """Arguments that nothing stands behind."""
    call.at = len(call.data)


OPERATIONS = {
    3: ("ACCESS", lambda call: call.take(4)),
    4: ("CLOSE", lambda call: call.take(20)),
    5: ("COMMIT", lambda call: call.take(12)),
    6: ("CREATE", created),
    9: ("GETATTR", lambda call: call.words()),
    10: ("GETFH", lambda call: None),
    11: ("LINK", lambda call: call.opaque()),
    15: ("LOOKUP", lambda call: call.opaque()),
    18: ("OPEN", opened),
    22: ("PUTFH", lambda call: call.opaque()),
    24: ("PUTROOTFH", lambda call: None),
    25: ("READ", read),
    26: ("READDIR", lambda call: (call.take(24), call.words())),
    28: ("REMOVE", lambda call: call.opaque()),
    29: ("RENAME", lambda call: (call.opaque(), call.opaque())),
    31: ("RESTOREFH", lambda call: None),
    32: ("SAVEFH", lambda call: None),
    34: ("SETATTR", state_and_attributes),
    38: ("WRITE", written),
    42: ("EXCHANGE_ID", last),
    43: ("CREATE_SESSION", last),
    44: ("DESTROY_SESSION", last),
    52: ("SECINFO_NO_NAME", lambda call: call.take(4)),
    53: ("SEQUENCE", lambda call: call.take(32)),
    57: ("DESTROY_CLIENTID", last),
    58: ("RECLAIM_COMPLETE", lambda call: call.take(4)),
}


def named(record):
    """The operations of a call, and the user behind it where that is not root."""
    call = Reader(record[CALL_FRONT:])
    call.word()
    credential = Reader(call.opaque())
    call.word()
    call.opaque()
    if call.at == len(call.data):
        return "NULL"
    credential.word()
    credential.opaque()
    user = credential.word()
    call.opaque()
    call.word()
    names = []
    for _ in range(call.word()):
        name, skip = OPERATIONS[call.word()]
        told = skip(call)
        names.append(name + (told if isinstance(told, str) else ""))
    return ", ".join(names) + (f"; user {user}" if user else "")


def turns(call, reply):
    """How many turns a call takes: its results, and one more where a seat is to hold its reply."""
    if named(call) == "NULL":
        return 1
    results = Reader(reply[REPLY_FRONT:])
    results.word()
    results.opaque()
    count, first = results.word(), results.word()
    return count + (first == 53 and results.word() == 0)


def at_the_moment(words):
    """A reply with the moment of a row in place of each time."""
    now, at, words = int(time.time()), 0, list(words)
    while at + 2 < len(words):
        if words[at] == 0 and now - DAY < words[at + 1] <= now and words[at + 2] < 10**9:
            words[at : at + 3] = MOMENT
        at += 1
    return words


def line(name, words):
    told, at = [], 0
    while at < len(words):
        many = 1
        while at + many < len(words) and words[at + many] == words[at]:
            many += 1
        short = many > 2 or (many == 2 and len(f"{words[at]:x}") > 1)
        told += [f"{words[at]:x}*{many}"] if short else [f"{words[at]:x}"] * many
        at += many
    return textwrap.fill(f"{name} = " + " ".join(told), WIDTH, subsequent_indent="    ")


def words_of(record):
    return [word for (word,) in struct.iter_unpack(">I", record)]


def xid_of(record):
    return record[4:8]


def session():
    """What users did, and each call with its reply: a kernel sends a call while another one runs."""
    told, replies = [], {}
    for line in sys.stdin:
        kind, text = line.rstrip("\n").split(" ", 1)
        if kind == "reply":
            reply = bytes.fromhex(text)
            replies[xid_of(reply)] = reply
        else:
            told.append((kind, text))
    for kind, text in told:
        if kind == "call":
            call = bytes.fromhex(text)
            yield kind, (call, replies[xid_of(call)])
        elif text not in ("begins", "ends"):
            yield kind, text


def main():
    print(FRONT.format(version=sys.argv[1]))
    number, rows = 0, []
    for kind, told in session():
        if kind == "user":
            print(f"\n# {told}")
            continue
        call, reply = told
        number += 1
        print(f"\n# {number}: {named(call)}")
        print(line(f"CALL_{number}", words_of(call)))
        print(line(f"REPLY_{number}", at_the_moment(words_of(reply))))
        rows.append(f"    asks 0 CALL_{number} {turns(call, reply)} REPLY_{number}")
    print("\nrow a_linux_client_mounts_works_and_unmounts", *rows, sep="\n")


main()
