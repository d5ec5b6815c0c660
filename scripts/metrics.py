#!/usr/bin/env python3
"""Asks a server for operations whose ends are known, and compares its metrics before and after.

scripts/metrics.py ADDRESS:PORT METRICS_ADDRESS:PORT

The server is one of a new volume, with '--metrics', and nobody else asks it. Prints the samples that
have changed, and 'as expected' if they are those that were wanted and the page is well formed.
"""
import re
import sys
import urllib.request

import nfs_calls as nfs
from nfs_calls import LOOKUP, PUTROOTFH, opaque, u32

# Operations that the server does not serve, and a number that is none.
LOCK, ILLEGAL = 12, 10_099

SAMPLE = re.compile(r'([a-z0-9_]+)(\{[a-z]+="[A-Za-z_]+"\})? ([0-9]+)')

# What the calls of `ask_all` bring about: each operation that ran, and those that were refused.
RAN = {
    "EXCHANGE_ID": 1, "CREATE_SESSION": 2, "SEQUENCE": 9, "PUTROOTFH": 5, "CREATE": 3,
    "LOOKUP": 1, "other": 3,
}
FAILED = {"CREATE": 1, "LOOKUP": 1, "PUTROOTFH": 1, "SEQUENCE": 1, "other": 3}
CHANGES = 2
REQUESTS = 14


OWNER = opaque(b"metrics.py")


def read_page(address):
    """Returns the samples of the page. Each metric has one HELP and one TYPE, and then samples."""
    with urllib.request.urlopen(f"http://{address}/metrics") as reply:
        assert reply.headers["Content-Type"].startswith("text/plain; version=0.0.4")
        text = reply.read().decode()
    samples, kinds, helped = {}, {}, None
    for line in text.splitlines():
        if line.startswith("# HELP "):
            helped = line.split()[2]
            assert helped not in kinds and len(line.split()) > 3, line
        elif line.startswith("# TYPE "):
            name, kind = line.split()[2:]
            assert name == helped and (kind == "counter") == name.endswith("_total"), line
            kinds[name] = kind
        else:
            name, label, value = SAMPLE.fullmatch(line).groups()
            assert name == helped and name in kinds and (name, label) not in samples, line
            samples[name, label] = int(value)
    assert text.endswith("\n") and kinds
    return samples


def first_result(reply):
    """The bytes behind the number and the status of the first operation's result."""
    return reply[44:]


def directory(name):
    """A CREATE of a directory with this name, of no attributes."""
    return nfs.make_directory(opaque(name), nfs.attributes(u32(0)))


def ask_all(address):
    stream = nfs.connect(address)

    def ask(record):
        reply = nfs.ask(stream, record)
        assert reply, "the connection has ended"
        return reply

    ask(nfs.NULL)
    client = int.from_bytes(first_result(ask(nfs.compound(nfs.exchange_id(OWNER))))[:8])
    plain, lasting = (
        first_result(ask(nfs.compound(nfs.create_session(client, flags=flags, sequence=number))))[:16]
        for number, flags in ((1, 0), (2, nfs.PERSISTENT))
    )

    def in_session(session, number, operations, count):
        return ask(nfs.in_session(session, number, operations, count))

    root = u32(PUTROOTFH)
    made = root + directory(b"a")
    in_session(plain, 1, made, 2)
    # The same again: the reply is that of the slot, and nothing runs but SEQUENCE.
    in_session(plain, 1, made, 2)
    in_session(plain, 2, root + directory(b"a"), 2)
    in_session(plain, 3, root + u32(LOOKUP) + opaque(b"b"), 2)
    in_session(plain, 4, u32(LOCK), 1)
    in_session(plain, 5, u32(ILLEGAL), 1)
    # One operation is not there.
    in_session(plain, 6, b"", 1)
    # The seat of this session holds the reply before it goes.
    in_session(lasting, 1, root + directory(b"b"), 2)
    in_session(bytes(16), 1, root, 1)
    # Outside a session.
    ask(nfs.compound(root))
    stream.close()


def main():
    address, metrics = sys.argv[1:]
    before = read_page(metrics)
    ask_all(address)
    after = read_page(metrics)
    changed = {
        key: value - before.get(key, 0) for key, value in after.items() if value != before.get(key)
    }
    for (name, label), more in changed.items():
        print(f"{name}{label or ''} {more:+}")

    def told(name):
        return {label[12:-2]: more for (of, label), more in changed.items() if of == name}

    assert told("nfs41_operations_total") == RAN
    assert told("nfs41_operations_failed_total") == FAILED
    assert changed["nfs41_changes_total", None] == CHANGES
    assert changed["nfs41_requests_total", None] == REQUESTS
    assert changed["nfs41_free_nodes", None] == -CHANGES
    assert changed["nfs41_flushes_total", None] > CHANGES
    print("as expected")


main()
