"""Records of at most 200 bytes that claim more than they hold, and what may be taken for each."""
import typing

from nfs_calls import (
    CREATE,
    GETATTR,
    LOOKUP,
    MODE,
    NO_BYTES,
    NULL,
    OPEN,
    PUTROOTFH,
    attributes,
    call,
    channel,
    compound,
    create_session,
    exchange_id,
    make_directory,
    opaque,
    u32,
    u64,
    user,
)

# What a record claims.
CLAIM = 0xFFFFFFFF

# By the turn that begins a COMPOUND: for its reply; and for its results, where no COMPOUND before
# left a buffer on the connection.
REPLY_BUFFER = 16_412
BOTH = 16_384 + REPLY_BUFFER

# Besides for attributes that were read, and for what is kept of a client or a session.
SMALL = 2_048

# Besides for a page, which is what READ or READDIR answers, and for what was read to make it: a
# list of entries, or the three sectors in which 8,192 bytes may lie, which the cache keeps.
SECTOR = 4_120
PAGE = 8_203 + 3 * SECTOR

# Besides for a transaction, which has at most 48 sectors.
TRANSACTION = 48 * SECTOR


class May(typing.NamedTuple):
    """What may be taken: at least and at most so many bytes, and in one piece."""

    what: str
    least: int
    most: int
    largest: int = 16_412


NOTHING = May("nothing", 0, 0)
REPLY = May("a reply", 0, 28)
BUFFERS = May("its buffers", REPLY_BUFFER, BOTH)
LITTLE = May("its buffers and a little", REPLY_BUFFER, BOTH + SMALL)
READS = May("its buffers and a page", REPLY_BUFFER, BOTH + PAGE)
CHANGES = May("its buffers and a transaction", REPLY_BUFFER, BOTH + TRANSACTION, 16 * SECTOR)

# Of a connection, once: a piece of what comes, and the assembler of its records.
HELD = May("an inbox and an assembler", 32_768 + 16_644, 32_768 + 16_644, 32_768)

COMMIT, PUTFH, READ, READDIR, REMOVE, RENAME = 5, 22, 25, 26, 28, 29
SAVEFH, SETATTR, WRITE = 32, 34, 38

A, F = opaque(b"a"), opaque(b"f")

# Bitmaps of one attribute, of nine words, and of as many as there are numbers.
SIZE, ACL, OWNER = u32(1, 0x10), u32(1, 0x1000), u32(2, 0, 0x10)
NINE = u32(9) + bytes(36)
MANY = u32(CLAIM)


def set_attributes(given):
    return u32(SETATTR) + bytes(16) + given


def open_file(owner, name, given):
    """Opens a file to read and to write it, and makes it where it is not there."""
    return u32(OPEN, 0, 3, 0) + u64(0) + owner + u32(1, 0) + given + u32(0) + name


def write(offset, content):
    return u32(WRITE) + bytes(16) + u64(offset) + u32(2) + content


def read(offset, count):
    return u32(READ) + bytes(16) + u64(offset) + u32(count)


def list_directory(count, bitmap):
    return u32(READDIR) + bytes(16) + u32(count, count) + bitmap


# A header whose record does not come, and is waited for.
HALF = u32(0x80004000)

# Calls outside a session, or fronts of them.
CALLS = [
    ("NULL", REPLY, NULL),
    ("a fragment of 2^31 - 1 bytes", NOTHING, u32(0x7FFFFFFF)),
    ("a last fragment of 2^31 - 1 bytes", NOTHING, u32(0xFFFFFFFF)),
    ("a last fragment of 16385 bytes", NOTHING, u32(0x80004001)),
    ("a last fragment of 16384 bytes", NOTHING, HALF),
    ("a credential of 2^32 - 1 bytes", NOTHING, call(0, u32(0, CLAIM), b"")),
    ("a verifier of 2^32 - 1 bytes", NOTHING, call(0, u32(0, 0), b"", u32(0, CLAIM))),
    ("a machine name of 2^32 - 1 bytes", REPLY, compound(b"", credential=user(u32(CLAIM)))),
    ("2^32 - 1 groups", REPLY, compound(b"", credential=user(groups=u32(CLAIM)))),
    ("a tag of 256 bytes", REPLY, compound(b"", tag=u32(256))),
    ("a tag of 2^32 - 1 bytes", REPLY, compound(b"", tag=u32(CLAIM))),
    ("2^32 - 1 operations", BUFFERS, compound(u32(PUTROOTFH), CLAIM)),
    ("EXCHANGE_ID, an owner of 2^32 - 1 bytes", BUFFERS, compound(exchange_id(u32(CLAIM)))),
    ("EXCHANGE_ID, 2^32 - 1 implementations", BUFFERS, compound(exchange_id(A, u32(CLAIM)))),
    ("EXCHANGE_ID, a domain of 2^32 - 1 bytes", BUFFERS, compound(exchange_id(A, u32(1, CLAIM)))),
]


def session_calls(client):
    """The same, which ask for a session of this client."""
    given = [
        ("2^32 - 1 security parameters", channel(), u32(CLAIM)),
        ("a machine name of 2^32 - 1 bytes", channel(), u32(1, 1, 0, CLAIM)),
        ("2^32 - 1 groups", channel(), u32(1, 1, 0, 0, 7, 7, CLAIM)),
        ("2^32 - 1 numbers for RDMA", channel(rdma=u32(CLAIM)), u32(0)),
    ]
    for what, fore, security in given:
        record = compound(create_session(client, fore, security))
        yield f"CREATE_SESSION, {what}", BUFFERS, record


# Before operations on the root, and before those on the file f, which is larger than a page.
ROOT = u32(PUTROOTFH)
FILE = ROOT + u32(LOOKUP) + F


def on_root(name, may, operations, count=1):
    """A request of a session: its operations, and how many these are told to be."""
    return name, may, ROOT + operations, count + 1


def on_file(name, may, operations):
    return name, may, FILE + operations, 3


ENTRIES = attributes(ACL, u32(CLAIM))
VALUES = ACL + u32(CLAIM)

OF_ROOT = [
    on_root("PUTROOTFH", BUFFERS, b"", 0),
    on_root("2^32 - 1 operations in a session", BUFFERS, b"", CLAIM - 2),
    on_root("PUTFH of 2^32 - 1 bytes", BUFFERS, u32(PUTFH, CLAIM)),
    on_root("LOOKUP of 2^32 - 1 bytes", BUFFERS, u32(LOOKUP, CLAIM)),
    on_root("REMOVE of 2^32 - 1 bytes", BUFFERS, u32(REMOVE, CLAIM)),
    on_root("RENAME of 2^32 - 1 bytes", BUFFERS, u32(SAVEFH, RENAME, CLAIM), 2),
    on_root("RENAME to 2^32 - 1 bytes", BUFFERS, u32(SAVEFH, RENAME) + A + u32(CLAIM), 2),
    on_root("CREATE of 2^32 - 1 bytes", BUFFERS, make_directory(u32(CLAIM))),
    on_root("CREATE, a bitmap of 9 words", BUFFERS, make_directory(A, NINE)),
    on_root("CREATE, a bitmap of 2^32 - 1 words", BUFFERS, make_directory(A, MANY)),
    on_root("CREATE, values of 2^32 - 1 bytes", BUFFERS, make_directory(A, VALUES)),
    on_root("CREATE, a list of 2^32 - 1 entries", LITTLE, make_directory(A, ENTRIES)),
    on_root("OPEN of 2^32 - 1 bytes", BUFFERS, open_file(A, u32(CLAIM), u32(0, 0))),
    on_root("OPEN, an owner of 2^32 - 1 bytes", BUFFERS, open_file(u32(CLAIM), F, u32(0, 0))),
    on_root("OPEN, a bitmap of 9 words", BUFFERS, open_file(NO_BYTES, b"", NINE)),
    on_root("OPEN, a bitmap of 2^32 - 1 words", BUFFERS, open_file(A, F, MANY)),
    on_root("OPEN, values of 2^32 - 1 bytes", BUFFERS, open_file(A, F, VALUES)),
    on_root("OPEN, a list of 2^32 - 1 entries", LITTLE, open_file(A, F, ENTRIES)),
    on_root("GETATTR, a bitmap of 9 words", BUFFERS, u32(GETATTR) + NINE),
    on_root("GETATTR, a bitmap of 2^32 - 1 words", BUFFERS, u32(GETATTR) + MANY),
    on_root("SETATTR, a bitmap of 9 words", BUFFERS, set_attributes(NINE)),
    on_root("SETATTR, a bitmap of 2^32 - 1 words", BUFFERS, set_attributes(MANY)),
    on_root("SETATTR, values of 2^32 - 1 bytes", BUFFERS, set_attributes(VALUES)),
    on_root("SETATTR, a list of 2^32 - 1 entries", LITTLE, set_attributes(ENTRIES)),
    on_root(
        "SETATTR, an entry for 2^32 - 1 bytes",
        LITTLE,
        set_attributes(attributes(ACL, u32(1, 0, 0, 1, CLAIM))),
    ),
    on_root(
        "SETATTR, an owner of 2^32 - 1 bytes",
        LITTLE,
        set_attributes(attributes(OWNER, u32(CLAIM))),
    ),
    on_root("READDIR, a bitmap of 9 words", BUFFERS, list_directory(4096, NINE)),
    on_root("READDIR, a bitmap of 2^32 - 1 words", BUFFERS, list_directory(4096, MANY)),
]

# The same once the root has more names than a page, and there is the file.
OF_FULL = [
    on_root("READDIR of 2^32 - 1 bytes", READS, list_directory(CLAIM, u32(0))),
    on_root("READDIR, all attributes", READS, list_directory(CLAIM, u32(3, CLAIM, CLAIM, CLAIM))),
    on_file("READ of 2^32 - 1 bytes", READS, read(0, CLAIM)),
    on_file("READ of 2^32 - 1 bytes from 5000 on", READS, read(5000, CLAIM)),
    on_file("READ of 2^32 - 1 bytes from 2^64 - 1 on", READS, read(2**64 - 1, CLAIM)),
    on_file("WRITE of 2^32 - 1 bytes", BUFFERS, write(0, u32(CLAIM))),
    on_file("WRITE of a byte at 2^64 - 1", BUFFERS, write(2**64 - 1, opaque(b"x"))),
    on_file("WRITE of a byte at 2^24 - 1", CHANGES, write(2**24 - 1, opaque(b"x"))),
    on_file(
        "SETATTR, a size of 2^64 - 1",
        LITTLE,
        set_attributes(attributes(SIZE, u64(2**64 - 1))),
    ),
    on_file("COMMIT of 2^32 - 1 bytes", BUFFERS, u32(COMMIT) + u64(0) + u32(CLAIM)),
]

# Of a session whose replies are on the volume before they are sent.
PERSISTENT = [
    on_root("PUTROOTFH, persistent", CHANGES, b"", 0),
    on_root("LOOKUP of 2^32 - 1 bytes, persistent", CHANGES, u32(LOOKUP, CLAIM)),
]
