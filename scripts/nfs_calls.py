"""Calls of NFS 4.1 as records, and a connection that sends them. Other scripts import it."""
import socket
import struct

# Seconds to wait for a reply.
PATIENCE = 60

CREATE, GETATTR, LOOKUP, OPEN, PUTROOTFH = 6, 9, 15, 18, 24
EXCHANGE_ID, CREATE_SESSION, DESTROY_SESSION, SEQUENCE = 42, 43, 44, 53

# The flag of a persistent session, in a CREATE_SESSION and in its reply.
PERSISTENT = 1


def u32(*numbers):
    return struct.pack(f">{len(numbers)}I", *numbers)


def u64(*numbers):
    return struct.pack(f">{len(numbers)}Q", *numbers)


def opaque(content):
    return u32(len(content)) + content + bytes(-len(content) % 4)


NO_BYTES = opaque(b"")


def user(machine=NO_BYTES, groups=u32(0)):
    """A credential of AUTH_SYS, of user and group 7."""
    return u32(1) + opaque(u32(0) + machine + u32(7, 7) + groups)


def call(procedure, credential, body, verifier=u32(0, 0)):
    """A call as one record of one fragment."""
    words = u32(1, 0, 2, 100_003, 4, procedure) + credential + verifier + body
    return u32(0x80000000 | len(words)) + words


NULL = call(0, u32(0, 0), b"")


def compound(operations, count=1, tag=NO_BYTES, credential=user()):
    return call(1, credential, tag + u32(1, count) + operations)


def exchange_id(owner, implementations=u32(0)):
    return u32(EXCHANGE_ID) + bytes(8) + owner + u32(0, 0) + implementations


def channel(most=2**32 - 1, rdma=u32(0)):
    return u32(0, most, most, most, most, most) + rdma


def create_session(client, fore=channel(), security=u32(0), flags=0, sequence=1):
    """By default it asks for the most slots, operations and bytes that a number can say."""
    channels = fore + channel()
    words = u64(client) + u32(sequence, flags) + channels + u32(0) + security
    return u32(CREATE_SESSION) + words


def in_session(session, number, operations, count):
    """A COMPOUND of a SEQUENCE with this number on the first slot, and the operations."""
    return compound(u32(SEQUENCE) + session + u32(number, 0, 0, 0) + operations, count + 1)


def attributes(bitmap, *values):
    return bitmap + opaque(b"".join(values))


# The bitmap of the mode.
MODE = u32(2, 0, 2)


def make_directory(name, given=b""):
    return u32(CREATE, 2) + name + given


def receive(stream, count):
    """Returns this many bytes, or None if the connection ends first."""
    content = b""
    while len(content) < count:
        try:
            piece = stream.recv(count - len(content))
        except ConnectionResetError:
            return None
        if not piece:
            return None
        content += piece
    return content


def number_at(reply, place):
    return struct.unpack_from(">I", reply, place)[0]


def connect(address, source=None):
    """Connects to ADDRESS:PORT, from a source address and port if they are given."""
    host, port = address.rsplit(":", 1)
    return socket.create_connection((host, int(port)), PATIENCE, source)


def ask(stream, record):
    """Sends a record. Returns the reply without its header, or None if the connection ends."""
    stream.sendall(record)
    header = receive(stream, 4)
    return header and receive(stream, number_at(header, 0) & 0x7FFFFFFF)
