"""A file on a disk that fails once as Linux does, as a FUSE file system of one file."""
import ctypes
import errno
import os
import struct
import threading

SECTOR = 4096

# The numbers of the FUSE calls that are served (linux/fuse.h). All others are refused.
GETATTR, OPEN, READ, WRITE, RELEASE, FSYNC, FLUSH, INIT = 3, 14, 15, 16, 18, 20, 25, 26
FORGETS = (2, 42)
HEADER, INDEX = struct.Struct("=IIQQIIIHH"), struct.Struct("=QQI")
# The longest request.
LONGEST = 1 << 18


class Disk:
    """What a disk's sectors hold: what reads return, and what is left after a power cut.

    The write or sync of number `fails` fails. When a sync fails, Linux keeps the pages that it
    could not write in memory and marks them clean: reads return them, and no later sync writes them.
    """

    def __init__(self, content, fails, drops_all):
        self.read_back = bytearray(content)
        self.kept = bytearray(content)
        self.unsynced = set()
        self.calls = 0
        self.fails = fails
        self.drops_all = drops_all
        self.failed = None

    def is_to_fail(self, what):
        self.calls += 1
        if self.calls != self.fails:
            return False
        self.failed = what
        return True

    def write(self, offset, content):
        """Writes whole sectors. Returns whether it succeeded."""
        if self.is_to_fail("write"):
            return False
        self.read_back[offset : offset + len(content)] = content
        self.unsynced |= set(range(offset // SECTOR, (offset + len(content)) // SECTOR))
        return True

    def sync(self):
        """Returns whether it succeeded. One that fails writes none, or every second sector."""
        fails = self.is_to_fail("sync")
        lands = sorted(self.unsynced)
        if fails:
            lands = [] if self.drops_all else lands[1::2]
        for n in lands:
            self.kept[n * SECTOR : (n + 1) * SECTOR] = self.sector(n)
        self.unsynced.clear()
        return not fails

    def sector(self, n):
        return bytes(self.read_back[n * SECTOR : (n + 1) * SECTOR])

    def after_power_cuts(self):
        """Images that a power cut may leave now: of the sectors that are not synced none, all, or
        one has its new content."""
        each = sorted(self.unsynced)
        for landed in {(), tuple(each), *((n,) for n in each)}:
            image = bytearray(self.kept)
            for n in landed:
                image[n * SECTOR : (n + 1) * SECTOR] = self.sector(n)
            yield bytes(image)


class Mounted:
    """Serves a disk as the file at `path`. Calls `noted` before each write and sync."""

    def __init__(self, path, disk, noted):
        self.path = path
        self.disk = disk
        self.noted = noted
        self.device = os.open("/dev/fuse", os.O_RDWR)
        words = f"fd={self.device},rootmode=100600,user_id=0,group_id=0".encode()
        system = ctypes.CDLL(None, use_errno=True)
        if system.mount(b"disk", path.encode(), b"fuse", 0, words):
            raise OSError(ctypes.get_errno(), "mount")
        self.thread = threading.Thread(target=self.serve, daemon=True)
        self.thread.start()

    def unmount(self):
        ctypes.CDLL(None).umount2(self.path.encode(), 2)
        # its number is another file's as soon as it is closed, and the thread would read that
        self.thread.join()
        os.close(self.device)

    def serve(self):
        try:
            while True:
                request = os.read(self.device, LONGEST)
                _, call, unique, *_ = HEADER.unpack_from(request)
                if call not in FORGETS:
                    error, reply = self.answer(call, request[HEADER.size :])
                    header = struct.pack("=IiQ", 16 + len(reply), -error, unique)
                    os.write(self.device, header + reply)
        except OSError:
            # it was unmounted
            return

    def answer(self, call, words):
        """Returns an error number and the reply's content."""
        if call == INIT:
            return 0, struct.pack("=4I2H2I2HI7I", 7, 31, 0, 0, 1, 1, LONGEST // 2, 1, *[0] * 10)
        if call == GETATTR:
            size = len(self.disk.read_back)
            numbers = [1, size, 0, 0, 0, 0, 0, 0, 0, 0o100600, 1, 0, 0, 0, SECTOR, 0]
            return 0, bytes(16) + struct.pack("=6Q10I", *numbers)
        if call == OPEN:
            # without the kernel's cache
            return 0, struct.pack("=Q2I", 0, 1, 0)
        if call == READ:
            _, offset, size = INDEX.unpack_from(words)
            return 0, bytes(self.disk.read_back[offset : offset + size])
        if call in (RELEASE, FLUSH):
            return 0, b""
        if call in (WRITE, FSYNC):
            self.noted()
            return self.change(call, words)
        return errno.ENOSYS, b""

    def change(self, call, words):
        if call == FSYNC:
            return 0 if self.disk.sync() else errno.EIO, b""
        _, offset, size = INDEX.unpack_from(words)
        content = words[40 : 40 + size]
        if not self.disk.write(offset, content):
            return errno.EIO, b""
        return 0, struct.pack("=2I", size, 0)
