"""TRACE: opened once, read once, never written."""
import errno
import os
import stat

from command.blocks import BLOCK
from command.naming import Descriptor
from command.trouble import named_in_errors

MARK = 1 << 24  # bytes between two marks, so that a cycle of a long trace is found again without reading it all


class Trace:
    """An open trace, with what has passed of it: bytes and cycles."""

    def __init__(self, name, descriptor):
        self.name, self.descriptor = name, descriptor
        self.opened = os.fstat(descriptor)
        self.regular = stat.S_ISREG(self.opened.st_mode)
        self.begin = os.lseek(descriptor, 0, os.SEEK_CUR) if self.regular else 0
        self.size = max(self.opened.st_size - self.begin, 0) if self.regular else None
        self.read = self.cycles = 0
        self.marks = [(0, 0)]

    def passed(self, data):
        """Counts what was read: a block has its cycles in byte 1."""
        self.cycles += sum(data[(1 - self.read) % BLOCK::BLOCK])
        self.read += len(data)
        if self.read % BLOCK == 0 and self.read - self.marks[-1][0] >= MARK:
            self.marks.append((self.read, self.cycles))

    def again(self, at, count):
        """Bytes of a regular file once more; where reading goes on is not moved."""
        return os.pread(self.descriptor, count, self.begin + at)

    def still_there(self):
        """A regular file that nobody has changed since it was opened: only then can it be asked what was wrong."""
        then, now = self.opened, os.fstat(self.descriptor)
        return self.regular and (now.st_size, now.st_mtime_ns, now.st_ctime_ns) == (then.st_size, then.st_mtime_ns, then.st_ctime_ns)


def open_trace(named):
    with named_in_errors(named.name):
        if isinstance(named, Descriptor):
            descriptor = os.dup(named.number)  # LIST may be the same socket
        else:
            descriptor = os.open(named.last, os.O_RDONLY | os.O_NOCTTY, dir_fd=named.folder)
        if stat.S_ISDIR(os.fstat(descriptor).st_mode):
            raise IsADirectoryError(errno.EISDIR, '')  # it can be opened, but not read
        return Trace(named.name, descriptor)
