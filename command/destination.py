"""LIST: a regular file appears whole or not at all; anything else is a stream."""
import errno
import fcntl
import os
import re
import stat

from command.naming import Descriptor, same_file
from command.trouble import INCOMPLETE, USAGE, Trouble, ignore_signals, named_in_errors, shown, signals_held


class Stream:
    """Standard output, a pipe, a device: what was written is written."""

    left = 'what was written is not a whole list'

    def __init__(self, named):
        self.named, self.name, self.written = named, named.name, 0

    def open(self, trace):
        if isinstance(self.named, Descriptor):
            self.descriptor = self.named.number
        else:
            self.descriptor = os.open(self.named.last, os.O_WRONLY | os.O_NOCTTY, dir_fd=self.named.folder)
        never_written(trace, os.fstat(self.descriptor))

    def finish(self, _trace):
        if stat.S_ISREG(os.fstat(self.descriptor).st_mode):
            os.fsync(self.descriptor)


class Part:
    """A list on its way: LIST.part, locked, which takes LIST's name once it is whole."""

    def __init__(self, file, before):
        self.file, self.before, self.written, self.placed = file, before, 0, False
        self.part, self.name = file.last + '.part', file.name + '.part'
        replaceable(file, before)

    @property
    def left(self):
        if self.placed:
            return 'LIST has its place, but it is not sure to last'
        kept = 'LIST is as it was' if self.before else 'LIST was not made'
        return f'{kept}; what was written is in {shown(self.name)}' if self.is_ours() else kept

    def open(self, trace):
        """Creates or takes over LIST.part, and empties it only when it is ours alone."""
        # appending: if somebody cuts it meanwhile, its length tells
        how = os.O_RDWR | os.O_CREAT | os.O_APPEND | os.O_NOFOLLOW | os.O_NOCTTY
        mode = stat.S_IMODE(self.before.st_mode) & 0o777 if self.before else 0o666
        while True:
            try:
                self.descriptor = os.open(self.part, how, mode, dir_fd=self.file.folder)
                status = os.fstat(self.descriptor)
            except OSError as fault:
                if fault.errno != errno.ELOOP:
                    raise
                status = None  # a link
            if status is None or not stat.S_ISREG(status.st_mode) or status.st_nlink > 1:
                raise Trouble(INCOMPLETE, f'{shown(self.name)} is no file of its own; remove it')
            never_written(trace, status)
            try:
                fcntl.flock(self.descriptor, fcntl.LOCK_EX | fcntl.LOCK_NB)
            except BlockingIOError:
                raise Trouble(INCOMPLETE, f'{shown(self.name)}: another run is writing it') from None
            if self.is_ours():
                break
            os.close(self.descriptor)  # the other run has renamed it meanwhile
        os.ftruncate(self.descriptor, 0)
        if self.before:
            keep_owner_and_mode(self.descriptor, self.before)

    def is_ours(self):
        """Whether the name still means the file that we hold."""
        try:
            return os.path.samestat(os.lstat(self.part, dir_fd=self.file.folder), os.fstat(self.descriptor))
        except FileNotFoundError:
            return False

    def finish(self, trace):
        os.fsync(self.descriptor)
        if not self.is_ours() or os.fstat(self.descriptor).st_size != self.written:
            raise Trouble(INCOMPLETE, f'{shown(self.name)}: somebody else has changed it')
        status = self.file.status()
        if status:
            never_written(trace, status)  # it may have been moved there meanwhile
        with signals_held():
            os.rename(self.part, self.file.last, src_dir_fd=self.file.folder, dst_dir_fd=self.file.folder)
            self.placed = True
            ignore_signals()
        sync_folder(self.file.folder)


def destination(named, trace):
    """What LIST is. Nothing is written or emptied yet; what cannot be written is told now."""
    with named_in_errors(named.name):
        status = os.fstat(named.number) if isinstance(named, Descriptor) else named.status()
        if status:
            never_written(trace, status)
        if isinstance(named, Descriptor) or status and not stat.S_ISREG(status.st_mode):
            if stat.S_ISDIR(status.st_mode):
                raise IsADirectoryError(errno.EISDIR, '')
            return Stream(named)
        return Part(named, status)


def never_written(trace, status):
    if same_file(trace.opened, status):
        raise Trouble(USAGE, 'TRACE and LIST (or LIST.part) are the same file, and a trace is never written')


def replaceable(file, before):
    """Asked for before anything is begun: a folder that can be written, and a list that may be replaced there."""
    folder = os.fstat(file.folder)
    writable(os.curdir, os.W_OK | os.X_OK, file.folder)
    if before is None:
        return
    writable(file.last, os.W_OK, file.folder)  # a rename asks nothing of the file that it replaces
    if folder.st_mode & stat.S_ISVTX and os.geteuid() not in (0, folder.st_uid, before.st_uid):
        raise PermissionError(errno.EPERM, '')
    if mount_of(os.open(file.last, os.O_PATH, dir_fd=file.folder)) != mount_of(file.folder):
        raise OSError(errno.EBUSY, '')  # a file that is mounted there keeps its place


def writable(name, rights, folder):
    if not os.access(name, rights, dir_fd=folder):
        read_only = os.statvfs(folder).f_flag & os.ST_RDONLY
        raise OSError(errno.EROFS if read_only else errno.EACCES, '')


def mount_of(descriptor):
    with open(f'/proc/self/fdinfo/{descriptor}', encoding='ascii') as lines:
        return re.search(r'mnt_id:\s*(\d+)', lines.read())[1]


def keep_owner_and_mode(descriptor, before):
    """Who could read or write yesterday's list can do so with today's, as far as the system lets us."""
    for owner, group in ((before.st_uid, before.st_gid), (-1, before.st_gid)):
        try:
            os.fchown(descriptor, owner, group)
            break
        except PermissionError:
            continue
    try:
        os.fchmod(descriptor, stat.S_IMODE(before.st_mode) & 0o777)
    except PermissionError:
        pass


def sync_folder(folder):
    try:
        descriptor = os.open(os.curdir, os.O_RDONLY | os.O_DIRECTORY, dir_fd=folder)
    except PermissionError:
        return  # one that can be written and not read
    try:
        os.fsync(descriptor)
    except OSError as fault:
        if fault.errno != errno.EINVAL:  # some file systems have nothing to do here, and say so
            raise
    finally:
        os.close(descriptor)
