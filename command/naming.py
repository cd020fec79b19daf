"""What a word of the command line names: a descriptor that was handed to us, or a file."""
import errno
import os
import re
import stat

from command.trouble import named_in_errors

STREAMS = {0: 'standard input', 1: 'standard output'}
LINKS = 40  # as many in a row as the system follows


def handed_over():
    """The descriptors that the caller has given us; asked before we open any ourselves."""
    try:
        numbers = [int(name) for name in os.listdir('/proc/self/fd')]
    except OSError:
        numbers = STREAMS
    return {number for number in numbers if is_open(number)}


def is_open(number):
    try:
        return os.fstat(number) is not None
    except OSError:
        return False


HANDED_OVER = handed_over()


class Descriptor:
    """A stream that the caller has opened; `name` is what messages call it."""

    def __init__(self, name, number):
        self.name, self.number = name, number


class File:
    """A file by the folder that it is in, held open, and its name there; nothing in between can then be moved away under us."""

    def __init__(self, name, folder, last):
        self.name, self.folder, self.last = name, folder, last

    def status(self):
        """What is there, or nothing."""
        try:
            return os.stat(self.last, dir_fd=self.folder)
        except FileNotFoundError:
            return None


def named(word, standard):
    """'-' is the standard stream; so is its device name, and /dev/fd/3 is descriptor 3, where opening anew would lose its place."""
    if word == '-':
        return descriptor(word, standard)
    with named_in_errors(word):
        return followed(word)


def followed(word):
    """A file with the links to it followed, one by one; the folders on the way are the system's business."""
    path, folder, name = word, None, word
    for _ in range(LINKS):
        head, last = os.path.split(path)
        if last in ('', os.curdir, os.pardir):
            os.stat(path, dir_fd=folder)
            raise IsADirectoryError(errno.EISDIR, '')
        folder = os.open(head or os.curdir, os.O_PATH | os.O_DIRECTORY, dir_fd=folder)
        if re.fullmatch('[0-9]{1,9}', last) and os.path.samestat(os.fstat(folder), os.stat('/proc/self/fd')):
            return descriptor(word, int(last))
        try:
            path = os.readlink(last, dir_fd=folder)
        except OSError as fault:
            if fault.errno not in (errno.ENOENT, errno.EINVAL):  # nothing is there, or no link
                raise
            return File(name, folder, last)
        name = os.path.join(os.path.dirname(name), path)
        # a link of /proc may lead to what has no name; its text then leads elsewhere
        if not leads_to(path, folder, last):
            raise FileNotFoundError(errno.ENOENT, '')
    raise OSError(errno.ELOOP, '')


def leads_to(text, folder, link):
    """Whether the text of a link leads where the link does."""
    try:
        meant = os.stat(link, dir_fd=folder)
    except FileNotFoundError:
        return True  # nowhere yet: the list will be made there
    try:
        return os.path.samestat(os.stat(text, dir_fd=folder), meant)
    except FileNotFoundError:
        return False


def descriptor(word, number):
    name = STREAMS.get(number, word)
    with named_in_errors(name):
        if number not in HANDED_OVER:
            raise OSError(errno.EBADF, '')
    return Descriptor(name, number)


def same_file(one, other):
    """One and the same file, however named. A terminal or a socket may well be both ends."""
    if stat.S_ISBLK(one.st_mode) and stat.S_ISBLK(other.st_mode):
        return one.st_rdev == other.st_rdev
    alike = (one.st_dev, one.st_ino) == (other.st_dev, other.st_ino)
    return alike and (stat.S_ISREG(one.st_mode) or stat.S_ISFIFO(one.st_mode))
