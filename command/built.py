"""What was built: the folder built/ of the tree, in it a folder for each build, and the file `current`, which names the one that runs."""
import os

from command.tree import ROOT, digest, files
from command.trouble import NOT_BUILT, Trouble

FOLDER = os.path.join(ROOT, 'built')
CURRENT = os.path.join(FOLDER, 'current')
PROGRAM, LIBRARIES, EMULATOR, RECORD = 'night_list', 'lib', 'qemu-x86_64', 'record'
LOADER = os.path.join(LIBRARIES, 'ld-linux-x86-64.so.2')


class Build:
    """A program that was proved and built, beside what it runs with, and its record: what it was made from, and what is there."""

    def __init__(self, folder):
        self.folder = folder
        with open(os.path.join(folder, RECORD), encoding='utf-8', errors='replace') as lines:
            said = dict(line.rstrip('\n').split(': ', 1) for line in lines)
        self.content, self.commit, self.kit, self.check = said['content'], said['commit'], said['kit'], said['check']
        self.files, self.when = said['files'], said['when']

    def whole(self):
        """Whether every file is there, and as it was built."""
        there = [name for name in files(self.folder) if name != RECORD]
        return digest(self.folder, there, '') == self.files


def started(folder):
    """How the program of a folder is started: it is for x86-64 and runs under the kit's loader, and an emulator where the kit has one."""
    loader, libraries, program, emulator = (os.path.join(folder, name) for name in (LOADER, LIBRARIES, PROGRAM, EMULATOR))
    start = [loader, '--library-path', libraries, program]
    return [emulator, *start] if os.path.exists(emulator) else start


def named():
    """The folder of the build that runs. Its name stands in a file, and no link leads there: rt ci refuses a tree with a link in it."""
    with open(CURRENT, encoding='utf-8', errors='replace') as name:
        return os.path.join(FOLDER, os.path.basename(name.readline().rstrip('\n')))


def current():
    """The build that runs, or nothing where none is whole."""
    try:
        build = Build(named())
        return build if build.whole() else None
    except (FileNotFoundError, NotADirectoryError, IsADirectoryError, KeyError, ValueError):
        return None
    except OSError as fault:
        raise Trouble(NOT_BUILT, f'what is built cannot be read: {fault.filename or FOLDER}: {fault.strerror}') from None
