"""The tree that the command stands in, and the kit: what they hold, by name and by content."""
import hashlib
import os
import re
import shutil
import stat
import subprocess

ROOT = os.path.dirname(os.path.dirname(os.path.realpath(__file__)))
MACHINE = os.uname().machine
OUT = re.compile('crates/[^/]+/out')  # what rt makes of a crate, and keeps for itself


class Kit:
    """The Rattle kit, as it stands in its folder."""

    def __init__(self, home, rt):
        self.home, self.rt = home, rt
        self.tools = os.path.join(home, 'toolchain')
        with open(os.path.join(home, 'KIT-ID'), encoding='utf-8', errors='replace') as said:
            self.id = ' '.join(said.read().split())


def kit():
    """The kit at RATTLE_HOME, or where `rt` on the PATH stands; nothing where there is none: running what was built needs none."""
    home, rt = os.environ.get('RATTLE_HOME'), shutil.which('rt')
    if home:
        own = os.path.join(home, 'bin', 'rt')
        rt = own if os.access(own, os.X_OK) else rt
    elif rt:
        home = os.path.dirname(os.path.dirname(os.path.realpath(rt)))
    try:
        return Kit(home, rt) if home and rt else None
    except OSError:
        return None


def sources(root):
    """The files that the program is made from."""
    handles = ['HANDLES'] if os.path.lexists(os.path.join(root, 'HANDLES')) else []  # what rt allows a crate; it need not be there
    return ['crates.txt', *handles, *files(root, 'crates', but=OUT)]


def content(root, kit_id):
    """A hash of all that the program is made from: crates.txt, HANDLES, crates/ and the kit, on this kind of machine."""
    return digest(root, sources(root), f'{kit_id} on {MACHINE}')


def digest(root, names, heading):
    """A hash of files by name and content, below a heading."""
    whole = hashlib.sha256(heading.encode(errors='replace'))
    for name in names:
        data, name = data_of(os.path.join(root, name)), os.fsencode(name)
        whole.update(b'\n%d %d %b %b' % (len(name), len(data), name, data))
    return whole.hexdigest()


def data_of(path):
    mode = os.lstat(path).st_mode
    if stat.S_ISLNK(mode):
        return b'a link to ' + os.fsencode(os.readlink(path))
    if not stat.S_ISREG(mode):
        return b'no file'  # and nothing that one could wait for
    with open(path, 'rb') as file:
        return file.read()


def files(root, folder='', but=None):
    """The names of all files and links below a folder of the root, in one order; a folder whose name `but` matches is left out."""
    found = []
    for entry in os.scandir(os.path.join(root, folder)):
        name = os.path.join(folder, entry.name)
        if not entry.is_dir(follow_symlinks=False):
            found.append(name)
        elif not (but and but.fullmatch(name)):
            found += files(root, name, but)
    return sorted(found)


def commit(root):
    """The commit that the tree stands at, and whether what is built from has been changed since."""
    if not os.path.exists(os.path.join(root, '.git')):
        return 'no commit'
    head = git(root, 'rev-parse', '--short=12', 'HEAD')
    told = git(root, 'status', '--porcelain', '--untracked-files=all', '--ignored=matching', '--', 'crates', 'crates.txt', 'HANDLES')
    changed = [line for line in told.splitlines() if not re.match(rf'(\?\?|!!) {OUT.pattern}/', line)]
    return (head or 'no commit') + (' with changes' if changed else '')


def git(root, *words):
    # the night's account may not own the tree, and may not be able to write it; a hook's GIT_DIR is another tree's
    told = ['git', '--no-optional-locks', '-c', f'safe.directory={root}', '-C', root, *words]
    surroundings = {name: value for name, value in os.environ.items() if not name.startswith('GIT_')}
    try:
        said = subprocess.run(told, stdin=subprocess.DEVNULL, capture_output=True, check=True, env=surroundings).stdout
        return said.decode(errors='replace').strip()
    except (OSError, subprocess.CalledProcessError):
        return ''
