"""Building: the tree's program is proved and built once, from a copy of the tree, and put where a run finds it."""
import fcntl
import os
import shutil
import subprocess
import tempfile
import time

from command.built import CURRENT, EMULATOR, FOLDER, LIBRARIES, PROGRAM, RECORD, Build, current, named, started
from command.proving import prove
from command.tree import ROOT, commit, content, data_of, digest, files, kit, sources
from command.trouble import NOT_BUILT, OUT_OF_DATE, Trouble, say


def wanted(as_built, quiet):
    """The build to run: made now if none is there, and refused if it is not this tree's."""
    there = current()
    if there is None:
        return build(quiet)
    if as_built:
        return there
    here = kit()
    try:
        tree = content(ROOT, here.id if here else there.kit)
    except OSError as fault:
        raise Trouble(OUT_OF_DATE, f'whether this tree is what was built cannot be told: {fault.filename}: {fault.strerror}') from None
    if tree != there.content:
        now, then = commit(ROOT), there.commit
        if here and here.id != there.kit:
            now, then = f'{now}, {here.id}', f'{then}, {there.kit}'
        raise Trouble(OUT_OF_DATE, f'this tree ({now}) is not what was built ({then}); '
                      "'night-list --build' builds it, '--as-built' runs what was built")
    return there


def build(quiet=False, take_over=False):
    """Proves and builds this tree's program, unless that was done; two at once do it once."""
    here = kit()
    if here is None:
        raise Trouble(NOT_BUILT, 'the program is not built, and there is no Rattle kit (rt) at RATTLE_HOME or, without that, on the PATH')
    try:
        done = up_to_date(here)
        if done:
            return done
        os.makedirs(FOLDER, exist_ok=True)
        with open(os.path.join(FOLDER, 'lock'), 'a', encoding='utf-8') as lock:
            wait_for(lock, quiet)
            return up_to_date(here) or made(here, quiet, take_over)
    except OSError as fault:
        where = fault.filename2 or fault.filename or FOLDER
        raise Trouble(NOT_BUILT, f'the program was not built: {where}: {fault.strerror or fault}') from None


def up_to_date(here):
    """The build that there is, if it is this tree's."""
    there = current()
    return there if there and there.content == content(ROOT, here.id) else None


def wait_for(lock, quiet):
    try:
        fcntl.flock(lock, fcntl.LOCK_EX | fcntl.LOCK_NB)
    except BlockingIOError:
        if not quiet:
            say('another build is under way; waiting for it')
        fcntl.flock(lock, fcntl.LOCK_EX)


def made(here, quiet, take_over):
    """A build of a copy of the tree: what is hashed is what is proved, whatever happens to the tree meanwhile."""
    new = os.path.join(FOLDER, 'new')
    try:
        with tempfile.TemporaryDirectory(prefix='night-list.') as work:
            record = {'commit': commit(ROOT), 'kit': here.id, 'content': copied(work, here)}
            record['check'] = prove(here, work, quiet, take_over)
            crate = os.path.join(work, 'crates', PROGRAM)
            put_together(here, os.path.join(crate, 'out', PROGRAM), new)
            try_once(new, crate)
        record['files'] = digest(new, files(new), '')
        record['when'] = time.strftime('%Y-%m-%d %H:%M:%S UTC', time.gmtime())
        with open(os.path.join(new, RECORD), 'w', encoding='utf-8', errors='replace') as said:
            said.writelines(f'{word}: {value}\n' for word, value in record.items())
        open_to_all(new)
        return put_in_place(new, record['content'][:16])
    finally:
        shutil.rmtree(new, ignore_errors=True)


def copied(work, here):
    """Copies what the program is made from, and gives the copy's hash."""
    for name in sources(ROOT):
        os.makedirs(os.path.dirname(os.path.join(work, name)), exist_ok=True)
        shutil.copy(os.path.join(ROOT, name), os.path.join(work, name), follow_symlinks=False)
    return content(work, here.id)


def put_together(here, program, folder):
    """The program, the libraries that it runs with and, where the kit has one, for a processor that is not x86-64, the emulator."""
    libraries, emulator = os.path.join(here.tools, 'lib'), os.path.join(here.tools, 'bin', EMULATOR)
    copies = {os.path.join(LIBRARIES, name): os.path.join(libraries, name) for name in os.listdir(libraries) if '.so' in name}
    copies[PROGRAM] = program
    if os.path.exists(emulator):
        copies[EMULATOR] = emulator
    shutil.rmtree(folder, ignore_errors=True)
    os.makedirs(os.path.join(folder, LIBRARIES))
    for name, source in copies.items():
        shutil.copyfile(source, os.path.join(folder, name))
        os.chmod(os.path.join(folder, name), 0o755)


def try_once(folder, crate):
    """What was put together starts here, and writes what its crate says that it writes."""
    given, expected = (os.path.join(crate, name) for name in ('stdin', 'stdout'))
    if os.path.exists(given):
        ran = subprocess.run(started(folder), input=data_of(given), capture_output=True, env={}, check=False)
        if (ran.returncode, ran.stdout, ran.stderr) != (0, data_of(expected), b''):
            said = ran.stderr.decode(errors='replace')
            raise Trouble(NOT_BUILT, f'the program was built and does not run: status {ran.returncode}, {said}')


def open_to_all(folder):
    """The night's account can read and run what is built, whatever the builder's umask is."""
    for path in (FOLDER, folder, os.path.join(folder, LIBRARIES)):
        os.chmod(path, 0o755)
    os.chmod(os.path.join(folder, RECORD), 0o644)


def put_in_place(new, name):
    """Makes a build the current one, at once; the one before stays for a run that is just starting."""
    try:
        before = os.path.basename(named())
    except OSError:
        before = None
    own, name_file = os.path.join(FOLDER, name), os.path.join(FOLDER, 'name')
    shutil.rmtree(own, ignore_errors=True)
    os.rename(new, own)
    with open(name_file, 'w', encoding='utf-8') as said:
        said.write(name + '\n')
    os.chmod(name_file, 0o644)
    os.rename(name_file, CURRENT)
    for other in set(os.listdir(FOLDER)) - {'lock', os.path.basename(CURRENT), name, before}:
        shutil.rmtree(os.path.join(FOLDER, other), ignore_errors=True)
    return Build(own)
