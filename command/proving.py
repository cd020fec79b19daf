"""Proving: `rt ci` in a copy of the tree, of the program and what it stands on, told as it goes."""
import os
import re
import select
import shutil
import signal
import subprocess
import time

from command.built import PROGRAM
from command.progress import clock
from command.trouble import NOT_BUILT, Trouble, put, say

ALIVE = 20  # seconds after which one that has nothing new to tell says that it goes on
SHOWN = 40  # lines of what went wrong


def prove(kit, work, quiet, take_over):
    """Proves and builds the program in the folder `work`; gives rt's verdict."""
    crates = needed(work)
    leave_only(work, crates)
    tell = (lambda words: None) if quiet else say
    tell(f'proving and building the program, {len(crates)} crates; some minutes, once')
    # by itself rt ci takes over what it has passed on this machine, by the sums of all files that it read
    words = ['ci'] if take_over else ['ci', '--anew']
    rt = subprocess.Popen([kit.rt, *words], cwd=work, start_new_session=True,
                          stdin=subprocess.DEVNULL, stdout=subprocess.PIPE, stderr=subprocess.STDOUT)
    try:
        lines = list(watched(rt, len(crates), tell))
        status = rt.wait()
    finally:
        end_all(rt)
    if status or not lines or not re.fullmatch(r'\d+ passed, 0 failed', lines[-1]):
        put(2, ''.join(f'{line}\n' for line in failure(lines)))
        raise Trouble(NOT_BUILT, f'the program was not built: rt ended with status {status}; what it said of that is above')
    return f'rt ci: {lines[-1]}'


def needed(work):
    """The tree's crates that the program stands on, itself among them."""
    with open(os.path.join(work, 'crates.txt'), encoding='utf-8', errors='replace') as listed:
        lines = [listing(line) for line in listed]
    stands_on = {name: uses for name, uses in lines if name}
    found, new = set(), {PROGRAM}
    while new:
        found |= new
        new = {name for crate in new for name in stands_on.get(crate, []) if name in stands_on} - found
    return found


def listing(line):
    """A crate's name and what it uses, from its line of crates.txt: NAME WORD ..: LIBRARY .., and then perhaps a comment."""
    words, _, uses = line.partition('#')[0].partition(':')
    return ''.join(words.split()[:1]), uses.replace(',', ' ').split()


def leave_only(work, crates):
    """Takes out of the copy what rt ci would do besides: the other crates, and each crate's wrong versions, which are the gate's."""
    listed = os.path.join(work, 'crates.txt')
    with open(listed, encoding='utf-8', errors='replace') as lines:
        kept = [line for line in lines if listing(line)[0] in crates]
    with open(listed, 'w', encoding='utf-8', errors='replace') as lines:
        lines.writelines(kept)
    for name in os.listdir(os.path.join(work, 'crates')):
        needless = os.path.join(name, 'must-fail') if name in crates else name
        shutil.rmtree(os.path.join(work, 'crates', needless), ignore_errors=True)
    os.mkdir(os.path.join(work, '.git'))  # a top of its own: rt ci refuses a crates.txt that stands below another's, as TMPDIR may


def failure(lines):
    """The end of what rt said of the first crate that it refused, which is not its last word, and of all."""
    at = next((at for at, line in enumerate(lines, 1) if line.endswith(' NOT PROVED')), 0)
    return lines[max(at - SHOWN, 0):at] + lines[max(at, len(lines) - SHOWN):]


def watched(rt, crates, tell):
    """The lines that rt prints; how far it is, told as they come, and where none comes, that it goes on."""
    began, proved = time.monotonic(), 0
    for line in lines_of(rt.stdout.fileno(), lambda: tell(f'proving, {clock(time.monotonic() - began)} so far')):
        crate = re.fullmatch(r'rt: (\w+) (proved|is kept: (.*))', line)
        if crate:
            proved += 1
            tell(f'{proved} of {crates} proved: {crate[1]}' + (f' ({crate[3]})' if crate[3] else ''))
        yield line


def lines_of(descriptor, waited):
    """The lines of a stream to its end; `waited` is called where none comes for a while."""
    polled, rest = select.poll(), b''
    polled.register(descriptor, select.POLLIN)
    while True:
        if not polled.poll(ALIVE * 1000):
            waited()
            continue
        data = os.read(descriptor, 1 << 16)
        if not data:
            break
        *lines, rest = (rest + data).split(b'\n')
        yield from (line.decode(errors='replace') for line in lines)
    if rest:
        yield rest.decode(errors='replace')


def end_all(rt):
    """rt and all that it started, which is a group of its own."""
    try:
        os.killpg(rt.pid, signal.SIGKILL)
    except ProcessLookupError:
        pass
    rt.wait()
    rt.stdout.close()
