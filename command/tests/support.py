"""A small tree of its own for each test: the command in it, a kit whose `rt` only pretends to prove, and a program.

NIGHT_LIST_SCRIPT names another script to be tried in the command's place, NIGHT_LIST_PROGRAM another program than rt ci's."""
import fcntl
import os
import select
import shutil
import signal
import subprocess
import tempfile
import unittest

from command.tree import ROOT, kit

SCRIPT = os.environ.get('NIGHT_LIST_SCRIPT')
OUT = os.path.join('crates', 'night_list', 'out', 'night_list')  # where rt leaves the program
PROGRAM = os.environ.get('NIGHT_LIST_PROGRAM') or os.path.join(ROOT, OUT)
LISTING_TRACE = os.path.join(ROOT, 'examples', 'listing.trace')
PIPE = fcntl.fcntl(os.pipe()[1], fcntl.F_GETPIPE_SZ)  # a longer write comes back only when somebody reads
PATIENCE = 60  # seconds after which what has not ended hangs

# as rt ci: it keeps in `kept` what it passed, by a sum of the files, and takes that over unless it is told --anew;
# `calls` counts, `given` has the names of the files, `hold` is a FIFO that makes it wait, `fails` makes it fail
RT = """#!/bin/sh
kit=$(cd "$(dirname "$0")/.." && pwd -P)
echo "$* in $PWD" >>"$kit/calls"
[ "$1" = ci ] || exit 2
[ ! -p "$kit/hold" ] || read -r _ <"$kit/hold"
find . -type f | LC_ALL=C sort >"$kit/given"
sum=$(xargs cat <"$kit/given" | cksum)
[ ! -e "$kit/fails" ] || {
    printf '== base\\nwhat is wrong\\nrt: base NOT PROVED\\n'
    seq 100
    printf 'rt: FAILED: base\\n0 passed, 1 failed\\n'
    exit 1
}
for crate in base night_list; do
    if [ "$2" != --anew ] && grep -q -s -x "$sum" "$kit/kept"; then
        echo "rt: $crate is kept: an earlier run proved the same"
    else
        printf "== $crate\\nfn $crate::f: proved\\nrt: $crate proved\\n"
    fi
done
mkdir crates/night_list/out
cp "$kit/program" crates/night_list/out/night_list
echo "$sum" >>"$kit/kept"
echo 'rt: ok; handles allowed: none'
echo '2 passed, 0 failed'
"""
# stands in for the kit's loader, so that a program may be a script
LOADER = """#!/bin/sh
shift 2
exec "$@"
"""


def signals_as_usual():
    """In a child: none is ignored. A shell ignores SIGINT for what it runs in the background, and the command would go on doing so."""
    for number in (signal.SIGHUP, signal.SIGINT, signal.SIGTERM):
        signal.signal(number, signal.SIG_DFL)


class Floor(unittest.TestCase):
    """A test on a floor of its own: `self.at` is a folder, `self.tree` the command's tree, `self.kit` the pretended kit."""

    program = None  # a shell script to run instead of the proved program

    def setUp(self):
        signal.signal(signal.SIGALRM, lambda *_: self.fail('the test hangs'))
        signal.alarm(2 * PATIENCE)
        self.addCleanup(signal.alarm, 0)
        self.at = tempfile.mkdtemp(prefix='night-list-test.')
        self.addCleanup(shutil.rmtree, self.at, ignore_errors=True)
        os.chmod(self.at, 0o755)  # some tests run as nobody
        self.tree, self.kit = os.path.join(self.at, 'tree'), os.path.join(self.at, 'kit')
        self.make_kit()
        for crate in ('base', 'night_list'):
            os.makedirs(os.path.join(self.tree, 'crates', crate, 'src'))
        self.write('tree/crates.txt', 'base:\nnight_list: base\n')
        self.write('tree/crates/base/src/lib.txt', 'as it was\n')
        self.write('tree/crates/night_list/src/main.txt', 'as it was\n')
        shutil.copy(SCRIPT or os.path.join(ROOT, 'night-list'), os.path.join(self.tree, 'night-list'))
        shutil.copytree(os.path.join(ROOT, 'command'), os.path.join(self.tree, 'command'),
                        ignore=shutil.ignore_patterns('tests', '__pycache__'))
        self.surroundings = {name: value for name, value in os.environ.items() if name != 'RATTLE_HOME'}
        self.surroundings['TMPDIR'] = os.path.join(self.at, 'tmp')
        os.mkdir(self.surroundings['TMPDIR'])
        self.surroundings['PATH'] = os.path.join(self.kit, 'bin') + os.pathsep + os.environ['PATH']

    def make_kit(self):
        tools = os.path.join(self.kit, 'toolchain')
        os.makedirs(os.path.join(self.kit, 'bin'))
        os.makedirs(tools)
        self.write('kit/KIT-ID', 'a pretended kit\n')
        self.write('kit/bin/rt', RT, 0o755)
        if self.program is None:
            own = kit().tools
            shutil.copy(PROGRAM, os.path.join(self.kit, 'program'))
            for part in ('bin', 'lib'):
                os.symlink(os.path.join(own, part), os.path.join(tools, part))
        else:
            os.makedirs(os.path.join(tools, 'lib'))
            self.write('kit/toolchain/lib/ld-linux-x86-64.so.2', LOADER, 0o755)
            self.write('kit/program', f'#!/bin/sh\n{self.program}\n', 0o755)

    def write(self, name, data, mode=0o644):
        """A file below the floor's folder; gives its path."""
        path = os.path.join(self.at, name)
        with open(path, 'wb') as file:
            file.write(data if isinstance(data, bytes) else data.encode())
        os.chmod(path, mode)
        return path

    def read(self, name):
        with open(os.path.join(self.at, name), 'rb') as file:
            return file.read().decode(errors='replace')

    def there(self, name):
        return os.path.lexists(os.path.join(self.at, name))

    def fifo(self, name):
        path = os.path.join(self.at, name)
        os.mkfifo(path)
        return path

    def calls(self):
        """How often rt was called."""
        return self.read('kit/calls').count('\n') if self.there('kit/calls') else 0

    def start(self, *words, **how):
        """Starts the command in the floor's folder; standard error is kept."""
        given = dict(cwd=self.at, env=self.surroundings, stdin=subprocess.DEVNULL, stdout=subprocess.PIPE, stderr=subprocess.PIPE,
                     preexec_fn=signals_as_usual)
        started = subprocess.Popen([os.path.join(self.tree, 'night-list'), *words], **{**given, **how})
        self.addCleanup(self.end, started)
        return started

    def end(self, started):
        started.kill()
        started.communicate()

    def ended(self, started):
        """The status, standard output and standard error of a command that was started."""
        try:
            out, err = started.communicate(timeout=PATIENCE)
        except subprocess.TimeoutExpired:
            started.kill()
            self.fail('the command hangs')
        return started.returncode, (out or b'').decode(errors='replace'), (err or b'').decode(errors='replace')

    def night(self, *words, **how):
        return self.ended(self.start(*words, **how))

    def build(self):
        """A first use, so that what follows runs what is built."""
        status, _, err = self.night('--build') if SCRIPT is None else self.night(LISTING_TRACE, os.devnull)
        self.assertEqual(status, 0, err)

    def hold_builds(self):
        """Makes rt wait until `release` is called."""
        return self.fifo('kit/hold')

    def release(self, hold):
        with open(hold, 'w', encoding='utf-8') as gate:  # waits until rt has come there
            gate.write('go\n')

    def below(self, process):
        """The processes that a process has started, and theirs."""
        with open(f'/proc/{process}/task/{process}/children', encoding='utf-8') as children:
            own = [int(word) for word in children.read().split()]
        return own + [one for child in own for one in self.below(child)]

    def gone(self, processes):
        """They have ended; one that is ending is waited for by a descriptor of its own."""
        for process in processes:
            try:
                watch = os.pidfd_open(process)
            except ProcessLookupError:
                continue
            self.assertTrue(select.select([watch], [], [], PATIENCE)[0], 'the program goes on')
            os.close(watch)


def as_nobody():
    """How a command is started by an account that owns nothing here; where we are not root, by ourselves."""
    return dict(user=65534, group=65534, extra_groups=[]) if os.getuid() == 0 else {}
