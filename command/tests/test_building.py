"""Building and running are two things: one build, whoever asks; a run that needs neither rt nor the right to write."""
import os
import select
import shutil
import signal
import subprocess
import unittest

from command.tests.support import LISTING_TRACE, OUT, PATIENCE, PIPE, Floor, as_nobody
from command.tests.traces import LISTING, busy


class Building(Floor):

    def git(self, *words):
        told = ['git', '-C', self.tree, '-c', 'user.name=n', '-c', 'user.email=n@n', *words]
        return subprocess.run(told, check=True, capture_output=True).stdout.decode().strip()

    def test_the_first_use_builds_and_shows_that_it_is_alive(self):
        status, out, err = self.night(LISTING_TRACE, '-')
        self.assertEqual((status, out), (0, LISTING))
        self.assertEqual(err.splitlines(), [
            'night-list: proving and building the program, 2 crates; some minutes, once',
            'night-list: 1 of 2 proved: base',
            'night-list: 2 of 2 proved: night_list',
            'night-list: whole: 6 cycles accepted, 4 flits out',
        ])
        self.assertEqual(self.night('--quiet', LISTING_TRACE, '-'), (0, LISTING, ''))
        self.assertEqual(self.calls(), 1)

    def test_a_built_tree_needs_no_rt(self):
        self.build()
        shutil.rmtree(self.kit)
        self.surroundings['PATH'] = os.defpath
        uses = [self.start(LISTING_TRACE, '-') for _ in range(4)]  # and many at once are not in each other's way
        for use in uses:
            self.assertEqual(self.ended(use)[:2], (0, LISTING))

    def test_two_first_uses_at_once_build_once(self):
        hold = self.hold_builds()
        uses = [self.start(LISTING_TRACE, '-') for _ in range(2)]
        self.until_one_says(b'another build is under way; waiting for it', uses)
        self.release(hold)
        for use in uses:
            status, out, err = self.ended(use)
            self.assertEqual((status, out), (0, LISTING), err)
        self.assertEqual(self.calls(), 1)

    def until_one_says(self, words, uses):
        """Reads what the uses say until one of them has said this."""
        said = {use.stderr: b'' for use in uses}
        while not any(words in heard for heard in said.values()):
            ready = select.select(list(said), [], [], PATIENCE)[0]
            self.assertTrue(ready, 'nobody says so')
            for end in ready:
                said[end] += self.heard(end)

    def heard(self, end):
        data = os.read(end.fileno(), 1 << 16)
        self.assertTrue(data, 'it has ended')
        return data

    def test_a_tree_that_cannot_be_written(self):
        self.build()
        before = self.everything()
        for folder, _, _ in os.walk(self.tree):
            os.chmod(folder, 0o555)
            self.addCleanup(os.chmod, folder, 0o755)
        self.assertEqual(self.night(LISTING_TRACE, '-', **as_nobody())[:2], (0, LISTING))
        self.assertEqual(self.night('--build', **as_nobody())[0], 0)  # there is nothing to do
        self.assertEqual(self.everything(), before)

    def everything(self):
        return sorted(os.path.join(folder, name) for folder, _, names in os.walk(self.tree) for name in names)

    def test_a_tree_that_cannot_be_written_and_is_not_built(self):
        os.chmod(self.tree, 0o555)
        self.addCleanup(os.chmod, self.tree, 0o755)
        status, out, err = self.night(LISTING_TRACE, '-', **as_nobody())
        self.assertEqual((status, out), (4, ''))
        self.assertRegex(err, r'the program was not built: .*built: Permission denied')

    def test_a_program_that_is_gone_or_changed_is_built_again(self):
        self.build()
        list_ = self.write('list', 'E 1 0\n')
        for spoil, path in ((os.remove, self.program_file()), (cut, self.program_file()), (os.remove, self.library_file())):
            spoil(path)
            status, _, err = self.night(LISTING_TRACE, list_)
            self.assertEqual((status, self.read('list')), (0, LISTING))
            self.assertIn('2 of 2 proved: night_list', err)
        self.write('kit/fails', '')
        os.remove(self.program_file())
        status, _, err = self.night(LISTING_TRACE, list_)
        self.assertEqual((status, self.read('list')), (4, LISTING), err)

    def built_folder(self):
        """The folder of the build that runs, as the file `current` names it."""
        if not os.path.isfile(os.path.join(self.tree, 'built', 'current')):
            return os.path.join(self.tree, 'built', 'none')
        return os.path.join(self.tree, 'built', self.read('tree/built/current').strip())

    def library_file(self):
        """What the program runs with."""
        return os.path.join(self.built_folder(), 'lib', 'libc.so.6')

    def program_file(self):
        """The program that a run takes."""
        built = os.path.join(self.built_folder(), 'night_list')
        return built if os.path.exists(built) else os.path.join(self.tree, OUT)

    def test_a_build_that_fails_leaves_nothing(self):
        self.write('kit/fails', '')
        before = set(self.everything())
        status, out, err = self.night(LISTING_TRACE, '-')
        self.assertEqual((status, out), (4, ''))
        self.assertIn('what is wrong\nrt: base NOT PROVED\n', err)  # though rt went on
        self.assertIn('100\nrt: FAILED: base\n0 passed, 1 failed\n', err)
        self.assertIn('night-list: the program was not built: rt ended with status 1', err)
        self.assertEqual(set(self.everything()) - before, {os.path.join(self.tree, 'built', 'lock')})

    def test_a_build_without_a_program_leaves_nothing(self):
        os.remove(os.path.join(self.kit, 'program'))
        self.assertEqual(self.night('--build')[0], 4)
        self.assertEqual(os.listdir(os.path.join(self.tree, 'built')), ['lock'])
        self.assertEqual(os.listdir(os.path.join(self.at, 'tmp')), [])

    def test_a_program_that_does_not_do_what_its_crate_says_is_not_put_in_place(self):
        self.write('tree/crates/night_list/stdin', '')
        self.write('tree/crates/night_list/stdout', 'R 9 0 1\n')
        status, _, err = self.night('--build')
        self.assertEqual(status, 4)
        self.assertIn('the program was built and does not run', err)
        self.write('tree/crates/night_list/stdout', 'R 9 0 0\n')
        self.assertEqual(self.night('--build')[0], 0)

    def test_a_signal_ends_a_build(self):
        hold = self.hold_builds()
        run = self.start('--build')
        with open(hold, 'w', encoding='utf-8'):  # rt is there
            started = self.below(run.pid)
            for number in (signal.SIGTERM, signal.SIGHUP, signal.SIGINT):  # as somebody who is impatient
                run.send_signal(number)
            self.assertLess(self.ended(run)[0], 0)
            self.gone(started)
        self.assertEqual(os.listdir(os.path.join(self.at, 'tmp')), [])
        self.assertEqual(os.listdir(os.path.join(self.tree, 'built')), ['lock'])
        os.remove(hold)
        self.build()

    def test_a_typo_is_told_before_the_build(self):
        for words in (('no-such-trace', 'list'), (LISTING_TRACE, 'no/such/list'), (LISTING_TRACE, LISTING_TRACE), (self.tree, 'list')):
            self.assertIn(self.night(*words)[0], (2, 3))
        self.assertEqual(self.calls(), 0)
        self.assertFalse(self.there('list.part'))

    def test_rattle_home_is_honoured(self):
        self.surroundings['PATH'] = os.defpath
        status, _, err = self.night(LISTING_TRACE, '-')
        self.assertEqual(status, 4)
        self.assertIn('there is no Rattle kit (rt) at RATTLE_HOME or, without that, on the PATH', err)
        self.surroundings['RATTLE_HOME'] = self.kit
        self.assertEqual(self.night(LISTING_TRACE, '-')[:2], (0, LISTING))

    @unittest.skipUnless(shutil.which('git'), 'commits are named where there is git')
    def test_a_tree_that_has_changed_is_not_run_by_mistake(self):
        self.git('init', '-q')
        self.git('add', 'crates', 'crates.txt')
        self.git('commit', '-q', '-m', 'one')
        self.build()
        first = self.git('rev-parse', '--short=12', 'HEAD')
        self.write('tree/crates/base/src/lib.txt', 'changed\n')
        self.git('commit', '-q', '-a', '-m', 'two')
        second = self.git('rev-parse', '--short=12', 'HEAD')
        self.write('tree/crates/base/src/new.txt', '')
        self.surroundings['GIT_DIR'] = self.at  # as a hook of another repository has it
        status, out, err = self.night(LISTING_TRACE, '-')
        self.assertEqual((status, out), (5, ''))
        self.assertIn(f'this tree ({second} with changes) is not what was built ({first})', err)
        self.assertEqual(self.night('--as-built', LISTING_TRACE, '-')[:2], (0, LISTING))
        self.assertIn(f'built from {first} on 2', self.night('--version')[1])
        self.assertIn(f'this tree: {second} with changes\n', self.night('--version')[1])
        self.assertEqual(self.calls(), 1)
        self.assertEqual(self.night('--build')[0], 0)
        self.assertEqual(self.night(LISTING_TRACE, '-')[:2], (0, LISTING))

    def test_another_kit_is_another_build(self):
        self.build()
        self.write('kit/KIT-ID', 'a newer kit\n')
        status, _, err = self.night(LISTING_TRACE, '-')
        self.assertEqual(status, 5)
        self.assertIn('(no commit, a newer kit) is not what was built (no commit, a pretended kit)', err)

    def test_building_twice_builds_once(self):
        self.build()
        status, _, err = self.night('--build')
        self.assertEqual((status, err), (0, 'night-list: built from no commit: rt ci: 2 passed, 0 failed\n'))
        self.assertEqual(self.calls(), 1)

    def test_a_build_beside_a_run(self):
        self.build()
        name = self.fifo('trace')
        trace, whole = busy(2000)
        run = self.start(name, 'list')
        with open(name, 'wb', buffering=0) as bench:
            bench.write(trace[:PIPE + 4096])  # comes back when the program runs
            for changed in ('one', 'two'):
                self.write('tree/crates/base/src/lib.txt', changed)
                self.assertEqual(self.night('--build')[0], 0)
            bench.write(trace[PIPE + 4096:])
        self.assertEqual(self.ended(run)[0], 0)
        self.assertEqual(self.read('list'), whole)

    def test_what_was_proved_is_taken_over_if_asked_for(self):
        again, kept = 'night-list: 2 of 2 proved: night_list\n', 'night-list: 2 of 2 proved: night_list (an earlier run proved the same)\n'
        self.assertIn(again, self.night('--build', '--take-over')[2])  # there is nothing yet
        shutil.rmtree(os.path.join(self.tree, 'built'))
        self.assertIn(again, self.night(LISTING_TRACE, '-')[2])  # and a first use proves all
        shutil.rmtree(os.path.join(self.tree, 'built'))
        self.assertIn(kept, self.night('--build', '--take-over')[2])
        self.assertEqual(self.night(LISTING_TRACE, '-')[:2], (0, LISTING))
        self.write('tree/crates/base/src/lib.txt', 'another\n')
        self.assertIn(again, self.night('--build', '--take-over')[2])  # what is not the same is proved

    def test_what_the_program_does_not_stand_on_is_not_proved(self):
        os.makedirs(os.path.join(self.tree, 'crates', 'base', 'must-fail'))
        os.makedirs(os.path.join(self.tree, 'crates', 'other', 'src'))
        self.write('tree/crates/base/must-fail/wrong.edit', 'a wrong version\n')
        self.write('tree/crates/other/src/lib.txt', 'of no use\n')
        self.write('tree/crates.txt', '# all\nnight_list: base # and what base stands on\nother: base\nbase\n')
        self.assertEqual(self.night('--build')[0], 0)
        given = ['crates.txt', 'crates/base/src/lib.txt', 'crates/night_list/src/main.txt']
        self.assertEqual(self.read('kit/given').splitlines(), [f'./{name}' for name in given])

    def test_what_rt_makes_in_the_tree_is_none_of_it(self):
        self.git('init', '--quiet')
        self.write('tree/.gitignore', 'built/\nout/\n*.old\n')
        self.git('add', '.')
        self.git('commit', '--quiet', '--message', 'first')
        self.build()
        os.makedirs(os.path.join(self.tree, 'crates', 'base', 'out', 'rlib'))
        self.write('tree/crates/base/out/rlib/stamp', 'as rt check leaves it\n')
        self.assertEqual(self.night(LISTING_TRACE, '-')[:2], (0, LISTING))
        self.assertNotIn('with changes', self.night('--version')[1])
        self.write('tree/HANDLES', 'Handles allowed: none.\n')
        self.assertIn(' with changes) is not what was built', self.night(LISTING_TRACE, '-')[2])
        self.assertEqual(self.night('--build')[0], 0)
        given = self.read('kit/given')
        self.assertIn('./HANDLES\n', given)
        self.assertNotIn('/out/', given)
        os.remove(os.path.join(self.tree, 'HANDLES'))
        self.write('tree/crates/base/src/lib.old', 'ignored, and copied all the same\n')
        self.assertIn(' with changes) is not what was built', self.night(LISTING_TRACE, '-')[2])

    def test_what_is_no_file_in_the_tree_is_not_waited_for(self):
        self.build()
        self.fifo('tree/crates/base/src/pipe')
        self.assertEqual(self.night(LISTING_TRACE, '-')[0], 5)


def cut(path):
    os.truncate(path, 100)
