"""A list appears whole or not at all."""
import os
import resource
import stat
import subprocess

from command.tests.support import LISTING_TRACE, PIPE, Floor, as_nobody
from command.tests.traces import LISTING, busy

YESTERDAY = 'E 1 0\n'


class WholeOrNot(Floor):

    def setUp(self):
        super().setUp()
        self.build()
        self.old = self.write('list', YESTERDAY, 0o640)

    def kept(self, answer, *words):
        """Yesterday's list as it was, status 2, and these words on standard error."""
        status, out, err = answer
        self.assertEqual(self.read('list'), YESTERDAY)
        self.assertEqual((status, out), (2, ''), err)
        for word in words:
            self.assertIn(word, err)
        return err

    def test_a_list_replaces_yesterdays_and_keeps_its_mode(self):
        status, out, err = self.night(LISTING_TRACE, 'list')
        self.assertEqual((status, out, err), (0, '', 'night-list: whole: 6 cycles accepted, 4 flits out\n'))
        self.assertEqual(self.read('list'), LISTING)
        self.assertEqual(stat.S_IMODE(os.stat(self.old).st_mode), 0o640)
        self.assertFalse(self.there('list.part'))

    def test_a_list_that_ends_in_R_is_whole_too(self):
        status, _, _ = self.night(self.write('empty', b''), 'list')
        self.assertEqual((status, self.read('list')), (1, 'R 9 0 0\n'))

    def test_two_runs_on_one_list(self):
        name = self.fifo('trace')
        trace, whole = busy(2000)
        first = self.start(name, 'list')
        with open(name, 'wb', buffering=0) as bench:
            bench.write(trace[:PIPE + 4096])  # comes back only when the run has begun to read, LIST.part in its hand
            self.kept(self.night(LISTING_TRACE, 'list'), 'list.part: another run is writing it')
            bench.write(trace[PIPE + 4096:])
        self.assertEqual(self.ended(first)[0], 0)
        self.assertEqual(self.read('list'), whole)

    def test_a_full_disk(self):
        disk = os.path.join(self.at, 'disk')
        os.mkdir(disk)
        if subprocess.run(['mount', '-t', 'tmpfs', '-o', 'size=4k', 'tmpfs', disk], capture_output=True, check=False).returncode:
            self.kept(self.night(LISTING_TRACE, '/dev/full'), 'No space left on device')  # no file system of our own here
            return
        self.addCleanup(subprocess.run, ['umount', disk], check=True)
        self.write('disk/list', YESTERDAY)
        trace = self.write('long', busy(300)[0])
        status, _, err = self.night(trace, 'disk/list')
        self.assertEqual(self.read('disk/list'), YESTERDAY)
        self.assertEqual(status, 2)
        self.assertIn('disk/list.part: No space left on device; the list is incomplete: LIST is as it was', err)

    def test_the_device_that_is_always_full(self):
        self.kept(self.night(LISTING_TRACE, '/dev/full'), '/dev/full: No space left on device', 'the list is incomplete')

    def test_a_limit_on_the_size_of_a_file(self):
        limit = lambda: resource.setrlimit(resource.RLIMIT_FSIZE, (100, 100))
        self.kept(self.night(LISTING_TRACE, 'list', preexec_fn=limit), 'list.part: File too large')

    def test_a_folder_as_trace(self):
        self.kept(self.night(self.tree, 'list'), f'{self.tree}: Is a directory')
        self.assertFalse(self.there('list.part'))

    def test_a_trace_that_cannot_be_read_on(self):
        self.kept(self.night('/proc/self/mem', 'list'), '/proc/self/mem: Input/output error; the list is incomplete')

    def test_a_trace_that_is_not_there(self):
        err = self.kept(self.night('no-such-trace', 'list'), 'no-such-trace: No such file or directory')
        self.assertEqual(err.count('\n'), 1)

    def test_a_list_in_a_folder_that_is_not_there(self):
        status, _, err = self.night(LISTING_TRACE, 'no/such/list')
        self.assertEqual((status, err), (2, 'night-list: no/such/list: No such file or directory\n'))

    def test_a_folder_as_list(self):
        status, _, err = self.night(LISTING_TRACE, self.tree)
        self.assertEqual((status, err), (2, f'night-list: {self.tree}: Is a directory\n'))

    def test_a_folder_that_cannot_be_written_is_told_before_the_trace_is_read(self):
        os.mkdir(os.path.join(self.at, 'closed'), 0o555)
        with open(LISTING_TRACE, 'rb') as trace:
            status, _, err = self.night('-', 'closed/list', stdin=trace, **as_nobody())
            self.assertEqual((status, err), (2, 'night-list: closed/list: Permission denied\n'))
            self.assertEqual(os.lseek(trace.fileno(), 0, os.SEEK_CUR), 0)

    def test_a_list_that_is_protected(self):
        folder = os.path.join(self.at, 'open')
        os.mkdir(folder)
        os.chmod(folder, 0o777)
        self.write('open/list', YESTERDAY, 0o444)
        status, _, err = self.night(LISTING_TRACE, 'open/list', **as_nobody())
        self.assertEqual((status, err), (2, 'night-list: open/list: Permission denied\n'))
        self.assertEqual(self.read('open/list'), YESTERDAY)

    def test_a_link_is_resolved_and_stays(self):
        os.symlink('list', os.path.join(self.at, 'link'))
        os.symlink('new', os.path.join(self.at, 'leads-nowhere'))
        for name, whole in (('link', 'list'), ('leads-nowhere', 'new')):
            self.assertEqual(self.night(LISTING_TRACE, name)[0], 0)
            self.assertEqual(self.read(whole), LISTING)
            self.assertTrue(os.path.islink(os.path.join(self.at, name)))

    def test_a_part_that_is_another_file_too_is_not_emptied(self):
        mine = self.write('mine', 'precious\n')
        for make in (os.symlink, os.link):
            make(mine, os.path.join(self.at, 'list.part'))
            self.kept(self.night(LISTING_TRACE, 'list'), 'list.part is no file of its own; remove it')
            self.assertEqual(self.read('mine'), 'precious\n')
            os.remove(os.path.join(self.at, 'list.part'))

    def test_what_an_earlier_run_left_is_written_over(self):
        self.write('list.part', 'F 0 and much more of an older list\n' * 100)
        self.assertEqual(self.night(LISTING_TRACE, 'list')[0], 0)
        self.assertEqual(self.read('list'), LISTING)
        self.assertFalse(self.there('list.part'))

    def test_somebody_else_changes_the_part(self):
        name = self.fifo('trace')
        trace, _ = busy(14_000)  # when most of it is read, much of the list has been written
        for change in (lambda part: os.truncate(part, 0), os.remove):
            run = self.start(name, 'list')
            with open(name, 'wb', buffering=0) as bench:
                bench.write(trace[:-512])
                change(os.path.join(self.at, 'list.part'))
                bench.write(trace[-512:])
            self.kept(self.ended(run), 'list.part: somebody else has changed it')

    def test_a_name_that_is_a_folders(self):
        for name in ('nodir/', 'nodir/.', 'nosuch/../xx', '.'):
            status, _, _ = self.night(LISTING_TRACE, name)
            self.assertEqual((status, self.there('nodir'), self.there('xx')), (2, False, False))
        self.assertEqual(self.night(LISTING_TRACE + '/', 'list')[0], 2)

    def test_a_working_folder_that_is_gone(self):
        gone = os.path.join(self.at, 'gone')
        os.mkdir(gone)
        status, _, err = self.night(LISTING_TRACE, 'list', preexec_fn=lambda: (os.chdir(gone), os.rmdir(gone)))
        self.assertEqual((status, err), (2, 'night-list: list.part: No such file or directory\n'))

    def test_a_sticky_folder_with_somebody_elses_list(self):
        folder = os.path.join(self.at, 'sticky')
        os.mkdir(folder)
        os.chmod(folder, 0o1777)
        self.write('sticky/list', YESTERDAY, 0o666)
        if os.getuid() == 0:
            status, _, err = self.night(LISTING_TRACE, 'sticky/list', **as_nobody())
            self.assertEqual((status, err), (2, 'night-list: sticky/list: Operation not permitted\n'))

    def test_a_folder_that_can_be_written_and_not_read(self):
        folder = os.path.join(self.at, 'dropbox')
        os.mkdir(folder)
        os.chmod(folder, 0o333)
        self.addCleanup(os.chmod, folder, 0o755)
        self.assertEqual(self.night(LISTING_TRACE, 'dropbox/list', **as_nobody())[0], 0)
        self.assertEqual(self.read('dropbox/list'), LISTING)

    def test_the_group_of_a_list_is_kept(self):
        folder = os.path.join(self.at, 'shared')
        os.mkdir(folder)
        try:
            os.chown(folder, 0, 7777)
            os.chown(self.write('shared/list', YESTERDAY, 0o660), 50001, 7777)
        except OSError:
            return  # only root has other accounts to try, and not everywhere
        os.chmod(folder, 0o770)
        self.assertEqual(self.night(LISTING_TRACE, 'shared/list', user=50002, group=50002, extra_groups=[7777])[0], 0)
        status = os.stat(os.path.join(folder, 'list'))
        self.assertEqual((status.st_gid, stat.S_IMODE(status.st_mode)), (7777, 0o660))

    def test_a_file_that_is_mounted_there(self):
        other = self.write('other', YESTERDAY)
        if subprocess.run(['mount', '--bind', other, self.old], capture_output=True, check=False).returncode == 0:
            self.addCleanup(subprocess.run, ['umount', self.old], check=True)
            self.kept(self.night(LISTING_TRACE, 'list'), 'list: Device or resource busy')


class WrongPrograms(Floor):
    """Whatever a program does, a list is whole only with its last line, newline included, and an end without complaint."""

    def test_a_program_that_ends_otherwise(self):
        for program, words in (
            ("printf 'C 2 0 0\\nE 6 4'", 'no last line'),
            ("printf 'C 2 0 0\\n'", 'no last line'),
            ("printf 'E 6\\n'", 'no last line'),
            ("printf 'R 11 0 0\\n'", 'no last line'),
            ("printf 'E 6 4\\nC 2 0 0\\n'", 'no last line'),
            ("printf 'E 6 4\\n\\n'", 'no last line'),
            ("printf 'xE 6 4\\n'", 'no last line'),
            ('true', 'no last line'),
            ("printf 'E 6 4\\n'; exit 3", 'ended with status 3'),
            ("printf 'E 6 4\\n'; kill -9 $$", 'ended by SIGKILL'),
            ("printf 'E 6 4\\n'; echo 'night_list: read failed' >&2", 'night_list: read failed'),
        ):
            with self.subTest(program):
                WrongPrograms.program = program
                self.doCleanups()
                self.setUp()
                self.write('list', YESTERDAY)
                status, _, err = self.night(LISTING_TRACE, 'list')
                self.assertEqual(status, 2, err)
                self.assertIn(words, err)
                self.assertEqual(self.read('list'), YESTERDAY)
                status, _, err = self.night(LISTING_TRACE, '-')
                self.assertEqual(status, 2, err)

    program = 'true'

    def test_the_part_of_a_link_is_named(self):
        self.program = 'echo C 2 0 0'
        self.doCleanups()
        self.setUp()
        os.mkdir(os.path.join(self.at, 'sub'))
        os.symlink('sub/real', os.path.join(self.at, 'link'))
        status, _, err = self.night(LISTING_TRACE, 'link')
        self.assertEqual(status, 2)
        self.assertTrue(err.endswith('LIST was not made; what was written is in sub/real.part\n'), err)
        self.assertTrue(self.there('sub/real.part'))
