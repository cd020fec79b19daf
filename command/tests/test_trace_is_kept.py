"""The trace is never written, however it is named."""
import os
import socket
import stat
import types

from command.naming import same_file
from command.tests.support import LISTING_TRACE, Floor


class TraceIsKept(Floor):

    def setUp(self):
        super().setUp()
        self.build()
        with open(LISTING_TRACE, 'rb') as file:
            self.bytes = file.read()
        self.trace = self.write('trace', self.bytes)

    def refused(self, *words, **how):
        """Status 3, the reason, and not a byte of the trace changed."""
        status, out, err = self.night(*words, **how)
        self.assertEqual((status, out), (3, ''), err)
        self.assertEqual(err, 'night-list: TRACE and LIST (or LIST.part) are the same file, and a trace is never written\n')
        with open(self.trace, 'rb') as file:
            self.assertEqual(file.read(), self.bytes)

    def test_by_its_name(self):
        self.refused('trace', 'trace')
        self.refused('trace', os.path.join('tree', '..', 'trace'))

    def test_as_standard_input(self):
        with open(self.trace, 'rb') as stdin:
            self.refused('-', 'trace', stdin=stdin)
            self.refused('/dev/stdin', self.trace, stdin=stdin)

    def test_as_standard_output(self):
        with open(self.trace, 'ab') as stdout:
            self.refused('trace', '-', stdout=stdout)
            self.refused('trace', '/dev/stdout', stdout=stdout)

    def test_by_a_link_and_by_a_hard_link(self):
        os.symlink('trace', os.path.join(self.at, 'link'))
        os.link(self.trace, os.path.join(self.at, 'second-name'))
        for name in ('link', 'second-name'):
            self.refused('trace', name)
            self.refused(name, 'trace')

    def test_by_a_descriptor(self):
        both = os.open(self.trace, os.O_RDWR)
        self.addCleanup(os.close, both)
        self.refused('trace', f'/dev/fd/{both}', pass_fds=[both])
        self.refused(f'/dev/fd/{both}', 'trace', pass_fds=[both])

    def test_as_the_part_of_a_list(self):
        self.trace = self.write('list.part', self.bytes)
        self.refused('list.part', 'list')
        self.assertFalse(self.there('list'))

    def test_as_standard_error(self):
        with open(self.trace, 'ab') as stderr:
            status, out, _ = self.night('trace', 'list', stderr=stderr)
        self.assertEqual((status, out), (3, ''))
        with open(self.trace, 'rb') as file:
            self.assertEqual(file.read(), self.bytes)
        self.assertFalse(self.there('list'))

    def test_as_a_device_of_another_name(self):
        disk = {'st_mode': stat.S_IFBLK, 'st_rdev': 7, 'st_dev': 1}
        one, other = (types.SimpleNamespace(**disk, st_ino=number) for number in (1, 2))
        self.assertTrue(same_file(one, other))
        other.st_rdev = 8
        self.assertFalse(same_file(one, other))

    def test_a_terminal_or_a_socket_may_be_both(self):
        for names in (('-', '-'), ('/dev/fd/0', '/dev/fd/0')):
            ours, theirs = socket.socketpair()
            run = self.start(*names, stdin=theirs, stdout=theirs)
            theirs.close()
            ours.sendall(self.bytes)
            ours.shutdown(socket.SHUT_WR)
            with ours, ours.makefile('rb') as list_:
                self.assertTrue(list_.read().endswith(b'E 6 4\n'))
            self.assertEqual(self.ended(run)[0], 0)

    def test_a_trace_without_write_access_is_enough(self):
        os.chmod(self.trace, 0o444)
        self.assertEqual(self.night('trace', 'list')[0], 0)


class TraceIsMoved(Floor):
    program = 'read -r _ <hold; echo E 6 4'

    def test_onto_the_list_meanwhile(self):
        self.build()
        self.write('trace', 'a trace\n')
        hold = self.fifo('hold')
        run = self.start('trace', 'list')
        with open(hold, 'w', encoding='utf-8') as gate:  # the program runs
            os.rename(os.path.join(self.at, 'trace'), os.path.join(self.at, 'list'))
            gate.write('go\n')
        status, _, err = self.ended(run)
        self.assertEqual(status, 2)
        self.assertIn('a trace is never written', err)
        self.assertEqual(self.read('list'), 'a trace\n')
