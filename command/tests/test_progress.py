"""How far a run is: told on a terminal, or where it is asked for, once it takes more than two seconds."""
import os
import pty
import select

from command.naming import named
from command.progress import Progress as Told
from command.source import open_trace
from command.tests.support import LISTING_TRACE, Floor
from command.tests.traces import idle


class Progress(Floor):

    def setUp(self):
        super().setUp()
        self.build()
        self.trace = idle(700)

    def half_a_trace(self, *words, **how):
        """A run whose trace stops half way, held open."""
        name = self.fifo('trace')
        run = self.start(*words, name, 'list', **how)
        bench = open(name, 'wb', buffering=0)
        self.addCleanup(bench.close)
        bench.write(self.trace[:512 * 51])
        return run, bench

    def test_asked_for_it_is_a_line(self):
        run, bench = self.half_a_trace('--progress')
        said = ''
        while '350 cycles' not in said:
            said = run.stderr.readline().decode()
            self.assertRegex(said, r'^night-list: \d+ cycles, \d+:\d\d\n$')
        bench.write(self.trace[512 * 51:])
        bench.close()
        self.assertEqual(self.ended(run)[::2], (0, 'night-list: whole: 700 cycles accepted, 0 flits out\n'))

    def test_on_a_terminal_it_is_written_over_and_taken_away(self):
        ours, theirs = pty.openpty()
        self.addCleanup(os.close, ours)
        run, bench = self.half_a_trace(stderr=theirs)
        os.close(theirs)
        seen = b''
        while b'350 cycles' not in seen:
            seen += os.read(ours, 1000)
        bench.write(self.trace[512 * 51:])
        bench.close()
        self.assertEqual(self.ended(run)[0], 0)
        while b'whole' not in seen:
            seen += os.read(ours, 1000)
        self.assertRegex(seen, rb'^(\r\x1b\[Knight-list: \d+ cycles, \d+:\d\d)+\r\x1b\[Knight-list: whole: 700 cycles')

    def test_not_between_the_lines_of_a_list_on_the_terminal(self):
        ours, theirs = pty.openpty()
        self.addCleanup(os.close, ours)
        name = self.fifo('trace')
        run = self.start(name, '-', stdout=theirs, stderr=theirs)
        os.close(theirs)
        with open(name, 'wb', buffering=0) as bench:
            bench.write(self.trace[:512 * 51])
            self.assertFalse(select.select([ours], [], [], 3)[0])
            bench.write(self.trace[512 * 51:])
        self.assertEqual(self.ended(run)[0], 0)

    def test_elsewhere_and_where_it_is_soon_over_nothing_is_told(self):
        for words in ((), ('--progress',)):
            self.assertEqual(self.night(*words, LISTING_TRACE, 'list')[::2], (0, 'night-list: whole: 6 cycles accepted, 4 flits out\n'))
        self.assertEqual(self.night('--quiet', LISTING_TRACE, 'list'), (0, '', ''))


class Words(Floor):
    """The share of a regular file, and the time left, from what has passed."""

    def test_share_and_time_left(self):
        data = idle(700)
        trace = open_trace(named(self.write('trace', data), 0))
        self.addCleanup(os.close, trace.descriptor)
        told = Told({'--progress'}, trace, trace)
        self.assertEqual(told.words(3), '0 % of the trace read, 0 cycles, 0:03')
        trace.passed(data[:len(data) // 4 + 100])  # in the middle of a block, whose byte 1 has passed
        trace.passed(data[len(data) // 4 + 100:len(data) // 2])
        self.assertEqual(told.words(3700), '50 % of the trace read, 350 cycles, 1:01:40, 1:01:40 left')
