"""Signals end the program too, and leave nothing behind but LIST.part."""
import os
import signal

from command.tests.support import LISTING_TRACE, PIPE, Floor
from command.tests.traces import busy

YESTERDAY = 'E 1 0\n'


class Signals(Floor):

    def setUp(self):
        super().setUp()
        self.build()
        self.write('list', YESTERDAY)
        self.name = self.fifo('trace')
        self.trace, self.whole = busy(3000)

    def begin(self, *words, **how):
        """A run in the middle of its trace: the command, the program's processes, and the open end of the trace."""
        run = self.start(self.name, 'list', *words, **how)
        bench = open(self.name, 'wb', buffering=0)
        self.addCleanup(bench.close)
        bench.write(self.trace[:PIPE + 4096])  # comes back when the program runs and is being fed
        started = self.below(run.pid)
        self.assertTrue(started)
        return run, started, bench

    def test_each_ends_the_program_and_keeps_the_old_list(self):
        for number in (signal.SIGTERM, signal.SIGINT, signal.SIGHUP):
            run, started, bench = self.begin()
            run.send_signal(number)
            status, _, err = self.ended(run)
            self.gone(started)
            bench.close()
            self.assertEqual(status, -number)  # a shell's loop ends with it
            self.assertEqual(err, f'night-list: ended by {number.name}; the list is incomplete: '
                             'LIST is as it was; what was written is in list.part\n')
            self.assertEqual(self.read('list'), YESTERDAY)
            self.assertEqual(sorted(os.listdir(self.at)), ['kit', 'list', 'list.part', 'tmp', 'trace', 'tree'])

    def test_even_one_that_cannot_be_caught(self):
        run, started, bench = self.begin()
        run.kill()
        self.ended(run)
        bench.close()
        self.gone(started)
        self.assertEqual(self.read('list'), YESTERDAY)

    def test_the_program_ended_by_somebody_else(self):
        run, started, _ = self.begin()
        os.kill(started[-1], signal.SIGKILL)
        status, _, err = self.ended(run)
        self.assertEqual(status, 2)
        self.assertIn('the program was ended by SIGKILL; the list is incomplete', err)
        self.assertEqual(self.read('list'), YESTERDAY)

    def test_one_that_the_caller_ignores_stays_ignored(self):
        run, _, bench = self.begin(preexec_fn=lambda: signal.signal(signal.SIGHUP, signal.SIG_IGN))  # nohup
        run.send_signal(signal.SIGHUP)
        bench.write(self.trace[PIPE + 4096:])
        bench.close()
        self.assertEqual(self.ended(run)[0], 0)
        self.assertEqual(self.read('list'), self.whole)

    def test_a_list_follows_what_a_signal_left(self):
        run, _, bench = self.begin()
        run.terminate()
        self.ended(run)
        bench.close()
        self.assertEqual(self.night(LISTING_TRACE, 'list')[0], 0)
        self.assertFalse(self.there('list.part'))
