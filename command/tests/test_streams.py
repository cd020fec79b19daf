"""Streams: standard input and output by any name, pipes, what breaks, what does not block, what is closed."""
import os
import signal

from command.tests.support import LISTING_TRACE, PIPE, Floor
from command.tests.traces import LISTING, busy, idle

WHOLE = 'night-list: whole: 6 cycles accepted, 4 flits out\n'


class Streams(Floor):

    def setUp(self):
        super().setUp()
        self.build()

    def listing(self):
        """The listing's trace as a standard input."""
        file = open(LISTING_TRACE, 'rb')
        self.addCleanup(file.close)
        return file

    def test_standard_input_and_output(self):
        self.assertEqual(self.night(LISTING_TRACE, '-'), (0, LISTING, WHOLE))
        self.assertEqual(self.night('-', '-', stdin=self.listing()), (0, LISTING, WHOLE))
        self.assertEqual(self.night('-', 'list', stdin=self.listing()), (0, '', WHOLE))
        self.assertEqual(self.read('list'), LISTING)

    def test_standard_output_by_its_device_name(self):
        for name in ('/dev/stdout', '/dev/fd/1', '/proc/self/fd/1'):
            self.assertEqual(self.night(LISTING_TRACE, name), (0, LISTING, WHOLE))
            self.write('file', '')
            with open(os.path.join(self.at, 'file'), 'ab') as file:
                file.write(b'a heading\n')
                file.flush()
                self.assertEqual(self.night('/dev/stdin', name, stdin=self.listing(), stdout=file), (0, '', WHOLE))
            self.assertEqual(self.read('file'), 'a heading\n' + LISTING)

    def test_a_pipe_by_its_name(self):
        fifo = self.fifo('fifo')
        run = self.start(LISTING_TRACE, fifo)
        with open(fifo, encoding='utf-8') as list_:
            self.assertEqual(list_.read(), LISTING)
        self.assertEqual(self.ended(run), (0, '', WHOLE))
        self.assertFalse(self.there('fifo.part'))

    def test_an_empty_and_a_long_trace(self):
        status, out, _ = self.night(os.devnull, '-')
        self.assertEqual((status, out), (1, 'R 9 0 0\n'))
        self.assertEqual(self.night(self.write('trace', idle(50_000)), '-')[:2], (0, 'E 50000 0\n'))
        trace, whole = busy(5000)
        self.assertEqual(self.night(self.write('trace', trace), '-')[:2], (0, whole))

    def test_a_reader_that_goes_away(self):
        trace, _ = busy(5000)
        for ignored in (True, False):  # systemd starts its services with SIGPIPE ignored
            run = self.start(self.write('trace', trace), '-', preexec_fn=lambda: signal.signal(signal.SIGPIPE, how_to(ignored)))
            os.read(run.stdout.fileno(), 10)
            run.stdout.close()
            run.stdout = None
            status, _, err = self.ended(run)
            self.assertEqual(status, 2, err)
            self.assertIn('standard output: Broken pipe; the list is incomplete', err)
            self.assertNotIn('whole:', err)

    def test_streams_that_do_not_block(self):
        trace, whole = busy(5000)
        (in_read, in_write), (out_read, out_write) = os.pipe(), os.pipe()
        os.set_blocking(in_read, False)
        os.set_blocking(out_write, False)
        run = self.start('-', '-', stdin=in_read, stdout=out_write)
        os.close(in_read)
        os.close(out_write)
        with open(out_read, 'rb') as list_:
            with open(in_write, 'wb', buffering=0) as bench:
                bench.write(trace[:PIPE + 512])  # it has found its input empty and waited; now it has read, and will find it empty again
                bench.write(trace[PIPE + 512:])
            self.assertEqual(list_.read().decode(), whole)
        self.assertEqual(self.ended(run)[0], 0)

    def test_closed_descriptors(self):
        for closed, words in ((0, 'standard input: Bad file descriptor'), (1, 'standard output: Bad file descriptor')):
            status, _, err = self.night('-' if closed == 0 else LISTING_TRACE, '-', preexec_fn=lambda: os.close(closed))
            self.assertEqual(status, 2, err)
            self.assertIn(words, err)

    def test_a_message_never_lands_in_a_list(self):
        for trace, status, whole in ((LISTING_TRACE, 0, LISTING), (os.devnull, 1, 'R 9 0 0\n')):
            for closed in ((2,), (0, 2), (0, 1, 2)):
                self.assertEqual(self.night(trace, 'list', preexec_fn=lambda: [os.close(number) for number in closed])[0], status)
                self.assertEqual(self.read('list'), whole)
            self.assertEqual(self.night(trace, '-', preexec_fn=lambda: os.close(2))[:2], (status, whole))

    def test_a_descriptor_that_is_not_there(self):
        for name in ('/dev/fd/3', '/proc/self/fd/999999999'):
            status, _, err = self.night(LISTING_TRACE, name)
            self.assertEqual((status, err), (2, f'night-list: {name}: Bad file descriptor\n'))
        for name in ('/dev/fd/99999999999', '/dev/fd/\u00b2', '/dev/fd/x'):
            status, _, err = self.night(LISTING_TRACE, name)
            self.assertEqual((status, err.count('\n')), (2, 1))

    def test_a_list_longer_than_pipes_and_its_trace(self):
        trace, whole = busy(14_000)
        self.assertGreater(len(whole), 4 * PIPE)
        for out in ('-', 'list'):
            self.assertEqual(self.night(self.write('trace', trace), out)[0], 0)
        self.assertEqual(self.read('list'), whole)


def how_to(ignored):
    return signal.SIG_IGN if ignored else signal.SIG_DFL
