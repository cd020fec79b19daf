"""What the command says: refusals in words, usage, odd names."""
import os
import unittest
from unittest import mock

from command import main
from command.tests.support import LISTING_TRACE, Floor
from command.tests.traces import LISTING, SIZES, block, changed, cycle, idle, row, trace


class Refusals(Floor):
    """Standard error has the place of a refusal, from the R line and, where it can be asked again, the trace."""

    def setUp(self):
        super().setUp()
        self.build()

    def refused(self, data, line, words):
        name = self.write('trace', data)
        status, out, err = self.night(name, '-')
        number, cycles = line.split()[1:3]
        said = f'night-list: refused with {number} after {cycles} accepted cycles: '
        self.assertEqual((status, out.splitlines()[-1]), (1, line))
        self.assertTrue(err.startswith(said), err)
        self.assertEqual(err[len(said):].split('; ', 1)[1], words + '\n')
        with open(name, 'rb') as stdin:
            self.assertEqual(self.night('-', '-', stdin=stdin)[2], err)  # by redirection it is a regular file too

    def test_1_names_the_field_and_its_value(self):
        self.refused(trace([], (3, 1, 17, 2, 1, 1, 1)), 'R 1 0 3', 'D is 17, not 1 to 16')
        self.refused(trace([], (3, 1, 2, 2, 1, 1, 3)), 'R 1 0 7', 'the arbiter code is 3, not 1 to 2')

    def test_3_shows_the_row(self):
        rows = [cycle({})] * 9 + [cycle({2: row(4, 1, 0, 0, 0xab)})]
        self.refused(trace(rows), 'R 3 9 2', 'block 2, its cycle 2, row 04 01 00 00 000000ab')

    def test_4_names_the_vc_and_what_came(self):
        sizes = (3, 2, 2, 2, 1, 1, 1)
        body, head = cycle({1: row(2, 1, 0)}), cycle({1: row(1, 1, 0)})
        self.refused(trace([body], sizes), 'R 4 0 1',
                     'B on VC 1, where no packet is open: block 1, its cycle 0, row 02 01 00 00 00000000')
        self.refused(trace([head, head], sizes), 'R 4 1 1',
                     'H on VC 1, where a packet is open: block 1, its cycle 1, row 01 01 00 00 00000000')

    def test_5_names_the_vc(self):
        sizes = (2, 3, 1, 2, 1, 1, 1)
        single = cycle({0: row(4, 2, 1)})
        self.refused(trace([single, single], sizes), 'R 5 1 0', 'VC 2: block 1, its cycle 1, row 04 02 01 00 00000000')

    def test_6_names_the_output_vc(self):
        credit = cycle({1: row(credit=2)})
        self.refused(trace([credit], (3, 2, 2, 2, 1, 1, 1)), 'R 6 0 1', 'output VC 1: block 1, its cycle 0, row 00 00 00 02 00000000')

    def test_7_names_the_block_and_both_checks(self):
        whole = trace([])
        self.refused(changed(whole, 510, 1, seal=False), 'R 7 0 0', 'block 0: its check says 382, its bytes give 126')
        # 1·2 for the kind, 2·7 for the count, 6·2 for the number
        self.refused(changed(idle(20), 2 * 512 + 511, 9, seal=False), 'R 7 7 0', 'block 2: its check says 9, its bytes give 28')

    def test_8_names_the_block_and_what_is_wrong(self):
        one = trace([cycle({})] * 2)
        for data, line, words in (
            (changed(one, 0, 2), 'R 8 0 0', 'block 0: count: byte 1 is 0, not 1 to 7; '
             'place: it is a block of cycles, and the first is the configuration'),
            (changed(one, 512, 9), 'R 8 0 0', 'block 1: kind: byte 0 is 9, not 1, 2 or 3'),
            (changed(one, 512, 1), 'R 8 0 0', 'block 1: count: byte 1 is 2, and only a block of cycles has one; '
             'place: it is a configuration block, and only the first is'),
            (changed(one, 512 + 5, 7), 'R 8 0 0', 'block 1: number: bytes 2 to 5 say 7'),
            (changed(one, 512 + 1, 8), 'R 8 0 0', 'block 1: count: byte 1 is 8, not 1 to 7'),
            (changed(one, 512 + 6, 1), 'R 8 0 0', 'block 1: unused byte: byte 6 is 1'),
            (changed(one, 512 + 136, 5), 'R 8 0 0', 'block 1: unused byte: byte 136 is 5'),
            (changed(one, 15, 1), 'R 8 0 0', 'block 0: unused byte: byte 15 is 1'),
            (changed(one, 1024 + 12, 3), 'R 8 2 0', 'block 2: unused byte: byte 12 is 3'),
            (trace([cycle({})] * 2, total=3), 'R 8 2 0', 'block 2: end total: bytes 8 to 11 say 3, accepted were 2'),
            (one + b'\0', 'R 8 2 0', 'block 3: place: it comes after the end block'),
            (one + one, 'R 8 2 0', 'block 3: place: it comes after the end block'),
            (block(1, 0, 0, bytes(SIZES)) + block(3, 0, 1, bytes(4)) + b'1', 'R 8 0 0', 'block 2: place: it comes after the end block'),
        ):
            with self.subTest(words):
                self.refused(data, line, words)

    def test_9_names_the_block(self):
        whole = idle(20)
        self.refused(b'', 'R 9 0 0', 'the trace is empty')
        self.refused(whole[:700], 'R 9 0 0', 'block 1 has 188 bytes')
        self.refused(whole[:1024], 'R 9 7 0', 'the trace ends after 2 blocks, and none of them is an end block')

    def test_a_long_trace_is_found_again_from_its_marks(self):
        cycles = 240_000  # over 16 million bytes
        data = trace([cycle({})] * cycles)
        at = 512 * (1 + 239_000 // 7) + 8 + 64 * (239_000 % 7)
        self.refused(changed(data, at, 9), 'R 3 239000 0', f'block {1 + 239_000 // 7}, its cycle {239_000 % 7}, row 09 00 00 00 00000000')

    def test_a_pipe_cannot_be_asked_again(self):
        fifo = self.fifo('fifo')
        run = self.start(fifo, '-')
        with open(fifo, 'wb') as bench:
            bench.write(trace([cycle({1: row(2)})]))
        self.assertEqual(self.ended(run)[2], 'night-list: refused with 4 after 0 accepted cycles: '
                         'a body or tail without an open packet, or a head or single inside one, port 1\n')


class Faults(unittest.TestCase):

    def test_a_fault_of_the_command_is_no_refusal(self):
        """Python's own status would be 1: that a list ends in R."""
        with mock.patch.object(main, 'done', side_effect=KeyError('x')), mock.patch.object(main, 'say') as said:
            self.assertEqual(main.told(['trace', 'list']), 2)
        said.assert_called_once_with("the command failed: KeyError: 'x'")


class Usage(Floor):

    def test_words_that_are_not_understood(self):
        for words, said in (
            ((), 'TRACE and LIST are wanted'),
            (('trace',), 'TRACE and LIST are wanted'),
            (('a', 'b', 'c'), 'TRACE and LIST are wanted'),
            (('', 'list'), 'TRACE and LIST are wanted'),
            (('--build', 'trace', 'list'), '--build takes no names'),
            (('--take-over', 'trace', 'list'), 'these options do not go together'),
            (('--quiet', '--progress', 'a', 'b'), 'these options do not go together'),
            (('--build', '--help'), 'these options do not go together'),
            (('--fast', 'trace', 'list'), 'there is no option --fast'),
        ):
            with self.subTest(words):
                status, out, err = self.night(*words)
                self.assertEqual((status, out), (3, ''))
                self.assertTrue(err.startswith(f'night-list: {said}\nusage: night-list '), err)
        self.assertEqual(self.calls(), 0)

    def test_help_that_cannot_be_written(self):
        with open('/dev/full', 'wb') as full:
            self.assertEqual(self.night('--help', stdout=full)[0], 2)

    def test_help_says_every_status(self):
        status, out, err = self.night('--help')
        self.assertEqual((status, err), (0, ''))
        for line in ('status 0  the list ends in E', '1  the list ends in R', '2  the list is incomplete', '3  usage',
                     '4  the program is not built', '5  the tree is not what was built'):
            self.assertIn(line, out)
        self.assertEqual(self.calls(), 0)

    def test_version_of_a_tree_that_is_not_built(self):
        self.assertEqual(self.night('--version'), (0, 'night-list, not built\nthis tree: no commit\n', ''))

    def test_odd_names(self):
        self.build()
        for name in ('-f', '-x', '-n', ' ', 'a\nb', 'ä', b'\xff\xfe', '-', '*', '--quiet', '$(ls)'):
            with self.subTest(name):
                words = ('--', LISTING_TRACE, name) if name == '--quiet' else (LISTING_TRACE, name)
                status, out, err = self.night(*words)
                self.assertEqual((status, err), (0, 'night-list: whole: 6 cycles accepted, 4 flits out\n'))
                if name != '-':
                    with open(os.path.join(os.fsencode(self.at), os.fsencode(name)), encoding='utf-8') as list_:
                        out += list_.read()
                self.assertEqual(out, LISTING)

    def test_an_odd_name_in_a_message(self):
        self.build()
        _, _, err = self.night('no\x1b[31m\nsuch', 'list')
        self.assertEqual(err, "night-list: 'no\\x1b[31m\\nsuch': No such file or directory\n")
