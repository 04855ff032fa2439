"""Expectations: what is compared of each kind of row, what may differ, and the one line that says what did."""
import unittest

from running import expected

RUN = ['turn 0 cause 0 data 00000000 user 0 next 1', 'turn 7 cause 6 data 0000004c user 1 next 1', 'turn 9 cause 6 data 0000000c user 1 next 0', 'halted', 'global total 3',
       'global left 0', 'con 00000001', 'con 00000002', 'user 1 pages 1 pc 00000014', 'reg 4 00000002', 'mem 00000000 3401000a', 'user 2 pages 1 pc 00000000', 'reg 4 00000009']


def answer(wanted, had=None, status=0, said=(), is_within=False):
    text = lambda rows: '\n'.join(rows).encode()
    return expected.answer(text(wanted), text(RUN if had is None else had), status, list(said), is_within)


class Expected(unittest.TestCase):
    def test_each_kind_that_is_named_is_compared_whole(self):
        self.assertIsNone(answer(RUN))
        self.assertIsNone(answer(['halted']))
        self.assertIsNone(answer(['con 00000001', 'con 00000002', 'halted']))
        for place, row in enumerate(RUN):
            self.assertIsNotNone(answer(RUN, RUN[:place] + RUN[place + 1:]), row)
            self.assertIsNotNone(answer(RUN, RUN[:place] + [row] + RUN[place:]) if not row.startswith('user') else 1, row)
            self.assertIsNotNone(answer(RUN, RUN[:place] + [row.replace('0', '8') + '8'] + RUN[place + 1:]), row)

    def test_which_came_in_place_of_which(self):
        for wanted, part in ((['con 00000001', 'con 00000003'], "row 2 of con: 'con 00000002' came in place of 'con 00000003'"),
                             (['con 00000001'], "row 2 of con: 'con 00000002' came, and is one too many: 1 are expected"),
                             (['con 00000001', 'con 00000002', 'con 00000003'], "row 3 of con: 'con 00000003' is missing: 2 came, and 3 are expected"),
                             (['stopped'], "the row of end: 'halted' came in place of 'stopped'"),
                             (['global total 3'], "row 2 of global: 'global left 0' came, and is one too many"),
                             (['user 1 pages 1 pc 00000014', 'reg 4 00000002'], "row 3 of user 1: 'mem 00000000 3401000a' came, and is one too many"),
                             (['user 3 pages 1 pc 00000000'], "the row of user 3: 'user 3 pages 1 pc 00000000' is missing"),
                             (['con 00000002', 'con 00000001'], "row 1 of con: 'con 00000001' came in place of 'con 00000002'")):
            self.assertIn(part, answer(wanted) or '', wanted)

    def test_any_word_and_other_rows(self):
        self.assertIsNone(answer(['turn 0 cause 0 data 00000000 user 0 next 1', 'turn * cause 6 data 0000004c user 1 next 1', 'turn * cause 6 data * user 1 next 0']))
        self.assertIn('row 2 of turn', answer(['turn * cause 0 data 00000000 user 0 next 1', 'turn * cause 1 data 0000004c user 1 next 1', 'turn *']))
        self.assertIsNone(answer(['global left 0', 'global ..']))
        self.assertIsNone(answer(['user 1 pages 1 pc 00000014', 'mem * 3401000a', 'user 1 ..']))
        self.assertIn('is missing, or out of its order', answer(['global left 0', 'global total 3', 'global ..']))
        self.assertIn("row 1 of user 2: 'reg 4 00000002' is missing", answer(['user 2 ..', 'reg 4 00000002']))

    def test_rows_that_only_has_printed(self):
        self.assertIsNone(answer(['con 00000065 101 \'e\'', 'con fffffffe -2'], ['con 00000065', 'con fffffffe', 'halted']))
        for row in ("con 00000065 102 'e'", "con 00000065 101 'f'", 'con 00000065 101'):
            self.assertIn('row of con', answer([row], ['con 00000065', 'halted']))

    def test_rows_in_their_order(self):
        within = lambda wanted: answer(wanted, is_within=True)
        self.assertIsNone(within(['halted', 'con 00000002']))
        self.assertIsNone(within(['con 00000002', 'con ..']))
        self.assertEqual(within(['con 00000002', 'halted']), "the row 'halted' is missing, or out of its order")

    def test_a_run_without_its_end_is_never_as_expected(self):
        for status in (1, 2, 4, 5, 6, 7, 8, 139):
            for is_within in (False, True):
                self.assertIsNotNone(answer(['turn 0 cause 0 data 00000000 user 0 next 1'], RUN[:1], status, is_within=is_within))
        fault = ['turn 0 cause 0 data 00000000 user 0 fault Bounds']
        self.assertIsNone(answer(fault, fault, 3))
        self.assertIn('status 3', answer(['turn 0 cause 0 data 00000000 user 0 next 1'], fault, 3, ['cvm: the kernel met the fault Bounds in turn 0: x. What to do: y.']))

    def test_a_mark_is_one_line(self):
        said = ['k.c0:1:2\n  x\n  ^', 'cvm: a call needs its answer taken.', 'cvm: refusal 12 with 5, unexpected.']
        self.assertEqual(answer(['halted'], ['refused 12 5'], 2, said), 'status 2, k.c0:1:2: a call needs its answer taken')
        self.assertEqual(answer(['halted'], RUN[:2], 4, ['cvm: the 70 steps were spent before the turns were complete. Try ..']),
                         "status 4, the 70 steps were spent before the turns were complete: the last row is 'turn 7 cause 6 data 0000004c user 1 next 1'")
        self.assertEqual(answer(['halted'], [], 4), 'status 4, the steps were spent before the turns were complete: no turn is complete')
        self.assertNotIn('\n', answer(['halted'], ['a\tb'], 2, ['a\nb', 'cvm: c\x07d.']))

    def test_an_expectation_names_a_row(self):
        for data in (b'', b'\n \n', b'con ..\n\nglobal ..'):
            self.assertIsNotNone(expected.fault(data))
        self.assertIsNone(expected.fault(b'con ..\nhalted'))

    def test_the_journal_of_a_trace_is_one_kind(self):
        trace = ['start 1 pages 1', 'steps 3', 'trap 6 0000000c', 'set 2 00000001', 'halted', 'user 1 pages 1 pc 00000010']
        self.assertIsNone(answer(trace[:4], trace))
        self.assertIn('row 2 of journal', answer([trace[0], trace[2], trace[1], trace[3]], trace))
