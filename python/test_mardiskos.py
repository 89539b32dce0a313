"""Tests of the module: python3 -m unittest discover -s python"""

import os
import subprocess
import sys
import threading
import unittest

import mardiskos
from mardiskos import Plan, Refused, Run

HERE = os.path.dirname(os.path.abspath(__file__))
TOP = os.path.dirname(HERE)


def example(name: str) -> bytes:
    with open(os.path.join(TOP, "examples", name + ".record"), "rb") as file:
        return file.read()


TWO_SHELVES = example("two-shelves")


class Calls(unittest.TestCase):
    def refuses(self, number, place, call, *arguments):
        with self.assertRaises(Refused) as caught:
            call(*arguments)
        refusal = caught.exception
        self.assertEqual((refusal.number, refusal.place), (number, place))
        self.assertEqual(str(refusal), f"refused {number} {place}: {refusal.words}")

    def test_check(self):
        self.assertIsNone(mardiskos.check(TWO_SHELVES))
        self.assertIsNone(mardiskos.check(bytearray(TWO_SHELVES)))
        self.refuses(1, 0, mardiskos.check, b"")
        self.refuses(2, 0, mardiskos.check, b"\x20")
        self.refuses(6, 278, mardiskos.check, TWO_SHELVES + b"\0")

    def test_judge(self):
        judged = mardiskos.judge(TWO_SHELVES, [0, 2, 3])
        self.assertEqual(judged, (Run(3, True), Run(2, False), Run(2, False)))
        self.assertEqual(mardiskos.judge(TWO_SHELVES, []).real, Run(0, False))
        self.refuses(9, 2, mardiskos.judge, TWO_SHELVES, [0, 2, 4])
        self.refuses(13, 32768, mardiskos.judge, TWO_SHELVES, [0] * 32769)

    def test_newest(self):
        self.assertEqual(mardiskos.newest(TWO_SHELVES, [0, 2, 1, 3]), ([0, 0], 4, 4))
        self.assertEqual(mardiskos.newest(TWO_SHELVES, [0, 2, 3]), ([1, 2], 2, 2))
        self.assertEqual(mardiskos.newest(TWO_SHELVES, []), ([0, 1], 0, 0))
        self.assertEqual(mardiskos.newest(example("tray"), (0, 1)), ([1, 1, 1], 2, 1))
        self.assertEqual(mardiskos.newest(example("newest"), [0, 2, 3, 4, 0, 1]), ([1, 0, 0], 4, 3))
        self.assertEqual(mardiskos.newest(example("variables-64"), []).values, [0] * 64)
        self.refuses(9, 2, mardiskos.newest, TWO_SHELVES, [0, 2, 4])
        self.refuses(13, 32768, mardiskos.newest, TWO_SHELVES, [0] * 32769)
        self.refuses(1, 0, mardiskos.newest, b"", [])

    def test_forward_and_relax(self):
        self.assertEqual(mardiskos.forward(TWO_SHELVES), ([0, 2, 3], 5))
        self.assertEqual(mardiskos.relax(TWO_SHELVES), [0, 2, 3])
        self.refuses(10, 3, mardiskos.forward, example("two-shelves-without-2"))
        self.refuses(10, 3, mardiskos.relax, example("two-shelves-without-2"))

    def test_cheap_before_low_numbered(self):
        record = example("two-shelves-with-4")
        self.assertEqual(mardiskos.forward(record), ([4, 2, 3], 5))
        self.assertEqual(mardiskos.relax(record), [4, 2, 3])
        self.assertEqual(mardiskos.plan(record), Plan([4, 2, 1, 3], 9, 4, 1, True, [0, 0, 1, 0]))

    def test_gate_set_again(self):
        record = example("gate")
        self.assertEqual(mardiskos.plan(record), Plan([0, 2, 1, 4, 0, 3, 1], 14, 7, 5, True, [0, 0, 1, 0, 1, 1, 1]))
        self.assertEqual(mardiskos.newest(record, [0, 2]), ([1, 1, 0], 2, 2))

    def test_cheapest_way_back(self):
        self.assertEqual(mardiskos.plan(example("detour")), Plan([1, 2, 6, 3, 4], 5, 5, 1, True, [0, 0, 0, 1, 1]))
        self.assertEqual(mardiskos.plan(example("ring")), Plan([0, 1, 2, 8, 6], 1, 5, 1, True, [0, 0, 0, 0, 1]))
        self.assertEqual(mardiskos.plan(example("diamond")), Plan([0, 1, 2, 10, 3, 6], 7, 6, 1, True, [0, 0, 0, 0, 1, 1]))

    def test_searches(self):
        record = example("lift")
        self.assertEqual(mardiskos.plan(record), Plan([0, 2, 3, 4, 2, 1], 11, 6, 6, True, [0, 0, 1, 0, 1, 1]))
        self.assertEqual(mardiskos.repair(record, [0, 2, 4]).searches, 6)
        self.assertEqual(mardiskos.repair(record, [0, 2, 3, 4, 2, 1]).searches, 0)
        self.assertEqual(mardiskos.plan(example("tray")).searches, 0)

    def test_plan(self):
        self.assertEqual(mardiskos.plan(TWO_SHELVES), Plan([0, 2, 1, 3], 10, 4, 1, True, [0, 0, 1, 0]))
        self.assertEqual(mardiskos.plan(example("goal-met")), Plan([], 0, 0, 0, True, []))
        self.assertEqual(mardiskos.plan(example("tray")).runnable, [0])
        self.assertEqual(mardiskos.plan(TWO_SHELVES, room=4).cost, 10)
        self.refuses(11, 3, mardiskos.plan, TWO_SHELVES, 3)
        self.refuses(11, 0, mardiskos.plan, TWO_SHELVES, 0)
        self.refuses(7, 0, mardiskos.plan, example("two-black-effects"))
        self.refuses(8, 0, mardiskos.plan, example("lamp-2"))

    def test_repair(self):
        self.assertEqual(mardiskos.repair(TWO_SHELVES, (0, 2, 3)), Plan([0, 2, 1, 3], 10, 4, 1, True, [0, 0, 1, 0]))
        self.assertEqual(mardiskos.repair(TWO_SHELVES, [0, 2, 1, 3]).marks, [0, 0, 0, 0])
        self.refuses(11, 3, mardiskos.repair, TWO_SHELVES, [0, 2, 3], 3)
        self.refuses(9, 0, mardiskos.repair, TWO_SHELVES, [2, 0, 3])
        self.refuses(9, 0, mardiskos.repair, TWO_SHELVES, [])

    def test_marks(self):
        for name in "two-shelves", "two-shelves-with-4", "gate", "door", "detour", "ring", "diamond", "lift", "tray", "goal-met":
            record = example(name)
            plan = mardiskos.plan(record)
            self.assertEqual(plan.unmarked, mardiskos.relax(record), name)
            self.assertEqual(mardiskos.repair(record, plan.unmarked, len(plan.steps)), plan, name)
            sheet = mardiskos.read_sheet(mardiskos.write_sheet(plan.steps, plan.cost, plan.real, plan.marks))
            self.assertEqual(sheet, (plan.steps, plan.cost, plan.real, plan.marks, 2), name)
            self.assertEqual(sheet.unmarked, plan.unmarked, name)

    def test_sheets_of_edition_1(self):
        sheet = mardiskos.write_sheet([0, 2, 1, 3], 10, True, edition=1)
        self.assertEqual(sheet.hex(), "180020000000500001002018")
        self.assertEqual(mardiskos.write_sheet([0, 2, 1, 3], 10, True, [1, 1, 1, 1, 1], 1), sheet)
        self.assertEqual(mardiskos.read_sheet(sheet), ([0, 2, 1, 3], 10, True, [0, 0, 0, 0], 1))
        self.assertEqual(mardiskos.write_sheet(*mardiskos.read_sheet(sheet)), sheet)
        longest = mardiskos.write_sheet([1023] * 32768, 2**32 - 1, False, [1] * 32768, 1)
        self.assertEqual(len(longest), 40967)
        self.assertEqual(mardiskos.read_sheet(longest), ([1023] * 32768, 2**32 - 1, False, [0] * 32768, 1))
        self.refuses(12, 83, mardiskos.read_sheet, sheet[:-1])
        self.refuses(12, 93, mardiskos.read_sheet, sheet + b"\0")

    def test_sheets_of_edition_2(self):
        sheet = mardiskos.write_sheet([0, 2, 1, 3], 10, True, [0, 0, 1, 0])
        self.assertEqual(sheet.hex(), "28002000000050000050040180")
        self.assertEqual(mardiskos.read_sheet(sheet), ([0, 2, 1, 3], 10, True, [0, 0, 1, 0], 2))
        self.assertEqual(mardiskos.write_sheet(*mardiskos.read_sheet(sheet)), sheet)
        lift = mardiskos.write_sheet([0, 2, 3, 4, 2, 1], 11, True, [0, 0, 1, 0, 1, 1])
        self.assertEqual(lift.hex(), "280030000000580000500c02402802")
        self.assertEqual(mardiskos.read_sheet(lift).marks, [0, 0, 1, 0, 1, 1])
        longest = mardiskos.write_sheet([1023] * 32768, 2**32 - 1, False, [1] * 32768)
        self.assertEqual(len(longest), mardiskos.MAX_SHEET)
        self.assertEqual(mardiskos.read_sheet(longest), ([1023] * 32768, 2**32 - 1, False, [1] * 32768, 2))
        self.refuses(12, 87, mardiskos.read_sheet, sheet[:-1])
        self.refuses(12, 97, mardiskos.read_sheet, sheet + b"\0")
        self.refuses(12, 54, mardiskos.read_sheet, bytes.fromhex("20000800000004"))
        self.refuses(12, 64, mardiskos.read_sheet, bytes.fromhex("2000100000000405"))
        self.refuses(12, 0, mardiskos.read_sheet, b"\x38" + sheet[1:])
        self.refuses(12, 0, mardiskos.read_sheet, b"")
        self.refuses(13, 1, mardiskos.write_sheet, [0, 1024], 0, False)

    def test_marks_and_editions_given(self):
        sheet = mardiskos.write_sheet([0, 2, 1, 3], 10, True, [0, 0, 1, 0])
        for edition in 0, 2, 3, 16, 257, 2**32 - 1:
            for marks in [0, 0, 2], [0, 0, 255, 0, 1], b"\0\0\x80", (False, False, True), iter([0, 0, 1]):
                self.assertEqual(mardiskos.write_sheet([0, 2, 1, 3], 10, True, marks, edition), sheet)
        unmarked = mardiskos.write_sheet([0, 2, 1, 3], 10, True)
        self.assertEqual(mardiskos.read_sheet(unmarked), ([0, 2, 1, 3], 10, True, [0, 0, 0, 0], 2))

    def test_what_fits_nowhere(self):
        for actions in [-1], [65536]:
            self.assertRaises(OverflowError, mardiskos.judge, TWO_SHELVES, actions)
        for cost in -1, 2**32:
            self.assertRaises(OverflowError, mardiskos.write_sheet, [], cost, True)
        for edition in -1, 2**32 + 1:
            self.assertRaises(OverflowError, mardiskos.write_sheet, [], 0, True, [], edition)
        for marks in [-1], [256]:
            self.assertRaises(OverflowError, mardiskos.write_sheet, [], 0, True, marks)
        self.assertRaises(TypeError, mardiskos.check, 35)
        self.assertRaises(TypeError, mardiskos.check, "record")
        self.assertRaises(TypeError, mardiskos.judge, TWO_SHELVES, [0.5])

    def test_threads(self):
        plans = [None] * 4

        def run(i):
            plans[i] = [mardiskos.plan(TWO_SHELVES) for _ in range(20)]

        threads = [threading.Thread(target=run, args=(i,)) for i in range(4)]
        for thread in threads:
            thread.start()
        for thread in threads:
            thread.join()
        self.assertEqual(plans, [[Plan([0, 2, 1, 3], 10, 4, 1, True, [0, 0, 1, 0])] * 20] * 4)


class Header(unittest.TestCase):
    def test_words_and_constants(self):
        with open(os.path.join(TOP, "c", "mardiskos.h")) as file:
            header = file.read()
        self.assertIn("".join(f'        "{words}",\n' for words in mardiskos.WORDS), header)
        self.assertIn(f'#define MARDISKOS_VERSION "{mardiskos.__version__}"\n', header)
        for ours, theirs in (
            ("MAX_STEPS", "MOST_STEPS"),
            ("MAX_VARIABLES", "MOST_VARIABLES"),
            ("MAX_ACTIONS", "MOST_ACTIONS"),
            ("MAX_RECORD", "LONGEST_RECORD"),
            ("MAX_SHEET", "LONGEST_SHEET"),
        ):
            self.assertIn(f"#define MARDISKOS_{theirs} {getattr(mardiskos, ours)}\n", header)


class MissingLibrary(unittest.TestCase):
    def test_message(self):
        environment = dict(os.environ, MARDISKOS_LIB="/nowhere/libmardiskos.so")
        ended = subprocess.run(
            [sys.executable, "-c", "import mardiskos"], cwd=HERE, env=environment, capture_output=True, text=True
        )
        self.assertEqual(ended.returncode, 1)
        self.assertIn("run `sh tools/build`", ended.stderr.splitlines()[-1])


if __name__ == "__main__":
    unittest.main()
