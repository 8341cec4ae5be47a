"""Random sessions, from fixed seeds: what is put back leaves everything as it was."""

import os
import random
import unittest
from typing import Callable, List

from tests.support import PROGRAM
from workbook_client import Array, Domain, Refusal, Workbook


SEEDS = int(os.environ.get("WORKBOOK_SEEDS", "20"))


class Enough(Exception):
    """Leaves a block of `trying`."""


def step(wb: Workbook, chance: random.Random) -> None:
    """One random change, undo, redo or cascade; a refusal is fine."""
    D, S, A, B, C = (Domain(wb, "D"), Domain(wb, "S"), *(Array(wb, name) for name in "ABC"))
    i, j, v = chance.randint(0, 7), chance.randint(0, 7), chance.randint(-9, 9)
    k = chance.randint(1, 1 + len(wb.history()))
    acts: List[Callable[[], object]] = [
        lambda: A.set(i, v), lambda: A.copy(i, B, j, v), lambda: B.copy(j, C, i), lambda: C.set(i, v),
        lambda: A.fill(range(i, j), v), lambda: B.fill_all(v), lambda: A.assign(B),
        lambda: D.reshape(range(i, j)), lambda: D.expand(chance.choice((-1, 1))), lambda: D.remap("cyclicDist(1, [2])"),
        lambda: S.add(i), lambda: S.remove(i), lambda: C.drop(), lambda: wb.array("C", "S"),
        lambda: wb.undo(), lambda: wb.undo(k), lambda: wb.redo(k), lambda: wb.redo(k), lambda: wb.cascade(k),
    ]
    try:
        chance.choice(acts)()
    except Refusal:
        pass


def begin(wb: Workbook) -> None:
    wb.domain("D", range(1, 6))
    wb.sparse("S", "D")
    for name, over in (("A", "D"), ("B", "D"), ("C", "S")):
        wb.array(name, over)


class Chance(unittest.TestCase):
    def test_trying_puts_everything_back(self):
        for seed in range(SEEDS):
            chance = random.Random(seed)
            with self.subTest(seed), Workbook.run(PROGRAM) as wb:
                begin(wb)
                for _ in range(15):
                    step(wb, chance)
                text, on = wb.print_text(), [wb.in_force(e.number) for e in wb.history()]
                with self.assertRaises(Enough), wb.trying():
                    for _ in range(25):
                        step(wb, chance)
                    raise Enough
                self.assertEqual(wb.print_text(), text)
                now = [wb.in_force(e.number) for e in wb.history()]
                self.assertEqual(now, on + [False] * (len(now) - len(on)))
                self.assertEqual(now, [e.was_in_force for e in wb.history()])

    def test_dependents_are_who_a_cascade_takes_along(self):
        for seed in range(SEEDS):
            chance = random.Random(seed)
            with self.subTest(seed), Workbook.run(PROGRAM) as wb:
                begin(wb)
                for _ in range(30):
                    step(wb, chance)
                text = wb.print_text()
                k = chance.choice([e.number for e in wb.history() if e.was_in_force] or [0])
                if not k:
                    continue
                found = wb.dependents(k)
                self.assertEqual(wb.print_text(), text)
                self.assertEqual(wb.blocker(k), min(found, default=None))
                with self.assertRaises(Enough), wb.trying():
                    self.assertEqual(sorted(wb.cascade(k).undone), [k, *found])
                    raise Enough
                self.assertEqual(wb.print_text(), text)

    def test_a_rebuilt_workbook_is_the_same(self):
        for seed in range(SEEDS):
            chance = random.Random(seed)
            with self.subTest(seed), Workbook.run(PROGRAM) as wb, Workbook.run(PROGRAM) as other:
                begin(wb)
                for _ in range(30):
                    step(wb, chance)
                other.load(wb.print_text())
                self.assertEqual(other.print_text(), wb.print_text())


if __name__ == "__main__":
    unittest.main()
