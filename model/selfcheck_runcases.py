"""Checks of the test runs: their bytes, what they are to be answered, what they meet, and that they tell wrong models
apart."""

import fuldrik
import runs
import runs_wrong
import runs_wrong_lines
from reading import Reader
from runmaking import OUTCOME
from running import Running


# --- Reading ----------------------------------------------------------------

class RunsReader(Reader):
    """Reads runs.bin as README.md has it."""

    def case(self):
        letter = self.bytes(1).decode("ascii")
        data, sheet = self.bytes(self.number(2)), self.bytes(self.number(2))
        sizes = {"r": (), "w": (1, 1, 1), "l": (1, 2)}[letter]
        return letter, data, sheet, tuple(self.number(size) for size in sizes)


def check_reading():
    """The bytes of the test runs say the cases that they were made of."""
    data = runs.runs_bytes(runs.CASES)
    reader = RunsReader(data)
    for case in runs.CASES:
        assert reader.case() == (case.letter, case.data, case.sheet, case.call), case.note
    assert reader.place == len(data) < 500000
    return len(data)


# --- What the test runs meet ------------------------------------------------

class Kept(Running):
    """Makes each run once, and keeps its report or its refusal."""

    def __init__(self):
        self.found = {}

    def run(self, data, sheet):
        key = data, bytes(sheet)
        if key not in self.found:
            try:
                self.found[key] = super().run(data, sheet)
            except fuldrik.Refused as refusal:
                self.found[key] = refusal
        if isinstance(self.found[key], fuldrik.Refused):
            raise self.found[key]
        return self.found[key]


def told_of(case, lines):
    """What is met: the letter with the refusal's number, or with what else tells one answer from another."""
    if lines[0].startswith("!"):
        return {(case.letter, int(lines[0].split()[2]))}
    if case.letter == "l":
        size, index = case.call
        return {("l", "outcome" if index == OUTCOME else "entry", size)}
    if case.letter == "w":
        device, level, byte = case.call
        old = case.sheet[4 * device + level - 1]
        return {("w", lines[0].split()[0]), ("byte", byte, "the old one" if byte == old else "another"),
                ("64 cells", device == 63)}
    return place_of(case, lines[-1].split())


def place_of(case, outcome):
    """Of a run its count of devices, and of a fault the phase, whether it came first, last or between in its phase,
    whether the order is that of the numbers, and the errno."""
    board = fuldrik.read_board(case.data)
    n = len(board.names)
    rising = board.order == sorted(board.order)
    met = {("n", n), ("mix", board.register, board.bus, board.quiet)}
    if outcome[1] == "slept":
        return met | {("slept", rising)}
    place = int(outcome[5]) % n
    where = "first" if place == 0 else "last" if place == n - 1 else "between"
    return met | {(outcome[4], where, rising)} | ({(int(outcome[2]), "own")} if not any(case.sheet) else
                                                   {(int(outcome[2]), "cell")})


def wanted():
    met = {(letter, number) for letter in "rwl" for number in range(1, 9)}
    met |= {("w", 12), ("w", 13), ("l", 11), ("l", 25), ("w", "0"), ("w", "1"), ("64 cells", True)}
    met |= {("l", what, size) for what in ("entry", "outcome") for size in (32, 33, 40, 255)}
    met |= {("byte", byte, "another") for byte in (0, 1, 110, 255)}
    met |= {("byte", byte, "the old one") for byte in (0, 110, 255)}
    met |= {("n", n) for n in range(1, 65)} | {("slept", rising) for rising in (True, False)}
    met |= {("mix", r, b, n - r - b) for n in range(1, 6) for r in range(n + 1) for b in range(n + 1 - r)}
    met |= {("mix", 64, 0, 0), ("mix", 0, 64, 0), ("mix", 0, 0, 64)}
    met |= {(phase, where, rising) for phase in ("prepare", "suspend", "late", "noirq")
            for where in ("first", "between", "last") for rising in (True, False)}
    return met | {(5, "own"), (16, "own"), (1, "cell"), (255, "cell")}


def check_coverage(told):
    """Holds the answers to what is to be answered. Says of how many cases that is known."""
    met = set()
    for case, lines in told:
        runs.check_answer(case, lines)
        met |= told_of(case, lines)
    assert wanted() <= met, wanted() - met
    assert sum(len(line) + 1 for _, lines in told for line in lines) < 400000
    return sum(1 for case in runs.CASES if case.intent is not None)


# --- Wrong models -----------------------------------------------------------

def check_wrong(told, kept):
    """Small boards tell wrong runs apart, and lines need the journals of large ones too. Says how many wrong models
    there are."""
    for kind in runs_wrong.WRONG:
        assert any(len(case.data) < 300 and runs.answers(case, kind()) != lines for case, lines in told), kind.__name__
    for kind in runs_wrong_lines.WRONG:
        assert any(runs.answers(case, kept, kind()) != lines for case, lines in told), kind.__name__
    return len(runs_wrong.WRONG + runs_wrong_lines.WRONG)


def main():
    kept = Kept()
    told = [(case, runs.answers(case, kept)) for case in runs.CASES]
    count = check_coverage(told)
    print("ok: %d test runs, %d with what they are to be answered, %d bytes" % (len(told), count, check_reading()))
    print("ok: %d wrong models of runs and lines are told apart" % check_wrong(told, kept))
