"""`python3 choose_folders.py [COUNT]`: chooses, of the first COUNT folders that model/compare makes (100,000), some
that show what the other test cases do not, and prints their numbers for runcases_folders.py and cases_folders.py. It
takes some minutes, and chooses the same ones in every run."""

import sys
from multiprocessing import Pool
from typing import NamedTuple

import boards
import cases_folders
import runcases_folders
import runs
import sleeporder
import sleeprun
from folders import SEED, folder
from folders_classes import shown

FEW = 2                   # how many cases each ending is to have


class Candidate(NamedTuple):
    number: int           # of the folder
    size: int             # bytes of its files and of the model's answer
    marks: frozenset      # what it shows


def marks_of(classes):
    """What is counted: the ending, and what the board is like, apart for boards that are refused and for others."""
    kind = "refused" if classes.kind.startswith("refused") else "run"
    return frozenset([("ending", classes.ending), (classes.kind, classes.size), (classes.kind, classes.mix),
                      (kind, classes.length), (kind, "layout", classes.layout), ("superiors", classes.superiors)])


def of_files(number, data, sheet, text):
    return Candidate(number, len(data) + len(sheet) + len(text), marks_of(shown(data, sheet, text)))


def run_candidate(number, data, sheet):
    return of_files(number, data, sheet, sleeprun.answer(data, sheet)[0])


def board_candidate(number, data):
    return of_files(number, data, b"", sleeporder.answer(data)[0])


def both(number):
    """A folder as a test run and as a test board. A test case has no missing files, but empty ones."""
    data, sheet = (content or b"" for content in folder(SEED, number)[:2])
    return run_candidate(number, data, sheet), board_candidate(number, data)


# --- The choice -------------------------------------------------------------

# The largest candidates of a round, and how much each shows that is new.
ROUNDS = ((500, 3), (1500, 3), (500, 2), (1500, 2), (6000, 3), (500, 1), (1500, 1), (3000, 1), (6000, 1))


def wanted(mark):
    return FEW if mark[0] == "ending" else 1


def chosen(before, candidates, most):
    """The numbers of those that show what was shown too seldom, small ones that show much of it first."""
    counts, numbers = {}, []
    for one in before:
        for mark in one.marks:
            counts[mark] = counts.get(mark, 0) + 1
    for size, new in ROUNDS:
        for one in candidates:
            missing = [mark for mark in one.marks if counts.get(mark, 0) < wanted(mark)]
            if one.size <= size and len(missing) >= new and len(numbers) < most and one.number not in numbers:
                numbers.append(one.number)
                for mark in one.marks:
                    counts[mark] = counts.get(mark, 0) + 1
    return sorted(numbers)


def print_numbers(name, numbers):
    print("%s: %d" % (name, len(numbers)))
    line = ""
    for number in numbers:
        if len(line) + len("%d, " % number) > 110:
            print(line.rstrip())
            line = ""
        line += "%d, " % number
    print(line.rstrip())


def main(arguments):
    count = int(arguments[0]) if arguments else 100000
    with Pool(2) as pool:
        found = pool.map(both, range(count), 200)
    others = [run_candidate(0, case.data, case.sheet) for part in runs.PARTS if part is not runcases_folders
              for case in part.cases() if case.letter == "r"]
    print_numbers("runcases_folders.py", chosen(others, [run for run, _ in found], 150))
    others = [board_candidate(0, case.data) for part in boards.PARTS if part is not cases_folders
              for case in part.cases()]
    print_numbers("cases_folders.py", chosen(others, [board for _, board in found], 100))


if __name__ == "__main__":
    main(sys.argv[1:])
