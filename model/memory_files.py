"""What memory.py runs programs on: folders of all kinds, and test cases of each kind."""

import os

import calls
import histories
import runs
from comparing_folders import named
from making import Chance, Draft, any_links, device
from sleeporder import bytes_of

EXAMPLES = os.path.join(os.path.dirname(os.path.abspath(__file__)), os.pardir, "examples")
OF_EACH_KIND = 2          # how many of the first test cases
BETWEEN = 30              # and one out of how many of the others


def any_board(seed, counts, m, gap=0):
    """A board with so many devices in each bank and m links, names and words by chance, and a gap before the tables."""
    chance = Chance(seed)
    n = sum(counts)
    records = [device(name, word=int.from_bytes(chance.junk(4), "little") & 0xFFFFFF00) for name in chance.names(n)]
    return Draft(records, any_links(chance, n, m) if n > 1 else [], counts, before=chance.junk(gap)).data()


def big_boards():
    """Boards with banks that are empty or full, with as many links as a board may have, and as long as a file may
    be."""
    for seed, counts, m in ((1, (1, 0, 0), 0), (2, (0, 1, 0), 0), (3, (0, 0, 1), 0), (4, (64, 0, 0), 63),
                            (5, (0, 64, 0), 0), (6, (0, 0, 64), 256), (7, (20, 24, 20), 100), (8, (1, 62, 1), 256),
                            (9, (7, 0, 9), 33)):
        yield "devices %d %d %d, %d links" % (*counts, m), sum(counts), any_board(seed, counts, m)
    yield "a file of 4,096 bytes", 40, any_board(10, (10, 20, 10), 200, 4096 - 16 - 40 * 16 - 200 * 4)
    yield "a file of 4,097 bytes", 40, any_board(10, (10, 20, 10), 200, 4097 - 16 - 40 * 16 - 200 * 4)


def sheets(n):
    """One that hinders nowhere, one that hinders halfway, and one that is too short."""
    half = bytearray(4 * n)
    half[2 * n] = 110
    return bytes(4 * n), bytes(half), bytes(4 * n - 1)


def named_contents(in_folders):
    """What stands in a folder, one for each of the program's files, with a note."""
    reads_sheet = len(in_folders.files) == 2
    for name in sorted(os.listdir(EXAMPLES)):
        yield name, tuple(bytes_of(os.path.join(EXAMPLES, name, file)) for file in in_folders.files)
    for note, n, data in big_boards():
        for sheet in sheets(n) if reads_sheet else (b"",):
            yield note, (data, sheet)[:len(in_folders.files)]
    yield "a refusal", in_folders.bad
    for contents in in_folders.strange_contents():
        yield named(contents), contents


CASES = {"bankcases": calls.CASES, "enginecases": histories.CASES, "runcases": runs.CASES}


def some_cases(answered):
    """The first test cases of each shape or letter, and some from all over the file."""
    cases, seen = CASES[answered.crate], {}
    for k, case in enumerate(cases):
        found = seen.setdefault(getattr(case, "letter", None) or case.shape, [])
        if len(found) < OF_EACH_KIND or k % BETWEEN == 0:
            found.append(case)
    return [case for found in seen.values() for case in found]
