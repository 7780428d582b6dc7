"""Checks of the model: the documents' examples, all small graphs by brute force, the banks (selfcheck_banks.py,
selfcheck_samebanks.py, selfcheck_calls.py), the engine (selfcheck_engine.py), runs (selfcheck_run.py), and the folders
for comparisons (selfcheck_folders.py)."""

import itertools
import os
import tempfile

import boards
import fuldrik
import selfcheck_banks
import selfcheck_calls
import selfcheck_engine
import selfcheck_folders
import selfcheck_run
import selfcheck_samebanks
import sleeporder
from making import Draft, device, link, plain_devices, plain_links

# The example in docs/FORMATS.md, line by line.
THREE_DEVICES = bytes.fromhex(
    "63 6C 6B 00 00 00 00 00  FF 00 00 00  C3 B2 A1 21"
    "69 32 63 00 00 00 00 00  FF 00 00 00  00 00 00 00"
    "6C 63 64 00 00 00 00 00  01 00 00 00  00 05 00 00"
    "01 00 00 00"
    "53 4C 50 42 01 01 02 00  01 00 00 00  34 00 04 00")


def check_three_devices():
    """The example in docs/FORMATS.md, read and built."""
    assert len(THREE_DEVICES) == 68
    board = fuldrik.read_board(THREE_DEVICES)
    assert board == fuldrik.Board(
        names=["clk", "i2c", "lcd"], parents=[None, None, 1],
        words=[0x21A1B2C3, 0, 0x00000500], register=1, bus=2, quiet=0,
        links=[(1, 0)], superiors=[[], [0], [1]], order=[0, 1, 2])
    assert fuldrik.listing(board) == "clk\ni2c clk\nlcd i2c\n"
    built = Draft([device(b"clk", word=0x21A1B2C3), device(b"i2c"), device(b"lcd", 1, 0x500)],
                  [link(1, 0)], (1, 2, 0))
    assert built.data() == THREE_DEVICES


def check_four_devices():
    """The example of an order in docs/RULES.md."""
    data = Draft(plain_devices(4, [255, 255, 0, 255]), plain_links([(0, 3)])).data()
    assert fuldrik.read_board(data).order == [1, 3, 0, 2]


def check_named_device():
    """The example of a refusal in docs/RULES.md, which names device 0."""
    data = Draft(plain_devices(3), plain_links([(1, 2), (2, 1), (0, 2)])).data()
    try:
        fuldrik.read_board(data)
    except fuldrik.Refused as refusal:
        assert (refusal.layer, refusal.number, refusal.place) == (3, 7, 0)
        assert refusal.line() == "! 3 7 0"
    else:
        raise AssertionError("a circle was not refused")


def check_program():
    """What is printed, and the status, for a board, a refusal, and no file."""
    assert sleeporder.answer(THREE_DEVICES) == ("clk\ni2c clk\nlcd i2c\n", 0)
    assert sleeporder.answer(THREE_DEVICES[1:]) == ("! 3 4 51\n", 1)
    with tempfile.TemporaryDirectory() as folder:
        missing = sleeporder.bytes_of(os.path.join(folder, "board.bin"))
        assert sleeporder.answer(missing) == ("! 3 1 0\n", 1)
        assert sleeporder.answer(sleeporder.bytes_of(folder)) == ("! 3 1 0\n", 1)


def superiors_first(row, superiors):
    """Whether each superior stands before its dependents in this row."""
    return all(row.index(s) < row.index(d) for d in row for s in superiors[d])


def picked(rows):
    """The row that has, place by place, the least number that is left to choose."""
    for place in range(len(rows[0])):
        least = min(row[place] for row in rows)
        rows = [row for row in rows if row[place] == least]
    assert len(rows) == 1
    return list(rows[0])


def has_long_chain(device, superiors, steps):
    """Whether some chain from this device goes on for that many steps."""
    if steps == 0:
        return True
    return any(has_long_chain(s, superiors, steps - 1) for s in superiors[device])


def check_graph(n, superiors):
    """One graph by brute force; says whether it has an order."""
    rows = [row for row in itertools.permutations(range(n)) if superiors_first(row, superiors)]
    order = fuldrik.order_of(n, superiors)
    assert order == (picked(rows) if rows else None)
    # A chain of n steps has n + 1 members, so one comes twice and it need not end.
    endless = [d for d in range(n) if has_long_chain(d, superiors, n)]
    assert fuldrik.endless_devices(n, superiors) == endless
    assert (order is None) == bool(endless)
    try:
        assert fuldrik.order_or_refusal(n, superiors) == order
    except fuldrik.Refused as refusal:
        assert (refusal.number, refusal.place) == (7, endless[0])
    return order is not None


def check_graphs(n):
    """All graphs of n devices: how many have an order, and how many do not."""
    pairs = list(itertools.permutations(range(n), 2))
    counts = [0, 0]
    for chosen in itertools.product((False, True), repeat=len(pairs)):
        links = [pair for pair, taken in zip(pairs, chosen) if taken]
        superiors = [fuldrik.superiors_of(d, [None] * n, links) for d in range(n)]
        counts[0 if check_graph(n, superiors) else 1] += 1
    return counts


def check_boards():
    """The test boards get the verdicts they were made for; orders are orders."""
    boards.check_intents()
    count = 0
    for case in boards.CASES:
        if boards.verdict(case.data)[0] == "read":
            board = fuldrik.read_board(case.data)
            assert sorted(board.order) == list(range(len(board.names)))
            assert superiors_first(board.order, board.superiors)
            count += 1
    assert len(boards.boards_bytes()) < 450000
    return count


def main():
    check_three_devices()
    check_four_devices()
    check_named_device()
    check_program()
    print("ok: the examples of the documents")
    for n in range(1, 5):
        print("ok: %d devices, %d graphs with an order, %d without" % (n, *check_graphs(n)))
    read = check_boards()
    print("ok: %d boards, %d of them read, %d bytes"
          % (len(boards.CASES), read, len(boards.boards_bytes())))
    for part in (selfcheck_banks, selfcheck_samebanks, selfcheck_calls, selfcheck_engine, selfcheck_run,
                 selfcheck_folders):
        part.main()
    print("ok")


if __name__ == "__main__":
    main()
