"""Checks of the model of runs: the documents' examples; runs told once more from the schedule alone; what holds of
every report, line and what-if. The test runs themselves are checked by selfcheck_runcases.py."""

import os

import fuldrik
import runs
import selfcheck_runcases
import sleeprun
from engine import NONE, Outcome
from lines import BUFFER_BYTES, Lines
from making import Chance
from runcases_chance import more_cases, some_files
from runcases_made import three_devices
from runmaking import board, lowerings, sheet
from running import Report, Running
from sleeporder import bytes_of

EXAMPLES = os.path.join(os.path.dirname(os.path.dirname(os.path.abspath(__file__))), "examples")

# --- The documents' examples ------------------------------------------------

PRINTED = """clk prepare 0
i2c prepare 0
lcd prepare 0
lcd suspend 0
i2c suspend -110
lcd resume 0
lcd complete 0
i2c complete 0
clk complete 0
= fault 110 i2c suspend 4
"""


def check_examples():
    data, held = three_devices(), sheet(3, {(1, 2): 110})
    assert held == bytes([0] * 5 + [110] + [0] * 6)
    assert [bytes_of(os.path.join(EXAMPLES, "three_devices", name)) for name in sleeprun.FILES] == [data, held]
    assert sleeprun.answer(data, held) == (PRINTED, 0)
    assert sleeprun.answer(data, sheet(3))[0].endswith("\nclk complete 0\n= slept 0 - - 12\n")
    report = Running().run(data, held)
    assert report.entries == [(0, 1, 1, 0), (1, 1, 1, 0), (2, 1, 1, 0), (2, 2, 1, 0), (1, 2, 1, -110),
                              (2, 2, -1, 0), (2, 1, -1, 0), (1, 1, -1, 0), (0, 1, -1, 0)]
    assert report.outcome == (1, 110, 1, 2, 4)
    lines = Lines()
    assert lines.entry(Running().run(data, sheet(3)), 6) == "lcd suspend_late 0"
    longest = Report(["abcdef00"], [], Outcome(1, 255, 0, 2, 127))
    assert lines.outcome(longest) == "= fault 255 abcdef00 suspend 127" and len(lines.outcome(longest)) == BUFFER_BYTES
    # What no run has.
    assert lines.outcome(longest._replace(outcome=Outcome(2, 16, 0, 3, 127))) == "= alarm 16 abcdef00 late 127"
    assert lines.outcome(longest._replace(outcome=Outcome(3, 0, NONE, 4, 200))) == "= cancel 0 - noirq 200"
    assert lines.outcome(longest._replace(outcome=Outcome(0, 0, 0, 0, 4))) == "= slept 0 abcdef00 - 4"


def check_refusal_lines():
    """The line of a refusal in a buffer."""
    for size in (0, 31, 32, 40):
        for refusal in (fuldrik.Refused(3, 7, 0), fuldrik.Refused(3, 5, 4080), fuldrik.Refused(2, 25, 0)):
            buffer, text = bytearray(b"\xEE" * size), refusal.line().encode("ascii")
            try:
                assert Lines().refusal_into(refusal, buffer) == len(text) and size >= 32
                assert buffer == text + b"\xEE" * (size - len(text))
            except fuldrik.Refused as short:
                assert short.line() == "! 3 11 0" and size < 32 and buffer == b"\xEE" * size


# --- A run once more, from the schedule alone -------------------------------

def hindrance(board, sheet, levels, device):
    """What hinders this device now. Up to level 1 every bank leaves the first word on top."""
    level, word, controller = levels[device], board.words[device], board.register
    if sheet[4 * device + level] != 0:            # the byte 4 x d + p - 1 with p = level + 1
        return sheet[4 * device + level]
    if device < controller:
        return 16 if level == 1 and word >= 2 ** 31 else 0
    if controller < device < board.register + board.bus:
        if levels[controller] >= 2 and levels[controller] > level:
            return 5
        return 16 if level == 1 and word % 256 != 0 else 0
    return 0


def told(board, sheet):
    """The entries and the outcome, by walking through the lowerings with the levels kept by hand."""
    levels, entries, schedule = [0] * len(board.names), [], lowerings(board.order)
    taken, outcome = len(schedule), (0, 0, 255, 0, len(schedule))
    for k, (device, phase) in enumerate(schedule):
        errno = hindrance(board, sheet, levels, device)
        entries.append((device, phase, 1, -errno))
        if errno != 0:
            taken, outcome = k, (1, errno, device, phase, k)
            break
        levels[device] += 1
    return entries + [(device, phase, -1, 0) for device, phase in reversed(schedule[:taken])], outcome


class Counting(Running):
    """Counts the steps of the last run."""
    def attempt(self, engine):
        step, self.steps = engine.step, 0

        def counted():
            self.steps += 1
            return step()
        engine.step = counted
        return super().attempt(engine)


# --- What holds of every report ---------------------------------------------

WAYS = {"prepare": (1, 1), "suspend": (2, 1), "suspend_late": (3, 1), "suspend_noirq": (4, 1),
        "complete": (1, -1), "resume": (2, -1), "resume_early": (3, -1), "resume_noirq": (4, -1)}


def read_entry(line, names):
    """The entry that a line tells."""
    name, callback, code = line.split(" ")
    assert str(int(code)) == code
    return (names.index(name), *WAYS[callback], int(code))


def read_outcome(line, names):
    mark, kind, errno, name, phase, taken = line.split(" ")
    assert mark == "=" and str(int(errno)) == errno and str(int(taken)) == taken
    return (["slept", "fault", "alarm", "cancel"].index(kind), int(errno), 255 if name == "-" else names.index(name),
            ["-", "prepare", "suspend", "late", "noirq"].index(phase), int(taken))


def check_lines(report):
    lines = Lines()
    for index, entry in enumerate(report.entries):
        assert len(lines.entry(report, index)) <= BUFFER_BYTES
        assert read_entry(lines.entry(report, index), report.names) == entry
    assert len(lines.outcome(report)) <= BUFFER_BYTES
    assert read_outcome(lines.outcome(report), report.names) == report.outcome


def check_report(report, board, sheet, steps):
    n, (kind, errno, device, phase, taken) = len(board.names), report.outcome
    assert (report.entries, report.outcome) == told(board, sheet)
    assert report.names == board.names
    assert steps <= 8 * n - 1 and len(report.entries) <= 8 * n
    down = [entry for entry in report.entries if entry.direction == 1]
    back = [entry for entry in report.entries if entry.direction == -1]
    assert report.entries == down + back
    assert [entry[:2] for entry in down if entry.code == 0][::-1] == [entry[:2] for entry in back]
    assert taken == len(back)
    assert all(entry.code == 0 for entry in down[:-1] + back)
    if kind == 0:
        assert (errno, device, phase, taken, steps) == (0, 255, 0, 4 * n, 4 * n)
    else:
        assert kind == 1 and errno > 0 and down[-1] == (device, phase, 1, -errno)
        assert phase == 1 + taken // n and steps == 2 * taken + 1


def check_files(data, sheet):
    """One board with its sheet. Tells the number of the refusal, or the steps and n."""
    running = Counting()
    try:
        report = running.run(data, sheet)
    except fuldrik.Refused as refusal:
        return refusal.number, 0, 0
    board = fuldrik.read_board(data)
    check_report(report, board, sheet, running.steps)
    check_lines(report)
    return 0, running.steps, len(board.names)


def check_reports():
    """All boards and sheets of the test runs, and others. Says how many runs were made and how many refused."""
    chance = Chance(705)
    files = {(case.data, case.sheet) for case in runs.CASES} | {some_files(chance)[:2] for _ in range(1000)}
    found = [check_files(*pair) for pair in files]
    assert {number for number, _, _ in found} == set(range(9))
    most = {n: max(steps for _, steps, other in found if other == n) for n in range(1, 65)}
    assert most[1] == 7 and most[3] == 23 and most[64] == 511
    return sum(1 for number, _, _ in found if number == 0), sum(1 for number, _, _ in found if number != 0)


# --- What-ifs ---------------------------------------------------------------

def run_told(data, sheet):
    """The outcome of a run, or the line of its refusal."""
    try:
        return Running().run(data, bytes(sheet)).outcome
    except fuldrik.Refused as refusal:
        return refusal.line()


def check_what_if(data, sheet, device, level, byte):
    """A what-if is the run of a sheet that was changed by hand, or it is refused in the order of the tests."""
    before, told = bytes(sheet), run_told(data, sheet)
    if not isinstance(told, str):
        n = len(sheet) // 4
        if device >= n:
            told = "! 3 12 %d" % device
        elif level not in (1, 2, 3, 4):
            told = "! 3 13 0"
        else:
            place = 4 * device + level - 1
            told = run_told(data, sheet[:place] + bytes([byte]) + sheet[place + 1:])
    lent = bytearray(sheet)
    try:
        found = Running().what_if(data, lent, device, level, byte)
    except fuldrik.Refused as refusal:
        found = refusal.line()
    assert found == told and lent == before
    return isinstance(told, str)


def check_what_ifs():
    """Those of the test runs, others, and every device, level and byte of a small board. Says how many were refused."""
    cases = runs.CASES + list(more_cases(706, 1000))
    made = [(case.data, case.sheet, *case.call) for case in cases if case.letter == "w"]
    small = board((1, 1, 0)), sheet(2, {(1, 2): 5})
    made += [(*small, device, level, byte) for device in range(4) for level in range(7) for byte in range(0, 256, 5)]
    refused = [check_what_if(*call) for call in made]
    return len(refused), sum(refused)


def main():
    check_examples()
    check_refusal_lines()
    print("ok: the examples of runs and lines")
    print("ok: %d runs as the schedule alone tells them, %d refused" % check_reports())
    print("ok: %d what-ifs as runs of changed sheets, %d of them refused" % check_what_ifs())
    selfcheck_runcases.main()
