"""Lines in buffers of all lengths: short and long ones, entries that are there and entries that are not."""

from making import put
from runcases_made import three_devices
from runcases_refused import DATA, GOOD, T
from runmaking import OUTCOME, board, line, line_of_none, sheet

SIZES = (0, 1, 31, 32, 33, 40, 255)


def expected(size, text):
    """The buffer is tested first."""
    return "! 3 11 0" if size < 32 else text


# --- The documents' example -------------------------------------------------

NINE = """clk prepare 0, i2c prepare 0, lcd prepare 0, lcd suspend 0, i2c suspend -110, lcd resume 0, lcd complete 0,
    i2c complete 0, clk complete 0"""
ALL = """clk prepare 0, i2c prepare 0, lcd prepare 0, lcd suspend 0, i2c suspend 0, clk suspend 0, lcd suspend_late 0,
    i2c suspend_late 0, clk suspend_late 0, lcd suspend_noirq 0, i2c suspend_noirq 0, clk suspend_noirq 0,
    clk resume_noirq 0, i2c resume_noirq 0, lcd resume_noirq 0, clk resume_early 0, i2c resume_early 0,
    lcd resume_early 0, clk resume 0, i2c resume 0, lcd resume 0, lcd complete 0, i2c complete 0, clk complete 0"""


def entries_of(text):
    return [" ".join(entry.split()) for entry in text.split(",")]


def example_cases():
    data, held = three_devices(), sheet(3, {(1, 2): 110})
    nine = entries_of(NINE)
    for size in SIZES:
        for index in (0, 4, 8):
            yield line("clk, i2c, lcd: entry %d in %d bytes" % (index, size), data, held, size, index,
                       expected(size, nine[index]))
        for index in (9, 10, 255, 256, 65534):
            yield line("clk, i2c, lcd: entry %d of 9 in %d bytes" % (index, size), data, held, size, index,
                       expected(size, "! 2 25 0"))
        yield line("clk, i2c, lcd: the outcome in %d bytes" % size, data, held, size, OUTCOME,
                   expected(size, "= fault 110 i2c suspend 4"))
    for size in range(33):
        yield line("clk, i2c, lcd: an entry in %d bytes" % size, data, held, size, 3, expected(size, "lcd suspend 0"))
    for index in (1, 2, 3, 5, 6, 7):
        yield line("clk, i2c, lcd: entry %d" % index, data, held, 32, index, nine[index])
    for index, text in enumerate(entries_of(ALL)):
        yield line("clk, i2c, lcd, all the way: entry %d" % index, data, sheet(3), 32 + index, index, text)
    yield line("clk, i2c, lcd, all the way: entry 24", data, sheet(3), 32, 24, "! 2 25 0")
    yield line("clk, i2c, lcd, all the way: the outcome", data, sheet(3), 32, OUTCOME, "= slept 0 - - 12")


# --- The shortest and the longest -------------------------------------------

def short_cases():
    """One device with a name of one byte."""
    data = board((1, 0, 0), names=["a"])
    lines = {0: "a prepare 0", 3: "a suspend_noirq 0", 4: "a resume_noirq 0", 7: "a complete 0", 8: "! 2 25 0",
             65534: "! 2 25 0", OUTCOME: "= slept 0 - - 4"}
    for size in SIZES:
        for index, text in lines.items():
            yield line("the shortest: %d in %d bytes" % (index, size), data, sheet(1), size, index,
                       expected(size, text))
    for index, text in ((0, "a prepare -1"), (1, "! 2 25 0"), (OUTCOME, "= fault 1 a prepare 0")):
        yield line("nothing is taken: %d" % index, data, sheet(1, {(0, 1): 1}), 32, index, text)


def long_cases():
    """A name of eight bytes, in the place where taken has three digits, and the longest callback."""
    names = ["abcdef00"] + ["abcdef%02d" % number for number in range(1, 64)]
    data, held = board((20, 24, 20), names=names), sheet(64, {(0, 2): 255})
    lines = {0: "abcdef00 prepare 0", 63: "abcdef63 prepare 0", 127: "abcdef00 suspend -255", 128: "abcdef01 resume 0",
             254: "abcdef00 complete 0", 255: "! 2 25 0", 256: "! 2 25 0", 65534: "! 2 25 0",
             OUTCOME: "= fault 255 abcdef00 suspend 127"}
    for index, text in lines.items():
        for size in SIZES if index == OUTCOME else (31, 32, 40):
            yield line("the longest: %d in %d bytes" % (index, size), data, held, size, index, expected(size, text))
    one = board((0, 0, 1), names=["abcdef00"])
    for index, text in ((3, "abcdef00 suspend_noirq -255"), (4, "abcdef00 resume_early 0"), (6, "abcdef00 complete 0"),
                        (7, "! 2 25 0"), (OUTCOME, "= fault 255 abcdef00 noirq 3")):
        for size in SIZES:
            yield line("the longest callback: %d in %d bytes" % (index, size), one, sheet(1, {(0, 4): 255}), size,
                       index, expected(size, text))
    for phase, text in ((1, "= fault 255 abcdef00 prepare 0"), (2, "= fault 255 abcdef00 suspend 127"),
                        (3, "= fault 255 abcdef00 late 191"), (4, "= fault 255 abcdef00 noirq 255")):
        yield line("the outcome of 64 in phase %d" % phase, data, sheet(64, {(0, phase): 255}), 32, OUTCOME, text)


def many_cases():
    """The 512 entries of 64 devices that sleep. An index in one byte, or a signed one, would be another."""
    data = board((0, 0, 64))
    for index, text in ((0, "d0 prepare 0"), (127, "d0 suspend 0"), (128, "d63 suspend_late 0"),
                        (255, "d0 suspend_noirq 0"), (256, "d0 resume_noirq 0"), (257, "d1 resume_noirq 0"),
                        (320, "d0 resume_early 0"), (447, "d63 resume 0"), (448, "d63 complete 0"),
                        (511, "d0 complete 0"), (512, "! 2 25 0"), (513, "! 2 25 0"), (767, "! 2 25 0"),
                        (32767, "! 2 25 0"), (32768, "! 2 25 0"), (65534, "! 2 25 0"), (OUTCOME, "= slept 0 - - 256")):
        yield line("64 that sleep: %d" % index, data, sheet(64), 32, index, text)


# --- Runs that are refused --------------------------------------------------

def wrong_files():
    """What is wrong, the files, and the refusal."""
    yield "no board", b"", sheet(3), "! 3 1 0"
    yield "a wrong mark", put(DATA, T, 0), sheet(3), "! 3 2 %d" % T
    yield "no devices", GOOD.data(counts=(0, 0, 0)), sheet(3), "! 3 3 %d" % T
    yield "no room", GOOD.data(d=0), b"", "! 3 4 %d" % T
    yield "a wrong name", put(DATA, 16, 0), bytes(13), "! 3 5 16"
    yield "a wrong link", put(DATA, 52, 9), sheet(3), "! 3 6 52"
    yield "a circle", put(DATA, 48, 0, 1), b"", "! 3 7 0"
    yield "no sheet", DATA, b"", "! 3 8 0"
    yield "a long sheet", DATA, bytes(13), "! 3 8 0"


def refused_cases():
    """There is no report, so neither buffer nor index is looked at."""
    for what, data, some_sheet, text in wrong_files():
        for size, index in ((0, 0), (31, 65534), (32, 0), (40, OUTCOME), (0, OUTCOME)):
            yield line_of_none("%s, %d in %d bytes" % (what, index, size), data, some_sheet, size, index, text)


def cases():
    for group in (example_cases, short_cases, long_cases, many_cases, refused_cases):
        yield from group()
