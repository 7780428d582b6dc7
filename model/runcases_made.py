"""Runs made by hand: the documents' example, every mix of banks, words and cells that hinder, and orders of all kinds.

What they are to print is written out here, or told by the place of a device in an order that is written out here."""

from making import Chance
from runmaking import LATE, NOIRQ, PHASES, PREPARE, SUSPEND, board, ends, fault, row, run, sheet, slept


# --- The example of docs/FORMATS.md -----------------------------------------

def three_devices(last=0x500):
    return board((1, 2, 0), {0: 0x21A1B2C3, 1: 0, 2: last}, {2: 1}, [(1, 0)], ["clk", "i2c", "lcd"])


# Device and phase of each lowering of that board.
THREE_DEVICES = [(0, 1), (1, 1), (2, 1), (2, 2), (1, 2), (0, 2), (2, 3), (1, 3), (0, 3), (2, 4), (1, 4), (0, 4)]
THREE_NAMES = ["clk", "i2c", "lcd"]


def example_cases():
    yield run("clk, i2c, lcd: i2c refuses with 110", three_devices(), sheet(3, {(1, 2): 110}), """clk prepare 0,
        i2c prepare 0, lcd prepare 0, lcd suspend 0, i2c suspend -110, lcd resume 0, lcd complete 0, i2c complete 0,
        clk complete 0, = fault 110 i2c suspend 4""")
    yield run("clk, i2c, lcd: all the way", three_devices(), sheet(3), """clk prepare 0, i2c prepare 0, lcd prepare 0,
        lcd suspend 0, i2c suspend 0, clk suspend 0, lcd suspend_late 0, i2c suspend_late 0, clk suspend_late 0,
        lcd suspend_noirq 0, i2c suspend_noirq 0, clk suspend_noirq 0, clk resume_noirq 0, i2c resume_noirq 0,
        lcd resume_noirq 0, clk resume_early 0, i2c resume_early 0, lcd resume_early 0, clk resume 0, i2c resume 0,
        lcd resume 0, lcd complete 0, i2c complete 0, clk complete 0, = slept 0 - - 12""")
    yield run("clk, i2c, lcd: lcd is busy", three_devices(0x501), sheet(3), """clk prepare 0, i2c prepare 0,
        lcd prepare 0, lcd suspend -16, lcd complete 0, i2c complete 0, clk complete 0, = fault 16 lcd suspend 3""")
    yield run("clk, i2c, lcd: clk refuses at once", three_devices(), sheet(3, {(0, 1): 7}),
              "clk prepare -7, = fault 7 clk prepare 0")
    yield run("clk, i2c, lcd: i2c refuses in the last phase", three_devices(), sheet(3, {(1, 4): 5}), """clk prepare 0,
        i2c prepare 0, lcd prepare 0, lcd suspend 0, i2c suspend 0, clk suspend 0, lcd suspend_late 0,
        i2c suspend_late 0, clk suspend_late 0, lcd suspend_noirq 0, i2c suspend_noirq -5, lcd resume_noirq 0,
        clk resume_early 0, i2c resume_early 0, lcd resume_early 0, clk resume 0, i2c resume 0, lcd resume 0,
        lcd complete 0, i2c complete 0, clk complete 0, = fault 5 i2c noirq 10""")
    for taken, (device, phase) in enumerate(THREE_DEVICES):
        for errno in (1, 255):
            yield ends("clk, i2c, lcd: %d at %s in %s" % (errno, THREE_NAMES[device], PHASES[phase]), three_devices(),
                       sheet(3, {(device, phase): errno}), fault(errno, THREE_NAMES[device], phase, taken))


# --- Every mix of banks -----------------------------------------------------

def mixes(n):
    return [(r, b, n - r - b) for r in range(n + 1) for b in range(n + 1 - r)]


def held_by_words(r, b, q):
    """The outcome where each word has its highest and its lowest bit set, and no device needs another: in suspend the
    devices are taken by falling numbers, members and registers are hindered, and the controller is not."""
    n = r + b + q
    if b > 1:
        return fault(16, r + b - 1, SUSPEND, n + q)
    return fault(16, r - 1, SUSPEND, n + q + b) if r > 0 else slept(n)


def mix_cases():
    for n in range(1, 6):
        for mix in mixes(n):
            if n < 4:
                yield ends("%d %d %d: nothing hinders" % mix, board(mix), sheet(n), slept(n))
            yield ends("%d %d %d: words that hinder" % mix, board(mix, dict.fromkeys(range(n), 0x80000001)), sheet(n),
                       held_by_words(*mix))


def last_taken(n, phase, device):
    """What is taken when this device is to be lowered in this phase, where the order is that of the numbers."""
    return device if phase == PREPARE else (phase - 1) * n + n - 1 - device


def size_cases():
    """Every count of devices, in a mix by chance, and a cell somewhere."""
    chance = Chance(701)
    for n in range(1, 65):
        phase, device, errno = 1 + n % 4, chance.below(n), 1 + chance.below(255)
        mix = chance.split(n)
        yield ends("%d devices as %d %d %d: device %d refuses in %s" % (n, *mix, device, PHASES[phase]), board(mix),
                   sheet(n, {(device, phase): errno}), fault(errno, device, phase, last_taken(n, phase, device)))
    for mix in ((7, 0, 0), (0, 8, 0), (0, 0, 16), (31, 0, 0), (0, 32, 0), (10, 11, 12), (0, 0, 63), (64, 0, 0),
                (0, 64, 0), (21, 22, 21)):
        yield ends("%d %d %d: all sleep" % mix, board(mix), sheet(sum(mix)), slept(sum(mix)))


def many_cases():
    """64 devices: the first, one in the middle, and the last of each phase."""
    taken = {(PREPARE, 0): 0, (PREPARE, 31): 31, (PREPARE, 63): 63, (SUSPEND, 63): 64, (SUSPEND, 32): 95,
             (SUSPEND, 0): 127, (LATE, 63): 128, (LATE, 32): 159, (LATE, 0): 191, (NOIRQ, 63): 192, (NOIRQ, 32): 223,
             (NOIRQ, 0): 255}
    for k, ((phase, device), count) in enumerate(taken.items()):
        mix = ((64, 0, 0), (0, 64, 0), (0, 0, 64), (20, 24, 20))[k % 4]
        yield ends("64: device %d refuses in %s" % (device, PHASES[phase]), board(mix),
                   sheet(64, {(device, phase): 255}), fault(255, device, phase, count))


# --- Words that hinder ------------------------------------------------------

def word_cases():
    for word, line in ((0x80000000, fault(16, 0, SUSPEND, 3)), (0xFFFFFFFF, fault(16, 0, SUSPEND, 3)),
                       (0x80000001, fault(16, 0, SUSPEND, 3)), (0x7FFFFFFF, slept(2)), (0x40000000, slept(2)),
                       (0x0000FFFF, slept(2)), (0, slept(2)), (0x00008000, slept(2)), (0x00000080, slept(2))):
        yield ends("a register with the word %08X" % word, board((1, 0, 1), {0: word}), sheet(2), line)
    for word, line in ((0x100, slept(3)), (0x80000000, slept(3)), (0xFFFFFF00, slept(3)), (0, slept(3)),
                       (0x1, fault(16, 2, SUSPEND, 3)), (0x80, fault(16, 2, SUSPEND, 3)),
                       (0xFF, fault(16, 2, SUSPEND, 3)), (0xFFFFFFFF, fault(16, 2, SUSPEND, 3)),
                       (0x21A1B210, fault(16, 2, SUSPEND, 3))):
        yield ends("a member with the word %08X" % word, board((1, 2, 0), {2: word}), sheet(3), line)
    for word in (0x1, 0xFF, 0xFFFFFFFF):
        yield ends("a controller with the word %08X" % word, board((1, 2, 1), {1: word}), sheet(4), slept(4))
        yield ends("a controller alone with the word %08X" % word, board((0, 1, 0), {0: word}), sheet(1), slept(1))
        yield ends("quiet ones with the word %08X" % word, board((0, 0, 2), {0: word, 1: word}), sheet(2), slept(2))
    yield ends("the controller is the first on the bus, not device 0", board((2, 2, 0), {0: 1, 1: 1, 2: 1, 3: 0x100}),
               sheet(4), slept(4))
    yield ends("a register and a member, the member first", board((1, 2, 0), {0: 0x80000000, 2: 5}), sheet(3),
               fault(16, 2, SUSPEND, 3))
    yield ends("a register and a member, the register first", board((1, 2, 0), {0: 0x80000000, 2: 5}, links=[(0, 2)]),
               sheet(3), fault(16, 0, SUSPEND, 3))


# --- Controllers ------------------------------------------------------------

def two_on_bus(links=(), parents=None, word=0x100):
    return board((0, 2, 0), {1: word}, parents, links, ["ctl", "m"])


def controller_cases():
    """A member that stands before its controller in the order is held once the controller is suspended."""
    yield ends("the member needs its controller", two_on_bus([(1, 0)]), sheet(2), slept(2))
    yield run("the controller needs its member", two_on_bus([(0, 1)]), sheet(2), """m prepare 0, ctl prepare 0,
        ctl suspend 0, m suspend -5, ctl resume 0, ctl complete 0, m complete 0, = fault 5 m suspend 3""")
    yield ends("the controller's parent is its member", two_on_bus(parents={0: 1}), sheet(2), fault(5, "m", SUSPEND, 3))
    yield ends("5 before 16", two_on_bus([(0, 1)], word=0x101), sheet(2), fault(5, "m", SUSPEND, 3))
    yield ends("16 without 5", two_on_bus(word=0x101), sheet(2), fault(16, "m", SUSPEND, 2))
    yield ends("neither needs the other, and the controller is late in the order",
               board((1, 2, 1), None, {1: 3}, (), ["r", "ctl", "m", "q"]), sheet(4), fault(5, "m", SUSPEND, 6))
    yield ends("neither needs the other, and the controller is early", board((1, 2, 1), None, {2: 3}), sheet(4),
               slept(4))
    yield ends("a member needs its controller through a register", board((1, 2, 0), None, {0: 1}, [(2, 0)]), sheet(3),
               slept(3))
    for last, line in ((0x100, fault(5, "m1", SUSPEND, 5)), (0x101, fault(16, "m2", SUSPEND, 3))):
        yield ends("a member before and one behind the controller, %X" % last,
                   board((0, 3, 0), {2: last}, None, [(0, 1), (2, 0)], ["ctl", "m1", "m2"]), sheet(3), line)
    held = two_on_bus([(0, 1)])
    for found, line in (({(1, 2): 110}, fault(110, "m", SUSPEND, 3)), ({(0, 2): 255}, fault(255, "ctl", SUSPEND, 2)),
                        ({(1, 3): 9}, fault(5, "m", SUSPEND, 3)), ({(1, 1): 1}, fault(1, "m", PREPARE, 0)),
                        ({(0, 3): 9, (0, 4): 9}, fault(5, "m", SUSPEND, 3)),
                        ({(0, 1): 8}, fault(8, "ctl", PREPARE, 1))):
        yield ends("the controller needs its member, and cells %s" % found, held, sheet(2, found), line)
    yield ends("a cell before a busy member's own errno", two_on_bus(word=0x101), sheet(2, {(1, 2): 3}),
               fault(3, "m", SUSPEND, 2))
    yield ends("a cell for a level that a busy member does not reach", two_on_bus(word=0x101), sheet(2, {(1, 3): 3}),
               fault(16, "m", SUSPEND, 2))


# --- Cells ------------------------------------------------------------------

MIXED = [3, 1, 4, 0, 2]
MIXED_BOARD = board((2, 2, 1), links=row(MIXED), parents={1: 3})      # the controller, 2, stands last


def cell_cases():
    """Members of this board stand before their controller, so that 3 is held by it; a cell of 3 comes before that."""
    chain = board((5, 0, 0), links=row(MIXED))
    for phase in PHASES:
        for place, device in enumerate(MIXED):
            taken = place if phase == PREPARE else (phase - 1) * 5 + 4 - place
            yield ends("order 3 1 4 0 2: device %d in %s" % (device, PHASES[phase]), chain,
                       sheet(5, {(device, phase): 10 * phase + place}), fault(10 * phase + place, device, phase, taken))
    yield ends("order 3 1 4 0 2, controller last", MIXED_BOARD, sheet(5), fault(5, 3, SUSPEND, 9))
    yield ends("order 3 1 4 0 2, controller last, and a cell", MIXED_BOARD, sheet(5, {(3, 2): 77}),
               fault(77, 3, SUSPEND, 9))
    for found, line in (
            ({(0, 4): 9, (2, 3): 8}, fault(8, 2, LATE, 6)), ({(0, 1): 5, (2, 1): 6}, fault(5, 0, PREPARE, 0)),
            ({(1, 2): 5, (2, 2): 6}, fault(6, 2, SUSPEND, 3)), ({(0, 2): 1, (2, 4): 255}, fault(1, 0, SUSPEND, 5)),
            ({(0, 4): 1, (1, 4): 255}, fault(255, 1, NOIRQ, 10)), ({(2, 1): 255, (0, 2): 1}, fault(255, 2, PREPARE, 2)),
            ({(1, 1): 1, (1, 2): 2, (1, 3): 3, (1, 4): 4}, fault(1, 1, PREPARE, 1)),
            ({(1, 2): 2, (1, 3): 3, (1, 4): 4}, fault(2, 1, SUSPEND, 4)),
            ({(1, 3): 3, (1, 4): 4}, fault(3, 1, LATE, 7)), ({(1, 4): 4}, fault(4, 1, NOIRQ, 10)),
            ({(1, 3): 255, (2, 4): 1}, fault(255, 1, LATE, 7))):
        yield ends("cells %s" % found, board((1, 1, 1)), sheet(3, found), line)
    for byte in (1, 255):
        yield ends("all cells %d" % byte, board((1, 1, 1)), bytes([byte]) * 12, fault(byte, 0, PREPARE, 0))
        yield ends("all cells of 64 but those for level 1 are %d" % byte, board((20, 24, 20)),
                   bytes([0, byte, byte, byte]) * 64, fault(byte, 63, SUSPEND, 64))


# --- Orders -----------------------------------------------------------------

def order_cases():
    four = board((2, 1, 1), None, {2: 0}, [(0, 3)])
    yield run("order 1 3 0 2: 3 refuses in suspend", four, sheet(4, {(3, 2): 110}), """d1 prepare 0, d3 prepare 0,
        d0 prepare 0, d2 prepare 0, d2 suspend 0, d0 suspend 0, d3 suspend -110, d0 resume 0, d2 resume 0,
        d2 complete 0, d0 complete 0, d3 complete 0, d1 complete 0, = fault 110 d3 suspend 6""")
    yield ends("order 1 3 0 2: 3 refuses in prepare", four, sheet(4, {(3, 1): 6, (0, 1): 7}), fault(6, 3, PREPARE, 1))
    yield ends("order 1 3 0 2: all sleep", four, sheet(4), slept(4))
    for order, parents, links in (([1, 2, 3, 4, 5, 0], {0: 5}, ()), ([4, 0, 1, 2, 3], {0: 4}, [(1, 4), (2, 0), (3, 1)]),
                                  ([2, 1, 0], {0: 1, 1: 2}, ()), ([2, 0, 1], None, row([2, 0, 1])),
                                  ([0, 2, 1, 3], None, [(1, 2), (3, 1), (3, 2)])):
        n, name = len(order), " ".join(map(str, order))
        for kind in ((n, 0, 0), (0, 0, n)):
            data = board(kind, None, parents, links)
            yield ends("order %s: the last in suspend" % name, data, sheet(n, {(order[0], 2): 4}),
                       fault(4, order[0], SUSPEND, 2 * n - 1))
            yield ends("order %s: the second in prepare" % name, data, sheet(n, {(order[1], 1): 4}),
                       fault(4, order[1], PREPARE, 1))
            yield ends("order %s: the first in late" % name, data, sheet(n, {(order[-1], 3): 4}),
                       fault(4, order[-1], LATE, 2 * n))
    falling = board((64, 0, 0), None, {device: device + 1 for device in range(63)})
    yield ends("64 in falling order: device 10 in prepare", falling, sheet(64, {(10, 1): 2}), fault(2, 10, PREPARE, 53))
    yield ends("64 in falling order: device 10 in suspend", falling, sheet(64, {(10, 2): 2}), fault(2, 10, SUSPEND, 74))


def cases():
    for group in (example_cases, mix_cases, size_cases, many_cases, word_cases, controller_cases, cell_cases,
                  order_cases):
        yield from group()
