"""What-ifs: every cell of a few boards, and what is refused, in the order of the tests."""

from bankparts import cells
from making import put
from runcases_made import MIXED, THREE_DEVICES, three_devices
from runcases_refused import DATA, GOOD, T
from runmaking import NOIRQ, PHASES, PREPARE, SUSPEND, board, row, sheet, what_if

# Device and phase of each lowering of the boards below.
ONE = [(0, 1), (0, 2), (0, 3), (0, 4)]
FOUR = [(1, 1), (3, 1), (0, 1), (2, 1), (2, 2), (0, 2), (3, 2), (1, 2), (2, 3), (0, 3), (3, 3), (1, 3), (2, 4), (0, 4),
        (3, 4), (1, 4)]
FIVE = [(3, 1), (1, 1), (4, 1), (0, 1), (2, 1), (2, 2), (0, 2), (4, 2), (1, 2), (3, 2), (2, 3), (0, 3), (4, 3), (1, 3),
        (3, 3), (2, 4), (0, 4), (4, 4), (1, 4), (3, 4)]


# --- Every cell -------------------------------------------------------------

def outcome(kind, errno, device, phase, taken):
    return "%d %d %d %d %d" % (kind, errno, device, phase, taken)


def first_of(lowerings, found, own):
    """The outcome where these cells and the devices' own hindrances are all that hinders: that of the first lowering
    that one of them meets. A cell comes before what is the device's own."""
    for taken, lowering in enumerate(lowerings):
        errno = found.get(lowering) or own.get(lowering)
        if errno:
            return outcome(1, errno, *lowering, taken)
    return outcome(0, 0, 255, 0, len(lowerings))


def boards():
    """Note, board file, lowerings, cells, and own hindrances by device and phase."""
    yield "clk, i2c, lcd", three_devices(), THREE_DEVICES, {(1, 2): 110}, {}
    yield "clk, i2c, lcd, busy", three_devices(0x501), THREE_DEVICES, {}, {(2, 2): 16}
    yield "one device", board((1, 0, 0)), ONE, {}, {}
    yield "one device that refuses last", board((0, 1, 0)), ONE, {(0, 4): 255}, {}
    yield "one device with all cells", board((0, 0, 1)), ONE, {(0, phase): phase for phase in PHASES}, {}
    yield ("order 1 3 0 2, and 1 is held", board((2, 1, 1), {1: 0xFFFFFFFF}, {2: 0}, [(0, 3)]), FOUR,
           {(0, 3): 4, (3, 4): 5}, {(1, 2): 16})
    yield ("order 3 1 4 0 2, and a cell for each phase", board((1, 1, 3), links=row(MIXED)), FIVE,
           {(2, 1): 1, (4, 2): 2, (3, 3): 3, (0, 4): 4}, {})
    yield ("order 3 1 4 0 2, and 3 is held by its controller", board((2, 2, 1), links=row(MIXED)), FIVE, {(1, 3): 9},
           {(3, 2): 5})


def every_cell_cases():
    for note, data, lowerings, found, own in boards():
        n = len(lowerings) // 4
        for device in range(n):
            for phase in PHASES:
                old = found.get((device, phase), 0)
                for byte in sorted({0, 1, 110, 255, old}):
                    yield what_if("%s: %d for %d, which is %d" % (note, byte, device, old), data, sheet(n, found),
                                  device, phase, byte,
                                  first_of(lowerings, {**found, (device, phase): byte}, own))


def other_byte_cases():
    """Any byte is an errno, and the cells of 64 devices."""
    for byte in (2, 5, 16, 22, 127, 128, 254):
        yield what_if("the byte %d" % byte, three_devices(), sheet(3), 0, SUSPEND, byte, outcome(1, byte, 0, 2, 5))
    for device, level, taken in ((0, PREPARE, 0), (63, PREPARE, 63), (0, SUSPEND, 127), (63, SUSPEND, 64),
                                 (0, NOIRQ, 255), (63, NOIRQ, 192)):
        yield what_if("device %d of 64" % device, board((20, 24, 20)), sheet(64), device, level, 200,
                      outcome(1, 200, device, level, taken))
    yield what_if("the last cell of 64, which is 0 then", board((64, 0, 0)), sheet(64, {(63, NOIRQ): 255}), 63, NOIRQ,
                  0, outcome(0, 0, 255, 0, 256))
    all_held = bytes([0, 7, 7, 7]) * 3
    yield what_if("a cell among others that hinder", three_devices(), all_held, 2, SUSPEND, 0, outcome(1, 7, 1, 2, 4))
    yield what_if("a cell before others that hinder", three_devices(), all_held, 2, PREPARE, 1, outcome(1, 1, 2, 1, 2))


# --- What is refused --------------------------------------------------------

def refusal(number, place):
    return "! 3 %d %d" % (number, place)


def number_cases():
    """The device is tested before the level. A place that is in the sheet all the same makes neither right."""
    held = sheet(3, {(1, 2): 110})
    for device in (3, 4, 5, 63, 64, 128, 254, 255):
        for level in (1, 4, 0, 5, 255):
            yield what_if("device %d of 3, level %d" % (device, level), three_devices(), held, device, level, 9,
                          refusal(12, device))
    for device in (0, 1, 2):
        for level in (0, 5, 6, 8, 9, 127, 128, 255):
            yield what_if("device %d of 3, level %d" % (device, level), three_devices(), held, device, level, 9,
                          refusal(13, 0))
    for device, level, number in ((1, 1, 12), (1, 0, 12), (0, 5, 13), (255, 4, 12)):
        yield what_if("device %d of one, level %d" % (device, level), board((0, 1, 0)), sheet(1), device, level, 9,
                      refusal(number, device if number == 12 else 0))
    for device, level, number in ((64, 1, 12), (64, 0, 12), (65, 4, 12), (255, 5, 12), (63, 5, 13), (63, 0, 13),
                                  (0, 255, 13)):
        yield what_if("device %d of 64, level %d" % (device, level), board((21, 22, 21)), sheet(64, {(63, 4): 3}),
                      device, level, 0, refusal(number, device if number == 12 else 0))


def wrong_boards():
    yield 1, 0, b""
    yield 1, 0, bytes(4097)
    yield 2, T, put(DATA, T, 0)
    yield 3, T, GOOD.data(counts=(0, 0, 0))
    yield 4, T, GOOD.data(d=0)
    yield 5, 0, put(DATA, 0, 0)
    yield 6, 52, put(DATA, 52, 9)
    yield 7, 1, board((1, 1, 1), links=[(1, 2), (2, 1)])


def several_cases():
    """A board, a sheet, a device and a level that are wrong, several of them at once."""
    for number, place, data in wrong_boards():
        for some_sheet, device, level in ((sheet(3), 0, 1), (sheet(3), 255, 255), (b"", 3, 1), (bytes(13), 0, 0)):
            yield what_if("board %d, sheet of %d bytes, device %d, level %d" % (number, len(some_sheet), device, level),
                          data, some_sheet, device, level, 9, refusal(number, place))
    for some_sheet in (b"", b"\5", bytes(range(1, 12)), bytes(13), bytes(24), bytes([7]) * 256):
        for device, level in ((0, 1), (2, 4), (3, 1), (3, 0), (0, 0), (0, 5), (255, 255)):
            yield what_if("a sheet of %d bytes, device %d, level %d" % (len(some_sheet), device, level),
                          three_devices(), some_sheet, device, level, 9, refusal(8, 0))
    yield what_if("a sheet of 4097 bytes", three_devices(), bytes(4097), 3, 0, 9, refusal(8, 0))
    yield what_if("a sheet that ends with its last cell above 0", three_devices(), cells({(1, 2): 110}), 1, 2, 110,
                  refusal(8, 0))


def cases():
    for group in (every_cell_cases, other_byte_cases, number_cases, several_cases):
        yield from group()
