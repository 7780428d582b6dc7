"""Histories made by hand: what each call is to be answered, in every stage and at every point of a descent and a way back.

The schedules of small boards are written out here, so that they do not come from the model."""

from bankparts import (SHAPES, Pair, bus, clear_words, device_count, free, injector, leaves, quiet, register, sample,
                       shape_name)
from enginemaking import Board, case, chain

# Device and phase of each lowering, by the order.
LOWERINGS = {
    (0,): [(0, 1), (0, 2), (0, 3), (0, 4)],
    (1, 0): [(1, 1), (0, 1), (0, 2), (1, 2), (0, 3), (1, 3), (0, 4), (1, 4)],
    (2, 0, 1): [(2, 1), (0, 1), (1, 1), (1, 2), (0, 2), (2, 2), (1, 3), (0, 3), (2, 3), (1, 4), (0, 4), (2, 4)],
}


def down(count):
    """So many lowerings; none of them hindered."""
    return "step 1 x%d, " % count


def back(count):
    return "step 2 x%d, " % count


def attempt(calls, kind, errno, device, phase, taken):
    """From the opening to the close, and its outcome."""
    return "open, %s, close %d %d %d %d %d, " % (calls, kind, errno, device, phase, taken)


# --- The example of docs/RULES.md -------------------------------------------

CLK_I2C_LCD = Board(3, ((0, 1), (1, 2)))


def three_devices(found, last=0x500):
    return injector(Pair(register(0x21A1B2C3), Pair(bus(0, last), quiet())), found)


def example_cases():
    held = three_devices({(1, 2): 110})
    way_down = "step 1 x4, step 3"
    yield case("clk, i2c, lcd: i2c is hindered by 110", held, CLK_I2C_LCD,
               attempt(way_down + ", step 2 x4", 1, 110, 1, 2, 4) + "look 0 0 21A1B2C3 0, look 1 0 0 0, look 2 0 500 0",
               ends="awake")
    for taken in range(5):
        yield case("clk, i2c, lcd: closed with %d raised" % taken, held, CLK_I2C_LCD,
                   "look 1 0 0 0, "
                   + attempt(way_down + ", look 1 1 0 110, look 2 2 500 0, " + back(taken), 1, 110, 1, 2, 4)
                   + "look 0 0 21A1B2C3 0, look 2 0 500 0")
    yield case("clk, i2c, lcd: still open, i2c has refused", held, CLK_I2C_LCD, "open, " + way_down, ends="coming up")
    yield case("clk, i2c, lcd: landed and still open", held, CLK_I2C_LCD, "open, step 1 x4, step 3, step 2 x4",
               ends="landed")
    yield case("clk, i2c, lcd: an alarm before i2c refuses", held, CLK_I2C_LCD,
               attempt("step 1 x4, alarm 2 1, step 4, step 2 x4", 2, 16, 2, 2, 4), ends="awake")
    yield case("clk, i2c, lcd: all the way", three_devices({}), CLK_I2C_LCD, """
        open, step 1 x6, look 0 2 21A10000 0, look 1 2 0 0, look 2 2 500 0, step 1 x3, look 0 3 21000000 0,
        step 1 x3, look 0 4 0 0, look 2 4 0 0, step !24, alarm 1 1, step 2, look 0 3 21000000 0, step 2 x3,
        look 0 2 21A10000 0, step 2 x8, look 0 0 21A1B2C3 0, step !24, close 0 0 1 0 12""", ends="awake")
    yield case("clk, i2c, lcd: lcd is busy", three_devices({}, 0x501), CLK_I2C_LCD,
               attempt("step 1 x3, look 2 1 501 16, step 3, step 2 x3", 1, 16, 2, 2, 3)
               + "put 2 500, " + attempt(down(12), 0, 0, 255, 0, 12), ends="awake")


# --- Every call in every stage ----------------------------------------------

def refused_numbers(n, k):
    """Numbers that are no device's, in any stage."""
    return "".join("alarm %d !12@%d, put %d 5 !12@%d, look %d !12@%d, " % (number, k, number, k, number, k)
                   for number in (n, 255))


def in_attempt(n, k):
    """What is refused in every stage of an attempt, and looks."""
    return "open !22, put 0 5 !22, put %d 0 !22, " % (n - 1) + refused_numbers(n, k) + "look 0, look %d, " % (n - 1)


def nothing_open(n):
    return "step !23, close !23, alarm 0 !23, alarm %d !23, " % (n - 1) + refused_numbers(n, 0) + "look 0, "


def tour(n):
    """Each call in each stage, on a bank that hinders nothing."""
    last, full = n - 1, 4 * n

    def phase(k):
        return k // n + 1
    text = nothing_open(n) + "put %d 21A1B200, look %d, " % (last, last)
    text += "open, %s %s %s alarm %d 1, alarm 0 0, alarm %d 0, %s" % (
        in_attempt(n, 0), down(1), in_attempt(n, 1), last, last, in_attempt(n, 1))
    text += "step 4, %s alarm 0 0, step 2, %s step !24, alarm 0 0, close 2 16 %d %d 1, " % (
        in_attempt(n, 1), in_attempt(n, 0), last, phase(1))
    text += nothing_open(n) + "put 0 0, "
    text += "open, %s %s step !24, alarm 0 1, %s alarm %d 0, step 2, alarm 0 0, %s close 0 0 0 0 %d, " % (
        down(full), in_attempt(n, full), in_attempt(n, full), last, in_attempt(n, full - 1), full)
    text += attempt(down(full), 0, 0, 255, 0, full)
    text += attempt(down(full) + "alarm %d 1, " % last + back(full) + "step !24, alarm 0 0", 0, 0, last, 0, full)
    text += attempt(down(2) + "alarm 0 1", 2, 16, 0, phase(2), 2) + attempt(down(3), 3, 0, 255, phase(3), 3)
    text += attempt("alarm %d 1, step 4, step !24 x2" % last, 2, 16, last, 1, 0)
    return text + "close !23 x2, put 0 5, look 0"


def tour_cases():
    for form in SHAPES:
        part = sample(form, (2, 1, 1))
        n = device_count(part)
        yield case("every call in every stage: " + shape_name(form), part, Board(n), tour(n), ends="awake")
    yield case("every call in every stage: one device", register(0x21A1B2C3), Board(1), tour(1))


def fault_tour(n, device, phase, taken, errno, landing):
    """Each call around a fault at lowering `taken`, which is then raised again or closed at once."""
    text = "open, %s alarm %d !12@%d, step 3, %s alarm 0 0, alarm %d 0, " % (
        down(taken), n, taken, in_attempt(n, taken), n - 1)
    if landing:
        text += back(taken) + in_attempt(n, 0) + "step !24, alarm 0 0, "
    return text + "close %d %d %d %d %d, step !23" % (1, errno, device, phase, taken)


def word_fault_cases():
    """A member that is busy, or a register that is held, in phase 2: part, device, and what is taken."""
    held = [(register(0x300, 0x80000000), 1, 2), (bus(0x300, 0x101), 1, 2), (Pair(register(1), bus(0, 7)), 2, 3),
            (Pair(Pair(register(1), bus(0, 7)), quiet(9)), 2, 5), (Pair(register(1), Pair(bus(0, 7), quiet(9))), 2, 5),
            (Pair(free((1,)), register(2, 0x80000000)), 2, 3)]
    for part, device, taken in held:
        for landing in (True, False):
            n = device_count(part)
            yield case("calls around a fault: " + shape_name(part.form), part, Board(n),
                       fault_tour(n, device, 2, taken, 16, landing))


def cell_fault_cases():
    """A fault of device 0 at its first lowering and at its last, by a cell or a hindrance that is there from the start."""
    for form in SHAPES:
        if form[0] == "injector":
            below = sample(form[1], (1,) * len(leaves(form)))
            n = device_count(below)
            for phase, taken in ((1, 0), (4, 4 * n - 1)):
                for landing in (True, False):
                    yield case("calls around a fault: " + shape_name(form), injector(below, {(0, phase): 77}), Board(n),
                               fault_tour(n, 0, phase, taken, 77, landing))
    for part in (free((1, 2), {0: 33}), Pair(free((1, 2), {0: 33}), register(3)),
                 Pair(injector(bus(0), {(0, 1): 33}), free((1,)))):
        n = device_count(part)
        yield case("calls around a fault: " + shape_name(part.form), part, Board(n), fault_tour(n, 0, 1, 0, 33, True))
    part = Pair(injector(bus(0), {(0, 3): 99}), free((1,)))
    yield case("calls around a fault: " + shape_name(part.form), part, Board(2), fault_tour(2, 0, 3, 5, 99, True))


# --- Closes at every point --------------------------------------------------

def plain_parts(n):
    """Banks of n devices that hinder nothing, of all shapes."""
    for form in SHAPES:
        sizes = [0] * len(leaves(form))
        for device in range(n):
            sizes[device % len(sizes)] += 1
        part = sample(form, sizes)
        if not ("bus" in leaves(form) and sizes[leaves(form).index("bus")] > 1):
            yield part


def ways(order):
    """Texts of an attempt that ends at each point, with its note, and the stage before its close."""
    n, last = len(order), order[-1]
    for k, (_, phase) in enumerate(LOWERINGS[order]):
        yield "going down, %d taken" % k, "going down", down(k), (3, 0, 255, phase, k)
        yield "an alarm kept, %d taken" % k, "going down", down(k) + "alarm %d 1" % last, (2, 16, last, phase, k)
        yield ("turned by an alarm, %d taken" % k, "coming up" if k else "landed", down(k) + "alarm %d 1, step 4" % last,
               (2, 16, last, phase, k))
    yield "asleep", "asleep", down(4 * n), (0, 0, 255, 0, 4 * n)
    for raised in range(4 * n + 1):
        yield ("coming up from sleep, %d raised" % raised, "coming up" if raised < 4 * n else "landed",
               down(4 * n) + "alarm %d 1, " % last + back(raised), (0, 0, last, 0, 4 * n))


def close_cases():
    """Half of the attempts are closed by the calls, and the others by the program at the end."""
    for order in LOWERINGS:
        n = len(order)
        parts = list(plain_parts(n))
        for number, (note, stage, text, outcome) in enumerate(ways(order)):
            closed = number % 2 == n % 2
            yield case("n = %d, %s, %s" % (n, note, "closed" if closed else "still open"), parts[number % len(parts)],
                       chain(*order), attempt(text, *outcome) if closed else "open, " + text,
                       ends="awake" if closed else stage)


def fault_text(k, device, phase, raised):
    return attempt(down(k) + "step 3, " + back(raised), 1, 40 + k, device, phase, k)


def fault_cases():
    """A fault at each lowering, and closes at each point of the way back, one attempt after another."""
    for order, lowerings in LOWERINGS.items():
        words = clear_words(len(order))
        for k, (device, phase) in enumerate(lowerings):
            found = {(device, phase): 40 + k}
            below = (injector(quiet(*words), {}), free(words), injector(quiet(*words), found))[k % 3]
            text = "".join(fault_text(k, device, phase, raised) for raised in range(k + 1))
            yield case("n = %d: a fault at lowering %d, and closes at each point after it" % (len(order), k),
                       injector(below, {} if k % 3 == 2 else found), chain(*order), text, ends="awake")


def cases():
    for group in (example_cases, tour_cases, word_fault_cases, cell_fault_cases, close_cases, fault_cases):
        yield from group()
