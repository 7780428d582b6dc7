"""Cases of the banks that are made of banks: pairs and injectors."""

from bankmaking import case, look, looks, lower, put, raise_, refused
from bankparts import (SHAPES, Pair, bus, choice, clear_words, device_count, free, injector, quiet, register, sample,
                       shape_name)


def deep(device, levels):
    return [lower(device)] * levels


# --- All shapes: a change leaves the other devices as they were -------------

def alone_cases():
    """After each change all devices are looked at."""
    for form in SHAPES:
        part = sample(form, (2, 2, 2))
        n = device_count(part)
        every = looks(range(n))
        calls = list(every)
        for device in reversed(range(n)):
            for call in (put(device, 0x00112200 + device * 0x01000000), lower(device), lower(device)):
                calls += [call] + every
        for device in range(n):
            calls += [raise_(device)] + every
        yield case("each change, and a look at all", part, calls)


# --- Pairs ------------------------------------------------------------------

def pair_cases():
    mixed = Pair(register(0x80000001, 0x21A1B2C3), bus(0x80000000, 0x21A1B2C3, 0x80000000))
    yield case("each side has its own rules", mixed, """
        lower 0, lower 1, lower 2, lower 3, lower 4, look 0 1 80000001 16, look 1 1 21A1B2C3 0, look 2 1 80000000 0,
        look 3 1 21A1B2C3 16, look 4 1 80000000 0, lower 0 -16, lower 3 -16, lower 1, look 1 2 21A10000 0,
        lower 4, look 4 2 80000000 0, lower 1, look 1 3 21000000 0, lower 4, look 4 3 80000000 0,
        lower 1, look 1 4 0 0, lower 1 !26, lower 4, look 4 4 0 0, lower 4 !26, lower 5 !12""")
    yield case("the controller hinders the right side alone", mixed, """
        lower 2 x3, look 0 0 80000001 0, look 1 0 21A1B2C3 0, look 3 0 21A1B2C3 5, look 4 0 80000000 5, lower 3 -5,
        lower 1 x2, look 1 2 21A10000 0, raise 2, lower 4 -5, raise 2, lower 4 x2""", looks(range(5)))
    yield case("device 0 is no controller, and device 1 is no member", mixed,
               "lower 1 x4, lower 0", looks(range(5)), "lower 3, lower 4, look 3 1 21A1B2C3 16, look 4 1 80000000 0")
    yield case("the places of refusals on the right", mixed, """
        raise 2 !26, raise 4 !26, lower 2, lower 4, put 2 1 !26, put 4 1 !26, put 5 1 !12, raise 6 !12, look 255 !12,
        put 4 9 !26, lower 4 x3, lower 4 !26, raise 3 !26, raise 0 !26, lower 1, put 1 1 !26""")
    left, middle, right = register(0x80000001), bus(0x80000001, 0x80000001), quiet(0x80000001)
    for nested in (Pair(Pair(left, middle), right), Pair(left, Pair(middle, right)),
                   injector(Pair(left, Pair(middle, right)), {})):
        yield case("four devices with one word", nested, """
            lower 0, lower 1, lower 2, lower 3, look 0 1 80000001 16, look 1 1 80000001 0, look 2 1 80000001 16,
            look 3 1 80000001 0, lower 0 -16, lower 1, look 2 1 80000001 5, lower 2 -5,
            lower 3 x3, look 3 4 80000001 0, lower 1 x2, look 1 4 0 0, lower 3 !26, lower 1 !26, put 2 1 !26,
            put 4 1 !12, raise 0, raise 0 !26, raise 2, raise 2 !26, look 2 0 80000001 5, look 0 0 80000001 0""")


def choices_in_pairs_cases():
    """A free bank takes no choice off its list where the other side changes."""
    choices = [choice(0x11, {0: 1}), choice(0x22, {1: 2}), choice(0x33, {0: 3, 1: 4})]
    two = free((1, 2), {1: 9}, choices)
    yield case("what the right side does uses up no choice of the left", Pair(two, register(3, 4)), """
        lower 2, lower 3, raise 2, put 2 5, look 1 0 2 9, lower 1 -9, look 0 0 1 0, lower 0, look 0 1 11 1,
        look 1 0 2 0, lower 3, raise 3, look 0 1 11 1, lower 1, look 1 1 22 2, look 0 1 11 0, put 2 6, look 1 1 22 2,
        raise 0, look 0 0 1 3, look 1 1 22 4""")
    yield case("what the left side does uses up no choice of the right",
               Pair(injector(bus(3, 0x400), {(1, 2): 6, (2, 1): 7, (3, 1): 8}), two), """
        lower 0, lower 1, lower 1 -6, raise 0, put 0 5, look 3 0 2 9, lower 3 -9, look 2 0 1 0, lower 2, look 2 1 11 1,
        look 3 0 2 0, raise 1, lower 0, look 2 1 11 1, lower 3, look 3 1 22 2, put 3 1 !26, raise 4 !12, look 2 1 11 0,
        raise 3, look 2 1 11 3, look 3 0 2 4""")


# --- Injectors over one bank ------------------------------------------------

def held_by_cell(device, level, value, words):
    """Down to where the cell for this level holds the device, and back. Nothing else hinders; `words` are on top."""
    held = [look(device, level - 1, words[level - 1], value), lower(device, -value)]
    calls = []
    for reached in range(level - 1):
        calls += [look(device, reached, words[reached], 0), lower(device)]
    calls += held + held
    for reached in reversed(range(level - 1)):
        calls += [raise_(device), look(device, reached, words[reached], 0)]
    return calls + [refused(26, raise_(device)), put(device, words[0])]


def all_the_way(device, words):
    """Down to level 4 and back without a hindrance."""
    calls = [look(device, 0, words[0], 0)]
    for level in range(1, 5):
        calls += [lower(device), look(device, level, words[level], 0)]
    return calls + [refused(26, lower(device)), raise_(device), look(device, 3, words[3], 0)] + [raise_(device)] * 3


ON_BUS = (0x200, 0x200, 0x200, 0x200, 0)
QUIET = (0x40506070,) * 5


def one_cell_cases():
    """A cell for each level, of the first device, the last, and one between; the other devices go all the way."""
    for level in range(1, 5):
        for device, value in ((0, 1), (2, 255), (1, 5 * level)):
            others = [call for other in range(3) if other != device for call in all_the_way(other, ON_BUS)]
            yield case("the cell of device %d for level %d is %d" % (device, level, value),
                       injector(bus(0x200, 0x200, 0x200), {(device, level): value}),
                       held_by_cell(device, level, value, ON_BUS), others)
    two = quiet(QUIET[0], QUIET[0])
    for level in range(1, 5):
        calls = held_by_cell(1, level, 16, QUIET) + all_the_way(0, QUIET)
        note = "the cell for level %d, in the " % level
        yield case(note + "outer of two", injector(injector(two, {}), {(1, level): 16}), calls)
        yield case(note + "inner of two", injector(injector(two, {(1, level): 16}), {}), calls)


def many_cells_cases():
    yield case("cells for all levels of other devices hinder no device between",
               injector(bus(0, 0x200, 0), {(device, level): 9 for device in (0, 2) for level in range(1, 5)}),
               all_the_way(1, ON_BUS),
               "look 0 0 0 9, look 2 0 0 9, lower 0 -9, lower 2 -9, put 0 1, look 0 0 1 9")
    every = {(device, level): 10 * device + level for device in range(4) for level in range(1, 5)}
    for level in range(1, 5):
        later = {place: value for place, value in every.items() if place[1] >= level}
        yield case("the cells from level %d on, all different" % level, injector(bus(*clear_words(4)), later),
                   [call for device in reversed(range(4)) for call in deep(device, level - 1)],
                   [call for device in range(4) for call in (look(device), lower(device, -(10 * device + level)))])


def cell_and_below_cases():
    """A cell that is not 0 takes the place of what hinders below; one that is 0 lets it through."""
    yield case("a cell in place of 16", injector(bus(0, 0x101, 0x102), {(1, 2): 7}), """
        lower 1, lower 2, look 1 1 101 7, look 2 1 102 16, lower 1 -7, lower 2 -16, raise 1, look 1 0 101 0,
        put 1 100, lower 1, look 1 1 100 7, lower 1 -7""")
    yield case("a cell in place of 5", injector(bus(0, 0x100, 0x200, 0x300), {(1, 1): 9, (3, 2): 255}), """
        lower 3, lower 0 x2, look 1 0 100 9, look 2 0 200 5, look 3 1 300 255, lower 1 -9, lower 2 -5, lower 3 -255,
        put 1 111, look 1 0 111 9, raise 0, look 1 0 111 9, look 2 0 200 0, look 3 1 300 255, lower 2 x2, lower 1 -9""")
    yield case("a cell that is what hinders below", injector(bus(0, 0x101), {(1, 2): 16, (1, 1): 0}), """
        lower 1, look 1 1 101 16, lower 1 -16, raise 1, put 1 0, lower 1, look 1 1 0 16, lower 1 -16""")
    yield case("a cell holds the controller, so it hinders nobody", injector(bus(0, 0x100), {(0, 2): 3}), """
        lower 0, lower 0 -3, look 0 1 0 3, look 1 0 100 0, lower 1 x4, look 1 4 0 0""")
    yield case("a cell for level 1, and 5 at the deeper levels", injector(bus(0, 0x100, 0x200), {(2, 1): 4}), """
        lower 1 x2, lower 0 x4, look 1 2 100 5, lower 1 -5, look 2 0 200 4, raise 0, lower 1 -5,
        raise 0, lower 1 x2, look 1 4 0 0, lower 2 -4""")
    yield case("cells over the bank of a board",
               injector(Pair(register(0x80000000, 0x80000000), Pair(bus(0, 0x101), quiet(1, 2))),
                        {(0, 2): 20, (1, 3): 21, (2, 4): 22, (3, 2): 0, (4, 4): 24, (5, 1): 25}), """
        lower 0, lower 0 -20, lower 1, lower 1 -16, lower 3, lower 3 -16, look 5 0 2 25, lower 5 -25,
        lower 4 x3, look 4 3 1 24, lower 4 -24, lower 2 x2, look 3 1 101 5, lower 3 -5, lower 2, look 2 3 0 22,
        lower 2 -22, raise 1, put 1 7F654321, lower 1 x2, look 1 2 7F650000 21, lower 1 -21, look 6 !12""",
               looks(range(6)))
    yield case("a lowering that a cell hinders uses up no choice below",
               injector(free((1, 2), {0: 3}, [choice(0x11, {0: 4, 1: 5}), choice(0x22, {1: 6})]),
                        {(0, 1): 9, (1, 2): 8}), """
        look 0 0 1 9, lower 0 -9 x2, look 1 0 2 0, lower 1, look 1 1 11 8, lower 1 -8 x2, lower 0 -9,
        raise 1, look 1 0 2 6, lower 1 -6, look 0 0 1 9, put 0 7, look 0 0 7 9, look 1 0 2 0, lower 1, look 1 1 0 8""")
    yield case("the hindrance below shows at level 4, whatever the cells",
               injector(free((1, 2), {}, [choice(1), choice(2), choice(3), choice(4, {0: 200, 1: 100})]),
                        {(0, 1): 0, (1, 1): 50, (1, 2): 51, (1, 3): 52, (1, 4): 53}), """
        lower 0 x4, look 0 4 4 200, lower 0 !26, look 1 0 2 50, lower 1 -50, raise 0, look 0 3 3 0""")


def cell_count_cases():
    """Fewer cells than the devices have, and more."""
    for given in range(9):
        made = bytes([0, 0, 31, 32, 0, 42, 43, 44])[:given]
        first, second = 31 if given >= 3 else 0, 42 if given >= 6 else 0
        yield case("cells for two devices: %d" % given, injector(bus(0x200, 0x200), made),
                   deep(1, 1), [look(1, 1, 0x200, second), lower(1, -second)],
                   deep(0, 2), [look(0, 2, 0x200, first), lower(0, -first), look(0)])
    yield case("cells for devices past the count", injector(bus(1, 0x200), {(2, 1): 5, (3, 4): 6, (63, 4): 7}),
               "lower 2 !12, look 3 !12, lower 63 !12", all_the_way(1, ON_BUS), all_the_way(0, (1, 1, 1, 1, 0)))
    yield case("cells for no device", injector(bus(), bytes([1, 2, 3, 4])), "look 0 !12, lower 0 !12")
    for more in (0, 1, 4, 44, 256):
        made = bytes([0, 0, 9]) + bytes(189) + bytes([255] * 60) + bytes([0, 0, 0, 8]) + bytes([77] * more)
        yield case("cells for two devices: %d" % len(made), injector(bus(0x200, 0x200), made),
                   "lower 1 x4, lower 0 x2, look 0 2 200 9, lower 0 -9, look 1 4 0 0, look 64 !12")
    full = bus(*clear_words(64))
    way = clear_words(1, 63) * 4 + (0,)
    for more in (0, 1, 3, 4, 300):
        made = bytes(253) + bytes([71, 72, 73]) + bytes([99] * more)
        yield case("cells for 64 devices: %d" % len(made), injector(full, made), held_by_cell(63, 2, 71, way),
                   "look 64 !12, lower 64 !12", all_the_way(0, (0x10203000,) * 4 + (0,)))
    yield case("the last of 256 cells, and two behind it", injector(full, bytes(255) + bytes([70, 98, 97])),
               held_by_cell(63, 4, 70, way), "lower 0 x4, look 64 !12")
    yield case("cells for 64 devices: 252", injector(full, bytes(251) + bytes([69])),
               all_the_way(63, way), "lower 62 x3, lower 62 -69")


def zero_cell_cases():
    """Cells that are all 0: as the bank below."""
    below = Pair(register(0x80000001, 0x21A1B2C3), Pair(bus(9, 0x101, 0x200), quiet(0xFFFFFFFF)))
    calls = """
        lower 0, lower 1, lower 2, lower 3, lower 4, lower 5, lower 0 -16, lower 1, lower 3 -16, lower 2,
        lower 3 -5, lower 4 -5, lower 5, look 0, look 1, look 2, look 3, look 4, look 5,
        raise 2, lower 4, look 4 2 200 0"""
    for given in (0, 1, 24, 256, 260):
        yield case("cells that are all 0: %d" % given, injector(below, bytes(given)), calls)
    yield case("the same without an injector", below, calls)


# --- Injectors over injectors -----------------------------------------------

def two_injector_cases():
    yield case("the outer cell wins, the inner is behind a 0",
               injector(injector(quiet(1, 2, 3, 4), {(0, 1): 11, (1, 1): 12, (3, 2): 13}),
                        {(0, 1): 21, (2, 1): 22, (3, 1): 0}), """
        look 0 0 1 21, lower 0 -21, look 1 0 2 12, lower 1 -12, look 2 0 3 22, lower 2 -22, look 3 0 4 0,
        lower 3, look 3 1 4 13, lower 3 -13, raise 3, look 3 0 4 0, put 0 5, look 0 0 5 21, put 1 6, look 1 0 6 12""")
    yield case("the outer has fewer cells than the inner", injector(injector(quiet(1, 2), {(1, 3): 30}), {(0, 2): 40}),
               "lower 0, lower 0 -40, lower 1 x2, look 1 2 2 30, lower 1 -30")
    yield case("the outer has more cells than the inner", injector(injector(quiet(1, 2), {(0, 2): 40}), {(1, 4): 30}),
               "lower 0, lower 0 -40, lower 1 x3, look 1 3 2 30, lower 1 -30")
    sides = Pair(injector(bus(0, 0x101, 0x200), {(0, 3): 50, (1, 2): 51, (2, 1): 52}),
                 injector(register(0x80000000, 0x21A1B2C3), {(0, 2): 53, (1, 4): 54, (2, 1): 55}))
    yield case("cells on each side and over both", injector(sides, {(1, 2): 61, (2, 1): 0, (3, 2): 0, (4, 3): 63}), """
        look 2 0 200 52, lower 2 -52, lower 1, look 1 1 101 61, lower 1 -61, lower 3, look 3 1 80000000 53, lower 3 -53,
        lower 4 x2, look 4 2 21A10000 63, lower 4 -63, lower 0 x2, look 0 2 0 50, lower 0 -50, look 1 1 101 61,
        look 2 0 200 52, look 5 !12""", looks(range(5)))
    yield case("cells on each side, and none over both", injector(sides, {}), """
        lower 1, look 1 1 101 51, lower 1 -51, lower 3, lower 3 -53, lower 4 x3, look 4 3 21000000 54, lower 4 -54,
        lower 0 x2, lower 0 -50, look 2 0 200 52, raise 1, look 1 0 101 5, lower 1 -5""", looks(range(5)))
    yield case("cells over both, and none on each side",
               injector(Pair(injector(bus(0, 0x101), {}), injector(register(0x80000000, 0x21A1B2C3), {})),
                        {(0, 2): 81, (1, 2): 82, (2, 2): 83, (3, 3): 84}), """
        lower 0, lower 0 -81, lower 1, look 1 1 101 82, lower 1 -82, lower 2, look 2 1 80000000 83, lower 2 -83,
        lower 3 x2, look 3 2 21A10000 84, lower 3 -84""")


def all_injectors_cases():
    """Each shape that is an injector, with the same cells in all its injectors."""
    for form in SHAPES:
        if form[0] == "injector":
            n = device_count(sample(form, (2, 2, 2)))
            yield case("cells of the first device and of the last in %s" % shape_name(form),
                       sample(form, (2, 2, 2), {(n - 1, 3): 33, (0, 4): 44}),
                       deep(n - 1, 2), [lower(n - 1, -33)], looks(range(n)),
                       deep(0, 3), [lower(0, -44)], looks(range(n)))


def cases():
    for group in (alone_cases, pair_cases, choices_in_pairs_cases, one_cell_cases, many_cells_cases,
                  cell_and_below_cases, cell_count_cases, zero_cell_cases, two_injector_cases, all_injectors_cases):
        yield from group()
