"""Cases of refusals: of calls on every shape, and of makings; and banks that have no devices at all or on one side."""

from bankmaking import case, count, look, looks, lower, not_made, put, raise_, refused
from bankparts import (LEAVES, SHAPES, Pair, bus, choice, clear_words, device_count, free, injector, leaves, quiet,
                       register, sample, shape_name)

SIZES = (2, 1, 3)         # how many devices the leaves of a sample have


# --- Refused calls ----------------------------------------------------------

def no_devices(*numbers):
    """Each call that can be refused, with these numbers, which are to be no devices."""
    return [refused(12, call) for number in numbers
            for call in (look(number), put(number, 0x11111111), lower(number), raise_(number))]


def number_cases():
    """12, just at the boundary: the count less one is a device, the count is none."""
    for form in SHAPES:
        part = sample(form, SIZES)
        n = device_count(part)
        every = looks(range(n))
        yield case("12: numbers about the count %d" % n, part,
                   [count(n), look(n - 1, 0, clear_words(1, n - 1)[0], 0)], no_devices(n, n + 1, 255),
                   [count(n)], every, [lower(n - 1)], no_devices(n), every,
                   [put(0, 0), raise_(n - 1), put(n - 1, 0)], every)


def way_down_and_up(device):
    """All levels, with every call that is refused there tried before the next step."""
    calls = [refused(26, raise_(device)), put(device, 0x01020300), look(device, 0, 0x01020300, 0)]
    for _ in range(4):
        calls += [lower(device), refused(26, put(device, 7)), look(device)]
    calls += [refused(26, lower(device)), refused(26, lower(device)), look(device)]
    for _ in range(3):
        calls += [raise_(device), refused(26, put(device, 7)), look(device)]
    return calls + [raise_(device), refused(26, raise_(device)), look(device, 0, 0x01020300, 0),
                    put(device, 0x0A0B0C0D), look(device, 0, 0x0A0B0C0D, 0)]


def level_cases():
    """26, at each level of the last device and of the first."""
    for form in SHAPES:
        part = sample(form, SIZES)
        n = device_count(part)
        yield case("26: every level of the last device and of the first", part,
                   way_down_and_up(n - 1), way_down_and_up(0), looks(range(n)))


def hindered_at_noirq_cases():
    """26 at level 4 also where there is a hindrance, which none but the free bank can have there."""
    every = {device: 9 for device in range(64)}
    two = free(clear_words(2), {}, [choice(1), choice(2), choice(3), choice(0xABCDEF01, every), choice(5, every)])
    first = """
        lower 0 x4, look 0 4 ABCDEF01 9, lower 0 !26, look 0 4 ABCDEF01 9, put 0 3 !26,
        raise 0, look 0 3 3 9, lower 0 -9, raise 0, look 0 2 2 0, lower 0, look 0 3 0 0"""
    yield case("26: hindered at level 4", two, first, "lower 1")
    yield case("26: hindered at level 4, below an injector", injector(two, {}), first, "lower 1")
    yield case("26: hindered at level 4, and the next device has a cell", injector(two, {(1, 1): 77}),
               first, "lower 1 -77")
    yield case("26: hindered at level 4, on the left", Pair(two, register(1)), first, "lower 2, look 2 1 1 0")
    second = """
        lower 2 x4, look 2 4 ABCDEF01 9, lower 2 !26, look 2 4 ABCDEF01 9, put 2 3 !26,
        raise 2, look 2 3 3 9, lower 2 -9, raise 2, look 2 2 2 0, lower 2, look 2 3 0 0"""
    yield case("26: hindered at level 4, on the right", Pair(injector(bus(6), {}), two), second, "lower 0, lower 1")


def hindered_cases():
    """26 at other levels where there is a hindrance."""
    yield case("26: a raising of a hindered device at level 0, a put of one at level 1",
               free((1, 2), {0: 3, 1: 4}, [choice(0, {1: 8}), choice(6, {0: 200, 1: 255}), choice()]), """
        raise 0 !26, raise 1 !26, lower 0 -3, lower 1 -4, put 0 5, look 0 0 5 0, lower 0, look 0 1 6 200,
        put 0 5 !26, look 0 1 6 200, look 1 0 2 255, raise 1 !26, lower 0 -200, lower 1 -255, raise 0, look 0 0 5 0""")
    yield case("26: a raising of a hindered member at level 0, a put of one at level 1", bus(0, 0x100, 0x101), """
        lower 2, lower 0 x2, look 1 0 100 5, raise 1 !26, look 2 1 101 5, put 2 0 !26, put 0 0 !26,
        raise 2, raise 2 !26, put 2 0, look 2 0 0 5, lower 2 -5""")
    yield case("26: a raising at level 0 and a put at level 1 where a cell hinders",
               injector(injector(quiet(1, 2), {}), {(0, 1): 5, (1, 2): 6}), """
        raise 0 !26, put 0 3, lower 0 -5, lower 1, put 1 4 !26, look 1 1 2 6, lower 1 -6,
        raise 1, raise 1 !26, put 1 4, look 1 0 4 0""")


# --- Banks without devices, at all or on one side ---------------------------

def no_device_cases():
    for form in SHAPES:
        yield case("12: no devices", sample(form, (0, 0, 0)), [count(0)], no_devices(0, 1, 63, 255), [count(0)])
    for form in SHAPES:
        if "injector" in shape_name(form):
            yield case("12: no devices, but cells", sample(form, (0, 0, 0), {(0, 1): 5, (1, 2): 6}),
                       [count(0)], no_devices(0, 1))


def sum_note(sizes):
    return "%s devices" % " + ".join(map(str, sizes))


def side_calls(n):
    """Calls on all devices of a bank, each of which can go down to level 2, and on the numbers behind them."""
    calls = [count(n)] + looks(range(n))
    for device in reversed(range(n)):
        calls += [lower(device), lower(device), refused(26, put(device, 0))]
    calls += no_devices(n, 255)
    for device in range(n):
        calls += [look(device), raise_(device), raise_(device), refused(26, raise_(device)), put(device, device)]
    return calls + looks(range(n))


def side_cases():
    """Pairs that have nothing on one side, and nested ones that have nothing in some places."""
    for form in SHAPES:
        if "pair" in shape_name(form):
            width = len(leaves(form))
            for filled in range(1, 2 ** width - 1):
                sizes = [2 if filled >> k & 1 else 0 for k in range(width)]
                part = sample(form, sizes)
                yield case("nothing in some places: " + sum_note(sizes), part, side_calls(device_count(part)))


# --- Makings ----------------------------------------------------------------

def last_calls(n):
    """Calls on a bank of many devices that are not hindered: on the last, on the first, and on numbers behind them."""
    last = n - 1
    calls = [count(n)] + looks((0, n // 2, last)) + no_devices(n, 255)
    calls += [lower(last), lower(last), look(last), raise_(last), raise_(last), put(last, 0), look(last, 0, 0, 0)]
    return calls + [lower(0), raise_(0), put(0, 1), look(0, 0, 1, 0)]


def sized(form, *sizes):
    """A bank of this form with so many devices in each leaf. It is to be made where there are no more than 64."""
    part = sample(form, sizes)
    if sum(sizes) > 64:
        return not_made("27: " + sum_note(sizes), part)
    return case("not 27: " + sum_note(sizes), part, last_calls(sum(sizes)))


def leaf_making_cases():
    for kind in LEAVES:
        for size in (63, 64, 65, 255):
            yield sized(kind, size)
    yield sized("quiet", 128)
    for form in SHAPES:
        if form[0] == "injector" and len(leaves(form)) == 1:
            yield sized(form, 64)
            yield sized(form, 65)
    yield sized(("injector", "bus"), 255)


# Sums of 64 and 65, and parts that are refused by themselves.
SUMS = {
    3: [(32, 32), (32, 33), (64, 0), (0, 64), (64, 1), (1, 64), (63, 1), (2, 63), (65, 0), (0, 65), (64, 64), (255, 1)],
    4: [(21, 22, 21), (22, 22, 21), (32, 33, 0), (64, 0, 1), (0, 64, 1), (63, 0, 1), (0, 0, 65), (65, 0, 0)],
    5: [(21, 22, 21), (21, 22, 22), (0, 33, 32), (1, 0, 64), (1, 64, 0), (1, 0, 63), (65, 0, 0), (0, 65, 0)],
    7: [(20, 24, 20), (20, 24, 21), (0, 1, 64), (64, 0, 1), (0, 0, 65), (0, 0, 64)],
    8: [(32, 32), (33, 32), (65, 0), (0, 65), (64, 1)],
    11: [(31, 33), (1, 64), (64, 1), (65, 0), (0, 65)],
    13: [(63, 1), (64, 1), (1, 64), (65, 0), (0, 65)],
}


def pair_making_cases():
    for shape, sums in SUMS.items():
        for sizes in sums:
            yield sized(SHAPES[shape], *sizes)


def refused_with_cells_cases():
    """A refused making whose bytes have cells and choices all the same."""
    many = clear_words(65)
    yield not_made("27: below an injector with cells", injector(bus(*many), {(0, 1): 5, (1, 2): 6}))
    yield not_made("27: below two injectors with cells", injector(injector(quiet(*many), {(0, 3): 1}), {(64, 4): 9}))
    yield not_made("27: a free bank with choices", free(many, {0: 3}, [choice(1), choice(2, {5: 6})]))
    yield not_made("27: on the right, with choices", Pair(injector(bus(1), {(0, 1): 2}), free(many, {}, [choice(7)])))
    yield not_made("27: on the left, with choices", Pair(free(many, {}, [choice(7)]), register(1)))


def cases():
    for group in (number_cases, level_cases, hindered_at_noirq_cases, hindered_cases, no_device_cases, side_cases,
                  leaf_making_cases, pair_making_cases, refused_with_cells_cases):
        yield from group()
