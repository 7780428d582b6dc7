"""Cases of each kind of bank by itself: register, bus, quiet, and the free bank."""

from bankmaking import case, look, looks, lower, put, raise_, refused
from bankparts import bus, choice, free, quiet, register


# --- Register bank ----------------------------------------------------------

def there_and_back(device, words):
    """Down to level 4 and back, with these words on top at the levels 0 to 4, and no hindrance."""
    calls = [look(device, 0, words[0], 0)]
    for level in range(1, 5):
        calls += [lower(device), look(device, level, words[level], 0)]
    calls.append(refused(26, lower(device)))
    for level in reversed(range(4)):
        calls += [raise_(device), look(device, level, words[level], 0)]
    return calls + [refused(26, raise_(device))]


def held_at_prepared(device, word):
    """A device whose word hinders it at level 1."""
    at_running, at_prepared = look(device, 0, word, 0), look(device, 1, word, 16)
    return [at_running, lower(device), at_prepared, lower(device, -16), at_prepared, lower(device, -16), at_prepared,
            raise_(device), at_running, refused(26, raise_(device))]


# Words and what is on top at the levels 0 to 4.
FREE_IN_REGISTERS = [
    (0x21A1B2C3, 0x21A1B2C3, 0x21A10000, 0x21000000, 0),
    (0x00FFFFFF, 0x00FFFFFF, 0x00FF0000, 0, 0),
    (0x7FFFFFFF, 0x7FFFFFFF, 0x7FFF0000, 0x7F000000, 0),
    (0, 0, 0, 0, 0),
    (0x40000000, 0x40000000, 0x40000000, 0x40000000, 0),
    (0x0000FFFF, 0x0000FFFF, 0, 0, 0),
    (0x00018000, 0x00018000, 0x00010000, 0, 0),
    (0x00800080, 0x00800080, 0x00800000, 0, 0),
    (0x01000001, 0x01000001, 0x01000000, 0x01000000, 0),
]
HELD_IN_REGISTERS = [0x80000000, 0xFFFFFFFF, 0x80000001, 0xA1B2C3D4]


def all_registers():
    """All these words in one bank."""
    words = [row[0] for row in FREE_IN_REGISTERS] + HELD_IN_REGISTERS
    every, free_ones = range(len(words)), range(len(FREE_IN_REGISTERS))
    held = range(len(FREE_IN_REGISTERS), len(words))
    down = [lower(device) for device in free_ones]
    return case("register: all these words in one bank", register(*words),
                looks(every), down, down, [lower(device) for device in held], looks(every),
                [lower(device, -16) for device in held], down, looks(every), down, looks(every),
                [raise_(device) for device in every], looks(every))


def register_cases():
    for words in FREE_IN_REGISTERS:
        yield case("register: the way of %08X" % words[0], register(words[0]), there_and_back(0, words))
    for word in HELD_IN_REGISTERS:
        yield case("register: %08X is held at level 1" % word, register(word), held_at_prepared(0, word))
    yield all_registers()
    calls = []
    for words in FREE_IN_REGISTERS[:4]:
        held = 0x80000000 + words[0]
        calls += [put(1, words[0])] + there_and_back(1, words) + [put(1, held)] + held_at_prepared(1, held)
    yield case("register: each word put, with bit 31 and without", register(0xFFFFFFFF, 0xFFFFFFFF, 0xFFFFFFFF),
               calls, "look 0 0 FFFFFFFF 0, look 2 0 FFFFFFFF 0")
    yield case("register: held, raised, put free, held again", register(0x80000000, 0x80000000), """
        lower 0, lower 0 -16, put 0 0 !26, lower 0 -16, raise 0, put 0 7FFFFFFF,
        lower 0, look 0 1 7FFFFFFF 0, lower 0, look 0 2 7FFF0000 0, raise 0 x2,
        put 0 FFFF0000, look 0 0 FFFF0000 0, lower 0, look 0 1 FFFF0000 16, look 1 0 80000000 0,
        lower 1, look 1 1 80000000 16, look 0 1 FFFF0000 16, raise 1, look 0 1 FFFF0000 16""")
    yield case("register: device 0 deep hinders no other", register(1, 2, 0x30405060), """
        lower 0 x4, look 1 0 2 0, lower 1, look 1 1 2 0,
        lower 2 x2, look 2 2 30400000 0, lower 2, look 2 3 30000000 0, look 1 1 2 0, look 0 4 0 0""")


# --- Bus bank ---------------------------------------------------------------

LEVELS = {1: 0, 2: 1, 3: 2, 4: 3, 5: 4, 6: 0, 7: 1, 8: 0, 9: 1}      # of the members
WORDS = (0x11111100, 0xFFFFFF00, 0x80000000, 0x12345600, 0x00FF0000, 0x000000FF, 0x00000001, 0xFFFFFF80, 0x40)
# What hinders members 1 to 9, for each level of the controller.
HINDRANCES = [
    (0, 0, 0, 0, 0, 0, 16, 0, 16),
    (0, 0, 0, 0, 0, 0, 16, 0, 16),
    (5, 5, 0, 0, 0, 5, 5, 5, 5),
    (5, 5, 5, 0, 0, 5, 5, 5, 5),
    (5, 5, 5, 5, 0, 5, 5, 5, 5),
]
MEMBERS_DOWN = [lower(member) for member, level in LEVELS.items() for _ in range(level)]


def member_looks(hindrances):
    """Looks at all members, each at its own level."""
    return [look(member, level, 0 if level == 4 else WORDS[member - 1], hindrances[member - 1])
            for member, level in LEVELS.items()]


def member_lowerings(hindrances):
    """A lowering of each member, and a raising of each that it took down."""
    tried = [refused(26, lower(member)) if level == 4 else lower(member, -hindrances[member - 1])
             for member, level in LEVELS.items()]
    back = [raise_(member) for member, level in LEVELS.items() if level < 4 and hindrances[member - 1] == 0]
    return tried + looks(LEVELS) + back


def bus_level_cases():
    """The controller at each level, with members at each."""
    for level in range(5):
        found = HINDRANCES[level]
        yield case("bus: the controller at level %d" % level, bus(0xFFFFFFFF, *WORDS),
                   MEMBERS_DOWN, [lower(0)] * level, member_looks(found), member_lowerings(found), member_looks(found),
                   [look(0)], [raise_(0)] * level, member_looks(HINDRANCES[0]))
    calls = MEMBERS_DOWN + member_looks(HINDRANCES[0])
    for level in range(1, 5):
        calls += [lower(0), look(0, level, 0 if level == 4 else 0xDEADBEEF, 0)] + member_looks(HINDRANCES[level])
    for level in reversed(range(4)):
        calls += [raise_(0), look(0, level, 0xDEADBEEF, 0)] + member_looks(HINDRANCES[level])
    yield case("bus: the controller goes down and back", bus(0xDEADBEEF, *WORDS), calls)


def bus_way_cases():
    for word in (0, 0xFFFFFFFF, 0x80000001):
        yield case("bus: a controller alone, %08X" % word, bus(word), there_and_back(0, (word, word, word, word, 0)))
    for word in (0x21A1B200, 0xFFFFFF00, 0x80000000, 0):
        yield case("bus: the way of a member, %08X" % word, bus(0xFF, word, 0xFF),
                   there_and_back(1, (word, word, word, word, 0)), "look 2 0 FF 0")
    for word in (0x21A1B2C3, 0x01, 0x80, 0xFFFFFFFF, 0x10):
        yield case("bus: a member held at level 1, %08X" % word, bus(0, 0, word), held_at_prepared(2, word))


def bus_cases():
    yield case("bus: 5 comes before 16, and 16 after it again", bus(0, 0xABCDEF01), """
        lower 1, look 1 1 ABCDEF01 16, lower 0, look 1 1 ABCDEF01 16, lower 0, look 1 1 ABCDEF01 5, lower 1 -5,
        raise 0, lower 1 -16, raise 1, look 1 0 ABCDEF01 0, lower 0 x2, look 1 0 ABCDEF01 5, lower 1 -5,
        raise 0, lower 1 -5, raise 0, lower 1, lower 1 -16""")
    yield case("bus: a member deeper than its controller", bus(7, 0x500, 0x500), """
        lower 1 x3, lower 0 x2, look 1 3 500 0, look 2 0 500 5, lower 1, look 1 4 0 0, lower 0, look 1 4 0 0,
        raise 1, look 1 3 500 0, lower 0, look 1 3 500 5, lower 1 -5, raise 0, lower 1,
        raise 1 x2, look 1 2 500 5, lower 1 -5, raise 0, look 1 2 500 0, lower 1, look 1 3 500 0""")
    yield case("bus: members come up before their controller and are then held", bus(1, 0x200, 0x300), """
        lower 1 x4, lower 2 x4, lower 0 x4, raise 1, look 1 3 200 5, look 2 4 0 0, lower 1 -5,
        raise 0, look 1 3 200 0, lower 1, raise 1 x4, look 1 0 200 5,
        raise 0 x2, look 0 1 1 0, lower 1, look 2 4 0 0""")
    yield case("bus: a put on members that 5 hinders", bus(0, 0x11, 0x100), """
        lower 0 x2, look 1 0 11 5, put 1 2200, look 1 0 2200 5, lower 1 -5, put 2 33, look 2 0 33 5,
        raise 0, look 1 0 2200 0, lower 1 x2, look 1 2 2200 0, lower 2, look 2 1 33 16, lower 2 -16""")
    yield case("bus: a put on the controller", bus(1, 0x200), """
        put 0 FFFFFFFF, look 0 0 FFFFFFFF 0, look 1 0 200 0, lower 0 x4, look 0 4 0 0,
        raise 0, look 0 3 FFFFFFFF 0, look 1 0 200 5""")
    yield case("bus: the low byte of each member is its own", bus(0xFF, 0x100, 0x1FF, 0x200, 0x2FF), """
        lower 1, lower 2, lower 3, lower 4, lower 1, lower 2 -16, lower 3, lower 4 -16,
        raise 2, put 2 300, lower 2 x2, lower 4 -16""", looks(range(5)))
    yield case("bus: device 1 is no controller", bus(0, 0x100, 0x200),
               "lower 1 x4, look 2 0 200 0, look 0 0 0 0, lower 2 x4, lower 0 x4", looks(range(3)))


# --- Quiet bank -------------------------------------------------------------

def quiet_cases():
    for word in (0x21A1B2C3, 0x80000000, 0xFFFFFFFF, 0x000000FF, 0):
        yield case("quiet: the way of %08X" % word, quiet(word, word),
                   there_and_back(1, (word,) * 5), [look(0, 0, word, 0)])
    yield case("quiet: device 0 deep hinders no other, nor does a word", quiet(0xFFFFFFFF, 0xFFFFFFFF, 0xFFFFFFFF), """
        lower 0 x3, lower 1, look 0 3 FFFFFFFF 0, look 1 1 FFFFFFFF 0, look 2 0 FFFFFFFF 0,
        lower 1 x2, look 1 3 FFFFFFFF 0, lower 0, look 0 4 FFFFFFFF 0,
        put 2 80000001, lower 2, look 2 1 80000001 0, lower 2, look 2 2 80000001 0""", looks(range(3)))


# --- The free bank ----------------------------------------------------------

def free_cases():
    yield case("free: the words of the choices, and 0 where they are used up",
               free((1, 2), {}, [choice(0x11), choice(0x22), choice(0x33)]), """
        lower 0, look 0 1 11 0, lower 1, look 1 1 22 0, look 0 1 11 0, lower 1, look 1 2 33 0, lower 0, look 0 2 0 0,
        lower 1, look 1 3 0 0, raise 0, look 0 1 11 0, raise 1, look 1 2 33 0, raise 1, look 1 1 22 0,
        raise 1, raise 0, look 0 0 1 0, look 1 0 2 0, put 1 3, look 1 0 3 0""")
    yield case("free: a put and a raising use a choice up, but not its word",
               free((1, 2), {0: 1}, [choice(0x11, {1: 2}), choice(0x22), choice(0x33, {0: 4}), choice(0x44, {1: 5}),
                                     choice(0x55)]), """
        lower 0 -1, put 0 9, look 0 0 9 0, look 1 0 2 2, lower 1 -2, lower 0, look 0 1 22 0, lower 0, look 0 2 33 4,
        lower 0 -4, raise 0, look 0 1 22 0, look 1 0 2 5, lower 0, look 0 2 55 0, lower 1, look 1 1 0 0""")
    yield case("free: what changes nothing uses no choice up",
               free((1, 2), {0: 7}, [choice(0x11, {0: 8, 1: 9}), choice(0x22, {1: 10})]), """
        lower 0 -7, look 0 0 1 7, raise 0 !26, raise 1 !26, lower 2 !12, put 2 5 !12, raise 255 !12, look 64 !12,
        look 0 0 1 7, look 1 0 2 0, lower 1, look 0 0 1 8, look 1 1 11 9, put 1 6 !26, lower 1 -9, look 0 0 1 8,
        put 0 0, look 0 0 0 0, look 1 1 11 10, lower 1 -10, raise 1, look 1 0 2 0""")
    up = {device: device + 1 for device in range(64)}
    down = {device: 255 - device for device in range(64)}
    yield case("free: all hindrances from 1 to 64, and others after a change",
               free(range(64), up, [choice(1, down)]), """
        look 0 0 0 1, look 1 0 1 2, look 62 0 3E 63, look 63 0 3F 64, lower 63 -64,
        put 63 5, look 63 0 5 192, look 0 0 0 255, lower 63 -192, lower 0 -255,
        put 0 6, look 63 0 5 0, lower 63, look 63 1 0 0""")
    yield case("free: hindrances for devices that it has not", free((0, 7), up, [choice(3, up), choice(4, {2: 5})]), """
        look 0 0 0 1, look 1 0 7 2, look 2 !12, put 0 1, lower 1 -2, put 1 1, look 1 0 1 0, lower 2 !12,
        lower 1, look 1 1 0 0""")
    yield case("free: words that hinder elsewhere", free((0x80000001, 0xFFFFFFFF), {}, [choice(0xFFFFFFFF)] * 4), """
        lower 0 x3, look 0 3 FFFFFFFF 0, look 1 0 FFFFFFFF 0, lower 1, look 1 1 FFFFFFFF 0, lower 1, look 1 2 0 0""")


def cases():
    for group in (register_cases, bus_level_cases, bus_way_cases, bus_cases, quiet_cases, free_cases):
        yield from group()
