"""Histories made by hand: alarms beside hindrances, hindrances that change on the way, several attempts, orders, 64
devices, and makings."""

from bankparts import (SHAPES, Pair, bus, choice, clear_words, device_count, free, injector, leaves, quiet, register,
                       sample, shape_name)
from enginecases_made import attempt, back, down
from enginemaking import Board, case, chain, not_made

ONE, TWO = chain(0), chain(0, 1)


# --- Alarms -----------------------------------------------------------------

def alarm_cases():
    """An alarm is looked at before the next device's hindrance, and the first is the one that is kept."""
    held = {"register": register(0x300, 0x80000000), "bus": bus(0x300, 0x101),
            "free": free((1, 2), {}, [choice(5), choice(6, {1: 16}), choice(7)]),
            "injector(bus)": injector(bus(0, 0x200), {(1, 2): 16})}
    for note, part in held.items():
        yield case("an alarm and a hindrance at once: " + note, part, TWO, """
            open, step 1 x2, look 1, alarm 0 1, alarm 1 0, step 4, alarm 1 0, step 2 x2, close 2 16 0 2 2""", ends="awake")
        yield case("an alarm before a fault, closed without a step: " + note, part, TWO,
                   attempt("step 1 x2, alarm 1 1, alarm 0 0", 2, 16, 1, 2, 2), ends="awake")
        yield case("no alarm before a fault, closed without a step: " + note, part, TWO,
                   attempt("step 1 x2, alarm 2 !12@2, alarm 255 !12@2", 3, 0, 255, 2, 2), ends="awake")
        yield case("alarms after a fault: " + note, part, TWO, """
            open, step 1 x2, step 3, alarm 0 0, alarm 1 0, step 2, alarm 0 0, step 2, alarm 1 0, step !24,
            close 1 16 1 2 2""", ends="awake")
    for k in range(4):
        yield case("a refused alarm is not kept, %d taken" % k, quiet(1), ONE,
                   "open, %s alarm 1 !12@%d, alarm 0 1, step 4, %s step !24" % (down(k), k, back(k)), ends="landed")
    yield case("an alarm of the last attempt is not kept in the next", quiet(1, 2), TWO,
               attempt("alarm 1 1", 2, 16, 1, 1, 0) + attempt(down(1), 3, 0, 255, 1, 1)
               + attempt(down(8) + "alarm 1 1", 0, 0, 1, 0, 8) + attempt(down(8), 0, 0, 255, 0, 8)
               + "alarm 0 !23, " + attempt("alarm 0 1, step 4, alarm 1 0", 2, 16, 0, 1, 0)
               + attempt(down(7), 3, 0, 255, 4, 7))
    yield case("asleep, an alarm, and no second one", bus(0x300, 0x400, 0x500), chain(0, 1, 2), """
        open, step 1 x12, alarm 3 !12@12, step !24, alarm 2 1, alarm 1 0, step 2, alarm 0 0, step 2 x10, alarm 1 0,
        step 2, alarm 0 0, step !24, close 0 0 2 0 12""", ends="awake")


# --- Hindrances that change on the way --------------------------------------

def bus_cases():
    """A member that stands before its controller in the order is held once the controller has gone past it."""
    yield case("the controller goes first", bus(0x300, 0x400), chain(1, 0), """
        open, step 1 x3, look 1 1 400 5, step 3, look 1 1 400 5, step 2, look 1 1 400 0, step 2 x2, close 1 5 1 2 3""",
               ends="awake")
    yield case("the controller goes first, and the close comes before the member", bus(0x300, 0x400), chain(1, 0),
               attempt("step 1 x3, look 1 1 400 5", 3, 0, 255, 2, 3) + attempt("step 1 x3, alarm 0 1", 2, 16, 0, 2, 3))
    yield case("the controller goes between two members", bus(0x300, 0x400, 0x501), chain(1, 0, 2), """
        open, step 1 x3, look 2 1 501 16, step 3, step 2 x3, close 1 16 2 2 3, put 2 500, open, step 1 x5,
        look 1 1 400 5, look 2 2 500 0, step 3, step 2, look 1 1 400 0, look 2 2 500 0, close 1 5 1 2 5""", ends="awake")
    yield case("the controller goes first, beside registers", Pair(register(0x21A1B2C3), bus(0x300, 0x400)),
               Board(3, ((2, 1), (1, 0))), """
        open, step 1 x3, step 1 x2, look 0 2 21A10000 0, look 2 1 400 5, step 3, look 1 2 300 0, step 2 x2, look 2 1 400 0,
        step 2 x3, step !24, close 1 5 2 2 5""", ends="awake")
    yield case("the controller goes first, and a cell comes before it", injector(bus(0x300, 0x400), {(1, 2): 9}),
               chain(1, 0), """
        open, step 1 x3, look 1 1 400 9, step 3, step 2 x3, look 1 0 400 0, close 1 9 1 2 3""", ends="awake")


def free_cases():
    """A free bank chooses hindrances anew at each change: one on the next device, one that goes, one behind the engine."""
    yield case("free: the next device is hindered by the lowering before", free((1, 2), {}, [choice(0x11, {1: 7})]),
               TWO, """
        look 1 0 2 0, open, step 1, look 1 0 2 7, step 3, step 2, look 1 0 2 0, close 1 7 1 1 1, open, step 1 x2,
        close 3 0 255 2 2""", ends="awake")
    yield case("free: hindrances behind and before the engine do nothing",
               free((1, 2), {1: 9}, [choice(0x11, {0: 8}), choice(0x22, {0: 8}), choice(0x33, {1: 200}),
                                     choice(0x44, {1: 3})]), TWO, """
        look 1 0 2 9, open, step 1, look 0 1 11 8, look 1 0 2 0, step 1, look 0 1 11 8, step 1, look 1 2 33 200,
        look 0 1 11 0, step 1, look 0 2 44 0, look 1 2 33 3, step 3, step 2 x4, close 1 3 1 3 4""", ends="awake")
    yield case("free: a hindrance goes with a put of another device",
               free((1, 2), {0: 30, 1: 31}, [choice(0, {0: 32}), choice()]), TWO, """
        open, step 3, step !24, close 1 30 0 1 0, put 1 5, open, step 3, close 1 32 0 1 0, put 1 6, open, step 1 x8,
        step !24, close 0 0 255 0 8, look 1 0 6 0""", ends="awake")
    yield case("free: a raising sets hindrances, which raise no question",
               free((1,), {}, [choice(0x11), choice(0x22, {0: 44})]
                    + [choice(0x66, {0: errno}) for errno in range(45, 50)]), ONE, """
        open, step 1 x2, look 0 2 22 44, step 3, look 0 2 22 44, step 2, look 0 1 11 45, step 2, look 0 0 1 46, step !24,
        close 1 44 0 3 2, open, step 3, close 1 46 0 1 0, put 0 5, look 0 0 5 47, open, step 3, close 1 47 0 1 0,
        put 0 6, look 0 0 6 48, put 0 7, look 0 0 7 49, open, step 3, close 1 49 0 1 0""", ends="awake")
    yield case("free: a hindrance at level 4", free((1, 2), {}, [choice(1)] * 7 + [choice(4, {0: 255, 1: 254})]), TWO, """
        open, step 1 x8, look 0 4 4 255, look 1 4 1 254, step !24, alarm 0 1, step 2, look 1 4 1 0, step 2 x7,
        close 0 0 0 0 8""", ends="awake")
    yield case("free: the errno 255", free((1, 2), {0: 255, 1: 255}), TWO,
               "open, step 3, close 1 255 0 1 0, look 1 0 2 255")
    yield case("free beside registers: what these do uses up no choice",
               Pair(free((1, 2), {1: 9}, [choice(0x11, {1: 8}), choice(0x22)]), register(0x21A1B2C3)), chain(2, 0, 1), """
        open, step 1 x2, look 1 0 2 8, step 3, step 2, look 1 0 2 0, step 2, close 1 8 1 1 2, open, step 1 x12, alarm 2 1,
        step 2, look 2 3 21000000 0, close 0 0 2 0 12""", ends="awake")
    yield case("injector(free): the cell first, then what the bank chooses",
               injector(free((1, 2), {0: 5}, [choice(0x11, {1: 6})]), {(1, 1): 7}), TWO, """
        open, step 3, close 1 5 0 1 0, put 0 3, look 0 0 3 0, look 1 0 2 7, open, step 1, step 3, step 2,
        close 1 7 1 1 1""", ends="awake")


# --- Several attempts -------------------------------------------------------

def attempts_cases():
    yield case("puts between attempts: registers", register(0x80000000, 0x80000001), TWO,
               attempt("step 1 x2, step 3, put 1 0 !22, step 2 x2, put 1 0 !22", 1, 16, 1, 2, 2)
               + "put 1 7FFFFFFF, " + attempt("step 1 x3, look 1 2 7FFF0000 0, step 3, step 2 x3", 1, 16, 0, 2, 3)
               + "put 0 1234567, look 0 0 1234567 0, " + attempt("open !22, " + down(8) + "open !22", 0, 0, 255, 0, 8)
               + "put 0 FFFFFFFF, " + attempt(down(3) + "step 3, step 2, open !22", 1, 16, 0, 2, 3)
               + "look 1 0 7FFFFFFF 0",
               ends="awake")
    yield case("puts between attempts: a bus", bus(0x1FF, 0x2FF, 0x3FF), chain(0, 1, 2),
               attempt(down(3) + "step 3", 1, 16, 2, 2, 3) + "put 2 300, " + attempt(down(4) + "step 3", 1, 16, 1, 2, 4)
               + "put 1 200, put 3 0 !12@0, put 2 1300, " + attempt(down(12) + "put 2 0 !22", 0, 0, 255, 0, 12)
               + "look 2 0 1300 0, look 1 0 200 0", ends="awake")
    yield case("ten attempts, and only the last in the journal", quiet(1, 2), TWO,
               "".join(attempt(down(k), 3, 0, 255, 1 + k // 2, k) for k in range(8)) + attempt(down(8), 0, 0, 255, 0, 8)
               + attempt(down(1), 3, 0, 255, 1, 1), ends="awake")
    yield case("an attempt without an entry empties the journal", quiet(1, 2), TWO,
               attempt(down(3), 3, 0, 255, 2, 3) + "put 0 9, look 0 0 9 0, " + attempt("", 3, 0, 255, 1, 0), ends="awake")
    yield case("refused opens leave the journal as it was", quiet(1), ONE, "open, step 1 x2, open !22 x3",
               ends="going down")
    yield case("refused calls after the close leave the journal as it was", quiet(1), ONE,
               attempt(down(2), 3, 0, 255, 3, 2)
               + "step !23, close !23, alarm 0 !23, alarm 1 !12@0, put 1 5 !12@0, look 1 !12@0",
               ends="awake")
    yield case("nothing opened, and the journal is empty", quiet(1, 2), TWO,
               "close !23, step !23, alarm 0 !23, look 0 0 1 0")
    yield case("no calls at all", register(0x21A1B2C3, 5), TWO, "")
    yield case("puts alone", bus(0x1FF, 0x2FF), TWO, "put 0 0, put 1 FFFFFFFF, put 0 FFFFFFFE, look 0 0 FFFFFFFE 0",
               ends="awake")


# --- Orders -----------------------------------------------------------------

def order_cases():
    four = Board(4, ((3, 0), (0, 2)))                        # the order 1, 3, 0, 2
    for pairs in (four.pairs, four.pairs * 3):
        yield case("the order 1, 3, 0, 2", injector(injector(quiet(1, 2, 3, 4), {}), {(2, 1): 8}), Board(4, pairs),
                   attempt("step 1 x3, look 1 1 2 0, look 3 1 4 0, look 0 1 1 0, step 3", 1, 8, 2, 1, 3))
    yield case("the order 1, 3, 0, 2, all the way", quiet(1, 2, 3, 4), four, """
        open, step 1 x5, look 2 2 3 0, look 0 1 1 0, step 1, look 0 2 1 0, step 1, look 3 2 4 0, step 1,
        look 1 2 2 0, step 1, look 2 3 3 0, step 1 x7, look 1 4 2 0, step !24, alarm 3 1, step 2,
        look 1 3 2 0, step 2, look 3 3 4 0, step 2 x10,
        step 2, look 2 0 3 0, step 2, look 0 0 1 0, look 3 1 4 0, step 2, look 3 0 4 0, step 2,
        close 0 0 3 0 16""", ends="awake")
    yield case("a diamond against the numbers", Pair(register(1, 2), bus(0x300, 0x400)),
               Board(4, ((3, 1), (3, 2), (1, 0), (2, 0))), """
        open, step 1, look 3 1 400 0, step 1, look 1 1 2 0, step 1, look 2 1 300 0, step 1 x3, look 2 2 300 0,
        look 3 1 400 5, step 1, step 3, step 2 x7, close 1 5 3 2 7""", ends="awake")
    yield case("a chain of eight against the numbers", register(*clear_words(8)), chain(7, 6, 5, 4, 3, 2, 1, 0),
               attempt(down(9) + "look 0 2 10200000 0, look 7 1 17273700 0, " + down(23) + "alarm 3 1, " + back(32),
                       0, 0, 3, 0, 32))
    yield case("a chain of five in steps of two", sample(SHAPES[8], (3, 2)), chain(0, 2, 4, 1, 3),
               attempt(down(20), 0, 0, 255, 0, 20))


# --- 64 devices -------------------------------------------------------------

def many_cases():
    rising, falling = tuple(range(64)), tuple(range(63, -1, -1))
    words = clear_words(64)
    every_pair = tuple((s, d) for d in range(64) for s in range(d))
    yield case("64: asleep, and closed", quiet(*words), Board(64), attempt(down(256), 0, 0, 255, 0, 256))
    yield case("64: all the way and back by steps", register(*words), chain(*falling),
               attempt(down(256) + "step !24, open !22, alarm 64 !12@256, alarm 63 1, " + back(256) + "step !24",
                       0, 0, 63, 0, 256))
    yield case("64: each below all others", bus(*words), Board(64, every_pair), "open, " + down(256), ends="asleep")
    yield case("64: coming up", sample(SHAPES[4], (20, 24, 20)), chain(*rising),
               "open, " + down(256) + "alarm 0 1, " + back(100), ends="coming up")
    for order in (rising, falling):
        last = order[0]                       # it takes the last lowering of the phases 2 to 4
        for phase, device, taken in ((1, order[0], 0), (1, order[63], 63), (2, order[63], 64), (2, last, 127),
                                     (4, order[63], 192), (4, last, 255)):
            if (phase, taken) in ((1, 63), (4, 192)) and order == rising:
                continue
            part = injector(injector(quiet(*words), {}), {(device, phase): 255})
            yield case("64: a fault at lowering %d, device %d" % (taken, device), part, chain(*order),
                       attempt(down(taken) + "step 3", 1, 255, device, phase, taken))
    yield case("64: closed one lowering before sleep", free(words), Board(64), attempt(down(255), 3, 0, 255, 4, 255))
    yield case("64: an alarm one lowering before sleep", sample(SHAPES[11], (32, 32)), Board(64),
               attempt(down(255) + "alarm 63 1, step 4", 2, 16, 63, 4, 255))


# --- Makings ----------------------------------------------------------------

def making_cases():
    yield not_made("20: one device more on the board", 20, quiet(1, 2), Board(3))
    yield not_made("20: one device more in the bank", 20, register(1, 2, 3), Board(2, ((1, 0),)))
    yield not_made("20: 64 and 63", 20, quiet(*clear_words(63)), Board(64))
    yield not_made("20: 1 and 64", 20, bus(*clear_words(64)), Board(1))
    for form in SHAPES:
        yield not_made("20: a bank of no devices, " + shape_name(form), 20, sample(form, (0, 0, 0)), Board(1))
    for form in SHAPES:
        part = sample(form, (1, 1, 1))
        n = device_count(part)
        yield not_made("21: the last device at level 1, " + shape_name(form), 21, part, Board(n), "lower %d" % (n - 1))
        yield not_made("20 before 21: " + shape_name(form), 20, part, Board(n + 1), "lower 0 x4, lower 0 !26")
    for level in range(1, 5):
        yield not_made("21: level %d" % level, 21, quiet(1, 2, 3), chain(2, 0, 1),
                       "lower 1 x%d, look 1 %d 2 0" % (level, level))
    yield not_made("21: all at level 2", 21, bus(0, 0x100), TWO, "lower 1 x2, lower 0 x2, lower 2 !12, raise 3 !12")
    yield not_made("27: 65 words", 27, quiet(*clear_words(65)), Board(64))
    yield not_made("27: 33 + 32", 27, sample(SHAPES[3], (33, 32)), Board(2, ((1, 0),)), "lower 0")
    yield not_made("27: and other counts", 27, sample(SHAPES[10], (70,)), Board(1))


def beforehand_cases():
    yield case("beforehand: down and up again", register(0x21A1B2C3, 0x300), TWO, attempt(down(8), 0, 0, 255, 0, 8),
               before="lower 0 x4, look 0 4 0 0, raise 0 x4, raise 0 !26, lower 1, put 1 5 !26, raise 1, put 1 500")
    yield case("beforehand: a word that holds its device", register(1, 2), TWO,
               attempt(down(2) + "step 3", 1, 16, 1, 2, 2),
               before="put 1 80000000, lower 1, look 1 1 80000000 16, lower 1 -16, raise 1")
    yield case("beforehand: choices are used up",
               free((1, 2), {}, [choice(5, {0: 1}), choice(6, {1: 2}), choice(7, {0: 3, 1: 4})]), TWO,
               attempt("step 1, look 0 1 7 3, step 3", 1, 4, 1, 1, 1),
               before="put 0 9, look 0 0 9 1, lower 0 -1, put 1 8, look 1 0 8 2")
    yield case("beforehand: refused calls alone", injector(bus(0, 0x200), {(0, 1): 5}), TWO,
               attempt("step 3, step !24", 1, 5, 0, 1, 0),
               before="lower 2 !12, raise 0 !26, look 255 !12, lower 0 -5, put 2 0 !12")


def shape_cases():
    """Each shape with its devices in falling order, and a second attempt that is open at the end."""
    for form in SHAPES:
        part = sample(form, (1,) * len(leaves(form)))
        n = device_count(part)
        yield case("in falling order: " + shape_name(form), part, chain(*reversed(range(n))),
                   attempt(down(n), 3, 0, 255, 2, n) + "put 0 80000005, open, " + down(n), ends="going down")


def cases():
    for group in (alarm_cases, bus_cases, free_cases, attempts_cases, order_cases, many_cases, making_cases,
                  beforehand_cases, shape_cases):
        yield from group()
