"""Histories of one more call at every point of an attempt: an alarm, a put, a close, an opening, a look or a step, at
each step going down, asleep, at each step coming up, landed, and awake before the opening and after the close. The
attempt is then carried on to its close, and a second one follows.

They are not among the test histories; compare_engine.py runs them besides those by chance."""

from typing import NamedTuple

from bankmaking import Call
from bankparts import Pair, bus, free, injector, quiet, register
from calls import after
from engine import ASLEEP, AWAKE, COMING_UP, GOING_DOWN, LANDED, Engine
from enginecases_made import LOWERINGS
from enginemaking import Case, any_alarm, any_close, any_open, any_step, chain, told

PUT_WORD = 0x80000001     # it hinders a register, and a member of a bus


# --- The points of an attempt -----------------------------------------------

class Point(NamedTuple):
    """Where the engine stands, how much is lowered, whether an alarm is kept, and the calls that led there."""
    stage: str
    k: int
    kept: bool
    calls: tuple


def points_down(k, calls=()):
    """Those going down, with less than k lowered, and the calls up to k."""
    found = []
    for lowered in range(k):
        found.append(Point(GOING_DOWN, lowered, False, calls))
        calls += (any_step(),)
    return found, calls


def points_up(k, calls):
    """Those coming up from k to where the attempt has landed and is closed."""
    found = []
    for lowered in range(k, 0, -1):
        found.append(Point(COMING_UP, lowered, False, calls))
        calls += (any_step(),)
    return found + [Point(LANDED, 0, False, calls), Point(AWAKE, 0, False, calls + (any_close(),))]


def points_of_sleep(n):
    """All the way down, and all the way back after an alarm."""
    found, calls = points_down(4 * n, (any_open(),))
    return ([Point(AWAKE, 0, False, ())] + found + [Point(ASLEEP, 4 * n, False, calls)]
            + points_up(4 * n, calls + (any_alarm(n - 1),)))


def points_of_fault(k):
    """Where lowering k is hindered."""
    found, calls = points_down(k, (any_open(),))
    return found + [Point(GOING_DOWN, k, False, calls)] + points_up(k, calls + (any_step(),))


def points_of_alarm(k):
    """Where an alarm is kept after k lowerings."""
    _, calls = points_down(k, (any_open(),))
    calls += (any_alarm(0),)
    return [Point(GOING_DOWN, k, True, calls)] + points_up(k, calls + (any_step(),))


# --- The call more, and what it is to be answered ---------------------------

def alarms(point, n):
    kept = point.stage in (GOING_DOWN, ASLEEP) and not point.kept
    answer = "! 2 23 0" if point.stage == AWAKE else "1" if kept else "0"
    return [any_alarm(device)._replace(intent=answer) for device in range(n)]


def puts(point, n):
    answer = "" if point.stage == AWAKE else "! 2 22 0"
    return [Call("p", device, PUT_WORD, answer) for device in range(n)]


def no_devices(point, n):
    return [Call(letter, device, 0, "! 1 12 %d at %d" % (device, point.k))
            for letter, device in (("a", n), ("p", n), ("l", 255))]


def others(point, n):
    awake = point.stage == AWAKE
    found = [any_close()._replace(intent="! 2 23 0" if awake else None), Call("l", n - 1),
             any_open()._replace(intent="" if awake else "! 2 22 0")]
    if point.stage in (AWAKE, ASLEEP, LANDED):
        found.append(any_step()._replace(intent="! 2 23 0" if awake else "! 2 24 0"))
    return found


# --- Carrying on ------------------------------------------------------------

def carried_on(engine, last):
    """Calls that bring the attempt to its close, asleep by an alarm of this device."""
    found = []
    while engine.stage() != AWAKE:
        call = {ASLEEP: any_alarm(last), LANDED: any_close()}.get(engine.stage(), any_step())
        told(engine, call)
        found.append(call)
    return found


def second_attempt(engine):
    found = [any_open()]
    told(engine, found[0])
    while engine.stage() == GOING_DOWN:
        told(engine, any_step())
        found.append(any_step())
    told(engine, any_close())
    return found + [any_close()]


def some_case(note, board, part, point, extra):
    engine = Engine(board.order(), after(part.bank(), ()))
    for call in point.calls + (extra,):
        told(engine, call)
    calls = [*point.calls, extra, *carried_on(engine, board.n - 1), *second_attempt(engine)]
    return Case("%s: `%s %d` %s, k = %d" % (note, extra.letter, extra.device, point.stage, point.k), part, board, calls,
                ends=AWAKE)


# --- Boards -----------------------------------------------------------------

WORDS = 0x21A1B200, 0x300, 0x500


def plain_part(n):
    """A bank of n devices that hinders nothing: the one member of a bus stands behind its controller in the order."""
    if n == 3:
        return Pair(injector(bus(*WORDS[:2]), {}), free(WORDS[2:]))
    return Pair(register(WORDS[0]), bus(WORDS[1])) if n == 2 else register(WORDS[0])


def held_part(n, device, phase):
    """One whose device has a cell for this phase."""
    words = WORDS[:n]
    below = Pair(register(*words[:1]), Pair(bus(*words[1:2]), quiet(*words[2:])))
    return injector(below, {(device, phase): 40 + phase})


def attempts(order):
    """Notes, banks, and points of attempts."""
    n = len(order)
    yield "to sleep and back", plain_part(n), points_of_sleep(n)
    for k, (device, phase) in enumerate(LOWERINGS[order]):
        if n < 3 or k in (0, 2, 5, 11):
            yield "a fault at lowering %d" % k, held_part(n, device, phase), points_of_fault(k)
            yield "an alarm after %d lowerings" % k, plain_part(n), points_of_alarm(k)


def cases():
    for order in LOWERINGS:
        board = chain(*order)
        for what, part, points in attempts(order):
            for point in points:
                for made in (alarms, puts, no_devices, others):
                    for extra in made(point, board.n):
                        yield some_case("n = %d, %s" % (board.n, what), board, part, point, extra)
