"""Histories made by chance, over all shapes.

The calls are led by the model's engine: most of them are obeyed, so that all stages and all phases are met."""

from bankcases_chance import any_word, free_word, some_errno, thin_bytes
from bankmaking import Call, any_way, count, look, lower, put, raise_
from bankparts import LEAVES, Free, built, leaves
from calls import after
from engine import ASLEEP, AWAKE, COMING_UP, GOING_DOWN, LANDED, Engine
from enginemaking import Board, Case, any_alarm, any_close, any_open, any_step, told
from chances import of_each_shape, others
from fuldrik import Refused

CALLS = 60                # about how many calls a case has


# --- Boards and banks -------------------------------------------------------

def some_size(chance):
    """Mostly a few devices, seldom many."""
    kind = chance.below(40)
    if kind == 0:
        return 40 + chance.below(25)
    return 6 + chance.below(8) if kind < 5 else 1 + chance.below(5)


def some_board(chance, n):
    """Pairs that run along some row of all devices, so there is no circle; now and then the numbers' own row."""
    row = chance.mixed(n) if chance.below(5) else list(range(n))
    pairs = []
    if n > 1:
        for _ in range(chance.below(2 * n + 1)):
            dependent = 1 + chance.below(n - 1)
            pairs.append((row[chance.below(dependent)], row[dependent]))
    return Board(n, tuple(pairs))


def some_sizes(chance, form, n):
    """How many devices each leaf has, n together."""
    sizes = [0] * len(leaves(form))
    for _ in range(n):
        sizes[chance.below(len(sizes))] += 1
    return sizes


def some_part(chance, form, n):
    """A bank of n devices. In some nothing hinders, in some a word or a cell or two, in some a lot."""
    mood = chance.below(4)
    one_in = (0, 60 * n, 20, 6)[mood]
    sizes = some_sizes(chance, form, n)

    def some_word():
        return (any_word if mood > 0 and chance.below(2 * mood * n) < mood else free_word)(chance)

    def some_hindrances():
        return thin_bytes(chance, 64, one_in) if one_in else bytes(64)

    def leaf(kind):
        words = tuple(some_word() for _ in range(sizes.pop(0)))
        if kind != "free":
            return LEAVES[kind](words)
        return Free(words, some_hindrances(),
                    tuple((any_word(chance), some_hindrances()) for _ in range(chance.below(4 * n + 6) if n < 6 else 4)))

    def some_cells(below):
        if one_in == 0 or chance.below(4) == 0:
            return bytes(chance.below(8))
        made = bytearray(thin_bytes(chance, 4 * below, 3 * one_in))
        if below > 0 and chance.below(2):
            made[chance.below(4 * below)] = some_errno(chance)
        return bytes(made)
    return built(form, leaf, some_cells)


# --- Calls beforehand -------------------------------------------------------

def some_before(chance, n):
    """Mostly nothing; else calls that leave the levels at 0, and seldom any calls."""
    kind = chance.below(8)
    if kind > 2:
        return []
    calls = [count()]
    for _ in range(chance.below(6)):
        device = chance.below(n + 1)
        calls += ([lower(device), look(device), raise_(device)], [put(device, free_word(chance))])[chance.below(2)]
    if kind == 0 and chance.below(2):
        calls += [lower(chance.below(n + 1)) for _ in range(1 + chance.below(3))]
    return [any_way(call) for call in calls]


# --- Calls of the engine ----------------------------------------------------

def some_number(chance, n):
    """Mostly a device of the board."""
    return chance.below(n) if chance.below(12) else (n, n + chance.below(256 - n), 255)[chance.below(3)]


def some_put(chance, n):
    word = free_word(chance) if chance.below(4) else any_word(chance)
    return Call("p", some_number(chance, n), word)


def some_call(chance, n):
    """Any call, whatever the stage."""
    device = some_number(chance, n)
    return (any_open(), any_step(), any_alarm(device), any_close(), some_put(chance, n), Call("l", device),
            Call("l", device))[chance.below(7)]


def likely_call(chance, stage, n):
    """A call that leads on from this stage."""
    if stage == AWAKE:
        return any_open() if chance.below(3) else some_put(chance, n)
    if stage == GOING_DOWN and chance.below(6 * n) == 0:
        return any_close() if chance.below(3) == 0 else any_alarm(some_number(chance, n))
    if stage == COMING_UP and chance.below(8 * n) == 0:
        return any_close()
    if stage == ASLEEP:
        return any_close() if chance.below(3) == 0 else any_alarm(some_number(chance, n))
    return any_close() if stage == LANDED else any_step()


def some_calls(chance, engine, length):
    calls = []
    while len(calls) < length:
        stray = chance.below(7) == 0
        call = some_call(chance, engine.n) if stray else likely_call(chance, engine.stage(), engine.n)
        calls.append(call)
        told(engine, call)
    return calls


# --- Cases ------------------------------------------------------------------

def some_case(chance, form, length=CALLS):
    n = some_size(chance)
    part = some_part(chance, form, n)
    board = some_board(chance, n if chance.below(24) else 1 + chance.below(min(n + 2, 64)))
    before = some_before(chance, n)
    try:
        engine = Engine(board.order(), after(part.bank(), before))
        calls = some_calls(chance, engine, length + 8 * n * chance.below(2))
    except Refused:
        return Case("chance, not made", part, board, [any_open(), any_step()], before, made=None)
    return Case("chance", part, board, calls, before, made=None)


def cases():
    return of_each_shape(601, 6, some_case)


def more_cases(seed, total):
    """So many others, for a comparison."""
    return others(seed, total, some_case)
