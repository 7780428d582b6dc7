"""Checks of the engine's model: "What holds after every call" in docs/RULES.md, over all histories of small boards, all
short sequences of calls, the test histories and others made by chance. Wrong engines must be told apart."""

import itertools
import pickle

import calls
import enginecases_points
import engines_wrong
import engines_wrong_told
import histories
import selfcheck_calls
from bankmaking import Call
from bankparts import SHAPES, Pair, bus, choice, free, injector, quiet, register, shape_name
from engine import ASLEEP, AWAKE, COMING_UP, GOING_DOWN, LANDED, STAGES, Engine
from enginecases_chance import more_cases
from enginemaking import Board, any_alarm, any_close, any_open, any_step, chain
from fuldrik import Refused
from record import seen
from selfcheck_history import History


# --- All histories of small boards ------------------------------------------

def alphabet(n, words):
    """The calls, with each device and one number that is none, and these words."""
    found = [any_open(), any_step(), any_close(), Call("l", 0), Call("p", n, 1)]
    found += [any_alarm(device) for device in range(n + 1)]
    return found + [Call("p", device, word) for device in range(n) for word in words]


def fields(thing):
    """All that a thing of the model holds, as text."""
    if hasattr(thing, "__dict__"):
        return "%s{%s}" % (type(thing).__name__, ",".join("%s=%s" % (name, fields(value))
                                                        for name, value in sorted(vars(thing).items())))
    return repr(thing)


def all_histories(kind, board, part, words):
    """Holds the rules in all histories of any length, by going once through each state that some history leads to. Says
    how many states there are and how many calls that was."""
    called = alphabet(board.n, words)
    first = History(kind, board, part.bank())
    met, waiting, count = {fields(first)}, [pickle.dumps(first)], 0
    while waiting:
        data = waiting.pop()
        for call in called:
            history = pickle.loads(data)
            history.call(call)
            count += 1
            key = fields(history)
            if key not in met:
                met.add(key)
                waiting.append(pickle.dumps(history))
    return len(met), count


def all_short_histories(kind, board, part, words, length):
    """All sequences of so many calls, each from its start, and no two taken for the same. Says how many."""
    called = alphabet(board.n, words)
    level = [pickle.dumps(History(kind, board, part.bank()))]
    for left in reversed(range(length)):
        longer = []
        for data in level:
            for call in called:
                history = pickle.loads(data)
                history.call(call)
                if left > 0:
                    longer.append(pickle.dumps(history))
        level = longer
    return len(called) ** length


FEW = [choice(0x11, {1: 7}), choice(0x22, {0: 8}), choice(0x33), choice(0x44, {1: 9}), choice(0x55, {0: 3})]
QUIET_CHOICES = [choice(0x11 * number) for number in range(1, 8)]

# Boards, banks and words to put.
SMALL = [
    (Board(1), register(0x21A1B2C3), (0x80000000, 0x7F654321)),
    (Board(1), bus(0x101), (0x101, 0)),
    (Board(1), free((1,), {}, FEW[1:] + FEW), (5,)),
    (Board(1), injector(free((1,), {}, QUIET_CHOICES), {(0, 4): 9}), (5,)),
    (Board(1), injector(bus(1), {(0, 3): 200}), (5,)),
    (Board(2), register(0x21A1B2C3, 0x300), (0x80000001, 0x7F654321)),
    (chain(1, 0), register(0x21A1B2C3, 0x300), (0x80000001, 0x7F654321)),
    (chain(0, 1), bus(0x300, 0x200), (0x101, 0x200)),
    (chain(1, 0), bus(0x300, 0x200), (0x101,)),
    (chain(1, 0), Pair(register(0x21A1B2C3), quiet(7)), (0x80000001,)),
    (chain(0, 1), free((1, 2), {}, QUIET_CHOICES), ()),
    (chain(1, 0), free((1, 2), {0: 4}, FEW), (5,)),
    (Board(2), injector(register(0x21A1B2C3, 0x300), {(0, 4): 9}), (0x7F654321,)),
    (chain(1, 0), injector(register(0x21A1B2C3, 0x300), {(0, 3): 9}), (0x7F654321,)),
    (chain(2, 0, 1), register(0x21A1B2C3, 0x300, 0x12345678), ()),
    (chain(2, 0, 1), injector(register(0x21A1B2C3, 0x300, 0x12345678), {(0, 3): 9}), ()),
]


def check_small():
    states, count = 0, 0
    for board, part, words in SMALL:
        found, made = all_histories(Engine, board, part, words)
        states, count = states + found, count + made
    return states, count


def check_short():
    return (all_short_histories(Engine, Board(1), register(0x21A1B2C3), (0x80000000,), 5)
            + all_short_histories(Engine, chain(1, 0), bus(0x300, 0x200), (), 4))


# --- Longer histories -------------------------------------------------------

def run(kind, case):
    """All calls of a case, held to the rules. Tells of each the stage before it, its letter, its answer, and the stage."""
    history = History(kind, case.board, calls.after(case.part.bank(), case.before))
    for call in case.calls:
        at, answer = history.call(call)
        yield at, call.letter, answer, history.engine.stage()


def is_made(case):
    try:
        Engine(case.board.order(), calls.after(case.part.bank(), case.before))
    except Refused:
        return False
    return True


def check_long():
    """The rules over the test histories and others. Says how many histories and calls."""
    made = [case for case in histories.CASES + list(more_cases(602, 250)) if is_made(case)]
    return len(made), sum(1 for case in made for _ in run(Engine, case))


def check_points():
    """The histories of one more call at every point of an attempt: what they are to be answered, and the rules."""
    cases = list(enginecases_points.cases())
    for case in cases:
        histories.check_intent(case)
    return len(cases), sum(1 for case in cases for _ in run(Engine, case))


# --- The example of docs/RULES.md -------------------------------------------

def check_example():
    """clk, i2c and lcd, with a cell that hinders i2c: the answers, and the journal, written out."""
    case = histories.CASES[0]
    history = History(Engine, case.board, case.part.bank())
    answers = [history.call(call)[1] for call in [any_open()] + [any_step()] * 9 + [any_close()]]
    assert answers == ["", "1", "1", "1", "1", "3", "2", "2", "2", "2", "1 110 1 2 4"]
    assert history.entries() == [(0, 1, 1, 0), (1, 1, 1, 0), (2, 1, 1, 0), (2, 2, 1, 0), (1, 2, 1, -110),
                                 (2, 2, -1, 0), (2, 1, -1, 0), (1, 1, -1, 0), (0, 1, -1, 0)]


# --- Making -----------------------------------------------------------------

def check_making():
    """20 where the counts differ, otherwise 21 where a level is not 0; and a bank that is handed back as it was."""
    counts = {"made": 0, 20: 0, 21: 0}
    banks = [levels for m in range(4) for levels in itertools.product(range(5), repeat=m)]
    for n, levels in itertools.product((1, 2, 3), banks):
        bank = quiet(*levels).bank()
        calls.after(bank, [Call("d", device) for device, level in enumerate(levels) for _ in range(level)])
        before, number = seen(bank), 20 if len(levels) != n else 21 if any(levels) else "made"
        counts[number] += 1
        try:
            engine = Engine(list(range(n)), bank)
        except Refused as refusal:
            assert (refusal.layer, refusal.number, refusal.place) == (2, number, 0)
        else:
            assert number == "made" and engine.stage() == AWAKE and engine.journal_count() == 0
        assert seen(bank) == before
    return counts


# --- Wrong engines ----------------------------------------------------------

TELLING = [(case, histories.answers(case)) for case in histories.CASES if case.board.n <= 4]


def breaks_rules(kind):
    """Whether the rules do not hold in all histories of small boards."""
    try:
        for board, part, words in SMALL[5:14]:
            all_histories(kind, board, part, words)
    except AssertionError:
        return True
    return False


def answers_differ(kind):
    """Whether some test history is answered otherwise, or has another state at its end."""
    return any(histories.answers(case, kind) != lines for case, lines in TELLING)


def check_wrong():
    """Says how many wrong engines there are."""
    wrong = engines_wrong.WRONG + engines_wrong_told.WRONG
    for kind in wrong:
        assert breaks_rules(kind), "the rules do not tell %s apart" % kind.__name__
        assert answers_differ(kind), "the test histories do not tell %s apart" % kind.__name__
    return len(wrong)


# --- The test histories -----------------------------------------------------

class HistoriesReader(selfcheck_calls.CallsReader):
    """Reads histories.bin as README.md has it."""

    def history(self):
        part, before = self.case()
        n = self.number(1)
        pairs = tuple((self.number(1), self.number(1)) for _ in range(self.number(2)))
        return part, before, Board(n, pairs), self.calls()


def check_reading():
    """The bytes of the test histories say the cases that they were made of."""
    data = histories.histories_bytes(histories.CASES)
    reader = HistoriesReader(data)
    for case in histories.CASES:
        expected = case.part, [call[:3] for call in case.before], case.board, [call[:3] for call in case.calls]
        assert reader.history() == expected, case.note
    assert reader.place == len(data) < 600000
    return len(data)


def every_answer():
    """What is to be met: the stage before a call, its letter, its answer without what differs from board to board, and the
    stage after it."""
    in_attempt = STAGES[1:]
    met = {(at, letter, "! 1 12", at) for at in STAGES for letter in "apl"}
    met |= {(at, "l", "", at) for at in STAGES} | {(at, letter, "! 2 22", at) for at in in_attempt for letter in "op"}
    met |= {(AWAKE, letter, "! 2 23", AWAKE) for letter in "sac"} | {(AWAKE, "o", "", GOING_DOWN), (AWAKE, "p", "", AWAKE)}
    met |= {(at, "s", "! 2 24", at) for at in (ASLEEP, LANDED)}
    met |= {(GOING_DOWN, "s", "1", GOING_DOWN), (GOING_DOWN, "s", "1", ASLEEP)}
    met |= {(GOING_DOWN, "s", turned, at) for turned in "34" for at in (COMING_UP, LANDED)}
    met |= {(COMING_UP, "s", "2", COMING_UP), (COMING_UP, "s", "2", LANDED), (ASLEEP, "a", "1", COMING_UP)}
    met |= {(GOING_DOWN, "a", kept, GOING_DOWN) for kept in "01"} | {(at, "a", "0", at) for at in (COMING_UP, LANDED)}
    met |= {(GOING_DOWN, "c", kind, AWAKE) for kind in "23"} | {(ASLEEP, "c", "0", AWAKE)}
    return met | {(at, "c", kind, AWAKE) for kind in "012" for at in (COMING_UP, LANDED)}


def shortened(letter, answer):
    words = answer.split()
    if answer.startswith("!"):
        return " ".join(words[:3])
    return words[0] if letter in "sac" else ""


def impossible(form):
    """A quiet bank hinders nothing, and only cells and choices hinder the first lowering."""
    if form == "quiet":
        return {one for one in every_answer() if one[1:3] in (("s", "3"), ("c", "1"))}
    name = shape_name(form)
    return set() if "injector" in name or "free" in name else {(GOING_DOWN, "s", "3", LANDED)}


def check_coverage():
    """Every answer in every stage, on each shape as far as it can be; faults at each lowering of small boards."""
    by_shape = {shape: set() for shape in range(len(SHAPES))}
    faults, makings = set(), set()
    for case in histories.CASES:
        histories.check_intent(case)
        if not is_made(case):
            lines = histories.answers(case)
            makings.add((case.shape, lines[1 if lines[0].startswith("order") else 0]))
            continue
        for at, letter, answer, after in run(Engine, case):
            by_shape[case.shape].add((at, letter, shortened(letter, answer), after))
            if letter == "c" and answer.startswith("1 "):
                faults.add((case.board.n, *map(int, answer.split()[3:])))
    for shape, form in enumerate(SHAPES):
        assert by_shape[shape] == every_answer() - impossible(form), form
        assert {(shape, "! 2 20 0"), (shape, "! 2 21 0")} <= makings
    assert any(line == "! 1 27 0" for _, line in makings)
    for n in (1, 2, 3, 64):
        assert {(n, 1, 0), (n, 4, 4 * n - 1)} <= faults
    assert {(n, 1 + taken // n, taken) for n in (1, 2, 3) for taken in range(4 * n)} <= faults
    assert len(histories.answers_text(histories.CASES)) < 900000


def main():
    check_example()
    print("ok: makings of engines: %(made)d made, %(20)d refused with 20, %(21)d with 21"
          % {str(name): count for name, count in check_making().items()})
    print("ok: all histories of small boards, %d states, %d calls" % check_small())
    print("ok: %d short histories" % check_short())
    print("ok: %d long histories, %d calls" % check_long())
    print("ok: a call more at every point of an attempt, %d histories, %d calls" % check_points())
    check_coverage()
    print("ok: %d test histories, %d bytes" % (len(histories.CASES), check_reading()))
    print("ok: %d wrong engines are told apart" % check_wrong())


if __name__ == "__main__":
    main()
