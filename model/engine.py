"""Reference model of the engine that takes a bank's devices down and up.

It follows "The engine" in docs/RULES.md and layer 2 of docs/REFUSALS.md, rule by rule, and is written to be read beside
them. Nothing here is meant to be fast.

An engine has the calls `open`, `step`, `alarm`, `close`, `put` and `look`, the query `stage`, and the journal, of which
`journal_count` and `entry` tell. A call that is refused raises Refused. Tickets are left out: which of them a close is
given makes no difference to what it does, and that none is let go is a matter of the program's text.
"""

from typing import NamedTuple

from fuldrik import Refused

ENGINE = 2                # the layer of the engine

OTHER_COUNT = 20          # refused: at the making, the order and the bank differ in their number of devices
NOT_RUNNING = 21          # refused: at the making, a device of the bank is not at level 0
IN_ATTEMPT = 22           # refused: an open or a put in an attempt
NOTHING_OPEN = 23         # refused: a step, an alarm or a close with nothing open
NO_STEP = 24              # refused: a step asleep or landed
NO_ENTRY = 25             # refused: a read of an entry that the journal does not have

AWAKE, GOING_DOWN, ASLEEP, COMING_UP, LANDED = STAGES = ("awake", "going down", "asleep", "coming up", "landed")
LOWERED, RAISED, HINDERED, TURNED = 1, 2, 3, 4              # the answers of a step
SLEPT, FAULT, ALARM, CANCELLED = 0, 1, 2, 3                 # the kinds of an outcome
DOWN, UP = 1, -1                                            # the directions of an entry
NONE = 255                                                  # in an outcome: no device
EBUSY = 16


class Outcome(NamedTuple):
    kind: int
    errno: int
    device: int
    phase: int
    taken: int


class Entry(NamedTuple):
    device: int
    phase: int
    direction: int
    code: int


class RefusedByBank(Refused):
    """A refusal that comes from the bank, whole, and k."""

    def __init__(self, refusal, k):
        super().__init__(refusal.layer, refusal.number, refusal.place)
        self.k = k


def refuse(number):
    raise Refused(ENGINE, number, 0)


class Engine:
    def __init__(self, order, bank):
        if len(order) != bank.count():
            refuse(OTHER_COUNT)
        if any(bank.look(device)[0] != 0 for device in range(bank.count())):
            refuse(NOT_RUNNING)
        self.order = list(order)
        self.bank = bank
        self.n = len(order)
        self.levels = [0] * self.n
        self.at = AWAKE           # the stage
        self.kept = None          # the device of the alarm that is kept
        self.outcome = None       # of the attempt, once its descent has ended
        self.entries = []         # of the journal

    # The schedule

    def lowering(self, j):
        """Device and phase of lowering j."""
        i, phase = j % self.n, j // self.n + 1
        return self.order[i if phase == 1 else self.n - 1 - i], phase

    def k(self):
        """The sum of all levels."""
        return sum(self.levels)

    def called(self, device, code):
        """The code of a lowering or a raising, of which this comes behind each: nothing else changes a level."""
        self.levels[device] = self.bank.look(device)[0]
        return code

    def lower_next(self):
        """Lowering k, taken or not; its entry."""
        device, phase = self.lowering(self.k())
        self.entries.append(Entry(device, phase, DOWN, self.called(device, self.bank.lower(device))))
        return self.entries[-1]

    def raise_last(self):
        """The raising of lowering k - 1."""
        device, phase = self.lowering(self.k() - 1)
        self.entries.append(Entry(device, phase, UP, self.called(device, self.bank.raise_(device))))

    # What the calls are made of

    def test_number(self, device):
        self.passed_on(lambda: self.bank.look(device))

    def passed_on(self, call):
        """The answer to a call of the bank, whose refusal becomes the engine's."""
        try:
            return call()
        except Refused as refusal:
            raise RefusedByBank(refusal, self.k()) from None

    def come_up(self):
        """The stage after a turn or a raising."""
        self.at = LANDED if self.k() == 0 else COMING_UP

    def turn(self, outcome):
        self.outcome = outcome
        self.come_up()

    def turned_by_alarm(self):
        """The outcome where the descent ends with an alarm kept."""
        return Outcome(ALARM, EBUSY, self.kept, self.lowering(self.k())[1], self.k())

    def cancelled(self):
        return Outcome(CANCELLED, 0, NONE, self.lowering(self.k())[1], self.k())

    # The calls

    def open(self):
        if self.at != AWAKE:
            refuse(IN_ATTEMPT)
        self.entries = []
        self.kept = None
        self.outcome = None
        self.at = GOING_DOWN

    def step(self):
        if self.at == AWAKE:
            refuse(NOTHING_OPEN)
        if self.at in (ASLEEP, LANDED):
            refuse(NO_STEP)
        return self.step_down() if self.at == GOING_DOWN else self.step_up()

    def step_down(self):
        if self.kept is not None:
            self.turn(self.turned_by_alarm())
            return TURNED
        entry = self.lower_next()
        if entry.code != 0:
            self.turn(Outcome(FAULT, -entry.code, entry.device, entry.phase, self.k()))
            return HINDERED
        if self.k() == 4 * self.n:
            self.at = ASLEEP
            self.outcome = Outcome(SLEPT, 0, NONE, 0, 4 * self.n)
        return LOWERED

    def step_up(self):
        self.raise_last()
        self.come_up()
        return RAISED

    def alarm(self, device):
        """Whether it is kept, 1 or 0."""
        self.test_number(device)
        if self.at == AWAKE:
            refuse(NOTHING_OPEN)
        if self.at == GOING_DOWN and self.kept is None:
            self.kept = device
            return 1
        if self.at == ASLEEP:
            self.kept = device
            self.turn(self.outcome._replace(device=device))
            return 1
        return 0

    def close(self):
        """The outcome."""
        if self.at == AWAKE:
            refuse(NOTHING_OPEN)
        if self.at == GOING_DOWN:
            self.outcome = self.cancelled() if self.kept is None else self.turned_by_alarm()
        while self.k() > 0:
            self.raise_last()
        self.at = AWAKE
        return self.outcome

    def put(self, device, word):
        self.test_number(device)
        if self.at != AWAKE:
            refuse(IN_ATTEMPT)
        self.passed_on(lambda: self.bank.put(device, word))

    def look(self, device):
        """Level, working word and hindrance."""
        return self.passed_on(lambda: self.bank.look(device))

    # The stage and the journal

    def stage(self):
        return self.at

    def journal_count(self):
        return len(self.entries)

    def entry(self, index):
        if not index < self.journal_count():
            refuse(NO_ENTRY)
        return self.entries[index]
