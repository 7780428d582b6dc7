"""One history of an engine, held call by call to "What holds after every call" in docs/RULES.md."""

from engine import ASLEEP, AWAKE, NO_ENTRY
from enginemaking import told
from fuldrik import Refused
from record import Record, seen


class Noting:
    """A bank that notes which lowerings and raisings are made of the one below, and their codes."""

    def __init__(self, below):
        self.below = below
        self.noted = []

    def count(self):
        return self.below.count()

    def look(self, device):
        return self.below.look(device)

    def put(self, device, word):
        self.below.put(device, word)

    def lower(self, device):
        self.noted.append((device, 1, self.below.lower(device)))
        return self.noted[-1][2]

    def raise_(self, device):
        self.noted.append((device, -1, self.below.raise_(device)))
        return self.noted[-1][2]


class History:
    """An engine, and the record of the same history."""

    def __init__(self, kind, board, bank):
        self.bank = Noting(bank)
        self.engine = kind(board.order(), self.bank)
        self.record = Record(board.order())
        self.superiors = board.superiors()
        self.n = board.n
        assert self.engine.stage() == AWAKE
        self.check_records()

    def entries(self):
        return [self.engine.entry(index) for index in range(self.engine.journal_count())]

    def call(self, call):
        """One call: its answer is the one that the record tells, and the rules hold after it. Tells the stage before it,
        and the answer."""
        before, entries, at = seen(self.bank), self.entries(), self.engine.stage()
        if call.letter == "o" and at == AWAKE:
            self.bank.noted = []
        expected = self.record.tell(call, before)
        assert told(self.engine, call) == expected
        after = seen(self.bank)
        self.record.hold(after)
        assert self.engine.stage() == self.record.stage(after)
        if expected.startswith("!"):
            assert (after, self.entries(), self.engine.stage()) == (before, entries, at)
        self.check_steps(call, expected, before, after)
        self.check_words(call, expected, before, after)
        self.check_depths(after.levels)
        self.check_records()
        return at, expected

    def check_steps(self, call, expected, before, after):
        """Exactly one device is lowered or raised by a step, or none; a close raises all; no other call alters a level."""
        changes = [one - other for one, other in zip(after.levels, before.levels) if one != other]
        if call.letter == "s":
            assert changes == {"1": [1], "2": [-1]}.get(expected, [])
        elif call.letter == "c" and not expected.startswith("!"):
            assert not any(after.levels)
        else:
            assert changes == []
        if call.letter in "al" or expected in ("3", "4"):
            assert after == before
        if self.engine.stage() == ASLEEP or after.k() == 4 * self.n:
            assert after.levels == [4] * self.n

    def check_words(self, call, expected, before, after):
        if call.letter == "p" and expected == "":
            wanted = list(before.words)
            wanted[call.device] = (call.word,)
            assert after.words == wanted and not self.record.attempt
        elif self.record.attempt:
            assert after.words == self.record.held[after.k()]
        elif call.letter == "c" and not expected.startswith("!"):
            assert after.words == self.record.held[0]

    def check_depths(self, levels):
        for device, superiors in enumerate(self.superiors):
            for superior in superiors:
                assert not (levels[superior] >= 2 and levels[superior] > levels[device])
                assert not (levels[device] > 0 and levels[superior] == 0)
        assert max(levels) - min(levels) <= 1

    def check_records(self):
        entries = self.entries()
        assert entries == self.record.entries and len(entries) <= 8 * self.n
        assert [(entry.device, entry.direction, entry.code) for entry in entries] == self.bank.noted
        for index in (len(entries), len(entries) + 1, 8 * self.n + 255):
            try:
                self.engine.entry(index)
            except Refused as refusal:
                assert (refusal.layer, refusal.number, refusal.place) == (2, NO_ENTRY, 0)
            else:
                raise AssertionError("an entry that is not there")
