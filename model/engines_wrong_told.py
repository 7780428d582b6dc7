"""More wrong engines: what they tell, in outcomes and in the journal."""

from engine import COMING_UP, DOWN, FAULT, GOING_DOWN, HINDERED, NONE, TURNED, Engine, Entry
from engines_wrong import engines_of
from fuldrik import Refused


# --- Outcomes ---------------------------------------------------------------

class AnswersWhatItFinds(Engine):
    """A close answers the k that it finds."""
    def close(self):
        k = self.k()
        return super().close()._replace(taken=k)


class ClosesAnyAsCancelled(Engine):
    """An attempt that is closed on its way back, with something still lowered, is cancelled."""
    def close(self):
        if self.at == COMING_UP and self.k() < 4 * self.n:
            self.outcome = self.cancelled()
        return super().close()


class CloseAsks(Engine):
    """A close going down asks for the next device's hindrance."""
    def close(self):
        if self.at == GOING_DOWN and self.kept is None:
            device, phase = self.lowering(self.k())
            hindrance = self.bank.look(device)[2]
            if hindrance != 0:
                self.turn(self.cancelled()._replace(kind=FAULT, errno=hindrance, device=device))
        return super().close()


class CloseForgetsTheAlarm(Engine):
    def close(self):
        if self.at == GOING_DOWN:
            self.kept = None
        return super().close()


class AlarmOfNone(Engine):
    def turned_by_alarm(self):
        return super().turned_by_alarm()._replace(device=NONE)


class CancelledByPhase(Engine):
    """The phase of a cancelled attempt is 0."""
    def cancelled(self):
        return super().cancelled()._replace(phase=0)


# --- The journal ------------------------------------------------------------

class KeepsTheJournal(Engine):
    """An opening does not empty the journal."""
    def open(self):
        entries = self.entries
        super().open()
        self.entries = entries


class NotesNoRefusal(Engine):
    def step_down(self):
        answer = super().step_down()
        if answer == HINDERED:
            self.entries.pop()
        return answer


class NotesTheAlarm(Engine):
    def step_down(self):
        device, phase = self.lowering(self.k())
        answer = super().step_down()
        if answer == TURNED:
            self.entries.append(Entry(device, phase, DOWN, -16))
        return answer


class NotesTheErrno(Engine):
    def lower_next(self):
        entry = super().lower_next()
        self.entries[-1] = entry._replace(code=-entry.code)
        return entry


class EmptiesAtTheClose(Engine):
    def close(self):
        outcome = super().close()
        self.entries = []
        return outcome


class OneEntryMore(Engine):
    """The entry behind the last is answered with the last."""
    def entry(self, index):
        try:
            return super().entry(index)
        except Refused:
            if not self.entries or index > self.journal_count():
                raise
            return self.entries[-1]


WRONG = engines_of(dict(globals()))
