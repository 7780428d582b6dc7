"""Wrong engines, each with one thing otherwise than the rules have it: what their calls do. The self-check must tell every
one of them apart."""

from engine import (ASLEEP, AWAKE, COMING_UP, FAULT, GOING_DOWN, IN_ATTEMPT, LANDED, NO_STEP, NOTHING_OPEN, SLEPT, UP,
                    Engine, Entry, refuse)
from record import pile_of


# --- The way back -----------------------------------------------------------

class RaisesTheRefused(Engine):
    """The way back after a fault begins with the phase that refused, and with the device that did."""
    def raise_last(self):
        k = self.k()
        if self.outcome is None or self.outcome.kind != FAULT or k != self.outcome.taken:
            super().raise_last()
            return
        device, phase = self.lowering(k)
        self.entries.append(Entry(device, phase, UP, self.called(device, self.bank.raise_(device))))


class CompletesInTheOrder(Engine):
    """The devices at level 1 are raised from the front of the order."""
    def raise_last(self):
        if self.k() > self.n:
            super().raise_last()
            return
        device = next(device for device in self.order if self.bank.look(device)[0] == 1)
        self.entries.append(Entry(device, 1, UP, self.called(device, self.bank.raise_(device))))


class OneSavedWord(Engine):
    """A device that is raised gets the word back that it had at level 0."""
    def raise_last(self):
        super().raise_last()
        pile = pile_of(self.bank, self.entries[-1].device)
        pile[-1] = pile[0]


class DeviceByDevice(Engine):
    """A close on the way back raises each device to level 0 before the next."""
    def close(self):
        if self.at != COMING_UP:
            return super().close()
        for device in reversed(self.order):
            for level in range(self.bank.look(device)[0], 0, -1):
                self.entries.append(Entry(device, level, UP, self.called(device, self.bank.raise_(device))))
        return super().close()


class PhaseReached(Engine):
    """The entry of a raising has the level that is reached."""
    def raise_last(self):
        super().raise_last()
        self.entries[-1] = self.entries[-1]._replace(phase=self.entries[-1].phase - 1)


class CloseRaisesNothing(Engine):
    def close(self):
        k, self.k = self.k, lambda: 0
        try:
            return super().close()
        finally:
            self.k = k


class CloseNotesNothing(Engine):
    """The raisings of a close have no entries."""
    def close(self):
        entries = list(self.entries)
        outcome = super().close()
        self.entries = entries
        return outcome


# --- The descent ------------------------------------------------------------

class AllPhasesInTheOrder(Engine):
    def lowering(self, j):
        return self.order[j % self.n], j // self.n + 1


class PreparesBackwards(Engine):
    def lowering(self, j):
        return self.order[self.n - 1 - j % self.n], j // self.n + 1


class AsleepEarly(Engine):
    def step_down(self):
        answer = super().step_down()
        if self.at == GOING_DOWN and self.k() == 4 * self.n - 1:
            self.at = ASLEEP
            self.outcome = self.cancelled()._replace(kind=SLEPT, phase=0, taken=4 * self.n)
        return answer


class HindranceBeforeAlarm(Engine):
    def step_down(self):
        kept = self.kept
        if self.bank.look(self.lowering(self.k())[0])[2] != 0:
            self.kept = None
        answer = super().step_down()
        self.kept = kept
        return answer


class StaysUpAtZero(Engine):
    """A turn with k = 0 does not land."""
    def turn(self, outcome):
        super().turn(outcome)
        self.at = COMING_UP


class CountsFromPhase2(Engine):
    """What is taken in phase 1 is not counted."""
    def turn(self, outcome):
        super().turn(outcome._replace(taken=max(0, outcome.taken - self.n)))


class CountsInThePhase(Engine):
    """What is taken is counted from the first lowering of the phase."""
    def turn(self, outcome):
        taken = outcome.taken % self.n if outcome.kind != SLEPT else outcome.taken
        super().turn(outcome._replace(taken=taken))


class CountsTheRefused(Engine):
    def turn(self, outcome):
        super().turn(outcome._replace(taken=outcome.taken + 1) if outcome.kind == FAULT else outcome)


# --- Alarms -----------------------------------------------------------------

class SecondAlarmWins(Engine):
    def alarm(self, device):
        answer = super().alarm(device)
        if self.at == GOING_DOWN:
            self.kept = device
        return answer


class LaterAlarmWins(Engine):
    """An alarm on the way back from sleep takes the place of the one that woke the engine."""
    def alarm(self, device):
        answer = super().alarm(device)
        if self.at != GOING_DOWN and self.outcome.kind == SLEPT:
            self.outcome = self.outcome._replace(device=device)
        return answer


class SecondAlarmAnswered(Engine):
    def alarm(self, device):
        return super().alarm(device) or 1


class TurnsAtOnce(Engine):
    """An alarm going down turns the attempt round without a step."""
    def alarm(self, device):
        answer = super().alarm(device)
        if self.at == GOING_DOWN:
            self.turn(self.turned_by_alarm())
        return answer


class SleepsOn(Engine):
    """An alarm asleep does not wake the engine."""
    def alarm(self, device):
        asleep = self.at == ASLEEP
        answer = super().alarm(device)
        if asleep:
            self.at = ASLEEP
        return answer


class WokenIsAlarm(Engine):
    """An attempt that slept and was woken has the kind of one that an alarm turned round."""
    def alarm(self, device):
        answer = super().alarm(device)
        if self.outcome is not None and answer == 1:
            self.outcome = self.outcome._replace(kind=2, errno=16)
        return answer


class AlarmOfThePhaseBefore(Engine):
    """The phase of an alarm is that of the last lowering."""
    def turned_by_alarm(self):
        outcome = super().turned_by_alarm()
        return outcome._replace(phase=self.lowering(max(0, outcome.taken - 1))[1])


class KeepsTheOldAlarm(Engine):
    def open(self):
        kept = self.kept
        super().open()
        self.kept = kept


# --- Refusals ---------------------------------------------------------------

class RefusedOpenEmpties(Engine):
    def open(self):
        self.entries = []
        super().open()


class RefusedStepEmpties(Engine):
    def step(self):
        if self.at in (AWAKE, ASLEEP, LANDED):
            self.entries = []
        return super().step()


class RefusedAlarmEmpties(Engine):
    def alarm(self, device):
        if self.at == AWAKE or device >= self.n:
            self.entries = []
        return super().alarm(device)


class NoStepFirst(Engine):
    """24 before 23."""
    def step(self):
        if self.at in (AWAKE, ASLEEP, LANDED):
            refuse(NO_STEP)
        return super().step()


class StageBeforeNumberOfPut(Engine):
    """22 before 12."""
    def put(self, device, word):
        if self.at != AWAKE:
            refuse(IN_ATTEMPT)
        super().put(device, word)


class StageBeforeNumberOfAlarm(Engine):
    """23 before 12."""
    def alarm(self, device):
        if self.at == AWAKE:
            refuse(NOTHING_OPEN)
        return super().alarm(device)


class PutsWhereLanded(Engine):
    def put(self, device, word):
        at, self.at = self.at, AWAKE if self.at == LANDED else self.at
        try:
            super().put(device, word)
        finally:
            self.at = at


class NumberUntested(Engine):
    """Any number is a device for an alarm."""
    def alarm(self, device):
        return super().alarm(device % self.n)


def engines_of(names):
    """The engines among these, in the order they stand in."""
    return [kind for kind in names.values() if isinstance(kind, type) and issubclass(kind, Engine) and kind is not Engine]


WRONG = engines_of(dict(globals()))
