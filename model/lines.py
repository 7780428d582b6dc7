"""Reference model of the lines of a report and of a refusal, and of lines in a buffer.

It follows "The line of an entry", "The line of an outcome", "The line of a refusal" and "Lines in a buffer" of
docs/FORMATS.md.
"""

from engine import DOWN, NONE, UP
from fuldrik import FILES, Refused

BUFFER_BYTES = 32         # the least buffer; no line is longer
SHORT_BUFFER = 11         # refused: the buffer for a line is shorter

CALLBACKS = {
    DOWN: {1: "prepare", 2: "suspend", 3: "suspend_late", 4: "suspend_noirq"},
    UP: {1: "complete", 2: "resume", 3: "resume_early", 4: "resume_noirq"},
}
PHASES = {0: "-", 1: "prepare", 2: "suspend", 3: "late", 4: "noirq"}
KINDS = {0: "slept", 1: "fault", 2: "alarm", 3: "cancel"}


class Lines:

    # The lines, without their ends

    def entry(self, report, index):
        entry = report.entry(index)
        return "%s %s %d" % (report.names[entry.device], CALLBACKS[entry.direction][entry.phase], entry.code)

    def outcome(self, report):
        outcome = report.outcome
        device = "-" if outcome.device == NONE else report.names[outcome.device]
        return "= %s %d %s %s %d" % (KINDS[outcome.kind], outcome.errno, device, PHASES[outcome.phase], outcome.taken)

    def refusal(self, refusal):
        return refusal.line()

    # In a buffer, a bytearray; each answers the line's length

    def into(self, buffer, line):
        """The line that the call `line` answers, which is made after the test of the buffer."""
        if len(buffer) < BUFFER_BYTES:
            raise Refused(FILES, SHORT_BUFFER, 0)
        text = line().encode("ascii")
        buffer[:len(text)] = text
        return len(text)

    def entry_into(self, report, index, buffer):
        return self.into(buffer, lambda: self.entry(report, index))

    def outcome_into(self, report, buffer):
        return self.into(buffer, lambda: self.outcome(report))

    def refusal_into(self, refusal, buffer):
        return self.into(buffer, lambda: self.refusal(refusal))
