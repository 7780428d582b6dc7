"""More wrong models of runs: the lines of a report, and lines in a buffer."""

from engine import DOWN
from fuldrik import FILES, Refused
from lines import BUFFER_BYTES, CALLBACKS, SHORT_BUFFER, Lines
from runs_wrong import models_of


# --- The lines --------------------------------------------------------------

class LateAsTheCallback(Lines):
    """The phases of an outcome are named as the callbacks are."""
    def outcome(self, report):
        return super().outcome(report).replace(" late ", " suspend_late ").replace(" noirq ", " suspend_noirq ")


class NoSign(Lines):
    def entry(self, report, index):
        return super().entry(report, index).replace("-", "")


class NoCode(Lines):
    """A code of 0 is left out."""
    def entry(self, report, index):
        line = super().entry(report, index)
        return line[:-2] if line.endswith(" 0") else line


class OneWordForBothWays(Lines):
    """A raising has the callback of the lowering that it undoes."""
    def entry(self, report, index):
        entry = report.entry(index)
        return "%s %s %d" % (report.names[entry.device], CALLBACKS[DOWN][entry.phase], entry.code)


class CompleteLast(Lines):
    """`complete` is said of each raising from suspend, and `resume` of the last."""
    def entry(self, report, index):
        line = super().entry(report, index).split(" ")
        line[1] = {"complete": "resume", "resume": "complete"}.get(line[1], line[1])
        return " ".join(line)


class EarlyAndNoirq(Lines):
    """`resume_noirq` and `resume_early` are each other's."""
    def entry(self, report, index):
        line = super().entry(report, index).split(" ")
        line[1] = {"resume_noirq": "resume_early", "resume_early": "resume_noirq"}.get(line[1], line[1])
        return " ".join(line)


class NumberForName(Lines):
    """An outcome has the number of its device."""
    def outcome(self, report):
        words = super().outcome(report).split(" ")
        return " ".join(words[:3] + ["%d" % report.outcome.device] + words[4:])


class NothingForNone(Lines):
    """Where there is no device and no phase, there is no word."""
    def outcome(self, report):
        return super().outcome(report).replace(" - -", "")


class WithoutTheMark(Lines):
    def outcome(self, report):
        return super().outcome(report)[2:]


class PaddedName(Lines):
    """Names have eight bytes, and zeros behind them."""
    def entry(self, report, index):
        name, rest = super().entry(report, index).split(" ", 1)
        return name.ljust(8, "\0") + " " + rest


# --- In a buffer ------------------------------------------------------------

class AsLongAsTheLine(Lines):
    """A buffer that is long enough for the line is taken."""
    def into(self, buffer, line):
        if len(buffer) < BUFFER_BYTES and len(line()) <= len(buffer):
            text = line().encode("ascii")
            buffer[:len(text)] = text
            return len(text)
        return super().into(buffer, line)


class MoreThan32(Lines):
    """A buffer of 32 bytes is refused too."""
    def into(self, buffer, line):
        return super().into(buffer[:-1] if len(buffer) == BUFFER_BYTES else buffer, line)


class LineFirst(Lines):
    """25 before 11."""
    def into(self, buffer, line):
        line()
        return super().into(buffer, line)


class ZerosBehind(Lines):
    """The bytes behind the line become 0."""
    def into(self, buffer, line):
        length = super().into(buffer, line)
        buffer[length:] = bytes(len(buffer) - length)
        return length


class EndsTheLine(Lines):
    """The line end is written behind the line."""
    def into(self, buffer, line):
        length = super().into(buffer, line)
        buffer[length:length + 1] = b"\n"[:len(buffer) - length]
        return length


class CountsTheEnd(Lines):
    """The length has the line end in it."""
    def into(self, buffer, line):
        return super().into(buffer, line) + 1


class Writes32(Lines):
    """The answer is always 32."""
    def into(self, buffer, line):
        super().into(buffer, line)
        return BUFFER_BYTES


class AtTheEnd(Lines):
    """The line is written to the buffer's end."""
    def into(self, buffer, line):
        before = bytes(buffer)
        length = super().into(buffer, line)
        buffer[:] = before[:len(before) - length] + buffer[:length]
        return length


class RefusedClears(Lines):
    """Where the buffer is refused, it is cleared."""
    def into(self, buffer, line):
        try:
            return super().into(buffer, line)
        except Refused as refusal:
            if refusal.number == SHORT_BUFFER:
                buffer[:] = bytes(len(buffer))
            raise


class RefusedEntryClears(Lines):
    """Where the index is refused, the buffer is cleared."""
    def into(self, buffer, line):
        try:
            return super().into(buffer, line)
        except Refused as refusal:
            if refusal.number != SHORT_BUFFER:
                buffer[:] = bytes(len(buffer))
            raise


class IndexInAByte(Lines):
    def entry(self, report, index):
        return super().entry(report, index % 256)


class OneEntryMore(Lines):
    """The entry behind the last is answered with the last."""
    def entry(self, report, index):
        return super().entry(report, index - 1 if index == len(report.entries) else index)


class FromOne(Lines):
    """The oldest entry has the index 1."""
    def entry_into(self, report, index, buffer):
        return super().entry_into(report, index - 1 if index else 65534, buffer)


class NoEntryOfFiles(Lines):
    """The refusal of an index is one of layer 3, with the index as place."""
    def entry_into(self, report, index, buffer):
        try:
            return super().entry_into(report, index, buffer)
        except Refused as refusal:
            if refusal.layer == FILES:
                raise
            raise Refused(FILES, refusal.number, index) from None


WRONG = models_of(dict(globals()), Lines)
