"""Wrong models of a run, a what-if and the lines, each with one thing otherwise than the documents have it. The test
runs must tell every one of them apart."""

from banks import Bus, Injector, Pair, Quiet, Register
from engine import GOING_DOWN, UP, Engine, Entry
from fuldrik import FILES, Refused, read_board, read_trailer
from running import NO_DEVICE, NO_LEVEL, WRONG_SHEET, Running


# --- The bank of a board file -----------------------------------------------

class CellOneFurther(Running):
    """The cell of device d for level p is byte 4 x d + p."""
    def bank(self, board, sheet):
        return super().bank(board, sheet[1:])


class CellsByLevel(Running):
    """The sheet has a row for each level, and not for each device."""
    def bank(self, board, sheet):
        n = len(board.names)
        return super().bank(board, bytes(sheet[n * level + device] for device in range(n) for level in range(4)))


class CellsByPlace(Running):
    """The cells are those of the places of the order."""
    def bank(self, board, sheet):
        places = [board.order.index(device) for device in range(len(board.names))]
        return super().bank(board, b"".join(bytes(sheet[4 * place:4 * place + 4]) for place in places))


class CellsBackwards(Running):
    """The cell for level 4 comes first."""
    def bank(self, board, sheet):
        return super().bank(board, b"".join(bytes(sheet[place:place + 4])[::-1] for place in range(0, len(sheet), 4)))


class CellsOfRegisters(Running):
    """The cells are over the register bank alone."""
    def bank(self, board, sheet):
        whole = super().bank(board, b"").below
        return Pair(Injector(whole.left, sheet), whole.right)


class OwnErrnoFirst(Running):
    """What hinders the device itself comes before its cell."""
    def bank(self, board, sheet):
        made = super().bank(board, sheet)
        look = made.look
        made.look = lambda device: (*look(device)[:2], made.below.look(device)[2] or look(device)[2])
        made.lower = lambda device: -made.look(device)[2] or made.below.lower(device)
        return made


class OtherBanks(Running):
    """Each device is in a bank of the kind that comes next."""
    def bank(self, board, sheet):
        made = super().bank(board, sheet)
        words = [board.words[:board.register], board.words[board.register:][:board.bus],
                 board.words[board.register + board.bus:]]
        made.below = Pair(Quiet(words[0]), Pair(Register(words[1]), Bus(words[2])))
        return made


class QuietBeforeBus(Running):
    """The quiet devices have the numbers before those on the bus."""
    def bank(self, board, sheet):
        words, split = board.words[board.register:], board.quiet
        right = Pair(Quiet(words[:split]), Bus(words[split:]))
        return Injector(Pair(Register(board.words[:board.register]), right), sheet)


class BusOfAll(Running):
    """The controller is device 0 of the board."""
    def bank(self, board, sheet):
        both = board.register + board.bus
        return Injector(Pair(Bus(board.words[:both]), Quiet(board.words[both:])), sheet)


class NoWords(Running):
    """The devices begin with the word 0."""
    def bank(self, board, sheet):
        board.words = [0] * len(board.words)
        return super().bank(board, sheet)


# --- The run ----------------------------------------------------------------

class SheetFirst(Running):
    """The sheet is tested as soon as the trailer tells how many devices there are, before the records."""
    def tested(self, data, sheet):
        if len(sheet) != 4 * read_trailer(data).n:
            raise Refused(FILES, WRONG_SHEET, 0)
        return super().tested(data, sheet)


class EmptySheetFirst(Running):
    """A sheet that is not there is refused before the board is."""
    def tested(self, data, sheet):
        if not sheet:
            raise Refused(FILES, WRONG_SHEET, 0)
        return super().tested(data, sheet)


class LongSheet(Running):
    """A sheet that is too long is cut."""
    def test_sheet(self, board, sheet):
        super().test_sheet(board, sheet[:4 * len(board.names)])


class ShortSheet(Running):
    """Bytes that are missing count as 0."""
    def test_sheet(self, board, sheet):
        super().test_sheet(board, bytes(sheet).ljust(4 * len(board.names), b"\0"))


class LengthInAByte(Running):
    def test_sheet(self, board, sheet):
        if (len(sheet) - 4 * len(board.names)) % 256 != 0:
            super().test_sheet(board, sheet)


class SheetByPlace(Running):
    """The refusal of a sheet has its length as place."""
    def test_sheet(self, board, sheet):
        if len(sheet) != 4 * len(board.names):
            raise Refused(FILES, WRONG_SHEET, len(sheet))


class OrderOfNumbers(Running):
    def tested(self, data, sheet):
        board = super().tested(data, sheet)
        board.order = list(range(len(board.order)))
        return board


class BeforeTheClose(Running):
    """The journal is that before the close."""
    def run(self, data, sheet):
        report, board = super().run(data, sheet), read_board(data)
        engine = Engine(board.order, self.bank(board, sheet))
        engine.open()
        while engine.stage() == GOING_DOWN:
            engine.step()
        return report if report.outcome.kind else report._replace(entries=engine.entries)


class Changed(Running):
    """The report is another one."""
    def run(self, data, sheet):
        return self.changed(super().run(data, sheet), read_board(data))

    def changed(self, report, board):
        return report


class NamesByPlace(Changed):
    """The names are those of the places of the order, and not of the numbers."""
    def changed(self, report, board):
        return report._replace(names=[board.names[device] for device in board.order])


class TakenOneMore(Changed):
    """What is refused is counted too."""
    def changed(self, report, board):
        outcome = report.outcome
        return report._replace(outcome=outcome._replace(taken=outcome.taken + 1) if outcome.kind else outcome)


class TakenInThePhase(Changed):
    def changed(self, report, board):
        outcome = report.outcome
        taken = outcome.taken % len(board.names) if outcome.kind else outcome.taken
        return report._replace(outcome=outcome._replace(taken=taken))


class NothingRefused(Changed):
    """The journal does not have the lowering that is refused."""
    def changed(self, report, board):
        return report._replace(entries=[entry for entry in report.entries if entry.code == 0])


class PhaseReached(Changed):
    """The entry of a raising has the level that is reached."""
    def changed(self, report, board):
        return report._replace(entries=[Entry(device, max(1, phase - 1) if direction == UP else phase, direction, code)
                                        for device, phase, direction, code in report.entries])


class NewestFirst(Changed):
    def changed(self, report, board):
        return report._replace(entries=report.entries[::-1])


# --- The what-if ------------------------------------------------------------

class ByteStays(Running):
    """The byte stays in the sheet."""
    def what_if(self, data, sheet, device, level, byte):
        outcome = super().what_if(data, sheet, device, level, byte)
        sheet[4 * device + level - 1] = byte
        return outcome


class ByteBecomesZero(Running):
    """The cell is 0 afterwards, and not what it was."""
    def what_if(self, data, sheet, device, level, byte):
        outcome = super().what_if(data, sheet, device, level, byte)
        sheet[4 * device + level - 1] = 0
        return outcome


class ZeroIsNoByte(Running):
    """With 0 the sheet is taken as it is."""
    def what_if(self, data, sheet, device, level, byte):
        cell = 4 * device + level - 1
        return super().what_if(data, sheet, device, level,
                               byte or (sheet[cell] if 0 <= cell < len(sheet) else 0))


class ByteBeside(Running):
    """The byte comes to what is in the cell, and not in its place."""
    def what_if(self, data, sheet, device, level, byte):
        cell = 4 * device + level - 1
        return super().what_if(data, sheet, device, level,
                               byte | (sheet[cell] if 0 <= cell < len(sheet) else 0))


class OnlyThatCell(Running):
    """All other cells are taken as 0."""
    def what_if(self, data, sheet, device, level, byte):
        return super().what_if(data, bytearray(len(sheet)), device, level, byte)


class LevelFromZero(Running):
    """The cells of a what-if are counted from level 0."""
    def cell(self, board, device, level):
        return min(super().cell(board, device, level) + 1, 4 * len(board.names) - 1)


class LevelFirst(Running):
    """13 before 12."""
    def cell(self, board, device, level):
        if not 1 <= level <= 4:
            raise Refused(FILES, NO_LEVEL, 0)
        return super().cell(board, device, level)


class CellInTheSheet(Running):
    """What is tested is only that the place is one of the sheet's."""
    def cell(self, board, device, level):
        place = 4 * device + level - 1
        return place if 0 <= place < 4 * len(board.names) else super().cell(board, device, level)


class DeviceOfMost(Running):
    """The device is one of 64."""
    def cell(self, board, device, level):
        return super().cell(board, device, level) if device >= 64 else min(super().cell(board, 0, level) + 4 * device,
                                                                           4 * len(board.names) - 1)


class NumbersBeforeTheSheet(Running):
    """12 and 13 before 8."""
    def what_if(self, data, sheet, device, level, byte):
        self.cell(read_board(data), device, level)
        return super().what_if(data, sheet, device, level, byte)


class OtherPlaces(Running):
    """The refusal of a device has the place 0, and that of a level the level."""
    def cell(self, board, device, level):
        try:
            return super().cell(board, device, level)
        except Refused as refusal:
            place = 0 if refusal.number == NO_DEVICE else level
            raise Refused(refusal.layer, refusal.number, place) from None


class OfTheBank(Running):
    """The refusal of a device is that of a bank."""
    def cell(self, board, device, level):
        try:
            return super().cell(board, device, level)
        except Refused as refusal:
            layer = 1 if refusal.number == NO_DEVICE else FILES
            raise Refused(layer, refusal.number, refusal.place) from None


def models_of(names, base):
    """The models among these that alter this one, in the order they stand in. Changed alters nothing by itself."""
    return [kind for kind in names.values()
            if isinstance(kind, type) and issubclass(kind, base) and kind not in (base, Changed)]


WRONG = models_of(dict(globals()), Running)
