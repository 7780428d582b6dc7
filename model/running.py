"""Reference model of the run of a board file with its fault sheet, and of the what-if.

It follows docs/RULES.md from "The bank of a board file" on, and of docs/REFUSALS.md "Layer 3: a run, a what-if, a
line", rule by rule, and is written to be read beside them. Nothing here is meant to be fast.

Running has the two calls `run` and `what_if`. One that is refused raises Refused.
"""

from typing import NamedTuple

from banks import Bus, Injector, Pair, Quiet, Register
from engine import ASLEEP, LANDED, NO_ENTRY, Engine, Outcome, refuse
from fuldrik import FILES, Refused, read_board

WRONG_SHEET = 8           # refused: the fault sheet has not 4 x n bytes
NO_DEVICE = 12            # refused: the device of a what-if is not below n
NO_LEVEL = 13             # refused: the level of a what-if is not 1 to 4


class Report(NamedTuple):
    names: list           # of the devices, by their numbers
    entries: list         # of the journal after the close
    outcome: Outcome

    def entry(self, index):
        if not index < len(self.entries):
            refuse(NO_ENTRY)
        return self.entries[index]


class Running:

    # The bank of a board file

    def bank(self, board, sheet):
        """The devices in registers, those on the bus, the quiet ones, and the cells of the sheet over all of them."""
        first_on_bus, first_quiet = board.register, board.register + board.bus
        return Injector(Pair(Register(board.words[:first_on_bus]),
                             Pair(Bus(board.words[first_on_bus:first_quiet]), Quiet(board.words[first_quiet:]))), sheet)

    # A run

    def tested(self, data, sheet):
        """The board, after the tests of the board file and of the sheet."""
        board = read_board(data)
        self.test_sheet(board, sheet)
        return board

    def test_sheet(self, board, sheet):
        if len(sheet) != 4 * len(board.names):
            raise Refused(FILES, WRONG_SHEET, 0)

    def attempt(self, engine):
        """An open, steps until the engine is asleep or landed, and a close: the outcome."""
        engine.open()
        while engine.stage() not in (ASLEEP, LANDED):
            engine.step()
        return engine.close()

    def run(self, data, sheet):
        """The report."""
        board = self.tested(data, sheet)
        engine = Engine(board.order, self.bank(board, sheet))
        outcome = self.attempt(engine)
        return Report(board.names, engine.entries, outcome)

    # A what-if

    def cell(self, board, device, level):
        """The place in the sheet of the cell of this device for this level, after their tests."""
        if not device < len(board.names):
            raise Refused(FILES, NO_DEVICE, device)
        if not 1 <= level <= 4:
            raise Refused(FILES, NO_LEVEL, 0)
        return 4 * device + level - 1

    def what_if(self, data, sheet, device, level, byte):
        """The outcome of the run with that byte in the cell. The sheet, a bytearray, is afterwards as it was."""
        cell = self.cell(self.tested(data, sheet), device, level)
        old = sheet[cell]
        sheet[cell] = byte
        try:
            return self.run(data, sheet).outcome
        finally:
            sheet[cell] = old
