"""`python3 examples.py FOLDER` writes three example boards: FOLDER/phone, FOLDER/refuses and FOLDER/circle, each with
`board.bin`, `sheet.bin` and a `README.md`, which says what the board is and what a run of it prints."""

import os
import sys
from typing import NamedTuple

import sleeprun
from making import NONE, Draft, device, link


class Device(NamedTuple):
    name: str
    word: int
    parent: str = ""
    suppliers: str = ""       # names with spaces between them


class Example(NamedTuple):
    name: str
    what: str                 # the board
    prints: str               # what a run of it prints, in short
    last: str                 # the last line of that
    register: list
    bus: list
    quiet: list

    def devices(self):
        return self.register + self.bus + self.quiet

    def board(self):
        devices = self.devices()
        number = {one.name: i for i, one in enumerate(devices)}
        records = [device(one.name.encode("ascii"), number.get(one.parent, NONE), one.word) for one in devices]
        links = [link(number[one.name], number[supplier]) for one in devices for supplier in one.suppliers.split()]
        return Draft(records, links, (len(self.register), len(self.bus), len(self.quiet))).data()

    def sheet(self):
        """No cell hinders: what refuses is the board's own."""
        return bytes(4 * len(self.devices()))

    def readme(self):
        return "%s\n`./run examples/%s` prints %s\n" % (self.what, self.name, self.prints)


PHONE = Example(
    "phone",
    "A phone: modem, PMIC, display and touch on i2c, a camera, and what they hang on; nothing hinders the 12 devices.",
    "48 lowerings, then the 48 raisings that undo them, and `= slept 0 - - 48`: all sleep.",
    "= slept 0 - - 48",
    [Device("clk", 0x21A1B2C3), Device("gpio", 0x0000FFFF, "", "clk"), Device("dma", 0x40010203, "", "clk"),
     Device("uart", 0x0001C200, "", "clk dma")],
    [Device("i2c", 0x00061A80, "", "clk gpio"), Device("pmic", 0x00003C00, "i2c", "gpio"),
     Device("display", 0x00000500, "i2c", "pmic"), Device("touch", 0x00001400, "i2c", "pmic gpio display")],
    [Device("modem", 0xC0FFEE01, "uart", "pmic"), Device("wifi", 0x80211A0C, "", "dma pmic"),
     Device("camera", 0x0000CAFE, "", "i2c pmic"), Device("battery", 0x00000EA6, "pmic")])

REFUSES = Example(
    "refuses",
    "A board whose record of `sensor` does not say that it needs the bus it sits on, so `i2c` is suspended before it.",
    "the way down to `sensor suspend -5`, the way back, and `= fault 5 sensor suspend 9`.",
    "= fault 5 sensor suspend 9",
    [Device("clk", 0x21A1B2C3, "", "pll")],
    [Device("i2c", 0x00061A80, "", "clk"), Device("sensor", 0x00001E00), Device("display", 0x00000500, "i2c")],
    [Device("pll", 0x00000018)])

CIRCLE = Example(
    "circle",
    "A board that cannot be put in an order: `clk` is fed by `pmic`, which sits on `i2c`, which is clocked by `clk`.",
    "`! 3 7 1`: superiors run in a circle, and `clk`, device 1, is the first that hangs on it.",
    "! 3 7 1",
    [Device("gpio", 0x0000FFFF), Device("clk", 0x21A1B2C3, "", "pmic")],
    [Device("i2c", 0x00061A80, "", "clk"), Device("pmic", 0x00003C00, "i2c"),
     Device("display", 0x00000500, "i2c", "pmic")],
    [])

EXAMPLES = [PHONE, REFUSES, CIRCLE]


def check(example):
    """What the README says of the run is what the model prints."""
    printed = sleeprun.answer(example.board(), example.sheet())[0]
    assert printed.splitlines()[-1] == example.last and example.last in example.prints, (example.name, printed)


def files(example):
    return {"board.bin": example.board(), "sheet.bin": example.sheet(), "README.md": example.readme().encode("ascii")}


def main(arguments):
    if len(arguments) != 1:
        sys.stderr.write("usage: python3 examples.py FOLDER\n")
        return 2
    for example in EXAMPLES:
        check(example)
        folder = os.path.join(arguments[0], example.name)
        os.makedirs(folder, exist_ok=True)
        for name, content in files(example).items():
            with open(os.path.join(folder, name), "wb") as file:
                file.write(content)
    return 0


if __name__ == "__main__":
    sys.exit(main(sys.argv[1:]))
