"""`python3 sleeprun.py FOLDER`: what `sleeprun` does in that folder."""

import os
import sys

from fuldrik import Refused
from lines import Lines
from running import Running
from sleeporder import bytes_of, written

FILES = "board.bin", "sheet.bin"


def report_text(report, lines):
    """The lines of the entries, the oldest first, and then that of the outcome."""
    told = [lines.entry(report, index) for index in range(len(report.entries))] + [lines.outcome(report)]
    return "".join(line + "\n" for line in told)


def answer(data, sheet, running=Running(), lines=Lines()):
    """What is printed for the bytes of these files, and the status at the end."""
    try:
        return report_text(running.run(data, sheet), lines), 0
    except Refused as refusal:
        return lines.refusal(refusal) + "\n", 1


def main(arguments):
    if len(arguments) != 1:
        sys.stderr.write("usage: python3 sleeprun.py FOLDER\n")
        return 2
    text, status = answer(*[bytes_of(os.path.join(arguments[0], name)) for name in FILES])
    return status if written(text) else 1


if __name__ == "__main__":
    sys.exit(main(sys.argv[1:]))
