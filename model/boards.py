"""The test boards and what the model says of each.

`python3 boards.py OUTDIR` writes OUTDIR/boards.bin, with each board behind its
length in two bytes, and OUTDIR/expected.txt, with the refusal or the report of
each. `python3 boards.py --list` prints number, name, length and verdict.
"""

import os
import sys

import cases_chance
import cases_file
import cases_folders
import cases_graph
import cases_record
import fuldrik

PARTS = (cases_file, cases_record, cases_graph, cases_chance, cases_folders)
CASES = [case for part in PARTS for case in part.cases()]


def verdict(data):
    """The verdict in one line, and the full answer as it stands in expected.txt."""
    try:
        return "read", fuldrik.report(fuldrik.read_board(data))
    except fuldrik.Refused as refusal:
        return refusal.line(), refusal.line() + "\n"


def check_intents():
    """Every case that was made for one verdict gets that one from the model."""
    for number, case in enumerate(CASES):
        line = verdict(case.data)[0]
        assert case.intent in (None, line), (number, case.name, case.intent, line)


def boards_bytes():
    return b"".join(len(case.data).to_bytes(2, "little") + case.data for case in CASES)


def expected_text():
    return "".join("# %d\n%s" % (number, verdict(case.data)[1])
                   for number, case in enumerate(CASES))


def write(folder):
    os.makedirs(folder, exist_ok=True)
    with open(os.path.join(folder, "boards.bin"), "wb") as file:
        file.write(boards_bytes())
    with open(os.path.join(folder, "expected.txt"), "wb") as file:
        file.write(expected_text().encode("ascii"))


def print_list():
    for number, case in enumerate(CASES):
        print("%3d  %-56s  %4d  %s" % (number, case.name, len(case.data), verdict(case.data)[0]))


def main(arguments):
    if len(arguments) != 1:
        sys.stderr.write("usage: python3 boards.py OUTDIR | --list\n")
        return 2
    check_intents()
    if arguments[0] == "--list":
        print_list()
    else:
        write(arguments[0])
    return 0


if __name__ == "__main__":
    sys.exit(main(sys.argv[1:]))
