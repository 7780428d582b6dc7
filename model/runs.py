"""The test runs, what-ifs and lines, and what the model answers to each.

`python3 runs.py OUTDIR` writes OUTDIR/runs.bin, the cases one after another, and OUTDIR/runs.txt, the answers.
`python3 runs.py --list` prints number, letter and note of each case. README.md has the format.
"""

import sys

import calls
import runcases_chance
import runcases_folders
import runcases_lines
import runcases_made
import runcases_refused
import runcases_whatif
import sleeprun
from fuldrik import Refused
from lines import Lines
from runmaking import OUTCOME, given
from running import Running

PARTS = (runcases_made, runcases_refused, runcases_whatif, runcases_lines, runcases_chance, runcases_folders)
CASES = [case for part in PARTS for case in part.cases()]


# --- One case ---------------------------------------------------------------

def run_lines(case, running, lines):
    return sleeprun.answer(case.data, case.sheet, running, lines)[0].splitlines()


def what_if_lines(case, running, lines):
    """The outcome or the refusal, and whether the sheet is as it was."""
    sheet = bytearray(case.sheet)
    try:
        told = "%d %d %d %d %d" % running.what_if(case.data, sheet, *case.call)
    except Refused as refusal:
        told = lines.refusal(refusal)
    return [told, "same" if sheet == case.sheet else "changed"]


def line_lines(case, running, lines):
    """The line of a run that is refused; otherwise the length or the refusal of the call, and the buffer after it."""
    size, index = case.call
    buffer = bytearray(given(size))
    try:
        report = running.run(case.data, case.sheet)
    except Refused as refusal:
        return [lines.refusal(refusal)]
    try:
        length = (lines.outcome_into(report, buffer) if index == OUTCOME
                  else lines.entry_into(report, index, buffer))
        return ["%d" % length, buffer.hex()]
    except Refused as refusal:
        return [lines.refusal(refusal), buffer.hex()]


LINES = {"r": run_lines, "w": what_if_lines, "l": line_lines}


def answers(case, running=Running(), lines=Lines()):
    """The lines of a case."""
    return LINES[case.letter](case, running, lines)


def check_answer(case, lines):
    """What a case was made for is what the model answers."""
    if case.intent is None:
        return
    told, expected = tuple(lines), case.intent
    if expected[0] == "...":
        expected = expected[1:]
        told = told[-len(expected):]
    assert told == expected, (case.note, case.call, case.intent, told)


# --- All cases --------------------------------------------------------------

def call_bytes(case):
    if case.letter == "w":
        return bytes(case.call)
    if case.letter == "l":
        return bytes([case.call[0]]) + case.call[1].to_bytes(2, "little")
    return b""


def case_bytes(case):
    files = b"".join(len(data).to_bytes(2, "little") + data for data in (case.data, case.sheet))
    return case.letter.encode("ascii") + files + call_bytes(case)


def runs_bytes(cases):
    return b"".join(case_bytes(case) for case in cases)


def answers_text(cases):
    return calls.numbered(answers(case) for case in cases)


def main(arguments):
    for case in CASES:
        check_answer(case, answers(case))
    return calls.write_or_list(arguments, "runs", CASES, runs_bytes, answers_text)


if __name__ == "__main__":
    sys.exit(main(sys.argv[1:]))
