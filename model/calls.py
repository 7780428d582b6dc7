"""The test calls, and what the model answers to each.

`python3 calls.py OUTDIR` writes OUTDIR/calls.bin, the cases one after another, and OUTDIR/calls.txt, the answers.
`python3 calls.py --list` prints number, shape and note of each case. README.md has the format.
"""

import os
import sys

import bankcases_chance
import bankcases_kinds
import bankcases_made
import bankcases_refused
from bankmaking import NAMES
from fuldrik import Refused

CASES = [case for part in (bankcases_refused, bankcases_kinds, bankcases_made, bankcases_chance)
         for case in part.cases()]


def told(bank, call):
    """What is told of one call, behind its name and device."""
    try:
        if call.letter == "c":
            return "%d" % bank.count()
        if call.letter == "l":
            return "%d %d %d" % bank.look(call.device)
        if call.letter == "p":
            bank.put(call.device, call.word)
            return ""
        return "%d" % (bank.lower(call.device) if call.letter == "d" else bank.raise_(call.device))
    except Refused as refusal:
        return refusal.line()


def after(bank, called):
    """The bank after these calls."""
    for call in called:
        told(bank, call)
    return bank


def line(call, text):
    name = NAMES[call.letter] if call.letter == "c" else "%s %d" % (NAMES[call.letter], call.device)
    return " ".join([name, text]) if text else name


def answers(case):
    """The lines of a case: that of the refused making, or one for each call."""
    try:
        bank = case.part.bank()
    except Refused as refusal:
        return [refusal.line()]
    return [line(call, told(bank, call)) for call in case.calls]


def check_intent(case):
    """What a case was made for is what the model does: whether the bank is made, and how each call is answered."""
    try:
        bank = case.part.bank()
    except Refused as refusal:
        assert refusal.line() == "! 1 27 0" and not case.made, case.note
        return
    assert case.made is not False, case.note
    for place, call in enumerate(case.calls):
        text = told(bank, call)
        assert call.intent in (None, text), (case.note, place, call, text)


def list_bytes(called):
    """The number of calls, and the calls."""
    return len(called).to_bytes(2, "little") + b"".join(call.data() for call in called)


def case_bytes(case):
    return bytes([case.shape]) + case.part.data() + list_bytes(case.calls)


def calls_bytes(cases):
    return b"".join(case_bytes(case) for case in cases)


def numbered(lines_of_cases):
    """The lines of each case behind its number."""
    return "".join("# %d\n" % number + "".join(text + "\n" for text in lines)
                   for number, lines in enumerate(lines_of_cases))


def answers_text(cases):
    return numbered(answers(case) for case in cases)


def print_list(cases):
    for number, case in enumerate(cases):
        print("%3d  %2s  %s" % (number, case.shape, case.note))


def write_or_list(arguments, name, cases, data, text):
    """What a program does that writes cases and answers, NAME.bin and NAME.txt, or lists the cases."""
    if len(arguments) != 1:
        sys.stderr.write("usage: python3 %s.py OUTDIR | --list\n" % name)
        return 2
    if arguments[0] == "--list":
        print_list(cases)
        return 0
    os.makedirs(arguments[0], exist_ok=True)
    for ending, content in (("bin", data(cases)), ("txt", text(cases).encode("ascii"))):
        with open(os.path.join(arguments[0], "%s.%s" % (name, ending)), "wb") as file:
            file.write(content)
    return 0


def main(arguments):
    for case in CASES:
        check_intent(case)
    return write_or_list(arguments, "calls", CASES, calls_bytes, answers_text)


if __name__ == "__main__":
    sys.exit(main(sys.argv[1:]))
