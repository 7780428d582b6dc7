"""The test histories, and what the model answers to each.

`python3 histories.py OUTDIR` writes OUTDIR/histories.bin, the cases one after another, and OUTDIR/histories.txt, the
answers. `python3 histories.py --list` prints number, shape and note of each case. README.md has the format.
"""

import sys

import calls
import enginecases_boards
import enginecases_chance
import enginecases_made
from engine import AWAKE, Engine
from enginemaking import NAMES, WITHOUT_DEVICE, any_close, refusal_line, told
from fuldrik import Refused

CASES = [case for part in (enginecases_made, enginecases_boards, enginecases_chance)
         for case in part.cases()]


# --- One case ---------------------------------------------------------------

def line(call, text):
    name = NAMES[call.letter] if call.letter in WITHOUT_DEVICE else "%s %d" % (NAMES[call.letter], call.device)
    return " ".join([name, text]) if text else name


def device_lines(bank):
    return ["device %d %d %d %d" % (device, *bank.look(device)) for device in range(bank.count())]


def entry_line(engine, index):
    try:
        return "entry %d %d %d %d" % engine.entry(index)
    except Refused as refusal:
        return "entry %d %s" % (index, refusal_line(refusal))


def journal_lines(engine):
    """A line for each entry, and one for the entry behind the last."""
    return [entry_line(engine, index) for index in range(engine.journal_count() + 1)]


def state_lines(engine):
    return ["stage %s" % engine.stage()] + device_lines(engine.bank) + journal_lines(engine)


def end_lines(engine):
    """The state after the calls, and where an attempt is open its close, and the state after that."""
    lines = state_lines(engine)
    if engine.stage() == AWAKE:
        return lines
    return lines + [line(any_close(), told(engine, any_close()))] + state_lines(engine)


def answers(case, kind=Engine):
    """The lines of a case, by this kind of engine."""
    try:
        bank = calls.after(case.part.bank(), case.before)
    except Refused as refusal:
        return [refusal.line()]
    order = case.board.order()
    lines = [" ".join(["order"] + [str(device) for device in order])]
    try:
        engine = kind(order, bank)
    except Refused as refusal:
        return lines + [refusal.line()] + device_lines(bank)
    return lines + [line(call, told(engine, call)) for call in case.calls] + end_lines(engine)


# --- All cases --------------------------------------------------------------

def check_answers(case, answer, called):
    for place, call in enumerate(called):
        text = answer(call)
        assert call.intent in (None, text), (case.note, place, call, text)


def check_intent(case):
    """What a case was made for is what the model does: whether bank and engine are made, how each call is answered, those
    that are made of the bank beforehand too, and the stage at the end."""
    try:
        bank = case.part.bank()
        check_answers(case, lambda call: calls.told(bank, call), case.before)
        engine = Engine(case.board.order(), bank)
    except Refused as refusal:
        assert case.made in (None, refusal.line()), (case.note, refusal.line())
        return
    assert not case.made, case.note
    check_answers(case, lambda call: told(engine, call), case.calls)
    assert case.ends in (None, engine.stage()), (case.note, engine.stage())


def case_bytes(case):
    return (bytes([case.shape]) + case.part.data() + calls.list_bytes(case.before) + case.board.data()
            + calls.list_bytes(case.calls))


def histories_bytes(cases):
    return b"".join(case_bytes(case) for case in cases)


def answers_text(cases):
    return calls.numbered(answers(case) for case in cases)


def main(arguments):
    for case in CASES:
        check_intent(case)
    return calls.write_or_list(arguments, "histories", CASES, histories_bytes, answers_text)


if __name__ == "__main__":
    sys.exit(main(sys.argv[1:]))
