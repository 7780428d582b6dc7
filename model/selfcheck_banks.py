"""Checks of the model of banks: the documents' examples, the rules for every bank, and all states of a small bus. Banks
that are to answer alike are in selfcheck_samebanks.py, and the test calls in selfcheck_calls.py."""

import copy

import banks
import calls
from bankcases_chance import more_cases, some_word
from bankmaking import any_way, look, lower, put, raise_
from bankparts import device_count
from making import Chance



# --- The examples of docs/RULES.md ------------------------------------------

def words_down(bank, device):
    """The words that come on top where the device goes down as far as it can, and the code that it ends with."""
    words = []
    while bank.look(device)[0] < 4:
        code = bank.lower(device)
        if code != 0:
            return words, code
        words.append(bank.look(device)[1])
    return words, 0


def check_examples():
    bank = banks.Register([0x21A1B2C3, 0x80000000])
    assert words_down(bank, 0) == ([0x21A1B2C3, 0x21A10000, 0x21000000, 0], 0)
    assert words_down(bank, 1) == ([0x80000000], -16)
    assert bank.look(1) == (1, 0x80000000, 16)
    # A device keeps a word for each level that it has left.
    assert bank.piles[0] == [0x21A1B2C3, 0x21A1B2C3, 0x21A10000, 0x21000000, 0]
    for kind in (banks.Register, banks.Bus, banks.Quiet):
        assert kind([1] * 64).count() == 64 and kind([]).count() == 0
        assert [kind([7] * 64).look(device) for device in range(64)] == [(0, 7, 0)] * 64


def check_register_words():
    """The first word alone tells the word at each level."""
    chance = Chance(501)
    for _ in range(500):
        word = some_word(chance)
        words, code = words_down(banks.Register([word]), 0)
        if code == 0:
            assert words == [word, word & 0xFFFF0000, word & 0xFF000000, 0]
        assert (code == -16) == bool(word & 0x80000000)


# --- What is said of every bank ---------------------------------------------

def state(bank):
    """Level, working word and hindrance of each device."""
    return [bank.look(device) for device in range(bank.count())]


def piles(bank):
    """The pile of each device, from the top, seen by raising a copy of the bank."""
    bank = copy.deepcopy(bank)
    found = []
    for device in range(bank.count()):
        level = bank.look(device)[0]
        pile = [bank.look(device)[1]]
        for _ in range(level):
            assert bank.raise_(device) == 0
            pile.append(bank.look(device)[1])
        found.append(pile)
    return found


def to_be_refused(levels, call):
    """The number of the refusal that the rules ask for, or 0."""
    if call.letter == "c":
        return 0
    if call.device >= len(levels):
        return 12
    level = levels[call.device]
    wrong = {"l": False, "p": level != 0, "d": level == 4, "u": level == 0}[call.letter]
    return 26 if wrong else 0


def pile_after(pile, call, text, top):
    """What the pile of the called device is to be."""
    if text.startswith("!") or call.letter in "cl":
        return pile
    if call.letter == "p":
        return [call.word] + pile[1:]
    if call.letter == "u":
        return pile[1:]
    return [top] + pile if text == "0" else pile


def check_call(bank, call):
    """One call on any bank: the answer and all that changes, by the rules for every bank. Says whether any did."""
    before, piles_before, count = state(bank), piles(bank), bank.count()
    text = calls.told(bank, call)
    after, piles_after = state(bank), piles(bank)
    number = to_be_refused([level for level, _, _ in before], call)
    assert (text == "! 1 %d %d" % (number, call.device)) == (number != 0), (call, text)
    assert bank.count() == count and all(0 <= hindrance <= 255 for _, _, hindrance in after)
    assert all(1 <= len(pile) <= 5 and 0 <= pile[0] < 2 ** 32 for pile in piles_after)
    if number == 0 and call.letter == "c":
        assert text == "%d" % count
    if number == 0 and call.letter == "l":
        assert text == "%d %d %d" % before[call.device]
    if number == 0 and call.letter == "d":
        assert text == "%d" % -before[call.device][2]
    if number == 0 and call.letter in "pu":
        assert text == {"p": "", "u": "0"}[call.letter]
    changed = number == 0 and (call.letter in "pu" or (call.letter, text) == ("d", "0"))
    if not changed:
        assert after == before
    for device in range(count):
        pile = piles_before[device]
        called = device == call.device and call.letter != "c"
        assert piles_after[device] == (pile_after(pile, call, text, after[device][1]) if called else pile)
    return changed


def check_laws():
    """The rules for every bank, over all test calls and others, on all shapes."""
    changes, total = 0, 0
    for case in calls.CASES + list(more_cases(502, 60)):
        if case.made is not False and device_count(case.part) <= 20:
            bank = case.part.bank()
            for call in case.calls:
                changes += check_call(bank, call)
                total += 1
    return total, changes


def reached(bank, called):
    """All states that these calls lead to, each once, as banks."""
    seen, waiting = {}, [bank]
    while waiting:
        bank = waiting.pop()
        key = str((piles(bank), state(bank)))
        if key not in seen:
            seen[key] = bank
            for call in called:
                after = copy.deepcopy(bank)
                if check_call(after, call):
                    waiting.append(after)
    return list(seen.values())


# --- Bus: all states of a small one -----------------------------------------

def check_bus():
    """A member is not free once its controller is past it, from level 2 on, until the controller has come back."""
    called = [call(device) for device in range(4) for call in (look, lower, raise_)]
    called += [put(device, word) for device in (0, 2) for word in (0x101, 0x100)]
    states = reached(banks.Bus([0x1FF, 0x200, 0x101]), [any_way(call) for call in called])
    held = 0
    for bank in states:
        levels = [level for level, _, _ in state(bank)]
        assert bank.look(0)[2] == 0
        for member in (1, 2):
            _, word, hindrance = bank.look(member)
            past = levels[0] >= 2 and levels[0] > levels[member]
            busy = levels[member] == 1 and word % 256 != 0
            assert hindrance == (5 if past else 16 if busy else 0)
            if past:
                back = copy.deepcopy(bank)
                while back.look(0)[0] > max(1, levels[member]):
                    assert back.look(member)[2] == 5 and back.lower(member) == -5
                    back.raise_(0)
                assert back.look(member)[2] != 5
                held += 1
    return len(states), held


def main():
    check_examples()
    check_register_words()
    print("ok: the examples of banks")
    print("ok: a bus in all its %d states, a member held %d times" % check_bus())
    print("ok: the rules for every bank, %d calls, %d changes" % check_laws())


if __name__ == "__main__":
    main()
