"""Checks of the model of banks: banks that are to answer alike, as pairs of pairs are, with calls by chance."""

import calls
from bankcases_chance import some_calls, some_cells, some_part
from bankmaking import Case, any_way, look, lower
from bankparts import SHAPES, Free, Injector, Pair, bus, device_count, hindrances, quiet, register
from fuldrik import Refused
from making import Chance
from selfcheck_banks import state


def same(note, parts, called):
    """Each part answers all calls as the first does, or none of them is made."""
    found = [calls.answers(Case(note, part, called)) for part in parts]
    assert all(texts == found[0] for texts in found), (note, parts, called)


def calls_for(chance, part, length=40):
    try:
        return some_calls(chance, part, length)
    except Refused:
        return [any_way(lower(0))]


def some_leaf(chance, most=5):
    form = ("register", "bus", "quiet", "free")[chance.below(4)]
    part = some_part(chance, form)
    return part if len(part.words) <= most else some_leaf(chance, most)


def merged(outer, inner):
    """Cells of one injector that is to be as an outer one over an inner one."""
    length = max(len(outer), len(inner))
    return bytes(a or b for a, b in zip(outer.ljust(length, b"\0"), inner.ljust(length, b"\0")))


def cut(cells, count):
    """Cells for so many devices, and those for the devices behind them."""
    cells = cells[:256]
    return cells[:4 * count], cells[4 * count:]


def check_sameness():
    chance = Chance(503)
    for round_ in range(200):
        below = some_part(chance, SHAPES[round_ % len(SHAPES)])
        called = calls_for(chance, below)
        zeros = bytes(chance.below(300))
        same("cells that are all 0", [below, Injector(below, zeros)], called)
        same("nothing on the left", [below, Pair(register(), below), Pair(bus(), below)], called)
        same("nothing on the right", [below, Pair(below, quiet()), Pair(below, bus())], called)

        sides = [some_leaf(chance), some_leaf(chance), some_leaf(chance)]
        nested = [Pair(Pair(sides[0], sides[1]), sides[2]), Pair(sides[0], Pair(sides[1], sides[2]))]
        same("pairs of pairs", nested, calls_for(chance, nested[0]))

        inner, outer = some_cells(chance, device_count(below)), some_cells(chance, device_count(below))
        two = Injector(Injector(below, inner), outer)
        one = Injector(below, merged(outer[:256], inner[:256]))
        same("an injector over an injector", [two, one], calls_for(chance, two))

        cells = some_cells(chance, device_count(sides[0]) + device_count(sides[1]))
        left, right = cut(cells, device_count(sides[0]))
        over = Injector(Pair(sides[0], sides[1]), cells)
        under = Pair(Injector(sides[0], left), Injector(sides[1], right))
        same("an injector over a pair", [over, under], calls_for(chance, over))


def check_too_many():
    """Pairs of three banks with about 64 devices: both nestings are made, or both are refused."""
    chance = Chance(504)
    made = 0
    for _ in range(100):
        sizes = [chance.below(3) * 15 + chance.below(10) for _ in range(3)]
        sides = [quiet(*range(size)) for size in sizes]
        nested = [Pair(Pair(sides[0], sides[1]), sides[2]), Pair(sides[0], Pair(sides[1], sides[2]))]
        same("pairs of pairs, many devices", nested, [look(device) for device in (0, 31, 63, 64)])
        assert (calls.answers(Case("", nested[0], [])) == ["! 1 27 0"]) == (sum(sizes) > 64)
        made += sum(sizes) <= 64
    assert 20 < made < 80


def noted_choices(bank, called):
    """The words and hindrances that a bank chose as these calls were made."""
    chosen = []
    for call in called:
        before = state(bank)
        text = calls.told(bank, call)
        if text in ("", "0") and call.letter in "pdu":
            word = bank.look(call.device)[1] if call.letter == "d" else 0
            chosen.append((word, hindrances({d: seen[2] for d, seen in enumerate(state(bank))})))
        else:
            assert state(bank) == before
    return tuple(chosen)


def check_free():
    """A free bank with the choices of any other answers as that one does: a bank is its choices."""
    chance = Chance(505)
    for form in SHAPES * 4:
        part = some_part(chance, form)
        if device_count(part) <= 20:
            called = some_calls(chance, part, 60)
            bank = part.bank()
            words = tuple(word for _, word, _ in state(bank))
            first = hindrances({d: seen[2] for d, seen in enumerate(state(bank))})
            same("a free bank in place of another", [part, Free(words, first, noted_choices(bank, called))], called)


def main():
    check_sameness()
    check_too_many()
    check_free()
    print("ok: banks that are to be as others")


if __name__ == "__main__":
    main()
