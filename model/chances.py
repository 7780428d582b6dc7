"""Cases made by chance: some of each shape, and others for a comparison."""

from bankparts import SHAPES
from making import Chance


def of_each_shape(seed, rounds, some_case):
    """So many of each shape."""
    chance = Chance(seed)
    for _ in range(rounds):
        for form in SHAPES:
            yield some_case(chance, form)


def others(seed, total, some_case):
    """So many of any shape, of other lengths."""
    chance = Chance(seed)
    for _ in range(total):
        form = SHAPES[chance.below(len(SHAPES))]
        yield some_case(chance, form, 4 + chance.below(120))
