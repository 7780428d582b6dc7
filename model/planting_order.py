"""Which edits are tried, and in which order: the same ones for the same seed."""

import random

from planting_items import LEFT_OUT, crates_of, read_crates
from planting_moves import arms, dropped, early, swapped
from planting_rules import comparisons, constants, operands
from planting_scopes import Scope

RULES = (comparisons, constants, operands, dropped, swapped, arms, early)
NAMES = ("comparison", "constant", "operand", "dropped", "swapped", "arm", "early")
LEAST = 3


class Garden:
    """The library crates, their sources, and for each crate its edits in order."""

    def __init__(self, root, seed):
        self.listed = crates_of(root)
        self.crates = [it for it in self.listed if it not in LEFT_OUT]
        items = read_crates(root, self.crates)
        self.sources = {it.source.file: it.source for it in items.functions}
        self.lines = dict.fromkeys(self.crates, 0)
        by_rule = {it: {name: [] for name in NAMES} for it in self.crates}
        for function in items.functions:
            source = function.source
            body = source.span(function.open, function.close + 1).split("\n")
            self.lines[source.crate] += sum(it.strip(" {}") != "" and it.strip()[:2] != "//" for it in body)
            scope = Scope(items, function)
            for rule in RULES:
                for edit in rule(scope):
                    by_rule[source.crate][edit.rule].append(edit)
        self.edits = {it: in_order(found, f"{seed} {it}") for it, found in by_rule.items()}

    def shares(self, count, crates):
        """How many edits of each crate are to be judged: by its lines, and at least three where it has them."""
        whole = sum(self.lines.values())
        shares = {it: max(LEAST, -(-count * self.lines[it] // whole)) for it in crates}
        return {it: min(shares[it], len(self.edits[it])) for it in self.crates if it in crates and self.edits[it]}


def in_order(found, seed):
    """The edits of a crate: the rules in turn, and of each rule one place after another before a place comes again."""
    chance = random.Random(seed)
    queues = []
    for name in chance.sample(NAMES, len(NAMES)):
        places = {}
        for edit in dict.fromkeys(found[name]):
            places.setdefault((edit.file, edit.start), []).append(edit)
        groups = [chance.sample(it, len(it)) for it in places.values()]
        chance.shuffle(groups)
        most = max(map(len, groups), default=0)
        queues.append([group[n] for n in range(most) for group in groups if n < len(group)])
    most = max(map(len, queues), default=0)
    return [queue[n] for n in range(most) for queue in queues if n < len(queue)]
