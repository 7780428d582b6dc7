"""Cases made by chance, over all shapes.

The calls are led by the model: devices are taken to levels step by step, and what hinders one of them is cleared now
and then, so that most lowerings and raisings are taken, and all levels are met."""

from bankmaking import Case, any_way, count, look, looks, lower, put, raise_
from bankparts import LEAVES, Free, Injector, Pair, built, device_count
from chances import of_each_shape, others
from fuldrik import Refused

CALLS = 72                # about how many calls a case has


# --- Parts ------------------------------------------------------------------

def any_word(chance):
    return int.from_bytes(chance.junk(4), "little")


def free_word(chance):
    """A word that hinders its device nowhere."""
    return any_word(chance) & 0x7FFFFF00


def some_word(chance):
    return (any_word if chance.below(2) else free_word)(chance)


def some_size(chance):
    """Mostly a few devices, now and then none or many, and seldom too many."""
    kind = chance.below(32)
    if kind < 3:
        return 0
    if kind == 3:
        return 6 + chance.below(12)
    if kind == 4 and chance.below(3) == 0:
        return 18 + chance.below(50)
    return 1 + chance.below(4)


def some_errno(chance):
    return (5, 16, 255, 1 + chance.below(255))[chance.below(4)]


def thin_bytes(chance, length, one_in):
    """Bytes of which one in so many is not zero."""
    return bytes(some_errno(chance) if chance.below(one_in) == 0 else 0 for _ in range(length))


def some_cells(chance, n):
    """Mostly four cells for each device; sometimes fewer, more, or none."""
    kind = chance.below(8)
    if kind == 0:
        return b""
    if kind == 1:
        return thin_bytes(chance, chance.below(4 * n + 1), 9)
    if kind == 2:
        return thin_bytes(chance, 4 * n + chance.below(12), 9)
    if kind == 3:
        return thin_bytes(chance, 250 + chance.below(20), 9)
    return thin_bytes(chance, 4 * n, 9)


def some_choice(chance):
    return some_word(chance), thin_bytes(chance, 64, 4)


def some_part(chance, form):
    def leaf(kind):
        words = tuple(some_word(chance) for _ in range(some_size(chance)))
        if kind != "free":
            return LEAVES[kind](words)
        return Free(words, thin_bytes(chance, 64, 4), tuple(some_choice(chance) for _ in range(chance.below(14))))
    return built(form, leaf, lambda n: some_cells(chance, n))


def controllers(part, first=0):
    """The controller of each device that has one, by the numbers that the whole bank gives to them."""
    if isinstance(part, Pair):
        left = controllers(part.left, first)
        return {**left, **controllers(part.right, first + device_count(part.left))}
    if isinstance(part, Injector):
        return controllers(part.below, first)
    return {first + own: first for own in range(1, len(part.words))} if part.form == "bus" else {}


# --- Calls ------------------------------------------------------------------

class Walk:
    """Calls that are made on the model's bank as they are noted."""

    def __init__(self, chance, part):
        self.chance = chance
        self.bank = part.bank()
        self.controllers = controllers(part)
        self.n = self.bank.count()
        self.calls = []

    def note(self, call):
        self.calls.append(any_way(call))

    def look(self, device):
        self.note(look(device))

    def look_at_all(self):
        for call in [count()] + looks(range(self.n)):
            self.note(call)

    def put(self, device, word):
        self.note(put(device, word))
        try:
            self.bank.put(device, word)
        except Refused:
            pass

    def lower(self, device):
        self.note(lower(device))
        try:
            return self.bank.lower(device)
        except Refused:
            return None

    def raise_(self, device):
        self.note(raise_(device))
        try:
            return self.bank.raise_(device)
        except Refused:
            return None

    def level(self, device):
        return self.bank.look(device)[0]

    def hindrance(self, device):
        return self.bank.look(device)[2]

    def some_device(self):
        return self.chance.below(self.n)

    def look_about(self):
        """Now and then a look at the device of the last step or at another one, seldom at all."""
        kind = self.chance.below(12)
        if kind < 5:
            self.look(self.calls[-1].device if kind < 3 else self.some_device())
        elif kind == 5 and self.n <= 8:
            self.look_at_all()

    def stray(self):
        """Any call on any number, which may be refused."""
        limit = (self.n + 2, self.n + 2, self.n + 2, 256)[self.chance.below(4)]
        device = self.chance.below(limit)
        kind = self.chance.below(4)
        if kind == 0:
            self.look(device)
        elif kind == 1:
            self.put(device, some_word(self.chance))
        else:
            (self.lower if kind == 2 else self.raise_)(device)

    def clear(self, device):
        """Tries to clear what hinders a device: by its controller, or by a word that hinders nowhere."""
        controller = self.controllers.get(device)
        if controller is not None and self.level(controller) > self.level(device):
            while self.level(controller) > 0 and self.hindrance(device) != 0:
                self.raise_(controller)
        else:
            while self.level(device) > 0:
                self.raise_(device)
            self.put(device, free_word(self.chance))
        self.look(device)

    def step_down(self, device):
        """A lowering; where it is hindered, perhaps a way to clear that. Says whether the device went down."""
        if self.lower(device) == 0:
            return True
        kind = self.chance.below(4)
        if kind == 0:
            self.look(device)
        elif kind > 1:
            self.clear(device)
        return False

    def journey(self, device, goal):
        """A device goes towards a level, and gives up where it is hindered twice."""
        patience = 2
        while self.level(device) != goal and patience > 0:
            if self.level(device) > goal:
                self.raise_(device)
            elif not self.step_down(device):
                patience -= 1
            self.look_about()

    def stage(self):
        kind = self.chance.below(16)
        if kind < 2 or self.n == 0:
            self.stray()
        elif kind < 4:
            self.put(self.some_device(), some_word(self.chance))
        elif kind == 4:
            self.note(count())
        elif kind < 7 and self.controllers:
            self.journey(min(self.controllers.values()), 2 + self.chance.below(3))
        else:
            self.journey(self.some_device(), (0, 1, 2, 3, 3, 4, 4)[self.chance.below(7)])


def some_calls(chance, part, length):
    walk = Walk(chance, part)
    if walk.n <= 8:
        walk.look_at_all()
    while len(walk.calls) < (length if walk.n > 0 else 6):
        walk.stage()
    walk.look_at_all()
    return walk.calls


def some_case(chance, form, length=CALLS):
    part = some_part(chance, form)
    try:
        return Case("chance", part, some_calls(chance, part, length), made=None)
    except Refused:
        return Case("chance, too many devices", part, looks(range(3)), made=False)


def cases():
    return of_each_shape(401, 5, some_case)


def more_cases(seed, total):
    """So many others, for a comparison."""
    return others(seed, total, some_case)
