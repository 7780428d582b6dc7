"""Reference model of the banks that devices sit in.

It follows docs/RULES.md from "What a bank is" on, and layer 1 of docs/REFUSALS.md, rule by rule, and is written to be
read beside them. Nothing here is meant to be fast.

A bank has the five calls `count`, `look`, `put`, `lower` and `raise_`. One that is refused raises Refused.
"""

from fuldrik import Refused

BANKS = 1                 # the layer of a bank of devices
MOST_DEVICES = 64
RUNNING, PREPARED, SUSPENDED, LATE, NOIRQ = range(5)

NO_DEVICE = 12            # refused: a number that is not below the count
WRONG_LEVEL = 26          # refused: a put, a lowering or a raising at a level where it cannot be
TOO_MANY = 27             # refused: the making of a bank of more than 64 devices

EIO = 5
EBUSY = 16


# --- What a bank is ---------------------------------------------------------

class Bank:
    """A bank that has its devices' piles itself. Each kind says what hinders a device, and which word comes on top."""

    def __init__(self, words):
        if len(words) > MOST_DEVICES:
            raise Refused(BANKS, TOO_MANY, 0)
        self.piles = [[word] for word in words]   # the top of a pile is its last word

    def level(self, device):
        return len(self.piles[device]) - 1

    def working_word(self, device):
        return self.piles[device][-1]

    def hindrance(self, device):
        raise NotImplementedError

    def added_word(self, device, level):
        """The word that comes on top where the device is lowered into that level."""
        raise NotImplementedError

    def changed(self):
        """Comes after every call that changed something. Most kinds keep no hindrances, and have nothing to do then."""

    def test_number(self, device):
        if not device < self.count():
            raise Refused(BANKS, NO_DEVICE, device)

    def count(self):
        return len(self.piles)

    def look(self, device):
        """Level, working word and hindrance."""
        self.test_number(device)
        return self.level(device), self.working_word(device), self.hindrance(device)

    def put(self, device, word):
        self.test_number(device)
        if self.level(device) != RUNNING:
            raise Refused(BANKS, WRONG_LEVEL, device)
        self.piles[device][-1] = word
        self.changed()

    def lower(self, device):
        """The code: 0, or the hindrance negated."""
        self.test_number(device)
        if self.level(device) == NOIRQ:
            raise Refused(BANKS, WRONG_LEVEL, device)
        if self.hindrance(device) != 0:
            return -self.hindrance(device)
        self.piles[device].append(self.added_word(device, self.level(device) + 1))
        self.changed()
        return 0

    def raise_(self, device):
        """The code, which is 0."""
        self.test_number(device)
        if self.level(device) == RUNNING:
            raise Refused(BANKS, WRONG_LEVEL, device)
        self.piles[device].pop()
        self.changed()
        return 0


# --- Register bank ----------------------------------------------------------

def cleared(word, bits):
    """The word with that many of its low bits cleared."""
    return word - word % 2 ** bits


class Register(Bank):
    def hindrance(self, device):
        if self.level(device) == PREPARED and self.working_word(device) >= 2 ** 31:
            return EBUSY
        return 0

    def added_word(self, device, level):
        word = self.working_word(device)
        if level == PREPARED:
            return word
        if level == SUSPENDED:
            return cleared(word, 16)
        if level == LATE:
            return cleared(word, 24)
        return 0


# --- Bus bank ---------------------------------------------------------------

CONTROLLER = 0


class Bus(Bank):
    def hindrance(self, device):
        return 0 if device == CONTROLLER else self.hindrance_of_member(device)

    def hindrance_of_member(self, device):
        controller = self.level(CONTROLLER)
        if controller >= SUSPENDED and controller > self.level(device):
            return EIO
        if self.level(device) == PREPARED and self.working_word(device) % 2 ** 8 != 0:
            return EBUSY
        return 0

    def added_word(self, device, level):
        return 0 if level == NOIRQ else self.working_word(device)


# --- Quiet bank -------------------------------------------------------------

class Quiet(Bank):
    def hindrance(self, device):
        return 0

    def added_word(self, device, level):
        return self.working_word(device)


# --- Pair -------------------------------------------------------------------

class Pair:
    """Each call goes to the bank that has the device, and the other bank sees nothing of it."""

    def __init__(self, left, right):
        if left.count() + right.count() > MOST_DEVICES:
            raise Refused(BANKS, TOO_MANY, 0)
        self.left = left
        self.right = right

    def count(self):
        return self.left.count() + self.right.count()

    def at(self, device, call):
        """The answer to this call of the one bank or the other, which takes the bank and the device's number there."""
        if device < self.left.count():
            return call(self.left, device)
        try:
            return call(self.right, device - self.left.count())
        except Refused as refusal:
            raise Refused(refusal.layer, refusal.number, refusal.place + self.left.count()) from None

    def look(self, device):
        return self.at(device, lambda bank, own: bank.look(own))

    def put(self, device, word):
        self.at(device, lambda bank, own: bank.put(own, word))

    def lower(self, device):
        return self.at(device, lambda bank, own: bank.lower(own))

    def raise_(self, device):
        return self.at(device, lambda bank, own: bank.raise_(own))


# --- Injector ---------------------------------------------------------------

class Injector:
    def __init__(self, below, cells):
        self.below = below
        self.cells = cells[:4 * MOST_DEVICES]     # bytes past those of 64 devices are ignored

    def cell(self, device, level):
        """The cell for a level from 1 to 4. Bytes that are missing count as 0."""
        place = 4 * device + level - 1
        return self.cells[place] if place < len(self.cells) else 0

    def next_cell(self, device, level):
        """The cell for the next level of a device at this level; 0 at level 4, where there is no next one."""
        return 0 if level == NOIRQ else self.cell(device, level + 1)

    def count(self):
        return self.below.count()

    def look(self, device):
        level, word, hindrance = self.below.look(device)
        return level, word, self.next_cell(device, level) or hindrance

    def put(self, device, word):
        self.below.put(device, word)

    def lower(self, device):
        level = self.below.look(device)[0]        # refuses a number that is not below the count
        cell = self.next_cell(device, level)
        if cell != 0:
            return -cell                          # the bank below sees nothing of it
        return self.below.lower(device)

    def raise_(self, device):
        return self.below.raise_(device)


# --- The free bank, which only tests use ------------------------------------

class Free(Bank):
    """A bank whose choices come from outside. It is in no document, and no board has one.

    What the rules leave to the bank, this one takes from a list. Each change takes the next choice off the list: all
    hindrances become those of that choice, and if the change was a lowering, the choice's word came on top. Where the
    list is used up, the word is 0 and so are all hindrances.
    """

    def __init__(self, words, hindrances, choices):
        super().__init__(words)
        self.hindrances = hindrances              # those of the devices 0 to 63
        self.choices = list(choices)              # each a word and 64 hindrances

    def next_choice(self):
        return self.choices[0] if self.choices else (0, [0] * MOST_DEVICES)

    def hindrance(self, device):
        return self.hindrances[device]

    def added_word(self, device, level):
        return self.next_choice()[0]

    def changed(self):
        self.hindrances = self.next_choice()[1]
        self.choices = self.choices[1:]
