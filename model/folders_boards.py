"""Boards for folders.py, made by chance and not yet damaged: of all sizes, banks, names, superiors, words and layouts.
Some have a circle of superiors, and all else of every board is right."""

from bankcases_chance import any_word, free_word
from cases_chance import falling_graph, free_graph
from making import LETTERS, LETTERS_AND_DIGITS, NONE, Draft, device, plain_links

MOST_BYTES, MOST_LINKS = 4096, 256

# Least and most devices, and how often of 100 times.
SIZES = ((1, 1, 9), (2, 5, 43), (6, 13, 24), (14, 40, 9), (41, 62, 3), (63, 63, 4), (64, 64, 8))


def some_size(chance):
    turn = chance.below(100)
    for least, most, times in SIZES:
        if turn < times:
            return least + chance.below(most - least + 1)
        turn -= times
    raise AssertionError("the times do not add up to 100")


def some_counts(chance, n):
    """How many are in each bank: of all kinds, of one kind, or none of one kind."""
    kind = chance.below(8)
    if kind < 3:
        return tuple(n * (k == kind) for k in range(3))
    counts = list(chance.split(n))
    if kind < 6:
        none, other = kind - 3, (kind - 2) % 3
        counts[other] += counts[none]
        counts[none] = 0
    return tuple(counts)


# --- Names ------------------------------------------------------------------

def some_names(chance, n):
    """Any; of 8 bytes that differ in the last two; or short ones, most of them the beginning of another."""
    kind = chance.below(4)
    if kind == 0:
        front = chance.name().ljust(6, b"x")[:6]
        return [front + bytes([LETTERS_AND_DIGITS[i % 36], LETTERS_AND_DIGITS[i // 36]]) for i in range(n)]
    if kind == 1:
        return [bytes([LETTERS[i // 8]]) * (1 + i % 8) for i in chance.mixed(n)]
    return chance.names(n)


# --- Superiors --------------------------------------------------------------
# Each kind gives the parents and the links, as pairs of a consumer and a supplier.

def no_graph(chance, n):
    return [NONE] * n, []


def few_links(chance, n):
    return falling_graph(chance, n, chance.below(min(2 * n, MOST_LINKS) + 1))


def many_links(chance, n):
    """As many as a board may have, or one less."""
    return falling_graph(chance, n, MOST_LINKS - chance.below(2))


def any_graph(chance, n):
    return free_graph(chance, n, chance.below(n + 1)) if n > 1 else no_graph(chance, n)


def joined(chance, parents, pairs, steps):
    """Makes the second of each step a superior of the first: all by parents, all by links, or as it comes."""
    way = chance.below(3)
    for consumer, supplier in steps:
        if way == 0 or way == 2 and chance.below(2):
            parents[consumer] = supplier
        else:
            pairs.append((consumer, supplier))
    return parents, pairs


def chain(chance, n):
    """All devices in a row, by their numbers, against them, or mixed."""
    row = (list(range(n)), list(range(n))[::-1], chance.mixed(n))[chance.below(3)]
    return joined(chance, *no_graph(chance, n), zip(row, row[1:]))


def star(chance, n):
    """All others below one, or one below all others."""
    middle = chance.below(n)
    others = [i for i in range(n) if i != middle]
    if chance.below(2):
        return joined(chance, *no_graph(chance, n), [(i, middle) for i in others])
    return [NONE] * n, [(middle, i) for i in others]


def circle(chance, n):
    """A circle of two, three, any number or all, some of the others above and below it."""
    if n == 1:
        return no_graph(chance, n)
    parents, pairs = falling_graph(chance, n, chance.below(n + 1))
    length = min(n, (2, 3, 2 + chance.below(n - 1), n)[chance.below(4)])
    row = chance.mixed(n)[:length]
    return joined(chance, parents, pairs, zip(row, row[1:] + row[:1]))


def repeated(chance, graph):
    """Some links come again, and some say what the parent says."""
    parents, pairs = graph
    pairs = pairs + [pairs[chance.below(len(pairs))] for _ in range(min(len(pairs), chance.below(5)))]
    return parents, pairs + [(i, parent) for i, parent in enumerate(parents) if parent != NONE and chance.below(3) == 0]


GRAPHS = (no_graph, few_links, few_links, few_links, chain, star, circle, any_graph, many_links)


def some_graph(chance, n):
    kind = GRAPHS[chance.below(len(GRAPHS))]
    parents, pairs = kind(chance, n)
    if chance.below(4) == 0:
        parents, pairs = repeated(chance, (parents, pairs))
    return parents, pairs[:MOST_LINKS]


# --- Words ------------------------------------------------------------------

def some_words(chance, n):
    """Those that hinder nowhere; in one place; in some; or any."""
    mood = chance.below(8)
    if mood < 5:
        return [free_word(chance) for _ in range(n)]
    if mood == 7:
        return [any_word(chance) for _ in range(n)]
    hindering = {chance.below(n)} if mood == 5 else {chance.below(n) for _ in range(n // 3 + 1)}
    return [hindering_word(chance) if i in hindering else free_word(chance) for i in range(n)]


def hindering_word(chance):
    """With bit 31, with one of the low 8 bits, or with both."""
    word, kind = free_word(chance), chance.below(3)
    return (word | 2 ** 31 * (kind != 1) | (1 << chance.below(8)) * (kind != 0)) % 2 ** 32


# --- Layouts ----------------------------------------------------------------

def some_gaps(chance, room):
    """Bytes before the first table, between the tables and behind the second; `room` is how many there may be."""
    kind = chance.below(6)
    if kind < 2:
        return b"", b"", b""
    gaps = [chance.junk(chance.below(3) * chance.below(14)) for _ in range(3)] if kind < 5 else [b""] * 3
    place = chance.below(3)
    if kind == 4 and chance.below(4) == 0:
        gaps[place] = bytes(max(0, room - sum(map(len, gaps)) + len(gaps[place])))    # a file of 4,096 bytes
    elif kind == 5:
        gaps[place] = chance.junk(1 + chance.below(20))                       # the others touch
    return gaps if sum(map(len, gaps)) <= room else (b"", b"", b"")


def some_draft(chance):
    n = some_size(chance)
    parents, pairs = some_graph(chance, n)
    records = [device(*fields) for fields in zip(some_names(chance, n), parents, some_words(chance, n))]
    room = MOST_BYTES - 16 - 16 * n - 4 * len(pairs)
    return Draft(records, plain_links(pairs), some_counts(chance, n), chance.below(2) == 1, *some_gaps(chance, room))


def some_data(chance, draft):
    """The file; that of a board without links with the empty table anywhere."""
    if not draft.links and chance.below(2):
        return draft.data(l=chance.below(draft.t + 1))
    return draft.data()
