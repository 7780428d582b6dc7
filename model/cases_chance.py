"""Cases made by chance: graphs with and without circles, junk, and single damages."""

from making import NONE, Chance, Draft, any_draft, left_open, put, read, trailer


def falling_graph(chance, n, m):
    """Parents and m links without a circle: superiors come earlier in a hidden row."""
    row = chance.mixed(n)
    parents = [NONE] * n
    for k in range(1, n):
        if chance.below(3) == 0:
            parents[row[k]] = row[chance.below(k)]
    pairs = []
    while n > 1 and len(pairs) < m:
        k = 1 + chance.below(n - 1)
        pairs.append((row[k], row[chance.below(k)]))
    return parents, pairs


def free_graph(chance, n, m):
    """Parents and m links between any two devices, so perhaps with circles."""
    parents = [NONE] * n
    for i in range(n):
        if chance.below(6) == 0:
            parents[i] = (i + 1 + chance.below(n - 1)) % n
    pairs = []
    for _ in range(m):
        consumer = chance.below(n)
        pairs.append((consumer, (consumer + 1 + chance.below(n - 1)) % n))
    return parents, pairs


def circle_free_cases():
    chance = Chance(301)
    for n in (1, 2, 3, 4, 5, 6, 7, 8, 11, 13, 16, 17, 24, 32, 33, 48, 63):
        m = min(256, chance.below(4 * n + 1))
        data = any_draft(chance, *falling_graph(chance, n, m)).data()
        yield read("chance: no circle, %d devices" % n, data)
    for m in (20, 60, 120, 256, 256, 256, 256):
        data = any_draft(chance, *falling_graph(chance, 64, m)).data()
        yield read("chance: no circle, 64 devices, %d links" % m, data)


def circle_cases():
    chance = Chance(302)
    for n in (2, 3, 4, 5, 6, 8, 12, 24, 40, 64):
        data = any_draft(chance, *free_graph(chance, n, n)).data()
        yield left_open("chance: any links, %d devices" % n, data)
    for n in (4, 7, 10, 20, 40, 64):
        parents, pairs = falling_graph(chance, n, n)
        consumer, supplier = pairs[chance.below(n)]
        pairs.insert(chance.below(n), (supplier, consumer))
        data = any_draft(chance, parents, pairs).data()
        yield left_open("chance: one link turned back, %d devices" % n, data)


def junk_cases():
    """Any bytes behind a right trailer, and any trailer with a right mark."""
    chance = Chance(303)
    for n, m in ((1, 0), (1, 1), (2, 2), (3, 1), (8, 16), (64, 0), (64, 256), (20, 5)):
        t = 16 * n + 4 * m + chance.below(20)
        data = chance.junk(t) + trailer(chance.split(n), m, t, 4 * m)
        yield left_open("chance: junk as %d devices and %d links" % (n, m), data)
    for k in range(8):
        draft = any_draft(chance, *falling_graph(chance, 4, 4))
        t = draft.t
        data = draft.data(counts=chance.split(1 + chance.below(6)), m=chance.below(7),
                          d=chance.below(t + 2), l=chance.below(t + 2))
        yield left_open("chance: other fields in the trailer, %d" % k, data)


def damage_cases():
    """Good boards of which one byte was changed."""
    chance = Chance(304)
    for k in range(66):
        n = 2 + chance.below(5)
        draft = any_draft(chance, *falling_graph(chance, n, chance.below(7)))
        data = Draft(draft.devices, draft.links, draft.counts, draft.links_first).data()
        place = chance.below(len(data))
        limit = (256, n + 2)[k % 2]       # any byte, or one that may be a device
        value = chance.below(limit)
        while value == data[place]:
            value = chance.below(limit)
        name = "chance: byte %d of %d is %d, was %d" % (place, len(data), value, data[place])
        yield left_open(name, put(data, place, value))


def cases():
    for group in (circle_free_cases, circle_cases, junk_cases, damage_cases):
        yield from group()
