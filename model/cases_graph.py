"""Cases for test 7 and for the order: superiors that were laid out by hand."""

from making import Draft, device, link, plain_devices, plain_links, read, refused


def graph(n, parents, pairs):
    """A board with these parents, {device: parent}, and these (consumer, supplier)."""
    numbers = [parents.get(i, 255) for i in range(n)]
    return Draft(plain_devices(n, numbers), plain_links(pairs), (n // 3, n // 3, n - n // 3 * 2))


def ring(members):
    """Each member has the next one as its superior, the last one the first."""
    return list(zip(members, members[1:] + members[:1]))


def chain(members):
    """Each member has the next one as its superior."""
    return list(zip(members, members[1:]))


def small_circles():
    """What, how many devices, parents, links, and the device that is named."""
    yield "two, links", 2, {}, [(0, 1), (1, 0)], 0
    yield "two, parents", 2, {0: 1, 1: 0}, [], 0
    yield "two, a parent and a link", 2, {0: 1}, [(1, 0)], 0
    yield "three, links", 3, {}, ring([0, 1, 2]), 0
    yield "three, parents", 3, dict(ring([0, 2, 1])), [], 0
    yield "three, parent and links", 3, {0: 1}, [(1, 2), (2, 0)], 0
    yield "device 0 only hangs below it", 3, {}, [(1, 2), (2, 1), (0, 2)], 0
    yield "device 2 only hangs below it", 3, {}, [(0, 1), (1, 0), (2, 1)], 0
    yield "devices 0 and 1 stand above it", 4, {}, [(2, 3), (3, 2), (2, 0), (3, 1)], 2
    yield "a chain hangs below it", 5, {}, [(3, 4), (4, 3)] + chain([0, 1, 2, 3]), 0
    yield "device 0 hangs below it by its parent", 6, {0: 5}, ring([4, 5]), 0
    yield "device 2 hangs below it, 0 and 1 are free", 6, {}, ring([4, 5]) + [(2, 4)], 2
    yield "device 1 has a good and an endless superior", 5, {1: 0}, ring([3, 4]) + [(1, 3)], 1
    yield "two circles", 6, {}, ring([4, 5]) + ring([2, 3]), 2
    yield "two circles, one below the other", 6, {}, ring([4, 5]) + [(4, 1)] + ring([1, 2]), 1
    yield "two circles with a device in common", 4, {}, ring([1, 2]) + ring([2, 3]), 1
    yield "a good chain beside it", 8, {2: 1}, [(1, 0), (3, 2)] + ring([5, 7, 6]), 5
    yield "a good chain above and beside it", 8, {7: 0}, chain([4, 3, 2, 1, 0]) + ring([6, 7]), 6


def large_circles():
    every = list(range(64))
    pairs = ring(every)
    yield "64, parents", 64, dict(pairs), [], 0
    yield "64, links, backwards", 64, {}, ring(every[::-1]), 0
    yield "64, links, in steps of 27", 64, {}, ring([27 * k % 64 for k in every]), 0
    yield "64, parents and links by turns", 64, dict(pairs[::2]), pairs[1::2], 0
    yield "the last two of 64", 64, {62: 63, 63: 62}, [], 62
    yield "the last two of 64 and a chain from 0", 64, dict(chain(every)), [(63, 62)], 0
    below_all = [(62, s) for s in every[:62]]
    yield "the last two of 64 below all others", 64, {63: 62}, below_all + [(62, 63)], 62
    yield "the same circle 128 times", 5, {}, ring([2, 4]) * 128, 2
    each = [(c, s) for c in range(16) for s in range(16) if c != s]
    yield "each needs each of 16", 16, {}, each, 0
    yield "closed by the last of 256 links", 64, {}, chain(every) * 4 + [(63, 62)] * 4, 0


def circle_cases():
    for group in (small_circles(), large_circles()):
        for what, n, parents, pairs, named in group:
            yield refused(7, named, "circle: " + what, graph(n, parents, pairs).data())


def diamonds(count, numbers):
    """Diamonds that stand on each other; `numbers` run from the bottom to the top."""
    pairs = []
    for k in range(count):
        bottom, left, right, top = numbers[3 * k:3 * k + 4]
        pairs += [(bottom, left), (bottom, right), (left, top), (right, top)]
    return pairs


def small_orders():
    yield "no superiors at all", 10, {}, []
    yield "1, 3, 0, 2", 4, {2: 0}, [(0, 3)]
    yield "1, 0, 2, 3", 4, {0: 1}, []
    yield "4, 0, 1, 2, 3", 5, {0: 4}, [(1, 4), (2, 0), (3, 1)]
    yield "1, 2, 3, 4, 5, 0", 6, {0: 5}, []
    yield "diamond with the numbers", 4, {}, diamonds(1, [3, 2, 1, 0])
    yield "diamond against the numbers", 4, {}, diamonds(1, [0, 1, 2, 3])
    yield "diamond with a short cut", 4, {0: 3}, diamonds(1, [0, 2, 1, 3])
    yield "one chain up, one down", 10, {}, chain([8, 6, 4, 2, 0]) + chain([1, 3, 5, 7, 9])
    yield "superiors given in falling order", 9, {4: 6}, [(4, s) for s in (8, 7, 6, 5, 3, 2, 1, 0)]


def large_orders():
    every = list(range(64))
    back = every[::-1]
    yield "chain against the numbers, parents", 64, dict(chain(every)), []
    yield "chain against the numbers, links", 64, {}, chain(every)
    yield "chain with the numbers, links backwards", 64, dict(chain(back)), chain(back)[::-1]
    yield "chain in steps of 27", 64, {}, chain([27 * k % 64 for k in every])
    yield "all below the last", 64, {d: 63 for d in range(63)}, []
    yield "all below the first", 64, {}, [(d, 0) for d in back[:63]]
    yield "the first below all", 64, {0: 63}, [(0, s) for s in back[:63]]
    yield "21 diamonds against the numbers", 64, {}, diamonds(21, every)
    yield "each below all higher ones of 23", 23, {}, [(c, s) for s in range(23) for c in range(s)]
    yield "each below the one 8 higher", 64, {d: d + 8 for d in range(56)}, []


def order_cases():
    for group in (small_orders(), large_orders()):
        for what, n, parents, pairs in group:
            yield read("order: " + what, graph(n, parents, pairs).data())
    devices = [device(b"x%02dabcde" % i, word=i) for i in range(64)]
    longest = Draft(devices, [link(31, s) for s in range(64) if s != 31], (0, 64, 0))
    yield read("order: the longest line", longest.data())


def cases():
    yield from circle_cases()
    yield from order_cases()
