"""Cases for the tests 1 to 4: the length, the trailer, and where the tables stand."""

from making import (Chance, Draft, any_links, device, link, plain_devices, plain_links,
                    put, read, refused, trailer)


def padded(chance, length, links_first=False):
    """A good board of exactly this length, with junk at the front."""
    small = Draft(plain_devices(3), plain_links([(2, 1), (0, 2)]))
    before = chance.junk(length - len(small.data()))
    return Draft(small.devices, small.links, links_first=links_first, before=before).data()


def length_cases():
    chance = Chance(101)
    good = trailer((1, 0, 0), 0, 16, 0)
    least = Draft([device(b"a")])
    yield refused(1, 0, "length 0", b"")
    yield refused(1, 0, "length 1", b"S")
    yield refused(1, 0, "length 15, the end of a trailer", good[1:])
    yield refused(1, 0, "length 15, the beginning of a trailer", good[:15])
    yield refused(4, 0, "length 16, a trailer alone", good)
    yield refused(3, 0, "length 16, a trailer alone, no devices", trailer((0, 0, 0), 0, 0, 0))
    yield refused(2, 0, "length 16, zeros", bytes(16))
    yield refused(4, 1, "length 17, one byte and a trailer", b"a" + good)
    yield refused(2, 1, "length 17, a trailer and one byte", good + b"a")
    yield refused(4, 15, "length 31, a byte too little for one record", bytes(15) + good)
    yield read("length 32, the least board", least.data())
    yield read("length 33, the least board and a byte before it", b"\xFF" + least.data())
    for length in (4095, 4096):
        yield read("length %d, junk at the front" % length, padded(chance, length))
    yield read("length 4096, links first", padded(chance, 4096, links_first=True))
    for length in (4097, 4098):
        yield refused(1, 0, "length %d, junk at the front" % length, padded(chance, length))
    yield refused(1, 0, "length 4097, a board of 4096 and a byte", padded(chance, 4096) + b"x")
    yield refused(1, 0, "length 4128, which is 4096 and the least board",
                  chance.junk(4096) + least.data())
    wide = Draft(plain_devices(2), plain_links([(0, 1)]), between=chance.junk(4044))
    yield read("length 4096, D = T = 4080, L = 4", wide.data())
    wide = Draft(plain_devices(2), plain_links([(0, 1)]), links_first=True,
                 between=chance.junk(4044))
    yield read("length 4096, L = T = 4080, D = 32", wide.data())
    yield refused(4, 4080, "length 4096, D = 4081", wide.data(d=4081))
    yield refused(4, 4080, "length 4096, L = 4096", wide.data(l=4096))


def mark_cases():
    draft = Draft(plain_devices(2), plain_links([(0, 1)]))
    data, t = draft.data(), draft.t
    for k in range(4):
        wrong = data[t + k] ^ 0x20
        yield refused(2, t, "mark byte %d is %d" % (k, wrong), put(data, t + k, wrong))
    for edition in (0, 2, 129, 255):
        yield refused(2, t, "edition %d" % edition, draft.data(edition=edition))
    yield refused(2, t, "the trailer at the front", data[t:] + data[:t])


def count_cases():
    for register in range(4):
        for bus in range(4 - register):
            counts = (register, bus, 3 - register - bus)
            draft = Draft(plain_devices(3), plain_links([(0, 2)]), counts)
            yield read("three devices as %d %d %d" % counts, draft.data())
    for counts in ((1, 0, 0), (0, 1, 0), (0, 0, 1)):
        yield read("one device as %d %d %d" % counts, Draft(plain_devices(1), (), counts).data())
    for counts in ((63, 0, 0), (20, 21, 22), (64, 0, 0), (0, 64, 0), (0, 0, 64), (21, 22, 21)):
        draft = Draft(plain_devices(sum(counts)), plain_links([(7, 62)]), counts)
        yield read("%d devices as %d %d %d" % ((sum(counts),) + counts), draft.data())
    for counts in ((65, 0, 0), (0, 65, 0), (0, 0, 65), (64, 1, 0), (22, 22, 21)):
        draft = Draft(plain_devices(65), (), counts)
        yield refused(3, draft.t, "65 devices as %d %d %d" % counts, draft.data())
    # With sums taken in one byte, these would be 0, 1, 2 or 64 devices.
    for counts in ((255, 1, 0), (0, 255, 1), (86, 85, 85), (0, 128, 128), (255, 1, 1),
                   (129, 0, 128), (255, 255, 2), (255, 255, 3), (255, 65, 0), (255, 255, 255),
                   (0, 0, 128)):
        draft = Draft(plain_devices(64), (), counts)
        yield refused(3, draft.t, "%d devices as %d %d %d" % ((sum(counts),) + counts),
                      draft.data())
    draft = Draft(plain_devices(1), (), (0, 0, 0))
    yield refused(3, draft.t, "no devices, a record all the same", draft.data())


def link_count_cases():
    chance = Chance(102)
    for m in (0, 1, 255, 256):
        draft = Draft(plain_devices(5), any_links(chance, 5, m))
        yield read("%d links" % m, draft.data())
    for m in (257, 512):
        draft = Draft(plain_devices(5), any_links(chance, 5, m))
        yield refused(3, draft.t, "%d links with all records" % m, draft.data())
    draft = Draft(plain_devices(5), any_links(chance, 5, 256))
    for m in (257, 512, 32768, 65535):
        yield refused(3, draft.t, "%d links said, 256 there" % m, draft.data(m=m))
    for m in (0, 1):
        yield read("%d links said, 256 there" % m, draft.data(m=m))
    draft = Draft(plain_devices(5), any_links(chance, 5, 2))
    for zeros in ((1, 0), (0, 1), (128, 0), (0, 255), (255, 255)):
        yield refused(3, draft.t, "zero bytes of the trailer %d %d" % zeros,
                      draft.data(zeros=zeros))


def room_cases():
    """Each bound of D and L from both sides."""
    chance = Chance(103)
    two, pairs = plain_devices(2), plain_links([(0, 1), (0, 1)])
    last = Draft(two, pairs, links_first=True, before=chance.junk(9))
    yield read("D = 16n, devices touch the trailer", last.data())
    yield refused(4, last.t, "D = 16n - 1", last.data(d=31))
    first = Draft(two, pairs, between=chance.junk(3), after=chance.junk(5))
    yield read("D = T", first.data())
    for d in (first.t + 1, 0, 256, 32768, 65535):
        yield refused(4, first.t, "D = %d with T = %d" % (d, first.t), first.data(d=d))
    last = Draft(two, pairs, before=chance.junk(9))
    yield read("L = 4m, links touch the trailer", last.data())
    for l in (7, 0):
        yield refused(4, last.t, "L = %d with 2 links" % l, last.data(l=l))
    first = Draft(two, pairs, links_first=True, between=chance.junk(3))
    yield read("L = T", first.data())
    for l in (first.t + 1, 256, 65535):
        yield refused(4, first.t, "L = %d with T = %d" % (l, first.t), first.data(l=l))
    for gap in (1, 2):
        draft = Draft(two, pairs, after=chance.junk(gap))
        yield read("L = 4m + %d" % gap, draft.data())
        draft = Draft(two, pairs, links_first=True, after=chance.junk(gap))
        yield read("D = 16n + %d" % gap, draft.data())
    # With products taken in one byte, these tables would seem to need no room.
    for n, m in ((16, 64), (64, 256)):
        draft = Draft(plain_devices(n), any_links(chance, n, m), before=chance.junk(8))
        yield read("%d devices and %d links, L = 4m" % (n, m), draft.data())
        yield refused(4, draft.t, "%d links, L = 4m - 1" % m, draft.data(l=4 * m - 1))
        draft = Draft(draft.devices, draft.links, links_first=True)
        yield read("%d devices and %d links, D = 16n" % (n, m), draft.data())
        yield refused(4, draft.t, "%d devices, D = 16n - 1" % n, draft.data(d=16 * n - 1))


def no_link_cases():
    """Without links L is asked for nothing but 0 <= L <= T."""
    draft = Draft(plain_devices(2), (), before=b"\xFF" * 6, after=b"\xFF" * 7)
    t, d = draft.t, draft.t - draft.device_table
    for what, l in (("0", 0), ("1", 1), ("T", t), ("D", d), ("D - 1", d - 1),
                    ("D - 5, inside the devices", d - 5)):
        yield read("no links, L = " + what, draft.data(l=l))
    for l in (t + 1, 65535):
        yield refused(4, t, "no links, L = %d with T = %d" % (l, t), draft.data(l=l))
    yield refused(4, t, "no links, D = T + 1", draft.data(d=t + 1))
    yield refused(4, t, "no links, D = 16n - 1", draft.data(d=31))


def overlap_cases():
    """Tables that touch and tables that share bytes, in both orders.

    Where it can be done, the shared bytes make right records of both tables.
    """
    a, b = device(b"a"), device(b"b", word=0x01000000)
    counts, after = (1, 0, 1), bytes(8)
    yield read("devices, then links, touching", Draft([a, b], [link(1, 0)], counts).data())
    yield read("links, then devices, touching",
               Draft([a, b], [link(1, 0)], counts, links_first=True).data())
    body = a + b + bytes([0, 0, 0]) + after
    yield refused(4, 43, "links begin on the devices' last byte",
                  body + trailer(counts, 1, 43, 12))
    yield read("links begin after the devices' last byte",
               a + b + link(1, 0) + after + trailer(counts, 1, 44, 12))
    body = link(1, 0)[:3] + a + b
    yield refused(4, 35, "links end on the devices' first byte", body + trailer(counts, 1, 32, 35))
    yield refused(4, 48, "links begin on the devices' first byte",
                  a + b + bytes(16) + trailer(counts, 1, 48, 48))
    word = device(b"b", word=0x00000001)
    yield refused(4, 32, "the one link is the last word",
                  a + word + trailer(counts, 1, 32, 4))
    word = device(b"a", word=0x00000001)
    yield refused(4, 32, "the one link is a word in the middle",
                  word + b + trailer(counts, 1, 32, 20))
    yield refused(4, 40, "devices wholly inside the links",
                  link(0, 1) + a + b + link(1, 0) + trailer(counts, 10, 36, 40))
    yield refused(4, 36, "same start, links longer",
                  a + b + link(1, 0) + trailer(counts, 9, 36, 36))
    yield refused(4, 36, "same end, links longer", link(1, 0) + a + b + trailer(counts, 9, 32, 36))
    yield refused(4, 32, "the same bytes for both", a + b + trailer(counts, 8, 32, 32))
    draft = Draft(plain_devices(64), plain_links([(1, 0)] * 256))
    yield refused(4, draft.t, "256 links begin one byte early",
                  draft.data(l=1025))
    draft = Draft(plain_devices(64), plain_links([(1, 0)] * 256), links_first=True,
                  before=b"\0")
    yield refused(4, draft.t, "256 links end one byte late", draft.data(l=draft.t - 2))


def cases():
    for group in (length_cases, mark_cases, count_cases, link_count_cases, room_cases,
                  no_link_cases, overlap_cases):
        yield from group()
