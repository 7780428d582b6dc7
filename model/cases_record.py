"""Cases for the tests 5 and 6, the records, and for the order of all tests."""

from making import (Chance, Draft, device, link, plain_devices, plain_links, put, read, refused,
                    trailer)

BEFORE = b"\xA5" * 5      # so that no table begins at 0


def with_name(name, i=1, n=3):
    """A board of n devices of which device i has this name."""
    devices = plain_devices(n)
    devices[i] = device(name)
    return Draft(devices, plain_links([(2, 0)]), before=BEFORE)


def wrong_name(what, name, i=1):
    draft = with_name(name, i)
    return refused(5, draft.device_place(i), "name " + what, draft.data())


def name_byte_cases():
    for length in range(1, 9):
        yield read("name of %d bytes" % length, with_name(b"k9a0mz5q"[:length]).data())
    for i in (0, 1):
        yield wrong_name("empty, record %d" % i, b"", i)
    for first in b"az":
        yield read("name begins with %c" % first, with_name(bytes([first])).data())
    for first in (0x30, 0x39, 0x2F, 0x3A, 0x41, 0x5A, 0x60, 0x7B, 0x80, 0xE1, 0xFF):
        yield wrong_name("begins with byte %d" % first, bytes([first]) + b"b")
    for inner in b"az09":
        name = b"ab" + bytes([inner]) + b"c"
        yield read("name has %c inside" % inner, with_name(name).data())
    for inner in (0x01, 0x2F, 0x3A, 0x41, 0x5A, 0x60, 0x7B, 0x80, 0xB0, 0xFF):
        yield wrong_name("has byte %d inside" % inner, b"ab" + bytes([inner]) + b"c")
    for last in (0x2F, 0x3A, 0x60, 0x7B):
        yield wrong_name("has byte %d in place 7" % last, b"abcdefg" + bytes([last]))
    yield wrong_name("has a zero byte first", b"\0abc")
    yield wrong_name("has a zero byte inside", b"ab\0cd")
    yield wrong_name("has a zero byte in place 6", b"abcdef\0h")
    for place in range(2, 8):
        name = put(b"a" + bytes(7), place, (b"b1\xFF\x01")[place % 4])
        yield wrong_name("of 1 byte with junk in place %d" % place, name)


def same_name_cases():
    def draft_of(*names):
        return Draft([device(name) for name in names], (), (1, 1, len(names) - 2), before=BEFORE)

    for what, names, wrong in (
            ("the neighbour's", (b"a", b"b", b"b"), 2),
            ("the first's, in another bank", (b"a", b"a", b"b"), 1),
            ("that of all others", (b"a", b"a", b"a"), 1),
            ("an earlier one of 8 bytes", (b"abcdefgh", b"x", b"abcdefgh"), 2),
            ("two pairs, the later begun first", (b"a", b"b", b"c", b"b", b"a"), 3)):
        draft = draft_of(*names)
        yield refused(5, draft.device_place(wrong), "same name: " + what, draft.data())
    for what, names in (
            ("last of 8 bytes", (b"abcdefgh", b"abcdefgi", b"abcdefg0")),
            ("first of 8 bytes", (b"abcdefgh", b"bbcdefgh", b"zbcdefgh")),
            ("byte in place 4", (b"abcdefgh", b"abcd3fgh", b"abcdzfgh")),
            ("length, growing", (b"a", b"aa", b"aaa", b"aaaa")),
            ("length, falling", (b"abcdefgh", b"abcdefg", b"abcd", b"a")),
            ("order of bytes", (b"ab", b"ba", b"a1b", b"ab1"))):
        yield read("names that differ only in the " + what, draft_of(*names).data())
    for earlier, later in ((0, 63), (31, 32), (32, 63), (62, 63)):
        devices = plain_devices(64)
        devices[later] = devices[earlier]
        draft = Draft(devices, ())
        yield refused(5, draft.device_place(later),
                      "device %d has the name of %d" % (later, earlier), draft.data())


def parent_cases():
    def draft_of(n, i, parent):
        parents = [255] * n
        parents[i] = parent
        return Draft(plain_devices(n, parents), before=BEFORE)

    for n, i, parent in ((4, 1, 0), (4, 0, 3), (4, 3, 0), (4, 2, 3), (4, 2, 255), (64, 0, 63)):
        yield read("parent of %d is %d of %d" % (i, parent, n), draft_of(n, i, parent).data())
    for n, i, parent in ((4, 1, 4), (4, 1, 254), (4, 0, 0), (4, 2, 2), (4, 3, 3), (4, 3, 128),
                         (1, 0, 0), (1, 0, 1), (64, 5, 64)):
        draft = draft_of(n, i, parent)
        yield refused(5, draft.device_place(i), "parent of %d is %d of %d" % (i, parent, n),
                      draft.data())


def device_zero_and_word_cases():
    for zeros in ((1, 0, 0), (0, 1, 0), (0, 0, 1), (255, 0, 0), (0, 128, 0), (0, 0, 255)):
        devices = plain_devices(3)
        devices[2] = device(b"last", zeros=zeros)
        draft = Draft(devices, (), before=BEFORE)
        yield refused(5, draft.device_place(2), "zero bytes of a device %d %d %d" % zeros,
                      draft.data())
    words = [0x01020304, 0xFFFFFFFF, 0x80000000, 0x7FFFFFFF, 0xFF000000, 0x000000FF, 0, 1]
    yield read("words", Draft(plain_devices(8, words=words), ()).data())
    yield read("a word with four different bytes",
               Draft(plain_devices(1, words=[0xD4C3B2A1]), after=b"\xFF" * 3).data())


def link_cases():
    def draft_of(*links, n=4, parents=None, first=False):
        return Draft(plain_devices(n, parents), list(links), links_first=first, before=BEFORE)

    for c, s in ((3, 0), (0, 3)):
        yield read("link %d %d of 4" % (c, s), draft_of(link(c, s)).data())
    for c, s in ((4, 0), (0, 4), (255, 0), (0, 255), (4, 4), (255, 255), (0, 0), (3, 3)):
        draft = draft_of(link(1, 0), link(c, s))
        yield refused(6, draft.link_place(1), "link %d %d of 4" % (c, s), draft.data())
    draft = draft_of(link(0, 63), link(63, 64), n=64, first=True)
    yield refused(6, draft.link_place(1), "link 63 64 of 64", draft.data())
    for c, s in ((0, 0), (0, 1)):
        draft = draft_of(link(c, s), n=1)
        yield refused(6, draft.link_place(0), "link %d %d of one device" % (c, s), draft.data())
    for zeros in ((1, 0), (0, 1), (255, 0), (0, 128)):
        draft = draft_of(link(1, 0), link(2, 0, zeros))
        yield refused(6, draft.link_place(1), "zero bytes of a link %d %d" % zeros, draft.data())
    yield read("the same link twice", draft_of(link(3, 1), link(3, 1)).data())
    yield read("the same link 256 times", draft_of(*[link(3, 1)] * 256).data())
    yield read("a link to the own parent",
               draft_of(link(0, 2), link(0, 1), parents=[2, 255, 255, 255]).data())
    back = draft_of(link(2, 0), parents=[2, 255, 255, 255])
    yield refused(7, 0, "a link from the parent back", back.data())
    for wrong in (0, 255):
        links = plain_links([(3, 2)] * 256)
        links[wrong] = link(3, 4)
        draft = draft_of(*links, first=True)
        yield refused(6, draft.link_place(wrong), "link record %d of 256 wrong" % wrong,
                      draft.data())


def trailer_order_cases():
    """Several things wrong at once, at least one of them in length or trailer."""
    chance = Chance(201)
    d = Draft([device(b""), device(b"b", 7)], plain_links([(9, 9)]), before=BEFORE)
    for number, what, wrong in (
            (2, "mark and no devices", dict(mark=b"SLPC", counts=(0, 0, 0))),
            (2, "edition and 257 links", dict(edition=2, m=257)),
            (2, "mark and D", dict(mark=b"slpb", d=0)),
            (3, "no devices, D and L", dict(counts=(0, 0, 0), d=65535, l=65535)),
            (3, "65 devices without room", dict(counts=(65, 0, 0))),
            (3, "257 links without room", dict(m=257)),
            (3, "no devices and 65535 links", dict(counts=(0, 0, 0), m=65535)),
            (3, "zero byte and D", dict(zeros=(0, 1), d=0)),
            (3, "zero byte and overlap", dict(zeros=(1, 0), l=20)),
            (3, "zero byte and records", dict(zeros=(1, 0))),
            (4, "D and records", dict(d=31)),
            (4, "L and records", dict(l=3)),
            (4, "overlap and records", dict(l=5)),
            (5, "records of both kinds", dict())):
        place = d.device_place(0) if number == 5 else d.t
        yield refused(number, place, "several: " + what, d.data(**wrong))
    yield refused(1, 0, "several: length and mark", chance.junk(4097))
    yield refused(1, 0, "several: length and count", bytes(4081) + trailer((0, 0, 0), 0, 0, 0))
    yield refused(2, 84, "several: all bytes 255", b"\xFF" * 100)
    yield refused(2, 84, "several: all bytes 0", bytes(100))


def record_order_cases():
    """Several things wrong at once, all of them in records or the circle."""
    circle = plain_links([(0, 1), (1, 0)])
    zero, parent, empty = (device(b"e", zeros=(0, 1, 0)), device(b"d1", 9), device(b""))
    good = plain_devices(4)
    for what, number, wrong, devices, links in (
            ("device 2 and link 0", 5, 2, good[:2] + [zero] + good[3:], [link(4, 0)]),
            ("device 3 and circle", 5, 3, good[:3] + [zero], circle),
            ("devices 1 and 2", 5, 1, [good[0], zero, empty, good[3]], ()),
            ("devices 2 and 3", 5, 2, good[:2] + [empty, zero], ()),
            ("name repeated in 3, parent of 2", 5, 2,
             [good[0], good[1], device(b"x", 2), good[0]], ()),
            ("name repeated in 1, device 2", 5, 1, [good[0], good[0], empty, good[3]], ()),
            ("name repeated in 2, device 1", 5, 1, [good[0], zero, good[0], good[3]], ()),
            ("a wrong record's name repeated", 5, 1, [good[0], parent, good[1], good[3]], ()),
            ("all devices and all links", 5, 0, [empty] * 4, [link(9, 9)] * 4),
            ("last link and circle", 6, 2, good, circle + [link(2, 2)]),
            ("first link and circle", 6, 0, good, [link(0, 1, (0, 1))] + circle),
            ("links 1 and 3", 6, 1, good, plain_links([(0, 1), (0, 4), (0, 2), (3, 3)])),
            ("link and circle of parents", 6, 1,
             plain_devices(4, [1, 0, 255, 255]), plain_links([(2, 3), (255, 3)]))):
        for first in (True, False) if "device" in what and "link" in what else (True,):
            draft = Draft(devices, links, links_first=first, before=BEFORE)
            place = draft.device_place(wrong) if number == 5 else draft.link_place(wrong)
            side = "links" if first else "devices"
            yield refused(number, place, "several: %s, %s first" % (what, side), draft.data())


def cases():
    for group in (name_byte_cases, same_name_cases, parent_cases, device_zero_and_word_cases,
                  link_cases, trailer_order_cases, record_order_cases):
        yield from group()
