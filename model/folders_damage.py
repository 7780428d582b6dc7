"""What damages the boards of folders.py, one thing at a time. Each damage takes chance, the draft of a board and its
file, and gives another file; a few of them leave the board right."""

from dataclasses import replace

from folders_boards import MOST_BYTES, MOST_LINKS
from making import LETTERS_AND_DIGITS, NONE, Draft, any_links, link, plain_devices, put, trailer

NONE_OF_NAMES = b" -_.AZ/:@[`{\x01\x7F\x80\xE1\xFF"


def one_of(chance, *choices):
    return choices[chance.below(len(choices))]


def some_place(chance, length):
    """Near either end, or anywhere."""
    place = one_of(chance, chance.below(20), length - 1 - chance.below(20), chance.below(length))
    return min(max(place, 0), length - 1)


# --- The length -------------------------------------------------------------

def cut(chance, draft, data):
    """Bytes are missing: in front, at the end, or inside."""
    place, count = some_place(chance, len(data)), 1 + chance.below(20)
    return one_of(chance, data[place:], data[:place], data[:place] + data[place + count:])


def lengthened(chance, draft, data):
    place, more = some_place(chance, len(data)), chance.junk(1 + chance.below(20))
    return one_of(chance, more + data, data + more, data[:place] + more + data[place:], data + data)


def of_length(chance, draft, data):
    """About one of the limits; in front of a longer file come bytes, and a shorter one is cut there."""
    length = one_of(chance, MOST_BYTES, MOST_BYTES, 16, 32) + one_of(chance, -1, 0, 0, 1, 1, 2)
    return bytes(max(0, length - len(data))) + data[max(0, len(data) - length):]


# --- Bits and bytes ---------------------------------------------------------

def part_of(chance, draft, data):
    """The places of the trailer, of a record, or of all that is in front of the trailer."""
    t, kind = draft.t, chance.below(4)
    if kind == 0:
        return range(t, len(data))
    if kind == 1:
        place = draft.device_place(chance.below(len(draft.devices)))
        return range(place, place + 16)
    if kind == 2 and draft.links:
        place = draft.link_place(chance.below(len(draft.links)))
        return range(place, place + 4)
    return range(t)


def bit(chance, draft, data):
    place = one_of(chance, *part_of(chance, draft, data))
    return put(data, place, data[place] ^ 1 << chance.below(8))


def byte(chance, draft, data):
    place = one_of(chance, *part_of(chance, draft, data))
    n = len(draft.devices)
    return put(data, place, one_of(chance, 0, 255, chance.below(256), chance.below(n + 2), chance.below(256)))


def bytes_(chance, draft, data):
    for _ in range(2 + chance.below(4)):
        data = (bit, byte)[chance.below(2)](chance, draft, data)
    return data


# --- The trailer ------------------------------------------------------------

def mark(chance, draft, data):
    return put(data, draft.t, *one_of(chance, b"slpb", b"BPLS", b"SLP", b"\0\0\0\0", b"SLPB\2", b"SLPB\0"))


def split_in_bytes(chance, n):
    """Three counts, of which each is one byte, that add up to n."""
    counts = [min(255, n), max(0, min(255, n - 255)), max(0, n - 510)]
    return tuple(counts[k] for k in chance.mixed(3)) if chance.below(2) or n > 255 else chance.split(n)


def other_counts(chance, draft, data):
    """Another number of devices than there are records, or other banks."""
    n = len(draft.devices)
    n = one_of(chance, 0, 1, n - 1, n + 1, n, 63, 64, 65, 66, 128, 255, 256, 256 + n, 256 + 64, 512 + n, 765)
    return draft.data(counts=split_in_bytes(chance, min(n, 765)))


def all_devices(chance, draft, data):
    """64 or 65 devices with all records."""
    n = 64 + chance.below(2)
    return Draft(plain_devices(n), (), chance.split(n), before=draft.before[:16]).data()


def other_link_count(chance, draft, data):
    m = len(draft.links)
    m = one_of(chance, 0, m - 1, m + 1, 2 * m, 255, 256, 257, 256 + m, 512, 32768, 65535)
    return draft.data(m=max(0, m))


def all_links(chance, draft, data):
    """255, 256 or 257 links with all records."""
    n, m = 2 + chance.below(63), MOST_LINKS - 1 + chance.below(3)
    return Draft(plain_devices(n), any_links(chance, n, m), chance.split(n), chance.below(2) == 1).data()


def trailer_zeros(chance, draft, data):
    return put(data, draft.t + 10 + chance.below(2), one_of(chance, 1, 255, 1 << chance.below(8)))


# --- The tables -------------------------------------------------------------

def distance(chance, size, t, now):
    """About each bound of a distance, or about where the table is."""
    near = (-16, -4, -2, -1, 1, 2, 4, 16)
    value = one_of(chance, size, size - 1, size + 1, t, t + 1, 0, now + one_of(chance, *near), chance.below(t + 1),
                   t + 16, 65535, 256 * chance.below(256))
    return max(0, value)


def device_table(chance, draft, data):
    now = draft.t - draft.device_table
    return draft.data(d=distance(chance, 16 * len(draft.devices), draft.t, now))


def link_table(chance, draft, data):
    now = draft.t - draft.link_table
    return draft.data(l=distance(chance, 4 * len(draft.links), draft.t, now))


def both_tables(chance, draft, data):
    """Both moved; each for the other; or both from one place on."""
    t = draft.t
    d, l = t - draft.device_table, t - draft.link_table
    step = one_of(chance, -4, -1, 1, 4, 16)
    d, l = one_of(chance, (d + step, l + step), (l, d), (d, d), (l, l), (chance.below(t + 1), chance.below(t + 1)))
    return draft.data(d=max(0, d), l=max(0, l))


def overlapping(chance, draft, data):
    """The link table begins or ends inside the device table, by a byte, a few, or a record."""
    n, m, d = len(draft.devices), len(draft.links), draft.t - draft.device_table
    shared = one_of(chance, 1, 1, 2, 3, 4, 16, 0, -1, chance.below(16 * n))
    l = one_of(chance, d - 16 * n + shared, d + 4 * m - shared)
    return draft.data(l=max(0, l))


# --- The records ------------------------------------------------------------

def with_device(draft, i, record):
    return replace(draft, devices=draft.devices[:i] + [record] + draft.devices[i + 1:]).data()


def with_link(draft, j, record):
    links = list(draft.links)
    links[j:j + 1] = [record]
    return replace(draft, links=links).data()


def some_record(chance, draft):
    """A device's number and its record: the first one, the last one, or any."""
    n = len(draft.devices)
    i = one_of(chance, 0, n - 1, chance.below(n))
    return i, draft.devices[i]


def wrong_name(chance, draft, data):
    """A byte that is none of a name's, a zero byte first or inside, a digit first, or bytes behind a zero byte."""
    i, record = some_record(chance, draft)
    wrong, place = one_of(chance, *NONE_OF_NAMES), chance.below(8)
    field = one_of(chance, put(record[:8], place, wrong), put(record[:8], place, 0), bytes(8),
                   put(record[:8], 0, 0x30 + chance.below(10)), record[:7] + bytes([wrong]),
                   bytes(record[:1]).ljust(8, b"\0")[:7] + bytes([one_of(chance, *LETTERS_AND_DIGITS)]))
    return with_device(draft, i, field + record[8:])


def same_name(chance, draft, data):
    """The name of another device, or of all the same."""
    i, record = some_record(chance, draft)
    if chance.below(8) == 0:
        return replace(draft, devices=[record[:8] + other[8:] for other in draft.devices]).data()
    other = one_of(chance, *draft.devices)
    return with_device(draft, i, other[:8] + record[8:])


def parent(chance, draft, data):
    """Itself, none, or about the limit."""
    (i, record), n = some_record(chance, draft), len(draft.devices)
    number = one_of(chance, i, NONE, n, n - 1, 0, 254, 128 + i, chance.below(n), 64, chance.below(256))
    return with_device(draft, i, put(record, 8, number))


def device_zeros(chance, draft, data):
    i, record = some_record(chance, draft)
    return with_device(draft, i, put(record, 9 + chance.below(3), one_of(chance, 1, 255, 1 << chance.below(8))))


def word(chance, draft, data):
    i, record = some_record(chance, draft)
    return with_device(draft, i, record[:12] + one_of(chance, b"\0\0\0\x80", b"\1\0\0\0", b"\xFF" * 4, chance.junk(4)))


def moved_records(chance, draft, data):
    """Two device records change places, or all move by one."""
    devices, n = list(draft.devices), len(draft.devices)
    i, k = chance.below(n), chance.below(n)
    devices[i], devices[k] = devices[k], devices[i]
    return replace(draft, devices=one_of(chance, devices, devices[1:] + devices[:1])).data()


def wrong_link(chance, draft, data):
    """Consumer or supplier about the limit, itself, or the zero bytes; another link where there is none."""
    n = len(draft.devices)
    j = one_of(chance, 0, len(draft.links) - 1, chance.below(max(1, len(draft.links))))
    end, other = one_of(chance, n, n, 255, 254, 64, 128, n - 1, chance.below(256)), chance.below(n)
    zeros = one_of(chance, (1, 0), (0, 1), (0, 255), (1 << chance.below(8), 0))
    record = one_of(chance, link(end, other), link(other, end), link(other, other), link(other, (other + 1) % n, zeros))
    return with_link(draft, max(0, j), record)


def turned_link(chance, draft, data):
    """One that comes again the other way round, which makes a circle; or the parent that needs its child."""
    ends = [bytes(record[:2]) for record in draft.links]
    ends += [bytes([i, record[8]]) for i, record in enumerate(draft.devices) if record[8] != NONE]
    if not ends:
        return data
    supplier, consumer = one_of(chance, *ends)
    links = list(draft.links[:MOST_LINKS - 1])
    links.insert(chance.below(len(links) + 1), link(consumer, supplier))
    return replace(draft, links=links).data()


# --- The whole file ---------------------------------------------------------

def another_file(chance, draft, data):
    """The trailer in front, junk behind a right trailer, the file backwards, and bytes that are all the same."""
    t = draft.t
    return one_of(chance, data[t:] + data[:t], chance.junk(t) + data[t:], data[::-1], bytes(len(data)),
                  b"\xFF" * len(data), chance.junk(chance.below(80)), data[t:],
                  data[:t] + trailer((0, 0, 0), 0, 0, 0))


DAMAGES = (cut, lengthened, of_length, bit, bit, bit, byte, byte, bytes_, mark, other_counts, other_counts, all_devices,
           other_link_count, all_links, trailer_zeros, device_table, link_table, both_tables, overlapping, overlapping,
           wrong_name, wrong_name, same_name, parent, parent, device_zeros, word, moved_records, wrong_link, wrong_link,
           turned_link, another_file)
