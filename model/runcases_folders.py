"""Runs of folders that model/compare makes. They show what no run before them shows: choose_folders.py chose them."""

from folders import SEED, folder
from runmaking import left_open

NUMBERS = (
    0, 10, 11, 12, 50, 68, 69, 77, 84, 91, 115, 135, 136, 137, 149, 163, 176, 201, 242, 258, 265, 269, 277, 282,
    293, 312, 385, 396, 404, 460, 491, 538, 549, 553, 568, 642, 663, 699, 716, 731, 750, 780, 830, 862, 877,
    1083, 1092, 1093, 1104, 1132, 1239, 1240, 1318, 1521, 1686, 2115, 2170, 2318, 2343, 2406, 2407, 2495, 2540,
    2995, 3062, 3353, 3458, 3574, 3691, 4051, 4143, 4406, 4828, 5456, 5798, 5890, 7366, 8055, 8246, 11048, 12756,
    13508, 14378, 14678, 15308, 18101, 19907, 20700, 21094, 21685, 22993, 24713, 33588, 33803, 35219, 38048,
    42593, 45127, 45239, 48419, 49197, 49318, 55559, 56385, 68098, 68362, 70618, 74063, 77736, 95202,
)


def cases():
    for number in NUMBERS:
        data, sheet, note = folder(SEED, number)
        yield left_open("folder %d, %s" % (number, note), "r", data or b"", sheet or b"")
