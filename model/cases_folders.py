"""Boards of folders that model/compare makes. They show what no board before them shows: choose_folders.py chose
them."""

from folders import SEED, folder
from making import left_open

NUMBERS = (
    0, 5, 10, 11, 13, 17, 25, 49, 54, 66, 77, 84, 92, 100, 101, 115, 135, 136, 149, 182, 208, 222, 247, 258, 259,
    266, 293, 323, 336, 353, 420, 568, 575, 599, 607, 620, 653, 660, 699, 716, 761, 789, 830, 877, 1092, 1093,
    1132, 1148, 1239, 1318, 1521, 1600, 1614, 1686, 1822, 2170, 2188, 2406, 2549, 3051, 3458, 3617, 3691, 3728,
    3935, 4051, 4143, 5456, 5482, 5694, 5890, 7660, 11048, 12756, 13508, 14378, 14678, 19907, 20700, 22073,
    22993, 33588, 35219, 38048, 42593, 44401, 45239, 48419, 48741, 49318, 55559, 56385, 68098, 68362, 72636,
    74063, 92256, 95202,
)


def cases():
    for number in NUMBERS:
        data, _, note = folder(SEED, number)
        yield left_open("folder %d, %s" % (number, note), data or b"")
