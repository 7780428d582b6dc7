"""The two programs that are run in folders: what each reads and prints, and contents of its files."""

import boards
import runs
import sleeporder
import sleeprun
from comparing_folders import InFolders
from making import Draft, plain_devices, plain_links
from runcases_made import three_devices
from runmaking import sheet

BOARD = Draft(plain_devices(3), plain_links([(2, 0)])).data()
SLEEPORDER = InFolders("sleeporder", ("board.bin",), sleeporder.answer,
                       {number: (case.data,) for number, case in enumerate(boards.CASES)}, (BOARD,), (BOARD[1:],))

FILES = three_devices(), sheet(3, {(1, 2): 110})
SLEEPRUN = InFolders("sleeprun", sleeprun.FILES, sleeprun.answer,
                     {number: (case.data, case.sheet) for number, case in enumerate(runs.CASES) if case.letter == "r"},
                     FILES, (FILES[0], FILES[1][1:]))
