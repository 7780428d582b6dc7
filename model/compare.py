"""`python3 compare.py PROGRAM [COUNT [SEED]]`: model/compare with the built `sleeporder` alone, over the test boards and
COUNT folders (4,000 if none is given). Every run makes other folders, and prints a SEED that makes them again."""

import sys

import comparing
from programs import SLEEPORDER

if __name__ == "__main__":
    sys.exit(comparing.main(sys.argv[1:], SLEEPORDER))
