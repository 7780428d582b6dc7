"""`python3 compare_run.py PROGRAM [COUNT [SEED]]`: model/compare with the built `sleeprun` alone, over the files of the
test runs and COUNT folders (4,000 if none is given). Every run makes other folders, and prints a SEED that makes them
again."""

import sys

import comparing
from programs import SLEEPRUN

if __name__ == "__main__":
    sys.exit(comparing.main(sys.argv[1:], SLEEPRUN))
