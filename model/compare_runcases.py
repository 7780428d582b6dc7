"""`python3 compare_runcases.py PROGRAM [COUNT [SEED]]`: runs a program that answers test runs over COUNT cases made by
chance (2,000 if none is given), and holds what it prints to the model's answers and its status to 0. The program reads
`runs.bin` in the folder that it is run in.

Every run makes other cases, and prints a SEED that makes them again."""

import sys

import comparing
import runs
from runcases_chance import more_cases

RUNS = comparing.Answered("runcases", "runs.bin", runs.runs_bytes, runs.answers_text, more_cases)

if __name__ == "__main__":
    sys.exit(comparing.main(sys.argv[1:], RUNS))
