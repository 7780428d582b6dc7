"""`python3 compare_banks.py PROGRAM [COUNT [SEED]]`: runs a program that answers test calls over COUNT cases made by
chance (2,000 if none is given), and holds what it prints to the model's answers and its status to 0. The program reads
`calls.bin` in the folder that it is run in.

Every run makes other cases, and prints a SEED that makes them again."""

import sys

import calls
import comparing
from bankcases_chance import more_cases

CALLS = comparing.Answered("bankcases", "calls.bin", calls.calls_bytes, calls.answers_text, more_cases)

if __name__ == "__main__":
    sys.exit(comparing.main(sys.argv[1:], CALLS))
