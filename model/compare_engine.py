"""`python3 compare_engine.py PROGRAM [COUNT [SEED]]`: runs a program that answers test histories over those of
enginecases_points.py and over COUNT more made by chance (2,000 if none is given), and holds what it prints to the
model's answers and its status to 0. The program reads `histories.bin` in the folder that it is run in.

Every run makes other cases, and prints a SEED that makes them again."""

import sys

import comparing
import enginecases_points
import histories
from enginecases_chance import more_cases


def points_and_chance(seed, count):
    return list(enginecases_points.cases()) + list(more_cases(seed, count))


HISTORIES = comparing.Answered("enginecases", "histories.bin", histories.histories_bytes, histories.answers_text,
                               points_and_chance)

if __name__ == "__main__":
    sys.exit(comparing.main(sys.argv[1:], HISTORIES))
