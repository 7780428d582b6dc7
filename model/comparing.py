"""What the programs compare*.py have in common: their arguments, and what they print of a comparison. And of those that
run a program over cases made by chance, in files of 200, how they hold what it prints to the model's answers, and its
status to 0."""

import os
import subprocess
import sys
import tempfile
from typing import Callable, NamedTuple

BATCH = 200               # how many cases one file has
SECONDS = 60              # how long the program may take over one file


class Answered(NamedTuple):
    """What a program answers: its crate, the file that it reads, and of the model the bytes and the answers of cases,
    and cases by a seed and a count."""
    crate: str
    file: str
    data: Callable
    text: Callable
    more_cases: Callable
    count: int = 2000         # how many cases are made where no count is given

    def compare(self, program, count, seed):
        """How many cases there were, and what was different."""
        cases = list(self.more_cases(seed, count))
        different = []
        for first in range(0, len(cases), BATCH):
            different += differences(program, self, cases[first:first + BATCH], first)
        return len(cases), different


def printed(program, name, data):
    """What the program prints of these bytes, or None where it does not end in time with status 0."""
    with tempfile.TemporaryDirectory() as folder:
        with open(os.path.join(folder, name), "wb") as file:
            file.write(data)
        try:
            run = subprocess.run([program], cwd=folder, stdin=subprocess.DEVNULL, stdout=subprocess.PIPE,
                                 timeout=SECONDS, check=False)
        except subprocess.TimeoutExpired:
            return None
    return run.stdout.decode("ascii", "replace") if run.returncode == 0 else None


def by_case(text):
    """The text cut in front of every line that begins with `#`."""
    parts = []
    for line in text.splitlines(keepends=True):
        if line.startswith("#") or not parts:
            parts.append("")
        parts[-1] += line
    return parts


def first_difference(found, expected):
    """The first lines that differ, as the program and as the model has them."""
    found, expected = found.splitlines() + ["the end"], expected.splitlines() + ["the end"]
    for one, other in zip(found, expected):
        if one != other:
            return one, other
    return "another end of a line", "byte 10"


def differences(program, answered, cases, first):
    """What is different in one file, a line for each case; `first` is the number of its first case in this run."""
    text = answered.text(cases)
    found = printed(program, answered.file, answered.data(cases))
    if found == text:
        return []
    if found is None:
        return ["case %d: the program did not end with status 0" % (first + k) for k in range(len(cases))]
    told, different = by_case(found), []
    for k, expected in enumerate(by_case(text)):
        if k >= len(told) or told[k] != expected:
            one, other = first_difference(told[k] if k < len(told) else "", expected)
            different.append("case %d, %s: %s, and by the model %s" % (first + k, cases[k].note, one, other))
    return different or ["case %d: there is more behind it" % (first + len(cases) - 1)]


def main(arguments, compared):
    """Compares a program with what the model says. `compared` has a crate, how many cases are made where no count is
    given, and `compare`, which takes the program, a count and a seed."""
    if not 1 <= len(arguments) <= 3 or not all(number.isdigit() for number in arguments[1:]):
        sys.stderr.write("usage: python3 %s PROGRAM [COUNT [SEED]]\n" % os.path.basename(sys.argv[0]))
        return 2
    if not os.access(arguments[0], os.X_OK):
        sys.stderr.write("%s is no program; `rt run` in crates/%s builds one, out/%s\n"
                         % (arguments[0], compared.crate, compared.crate))
        return 2
    count = int(arguments[1]) if len(arguments) > 1 else compared.count
    seed = int(arguments[2]) if len(arguments) > 2 else int.from_bytes(os.urandom(4), "little")
    print("seed %d" % seed, flush=True)
    count, different = compared.compare(os.path.abspath(arguments[0]), count, seed)
    for text in different[:10]:
        print("different: %s" % text)
    print("%d cases, %d different" % (count, len(different)))
    return 1 if different else 0
