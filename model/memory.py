"""`python3 memory.py FAILING_SO PROGRAM...`: runs built programs again and again, each time with another request for
memory that fails, alone or with all after it, until there is none left to fail. FAILING_SO is `tools/memory/failing.c`
as a shared object, and the programs are `sleeporder`, `sleeprun`, `bankcases`, `enginecases` and `runcases`, each by
its file; what stands behind a dot in the file's name is no part of the program's.

Of `sleeporder` and `sleeprun`: where memory is wanting they print nothing, tell so on standard error, and end with
status 1. Of the others, which run test cases of each kind one by one: they end with status 1, and what came
out before is a beginning of the model's answers. Where one request fails and others may succeed, a program can also go
on with a smaller one; all is then as if none had failed. And no memory is kept. `tools/memory/check` calls this."""

import os
import subprocess
import sys
import tempfile
from concurrent.futures import ThreadPoolExecutor
from typing import Callable, NamedTuple

import compare
import compare_banks
import compare_engine
import compare_run
import compare_runcases
import memory_files
from comparing_folders import Run, is_help

SECONDS = 20              # how long a program may take at once
NONE, ALONE, ONWARD = "none", "alone", "with all after it"
# What a test program tells on standard error: its own words, or those of the library.
TOLD = b"Error: no memory\n", b"Error: memory allocation failed\n", b"Error: out of memory\n"


class Counts(NamedTuple):
    """What `failing.h` counts."""
    asked: int
    failed: int
    live: int


class Trial(NamedTuple):
    """A program in a folder; how it ends where memory suffices, and whether it ended as where memory is wanting."""
    program: str
    note: str
    contents: object          # the files of the folder, or the test case
    lay: Callable             # makes the folder
    right: Callable           # of the folder
    wants: Callable           # of how it ended and of `right`


class Found(NamedTuple):
    requests: int
    failing: int              # runs in which a request failed
    went_on: int              # of these, runs that went on with a smaller one
    different: list


def run(preloaded, program, folder, first, how, arguments=()):
    """How the program ends where the request with the number `first` fails, and what was counted."""
    with tempfile.NamedTemporaryFile() as counts:
        counts.write(bytes(24))
        counts.flush()
        others = {"FAILING_FIRST": str(0 if how == NONE else first), "FAILING_COUNTS": counts.name,
                  "LD_PRELOAD": preloaded}
        if how == ONWARD:
            others["FAILING_ONWARD"] = "1"
        ended = subprocess.run([program, *arguments], cwd=folder, env={**os.environ, **others}, timeout=SECONDS,
                               stdin=subprocess.DEVNULL, stdout=subprocess.PIPE, stderr=subprocess.PIPE, check=False)
        counts.seek(0)
        told = [int.from_bytes(counts.read(8), "little", signed=True) for _ in Counts._fields]
    return Run(ended.stdout, ended.stderr, ended.returncode), Counts(*told)


def goes_on(right, first, how, ended, counts):
    """Whether another request was made after the one that failed, and the program then ended as ever."""
    return how == ALONE and counts.asked > first and ended == right


def judged(trial, right, first, how, ended, counts):
    """What is wrong with a run in which a request failed."""
    if counts.live:
        return "%d blocks are kept" % counts.live
    if how == ALONE and counts.failed != 1 or how == ONWARD and counts.asked - counts.failed != first - 1:
        return "other requests failed: %d of %d" % (counts.failed, counts.asked)
    if goes_on(right, first, how, ended, counts) or trial.wants(ended, right):
        return None
    return "it ended with %r" % (ended,)


def tried_in(preloaded, trial, folder):
    right = trial.right(folder)
    plain, all_counts = run(preloaded, trial.program, folder, 0, NONE)
    different, failing, went_on = [], 0, 0
    if plain != right or all_counts.live:
        different.append("%s, no request fails: %r, %r" % (trial.note, plain, all_counts))
    for how in (ALONE, ONWARD):
        for first in range(1, all_counts.asked + 2):
            ended, counts = run(preloaded, trial.program, folder, first, how)
            if first > all_counts.asked:
                wrong = None if (ended, counts) == (plain, all_counts) else "there was another request"
            else:
                failing += 1
                went_on += goes_on(right, first, how, ended, counts)
                wrong = judged(trial, right, first, how, ended, counts)
            if wrong:
                different.append("%s, request %d %s: %s" % (trial.note, first, how, wrong))
    return Found(all_counts.asked, failing, went_on, different)


def tried(preloaded, trial):
    with trial.lay(trial.contents) as folder:
        try:
            return tried_in(preloaded, trial, folder)
        except subprocess.TimeoutExpired:
            return Found(0, 0, 0, ["%s: it did not end" % trial.note])


def folder_trials(program, in_folders):
    """A program that reads files in its folder: on examples, boards of all sizes, refused ones, and no files."""
    told = b"%s: not enough memory\n" % in_folders.crate.encode("ascii")

    def wants(ended, _right):
        return ended == Run(b"", told, 1)

    for note, contents in memory_files.named_contents(in_folders):
        yield Trial(program, note, contents, in_folders.folder, in_folders.expected, wants)


def case_trials(program, answered):
    """A program that answers test cases, one by one."""
    def lay(case):
        folder = tempfile.TemporaryDirectory()
        with open(os.path.join(folder.name, answered.file), "wb") as file:
            file.write(answered.data([case]))
        return folder

    def wants(ended, right):
        return ended.status == 1 and ended.told in TOLD and right.printed.startswith(ended.printed)

    for case in memory_files.some_cases(answered):
        right = Run(answered.text([case]).encode("ascii"), b"", 0)
        yield Trial(program, case.note, case, lay, lambda _folder, right=right: right, wants)


FOLDERS = {"sleeporder": compare.SLEEPORDER, "sleeprun": compare_run.SLEEPRUN}
CASES = {"bankcases": compare_banks.CALLS, "enginecases": compare_engine.HISTORIES, "runcases": compare_runcases.RUNS}


def name_of(program):
    return os.path.basename(program).split(".")[0]


def help_without(preloaded, program):
    """What is wrong with `--help` where there is no memory at all."""
    with tempfile.TemporaryDirectory() as folder:
        ended, counts = run(preloaded, program, folder, 1, ONWARD, ["--help"])
    return [] if is_help(ended) and counts == Counts(0, 0, 0) else ["--help: %r, %r" % (ended, counts)]


def trials_of(program):
    name = name_of(program)
    return list(folder_trials(program, FOLDERS[name]) if name in FOLDERS else case_trials(program, CASES[name]))


def compared(preloaded, program):
    """Tries one program, prints what it found, and answers how much was different."""
    trials = trials_of(program)
    with ThreadPoolExecutor(os.cpu_count()) as several:
        found = list(several.map(lambda trial: tried(preloaded, trial), trials))
    different = [text for one in found for text in one.different]
    if name_of(program) in FOLDERS:
        different += help_without(preloaded, program)
    for text in different[:10]:
        print("different: %s: %s" % (os.path.basename(program), text))
    print("%s: %d %s, at most %d requests in one; %d runs with a request that fails, %d of which went on with a "
          "smaller one; %d different"
          % (os.path.basename(program), len(trials), "folders" if name_of(program) in FOLDERS else "cases",
             max(one.requests for one in found), sum(one.failing for one in found), sum(one.went_on for one in found),
             len(different)), flush=True)
    return len(different)


def main(arguments):
    if len(arguments) < 2:
        sys.stderr.write("usage: python3 memory.py FAILING_SO PROGRAM...\n")
        return 2
    preloaded, *programs = [os.path.abspath(path) for path in arguments]
    return 1 if sum(compared(preloaded, program) for program in programs) else 0


if __name__ == "__main__":
    sys.exit(main(sys.argv[1:]))
