"""What compare, compare.py and compare_run.py have in common: a program that reads files in the folder that it is run
in, and prints one text, is run in the folders of folders.py and in some that no chance makes. What it prints, its
status and its empty standard error are held to the model's."""

import os
import subprocess
import tempfile
from itertools import product
from typing import Callable, NamedTuple

from folders import MISSING, folders
from sleeporder import bytes_of

SECONDS = 10              # how long the program may take in one folder
HELP_LINES = 10           # what it prints of itself

# What may stand in place of a file: bytes, or one of these.
FOLDER = "folder"
ENDLESS = "/dev/zero"
EMPTY = "/dev/null"
CIRCLE = "circle"         # a link to itself
STRANGE = [MISSING, FOLDER, ENDLESS, EMPTY, CIRCLE]


class Run(NamedTuple):
    """How a program ended."""
    printed: bytes
    told: bytes               # on standard error
    status: int


def lay(path, content):
    """Puts this in the place of a file."""
    if content is MISSING:
        return
    if content == FOLDER:
        os.mkdir(path)
    elif content == CIRCLE:
        os.symlink(os.path.basename(path), path)
    elif isinstance(content, str):
        os.symlink(content, path)
    else:
        with open(path, "wb") as file:
            file.write(content)


def ended(program, folder, arguments=(), output=subprocess.PIPE):
    """How the program ends in this folder, or None where it does not in time."""
    try:
        run = subprocess.run([program, *arguments], cwd=folder, stdin=subprocess.DEVNULL, stdout=output,
                             stderr=subprocess.PIPE, timeout=SECONDS, check=False)
    except subprocess.TimeoutExpired:
        return None
    return Run(run.stdout or b"", run.stderr, run.returncode)


def named(contents):
    """Contents of the kinds above in words."""
    return " and ".join("a good file" if isinstance(content, bytes) else "no file" if content is MISSING else content
                        for content in contents)


class InFolders(NamedTuple):
    """A program that is run in folders: its crate, the files that it reads, and of the model what it answers to their
    bytes, and contents of these files by the numbers of test cases. `good` are contents that are not refused, and `bad`
    are some that are."""
    crate: str
    files: tuple
    answer: Callable
    tests: dict
    good: tuple
    bad: tuple
    count: int = 4000         # how many folders are made by chance where no count is given

    def folder(self, contents):
        """A folder with these contents."""
        folder = tempfile.TemporaryDirectory()
        for name, content in zip(self.files, contents):
            lay(os.path.join(folder.name, name), content)
        return folder

    def expected(self, folder):
        """How the model ends in this folder."""
        text, status = self.answer(*[bytes_of(os.path.join(folder, name)) for name in self.files])
        return Run(text.encode("ascii"), b"", status)

    def runs(self, program, folder, arguments=()):
        """How the program ends in this folder, and how the model does."""
        return ended(program, folder, arguments), self.expected(folder)

    def differs(self, program, contents, arguments=()):
        with self.folder(contents) as folder:
            found, expected = self.runs(program, folder, arguments)
            return found != expected

    def contents(self, count, seed):
        """What is in the folders that chance makes and in others, each with a name."""
        for contents in self.strange_contents():
            yield named(contents), contents
        for number, contents in self.tests.items():
            yield "test case %d" % number, contents
        for number, made in enumerate(folders(seed, count)):
            yield "folder %d of seed %d" % (number, seed), made[:len(self.files)]

    def strange_contents(self):
        """Every file in every strange way, with the other ones good or strange too."""
        for choice in product(range(len(STRANGE) + 1), repeat=len(self.files)):
            yield tuple(STRANGE[k - 1] if k else good for k, good in zip(choice, self.good))

    def other_differences(self, program):
        """Arguments that are ignored, the one that is not, and an output that takes nothing."""
        found = []
        for arguments in (["help"], ["-h"], [""], ["x", "--help"], ["--help "], [b"\xFF"], ["board.bin", "sheet.bin"]):
            for contents in (self.good, self.bad):
                if self.differs(program, contents, arguments):
                    found.append("the arguments %s" % arguments)
        for contents in (self.good, self.bad, (MISSING,) * len(self.files)):
            with self.folder(contents) as folder:
                for arguments in (["--help"], ["--help", "x"]):
                    if not is_help(ended(program, folder, arguments)):
                        found.append("the arguments %s" % arguments)
                for arguments in ([], ["--help"]):
                    with open("/dev/full", "wb") as full:
                        if ended(program, folder, arguments, full) != Run(b"", b"", 1):
                            found.append("an output that takes nothing")
        return found

    def compare(self, program, count, seed):
        """How many contents there were, and what was different."""
        compared, different = 0, self.other_differences(program)
        for name, contents in self.contents(count, seed):
            compared += 1
            if self.differs(program, contents):
                different.append(name)
        return compared, different


def is_help(run):
    return (run is not None and (run.told, run.status) == (b"", 0) and run.printed.count(b"\n") == HELP_LINES
            and run.printed.endswith(b"\n"))
