"""`python3 sleeporder.py FOLDER`: what `sleeporder` does in that folder."""

import os
import sys

import fuldrik


def bytes_of(path):
    """The file, of a longer one just enough to show that it is too long; one that cannot be read counts as empty."""
    try:
        with open(path, "rb") as file:
            return file.read(fuldrik.MOST_BYTES + 1)
    except OSError:
        return b""


def answer(data):
    """What is printed, and the status at the end."""
    try:
        return fuldrik.listing(fuldrik.read_board(data)), 0
    except fuldrik.Refused as refusal:
        return refusal.line() + "\n", 1


def written(text):
    """Whether standard output took the text. It is written as bytes, so that every line ends with byte 10 on every system."""
    data = text.encode("ascii")
    try:
        while data:
            data = data[os.write(1, data):]
        return True
    except OSError:
        return False


def main(arguments):
    if len(arguments) != 1:
        sys.stderr.write("usage: python3 sleeporder.py FOLDER\n")
        return 2
    text, status = answer(bytes_of(os.path.join(arguments[0], "board.bin")))
    return status if written(text) else 1


if __name__ == "__main__":
    sys.exit(main(sys.argv[1:]))
