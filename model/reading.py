"""Bytes and numbers of a file of test cases, one after another."""


class Reader:
    """What is read of such a file; `place` is how far."""

    def __init__(self, data):
        self.data = data
        self.place = 0

    def bytes(self, count):
        assert self.place + count <= len(self.data)
        self.place += count
        return self.data[self.place - count:self.place]

    def number(self, size):
        return int.from_bytes(self.bytes(size), "little")
