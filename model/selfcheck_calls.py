"""Checks of the test calls: their bytes, what they are to be answered, and what they meet."""

import calls
from bankparts import LEAVES, SHAPES, Free, built, device_count
from reading import Reader


class CallsReader(Reader):
    """Reads calls.bin as README.md has it."""

    def words(self):
        return tuple(self.number(4) for _ in range(self.number(1)))

    def leaf(self, kind):
        words = self.words()
        if kind != "free":
            return LEAVES[kind](words)
        found = self.bytes(64)
        return Free(words, found, tuple((self.number(4), self.bytes(64)) for _ in range(self.number(1))))

    def case(self):
        part = built(SHAPES[self.number(1)], self.leaf, lambda _: self.bytes(self.number(2)))
        return part, self.calls()

    def calls(self):
        return [(self.bytes(1).decode("ascii"), self.number(1), self.number(4)) for _ in range(self.number(2))]


def check_reading():
    """The bytes of the test calls say the cases that they were made of."""
    data = calls.calls_bytes(calls.CASES)
    reader = CallsReader(data)
    for case in calls.CASES:
        assert reader.case() == (case.part, [call[:3] for call in case.calls]), case.note
    assert reader.place == len(data)
    assert len(data) < 150000 and len(calls.answers_text(calls.CASES)) < 300000
    return len(data)


def check_coverage():
    """Every refusal of every call on every shape, every level, and makings on both sides of the limit."""
    met = set()
    for case in calls.CASES:
        calls.check_intent(case)
        texts = calls.answers(case)
        if texts == ["! 1 27 0"]:
            met.add((case.shape, 27))
            continue
        if device_count(case.part) == 64:
            met.add((case.shape, 64))
        for call, text in zip(case.calls, texts):
            words = text.split()
            met.add((case.shape, call.letter, words[4] if "!" in words else "hindered" if "-" in text else "taken"))
            if call.letter == "l" and "!" not in words:
                met.add((case.shape, "level", words[2]))
    for shape, form in enumerate(SHAPES):
        expected = {(shape, letter, number) for letter in "pdu" for number in ("12", "26", "taken")}
        expected |= {(shape, "l", "12"), (shape, "l", "taken"), (shape, "c", "taken"), (shape, 27), (shape, 64)}
        expected |= {(shape, "level", "%d" % level) for level in range(5)}
        if form != "quiet":
            expected.add((shape, "d", "hindered"))
        assert expected <= met, (form, expected - met)


def main():
    check_coverage()
    print("ok: %d cases of calls, %d bytes" % (len(calls.CASES), check_reading()))


if __name__ == "__main__":
    main()
