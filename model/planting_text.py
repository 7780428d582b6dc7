"""The text of a source file as tokens, and the edits of such a text."""

import bisect
import re
from typing import NamedTuple

TOKEN = re.compile(r"""
    (?P<space> \s+ ) | (?P<comment> //[^\n]* )
  | (?P<text> b?"(?:\\.|[^"\\])*" )
  | (?P<char> b?'(?:\\x[0-9a-fA-F]{2}|\\u\{[^}]*\}|\\.|[^'\\])' )
  | (?P<life> '[A-Za-z_]\w* )
  | (?P<number> 0x[0-9a-fA-F_]+ | \d[\d_]*(?:[iu](?:8|16|32|64|128|size))? )
  | (?P<word> [A-Za-z_]\w* )
  | (?P<mark> \.\.= | && | \|\| | == | != | <= | >= | => | -> | :: | \.\. | \+= | -= | \*= | /= | %= | . )
""", re.X | re.S)
OPENS = {"(": ")", "[": "]", "{": "}"}


class Token(NamedTuple):
    """A token: its kind, its text, and where it begins and ends."""
    kind: str
    text: str
    start: int
    end: int


class Edit(NamedTuple):
    """An edit: in a file of a crate, the text from start to end becomes another one."""
    crate: str
    file: str
    start: int
    end: int
    new: str
    rule: str


class Source:
    """A file's text, its tokens without spaces and comments, and for each bracket the one that it pairs with."""

    def __init__(self, crate, file, text):
        self.crate, self.file, self.text = crate, file, text
        self.tokens = [Token(it.lastgroup, it[0], it.start(), it.end()) for it in TOKEN.finditer(text)
                       if it.lastgroup not in ("space", "comment")]
        self.partner = {}
        stack = []
        for i, token in enumerate(self.tokens):
            if token.kind == "mark" and token.text in OPENS:
                stack.append(i)
            elif stack and token.kind == "mark" and token.text == OPENS[self.tokens[stack[-1]].text]:
                self.partner[i] = stack[-1]
                self.partner[stack.pop()] = i
        self.lines = [0] + [it.end() for it in re.finditer("\n", text)]

    def at(self, i):
        """The text of a token, empty where there is none."""
        return self.tokens[i].text if 0 <= i < len(self.tokens) else ""

    def span(self, first, past):
        """The text of the tokens from `first` to the one before `past`."""
        return self.text[self.tokens[first].start:self.tokens[past - 1].end] if past > first else ""

    def line(self, place):
        """The number of the line that a place is in, from 1."""
        return bisect.bisect_right(self.lines, place)

    def is_binary(self, i):
        """Whether a mark stands between two operands: the layout then has a space on either side."""
        token = self.tokens[i]
        return self.text[token.start - 1:token.start].isspace() and self.text[token.end:token.end + 1].isspace()

    def skip(self, i):
        """The token behind the one at i, or behind the bracket that it opens."""
        return self.partner.get(i, i) + 1 if self.at(i) in OPENS else i + 1

    def split(self, first, past, mark=","):
        """The ranges of tokens between marks that stand in no bracket."""
        parts, start, i = [], first, first
        while i < past:
            if self.at(i) == mark:
                parts.append((start, i))
                start = i + 1
            i = self.skip(i)
        return [it for it in [*parts, (start, past)] if it[0] < it[1]]

    def replaced(self, edit):
        """The text with an edit."""
        return self.text[:edit.start] + edit.new + self.text[edit.end:]

    def shown(self, edit):
        """The number of the first line that an edit changes, its lines before and its lines after."""
        start, end = edit.start, edit.end
        if end > start and self.text[end - 1] == "\n":
            end -= 1
        first = self.text.rfind("\n", 0, start) + 1
        last = self.text.find("\n", end)
        last = len(self.text) if last < 0 else last
        after = self.text[first:start] + edit.new + self.text[end:last]
        return self.line(start), self.text[first:last], after if after.strip() else ""
