"""What a function's body is made of: blocks, statements, and matches with their arms."""

from typing import NamedTuple

HEADS = ("if", "while", "for", "match", "loop", "else", "unsafe")


class Arm(NamedTuple):
    """An arm of a match: its pattern and its value, each from a token to the one before another."""
    pattern: tuple
    value: tuple


def braces(source, first, past):
    """For each brace of a body what it opens: a block, a loop, a match or a struct's fields."""
    kinds, heads, depth = {}, [], 0
    for i in range(first, past):
        text = source.at(i)
        if source.tokens[i].kind == "word" and text in HEADS:
            heads.append((text, depth))
        elif text == "{":
            if heads and heads[-1][1] == depth:
                head = heads.pop()[0]
                kinds[i] = "match" if head == "match" else "loop" if head in ("for", "while", "loop") else "block"
            else:
                kinds[i] = "block" if source.at(i - 1) in ("=>", "|", "||", "{", "}", ";") or i == first else "struct"
        elif text == "=>" or text == ";":
            heads = [it for it in heads if it[1] < depth]
        depth += (text in ("(", "[", "{")) - (text in (")", "]", "}"))
    return kinds


def past_block(source, i, past):
    """The token behind an `if` or `match` that begins at i, with all that follows by `else`."""
    while i < past and source.at(i) != "{":
        i = source.skip(i) if source.at(i) in ("(", "[") else i + 1
    i = source.skip(i)
    return past_block(source, i + 1, past) if source.at(i) == "else" else i


def statements(source, brace):
    """The statements of a block and its last expression, each as its first token and the one behind it."""
    i, close, found = brace + 1, source.partner[brace], []
    while i < close:
        start = i
        if source.at(i) in (*HEADS, "{"):
            i = past_block(source, i, close)
            if source.at(i) not in (".", "?", ";"):
                found.append((start, i))
                continue
        while i < close and source.at(i) != ";":
            i = source.skip(i)
        i = min(i + 1, close)
        found.append((start, i))
    return found


def arms(source, brace):
    """The arms of a match."""
    i, close, found = brace + 1, source.partner[brace], []
    while i < close:
        start = i
        while source.at(i) != "=>":
            i = source.skip(i)
        pattern, first = (start, i), i + 1
        if source.at(first) in ("{", "if", "match"):
            i = past_block(source, first, close)
        else:
            i = first
            while i < close and source.at(i) != ",":
                i = source.skip(i)
        found.append(Arm(pattern, (first, i)))
        i += source.at(i) == ","
    return found
