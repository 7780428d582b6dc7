"""The rules that change a mark, a number or a name: another comparison, another constant, another operand."""

import re

from planting_scopes import bare
from planting_text import Edit

COMPARISONS = {"<": ["<=", ">"], "<=": ["<"], ">": [">=", "<"], ">=": [">"], "==": ["!="], "!=": ["=="],
               "&&": ["||"], "||": ["&&"]}
SUMS = {"+": "-", "-": "+", "/": "%", "%": "/", "+=": "-=", "-=": "+="}
PAIRS = [("min", "max"), ("all", "any"), ("take", "skip"), ("first", "last"), ("is_some", "is_none"),
         ("is_ok", "is_err"), ("is_some_and", "is_none_or"), ("checked_add", "checked_sub"), ("find", "rfind"),
         ("saturating_add", "saturating_sub"), ("wrapping_add", "wrapping_sub"), ("position", "rposition"),
         ("trailing_zeros", "leading_zeros"), ("from_le_bytes", "from_be_bytes"), ("leading_ones", "trailing_ones"),
         ("starts_with", "ends_with"), ("split_first", "split_last"), ("count_ones", "count_zeros")]
METHODS = {one: other for pair in PAIRS for one, other in (pair, pair[::-1])}


def edit_of(source, i, new, rule, past=None):
    """The edit that puts a text in the place of a token, or of those from it to the one before `past`."""
    return Edit(source.crate, source.file, source.tokens[i].start, source.tokens[(past or i + 1) - 1].end, new, rule)


def comparisons(scope):
    """Another comparison, a range with its end or without, another connective, a negation left out."""
    source = scope.source
    for i in range(scope.first + 1, scope.past):
        text = source.at(i)
        if text in COMPARISONS and source.is_binary(i):
            for other in COMPARISONS[text]:
                yield edit_of(source, i, other, "comparison")
        elif text in ("..", "..=") and source.at(i + 1) not in (")", "]", "}", ",", ";"):
            yield edit_of(source, i, "..=" if text == ".." else "..", "comparison")
        elif text == "!" and source.tokens[i - 1].kind != "word" and not source.is_binary(i):
            yield edit_of(source, i, "", "comparison")


def constants(scope):
    """An integer constant, or a byte, that is one more or one less."""
    source = scope.source
    for i in range(scope.first + 1, scope.past):
        token = source.tokens[i]
        if token.kind == "number" and source.at(i - 1) != ".":
            digits = re.match(r"0x[0-9a-fA-F_]+|[\d_]+", token.text)[0]
            number, suffix = int(digits.replace("_", ""), 0), token.text[len(digits):]
            for other in (number + 1, number - 1):
                if other >= 0:
                    text = f"0x{other:x}" if digits.startswith("0x") else str(other)
                    yield edit_of(source, i, text + suffix, "constant")
        elif token.kind == "char" and len(token.text) == 4 and token.text[0] == "b":
            for other in (ord(token.text[2]) + 1, ord(token.text[2]) - 1):
                if 32 <= other < 127 and chr(other) not in "'\\":
                    yield edit_of(source, i, f"b'{chr(other)}'", "constant")


def operands(scope):
    """Another operand of the same type, a sum for a difference, another method of the same signature."""
    source = scope.source
    for i in range(scope.first + 1, scope.past):
        token = source.tokens[i]
        if token.text in SUMS and source.is_binary(i):
            yield edit_of(source, i, SUMS[token.text], "operand")
        if token.kind == "text":
            yield from holes(source, token)
        if token.kind != "word":
            continue
        before, after = source.at(i - 1), source.at(i + 1)
        if before == "::" and after != "::":
            yield from variants(scope, i)
        elif before == "." and after != "(":
            yield from fields(scope, i)
        if after == "(" and before != "fn":
            yield from methods(scope, i)
        elif before not in (".", "::") and after not in ("::", "!"):
            yield from names(scope, i)


def holes(source, token):
    """Another name in a hole of a text to be written, of those that the text has."""
    found = list(re.finditer(r"\{([a-z_]\w*)\}", token.text))
    for one in found:
        for other in dict.fromkeys(it[1] for it in found):
            if other != one[1]:
                start = token.start + one.start(1)
                yield Edit(source.crate, source.file, start, start + len(one[1]), other, "operand")


def names(scope, i):
    """Another variable or constant of the same type."""
    source, name = scope.source, scope.source.at(i)
    if name in scope.items.constants:
        of, file = scope.items.constants[name]
        for other, (type_text, _) in scope.items.constants.items():
            if other != name and type_text == of and re.search(rf"\b{other}\b", source.text):
                yield edit_of(source, i, other, "operand")
        return
    in_fields = scope.kinds.get(scope.inside[i]) == "struct"
    if scope.in_pattern(i) or in_fields and source.at(i + 1) == ":":
        return
    is_short = in_fields and source.at(i - 1) in ("{", ",") and source.at(i + 1) in (",", "}")
    for other in scope.like(name, i):
        yield edit_of(source, i, f"{name}: {other}" if is_short else other, "operand")


def fields(scope, i):
    """Another field of the same type, of the same struct."""
    source, name = scope.source, scope.source.at(i)
    structs = scope.items.fields
    receiver = scope.receiver(receiver_start(source, i - 1), i - 1)
    found = structs.get(bare(receiver), []) if receiver else [it for of in structs.values() for it in of]
    others = {other for struct in found if name in struct for other in struct
              if other != name and struct[other] == struct[name]}
    for other in sorted(others):
        yield edit_of(source, i, other, "operand")


def receiver_start(source, dot):
    """Where what stands before a dot begins."""
    i = dot - 1
    while True:
        if source.at(i) in (")", "]"):
            i = source.partner[i] - 1
            if source.tokens[i].kind != "word":
                return i + 1
        elif source.at(i) == "?":
            i -= 1
            continue
        if source.at(i - 1) not in (".", "::"):
            return i
        i -= 2


def variants(scope, i):
    """Another variant with the same fields; in a pattern only where the match has an arm for all others."""
    source, name = scope.source, scope.source.at(i)
    for variants_of in scope.items.variants.get(source.at(i - 2), []):
        if name not in variants_of:
            continue
        for brace, arms in scope.arms.items():
            if any(arm.pattern[0] <= i < arm.pattern[1] for arm in arms):
                if not any(source.span(*arm.pattern) == "_" for arm in arms):
                    return
        for other, (shape, _) in variants_of.items():
            if other != name and shape == variants_of[name][0]:
                yield edit_of(source, i, other, "operand")


def methods(scope, i):
    """Another function or method that takes and answers the same."""
    source, name, before = scope.source, scope.source.at(i), scope.source.at(i - 1)
    if name in METHODS and before in (".", "::"):
        if source.at(i + 2) != ")" or name not in ("take", "skip"):
            yield edit_of(source, i, METHODS[name], "operand")
        return
    owner = source.at(i - 2) if before == "::" else ""
    if before == ".":
        owner = bare(scope.receiver(receiver_start(source, i - 1), i - 1) or "")
    found = [it for it in scope.items.by_name.get(name, []) if it.source.crate in seen_crates(scope)]
    found = [it for it in found if it.owner == owner] or found
    others = {it for one in found for it in alike(scope, one, before)} - {scope.function.name}
    for other in sorted(others):
        yield edit_of(source, i, other, "operand")


def seen_crates(scope):
    """The crate that is edited, and those that it stands on."""
    return {scope.source.crate, *scope.items.below[scope.source.crate]}


def alike(scope, one, before):
    """The names of the functions that stand beside this one and have its signature."""
    takes_self = bool(one.params) and one.params[0][0] == "self"
    if takes_self != (before == ".") or not one.owner and one.source is not scope.source and before != "::":
        return []
    return [it.name for it in scope.items.functions
            if it.owner == one.owner and it.source.crate == one.source.crate and it.name != one.name
            and (one.owner or it.source is one.source) and it.result == one.result
            and [of for _, of in it.params] == [of for _, of in one.params]
            and (it.is_public or it.source.crate == scope.source.crate)]
