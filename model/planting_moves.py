"""The rules that change a statement, arguments or an arm: a write left out, arguments swapped, another arm's value, an
early return."""

import re

from planting_blocks import statements
from planting_rules import edit_of
from planting_scopes import INTEGERS, generic
from planting_text import Edit

KEYWORDS = {"let", "return", "break", "continue", "if", "match", "for", "while", "loop", "else", "use", "const", "fn"}
WRITES = ("=", "+=", "-=", "*=", "/=", "%=")


def is_write(source, first, past):
    """Whether a statement writes: an assignment, or a call for its effect."""
    if source.at(past - 1) != ";":
        return False
    if source.at(first) == "let":
        return source.at(first + 1).startswith("_") and "(" in [source.at(it) for it in range(first, past)]
    if source.at(first) in KEYWORDS:
        return False
    i = first
    while i < past:
        if source.at(i) in WRITES:
            return True
        i = source.skip(i)
    return source.at(past - 2) in (")", "?")


def has_write(source, first, past):
    """Whether anything that is written stands among these tokens."""
    texts = [source.at(it) for it in range(first, past)]
    return any(it in WRITES for it in texts) and texts[0] != "let" or "?" in texts or is_write(source, first, past) \
        or any(it in ("push", "make", "step") for it in texts)


def dropped(scope):
    """A statement that writes, left out with its lines."""
    source = scope.source
    for brace in scope.blocks:
        for first, past in statements(source, brace):
            if is_write(source, first, past):
                start = source.text.rfind("\n", 0, source.tokens[first].start) + 1
                end = source.text.find("\n", source.tokens[past - 1].end) + 1
                yield Edit(source.crate, source.file, start, end, "", "dropped")


def swapped(scope):
    """Two arguments of a call, places of a list or a tuple, or fields, each in the other's place."""
    source = scope.source
    for i in range(scope.first + 1, scope.past):
        if scope.in_pattern(i) or i not in source.partner or source.partner[i] < i:
            continue
        is_call = source.tokens[i - 1].kind == "word" or source.at(i - 1) == ">"
        parts = source.split(i + 1, source.partner[i])
        if source.at(i) == "{" and scope.kinds.get(i) == "struct":
            yield from swapped_fields(scope, i, parts)
            continue
        for one in range(len(parts)):
            for other in range(one + 1, len(parts)):
                left, right = source.span(*parts[one]), source.span(*parts[other])
                if left != right and is_alike(scope, i, parts, one, other, is_call):
                    gap = source.text[source.tokens[parts[one][1] - 1].end:source.tokens[parts[other][0]].start]
                    yield edit_of(source, parts[one][0], right + gap + left, "swapped", parts[other][1])


def is_alike(scope, i, parts, one, other, is_call):
    """Whether two of the parts in a bracket have the same type, by the declaration of what is called or by names."""
    source = scope.source
    if source.at(i) == "[":
        return not is_call and source.at(i - 1) not in (")", "]", "#")
    if source.at(i) != "(":
        return False
    if is_call:
        is_method = source.at(i - 2) == "."
        for of in scope.items.by_name.get(source.at(i - 1), []):
            types = [it for name, it in of.params if not (is_method and name == "self")]
            if len(types) == len(parts) and types[one] == types[other]:
                return True
    types = [scope.type_of(*parts[it]) for it in (one, other)]
    numbers = [parts[it][1] - parts[it][0] == 1 and source.tokens[parts[it][0]].kind == "number" for it in (one, other)]
    if any(numbers) and not is_call:
        return all(number or INTEGERS.fullmatch(of or "") for number, of in zip(numbers, types))
    return bool(types[0]) and types[0] == types[1]


def swapped_fields(scope, brace, parts):
    """Two fields of the same type, each with the other's value."""
    source = scope.source
    named = [(source.at(first), source.span(first + 2, past) if past > first + 1 else source.at(first), first, past)
             for first, past in parts if source.at(first) != ".."]
    types = [scope.field_of(source.at(brace - 1), it[0], source.at(brace - 3)) for it in named]
    for one in range(len(named)):
        for other in range(one + 1, len(named)):
            if types[one] and types[one] == types[other] and named[one][1] != named[other][1]:
                left, right = named[one], named[other]
                gap = source.text[source.tokens[left[3] - 1].end:source.tokens[right[2]].start]
                yield edit_of(source, left[2], f"{left[0]}: {right[1]}{gap}{right[0]}: {left[1]}", "swapped", right[3])


def bound_in(source, pattern):
    """The names that a pattern binds, or may bind."""
    return {source.at(i) for i in range(*pattern) if re.fullmatch(r"[a-z]\w*", source.at(i))}


def arms(scope):
    """The value of an arm in the place of another's, and of a branch in the place of the other."""
    source = scope.source
    for found in scope.arms.values():
        for one in found:
            for other in found:
                new, old = source.span(*other.value), source.span(*one.value)
                used = {source.at(i) for i in range(*other.value)} & bound_in(source, other.pattern)
                if new != old and used <= bound_in(source, one.pattern):
                    comma = "," if source.at(one.value[1]) not in (",", "}") and new[:1] != "{" else ""
                    yield edit_of(source, one.value[0], new + comma, "arm", one.value[1])
    for brace, kind in scope.kinds.items():
        close = source.partner[brace]
        if kind == "block" and source.at(close + 1) == "else" and source.at(close + 2) == "{":
            blocks = (brace, close + 1), (close + 2, source.partner[close + 2] + 1)
            for one, other in (blocks, blocks[::-1]):
                if source.span(*one) != source.span(*other):
                    yield edit_of(source, one[0], source.span(*other), "arm", one[1])


def values(result):
    """Plausible values of a type, for an early return."""
    inner = generic(result)[0] if "<" in result else ""
    if result == "()":
        return [""]
    if result == "bool":
        return ["false", "true"]
    if INTEGERS.fullmatch(result):
        return ["0"]
    if result.startswith("Option<"):
        return ["None"] + [f"Some({it})" for it in values(inner) if it and it != "None"]
    if re.match(r"(io::)?Result<", result):
        return ["Ok(())"] if inner == "()" else [f"Ok({it})" for it in values(inner)]
    return ["Ok(())"] if result == "fmt::Result" else ["String::new(heap)"] if result == "String" else []


def early(scope):
    """An early return at the start of a body, behind a statement that writes, or in a loop."""
    source, function = scope.source, scope.function
    returns = [f"return {it}".strip() for it in values(function.result)]
    for brace in scope.blocks:
        in_loop = scope.kinds[brace] == "loop"
        if is_closure(scope, brace):
            continue
        found = statements(source, brace)
        wrote = True
        for n, (first, past) in enumerate(found):
            is_last = n + 1 == len(found)
            rest = source.span(first, source.partner[brace])
            if wrote:
                leave = [it for it in returns if rest not in (it[7:], it, it + ";")]
                if in_loop:
                    leave = [*leave, "break", "continue"]
                if brace == scope.first and not is_last and source.at(found[-1][1] - 1) != ";":
                    leave += moved_up(scope, found, n)
                for it in leave:
                    yield before(source, first, it)
            wrote = has_write(source, first, past)
        if in_loop and found and has_write(source, *found[-1]):
            yield before(source, source.partner[brace], "    break")


def is_closure(scope, brace):
    """Whether a block is a closure's, or inside one: a return there is the closure's own."""
    while brace is not None:
        if scope.kinds.get(brace) == "block" and scope.source.at(brace - 1) in ("|", "||"):
            return True
        brace = scope.inside[brace]
    return False


def moved_up(scope, found, n):
    """The last expression as an early return before statement n, where it uses nothing that is bound behind."""
    source, (first, past) = scope.source, found[-1]
    if not any(has_write(source, *it) for it in found[n:-1]):
        return []
    behind = {source.at(i) for start, end in found[n:-1] if source.at(start) == "let" for i in range(start, end)
              if source.tokens[i].kind == "word" and i < next(it for it in range(start, end) if source.at(it) == "=")}
    used = {source.at(i) for i in range(first, past)}
    return [] if behind & used else [f"return {source.span(first, past)}"]


def before(source, i, text):
    """The edit that puts a statement on a line of its own before token i."""
    start = source.tokens[i].start
    line = source.text.rfind("\n", 0, start) + 1
    indent = re.match(r" *", source.text[line:])[0]
    if source.text[line:start].strip():
        return Edit(source.crate, source.file, start, start, f"{text}; ", "early")
    return Edit(source.crate, source.file, start, start, f"{text};\n{indent}".lstrip() if text[:1] != " "
                else f"{text};\n{indent}", "early")
