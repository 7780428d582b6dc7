"""The items of the crates: functions with their bodies, structs, enums and constants."""

import os
import re
from typing import NamedTuple

from planting_text import Source

# The programs and those that only test; `host` has no contracts.
LEFT_OUT = {"sleeporder", "sleeprun", "host", "boardcases", "casebytes", "bankcases", "enginecases", "runcases"}
CLAUSES = ("requires", "ensures", "decreases", "ghost")


class Function(NamedTuple):
    """A function: where it is, its name, whether it may be called from other crates, what it belongs to, its parameters
    and result by type, and its body."""
    source: Source
    name: str
    is_public: bool
    owner: str
    params: list
    result: str
    open: int
    close: int


class Items:
    """What the crates declare."""

    def __init__(self):
        self.functions = []
        self.by_name = {}
        self.fields = {}
        self.variants = {}
        self.constants = {}
        self.below = {}


def crates_of(root):
    """The crates of the list, lowest first as it has them, with what each stands on."""
    listed = {}
    with open(os.path.join(root, "crates.txt"), encoding="utf-8") as file:
        for line in file:
            head, colon, below = line.partition("#")[0].partition(":")
            if colon:
                listed[head.split()[0]] = (below.split(), "staticlib" in head.split())
    return listed


def below(listed, crate):
    """The repository's crates that a crate stands on, lowest first."""
    found = [it for dep in listed[crate][0] if dep in listed for it in [*below(listed, dep), dep]]
    return list(dict.fromkeys(found))


def sources_of(root, crate):
    """The source files of a crate that are not tests."""
    top = os.path.join(root, "crates", crate, "src")
    found = {}
    for at, folders, names in os.walk(top):
        folders.sort()
        for name in sorted(names):
            if name.endswith(".rt"):
                path = os.path.join(at, name)
                with open(path, encoding="utf-8") as file:
                    found[os.path.relpath(path, root)] = file.read()
    tests = {it for text in found.values() for it in re.findall(r"#\[cfg\(test\)\]\s*mod (\w+);", text)}
    return [Source(crate, file, text) for file, text in found.items()
            if os.path.basename(file)[:-3] not in tests]


def compact(text):
    """A type without the spaces and line ends of its layout."""
    return re.sub(r"\s*([^\w\s])\s*", r"\1", re.sub(r"\s+", " ", text.strip())).rstrip(",")


def split_types(source, first, past):
    """The ranges of tokens between commas that stand in no bracket and in no generics."""
    parts, start, i = [], first, first
    while i < past:
        if source.at(i) == "<":
            i = skip_angles(source, i)
            continue
        if source.at(i) == ",":
            parts.append((start, i))
            start = i + 1
        i = source.skip(i)
    return [it for it in [*parts, (start, past)] if it[0] < it[1]]


def members(source, first, past):
    """Names and types of fields or parameters; ghost members are none."""
    found = []
    for start, end in split_types(source, first, past):
        while source.at(start) == "#":
            start = source.skip(start + 1)
        words = [source.at(i) for i in range(start, end)]
        if "ghost" in words[:3] or ":" not in words:
            if "self" in words:
                found.append(("self", compact(source.span(start, end))))
            continue
        colon = start + words.index(":")
        found.append((source.at(colon - 1), compact(source.span(colon + 1, end))))
    return found


def skip_angles(source, i):
    """The token behind the generics that begin at i."""
    if source.at(i) != "<":
        return i
    depth = 0
    while True:
        depth += (source.at(i) == "<") - (source.at(i) == ">")
        i = source.skip(i)
        if not depth:
            return i


def read_function(source, i, owner):
    """The function whose word `fn` is at i, or None where it has no body, and the token behind it."""
    name, is_public = source.at(i + 1), source.at(i - 1) != ")"
    i = skip_angles(source, i + 2)
    close = source.partner[i]
    params = members(source, i + 1, close)
    i, result = close + 1, "()"
    if source.at(i) == "->":
        start = i + 1
        while source.at(i) not in ("{", ";", "where", *CLAUSES):
            i = source.skip(i) if source.at(i) != "{" else i
        result = compact(source.span(start, i))
    while source.at(i) not in ("{", ";"):
        i += 1
        if source.at(i - 1) in CLAUSES:
            while source.at(i) != "{":
                i += 1
            i = source.partner[i] + 1
    if source.at(i) == ";":
        return None, i + 1
    return Function(source, name, is_public, owner, params, result, i, source.partner[i]), source.partner[i] + 1


def read_enum(source, first, past):
    """The shapes of an enum's variants, by name."""
    found = {}
    for start, end in source.split(first, past):
        while source.at(start) == "#":
            start = source.skip(start + 1)
        inner = members(source, start + 2, end - 1) if source.at(start + 1) == "{" else []
        shape = "" if source.at(start + 1) == "=" else compact(source.span(start + 1, end)).replace(",}", "}")
        found[source.at(start)] = (shape, dict(inner))
    return found


def owner_of(source, i):
    """The type that an impl or a trait at i is of, and the brace that opens it."""
    i = skip_angles(source, i + 1)
    last = ""
    while source.at(i) != "{":
        if source.at(i) == "for":
            last = ""
        elif source.at(i) == "<":
            i = skip_angles(source, i)
            continue
        elif source.tokens[i].kind == "word" and not last:
            last = source.at(i)
        elif source.at(i) == "::":
            last = ""
        i += 1
    return last, i


def read_items(items, source, i, past, owner=""):
    """Notes the items from token i on."""
    tested = False
    while i < past:
        word = source.at(i)
        if word == "#":
            start = i + 2 if source.at(i + 1) == "!" else i + 1
            tested |= "test" in [source.at(it) for it in range(start, source.partner[start])]
            i = source.partner[start] + 1
            continue
        if word == "fn":
            found, i = read_function(source, i, owner)
            if found and not tested:
                items.functions.append(found)
                items.by_name.setdefault(found.name, []).append(found)
        elif word in ("impl", "trait"):
            name, brace = owner_of(source, i)
            read_items(items, source, brace + 1, source.partner[brace], name)
            i = source.partner[brace] + 1
        else:
            i = read_declared(items, source, i, tested)
            tested = tested and (source.at(i - 1) in ("pub", ")", "crate") or word in ("extern", "unsafe", "const"))
            continue
        tested = False


def read_declared(items, source, i, tested):
    """Notes a struct, an enum or a constant at i, and gives the token behind what it read."""
    word, name = source.at(i), source.at(i + 1)
    if word in ("struct", "enum"):
        brace = skip_angles(source, i + 2)
        while source.at(brace) not in ("{", "(", ";"):
            brace += 1
        if source.at(brace) == "{":
            inside = brace + 1, source.partner[brace]
            if word == "struct":
                items.fields.setdefault(name, []).append(dict(members(source, *inside)))
            else:
                items.variants.setdefault(name, []).append(read_enum(source, *inside))
        return source.skip(brace)
    if word == "const" and source.at(i + 2) == ":":
        end = next(it for it in range(i, len(source.tokens)) if source.at(it) == "=")
        items.constants[name] = (compact(source.span(i + 3, end)), source.file)
    if word == "mod" and tested and source.at(i + 2) == "{":
        return source.partner[i + 2] + 1
    if word in ("ghost", "use", "const", "type"):
        while source.at(i) != ";" and source.at(i) != ",":
            i = source.skip(i)
        return i + 1
    return i + 1


def read_crates(root, crates):
    """All items of these crates."""
    items, listed = Items(), crates_of(root)
    for crate in crates:
        items.below[crate] = set(below(listed, crate))
        for source in sources_of(root, crate):
            read_items(items, source, 0, len(source.tokens))
    return items
