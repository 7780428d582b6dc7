"""The variables of a function's body, and the types of its simple expressions."""

import re
from typing import NamedTuple

from planting_blocks import arms, braces

INTEGERS = re.compile(r"[iu](8|16|32|64|128|size)")


class Variable(NamedTuple):
    """A variable: its type, and the tokens between which it can be used."""
    name: str
    type: str
    first: int
    past: int


def generic(type_text):
    """The arguments of a type such as `Result<T, E>`."""
    inside, parts, depth, start = type_text.partition("<")[2][:-1], [], 0, 0
    for i, mark in enumerate(inside):
        depth += (mark in "<([") - (mark in ">)]")
        if mark == "," and not depth:
            parts.append(inside[start:i])
            start = i + 1
    return [*parts, inside[start:]]


def bare(type_text):
    """A type without references, lifetimes and generics: what its declaration is found by."""
    return re.sub(r"<.*", "", re.sub(r"^(&('\w+ )?(mut )?)+", "", re.sub(r"'(\w+)(?=[\[\w])", r"'\1 ", type_text)))


class Scope:
    """The variables of a function, and the types of simple expressions in it."""

    def __init__(self, items, function):
        self.items, self.function, self.source = items, function, function.source
        self.first, self.past = function.open, function.close + 1
        self.kinds = braces(self.source, self.first, self.past)
        self.inside = {}
        stack = []
        for i in range(self.first, self.past):
            if self.source.at(i) in ("}", ")", "]"):
                stack.pop()
            self.inside[i] = stack[-1] if stack else None
            if self.source.at(i) in ("{", "(", "["):
                stack.append(i)
        self.arms = {it: arms(self.source, it) for it, kind in self.kinds.items() if kind == "match"}
        self.blocks = [it for it, kind in self.kinds.items() if kind in ("block", "loop")]
        self.variables = [Variable(name, of, self.first, self.past) for name, of in function.params if name != "self"]
        self.patterns = []
        self.bind_all()

    def in_pattern(self, i):
        """Whether a token stands in a pattern."""
        return any(first <= i < past for first, past in self.patterns)

    def block_end(self, i):
        """Where the block that a token stands in ends."""
        while i is not None and self.kinds.get(self.inside[i]) not in ("block", "loop"):
            i = self.inside[i]
            if i is None:
                return self.past
        return self.source.partner[self.inside[i]]

    def bind_all(self):
        """Notes the variables that patterns bind."""
        source = self.source
        for i in range(self.first, self.past):
            text = source.at(i)
            if text == "let":
                self.bind_let(i)
            elif text == "for":
                end = next(it for it in range(i, self.past) if source.at(it) == "in")
                brace = next(it for it in range(end, self.past) if self.kinds.get(it) == "loop")
                self.bind(i + 1, end, self.element(end + 1, brace), brace, source.partner[brace])
            elif text == "|" and source.at(i - 1) in ("(", "=", ",", "move"):
                end = next(it for it in range(i + 1, self.past) if source.at(it) == "|")
                self.bind(i + 1, end, None, end, source.partner.get(self.inside[i], self.past))
            elif self.kinds.get(i) == "match":
                for arm in self.arms[i]:
                    self.bind(*arm.pattern, None, arm.pattern[1], arm.value[1])

    def bind_let(self, i):
        """Notes what a `let` binds, in a statement or in a condition."""
        source = self.source
        equal = i + 1
        while source.at(equal) != "=":
            equal = source.skip(equal)
        end, is_condition = equal + 1, source.at(i - 1) in ("if", "while", "&&")
        while source.at(end) not in (";", "else", "&&") and not (is_condition and source.at(end) == "{"):
            end = source.skip(end)
        if is_condition:
            brace = next((it for it in range(end, self.past) if self.kinds.get(it) in ("block", "loop")), end)
            return self.bind(i + 1, equal, self.type_of(equal + 1, end), brace, source.partner.get(brace, end))
        if source.at(i + 1) == "(" == source.at(equal + 1) and source.partner[equal + 1] == end - 1:
            lefts, rights = (source.split(it + 1, source.partner[it]) for it in (i + 1, equal + 1))
            for left, right in zip(lefts, rights):
                self.bind(*left, self.type_of(*right), end, self.block_end(i))
            return None
        return self.bind(i + 1, equal, self.type_of(equal + 1, end), end, self.block_end(i))

    def element(self, first, past):
        """The type of what a `for` goes over."""
        for mark in ("..", "..="):
            parts = self.source.split(first, past, mark)
            if len(parts) == 2:
                return self.type_of(*parts[1]) or self.type_of(*parts[0])
        whole = self.type_of(first, past) or ""
        of = re.fullmatch(r"&(?:'\w+ )?(mut )?\[(.*?)(;\w+)?\]", whole)
        return f"&{of[1] or ''}{of[2]}" if of else None

    def bind(self, first, past, of, start, end):
        """Notes the variables of a pattern that is matched with a value of this type, if it is known."""
        source = self.source
        self.patterns.append((first, past))
        for i in range(first, past):
            token = source.tokens[i]
            if token.kind != "word" or not re.fullmatch(r"[a-z_]\w*", token.text) or token.text in ("mut", "ref", "if"):
                continue
            if source.at(i + 1) in (":", "(", "::", "{", "!", ".") and i + 1 < past or source.at(i - 1) in ("::", "."):
                if source.at(i + 1) != ":" or self.kinds.get(self.inside[i]) == "struct" and i != first:
                    continue
            self.variables.append(Variable(token.text, self.bound(i, first, past, of), start, end))

    def bound(self, i, first, past, of):
        """The type of the variable that the pattern binds at i."""
        source, brace = self.source, self.inside[i]
        if brace is not None and brace >= first and self.kinds.get(brace) == "struct":
            field = source.at(i - 2) if source.at(i - 1) == ":" else source.at(i)
            return self.field_of(source.at(brace - 1), field, source.at(brace - 3))
        if source.at(first) == "(" and of and of.startswith("("):
            parts = source.split(first + 1, source.partner[first])
            place = next((n for n, part in enumerate(parts) if part[0] <= i < part[1]), 0)
            return generic(f"<{of[1:-1]}>")[place] if parts[place][1] - parts[place][0] <= 2 else None
        if i + 1 < past and source.at(i + 1) == ":":
            return source.span(i + 2, past).replace(" ", "")
        if source.at(first) in ("Ok", "Some") and of:
            return generic(of)[0] if "<" in of else None
        if source.at(first) == "&" and of and i == first + 1:
            return of[1:]
        return of if past - first <= 2 and source.at(first) != "&" else None

    def field_of(self, name, field, enum=""):
        """The type of a field of a struct or of a variant."""
        for fields in self.items.fields.get(name, []):
            if field in fields:
                return fields[field]
        for variants in self.items.variants.get(enum, []):
            if name in variants and field in variants[name][1]:
                return variants[name][1][field]
        return None

    def type_of(self, first, past):
        """The type of an expression, as far as names and declarations tell it."""
        source = self.source
        if past <= first:
            return None
        if source.at(past - 1) == "?":
            inner = {generic(it)[0] for it in self.types_of(first, past - 1) if re.match(r"(io::)?Result<|Option<", it)}
            return inner.pop() if len(inner) == 1 else None
        for mark in ("+", "-", "*", "/", "%"):
            parts = source.split(first, past, mark)
            if len(parts) > 1 and parts[0][0] == first and source.is_binary(parts[0][1]):
                return next((it for it in (self.type_of(*part) for part in parts) if it), None)
        if source.at(past - 2) == "as":
            return source.at(past - 1)
        if source.at(first) == "&":
            inner = self.type_of(first + 1, past)
            return "&" + inner if inner and source.at(first + 1) != "mut" else None
        if source.at(first) == "*":
            inner = self.type_of(first + 1, past) or ""
            return inner[1:] if inner.startswith("&") else None
        return self.type_of_path(first, past)

    def type_of_path(self, first, past):
        """The type of a variable, a field or a call."""
        source = self.source
        if source.at(past - 1) == ")" and source.partner[past - 1] > first:
            call = source.partner[past - 1]
            name, before = source.at(call - 1), source.at(call - 2)
            if before == "::" and name == "from" and INTEGERS.fullmatch(source.at(call - 3)):
                return source.at(call - 3)
            if name == "len" and before == ".":
                return "usize"
            results = self.results(first, call)
            return results.pop() if len(results) == 1 else None
        if source.at(past - 1) == "]" and source.partner[past - 1] > first:
            if ".." in [source.at(it) for it in range(source.partner[past - 1], past)]:
                return None
            whole = self.type_of(first, source.partner[past - 1]) or ""
            of = re.match(r"(?:&(?:'\w+ )?(?:mut )?)?\[(.*?)(;\w+)?\]$", whole)
            return of[1] if of else None
        if past - first == 1:
            return self.variable_type(source.at(first), first) or self.items.constants.get(source.at(first), ("",))[0]
        if past - first >= 3 and source.at(past - 2) == "." and source.tokens[past - 1].kind == "word":
            whole = self.receiver(first, past - 2)
            return self.field_of(bare(whole), source.at(past - 1)) if whole else None
        return None

    def types_of(self, first, past):
        """The types that an expression may have."""
        if self.source.at(past - 1) == ")" and self.source.partner[past - 1] > first:
            return self.results(first, self.source.partner[past - 1])
        return {self.type_of(first, past) or ""}

    def results(self, first, call):
        """The types that a call may answer with, by the functions of its name."""
        source, before = self.source, self.source.at(call - 2)
        found = self.items.by_name.get(source.at(call - 1), [])
        owner = source.at(call - 3) if before == "::" else ""
        if before == "." and call - 2 > first:
            owner = bare(self.receiver(first, call - 2) or "")
        return {it.result for it in [it for it in found if it.owner == owner] or found
                if not re.search(r"\bSelf\b|^[A-Z]$|<[A-Z],", it.result)}

    def receiver(self, first, past):
        """The type of what stands before a dot."""
        if past - first == 1 and self.source.at(first) == "self":
            return self.function.owner
        return self.type_of(first, past)

    def variable_type(self, name, i):
        """The type of the variable that has a name at token i."""
        of = [it.type for it in self.variables if it.name == name and it.first <= i < it.past]
        return of[-1] if of else None

    def like(self, name, i):
        """The other variables at token i that have the type of this one."""
        of = self.variable_type(name, i)
        seen = {it.name: it.type for it in self.variables if it.first <= i < it.past}
        return [it for it, other in seen.items() if of and other == of and it != name and not it.startswith("_")]
