"""What came of the edits: one line of JSON for each, kept between runs, and the tables and survivors at the end."""

import hashlib
import json
import os
import threading

from planting_order import NAMES

COLUMNS = ("tried", "not source", "src", "proofs", "names", "limit", "survived")
HEADS = ("tried", "not source", "at src", "at proofs", "by names", "limit", "survived")


class Results:
    """The results of this folder's runs, by the edits and the texts that they were tried over."""

    def __init__(self, top):
        os.makedirs(top, exist_ok=True)
        self.path = os.path.join(top, "results.jsonl")
        self.alone = threading.Lock()
        self.lines, self.seconds = {}, 0
        if os.path.exists(self.path):
            with open(self.path, encoding="utf-8") as file:
                for line in filter(str.strip, file):
                    self.take(json.loads(line))

    def take(self, line):
        """Notes a line: an edit's, or the seconds of a session."""
        if "session" in line:
            self.seconds += line["session"]
        else:
            self.lines[line["key"]] = line

    def add(self, line):
        """Notes a line and keeps it."""
        with self.alone, open(self.path, "a", encoding="utf-8") as file:
            self.take(line)
            file.write(json.dumps(line, ensure_ascii=False) + "\n")

    def survivors(self, crates):
        """The edits that survived when they were last tried, each once, in crates that are asked for."""
        last = {(it["file"], it["rule"], it["old"], it["new"]): it for it in self.lines.values()}
        return [it for it in last.values() if it["verdict"] == "survived" and it["crate"] in crates]


def key_of(edit, source, total):
    """What names an edit of the crates' texts that have this sum."""
    old = source.text[edit.start:edit.end]
    return hashlib.sha256(json.dumps([total, edit.file, edit.start, old, edit.new]).encode()).hexdigest()[:24]


def line_of(edit, source, total, verdict):
    """The line of JSON of an edit that was tried."""
    number, old, new = source.shown(edit)
    return {"crate": edit.crate, "file": edit.file, "line": number, "rule": edit.rule, "old": old, "new": new,
            "verdict": verdict.word, "place": verdict.place, "error": verdict.told, "seconds": verdict.seconds,
            "sum": total, "key": key_of(edit, source, total)}


def row_of(lines):
    """How many of these edits came to what."""
    words = [it["place"] if it["verdict"] == "refused" else it["verdict"] for it in lines]
    return [sum(it != "not source" for it in words), *(words.count(it) for it in COLUMNS[1:])]


def table(title, rows):
    """A table with a row for each name, and a last one for all."""
    width = max(len(it) for it in [*rows, title, "all"])
    print(" ".join([title.ljust(width), *HEADS]))
    whole = [sum(it) for it in zip(*rows.values())] if rows else [0] * len(HEADS)
    for name, row in [*rows.items(), ("all", whole)]:
        print(" ".join([name.ljust(width), *(str(it).rjust(len(head)) for it, head in zip(row, HEADS))]))
    print()


def told(mark, text):
    """Lines of an edit, each with its mark."""
    return "".join(f"  {mark} {it.strip()}\n" for it in text.split("\n") if it.strip())


def shown(line):
    """An edit as it is printed."""
    return f"{line['file']}:{line['line']} {line['rule']}\n{told('-', line['old'])}{told('+', line['new'])}"


def report(lines, seconds):
    """Prints what came of these edits."""
    print()
    table("crate", {it: row_of([line for line in lines if line["crate"] == it])
                    for it in dict.fromkeys(line["crate"] for line in lines)})
    rules = [it for it in (*NAMES, "hand") if any(line["rule"] == it for line in lines)]
    table("rule", {it: row_of([line for line in lines if line["rule"] == it]) for it in rules})
    for word in ("limit", "survived"):
        found = [it for it in lines if it["verdict"] == word]
        for line in found:
            print(f"{word}: {shown(line)}")
    print(f"{len([it for it in lines if it['verdict'] == 'survived'])} survived; "
          f"{seconds / 60:.0f} minutes in all sessions")
