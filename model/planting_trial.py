"""The trial of an edit: a copy of its crate with the edit, and what the checker says of it.

A copy of the crates is proved once, by `rt check`. An edit is first checked over what was kept there of its crate, as
`rt must-fail` does it: what it leaves as it was need not be proved again. Where the edited crate is accepted so, it is
checked once more from nothing, and only that makes a survivor."""

import concurrent.futures
import hashlib
import os
import re
import shutil
import signal
import subprocess
import time
from typing import NamedTuple

from planting_items import below

PARTS = ("src", "specs", "proofs")
KIT = os.path.dirname(os.path.dirname(os.path.realpath(shutil.which("rt") or "rt")))
LIMITS = re.compile(r"antt ran out of|outgrew the memory limit|stopped at the step limit")
UNREAD = re.compile(r"is not in scope|has no field|is no name|operand is missing|expected the end|cannot continue")
NAMES = re.compile(r"has no field|is not in scope|has no `|was not admitted|can be named from here")
PLACE = re.compile(r"(note: )?(?:\./)?(\S+?):(\d+):(\d+): (error(?:\[[\w-]+\])?: )?(.*)")


class Verdict(NamedTuple):
    """What came of an edit: the word for it, where it is refused, the first error, and the seconds that it took."""
    word: str
    place: str
    told: str
    seconds: float


def files_of(root, crate):
    """The files of a crate that a check reads, by their paths."""
    found = {}
    for part in PARTS:
        for at, folders, names in os.walk(os.path.join(root, "crates", crate, part)):
            folders.sort()
            for name in sorted(names):
                path = os.path.join(at, name)
                with open(path, "rb") as file:
                    found[os.path.relpath(path, root)] = file.read()
    return found


class Bed:
    """The copy of the crates that edits are tried over."""

    def __init__(self, root, listed, jobs, minutes):
        self.root, self.listed, self.jobs, self.minutes = root, listed, jobs, minutes
        self.running = set()
        self.top = os.path.join(root, "target", "plant")
        self.base = os.path.join(self.top, "base")
        self.each = max(1, (os.cpu_count() or 1) // jobs)
        self.files = {it: files_of(root, it) for it in listed}
        self.sums = {it: self.sum_of(it) for it in listed}

    def sum_of(self, crate):
        """A sum of the crate's files, of those below it, and of the kit."""
        with open(os.path.join(KIT, "KIT-ID"), "rb") as file:
            known = hashlib.sha256(file.read())
        for path, data in sorted((it for one in [*below(self.listed, crate), crate] for it in self.files[one].items())):
            known.update(f"{path} {hashlib.sha256(data).hexdigest()}\n".encode())
        return known.hexdigest()[:16]

    def sow(self, crates):
        """Copies what changed, and has the checker prove these crates and those below them as they stand."""
        needed = [it for it in self.listed if it in crates or any(it in below(self.listed, one) for one in crates)]
        os.makedirs(self.base, exist_ok=True)
        shutil.copyfile(os.path.join(self.root, "crates.txt"), os.path.join(self.base, "crates.txt"))
        for crate in self.listed:
            self.copy(crate)
        proofs = {}
        with concurrent.futures.ThreadPoolExecutor(self.jobs) as pool:
            for crate in sorted(needed, key=lambda it: len(below(self.listed, it))):
                waits = [proofs[it] for it in below(self.listed, crate)]
                proofs[crate] = pool.submit(self.prove, crate, waits)
        for proof in proofs.values():
            proof.result()

    def prove(self, crate, waits):
        """Has a crate of the copy proved, and built for those above it, once those below it are."""
        for proof in waits:
            proof.result()
        folder = os.path.join(self.base, "crates", crate)
        known = os.path.join(folder, "out", "planted")
        if os.path.exists(known):
            with open(known, encoding="utf-8") as file:
                if file.read() == self.sums[crate]:
                    return
        with open(os.path.join(self.top, f"base-{crate}.log"), "w", encoding="utf-8") as log:
            for verb in ("check", "lib"):
                ran = subprocess.run(["rt", verb], cwd=folder, stdin=subprocess.DEVNULL, stdout=log, stderr=log)
                if ran.returncode:
                    raise SystemExit(f"{crate} is not proved as it stands: {log.name}")
        with open(known, "w", encoding="utf-8") as file:
            file.write(self.sums[crate])

    def copy(self, crate):
        """Has the copy of a crate be as the crate is."""
        was = files_of(self.base, crate)
        for path in set(was) - set(self.files[crate]):
            os.remove(os.path.join(self.base, path))
        for path, data in self.files[crate].items():
            if was.get(path) != data:
                os.makedirs(os.path.dirname(os.path.join(self.base, path)), exist_ok=True)
                with open(os.path.join(self.base, path), "wb") as file:
                    file.write(data)

    def words(self, crate):
        """The checker's command for a crate, over the libraries of the copy."""
        deps, is_static = self.listed[crate]
        words = [f"{KIT}/bin/rattle", "check", "--crate-name", crate, "src/lib.rt"]
        for name in ["std", *deps]:
            where = os.path.join(self.base, "crates", name, "out/rlib") if name in self.listed else f"{KIT}/rlibs"
            words += ["--extern", f"{name}={where}/{name}.rlib"]
        for name in below(self.listed, crate):
            words += ["-L", f"dependency={self.base}/crates/{name}/out/rlib"]
        words += ["-L", f"dependency={KIT}/rlibs", "--antt-project", f"{KIT}/rattle/logic/antt-project.json"]
        words += ["--logic-built", f"{KIT}/logic_built", "--jobs", str(self.each)]
        return words + (["--crate-type", "staticlib"] if is_static else [])

    def check(self, crate, folder, seed=None):
        """Runs the checker in a folder, over a seed or from nothing, and gives its status and what it printed."""
        words = self.words(crate) + (["--incremental", seed] if seed else [])
        with subprocess.Popen(words, cwd=folder, stdin=subprocess.DEVNULL, stdout=subprocess.PIPE,
                              stderr=subprocess.STDOUT, text=True, errors="replace", start_new_session=True) as ran:
            self.running.add(ran.pid)
            try:
                told, _ = ran.communicate(timeout=60 * self.minutes)
                return ran.returncode, told
            except subprocess.TimeoutExpired:
                os.killpg(ran.pid, signal.SIGKILL)
                return 3, f"antt ran out of time: {self.minutes} minutes"
            finally:
                self.running.discard(ran.pid)

    def stop(self):
        """Ends the checks that run."""
        for pid in list(self.running):
            os.killpg(pid, signal.SIGKILL)

    def trial(self, edit, text, number):
        """Tries the edited text of a file in copy `number`."""
        began = time.monotonic()
        room = os.path.join(self.top, f"copy-{number}")
        folder, seed = os.path.join(room, edit.crate), os.path.join(room, "seed")
        shutil.rmtree(room, ignore_errors=True)
        for path, data in self.files[edit.crate].items():
            to = os.path.join(room, os.path.relpath(path, "crates"))
            os.makedirs(os.path.dirname(to), exist_ok=True)
            with open(to, "wb") as file:
                file.write(text.encode() if path == edit.file else data)
        linked(os.path.join(self.base, "crates", edit.crate, "out/incremental"), seed)
        status, told = self.check(edit.crate, folder, seed)
        if status == 0:
            status, told = self.check(edit.crate, folder)
        found = judged(status, told, os.path.relpath(edit.file, f"crates/{edit.crate}"))
        shutil.rmtree(room, ignore_errors=True)
        return Verdict(*found, round(time.monotonic() - began, 1))


def linked(folder, to):
    """Copies what a check kept; what was proved by links, since a check replaces such a file and changes none."""
    def copy(one, other):
        return os.link(one, other) if one.endswith(".oantt") else shutil.copy2(one, other)
    shutil.copytree(folder, to, copy_function=copy)


def places_of(told):
    """What is refused, in order: the file, the line and what is said, of source files and proofs."""
    found = [PLACE.match(it) for it in told.split("\n")]
    return [it for it in found if it and (it[1] or it[5])]


def judged(status, told, file):
    """What a check of an edit of this file came to."""
    places = places_of(told)
    lacking = [it for it in places if not (it[2].startswith("proofs/") and NAMES.search(it[6]))]
    first = next(iter(lacking or places), None)
    of = re.search(r"^fn (\S+): (no proof|not proved|could not tell)", told, re.M)
    why = f"{of[1]}: " if of else ""
    why += f"{first[2]}:{first[3]}: {first[6]}"[:300] if first else told.strip()[-300:] if not of else ""
    if status == 0:
        return "survived", "", ""
    if status == 1 and re.search(r"^logic=not-proved", told.rstrip("\n").rpartition("\n")[2]):
        for it in places:
            said = re.sub(r"`[^`]*`", "", it[6])
            if it[5] and it[2] == file and (it[6][:1] != "`" or UNREAD.search(said)):
                return "not source", "", why
        place = "names" if places and not lacking else "proofs" if first and first[2].startswith("proofs/") else "src"
        return "refused", place, why
    if LIMITS.search(told):
        return "limit", "", why
    return "not source" if status == 1 and re.search(r"\berror\b", told) else "unknown", "", why
