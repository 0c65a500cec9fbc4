#!/usr/bin/env python3
"""The wrong bodies that the gate does not try each time: crates/*/wrong-bodies/*.edit.

    python3 tests/wrong_bodies.py try [CRATE..]
        tries those of these crates, or of all, that were not refused before with what decides
        them, or are due
    python3 tests/wrong_bodies.py current
        lists those that have to be tried, and counts those that are due
    python3 tests/wrong_bodies.py renamed COMMIT OLD=NEW..
        notes those that were refused at a commit, if what decides them is the same since but for
        these names, of which no new one was a word there; with a slash, a name is that of a file
        that was moved, or of a file and a function of it

A crate is proved first, without an edit. Then its edits are tried in a copy, over what that proof
kept, so that a check proves what an edit touches; each must be refused by the prover. A function is
proved from its own body and from the contracts of what it calls, so edits of different functions
are tried together, in one check: an edit is refused if a goal of its own function stays open. That
this function calls another that is not proved doesn't count. What is not refused so is tried
alone, and is refused if a goal of any function stays open, that of a caller, say; the rest is left
to `rt must-fail`. All checks of a crate, and crates, run side by side.

wrong-bodies/TRIED is one line, with two hashes for each edit that was refused: one of the edit, its
two head lines left out, and of what decides it in its own crate (tests/meaning.py: its functions,
the contracts and definitions that they name, and so on down; the whole crate for an edit outside of
functions), and one of what decides it in the crates below, and of the kit. An edit whose first hash
isn't there has to be tried, and `current` fails until it was refused. If only the second is
another, it is due: `current` counts it; there are none when a version is cut. Those in
wrong-bodies/waiting/ are new, or were refused with earlier sources, and wait for a longer run:
`current` counts them, and `try` takes them back."""
import hashlib
import json
import os
import re
import shutil
import subprocess
import sys
import tempfile
import time
from concurrent.futures import ThreadPoolExecutor
from contextlib import contextmanager
from dataclasses import dataclass
from functools import cache
from pathlib import Path
from queue import Empty, SimpleQueue
from threading import Lock

from cases import Cases
from meaning import WORD, deciding, index_of, parts_of, seeds_of
from sources import FOLDERS, TOP, below, files_of, items, listed

# the head lines of an edit: they say what it is about, and change nothing
HEADS = ("# idea: ", "# refused by: ")
# what a check keeps for the next one
KEPT = "out/incremental"
# what one check may take, in bytes
MEMORY = 4_000_000_000
# what a check says of a function that has a goal of its own left
OPEN = re.compile(r"^fn (\S+): (?:not proved$|no proof: expected answers )", re.MULTILINE)


def main(words):
    crates = crates_with_edits()
    if words == ["current"]:
        return say_current(crates)
    if words[:1] == ["refused"]:
        print(json.dumps(refused_with(crates, dict(pair.split("=") for pair in words[1:]))))
        return 0
    if words[:1] == ["renamed"]:
        return note_renamed(crates, words[1], words[2:])
    if words[:1] != ["try"]:
        print(__doc__, file=sys.stderr)
        return 2
    unknown = [name for name in words[1:] if name not in crates]
    if unknown:
        print(f"wrong bodies: no crate has any under the name {' '.join(unknown)}", file=sys.stderr)
        return 1
    return try_all(words[1:] or crates)


def crates_with_edits():
    return sorted(at.parent.name
                  for at in TOP.glob("crates/*/wrong-bodies") if any(at.rglob("*.edit")))


def waiting(name):
    return sorted((TOP / "crates" / name / "wrong-bodies" / "waiting").glob("*.edit"))


def take_back(name):
    for at in waiting(name):
        at.rename(at.parent.parent / at.name)


def say_current(crates):
    judged, late = Cases("wrong bodies"), [name for name in crates if untried(name)]
    for name in crates:
        judged.add(len(edits_of(name)),
                   [f"{name}: {at.stem} has to be tried" for at in untried(name)]
                   + [f"{name}: {at.stem}: {place.file} hasn't this text, or not once: {place.old}"
                      for at, place in misplaced(name)]
                   + [f"{name}: {at.stem} is refused by {word}, which is no word of its crate"
                      for at, word in unknown_words(name)])
    if late:
        print(f"wrong bodies: run ./test wrong {' '.join(late)}", file=sys.stderr)
    for name in filter(waiting, crates):
        print(f"wrong bodies: {len(waiting(name))} wait: ./test wrong {name} tries them",
              file=sys.stderr)
    late = sum(len(due(name)) for name in crates)
    return judged.end(f"edits, {late} due because of a crate below")


def note_renamed(crates, commit, pairs):
    """Notes as refused those edits that differ only by names from what was refused at a commit;
    what decided there may be more."""
    names = dict(pair.split("=") for pair in pairs)
    with tempfile.TemporaryDirectory() as copy:
        files = subprocess.run(["git", "archive", commit], cwd=TOP, stdout=subprocess.PIPE,
                               check=True).stdout
        subprocess.run(["tar", "-x"], cwd=copy, input=files, check=True)
        for new in names.values():
            if "/" not in new and not run(["grep", "-rqw", "--", new, "crates"], copy).returncode:
                print(f"wrong bodies: {new} was a word of that commit", file=sys.stderr)
                return 1
        for file in TOP.glob("tests/*.py"):
            shutil.copy(file, Path(copy, "tests"))
        before = json.loads(run([sys.executable, "tests/wrong_bodies.py", "refused", *pairs],
                                copy).stdout)
    for name in crates:
        wanted = wanted_of(name)
        same = {at.name for at in wanted if f"{name}/{at.name}" in before
                and set(before[f"{name}/{at.name}"]).issuperset(with_names(name, at, names))}
        if wanted:
            print(f"wrong bodies: {name}: {len(same)} of {len(wanted)} differ only by names")
            keep(name, hashes(name), same)
    return 0


def refused_with(crates, names):
    """For each edit that was refused what decides it, with other names."""
    return {f"{name}/{at.name}": with_names(name, at, names) for name in crates
            for at in set(edits_of(name)).difference(wanted_of(name))}


def with_names(name, at, names):
    """A hash of each text that decides an edit, with other names, however it is laid out."""
    texts = [WORD.sub(lambda word: names.get(word[0], word[0]), moved(text, names))
             for found in texts_of(name, at) for text in found]
    return [hash_of([re.sub(r",(?=[)\]}])", "", re.sub(r"\s", "", text))])[:16] for text in texts]


def moved(text, names):
    """An edit's text with other files for those that were moved."""
    for old, new in names.items():
        if "/" in old:
            text = re.sub(rf"^((?:in|file): ){re.escape(old)}(?= |$)", rf"\g<1>{new}", text,
                          flags=re.M)
    return text


def try_all(names):
    begun = time.monotonic()
    for name in names:
        take_back(name)
    forget()
    names = [name for name in names if wanted_of(name)]
    wanted = sum(len(wanted_of(name)) for name in names)
    if not are_proved(names):
        print(f"wrong bodies: 0 refused, {wanted} not refused")
        return 1
    print(f"wrong bodies: their crates proved, {(time.monotonic() - begun) / 60:.1f} minutes",
          flush=True)
    names = sorted(names, key=lambda name: -len(wanted_of(name)) * size_of(name))
    # the crates' threads only wait for their checks
    with ThreadPoolExecutor(lanes()) as checks, ThreadPoolExecutor(len(names) or 1) as crates:
        refused = sum(crates.map(lambda name: try_crate(name, checks), names))
    print(f"wrong bodies: {(time.monotonic() - begun) / 60:.1f} minutes")
    print(f"{refused} refused, {wanted - refused} not refused")
    return int(refused < wanted)


def are_proved(names):
    """Whether the crates are proved as they are: else an edit's refusal would say nothing."""
    ran = [run(["rt", "check"], TOP / "crates" / name) for name in upwards(names)]
    failed = [it for it in ran if it.returncode]
    print("".join(it.stdout for it in failed), end="")
    return not failed


def upwards(names):
    """The crates as crates.txt has them, each below those that stand on it."""
    return [name for name in listed() if name in names]


def try_crate(name, checks):
    """Tries the crate's wrong bodies, and returns how many of them were refused."""
    before, begun, noting = hashes(name), time.monotonic(), Lock()
    edits = [Edit(name, at) for at in wanted_of(name)]
    with Copies(name) as copies:
        def refused_in(batch):
            refused = try_together(copies, batch)
            # noted at once, so that a run that is stopped has not been for nothing
            with noting:
                keep(name, before, {edit.at.name for edit in refused})
            return refused

        def refused_of(batches):
            return sum(checks.map(refused_in, batches), [])

        refused = refused_of(batches(edits))
        alone = [edit for edit in edits if edit not in refused]
        refused += refused_of([edit] for edit in alone)
        left = [edit for edit in edits if edit not in refused]
        said = checks.submit(must_fail, copies, left).result() if left else ""
    late = re.findall(rf"must-fail {name}/(\S+?)(?:\.edit)?: refused, as it must be", said)
    refused += [edit for edit in left if edit.at.stem in late]
    print(f"{said}wrong bodies: {name}: {len(refused)} of {len(edits)} refused, {len(alone)} of "
          f"them alone, "
          f"{time.monotonic() - begun:.0f} s", flush=True)
    keep(name, before, {edit.at.name for edit in refused})
    return len(refused)


def keep(name, before, refused):
    """Notes the edits that were refused, if nothing that they were tried with has changed since."""
    forget()
    now, noted = hashes(name), tried(name)
    noted.update(now[at] for at in refused if now.get(at) == before.get(at))
    mark(name).write_text(" ".join(f"{own}-{noted[own]}" for own, _ in now.values()
                                   if own in noted) + "\n")


class Copies:
    """Copies of the repository in which a crate's edits are made, one for each check that runs at
    once: what is edited there is no other's library."""

    def __init__(self, name):
        self.name, self.free = name, SimpleQueue()

    def __enter__(self):
        self.folder = tempfile.TemporaryDirectory(prefix="wrong-bodies-")
        return self

    def __exit__(self, *_):
        self.folder.cleanup()

    @contextmanager
    def one(self):
        try:
            copy = self.free.get_nowait()
        except Empty:
            copy = Path(tempfile.mkdtemp(dir=self.folder.name))
            copy_to(copy)
            crate = copy / "crates" / self.name
            shutil.copytree(TOP / "crates" / self.name / KEPT, crate / KEPT)
            (crate / "must-fail").mkdir()
        yield copy
        self.free.put(copy)


def copy_to(copy):
    """The repository, with links to the built libraries, whose files are replaced and never
    changed."""
    for name in ("crates.txt", "HANDLES"):
        shutil.copy(TOP / name, copy / name)
    for crate in TOP.glob("crates/*"):
        for part in (*FOLDERS, "out/rlib"):
            if (crate / part).is_dir():
                shutil.copytree(crate / part, copy / "crates" / crate.name / part, symlinks=True,
                                copy_function=link_or_copy if part == "out/rlib" else shutil.copy2)


def link_or_copy(file, to):
    try:
        os.link(file, to)
    except OSError:
        shutil.copy2(file, to)


@dataclass(frozen=True)
class Place:
    """A text of a file, which an edit replaces by another: of a function, given by its type, if it
    has one, and its name; or, with neither, of the file."""

    file: str
    function: tuple[str | None, str] | None
    old: str
    new: str

    def found_in(self, text):
        """Where it begins in the file's text, if it is there once."""
        lines = text.splitlines(keepends=True)
        spans = [(0, len(lines))] if self.function is None else [
            (at, end) for at, end, name in bodies_of(text) if name == self.function]
        found = [sum(map(len, lines[:at])) + inside.index(self.old) for at, end in spans
                 if (inside := "".join(lines[at:end])).count(self.old) == 1]
        return found[0] if len(found) == 1 else None

    def put_into(self, text, at):
        return text[:at] + self.new + text[at + len(self.old):]

    def whole_line(self, text):
        """The line that it changes, and what it makes of it."""
        at = self.found_in(text)
        begun, ended = text.rindex("\n", 0, at) + 1, text.index("\n", at)
        return text[begun:ended], text[begun:at] + self.new + text[at + len(self.old):ended]


class Edit:
    """An edit: where it lies, what it replaces, and the functions that it is in; none where a place
    of it is in no function. `in:` says the file and the function of what follows, `file:` the file
    alone; `old:` and `new:` are of one line."""

    def __init__(self, crate, at):
        self.at, self.places, where, old = at, [], None, None
        self.crate = TOP / "crates" / crate
        for line in at.read_text().splitlines():
            word, _, text = line.partition(": ")
            if word in ("in", "file"):
                file, _, path = text.partition(" ")
                *owner, name = path.split("::")
                where = file, ((owner or [None])[0], name) if word == "in" else None
            elif word == "old":
                old = text
            elif word == "new":
                self.places.append(Place(*where, old, text))
        inside = {(place.file, place.function) for place in self.places}
        self.functions = inside if all(function for _, function in inside) else set()

    def put_into(self, crate):
        """Makes the edit in the files of this copy of its crate, each place as it is found there
        before."""
        for name in {place.file for place in self.places}:
            text = (crate / name).read_text()
            found = sorted(((place.found_in(text), place) for place in self.places
                            if place.file == name), key=lambda it: -it[0])
            for at, place in found:
                text = place.put_into(text, at)
            (crate / name).write_text(text)

    def for_kit(self):
        """The edit as `rt must-fail` reads it, by whole lines."""
        return "".join("file: {}\nold: {}\nnew: {}\n".format(
            place.file, *place.whole_line((self.crate / place.file).read_text()))
            for place in self.places)

    def is_of(self, crate, path):
        """Whether a function's path, as the prover prints it, may be that of one it is in. A method
        is printed with the module of its type, which may be another than that of the edited
        file."""
        *outer, last = path.split("::")
        for file, (owner, name) in self.functions:
            module = re.sub(r"^src/|\.rt$", "", file).split("/")
            around = [crate] if module == ["lib"] else [crate, *module]
            if last == name and (outer[-1].startswith(owner) if owner else outer == around):
                return True
        return False


@cache
def bodies_of(text):
    """Each function of a file's text: its first line, the one after its last, its type, if it has
    one, and its name."""
    return [(function.at, function.end,
             (None if item.function else item.of["type"] if item.of else item.name, function.name))
            for item in items(text.splitlines())
            for function in ([item] if item.function else item.functions)]


def batches(edits):
    """Edits to be tried together: those of each batch are of different functions."""
    made = []
    for edit in edits:
        free = next((batch for batch in made if all(edit.functions.isdisjoint(other.functions)
                                                    for other in batch)), None)
        if edit.functions and free is None:
            made.append(free := [])
        if edit.functions:
            free.append(edit)
    return [batch for batch in made if len(batch) > 1]


def try_together(copies, edits):
    """Those of the edits whose functions have open goals when all of them are made; of one alone,
    any function may have one."""
    name = copies.name
    with copies.one() as copy:
        crate = copy / "crates" / name
        for edit in edits:
            edit.put_into(crate)
        said = run(["rt", "check", "--jobs", "1"], crate).stdout
        for part in FOLDERS:
            if (crate / part).is_dir():
                shutil.copytree(TOP / "crates" / name / part, crate / part, dirs_exist_ok=True)
    failing = OPEN.findall(said) if "logic=not-proved" in said else []
    at = {edit: [path for path in failing if len(edits) == 1 or edit.is_of(name, path)]
          for edit in edits}
    for edit in edits:
        if at[edit]:
            print(f"{name}/{edit.at.name}: refused at {at[edit][0]}", flush=True)
    return [edit for edit in edits if at[edit]]


def must_fail(copies, edits):
    with copies.one() as copy:
        for edit in edits:
            to = copy / "crates" / copies.name / "must-fail" / edit.at.name
            to.write_text(edit.for_kit())
        return run(["rt", "must-fail", copies.name], copy).stdout


def run(words, at):
    ran = subprocess.run(words, cwd=at, stdin=subprocess.DEVNULL, stdout=subprocess.PIPE,
                         stderr=subprocess.STDOUT, text=True, errors="replace")
    return ran


def lanes():
    available = int(re.search(r"MemAvailable:\s+(\d+)",
                              Path("/proc/meminfo").read_text())[1]) * 1024
    return max(1, min(len(os.sched_getaffinity(0)), available // MEMORY))


def edits_of(name):
    return sorted((TOP / "crates" / name / "wrong-bodies").glob("*.edit"))


def untried(name):
    """The edits of a crate that were not refused with what decides them in the crate."""
    noted, found = tried(name), hashes(name)
    return [at for at in edits_of(name) if found[at.name][0] not in noted]


def due(name):
    """The edits of a crate that were refused, but before what decides them in a crate below
    changed."""
    noted, found = tried(name), hashes(name)
    return [at for at in edits_of(name)
            if noted.get(found[at.name][0], found[at.name][1]) != found[at.name][1]]


def wanted_of(name):
    return untried(name) + due(name)


def misplaced(name):
    """The places of a crate's edits, also of those that wait, that aren't there, or not once."""
    return [(at, place) for at in edits_of(name) + waiting(name) for place in Edit(name, at).places
            if place.found_in((TOP / "crates" / name / place.file).read_text()) is None]


def unknown_words(name):
    """The edits of a crate, and those that the gate tries, that are said to be refused by what is
    no word of the crate."""
    words = set(re.findall(r"[\w-]+", "\n".join(file.read_text() for file in files_of(name))))
    crate = TOP / "crates" / name
    for at in sorted([*crate.glob("wrong-bodies/*.edit"), *crate.glob("must-fail/*.edit")]):
        for cited in re.findall(r"`([^`]+)`", heads_of(at)[1]):
            if not words.issuperset(re.findall(r"[A-Za-z_][\w-]*", cited)):
                yield at, cited


def heads_of(at):
    """An edit's wrong idea, and the call and the clause that refuse it; what isn't said is
    empty."""
    lines = at.read_text().splitlines()
    return [line.removeprefix(head) if line.startswith(head) else "" for head,
            line in zip(HEADS, lines)]


def size_of(name):
    return sum(file.stat().st_size for file in files_of(name))


@cache
def hashes(name):
    """For each edit by its file's name a hash of it and of what decides it in its crate, and one of
    what decides it below."""
    return {at.name: hashes_of(name, at) for at in edits_of(name)}


def forget():
    """What is read of the sources from now on is read anew."""
    for read in (hashes, parts_of, index_of):
        read.cache_clear()


def hashes_of(name, at):
    own, others = texts_of(name, at)
    return hash_of(own)[:16], hash_of(others)[:8]


def texts_of(name, at):
    """An edit and what decides it in its crate, and the kit and what decides it below."""
    edit = Edit(name, at)
    seeds = seeds_of(name, edit.functions, [place.old for place in edit.places])
    own, others = deciding((name, *sorted(below(name))), seeds or set(parts_of(name)))
    kit = (TOP / "release" / "KIT").read_text()
    return [plain_text(at), *own], [kit, *others]


def hash_of(texts):
    return hashlib.sha256("\0".join(texts).encode()).hexdigest()


def plain_text(at):
    """An edit without its head lines."""
    return "\n".join(line for line in at.read_text().splitlines() if not line.startswith(HEADS))


def mark(name):
    return TOP / "crates" / name / "wrong-bodies" / "TRIED"


def tried(name):
    """For each edit that was refused its first hash, and the second one."""
    words = mark(name).read_text().split() if mark(name).is_file() else []
    return dict(word.split("-") for word in words)


if __name__ == "__main__":
    sys.exit(main(sys.argv[1:]))
