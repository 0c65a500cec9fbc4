"""What decides whether an edit of a function is a wrong body: the function, the contracts of what
it calls, the definitions that these name, and so on down. A proof is no part of it: no proof makes
a wrong body right.

A name stands for what is imported under it, or is in the same file; after a dot or two colons it
may stand for anything of that name. So this may find too much, but not too little."""
import re
from collections import defaultdict
from functools import cache, cached_property

from sources import TOP, bare, code_lines, definitions, files_of, items

NAME = re.compile(r"(\.|::)?([^\W\d]\w*)")
WORD = re.compile(r"[^\W\d]\w*")
IMPORT = re.compile(r"^ *(?:ghost )?(?:pub )?use ([\w.:]+?)(?:(?:\.|::)\{([^}]*)\})?;?$",
                    re.MULTILINE)


class Part:
    """A definition, or an item of the program: the names that it introduces; for a method the names
    of its type and trait; its whole text, and what is seen of it from elsewhere; and whether it has
    a promise, so that its body isn't seen."""

    def __init__(self, file, names, whole, said, imports, owners=(), is_promised=True):
        self.crate, _, _ = file.partition("/")
        self.file, self.names, self.owners = file, set(names), frozenset(owners)
        self.whole, self.said, self.imports = whole, said, imports
        self.is_promised = is_promised

    @cached_property
    def seen(self):
        return self.named_in(self.said)

    @cached_property
    def words(self):
        return set(WORD.findall(self.whole))

    def named_in(self, text):
        """What a text of this part names: a crate and a name for each name that is imported, or
        stands in the same file, and a name alone after a dot or two colons."""
        found = set()
        for before, name in NAME.findall(text):
            if before:
                found.add((None, name))
            found |= self.imports.get(name, {(self.file, name)})
        return found


@cache
def parts_of(crate):
    return [part for path in files_of(crate, ("src", "specs"))
            for part in parts_in(f"{crate}/{path.relative_to(TOP / 'crates' / crate)}", path)]


def parts_in(file, path):
    text = path.read_text()
    imports = imports_of(text, file.partition("/")[0])
    if path.suffix == ".antt":
        for it in definitions(text):
            yield Part(file, [bare(it.name)], it.code, it.code, imports)
        return
    for item in items(text.splitlines()):
        if item.function:
            yield function_part(file, item, imports)
        elif item.block[1] in ("impl", "trait"):
            yield from block_parts(file, item, imports)
        else:
            text = plain(item.lines[item.above:item.end])
            yield Part(file, [item.name], text, text, imports)


def block_parts(file, block, imports):
    """A trait or an impl without its functions, and each of these with it."""
    functions = block.functions
    inside = {number for it in functions for number in range(it.at, it.end)}
    frame = plain(line for number, line in enumerate(block.own_lines, block.at)
                  if number not in inside)
    # a parameter of a type has one letter
    owners = {name for name in WORD.findall(block.head) if len(name) > 1} - {"pub", "crate", "impl",
                                                                             "trait", "for"}
    yield Part(file, owners, frame, frame, imports)
    for it in functions:
        yield function_part(file, it, imports, frame, owners)


def function_part(file, item, imports, frame="", owners=()):
    contract = plain(item.contract)
    whole = f"{frame}\n{plain(item.own_lines)}"
    is_promised = bool(re.search(r"^ *ensures\b", contract, re.MULTILINE))
    has_body = not item.own_lines[-1].endswith(";")
    # what implements a trait has the trait's promise
    return Part(file, [item.name], whole,
                f"{frame}\n{contract}" if is_promised or not has_body else whole, imports, owners,
                is_promised or " for " in frame.partition("\n")[0])


def plain(lines):
    """Code without comments and imports."""
    text = "\n".join(code_lines("\n".join(lines), "//"))
    return re.sub(r"^ *(?:ghost )?(?:pub )?use [^;]*?;\n", "", text, flags=re.MULTILINE)


def imports_of(text, crate):
    """For each name that is imported, the crate and each name on its path."""
    found = {}
    for path, inside in IMPORT.findall(text):
        on_path = WORD.findall(path)
        of = next((word for word in on_path if word not in ("Rattle", "self")), crate)
        of = crate if of in ("crate", "super") else of
        for name in (part.strip() for part in inside.split(",")) if inside else [path]:
            if words := WORD.findall(name):
                found[words[-1]] = {(of, word) for word in [*on_path, *words]}
    return found


@cache
def index_of(crates):
    """The parts of crates: by their crate and their names, by their file and their names, and by
    their names alone. A method is only in the last."""
    found = defaultdict(set)
    for crate in crates:
        for part in parts_of(crate):
            for name in part.names:
                for at in (None,) if part.owners else (None, crate, part.file):
                    found[at, name].add(part)
    return dict(found)


def deciding(crates, seeds):
    """What decides of functions of the first of these crates, given by their parts: the texts of
    that crate, and those of the others."""
    index = index_of(crates)
    found, names, types, waiting = set(seeds), set(), set(), set()
    new = set().union(*(part.named_in(part.whole) for part in seeds),
                      *(path for part in seeds for path in part.imports.values()))
    while new:
        names |= new
        types |= {name for _, name in new}
        waiting |= set().union(*(index[it] for it in new if it in index)) - found
        met = {part for part in waiting if not part.owners or part.owners & types}
        waiting -= met
        found |= met
        new = set().union(*(part.seen for part in met)) - names
    texts = {(part.crate == crates[0], part.whole if part in seeds else part.said)
             for part in found}
    return (sorted(text for is_own, text in texts if is_own),
            sorted(text for is_own, text in texts if not is_own))


def seeds_of(crate, functions, edited):
    """The parts of functions, each given by its file and by its type, if it has one, and its name;
    where nothing is promised of one, or an edited text stands in its contract, with those that may
    call it."""
    found = {part for file, (owner, name) in functions for part in parts_of(crate)
             if name in part.names and part.file == f"{crate}/{file}"
             and (owner in part.owners or owner is None)}
    bare = {name for part in found for name in part.names
            if not part.is_promised or any(text.strip() in part.said for text in edited)}
    return found | {part for part in parts_of(crate) if part.words & bare}
