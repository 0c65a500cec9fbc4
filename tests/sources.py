"""The one reader of the crates: of crates.txt, of what a page defines (.antt), and of what a file
of code has (.rt). It relies on the layout that `rt fmt` makes."""
import re
import textwrap
from functools import cache
from pathlib import Path

TOP = Path(__file__).resolve().parent.parent
FOLDERS = ("src", "specs", "proofs")
# what a comment begins with
SIGN = {".rt": "//", ".antt": "--"}


# ---- crates and files

@cache
def listed():
    """The crates in their order, each with the libraries on its line."""
    text = (TOP / "crates.txt").read_text()
    lines = (line.split("#")[0].split(":") for line in text.splitlines())
    return {line[0].split()[0]: tuple(line[1].split()) for line in lines if len(line) == 2}


def below(crate):
    """The crates of the repository that a crate uses, directly or not."""
    found, left = set(), [crate]
    while left:
        new = set(listed().get(left.pop(), ())) & set(listed()) - found
        found |= new
        left += new
    return found


def files_of(crate, folders=FOLDERS):
    """The files of code and of definitions in a crate's folders, and in those below them."""
    return [path for folder in folders
            for path in sorted((TOP / "crates" / crate / folder).rglob("*")) if path.suffix in SIGN]


def without_comments(path):
    """A file's text without comments."""
    sign = SIGN[path.suffix]
    return "\n".join(line.split(sign)[0] for line in path.read_text().splitlines())


def code_lines(text, sign):
    """The lines that are more than a comment."""
    return [line for line in text.splitlines() if not line.lstrip().startswith(sign)]


def first_comment(path):
    """The comment that a file begins with, as one line."""
    sign, found = SIGN[path.suffix], []
    for line in path.read_text().splitlines():
        if not line.startswith(sign):
            break
        found.append(line.lstrip(sign + "!").strip())
    return " ".join(found).strip()


# ---- definitions

# what a definition or a lemma begins with
HEAD = re.compile(r"( *)(?:(?:pub|abbrev|unfoldable|opaque|data|record) +)+"
                  r"([^\s:(){}]+)(?=[\s:({])")
MODULE = re.compile(r"^( *)module _ ([^=]*?)\s+where\n", re.M)
WITH_MEMBERS = re.compile(r"(?:\w+ )*(?:data|record) ")
MEMBER = re.compile(r"  ((?:[^\s:(){}]+ )+):")
ATTRIBUTES = re.compile(r"\b(?:pub|abbrev|unfoldable|opaque) +")


class Definition:
    """A definition of a page: its name, its comment as lines, its type as lines (with the fields of
    a record or the variants of a type), the words that it defines, and its whole text."""

    def __init__(self, text, lines, at):
        self.text, indent = text, HEAD.match(lines[at])[1]
        self.name = HEAD.match(lines[at])[2]
        self.comment = [line.strip() for line in lines[:at] if line.lstrip().startswith("--")]
        self.type = type_of([line.removeprefix(indent) for line in lines[at:]])
        members = [name for line in self.type[1:] if (found := MEMBER.match(line))
                   for name in found[1].split()]
        self.words = {bare(self.name), *members}
        self.code = "\n".join(code_lines(text, "--"))


def definitions(text):
    """The definitions of a page, in its order; an empty line ends each."""
    for block in re.split(r"\n\s*\n", text):
        lines = MODULE.sub(parameters, block.strip("\n")).splitlines()
        at = next((n for n, line in enumerate(lines) if HEAD.match(line)), None)
        if at is not None and HEAD.match(lines[at])[2] not in ("mod", "use"):
            yield Definition(block.strip("\n"), lines, at)


def parameters(module):
    """The head of a module as a comment."""
    text = f"what follows takes {' '.join(module[2].split())} first"
    return "".join(f"{module[1]}  -- {line}\n"
                   for line in textwrap.wrap(text, 96, break_long_words=False))


# a definition or a lemma of a page of proofs, and an import with the words that it brings
STATED = re.compile(r"( *)((?:(?:pub|abbrev|unfoldable|opaque|data|record) +)*)([^\s:(){}]+)"
                    r"(?= :|(?: [({][^=]*)? : )")
IMPORT = re.compile(r"^(?:pub )?use (\S+?)(?:\.\{([^}]*)\})?(?: as (\S+))?$", re.M)
STATED_WORD = re.compile(r"[^\s(){}\[\],;.]+")
# the variables that a statement binds
BOUND = re.compile(r"[({]((?:[^\s:(){}]+ )+): |λ ?((?:[^\s.()]+ ?)+)\.|λ \(([^:]+):|let (\S+)")


def statements(text):
    """What a page of proofs defines, outside of proofs: each name with whether it is a lemma, which
    binds a variable, and the words of its statement and of the modules that it is in, without the
    variables bound there."""
    lines, modules, at = text.splitlines(), [], 0
    while at < len(lines):
        line, end = lines[at], at + 1
        indent = len(line) - len(line.lstrip())
        if line.strip():
            modules = modules[:indent // 2]
        if line.lstrip().startswith("module _ "):
            while not lines[end - 1].endswith(" where"):
                end += 1
            modules.append(" ".join(lines[at:end]))
        elif (stated := STATED.match(line)) and indent == 2 * len(modules):
            while end < len(lines) and lines[end].startswith(" " * (indent + 4)):
                end += 1
            statement = " ".join([line[stated.end():], *lines[at + 1:end], *modules])
            bound = {name for found in BOUND.findall(statement) for names in found
                     for name in names.split()}
            is_lemma = stated[2].strip() in ("", "pub") and bool(bound)
            yield stated[3], is_lemma, {*STATED_WORD.findall(statement)} - bound
        at = end


def imported(text, pages):
    """The words that a page imports from pages whose names begin so."""
    return {part for page, words, other in IMPORT.findall(text) if re.match(pages, page)
            for word in (words.split(",") if words else [other or page.rsplit(".", 1)[-1]])
            for part in word.split(" as ")[-1].replace("◌", " ").split()}


def type_of(lines):
    """The lines of a definition up to its first equation, with the fields of a record."""
    indent = "  " if WITH_MEMBERS.match(lines[0]) else "    "
    end = next((n for n, line in enumerate(lines) if n and not line.startswith(indent)), len(lines))
    return [ATTRIBUTES.sub("", line) for line in lines[:end]]


def bare(name):
    """A name without the places of its operands, and without quotes."""
    return name.strip("◌«»")


# ---- code

FUNCTION = re.compile(r"( *)(pub(?:\(\w+\))? )?(?:const )?fn (\w+)")
BLOCK = re.compile(r"(?:pub(?:\(\w+\))? )?(impl|trait|struct|enum|type|const|static)\b(?! fn)")
NAMED = re.compile(r"(?:pub(?:\(\w+\))? )?(?:trait|struct|enum|type|const|static) (\w+)")
IMPL = re.compile(r"impl\b(?:<[^{]*?>)? (?:(?P<trait>[^{]*?)(?:<[^{]*>)? for )?&?(?P<type>\w+)")
END = re.compile(r"\{?\}|[}\])];")
CLAUSE = re.compile(r" *(requires|ensures)\b")
# What may be between an item and its `///` text: comments and attributes, also of several lines.
ABOVE = re.compile(r" *(//|#\[|.*\)\]$|  .*[,(]$)")


class Item:
    """A function or a block (a type, a trait, an `impl`, a constant) of a file of code: its first
    line and the one after its last among the lines of the file."""

    def __init__(self, lines, at, end):
        self.lines, self.at, self.end = lines, at, end
        self.function = FUNCTION.match(lines[at])
        self.block = None if self.function else BLOCK.match(lines[at].lstrip())
        self.is_public = lines[at].lstrip().startswith("pub ")

    @property
    def head(self):
        return self.lines[self.at]

    @property
    def own_lines(self):
        return self.lines[self.at:self.end]

    @property
    def name(self):
        return self.function[3] if self.function else (NAMED.match(self.head) or [""] * 2)[1]

    @property
    def of(self):
        """For an `impl` its type, and its trait if it has one."""
        return IMPL.match(self.head)

    @property
    def above(self):
        """The number of the first line of the comments and attributes above it."""
        at = self.at
        while at > 0 and ABOVE.match(self.lines[at - 1]):
            at -= 1
        return at

    @property
    def comment(self):
        """The `///` text above it and its attributes."""
        return "\n".join(line.lstrip(" /") for line in self.lines[self.above:self.at]
                         if line.lstrip().startswith("///"))

    @property
    def contract(self):
        """A function's head and clauses, with their comments, without its body."""
        indent, depth, has_clause, found = self.function[1], 0, False, []
        for line in self.own_lines:
            code = line.strip()
            if not code.startswith("//"):
                has_clause = has_clause or bool(CLAUSE.match(line))
                if line in (indent + "{", indent + "{}"):
                    break
                depth += sum(map(code.count, "({[")) - sum(map(code.count, ")}]"))
                if not has_clause and (body := re.search(r" \{(\}|.* \})?$", line)):
                    found.append(line[len(indent):body.start()])
                    break
                if depth == 0 and code.endswith(";"):
                    found.append(line[len(indent):-1])
                    break
            found.append(line[len(indent):])
        return found

    @property
    def functions(self):
        """The functions of a trait or an `impl`."""
        return list(items(self.lines, self.at + 1, self.end, "    "))

    @property
    def ghosts(self):
        """The ghost members of a trait or an `impl`, with their comments."""
        found = []
        for n in range(self.at + 1, self.end):
            if re.match(r"    ghost (?!use\b)", self.lines[n]):
                first = n
                while self.lines[first - 1].lstrip().startswith("// "):
                    first -= 1
                found += [line[4:] for line in self.lines[first:1 + closed_at(self.lines, n)]]
        return found


def items(lines, at=0, end=None, indent=""):
    """The functions and blocks between two lines that begin at this indentation; inside a block
    only functions."""
    end = len(lines) if end is None else end
    while at < end:
        function = FUNCTION.match(lines[at])
        if function and function[1] == indent or not indent and BLOCK.match(lines[at]):
            after = end_of_member(lines, at, end) if indent else end_of(lines, at)
            yield Item(lines, at, after)
            at = after
        else:
            at += 1


def end_of(lines, at):
    """The line after an item that begins at the margin."""
    if lines[at].endswith((";", "}")):
        return at + 1
    if re.match(r"(?:pub(?:\(\w+\))? )?(?:const|static) \w+:", lines[at]):
        return next(n for n in range(at + 1, len(lines) + 1) if lines[n - 1].endswith(";")
                    and (n == len(lines) or not lines[n].startswith(" ")))
    return next(n for n in range(at + 1, len(lines)) if END.fullmatch(lines[n])) + 1


def end_of_member(lines, at, end):
    """The line after a function of a block: the next that begins as far left is of another member,
    or the block's last."""
    after = next(n for n in range(at + 1, end) if re.match(r"}|    [^\W\d]", lines[n]))
    while not lines[after - 1] or ABOVE.match(lines[after - 1]) and lines[after - 1][4:5] in "/#":
        after -= 1
    return after


def closed_at(lines, at):
    """The line, from this one on, that ends with a semicolon outside of all brackets."""
    depth = 0
    for n in range(at, len(lines)):
        depth += sum(map(lines[n].count, "({[")) - sum(map(lines[n].count, ")}]"))
        if depth == 0 and lines[n].endswith(";"):
            return n
    raise ValueError(f"no end: {lines[at]}")
