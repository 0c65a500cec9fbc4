"""The calls that the crates were asked to have, with their forms, beside those that they have. Each
that is missing or has another form must have a line in docs/DECISIONS.md, and no other has one."""
import json
import re
import sys

from sources import TOP, files_of, items, listed

GIVEN = TOP / "tests" / "given_calls.json"
DECISIONS = TOP / "docs" / "DECISIONS.md"
HEADING = "## Calls with another form"
# what ends the head of a function
END_OF_HEAD = re.compile(r" *(requires|ensures|//)")
GENERICS = re.compile(r"(fn \w+)<.*?>(?=\()", re.S)
LIFETIME = re.compile(r"'\w+(, |\s|(?=>))")
PASSED_ON = re.compile(r"pub use (\w+)(?:::\w+)*::\{?([^;}]+)\}?;")
VARIANT = re.compile(r"    (\w+)(\([^)]*\))?,")


def parts(text):
    """The parts of a list between commas that are in no bracket."""
    found, depth = [""], 0
    for sign in text:
        depth += (sign in "([<") - (sign in ")]>")
        if sign == "," and depth == 0:
            found.append("")
        else:
            found[-1] += sign
    return [part.strip() for part in found if part.strip()]


def closing(text):
    """The place of the bracket that closes the text's first one."""
    depth = 0
    for place, sign in enumerate(text):
        depth += (sign == "(") - (sign == ")")
        if depth == 0 and sign == ")":
            return place
    raise ValueError(f"no end: {text}")


def form_of(function):
    """A function's name with the types of what it takes and returns, without generic parameters and
    lifetimes."""
    head = []
    for line in function.contract:
        if END_OF_HEAD.match(line):
            break
        head.append(line.strip())
    text = LIFETIME.sub("", GENERICS.sub(r"\1", " ".join(head))).replace("<>", "")
    name, rest = re.search(r"fn (\w+)(.*)", text).groups()
    end = closing(rest)
    taken = [part.split(": ", 1)[-1] for part in parts(rest[1:end])]
    returned = rest[end + 1:].strip().removesuffix(",")
    return f"{name}({', '.join(taken)}) {returned}".strip()


def own_forms(crate):
    """The forms of a crate's public functions, methods and variants, by their names."""
    found = {}
    for path in files_of(crate, ("src",)):
        lines = path.read_text().splitlines()
        for item in items(lines):
            if item.function and item.is_public:
                found[item.name] = form_of(item)
            elif item.block and item.block[1] in ("impl", "trait"):
                owner = item.of["type"] if item.of else item.name
                found |= {f"{owner}::{one.name}": f"{owner}::{form_of(one)}"
                          for one in item.functions if one.is_public or item.block[1] == "trait"}
            elif item.block and item.block[1] == "enum":
                found |= {f"{item.name}::{line[1]}": f"{item.name}::{line[1]}{line[2] or ''}"
                          for text in item.own_lines if (line := VARIANT.match(text))}
    return found


def forms(crate):
    """The same, with what the crate passes on of other crates."""
    found = own_forms(crate)
    root = (TOP / "crates" / crate / "src" / "lib.rt").read_text()
    for other, names in PASSED_ON.findall(root):
        if other in listed():
            wanted = {name.strip() for name in names.split(",")}
            found |= {name: form for name, form in forms(other).items()
                      if name.split("::")[0] in wanted}
    return found


def given():
    """The crate and the form of each call that was asked for."""
    return [(crate, form) for crate, those in json.loads(GIVEN.read_text()).items()
            for form in those]


def named():
    """The calls with a line in the decisions."""
    text = DECISIONS.read_text().partition(HEADING)[2].partition("\n## ")[0]
    return {name for line in re.findall(r"^- ((?:`[^`]+`(?:, )?)+): ", text, re.M)
            for name in re.findall(r"`([^`]+)`", line)}


def main():
    """Compares, and says what differs without a line, or has a line and doesn't differ."""
    count, differ = 0, {}
    for crate, form in given():
        name, count = form.split("(")[0], count + 1
        found = forms(crate).get(name, "missing")
        if found != form:
            differ[name] = f"{crate} {form}: {found}"
    failures = [f"no line in DECISIONS: {differ[name]}" for name in sorted(set(differ) - named())]
    failures += [f"a line in DECISIONS, but no difference: {name}"
                 for name in sorted(named() - set(differ))]
    for failure in failures:
        print(failure)
    print(f"given calls: {count} compared, {len(failures)} failed")
    return 1 if failures else 0


if __name__ == "__main__":
    sys.exit(main())
