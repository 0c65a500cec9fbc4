#!/usr/bin/env python3
"""quality.py [CHECK..]: every file is judged by the tools for its language; with names, by these
only.

KINDS says which kind a file is, CHECKS which tool judges a kind. A file of no kind is a failure,
and so is a tool that isn't installed, a complaint, or an exception without a reason. An exception
is a comment of EXCEPTIONS on the line of the complaint; there may be MOST of them in all.
"""
import collections
import concurrent.futures
import json
import os
import pathlib
import re
import shutil
import subprocess
import sys
import tempfile
import zlib

import openapi
from cases import Cases

TOP = pathlib.Path(__file__).resolve().parent.parent
COLUMNS = 100
PROOF_COLUMNS = 120
# How many exceptions there may be in all, and what each begins with; its reason comes after it.
MOST = 10
EXCEPTIONS = re.compile(
    r"(?:# noqa(?:: ?[A-Z]\d+)?|# type: ignore(?:\[[\w-]+\])?|# shellcheck disable=[\w,]+"
    r"|// eslint-disable-line [\w-]+|// @ts-expect-error|<!-- tidy:)(.*)")
# The proofs with longer lines than PROOF_COLUMNS, and how many: a list that may only get shorter.
LONG_PROOFS = TOP / "tests" / "long_proofs.json"

# ---- Files

# The kind of a file: by what its name ends with or begins with, or by its first line.
KINDS = [
    ("rattle", r"crates/.*|crates\.txt|HANDLES", ""),  # `rt ci` judges these
    ("made", r"docs/generated/.*|docs/openapi\.yaml|release/(KIT|SHA256|SOURCES|examoffice)"
     r"|release/share/(?!man).*", ""),  # compared with what makes them, by other parts of the tests
    ("tool", r"tools/.*\.py|front/.*\.py", ""), ("tool", r"tools/.*", "#!.*python"),
    ("python", r".*\.py", ""), ("python", r".*", "#!.*python"), ("shell", r".*", "#!.*sh$"),
    ("page script", r"front/page/.*\.js", ""), ("script", r".*\.m?js", ""),
    ("html", r".*\.html", ""), ("style", r".*\.css", ""), ("nginx", r"front/.*\.conf", ""),
    ("nginx", r"front/(callers|users|limits)", ""), ("man", r".*\.[18]", ""),
    ("page", r".*\.md", ""),
    ("unit", r"packaging/.*\.(service|timer|socket|target)", ""), ("json", r".*\.json", ""),
    ("c++", r".*\.cpp", ""),
    # What the tests compile, or read as it is; lintian judges units, as a part of the package.
    ("compiled", r".*\.(h|rs|toml|lock)|bench/office/Makefile", ""),
    ("read", r".*\.(csv|exam|sol|sqlite|gz|png|svg|logrotate|gitignore|cfg|ini|lua|tmpfiles)"
     r"|.*\.sysusers|\.gitignore|COPYRIGHT|VERSION|tests/packages|packaging/debian/.*"
     r"|packaging/.*\.(conf|d)", ""),
]


def kind_of(name):
    path = TOP / name
    with open(path, "rb") as file:
        first = file.readline(200).decode(errors="replace").rstrip()
    for kind, pattern, head in KINDS:
        if re.fullmatch(pattern, name) and re.match(head, first):
            return kind
    return None


def files():
    """The files that git knows or would know, by kind; those of no kind by None."""
    names = subprocess.run(["git", "-c", "safe.directory=*", "ls-files", "-co",
                            "--exclude-standard"], cwd=TOP, check=True,
                           stdout=subprocess.PIPE, text=True).stdout.splitlines()
    kinds = {}
    for name in sorted(set(names)):
        if (TOP / name).is_file():
            kinds.setdefault(kind_of(name), []).append(name)
    return kinds


# ---- Tools

# Debian has nginx where only root's PATH reaches.
PATH = f"{os.environ['PATH']}:/usr/sbin"
# Debian's own Node finds Debian's modules; another one needs the path.
NODE = {"NODE_PATH": "/usr/share/nodejs:/usr/lib/nodejs"}


def complaints(words, env=None):
    """Returns the lines that a tool prints; one more if it fails and prints none."""
    done = subprocess.run(
        words, cwd=TOP, stdin=subprocess.DEVNULL, stdout=subprocess.PIPE, stderr=subprocess.STDOUT,
        text=True, check=False,
        env={**os.environ, "PATH": PATH, **(env or {})})
    said = [line for line in done.stdout.splitlines() if line.strip()]
    return said or ([f"{words[0]} ended with status {done.returncode}"] if done.returncode else [])


def shellcheck(kinds):
    return complaints(["shellcheck", "--format=gcc", "-x", *kinds["shell"]])


def warnings(kinds):
    """Returns the warnings of g++."""
    return [line for name in kinds["c++"] for line in complaints(
        ["g++", "-std=c++17", "-fsyntax-only", "-Wall", "-Wextra", "-I", "bench/office", name])]


def flake8(kinds):
    return complaints(["flake8", "--isolated", f"--max-line-length={COLUMNS}",
                       *kinds["python"], *kinds["tool"]])


def mypy(path, names, *options):
    # What was kept of another copy of these files, or with other options, is of no use here.
    kept = f"mypy-{os.getuid()}-{zlib.crc32(bytes(TOP)):08x}{''.join(options)}"
    said = complaints(["mypy", "--scripts-are-modules", "--explicit-package-bases",
                       "--no-error-summary", "--config-file", "tests/mypy.ini",
                       "--cache-dir", str(pathlib.Path(tempfile.gettempdir()) / kept),
                       *options, *names], {"MYPYPATH": path})
    return [line for line in said if not line.startswith("Success")]


def mypy_of_tools(kinds):
    return mypy("tools:front", kinds["tool"], "--strict")


def mypy_of_tests(kinds):
    return mypy("tests:bench:tools", kinds["python"], "--ignore-missing-imports")


def eslint(kinds):
    return complaints(["eslint", "--no-eslintrc", "--config", "tests/eslint.json", "--format=unix",
                       *kinds["page script"], *kinds["script"]], NODE)


def types(_):
    return complaints(["tsc", "--project", "tests/tsconfig.json"])


def node_tests(kinds):
    """Returns the failing tests of the pages' functions."""
    tests = [name for name in kinds["script"] if name.endswith(".test.mjs")]
    said = complaints(["node", "--test", *tests])
    return [] if "# fail 0" in said else [line for line in said if "not ok" in line] or said


def nginx(kinds):
    """The configuration as it is, and with single sign-on and several sessions in place of that."""
    said = []
    with tempfile.TemporaryDirectory() as folder:
        front = pathlib.Path(folder) / "front"
        shutil.copytree(TOP / "front", front)
        (front / "run").mkdir(exist_ok=True)
        for changes in ({}, {"password.conf": "sso.conf"}):
            for file in front.glob("*.conf"):
                text = file.read_text()
                for old, new in changes.items():
                    text = text.replace(f"include {old};", f"include {new};")
                file.write_text(text)
            lines = complaints(["nginx", "-t", "-p", str(front), "-c", "nginx.conf"])
            if not any("test is successful" in line for line in lines):
                said += lines
    return said


def tidy(kinds):
    return [line for name in kinds["html"] for line in complaints(
        ["tidy", "-quiet", "-errors", "--gnu-emacs", "yes", "--drop-empty-elements", "no", name])]


def mandoc(kinds):
    return complaints(["mandoc", "-T", "lint", "-W", "warning", *kinds["man"]])


def described(_):
    """Returns the members of docs/openapi.yaml that have another form than OpenAPI's."""
    shape = json.loads((TOP / "tests" / "openapi_shape.json").read_text())
    document = openapi.read((TOP / "docs" / "openapi.yaml").read_text())
    return [f"docs/openapi.yaml: {'/'.join(map(str, fault.absolute_path))}: {fault.message:.300}"
            for fault in openapi.jsonschema.Draft202012Validator(shape).iter_errors(document)]


def json_files(kinds):
    said = []
    for name in kinds["json"]:
        try:
            json.loads((TOP / name).read_text())
        except ValueError as error:
            said.append(f"{name}: {error}")
    return said


# ---- Lines

def long_proofs(kinds):
    """Proofs with more long lines than LONG_PROOFS has of them, or with fewer; imports don't
    count."""
    counts = {}
    for name in kinds["rattle"]:
        if "/proofs/" in name:
            long = sum(len(line) > PROOF_COLUMNS and not re.match(r" *(pub )?use ", line)
                       for line in (TOP / name).read_text().splitlines())
            if long:
                counts[name] = long
    listed = json.loads(LONG_PROOFS.read_text())
    return [f"{name}: {counts.get(name, 0)} lines of more than {PROOF_COLUMNS} columns, but "
            f"{LONG_PROOFS.name} has {listed.get(name, 0)}"
            for name in sorted({*counts, *listed}) if counts.get(name, 0) != listed.get(name, 0)]


# What a file of Python or JavaScript defines at its top.
DEFINED = re.compile(r"^(?:export )?(?:async )?(?:def|class|function|const|let) (\w+)|^(\w+) = ",
                     re.M)
DECORATED = re.compile(r"^(?:@.*\n)+def \w+", re.M)


def unused(kinds):
    """Names that no line uses: neither in their own file nor in one that names it. A function with
    a decorator is used by that."""
    texts = {name: (TOP / name).read_text() for kind in ("python", "tool", "page script", "script")
             for name in kinds[kind]}
    words = {name: collections.Counter(re.findall(r"\w+", text)) for name, text in texts.items()}
    said = []
    for name, text in texts.items():
        stem = pathlib.Path(name).stem
        users = [other for other in texts if other != name and stem in words[other]]
        for one in (mark[1] or mark[2] for mark in DEFINED.finditer(DECORATED.sub("", text))):
            if words[name][one] < 2 and not any(one in words[other] for other in users):
                said.append(f"{name}: nothing uses {one}")
    return said


def exceptions(kinds):
    """Exceptions without a reason, and all of them if there are too many."""
    said, found = [], []
    own = pathlib.Path(__file__).resolve()
    for kind in ("python", "tool", "shell", "page script", "script", "html"):
        for name in kinds[kind]:
            if (TOP / name).resolve() == own:
                continue
            for number, line in enumerate((TOP / name).read_text().splitlines(), 1):
                mark = EXCEPTIONS.search(line)
                if mark:
                    found.append(f"{name}:{number}: {line.strip()}")
                    if len(mark[1].split()) < 3:
                        said.append(f"{name}:{number}: an exception without a reason")
    return said + (found + [f"more than {MOST} exceptions"] if len(found) > MOST else [])


def unknown(kinds):
    return [f"{name}: no kind of KINDS in tests/quality.py" for name in kinds.get(None, [])]


def scripts_of(page):
    """The scripts of a page, those that others import too, each with its text."""
    found, waiting = {}, re.findall(r'<script[^>]* src="/?([\w.-]+)"', page.read_text())
    while waiting:
        name = waiting.pop()
        if name not in found:
            found[name] = page.with_name(name).read_text()
            waiting += re.findall(r"from '\./([\w.-]+)'", found[name])
    return found


def ids(kinds):
    """An element that a script asks for by its id is in the page, or made by a script."""
    said = []
    for name in kinds["html"]:
        page = TOP / name
        code = "\n".join(scripts_of(page).values())
        made = set(re.findall(r'\bid="([\w-]+)"', page.read_text()))
        made |= set(re.findall(r"\bid: '([\w-]+)'", code))
        said += [f"{name}: a script asks for #{one}, which isn't there"
                 for one in sorted(set(re.findall(r"byId\('([\w-]+)'\)", code)) - made)]
    return said


def preloads(kinds):
    """A page names all modules that its script leads to, so that a browser fetches them at once."""
    said = []
    for name in kinds["html"]:
        page = TOP / name
        named = re.findall(r'<link rel="modulepreload" href="([\w.-]+)">', page.read_text())
        first = re.findall(r'<script type="module" src="([\w.-]+)"', page.read_text())
        said += [f"{name}: {one} is missing or too much among those that are fetched at once"
                 for one in sorted(set(named) ^ (scripts_of(page).keys() - first))]
    return said


def styles(kinds):
    """Classes, ids and variables of style sheets that no page and no script has, and braces left
    open."""
    used = "\n".join((TOP / name).read_text() for name in [*kinds["html"], *kinds["page script"]])
    said = []
    for name in kinds["style"]:
        text = re.sub(r"/\*.*?\*/", "", (TOP / name).read_text(), flags=re.S)
        if text.count("{") != text.count("}"):
            said.append(f"{name}: {text.count('{')} braces are opened and {text.count('}')} closed")
        selectors = " ".join(re.findall(r"([^{};]+)\{", text))
        for sign, one in sorted(set(re.findall(r"([.#])([a-zA-Z][\w-]*)", selectors))):
            if not re.search(rf"(?<![\w-]){one}(?![\w-])", used):
                said.append(f"{name}: no page has {sign}{one}")
        for one in sorted(set(re.findall(r"(--[\w-]+)\s*:", text))):
            if f"var({one}" not in text:
                said.append(f"{name}: nothing uses {one}")
        for one in sorted(set(re.findall(r"var\((--[\w-]+)", text))):
            if not re.search(rf"{one}\s*:", text) and f"'{one}'" not in used:
                said.append(f"{name}: nothing sets {one}")
    return said


def links(_):
    said = complaints([sys.executable, "tests/links.py"])
    return [] if said[-1].endswith(" 0 failed") else said


# Each check, and the program that it needs. The long ones come first, so that none ends long after
# the others.
CHECKS = {
    "mypy of tools": (mypy_of_tools, "mypy"), "types of scripts": (types, "tsc"),
    "mypy of tests": (mypy_of_tests, "mypy"), "flake8": (flake8, "flake8"),
    "C++": (warnings, "g++"), "eslint": (eslint, "eslint"),
    "functions of pages": (node_tests, "node"), "shellcheck": (shellcheck, "shellcheck"),
    "openapi": (described, "git"), "links": (links, "git"), "styles": (styles, "git"),
    "unused names": (unused, "git"), "exceptions": (exceptions, "git"),
    "files without a check": (unknown, "git"), "proofs": (long_proofs, "git"),
    "ids": (ids, "git"), "preloads": (preloads, "git"), "nginx": (nginx, "nginx"),
    "tidy": (tidy, "tidy"), "mandoc": (mandoc, "mandoc"), "JSON": (json_files, "git"),
}


def lacks(name):
    """What a check needs and isn't installed; None if nothing is."""
    tool = CHECKS[name][1]
    if not shutil.which(tool, path=PATH):
        return tool
    return " and ".join(openapi.missing()) or None if name == "openapi" else None


def excepted(complaint):
    """Whether the line that a tool complains of has an exception that the tool itself doesn't
    know."""
    place = re.match(r"([\w./-]+\.html):(\d+):", complaint)
    return place and "<!-- tidy:" in (TOP / place[1]).read_text().splitlines()[int(place[2]) - 1]


def main(names):
    judged = Cases("quality")
    checks = {name: CHECKS[name][0] for name in names or CHECKS}
    for name in [name for name in checks if lacks(name)]:
        print(f"quality: {name} is left out without {lacks(name)}")
        del checks[name]
    kinds = files() if checks else {}
    with concurrent.futures.ThreadPoolExecutor(os.cpu_count()) as pool:
        for name, said in zip(checks, pool.map(lambda check: check(kinds), checks.values())):
            faults = [line for line in said if not excepted(line)]
            judged.add(1, [f"{name}:\n  " + "\n  ".join(faults)] if faults else [])
    return judged.end("checks")


if __name__ == "__main__":
    sys.exit(main(sys.argv[1:]))
