#!/usr/bin/env python3
"""openapi.py: docs/openapi.yaml says what the source and docs/FORMATS.md say, no more and no less.

Paths, methods and callers are compared with the routes and the policy in the source, statuses and
errors with docs/FORMATS.md, each example with its schema, and the schemas are judged; a difference
is printed, and the last line counts the comparisons. For other tests `Described` judges an
exchange by that file: whether it has the request, and the reply's status, type and body.

Debian's python3-yaml and python3-jsonschema read it. Without them a line says that it is left out,
and `Described` finds no fault.
"""
import json
import pathlib
import re
import sys

import debian
from cases import Cases

yaml, jsonschema = debian.module("yaml"), debian.module("jsonschema")

TOP = pathlib.Path(__file__).resolve().parent.parent
REQUESTS = TOP / "crates" / "office_requests" / "src"
POLICY = TOP / "crates" / "office_policy" / "src"
VERBS = ("get", "put", "post", "delete")
# What only the front replies: statuses, and errors by their status.
OF_THE_FRONT = {"401", "429"}
# The `x-callers` that each kind of command has.
CALLERS = {"Personal": {"candidate"}, "Official": {"office"}, "Reading": {"office", "department"},
           "Editing": {"office", "owner"}}


def missing():
    """Which of the Debian packages aren't installed."""
    return [f"python3-{name}" for name, module in (("yaml", yaml), ("jsonschema", jsonschema))
            if module is None]


def read(text):
    """The file; a name that comes twice in a mapping is an error, which YAML lets pass."""
    class Loader(yaml.SafeLoader):
        def construct_mapping(self, node, deep=False):
            names = [self.construct_object(name) for name, _ in node.value]
            twice = {name for name in names if names.count(name) > 1}
            if twice:
                raise ValueError(f"{sorted(twice)} twice: {node.start_mark}")
            return super().construct_mapping(node, deep)

    return yaml.load(text, Loader)


# ---- Exchanges

class Described:
    """The requests and replies that docs/openapi.yaml describes."""

    def __init__(self):
        self.pages = []
        if not missing():
            self.whole = read((TOP / "docs" / "openapi.yaml").read_text())
            self.pages = [(re.compile(re.sub(r"\{\w+\}", "[0-9]{1,9}", path) + "$"), page)
                          for path, page in self.whole["paths"].items()]

    def at(self, part):
        """A part that may be a reference."""
        while "$ref" in part:
            found = self.whole
            for name in part["$ref"].removeprefix("#/").split("/"):
                found = found[name]
            part = found
        return part

    def responses(self, method, path):
        """The responses of a request by status: those of its operation, or of what isn't there."""
        page = next((page for pattern, page in self.pages if pattern.match(path)), None)
        shared = self.whole["components"]["responses"]
        both = {"400": shared["BadRequest"], "403": shared["Forbidden"]}
        if page is None:
            return {**both, "404": shared["NotFound"]}
        if method.lower() not in page:
            return {**both, **page["x-other-methods"]}
        return page[method.lower()]["responses"]

    def fault(self, method, path, status, kind, body=None):
        """Says what is wrong with an exchange; None if nothing is."""
        if missing():
            return None
        response = self.responses(method, path).get(str(status))
        asked = f"{method} {path} answered {status} {kind}"
        if response is None:
            return f"{asked}: no such status"
        content = self.at(response)["content"]
        if kind.partition(";")[0] not in content:
            return f"{asked}: no such type"
        if body is None or method == "HEAD":
            return None
        schema = content[kind.partition(";")[0]]["schema"]
        value = json.loads(body) if "json" in kind else body.decode()
        wrong = self.unlike(value, schema)
        return f"{asked}: {wrong}" if wrong else None

    def unlike(self, value, schema):
        """Says what of a value isn't as its schema says; None if nothing is."""
        with_parts = {**schema, "components": self.whole["components"]}
        wrong = jsonschema.Draft202012Validator(with_parts).iter_errors(value)
        return next((error.message for error in wrong), None)

    def faulty_schemas(self):
        """The parts that are no schemas."""
        for name, schema in self.whole["components"]["schemas"].items():
            try:
                jsonschema.Draft202012Validator.check_schema(schema)
            except jsonschema.SchemaError as fault:
                yield f"{name}: {fault.message}"

    def lost_references(self):
        """References to what isn't there."""
        for name in set(re.findall(r'"\$ref": "([^"]+)"', json.dumps(self.whole))):
            try:
                self.at({"$ref": name})
            except KeyError:
                yield name


# ---- What the source and the page say

def pages():
    """Each page of the table of routes with its path."""
    text = (REQUESTS / "routes.rt").read_text()
    return {page: path for path, page in re.findall(r'\("([^"]+)", Page::(\w+)\)', text)}


def routes():
    """Of the table of routes: each path with its methods."""
    text = (REQUESTS / "methods.rt").read_text().split("match page {")[1]
    rows = re.findall(r'((?:Page::\w+(?: \| )?)+|_) => "([A-Z, ]+)"', text)
    methods = {page: allow for names, allow in rows for page in re.findall(r"Page::(\w+)", names)}
    rest = dict(rows)["_"]
    return {path: set(methods.get(page, rest).split(", ")) for page, path in pages().items()}


def callers():
    """Of the source: the callers that the policy permits each method of each path."""
    policy = (POLICY / "policy.rt").read_text().split("fn kind(")[1].split("\n    }\n")[0]
    rows = re.findall(r"((?:Command::\w+(?:\([^)]*\))?(?:\s+\| )?)+|_) => (?:\{\s*)?Kind::(\w+)",
                      policy)
    kinds = {command: kind for names,
             kind in rows for command in re.findall(r"Command::(\w+)", names)}
    rest, found, path_of = dict(rows)["_"], {}, pages()
    table = (REQUESTS / "commands.rt").read_text()
    for verb, page, command in re.findall(r"\(Verb::(\w+), Page::(\w+)\) =>.*?Command::(\w+)",
                                          table, re.S):
        found[path_of[page], verb.lower()] = CALLERS[kinds.get(command, rest)]
    return found


def table_rows(page):
    for line in page.splitlines():
        if line.startswith("| "):
            yield [cell.strip() for cell in line.strip("|").split(" | ")]


def formats():
    """Of FORMATS.md: each refusal as its status and error, and the statuses of success."""
    page = (TOP / "docs" / "FORMATS.md").read_text()
    page = page.split("\n## Messages\n")[1].split("\n## The tables\n")[0]
    refusals = {(cells[1], error) for cells in table_rows(page)
                if len(cells) == 3 and re.match(r"\d{3}$", cells[1]) and '"error"' in cells[2]
                for error in re.findall(r'(?:"error":"|`)([\w-]+)["`]', cells[2])}
    refusals |= set(re.findall(r'the reply is (\d{3})\s+`\{"error":"([\w-]+)"\}`', page))
    return refusals, set(re.findall(r"\bstatus (20\d)\b", page))


def named_errors(described, response):
    """The errors that a response may name."""
    content = described.at(response)["content"].get("application/json")
    schema = described.at(content["schema"]) if content else {}
    kinds = [described.at(kind) for kind in schema.get("oneOf", [schema])]
    return {error for kind in kinds
            for error in kind.get("properties", {}).get("error", {}).get("enum", [])}


def examples(described, part, at):
    """Yields each example of a part with its schema, and where it is."""
    if isinstance(part, dict):
        if "example" in part:
            yield at, part["schema"], part["example"]
        for name, below in part.items():
            if name not in ("example", "schema"):
                yield from examples(described, below, f"{at}/{name}")


def differences(described):
    """Each comparison: its name, what the page or the routes have, what the file has."""
    yield "references to what isn't there", [], [*described.lost_references()]
    yield "faulty schemas", [], [*described.faulty_schemas()]
    paths, shared = described.whole["paths"], described.whole["components"]["responses"]
    methods = {path: {verb.upper() for verb in page if verb in VERBS}
               for path, page in paths.items()}
    yield "paths and methods of the routes", routes(), methods
    refusals, answers = formats()
    operations = {(path, verb): page[verb] for path, page in paths.items() for verb in VERBS
                  if verb in page}
    permitted = callers()
    yield "methods with callers", set(permitted), set(operations)
    yield ("tags", {tag["name"] for tag in described.whole["tags"]},
           {tag for operation in operations.values() for tag in operation["tags"]})
    for (path, verb), operation in operations.items():
        yield f"callers of {verb} {path}", permitted.get((path, verb)), set(operation["x-callers"])
    listed = [*(operation["responses"] for operation in operations.values()),
              *(page["x-other-methods"] for page in paths.values())]
    statuses = {status for responses in listed for status in responses}
    yield "statuses", {status for status, _ in refusals} | answers | OF_THE_FRONT, statuses
    errors = {}
    for responses in listed:
        for status, response in responses.items():
            if status >= "400" and status not in OF_THE_FRONT:
                named = named_errors(described, response)
                listed_here = set(response.get("description", ", ".join(named)).split(", "))
                yield f"errors of {status}: {sorted(listed_here)}", True, listed_here <= named
                errors.setdefault(status, set()).update(listed_here)
    yield "refusals", refusals, {(status, error) for status in errors for error in errors[status]}
    for status, found in errors.items():
        kinds = {name: named_errors(described, response) for name, response in shared.items()}
        yield f"all errors of {status}", True, found in kinds.values()


def main():
    if missing():
        print(f"openapi: left out without {' and '.join(missing())}")
        return 0
    described, judged = Described(), Cases("openapi")
    for name, expected, got in differences(described):
        judged.judge(name, expected, got)
    shown = list(examples(described, described.whole["components"], ""))
    for at, schema, example in shown:
        judged.judge(f"the example of {at}", None, described.unlike(example, schema))
    judged.judge("examples", True, len(shown) > 20)
    return judged.end("compared")


if __name__ == "__main__":
    sys.exit(main())
