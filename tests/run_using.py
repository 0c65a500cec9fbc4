#!/usr/bin/env python3
"""run_using.py PROGRAM [PAGE..]: whether the commands of README.md, USING.md, WEEK.md and
OPERATING.md print what these pages say.

A page's blocks of commands are typed into one shell, in a fresh folder that has the examples,
tools and the program. The output of each is compared with the block below it, byte for byte,
except for the port, which is a free one, and the line end after a reply that has none. Each
request has to be in docs/openapi.yaml, with its status and type. A failing block is printed with
the expected and the actual output, and the last line counts the blocks.
"""
import os
import pathlib
import re
import select
import shutil
import signal
import subprocess
import sys
import tempfile
import time
import urllib.parse

import openapi
from browser import free_port
from cases import Cases

TOP = pathlib.Path(__file__).resolve().parent.parent
PAGES = [TOP / name for name in ("README.md", "docs/USING.md", "docs/WEEK.md", "docs/OPERATING.md")]
PORT, SECONDS, END = "8080", 60, b"\1"
BLOCK = re.compile(r"^```sh\n(.*?)^```\n(?:\n```\n(.*?)^```\n)?", re.M | re.S)
# What curl says of each exchange, on standard error.
SAID = 'write-out = "%{stderr}exchange %{method} %{url} %{http_code} %{content_type}\\n"\n'


class Shell:
    """A shell in a folder of its own, as the reader has one."""

    def __init__(self, program, folder):
        self.errors = folder / "errors"
        for part in ("examples", "tools"):
            shutil.copytree(TOP / part, folder / part)
        (folder / ".curlrc").write_text(SAID)
        (folder / "examoffice").write_text(f'#!/bin/sh\nexec "{program}" "$@"\n')
        (folder / "examoffice").chmod(0o755)
        with self.errors.open("wb") as errors:
            self.process = subprocess.Popen(
                ["sh"], cwd=folder, stdin=subprocess.PIPE, stdout=subprocess.PIPE, stderr=errors,
                env={**os.environ, "CURL_HOME": str(folder)}, start_new_session=True)

    def answer(self, commands, expected):
        """Returns what the commands print; a program that they leave running may print a moment
        later."""
        self.process.stdin.write(commands.encode() + b"printf '\\001'\n")
        self.process.stdin.flush()
        came, end = b"", time.monotonic() + SECONDS
        late = expected.encode() if " &\n" in commands else b""
        while END not in came or len(came) <= len(late):
            left = max(0, end - time.monotonic())
            ready, _, _ = select.select([self.process.stdout], [], [], left)
            part = os.read(self.process.stdout.fileno(), 65_536) if ready else b""
            if not part:
                break
            came += part
        return came.replace(END, b"").decode()

    def ended(self):
        """Ends the shell and what it left running; returns the exchanges that curl printed."""
        os.killpg(self.process.pid, signal.SIGTERM)
        self.process.communicate()
        for line in self.errors.read_text().splitlines():
            if line.startswith("exchange "):
                _, method, url, status, kind = line.split(" ", 4)
                yield method, urllib.parse.urlsplit(url).path, int(status), kind


def judge_blocks(judged, page, shell, port):
    """Types a page's blocks into the shell."""
    for commands, expected in BLOCK.findall(page.read_text()):
        commands, expected = (text.replace(PORT, port) for text in (commands, expected))
        came = shell.answer(commands, expected)
        judged.judge(f"{page.name}: {commands.strip()}", expected,
                     expected if came + "\n" == expected else came)


def main():
    if len(sys.argv) < 2:
        print(__doc__.partition(":")[0], file=sys.stderr)
        return 2
    program = pathlib.Path(sys.argv[1]).resolve()
    pages = [pathlib.Path(word) for word in sys.argv[2:]] or PAGES
    judged, asked = Cases("using"), 0
    if openapi.missing():
        print(f"using: docs/openapi.yaml is left out without {' and '.join(openapi.missing())}")
    for page in pages:
        with tempfile.TemporaryDirectory() as folder:
            shell = Shell(program, pathlib.Path(folder))
            judge_blocks(judged, page, shell, str(free_port()))
            described = openapi.Described()
            exchanges = list(shell.ended())
        for exchange in exchanges:
            judged.judge(f"{page.name}: {exchange} by docs/openapi.yaml", None,
                         described.fault(*exchange))
        asked += len(exchanges)
    judged.judge("requests are made", True, asked > 0)
    return judged.end("blocks and requests")


if __name__ == "__main__":
    sys.exit(main())
