#!/usr/bin/env python3
"""run_launcher.py LAUNCHER: whether the launcher builds when it must, runs the release at once,
passes every word on, installs what belongs to the program, and compares release and sources only
when it is asked; and whether `release/check` distinguishes one release from another.

It runs copies of the launcher and of the files of `release/` beside it in a repository of its own,
with a stand-in for `rt` that writes a stand-in program, so nothing is proved here. Each failing
case is printed with what was expected and what came, and the last line counts the cases.
"""
import os
import pathlib
import shutil
import subprocess
import sys
import tempfile

from cases import Cases

PROGRAM = """#!/bin/sh
printf '%s\\n' "$(pwd)" "$#"
printf '[%s]\\n' "$@"
[ "${1:-}" != serve ] || echo "$MALLOC_TRIM_THRESHOLD_"
"""
SERVICE = pathlib.Path(__file__).resolve().parent.parent / "packaging" / "examoffice@.service"
# As rt does, it leaves a built file as it is where no text has changed.
RT = """#!/bin/sh
[ "$1" = version ] && { echo 'a kit'; exit; }
[ -e ../../broken ] && { echo 'no proof' >&2; exit 1; }
[ -e ../../meanwhile ] && { sleep 0.1; echo >> src/main.rt; rm ../../meanwhile; }
echo x >> ../../builds
mkdir -p out
[ -e out/examoffice ] || cp ../../program out/examoffice
out/examoffice "$@"
"""
# What no call of the release may run.
BANNED = ("find", "git", "sha256sum", "date", "touch")
OLDER = "examoffice: the release is older than the sources; --build builds these\n"
INSTALLED = [
    "bin/examoffice", "share/bash-completion/completions/examoffice",
    "share/fish/vendor_completions.d/examoffice.fish", "share/man/man1/examoffice.1",
    "share/zsh/site-functions/_examoffice",
]


class Repository:
    """A repository whose one crate is built by the stand-in; `builds` counts how often."""

    def __init__(self, folder, launcher):
        self.top, self.caller = folder / "a repository", folder / "a caller"
        self.crate = self.top / "crates" / "examoffice"
        for part in ("src", "specs", "proofs/main"):
            (self.crate / part).mkdir(parents=True)
        self.caller.mkdir()
        (folder / "bin").mkdir()
        shutil.copy(launcher, self.top / "examoffice")
        (self.top / "release").mkdir()
        (self.top / "tools").mkdir()
        shutil.copy(pathlib.Path(launcher).parent / "tools" / "unblocked", self.top / "tools")
        released = pathlib.Path(launcher).parent / "release"
        for script in ("sources", "make", "check"):
            shutil.copy(released / script, self.top / "release")
        # help2man has nothing to read here
        (self.top / "release" / "man").write_text("#!/bin/sh\n")
        (self.top / "release" / "man").chmod(0o755)
        shutil.copytree(released / "share", self.top / "release" / "share")
        (self.top / "VERSION").write_text("1.2.3\n")
        self.source = self.crate / "src" / "main.rt"
        for file in (self.source, self.crate / "specs" / "Lib.antt"):
            file.write_text("\n")
        (self.top / "crates.txt").write_text("# One crate.\nexamoffice:\nworked_office: it\n")
        for file, text in ((self.top / "program", PROGRAM), (folder / "bin" / "rt", RT)):
            file.write_text(text)
            file.chmod(0o755)
        self.path = f"{folder / 'bin'}:{os.environ['PATH']}"

    def call(self, *words, start=None, path=None):
        start = start or self.top / "examoffice"
        environment = {**os.environ, "PATH": path or self.path}
        return subprocess.run([start, *words], cwd=self.caller, env=environment, text=True,
                              stdin=subprocess.DEVNULL, capture_output=True, check=False)

    def release(self, script):
        return self.call(start=self.top / "release" / script)

    def checked(self):
        """Returns the status of `release/check`, and what it said of the release."""
        done = self.release("check")
        return done.returncode, done.stdout

    def builds(self):
        counted = self.top / "builds"
        return len(counted.read_text().splitlines()) if counted.exists() else 0

    def touch(self, path, seconds):
        """Gives the file a time this many seconds after that of the built file, if there is one."""
        built = self.crate / "out" / "examoffice"
        if built.exists():
            time = built.stat().st_mtime + seconds
            os.utime(path, (time, time))


def told(repository, done):
    """Returns what a run showed: its status, its output, whether it spoke of a build, and all
    builds."""
    return done.returncode, done.stdout, "building the program" in done.stderr, repository.builds()


def without_rt(folder):
    """A PATH with the few commands that the launcher calls, and no rt."""
    few = folder / "few"
    few.mkdir()
    for name in ("sh", "find", "date", "touch"):
        (few / name).symlink_to(shutil.which(name))
    return str(few)


def without_banned(folder):
    """A PATH in which the commands fail that a call of the release may not run."""
    room = folder / "banned"
    room.mkdir()
    for name in BANNED:
        (room / name).write_text(f"#!/bin/sh\necho {name} was run >&2\nexit 1\n")
        (room / name).chmod(0o755)
    return f"{room}:{os.environ['PATH']}"


def calls(repository, few):
    """Yields each case as its name, what is expected and what came."""
    words = ("check", "two  words", "", "*", "a\nb", "--", "-x", "$HOME", "'\"\\")
    shown = "".join(f"{line}\n" for line in
                    (repository.caller, len(words), *(f"[{word}]" for word in words)))
    relative = os.path.relpath(repository.top / "examoffice", repository.caller)
    yield "a first call builds", (0, shown, True, 1), told(repository, repository.call(*words))
    yield "a second does not", (0, shown, False, 1), told(repository, repository.call(*words))
    yield ("by a relative path", (0, shown, False, 1),
           told(repository, repository.call(*words, start=relative)))
    yield ("a fresh program needs no rt", (0, shown, False, 1),
           told(repository, repository.call(*words, path=few)))
    name = "MALLOC_TRIM_THRESHOLD_"
    limits = [line.removeprefix(f"Environment={name}=") for line in
              SERVICE.read_text().splitlines() if line.startswith(f"Environment={name}=")]
    yield ("it serves with the limit of its service", [f"{repository.caller}\n1\n[serve]\n{limit}\n"
                                                       for limit in limits],
           [repository.call("serve").stdout])


def unread(repository):
    """The lines of `serve` that nobody reads are lost, and it goes on; those of others stay."""
    if not pathlib.Path("/usr/bin/python3").exists():
        return
    writes = ("#!/bin/sh\nn=0\nwhile [ $n -lt 9000 ]; do n=$((n + 1))\n"
              "echo a line of this program >&2 2> /dev/null || true\ndone\necho \"$*\"\n")
    started = repository.top / "release" / "examoffice"
    for words, shown in ((("serve", "two  words"), "serve two  words\n"), (("check",), "")):
        started.write_text(writes)
        started.chmod(0o755)
        reading, writing = os.pipe()
        process = subprocess.Popen(
            [repository.top / "examoffice", *words], stdin=subprocess.DEVNULL, text=True,
            stdout=subprocess.PIPE, stderr=writing, cwd=repository.caller)
        os.close(writing)
        try:
            came = process.communicate(timeout=20 if shown else 3)[0]
        except subprocess.TimeoutExpired:
            process.kill()
            came = process.communicate()[0]
        yield f"{words[0]}, whose lines nobody reads", shown, came
        os.close(reading)
    started.unlink()


def edits(repository):
    """Yields the cases in which something is newer than the program, which was built once."""
    empty, builds = f"{repository.caller}\n0\n[]\n", 1
    specs = repository.crate / "specs" / "Lib.antt"
    answers = repository.crate / "proofs" / "main" / "Answers.antt"
    answers.write_text("\n")
    for file in (repository.source, specs, answers, repository.top / "crates.txt"):
        builds += 1
        repository.touch(file, 1e-3)
        yield f"newer: {file.name}", (0, empty, True, builds), told(repository, repository.call())
        yield f"again: {file.name}", (0, empty, False, builds), told(repository, repository.call())
    specs.unlink()
    builds += 1
    yield "a file is gone", (0, empty, True, builds), told(repository, repository.call())
    (repository.crate / "stdout").write_text("\n")
    yield "newer: another file", (0, empty, False, builds), told(repository, repository.call())
    (repository.crate / "out" / "examoffice").unlink(missing_ok=True)
    (repository.top / "meanwhile").write_text("")
    for case in ("no program", "an edit during the last build"):
        builds += 1
        yield case, (0, empty, True, builds), told(repository, repository.call())
    yield "no edit since", (0, empty, False, builds), told(repository, repository.call())


def refusals(repository, few):
    """Yields the cases in which the program has to be built and is not."""
    (repository.top / "release" / "examoffice").unlink()
    repository.source.write_text("\n\n\n\n")
    done = repository.call(path=few)
    said = "examoffice: the program has to be built, and there is no rt in PATH\n"
    yield "no rt", (1, "", said), (done.returncode, done.stdout, done.stderr)
    (repository.top / "broken").write_text("")
    done = repository.call("check")
    yield ("a build that fails", (1, "", ["no proof", "examoffice: the program was not built"]),
           (done.returncode, done.stdout, done.stderr.splitlines()[1:]))


def releases(repository, banned):
    """Yields the cases with a release, which is the stand-in program with a line of its own."""
    (repository.top / "program").write_text(PROGRAM + "echo released\n")
    (repository.crate / "out" / "examoffice").unlink()
    builds = repository.builds() + 1
    made = repository.release("make")
    yield "a release is made", (0, builds), (made.returncode, repository.builds())
    yield ("what was built is the release", (0, "release: it is what its sources are built to, "
           "byte for byte\n"), repository.checked())
    (repository.crate / "out" / "examoffice").unlink()
    (repository.top / "program").write_text(PROGRAM)
    yield from released_calls(repository, banned)
    specs = repository.crate / "specs" / "Lib.antt"
    specs.write_text("\n")
    yield ("a release of other sources can't be compared", (0, "release: it is whole, and older "
           "than the sources\n"), repository.checked())
    yield from asked_builds(repository)
    specs.unlink()
    yield ("the program is not what its sources are built to", 1, repository.checked()[0])
    kit = repository.top / "release" / "KIT"
    kit.write_text("another kit\n")
    yield ("a release of another kit can't be compared",
           (0, "release: it is whole, and was built with another kit (another kit), so its bytes "
            "are not compared\n"), repository.checked())
    kit.write_text("a kit\n")
    with open(repository.top / "release" / "examoffice", "a", encoding="utf-8") as program:
        program.write("\n")
    yield ("a release that was changed", (1, "release: examoffice is not the program of SHA256\n"),
           repository.checked())


def released_calls(repository, banned):
    """Yields the cases of a clone in which nothing is built."""
    shown, builds = f"{repository.caller}\n0\n[]\nreleased\n", repository.builds()
    version = repository.call("--version")
    first = (repository.top / "release" / "SHA256").read_text()[:8]
    line = f"examoffice 1.2.3, release {first}, proved with a kit\n"
    yield "its version", (0, line, ""), (version.returncode, version.stdout, version.stderr)
    worked = repository.top / "crates" / "worked_office" / "src"
    worked.mkdir(parents=True)
    (worked / "lib.rt").write_text("\n")
    (repository.top / "crates.txt").write_text("# Still one crate.\nexamoffice:\n")
    yield "tests are none of its sources", "", repository.call("--version").stderr
    for case, text, said in (("an edit", "\n\n\n", OLDER),
                             ("an edit that is taken back", "\n\n", "")):
        repository.source.write_text(text)
        done = repository.call(path=banned)
        yield (f"the release runs at once: {case}", (0, shown, "", builds),
               (done.returncode, done.stdout, done.stderr, repository.builds()))
        yield f"its version: {case}", said, repository.call("--version").stderr
    for words in (("--prefix", str(repository.caller)), (f"--prefix={repository.caller}",)):
        done = repository.call("install", *words)
        yield (f"it is installed: {words[0]}",
               (0, f"installed {repository.caller}/bin/examoffice\n"),
               (done.returncode, done.stdout))
        found = sorted(str(it.relative_to(repository.caller)) for it in repository.caller.rglob("*")
                       if it.is_file())
        yield f"what is installed: {words[0]}", INSTALLED, found
        done = repository.call(start=repository.caller / "bin" / "examoffice")
        yield f"what is installed runs: {words[0]}", shown, done.stdout
        for folder in ("bin", "share"):
            shutil.rmtree(repository.caller / folder)
    for words in (("here",), ("--prefix", ""), ("--prefix=",), ("--prefix",),
                  ("--prefix", f"{repository.caller}/two\nlines")):
        yield f"no folder to install to: {words}", 2, repository.call("install", *words).returncode


def asked_builds(repository):
    """Yields the cases of a build that is asked for."""
    builds = repository.builds() + 1
    done = repository.call("--build")
    yield ("a build is asked for", (0, "", builds, OLDER.split(";")[0]),
           (done.returncode, done.stdout, repository.builds(), done.stderr.splitlines()[0]))
    empty = f"{repository.caller}\n0\n[]\n"
    yield ("a program that was built runs", (0, empty, False, builds),
           told(repository, repository.call()))
    yield ("a build is asked for again", (0, "", False, builds),
           told(repository, repository.call("--build")))


def unable(repository, few):
    """Yields the cases of a release that this machine cannot run: a build, and one line."""
    empty, builds = f"{repository.caller}\n0\n[]\n", repository.builds()
    why = "examoffice: the release cannot run here; "
    release, built = (folder / "examoffice" for folder in
                      (repository.top / "release", repository.crate / "out"))
    too_old = "#!/bin/sh\necho 'libc.so.6: version `GLIBC_2.34 not found' >&2\nexit 1\n"
    for case, text in (("the C library is too old", too_old), ("there is no loader", "#!/none\n"),
                       ("it is for another machine", "\x7fELF\x01")):
        release.write_text(text)
        built.unlink()
        done = repository.call(path=few)
        yield (f"{case}, and no rt",
               (1, "", f"{why}the program has to be built, and there is no rt in PATH\n", builds),
               (done.returncode, done.stdout, done.stderr, repository.builds()))
        builds += 1
        done = repository.call()
        yield (case, (0, empty, [f"{why}building the program: proving and compiling its crates"],
                      builds),
               (done.returncode, done.stdout,
                [line.rpartition(",")[0] for line in done.stderr.splitlines()],
                repository.builds()))
        yield f"{case}, again", (0, empty, False, builds), told(repository, repository.call())
    built.unlink()
    release.write_text("#!/bin/sh\n[ \"$*\" = --help ] || exit 3\n")
    yield ("a release that runs, whatever its status", (3, "", False, builds),
           told(repository, repository.call("check")))


def cases(repository, folder):
    few = without_rt(folder)
    yield from calls(repository, few)
    yield from edits(repository)
    yield from releases(repository, without_banned(folder))
    yield from unable(repository, few)
    yield from refusals(repository, few)
    yield from unread(repository)


def main():
    if len(sys.argv) != 2:
        sys.exit("usage: run_launcher.py LAUNCHER")
    judged = Cases("launcher")
    with tempfile.TemporaryDirectory() as room:
        folder = pathlib.Path(room).resolve()
        for case in cases(Repository(folder, sys.argv[1]), folder):
            judged.judge(*case)
    sys.exit(judged.end())


if __name__ == "__main__":
    main()
