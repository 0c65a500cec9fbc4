"""The program and the two baselines: how each is built, and what it answers."""
import hashlib
import os
import pathlib
import re
import shutil
import subprocess
import sys
import time
from collections import namedtuple

HERE = pathlib.Path(__file__).resolve().parent
DATA = HERE / "data"
TOP = HERE.parent
PROGRAM = TOP / "release" / "examoffice"
RUST = HERE / "build" / "rust" / "release" / "check"
CPP = HERE / "build" / "cpp" / "check"
ORACLE = [sys.executable, str(HERE / "oracle.py")]

# glibc zeroes large blocks by one instruction of the processor, which callgrind counts once for
# each byte. So every program that is counted zeroes them by its loop.
COUNTED = {"GLIBC_TUNABLES": "glibc.cpu.x86_rep_stosb_threshold=100000000"}

Answer = namedtuple("Answer", "status stdout stderr")

# For modules that the benches and the tests share.
sys.path.append(str(TOP / "tests"))


def say(text):
    print(text, file=sys.stderr, flush=True)


def build_rust():
    subprocess.run(["cargo", "build", "--offline", "--release", "--quiet", "--manifest-path",
                    HERE / "baseline" / "rust" / "Cargo.toml", "--target-dir", RUST.parent.parent],
                   check=True)


def build_cpp():
    source = HERE / "baseline" / "cpp" / "check.cpp"
    if CPP.exists() and CPP.stat().st_mtime >= source.stat().st_mtime:
        return
    CPP.parent.mkdir(parents=True, exist_ok=True)
    subprocess.run(["g++", "-std=c++17", "-O3", "-g1", "-Wall", "-Wextra", "-o", CPP, source],
                   check=True)


def baselines():
    """Builds the baselines for which there is a compiler, and answers their commands by name."""
    commands = {}
    for name, compiler, build, made in (("rust", "cargo", build_rust, RUST),
                                        ("c++", "g++", build_cpp, CPP)):
        if not shutil.which(compiler):
            say(f"no {compiler} in PATH: the baseline {name} is left out")
            continue
        try:
            build()
        except subprocess.CalledProcessError:
            sys.exit(f"the baseline {name} does not build")
        commands[name] = [str(made), "check"]
    return commands


def program(path=None):
    """The program's command: that of the path, or else the release."""
    return [str(pathlib.Path(path or PROGRAM).resolve()), "check"]


def caption(path=None):
    """What is measured, of which program, when, and how busy the machine is."""
    command = " ".join([pathlib.Path(sys.argv[0]).name, *sys.argv[1:]])
    digest = hashlib.sha256(pathlib.Path(program(path)[0]).read_bytes()).hexdigest()[:8]
    return (f"{command}: program {digest}, {time.strftime('%-d %B %Y')},"
            f" load {os.getloadavg()[0]:.0f}")


def ask(command, *files):
    done = subprocess.run([*command, *files], stdin=subprocess.DEVNULL, capture_output=True,
                          check=False)
    return Answer(done.returncode, done.stdout, done.stderr)


def comparing(command):
    """The checker's command that compares two solutions, by the one that judges one."""
    return [*(word for word in command if word != "check"), "compare"]


def instructions(command, folder, text=subprocess.DEVNULL):
    """The instructions of one run by callgrind, or None where there is no valgrind."""
    if not shutil.which("valgrind"):
        return None
    words = ["valgrind", "--tool=callgrind", f"--callgrind-out-file={folder}/callgrind", *command]
    said = subprocess.run(words, stdin=text, capture_output=True, check=False,
                          env=os.environ | COUNTED).stderr.decode(errors="replace")
    found = re.search(r"Collected : (\d+)", said)
    if not found:
        sys.exit(f"callgrind counted nothing for {' '.join(command)}:\n{said[-2000:]}")
    return int(found[1])


def difference(answers):
    """Names the first answer that is not as it must be, and says what came; None if all agree.

    `answers` holds the program's under "examoffice", if it was asked, and those of the others.
    """
    others = [answer for name, answer in answers.items() if name != "examoffice"]
    if not others:
        return None
    wanted = others[0]
    for name, got in answers.items():
        if got != wanted:
            return f"{name} answers\n  {got}\nand not\n  {wanted}"
    return None
