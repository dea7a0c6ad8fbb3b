"""Runs the programs that are compared: the oracle, the proved replay program, and the driver of the C entry points."""

import os
import subprocess
import sys
from collections import Counter
from pathlib import Path

HERE = Path(__file__).resolve().parent
ROOT = HERE.parent.parent
ORACLE = HERE / "target/release/oracle"
REPLAY = ROOT / "crates/replay/out/replay"
ARCHIVE = ROOT / "crates/daunsrevit/out/libdaunsrevit.a"
DRIVER = ROOT / "target/compare/driver"


def build_oracle():
    status = subprocess.run([HERE / "build.sh"]).returncode
    if status:
        sys.exit(status)


def build_replay():
    """Proves and compiles the replay program, which rt then runs, on nothing; nothing is done again that is unchanged."""
    status = subprocess.run(["rt", "run"], cwd=ROOT / "crates/replay", stdin=subprocess.DEVNULL, stdout=sys.stderr).returncode
    if status:
        sys.exit(status)


def oracle_answers(lines):
    text = "".join(line + "\n" for line in lines)
    answers = subprocess.run([ORACLE], input=text, capture_output=True, text=True, check=True).stdout.splitlines()
    if len(answers) != len(lines):
        sys.exit(f"the oracle gave {len(answers)} answers to {len(lines)} cases")
    return answers


def toolchain():
    """The kit's own compiler, linker and C library."""
    kit = Path(subprocess.run(["rt", "doc"], capture_output=True, text=True, check=True).stdout.strip()).parent
    return kit / "toolchain"


def loader():
    """The words that start a program for x86-64 with the kit's own C library, on another processor under its emulator."""
    tools = toolchain()
    emulator = tools / "bin/qemu-x86_64"
    words = [tools / "lib/ld-linux-x86-64.so.2", "--library-path", tools / "lib"]
    return [emulator, *words] if emulator.exists() else words


def replay(text):
    """What the replay program says of a text of cases: how many agree and differ by algorithm, and which lines differ."""
    said = subprocess.run([*loader(), REPLAY], input=text, capture_output=True, text=True, check=True).stdout
    agree, differ, lines = Counter(), Counter(), []
    for line in said.splitlines():
        name, _, rest = line.partition(": ")
        words = rest.split()
        if words[0] == "line":
            lines.append(line)
        else:
            agree[name], differ[name] = int(words[0]), int(words[2])
    return agree, differ, lines


def build_driver(archive=None):
    """Compiles driver.c and links it with the archive of the C entry points, which is made first where none is named, as
    tests/c/run does."""
    if archive is None:
        archive = ARCHIVE
        status = subprocess.run(["rt", "lib"], cwd=ROOT / "crates/daunsrevit", stdout=sys.stderr).returncode
        if status:
            sys.exit(status)
    DRIVER.parent.mkdir(parents=True, exist_ok=True)
    tools = toolchain()
    lib, made = tools / "lib", DRIVER.with_suffix(".o")
    flags = "--target=x86_64-unknown-linux-gnu -std=c11 -O2 -Wall -Wextra -Wno-unused-function -Werror -isystem".split() + [ROOT / "tests/headers"]
    subprocess.run([tools / "bin/clang", *flags, "-c", HERE / "driver.c", "-o", made], check=True)
    before = [lib / name for name in ("Scrt1.o", "crti.o", "crtbeginS.o")]
    after = [lib / name for name in ("libc.so.6", "libc_nonshared.a", "ld-linux-x86-64.so.2", "crtendS.o", "crtn.o")]
    words = "-pie --dynamic-linker /lib64/ld-linux-x86-64.so.2 -o".split()
    subprocess.run([tools / "bin/ld.lld", *words, DRIVER, *before, made, archive, *after], check=True)


def driver_answers(lines):
    text = "".join(line + "\n" for line in lines)
    answers = subprocess.run([*loader(), DRIVER], input=text, capture_output=True, text=True, check=True).stdout.splitlines()
    if len(answers) != len(lines):
        sys.exit(f"the driver gave {len(answers)} answers to {len(lines)} cases")
    return answers
