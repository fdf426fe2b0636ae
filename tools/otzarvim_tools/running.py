"""Finds the program, builds it once if it is missing, and runs it on message bytes."""

from __future__ import annotations

import os
import re
import shutil
import subprocess
import sys
import time
from pathlib import Path
from typing import Dict, List, Optional

from .mistakes import Mistake, Place

VARIABLE = "OTZARVIM"
NAME = "otzarvim"
WORDS = "run"  # of rt, which makes a program
ROOT = Path(__file__).resolve().parents[2]


def find_program(option: Optional[str] = None, root: Path = ROOT) -> Path:
    """The option, else the variable OTZARVIM, else the repository's program, built if need be."""
    given = option or os.environ.get(VARIABLE)
    if given:
        if not Path(given).is_file():
            raise Mistake(Place(given), "there is no program here")
        return Path(given)
    program = built(root, NAME, NAME)
    if not program.is_file():
        build(root, WORDS, NAME, "The checker")
    if not program.is_file():
        raise Mistake(Place(str(program)), f"{said_of(WORDS, NAME)} left no program here")
    return program


def built(root: Path, crate: str, name: str) -> Path:
    """What rt makes of a crate."""
    return root / "crates" / crate / "out" / name


def said_of(words: str, crate: str) -> str:
    """The command that makes it."""
    return f"'rt {words}' in crates/{crate}"


def build(root: Path, words: str, crate: str, what: str) -> None:
    """Proves and builds a crate, and says how far it has come. All else that `rt` says is shown only if it fails, without what it
    said of crates that it proved. A program is run once, on no input."""
    said = said_of(words, crate)
    if shutil.which("rt") is None:
        raise Mistake(Place(NAME), f"{what.lower()} isn't built, and there is no 'rt' on the path to build it with ('{said}'): install the Rattle kit, README.md says which")
    print(f"{what} isn't built yet. It is proved and built now, once; that takes some minutes ({said}).", file=sys.stderr, flush=True)
    total, proved = _crates(root, crate), 0
    name, began = crate, time.monotonic()  # the crate that is being proved
    block: List[str] = []  # what it said since it proved a crate
    with subprocess.Popen(["rt", *words.split()], cwd=root / "crates" / crate, stdin=subprocess.DEVNULL, stdout=subprocess.PIPE, stderr=subprocess.STDOUT, text=True, errors="replace") as rt:
        for line in rt.stdout or ():
            block.append(line)
            begun = re.fullmatch(r"rt: chose --jobs \d+ for (\S+)\n", line)
            if begun:
                name, began = begun.group(1), time.monotonic()
            if line.startswith("logic=proved "):
                proved += 1
                print(f"  {proved}{f' of {total}' if total else ''} proved: {name} ({time.monotonic() - began:.0f} s)", file=sys.stderr, flush=True)
                block = []
    if rt.returncode != 0:
        sys.stderr.write("".join(block))
        raise Mistake(Place(NAME), f"{said} failed with status {rt.returncode}; what it said is above")


def _crates(root: Path, crate: str) -> Optional[int]:
    """How many crates are proved for one, by crates.txt: itself and what it uses of the repository."""
    try:
        lines = [line.split(":") for line in (root / "crates.txt").read_text().splitlines() if ":" in line and not line.startswith("#")]
    except OSError:
        return None
    uses = {name.split()[0]: set(used.split()) for name, used in lines}
    return 1 + len(uses[crate] & set(uses)) if crate in uses else None


def kit_tools() -> Optional[Path]:
    """The folder of the kit with its linker, and with the loader, the C library and the emulator that programs run under elsewhere."""
    rt = shutil.which("rt")
    tools = Path(rt).resolve().parents[1] / "toolchain" if rt else None
    return tools if tools and tools.is_dir() else None


def is_x86_64(program: Path) -> bool:
    """Whether a file is an x86-64 binary, by its ELF header."""
    with open(program, "rb") as file:
        header = file.read(20)
    return header[:4] == b"\x7fELF" and header[18:20] == b"\x3e\x00"


def command(program: Path, tools: Optional[Path]) -> List[str]:
    """The words that run a program: as it is, as `rt` itself runs it, but an x86-64 binary on another machine under the emulator of a
    kit that has one, and under its loader."""
    path = str(program.resolve())
    if os.uname().machine == "x86_64" or not is_x86_64(program):
        return [path]
    emulator = tools / "bin" / "qemu-x86_64" if tools else None
    if tools is None or not os.access(str(emulator), os.X_OK):
        raise Mistake(Place(path), f"an x86-64 program needs the kit's emulator on this machine, {os.uname().machine}; {'the kit has none' if tools else 'no rt is on the path'}")
    return [str(emulator), str(tools / "lib" / "ld-linux-x86-64.so.2"), "--library-path", str(tools / "lib"), path]


def environment() -> Dict[str, str]:
    """The environment without what would change the emulator's ways."""
    return {name: value for name, value in os.environ.items() if not name.startswith("QEMU_")}


def run(program: Path, data: bytes) -> str:
    """What the program writes for these bytes."""
    try:
        done = subprocess.run(command(program, kit_tools()), input=data, capture_output=True, env=environment())
    except OSError as error:
        raise Mistake(Place(str(program)), f"can't be run: {error.strerror}") from None
    if done.returncode != 0:
        said = done.stderr.decode(errors="replace").strip()
        raise Mistake(Place(str(program)), f"the program ended with status {done.returncode}" + (f": {said}" if said else ""))
    return done.stdout.decode("ascii", errors="replace")
