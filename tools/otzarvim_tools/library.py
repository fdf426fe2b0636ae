"""The proved library: built once from its archive, and asked about models of any size that it takes.

On x86-64 the archive becomes a shared object, which is loaded here (ctypes). Elsewhere it can't be loaded; there it
becomes a program, with bridge.c around it, that runs under the kit's emulator as `otzarvim` does and answers question
after question. Both are linked by the kit's own tools, so that nothing else need be installed.
"""

from __future__ import annotations

import ctypes
import os
import struct
import subprocess
from dataclasses import dataclass
from pathlib import Path
from typing import List, Optional, Union

from .answers import Answer, Refused
from .mistakes import Mistake, Place
from .paper import GRAPH_NODES, MOST_GRAPH, MOST_TEXT, OK
from .running import ROOT, build, built, command, environment, kit_tools, said_of

VARIABLE = "OTZARVIM_LIBRARY"
CRATE = "export"
WORDS = "lib --cpu x86-64"  # of rt, which makes the archive, for every x86-64 processor
_ASKED = ">III"
_ANSWERED = ">BQIIIII"
_LONGEST_MODEL, _LONGEST_FORMULA = 2_097_152, 4_096

# What the header of the library needs of two others, which the kit's compiler doesn't have.
_HEADERS = {
    "stddef.h": "typedef __SIZE_TYPE__ size_t;\n",
    "stdint.h": "typedef __UINT8_TYPE__ uint8_t;\ntypedef __UINT32_TYPE__ uint32_t;\ntypedef __UINT64_TYPE__ uint64_t;\n#define UINT32_MAX 0xffffffffu\n#define UINT64_MAX 0xffffffffffffffffu\n",
}


@dataclass(frozen=True)
class Settled:
    """The answer for all states: the text, the count of rounds, the settled value of each node, and where the root's stand."""

    text: str
    rounds: int
    values: List[int]
    first: int
    states: int

    def answer(self) -> Answer:
        return Answer(self.text, self.rounds, [self.values[self.first + state] == 0 for state in range(self.states)])


class Library:
    """The library, loaded or behind the bridge."""

    def settle(self, model: bytes, formula: bytes, budget: int = GRAPH_NODES) -> Union[Settled, Refused]:
        raise NotImplementedError


class Loaded(Library):
    """A shared object, called by ctypes."""

    def __init__(self, path: Path) -> None:
        try:
            self.calls = ctypes.CDLL(str(path))
            for name in ("otzarvim_settle", "otzarvim_formula_text"):
                getattr(self.calls, name).restype = ctypes.c_uint8
        except (OSError, AttributeError) as error:
            raise Mistake(Place(str(path)), f"the library can't be loaded: {error}") from None
        self.graph = (ctypes.c_uint8 * MOST_GRAPH)()
        self.values = (ctypes.c_uint64 * (2 * GRAPH_NODES))()

    def settle(self, model: bytes, formula: bytes, budget: int = GRAPH_NODES) -> Union[Settled, Refused]:
        size, word = ctypes.c_size_t, ctypes.c_uint32
        count, length, states, offset = word(), size(), (word * 2)(), size()
        number = self.calls.otzarvim_settle(
            model, size(len(model)), formula, size(len(formula)), word(budget), self.graph, size(len(self.graph)),
            self.values, size(len(self.values)), ctypes.byref(count), ctypes.byref(length), states, ctypes.byref(offset),
        )
        if number != OK:
            return Refused(number, offset.value)
        nodes = self.graph[6] << 8 | self.graph[7]
        return Settled(self.text(formula, model[8]), count.value, self.values[:nodes], states[0], states[1])

    def text(self, formula: bytes, propositions: int) -> str:
        room, length, offset = (ctypes.c_uint8 * MOST_TEXT)(), ctypes.c_size_t(), ctypes.c_size_t()
        number = self.calls.otzarvim_formula_text(
            formula, ctypes.c_size_t(len(formula)), ctypes.c_uint32(propositions), room, ctypes.c_size_t(len(room)),
            ctypes.byref(length), ctypes.byref(offset),
        )
        if number != OK:
            raise Mistake(Place("the library"), f"settled a formula whose text it refuses with {number}")
        return bytes(room[: length.value]).decode("ascii")


class Bridged(Library):
    """A process that answers question after question; it starts with the first and ends with this one."""

    def __init__(self, path: Path) -> None:
        self.path = path
        self.process: Optional["subprocess.Popen[bytes]"] = None

    def settle(self, model: bytes, formula: bytes, budget: int = GRAPH_NODES) -> Union[Settled, Refused]:
        if len(model) > _LONGEST_MODEL or len(formula) > _LONGEST_FORMULA:
            raise Mistake(Place(str(self.path)), f"a model of {len(model):,} bytes can't be handed on: at most {_LONGEST_MODEL:,}")
        if self.process is None:
            self.process = self._start()
        try:
            assert self.process.stdin is not None
            self.process.stdin.write(struct.pack(_ASKED, len(model), len(formula), budget) + model + formula)
            self.process.stdin.flush()
        except BrokenPipeError:
            raise self._ended() from None
        number, offset, rounds, first, states, nodes, length = struct.unpack(_ANSWERED, self._take(struct.calcsize(_ANSWERED)))
        values = struct.unpack(f">{nodes}Q", self._take(8 * nodes))
        text = self._take(length).decode("ascii", errors="replace")
        return Refused(number, offset) if number != OK else Settled(text, rounds, list(values), first, states)

    def _start(self) -> "subprocess.Popen[bytes]":
        try:
            return subprocess.Popen(command(self.path, kit_tools()), stdin=subprocess.PIPE, stdout=subprocess.PIPE, env=environment())
        except OSError as error:
            raise Mistake(Place(str(self.path)), f"can't be run: {error.strerror}") from None

    def _take(self, length: int) -> bytes:
        assert self.process is not None and self.process.stdout is not None
        data = self.process.stdout.read(length)
        if len(data) != length:
            raise self._ended()
        return data

    def _ended(self) -> Mistake:
        assert self.process is not None
        return Mistake(Place(str(self.path)), f"the library's process ended with status {self.process.wait()}")

    def close(self) -> None:
        process, self.process = self.process, None
        if process is None:
            return
        for pipe in (process.stdin, process.stdout):
            try:
                if pipe is not None:
                    pipe.close()
            except BrokenPipeError:
                pass  # it has ended already
        process.wait()

    def __del__(self) -> None:
        self.close()


def open_library(option: Optional[str] = None, root: Path = ROOT) -> Library:
    """The option, else the variable, else the repository's own, built if need be. A shared object ends in .so."""
    given = option or os.environ.get(VARIABLE)
    if given and not Path(given).is_file():
        raise Mistake(Place(given), "there is no library here")
    path = Path(given).resolve() if given else _find(root)
    return Loaded(path) if path.suffix == ".so" else Bridged(path)


def _find(root: Path) -> Path:
    """The repository's library, linked again where its archive is newer."""
    archive = built(root, CRATE, f"lib{CRATE}.a")
    made = root / "target" / "otz" / ("libotzarvim.so" if os.uname().machine == "x86_64" else "bridge")
    if not archive.is_file() and not made.is_file():
        build(root, WORDS, CRATE, "The library")
        if not archive.is_file():
            raise Mistake(Place(str(archive)), f"{said_of(WORDS, CRATE)} left no archive here")
    if archive.is_file() and (not made.is_file() or made.stat().st_mtime < archive.stat().st_mtime):
        link(root, archive, made)
    return made


def link(root: Path, archive: Path, made: Path) -> None:
    """Makes the shared object, or the bridge, of the archive; it stands there only when it is whole."""
    tools = kit_tools()
    if tools is None:
        raise Mistake(Place(str(made)), "the library isn't linked, and there is no 'rt' on the path to find the kit's linker with: install the Rattle kit, README.md says which")
    made.parent.mkdir(parents=True, exist_ok=True)
    new = made.with_name(f"{made.name}.{os.getpid()}")
    if made.suffix == ".so":
        _tool([tools / "bin" / "ld.lld", "-shared", "--whole-archive", archive, "-o", new])
    else:
        headers = made.parent / "include"
        headers.mkdir(exist_ok=True)
        for name, text in _HEADERS.items():
            (headers / name).write_text(text)
        source, part, lib = Path(__file__).with_name("bridge.c"), new.with_suffix(".o"), tools / "lib"
        _tool([tools / "bin" / "clang", "--target=x86_64-unknown-linux-gnu", "-O2", "-fPIC", "-I", headers, "-I", root / "include", "-c", source, "-o", part])
        _tool([
            tools / "bin" / "ld.lld", "-pie", "-dynamic-linker", "/lib64/ld-linux-x86-64.so.2", "-o", new, lib / "Scrt1.o", lib / "crti.o", lib / "crtbeginS.o",
            part, archive, lib / "libc.so.6", lib / "libc_nonshared.a", lib / "ld-linux-x86-64.so.2", lib / "crtendS.o", lib / "crtn.o",
        ])
        part.unlink()
    os.replace(new, made)


def _tool(words: List[object]) -> None:
    done = subprocess.run([str(word) for word in words], capture_output=True, text=True, errors="replace")
    if done.returncode != 0:
        raise Mistake(Place(str(words[0])), f"ended with status {done.returncode}: {done.stderr.strip()}")
