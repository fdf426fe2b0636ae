"""The library: who is asked, the bridge, building and linking; and with the variable OTZARVIM_LIBRARY naming it, the library itself.

    OTZARVIM_LIBRARY=target/otz/bridge python3 -m unittest discover -s tools
"""

import os
import random
import shutil
import subprocess
import unittest
from pathlib import Path
from unittest import mock

from otzarvim_tools import asking, library
from otzarvim_tools.answers import Refused
from otzarvim_tools.compiler import compile_formula, compile_model
from otzarvim_tools.model import Model, Transition
from otzarvim_tools.names import Names
from otzarvim_tools.question import Question, read_question
from otzarvim_tools.mistakes import Place

from .common import FAKE, FAKE_LIBRARY, ROOT, Case, QuickLibrary, model, the_library
from .test_messages import damaged_questions, random_formula, random_questions
from .test_running import Surroundings


def large_model(chance, states=64, steps=1500):
    """More than the program takes."""
    labels = [frozenset(i for i in range(3) if chance.random() < 0.3) for _ in range(states)]
    return Model([f"s{a}" for a in range(states)], ["p0", "p1", "p2"], labels, [Transition(chance.randrange(states), chance.randint(0, 99), chance.randrange(states)) for _ in range(steps)])


class Choosing(Case):
    def chosen(self, text, formula, **words):
        question = read_question(model(text), formula, "formula")
        return asking.Asker(**words).chosen(question, len(asking.message(question)))

    def test_the_program_where_it_has_room(self):
        small, long = "a -> a 1\n", "a -> a 1\n" * 1100
        self.assertEqual(self.chosen(small, "true"), "program")
        self.assertEqual(self.chosen(long, "true"), "library")
        # 8,192 bytes and one more transition
        self.assertEqual(self.chosen("a -> a 1\n" * 816, "true"), "program")
        self.assertEqual(self.chosen("a -> a 1\n" * 817, "true"), "library")
        # the graph is too long for the program's room
        self.assertEqual(self.chosen("a -> a 1\n" * 750, "E[E[E[E[E[E[true U a] U a] U a] U a] U a] U a]"), "library")
        # those that a row skips take no room there
        crowd = "a -> a 1 #loop\n" * 400 + "a -> a 1\n" * 350
        self.assertEqual(self.chosen(crowd, "EX " * 9 + "true"), "library")
        self.assertEqual(self.chosen(crowd, "EX#loop " * 9 + "true"), "program")
        for words, by in (({"program": "x"}, "program"), ({"library": "x"}, "library"), ({"by": "program"}, "program"), ({"by": "library", "program": "x"}, "library")):
            self.assertEqual({self.chosen(text, "true", **words) for text in (small, long)}, {by})

    def test_beyond_the_programs_room(self):
        long = self.write("long.otz", "a -> a 1\n" * 1100 + "a -> b 7\nb: end\n")
        status, out, err = self.otz("ask", long, "E[true U<=7 end]")
        self.assertEqual((status, out, err), (0, "formula  E[true U<=7 end]\nmessage  E[true U<=7 p0]\nrounds   4\nby       the library\n\na  yes\nb  yes\n", ""))
        crowd = self.write("crowd.otz", "s0 -> s0 1\n" * 750)
        status, out, _ = self.otz("ask", crowd, "E[E[E[E[E[E[true U s0] U s0] U s0] U s0] U s0] U s0]")
        self.assertEqual((status, out.splitlines()[3:]), (0, ["by       the library", "", "s0  yes"]))

    def test_the_largest_model(self):
        chance = random.Random(1)
        most = "".join(f"s{chance.randrange(256)} -> s{chance.randrange(256)} 1\n" for _ in range(65_535 - 256))
        path = self.write("most.otz", "".join(f"s{i} -> s{(i + 1) % 256} 5\n" for i in range(256)) + most)
        self.assertEqual(self.otz("ask", path, "AX<=0 s0", "--state", "s255")[1].splitlines()[2:], ["rounds   1", "by       the library", "", "s255  yes"])
        over = self.write("over.otz", Path(path).read_text() + "s0 -> s0 1\n")
        self.assertEqual(self.otz("ask", over, "AX<=0 s0"), (2, "", f"{over}: 65536 transitions: 0 to 65,535 are allowed\n"))

    def test_refusals_are_the_same(self):
        long = self.write("long.otz", "a -> a 1\n" * 1100)
        for by in ("--library", "--program"):
            status, out, _ = self.otz("ask", self.write("m.otz", "a -> a 1"), "p9", "--raw", by, the_library() if by == "--library" else FAKE)
            self.assertEqual((status, out.splitlines()[0][:17]), (1, "refused 6 at 8, N"))
        status, out, _ = self.otz("ask", long, "p9", "--raw")
        self.assertEqual((status, out.splitlines()[1:]), (1, ["byte 8 of the formula: row 0 (p9), field left, is 9", "formula: there is no proposition p9: the model has 0"]))


class Bridge(Case):
    def settle(self, path, question):
        bridge = library.open_library(path)
        self.addCleanup(bridge.close)
        return bridge.settle(compile_model(question.model), compile_formula(question.formula))

    def test_the_stand_in_as_a_process(self):
        bridge = library.open_library(str(FAKE_LIBRARY))
        self.addCleanup(bridge.close)
        for over, asked in random_questions(3, 30):
            words = compile_model(over), compile_formula(asked)
            self.assertEqual(bridge.settle(*words), QuickLibrary().settle(*words))
        self.assertEqual(bridge.settle(b"\0" * 20, b""), Refused(2))

    def test_processes_that_fail(self):
        question = read_question(model("a -> a 1"), "true", "formula")
        for body, said in (("exit 3", "ended with status 3"), ("head -c 5 /dev/zero; exit 4", "ended with status 4")):
            self.mistake(lambda: self.settle(self.script("bridge", f"#!/bin/sh\n{body}\n"), question), said)
        self.mistake(lambda: self.settle(self.write("plain", "words"), question), "can't be run")
        self.mistake(lambda: self.settle("nowhere", question), "nowhere: there is no library here")
        self.mistake(lambda: self.settle(self.write("x.so", "words"), question), "the library can't be loaded")
        self.mistake(lambda: library.open_library(str(FAKE_LIBRARY)).settle(bytes(3_000_000), b""), "can't be handed on")

    @unittest.skipUnless(shutil.which("cc"), "there is no C compiler")
    def test_a_shared_object(self):
        """The calls by ctypes, to functions that give back what they are handed, so that their order and widths are seen."""
        source = self.write("lib.c", """
            #include "otzarvim.h"
            uint8_t otzarvim_settle(const uint8_t *m, size_t ml, const uint8_t *f, size_t fl, uint32_t budget, uint8_t *bytes, size_t bl, uint64_t *values, size_t vl, uint32_t *count, size_t *length, uint32_t states[2], size_t *offset)
            { if (f[0] == 9) { *offset = 5000000000; return 6; } bytes[6] = 0; bytes[7] = 6; bytes[bl - 1] = 1; values[vl - 1] = 1;
              values[0] = ml; values[1] = fl; values[2] = budget; values[3] = bl; values[4] = vl; values[5] = m[0];
              *count = 7; *length = 8; states[0] = 2; states[1] = 3; *offset = 0; return 0; }
            uint8_t otzarvim_formula_text(const uint8_t *f, size_t fl, uint32_t p, uint8_t *room, size_t rl, size_t *length, size_t *offset)
            { room[0] = 'p'; room[1] = (uint8_t)('0' + p); room[rl - 1] = f[0]; *length = 2; *offset = 0; return fl == 3 ? 0 : 1; }
        """)
        made = str(self.folder / "lib.so")
        subprocess.run(["cc", "-shared", "-fPIC", "-I", str(ROOT / "include"), source, "-o", made], check=True)
        loaded = library.open_library(made)
        self.assertEqual(loaded.settle(bytes([9] * 8 + [4, 0]), b"abc"), library.Settled("p4", 7, [10, 3, 4096, 1867786, 8192, 9], 2, 3))
        self.assertEqual(loaded.settle(bytes(10), b"\x09bc"), Refused(6, 5000000000))
        self.mistake(lambda: loaded.settle(bytes(10), b"abcd"), "whose text it refuses with 1")


class Building(Surroundings):
    def setUp(self):
        super().setUp()
        os.environ.pop(library.VARIABLE, None)
        tools = "kit/toolchain"
        (self.folder / "crates/export").mkdir(parents=True)
        for tool in ("ld.lld", "clang"):
            # says what it was asked, and leaves what it was to make
            self.script(f"{tools}/bin/{tool}", '#!/bin/sh\necho "${0##*/} $*" >>"$LOG"\nwhile [ "$1" != -o ]; do shift; done\n: >"$2"\n')
        self.script("kit/bin/rt", '#!/bin/sh\necho "$@" >>"$LOG"; mkdir -p out; : >out/libexport.a\n')
        self.log = self.folder / "log"
        os.environ.update(LOG=str(self.log), PATH=f"{self.folder / 'kit/bin'}{os.pathsep}{os.defpath}")

    def find(self):
        with mock.patch("sys.stderr", self.quiet):
            return library._find(self.folder)

    def asked(self):
        lines = self.log.read_text().splitlines()
        self.log.write_text("")
        return [line.split()[0] for line in lines]

    def test_built_and_linked_once(self):
        native = os.uname().machine == "x86_64"
        made = self.find()
        self.assertEqual(made, self.folder / "target/otz" / ("libotzarvim.so" if native else "bridge"))
        self.assertEqual(self.asked(), ["lib", "ld.lld"] if native else ["lib", "clang", "ld.lld"])
        self.assertIn("'rt lib --cpu x86-64' in crates/export", self.quiet.getvalue())
        self.find()
        self.assertEqual(self.asked(), [])
        # a newer archive is linked again, and proved by whoever made it
        after = made.stat().st_mtime + 5
        os.utime(self.folder / "crates/export/out/libexport.a", (after, after))
        self.find()
        self.assertEqual(self.asked()[-1], "ld.lld")

    def test_both_kinds(self):
        archive = Path(self.write("libexport.a", ""))
        for name, tools in (("libotzarvim.so", ["ld.lld"]), ("bridge", ["clang", "ld.lld"])):
            made = self.folder / "out" / name
            library.link(ROOT, archive, made)
            self.assertTrue(made.is_file())
            self.assertEqual(self.asked(), tools)
        self.assertEqual(sorted(path.name for path in (self.folder / "out").iterdir()), ["bridge", "include", "libotzarvim.so"])

    def test_failures(self):
        archive, made = Path(self.write("libexport.a", "")), self.folder / "out" / "x.so"
        self.script("kit/toolchain/bin/ld.lld", "#!/bin/sh\necho no >&2\nexit 5\n")
        self.mistake(lambda: library.link(ROOT, archive, made), "ended with status 5: no")
        self.assertFalse(made.exists())
        self.script("kit/bin/rt", "#!/bin/sh\nexit 0\n")
        self.mistake(self.find, "'rt lib --cpu x86-64' in crates/export left no archive here")
        os.environ["PATH"] = str(self.folder)
        self.mistake(lambda: library.link(ROOT, archive, made), "install the Rattle kit")
        self.mistake(self.find, "the library isn't built, and there is no 'rt'")


@unittest.skipUnless(os.environ.get(library.VARIABLE), f"the variable {library.VARIABLE} doesn't name the library")
class TheLibrary(Case):
    def setUp(self):
        super().setUp()
        self.library = library.open_library()
        if isinstance(self.library, library.Bridged):
            self.addCleanup(self.library.close)

    def same(self, over, asked):
        self.assertEqual(self.library.settle(over, asked), QuickLibrary().settle(over, asked), (over.hex(), asked.hex()))

    def test_answers_as_the_stand_in(self):
        for over, asked in random_questions(4, 300):
            self.same(compile_model(over), compile_formula(asked))

    def test_refuses_as_the_stand_in(self):
        for data in damaged_questions(7, 300):
            end = int.from_bytes(data[:4], "big")
            self.same(data[:end], data[end:])

    def test_large_models_as_the_stand_in(self):
        chance = random.Random(9)
        for _ in range(6):
            question = Question(Names(large_model(chance)), random_formula(chance, 3, 2), Place("formula"))
            self.same(compile_model(question.model), compile_formula(question.formula))
