"""Finding, building and running the program."""

import contextlib
import io
import os
from pathlib import Path
from unittest import mock

from otzarvim_tools import running

from .common import Case

ELF = b"\x7fELF" + bytes(14) + b"\x3e\x00" + bytes(44)


class Surroundings(Case):
    """A test with an environment of its own."""

    def setUp(self):
        super().setUp()
        patch = mock.patch.dict(os.environ)
        patch.start()
        self.addCleanup(patch.stop)
        os.environ.pop(running.VARIABLE, None)
        self.quiet = io.StringIO()


class Finding(Surroundings):
    def setUp(self):
        super().setUp()
        (self.folder / "crates/otzarvim").mkdir(parents=True)

    def find(self, option=None):
        with contextlib.redirect_stderr(self.quiet):
            return running.find_program(option, self.folder)

    def rt(self, body):
        """An `rt` of our own, the only thing on the path but the system's tools."""
        self.script("bin/rt", "#!/bin/sh\n" + body)
        os.environ["PATH"] = f"{self.folder / 'bin'}{os.pathsep}{os.defpath}"

    def test_option_then_variable_then_repository(self):
        for name in ("one", "two", "crates/otzarvim/out/otzarvim"):
            self.write(name, "")
        os.environ[running.VARIABLE] = str(self.folder / "two")
        self.assertEqual(self.find(str(self.folder / "one")), self.folder / "one")
        self.assertEqual(self.find(), self.folder / "two")
        del os.environ[running.VARIABLE]
        self.assertEqual(self.find(), self.folder / "crates/otzarvim/out/otzarvim")

    def test_a_given_program_is_never_built(self):
        self.rt("touch called\n")
        self.mistake(lambda: self.find("nowhere"), "nowhere: there is no program here")
        self.assertFalse((self.folder / "called").exists())

    def test_a_missing_program_is_built_once_and_quietly(self):
        self.rt('echo "$@" >>called; cat >>called; echo noise; mkdir -p out; : >out/otzarvim\n')
        self.find()
        self.find()
        self.assertEqual((self.folder / "crates/otzarvim/called").read_text(), "run\n")
        self.assertNotIn("noise", self.quiet.getvalue())

    def test_a_build_says_how_far_it_has_come(self):
        self.write("crates.txt", "# crates\nlists:\nwire: lists\nother staticlib: lists\notzarvim: lists wire io\n")
        self.rt("echo only=0 proved=0; echo 'rt: chose --jobs 2 for lists'; echo logic=proved functions=3 sum=1; echo 'rt: chose --jobs 2 for wire'; echo 'fn x: proved'; echo logic=proved functions=1 sum=1; mkdir -p out; : >out/otzarvim\n")
        self.find()
        first, *rest = self.quiet.getvalue().splitlines()
        self.assertIn("some minutes ('rt run' in crates/otzarvim)", first)
        self.assertEqual(rest, ["  1 of 3 proved: lists (0 s)", "  2 of 3 proved: wire (0 s)"])

    def test_a_failed_build_is_shown(self):
        self.rt("echo out; echo err >&2; exit 3\n")
        self.mistake(self.find, "failed with status 3")
        self.assertIn("out\nerr\n", self.quiet.getvalue())

    def test_of_a_failed_build_only_what_failed_is_shown(self):
        self.rt("echo fine; echo 'rt: chose --jobs 2 for lists'; echo logic=proved functions=3; echo 'rt: chose --jobs 1 for value'; echo logic=proved functions=2; echo 'rt: chose --jobs 4 for wire'; echo broken; echo logic=not-proved; echo 'rt: the library wire did not build'; exit 1\n")
        self.mistake(self.find, "failed with status 1")
        self.assertEqual(self.quiet.getvalue().splitlines()[1:], ["  1 proved: lists (0 s)", "  2 proved: value (0 s)", "rt: chose --jobs 4 for wire", "broken", "logic=not-proved", "rt: the library wire did not build"])

    def test_a_build_without_a_program(self):
        self.rt("exit 0\n")
        self.mistake(self.find, "left no program")

    def test_no_rt(self):
        os.environ["PATH"] = str(self.folder)
        self.mistake(self.find, "no 'rt' on the path")


class Running(Surroundings):
    def kit(self, emulator):
        tools = "kit/toolchain"
        self.script(tools + "/lib/ld-linux-x86-64.so.2", '#!/bin/sh\necho "loader $1"; cat\n')
        if emulator:
            self.script(tools + "/bin/qemu-x86_64", '#!/bin/sh\necho "emulator ${QEMU_LOG:-unset}"; exec "$@"\n')
        return self.folder / tools

    def test_the_kit_is_found_through_rt(self):
        tools = self.kit(False)
        self.script("kit/bin/rt", "#!/bin/sh\n")
        (self.folder / "bin").mkdir()
        os.symlink("../kit/bin/rt", self.folder / "bin/rt")
        os.environ["PATH"] = str(self.folder / "bin")
        self.assertEqual(running.kit_tools(), tools.resolve())
        os.environ["PATH"] = str(self.folder)
        self.assertIsNone(running.kit_tools())

    def test_binaries_run_under_the_loader_and_the_emulator(self):
        program = Path(self.write("program", ELF)).resolve()
        os.environ["QEMU_LOG"] = "all"
        self.script("kit/bin/rt", "#!/bin/sh\n")
        os.environ["PATH"] = f"{self.folder / 'kit/bin'}{os.pathsep}{os.defpath}"
        with mock.patch("os.uname", return_value=mock.Mock(machine="x86_64")):
            self.assertEqual(running.command(program, self.kit(True)), [str(program)])
        with mock.patch("os.uname", return_value=mock.Mock(machine="aarch64")):
            tools = self.kit(True)
            words = running.command(program, tools)
            self.assertEqual(words, [str(tools / "bin/qemu-x86_64"), str(tools / "lib/ld-linux-x86-64.so.2"), "--library-path", str(tools / "lib"), str(program)])
            self.assertEqual(running.run(program, b"bytes"), "emulator unset\nloader --library-path\nbytes")

    def test_without_a_kit(self):
        program, tools = Path(self.write("program", ELF)).resolve(), self.kit(False)
        with mock.patch("os.uname", return_value=mock.Mock(machine="x86_64")):
            self.assertEqual(running.command(program, None), [str(program)])
        with mock.patch("os.uname", return_value=mock.Mock(machine="aarch64")):
            self.mistake(lambda: running.command(program, None), "needs the kit's emulator", "no rt is on the path")
            self.mistake(lambda: running.command(program, tools), "needs the kit's emulator", "the kit has none")

    def test_scripts_run_as_they_are(self):
        program = Path(self.script("program", "#!/bin/sh\ncat\n"))
        self.assertEqual(running.run(program, b"bytes"), "bytes")

    def test_programs_that_fail(self):
        failing = Path(self.script("failing", "#!/bin/sh\necho sorry >&2\nexit 4\n"))
        self.mistake(lambda: running.run(failing, b"x" * 100_000), "ended with status 4: sorry")
        self.mistake(lambda: running.run(Path(self.write("plain", "words")), b""), "can't be run")
