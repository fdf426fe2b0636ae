"""DOT text of models."""

import os
from unittest import mock

from otzarvim_tools.drawing import draw
from otzarvim_tools.runs import Run

from .common import Case, model


class Drawing(Case):
    def test_a_model(self):
        text = draw(model("propositions idle, safe, graph\ncold: idle, safe\nstate graph\ncold -> graph 12\ngraph -> cold 0"))
        self.assertEqual(
            text,
            'digraph "m" {\n'
            "    rankdir=LR;\n"
            "    node [shape=box, style=rounded];\n"
            '    "cold" [label="cold\\nidle, safe"];\n'
            '    "graph" [label="graph"];\n'
            '    "cold" -> "graph" [label="12"];\n'
            '    "graph" -> "cold" [label="0"];\n'
            "}\n",
        )

    def test_actions_stand_behind_the_weights(self):
        text = draw(model("a -> b 3 #go\nb -> a 4 #7\nb -> b 5 #0\na -> a 6"), Run(0, (model("a -> b 3 #go").transitions[0],)))
        self.assertEqual([line.split("[")[1] for line in text.splitlines() if "->" in line], ['label="3 #go", style=bold, penwidth=3];', 'label="4 #7"];', 'label="5"];', 'label="6"];'])

    def test_quotes_in_a_files_name(self):
        read = model("a -> a 1")
        read.path = 'the "old" one.otz'
        self.assertTrue(draw(read).startswith('digraph "the \\"old\\" one" {\n'))

    def test_unfinished_models_are_drawn(self):
        path = self.write("m.otz", "a -> b 3")
        status, out, _ = self.otz("draw", path)
        self.assertEqual((status, out.count("->")), (0, 1))

    def test_pictures_by_graphviz(self):
        path, picture = self.write("m.otz", "a -> b 3"), self.folder / "m.svg"
        self.script("bin/dot", '#!/bin/sh\necho "picture $*"; cat\n')
        with mock.patch.dict(os.environ, {"PATH": f"{self.folder / 'bin'}{os.pathsep}{os.defpath}"}):
            self.assertEqual(self.otz("draw", path, "-o", picture)[0], 0)
        self.assertEqual(picture.read_text(), "picture -Tsvg\n" + self.otz("draw", path)[1])
        self.script("bin/dot", "#!/bin/sh\necho sorry >&2; exit 3\n")
        with mock.patch.dict(os.environ, {"PATH": f"{self.folder / 'bin'}{os.pathsep}{os.defpath}"}):
            self.assertEqual(self.otz("draw", path, "-o", picture), (2, "", f"{picture}: 'dot' ended with status 3: sorry\n"))

    def test_without_graphviz(self):
        path = self.write("m.otz", "a -> b 3")
        with mock.patch.dict(os.environ, {"PATH": str(self.folder)}):
            status, out, err = self.otz("draw", path, "-o", self.folder / "m.svg")
            self.assertEqual((status, out), (2, ""))
            self.assertIn("apt-get install graphviz", err)
            self.assertFalse((self.folder / "m.svg").exists())
            self.assertEqual(self.otz("draw", path, "-o", self.folder / "m.dot")[0], 0)
        self.assertEqual((self.folder / "m.dot").read_text(), self.otz("draw", path)[1])

    def test_a_run_in_bold(self):
        read = model("a -> b 3\na -> b 4\nb -> a 1")
        text = draw(read, Run(0, (read.transitions[1],)))
        self.assertEqual([("bold" in line) for line in text.splitlines()[3:-1]], [True, True, False, True, False])
