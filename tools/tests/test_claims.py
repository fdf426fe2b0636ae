"""Claims: the graph of a question, and ranks that rest on smaller ones. The checker itself is asked in the gate, by `trials`."""

import struct
import unittest
from pathlib import Path

from otzarvim_tools import claims
from otzarvim_tools.model_text import read_model
from otzarvim_tools.question import read_question
from otzarvim_tools.sizes import graph_size

from .common import ROOT, Case, trials

M = str(ROOT / "examples" / "paper_m.otz")
FORMULAS = ("E[p0 U<=2 p1]", "A[p0 U p1]", "(EX<=3 p0 & AX !p1)", "E[A[true U<=5 p1] U<=7 (AX<=9 p0 | false)]")


class Claims(unittest.TestCase):
    def graphs(self):
        model = read_model(Path(M).read_text(), "paper_m.otz")
        for text in FORMULAS:
            question = read_question(model, text, "formula")
            yield question, claims.Graph(question.model, question.formula)

    def test_a_graph_is_as_large_as_its_size_says(self):
        for question, graph in self.graphs():
            size = graph_size(question.model, question.formula)
            self.assertEqual((graph.nodes, len(graph.hyperedges), len(graph.covers), len(graph.message())), (size.nodes, size.hyperedges, size.covers, size.message))

    def test_t13(self):
        _, graph = next(self.graphs())
        inf = claims.INFINITE
        self.assertEqual(claims.settled(graph), [0, inf, inf, 0, 0, 0, 2, 0])

    def test_each_finite_node_has_a_support(self):
        for _, graph in self.graphs():
            pairs = list(struct.iter_unpack(">QQ", claims.certificate(graph)))
            self.assertEqual(len(pairs), graph.nodes)
            values, ranks = [value for value, _ in pairs], [rank for _, rank in pairs]
            supported = {source for source, targets in graph.hyperedges if claims._gives(targets, values) == values[source] and all(ranks[node] < ranks[source] for _, node in targets)}
            supported |= {cover[0] for cover in graph.covers if claims._holds(cover, values) and ranks[cover[2]] < ranks[cover[0]]}
            self.assertLessEqual({node for node in range(graph.nodes) if values[node] != claims.INFINITE}, supported)


class Commands(Case):
    """certify and verify, with the program that TRIALS names, or else the stand-in."""

    def certified(self, formula):
        path = self.folder / "claims"
        self.assertEqual(self.otz("certify", M, formula, "-o", path, "--program", trials())[0], 0)
        return path

    def verified(self, formula, path):
        return self.otz("verify", M, formula, path, "--program", trials())[:2]

    def test_what_is_certified_is_accepted(self):
        for formula in FORMULAS:
            self.assertEqual(self.verified(formula, self.certified(formula)), (0, "accepted\n"))

    def test_another_value_is_not_accepted(self):
        for formula in FORMULAS:
            path = self.certified(formula)
            data = path.read_bytes()
            for at in range(7, len(data), claims.CLAIM):
                path.write_bytes(data[:at] + bytes([data[at] ^ 1]) + data[at + 1:])
                self.assertEqual(self.verified(formula, path), (1, "not accepted\n"))

    def test_another_length_is_refused(self):
        path = self.certified(FORMULAS[0])
        path.write_bytes(path.read_bytes()[:-1])
        self.assertEqual(self.verified(FORMULAS[0], path), (1, "refused 2\n"))

    def test_no_program(self):
        status, _, err = self.otz("verify", M, FORMULAS[0], self.write("claims", ""), "--program", self.folder / "none")
        self.assertEqual(status, 2)
        self.assertIn("there is no program here", err)

    def test_a_program_that_does_not_know_claims(self):
        program = self.script("old", "#!/bin/sh\necho end 0\n")
        status, _, err = self.otz("verify", M, FORMULAS[0], self.write("claims", ""), "--program", program)
        self.assertEqual(status, 2)
        self.assertIn("does not know the call C", err)


if __name__ == "__main__":
    unittest.main()
