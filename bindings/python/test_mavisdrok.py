"""Compares with purr's stored answers (crates/replay/data; oracle/README.md has their form), and tries what is said of objects.

    tools/archive && (cd bindings/python && python3 -m unittest)
"""
import doctest
import os
import pickle
import re
import threading
import unittest

import mavisdrok
from mavisdrok import Graph, Refusal

DATA = os.path.join(os.path.dirname(os.path.realpath(__file__)), "..", "..", "crates", "replay", "data")
BONDS = dict(zip("e-=#$:/\\", mavisdrok.BOND_KINDS[1:]))
LETTERS = {kind: letter for letter, kind in BONDS.items()}


def rows(name, sort):
    """What is asked, and the answer, ours where we differ from purr."""
    with open(os.path.join(DATA, name + ".txt"), encoding="ascii") as lines:
        split = [line.rstrip("\n").split("\t") for line in lines]
    found = [(columns[0][len(sort) + 1 :], columns[-1]) for columns in split if columns[0].startswith(sort + " ")]
    assert len(found) >= 80, "only %d rows of %s in %s" % (len(found), sort, name)
    return found


def decoded(text):
    """The bytes of a text: `!hh` is a byte, `!-` the empty text."""
    parts = re.split("!(-|[0-9a-f]{2})", text)
    parts[1::2] = ["" if part == "-" else chr(int(part, 16)) for part in parts[1::2]]
    return "".join(parts).encode("latin-1")


def encoded(line):
    return line.replace(" ", "!20") or "!-"


def refused(refusal):
    return " ".join(str(number) for number in (refusal.number, *refusal.values))


def atom_form(atom):
    if not atom.bracket:
        return atom.symbol
    fields = [atom.isotope, atom.symbol, atom.configuration, atom.hydrogens, atom.charge, atom.map]
    return "[%s]" % ",".join("~" if field is None else str(field) for field in fields)


def graph_form(graph):
    atoms = [" ".join([atom_form(atom)] + [LETTERS[bond.kind] + str(bond.target) for bond in atom.bonds]) for atom in graph]
    return "0 %d %d %s" % (len(graph), sum(len(atom.bonds) for atom in graph), ";".join(atoms))


def kind_words(form):
    """The words of an atom's form, by the table of docs/PACKING.md."""
    if not form.startswith("["):
        return [mavisdrok.PLAIN.index(form), 0]
    isotope, symbol, configuration, hydrogens, charge, map_ = form[1:-1].split(",")

    def number(field, none):
        return none if field == "~" else int(field)

    mark = 0 if configuration == "~" else mavisdrok.CONFIGURATIONS.index(configuration)
    rest = number(isotope, 1000) + 1001 * (mark + 58 * number(hydrogens, 10))
    return [
        20 + mavisdrok.SYMBOLS.index(symbol) + 256 * rest,
        (31 if charge == "~" else int(charge) + 15) + 32 * number(map_, 1000),
    ]


def graph_of(form):
    atoms, bonds = [], []
    for atom in filter(None, form.split(";")):
        kind, *entries = atom.split(" ")
        atoms += kind_words(kind) + [len(entries)]
        for entry in entries:
            bonds += [mavisdrok.BOND_KINDS.index(BONDS[entry[0]]), int(entry[1:])]
    return Graph(atoms, bonds)


def written(work):
    try:
        line = work()
    except Refusal as refusal:
        return refused(refusal)
    return "0 %d %s" % (len(line), encoded(line))


class Lists(unittest.TestCase):
    def test_lines_are_read(self):
        for name, sort in [("lines", "read"), ("damaged", "read"), ("short", "read"), ("bytes", "readbytes")]:
            for asked, expected in rows(name, sort):
                try:
                    answer = graph_form(mavisdrok.read(decoded(asked)))
                except Refusal as refusal:
                    answer = refused(refusal)
                self.assertEqual(answer, expected, asked)

    def test_lines_are_rewritten(self):
        for asked, expected in rows("rewrite", "rewrite"):
            self.assertEqual(written(lambda: mavisdrok.rewrite(decoded(asked))), expected, asked)
            self.assertEqual(written(lambda: mavisdrok.write(mavisdrok.read(decoded(asked)))), expected, asked)

    def test_graphs_are_written(self):
        for name in ["graphs", "broken", "rings"]:
            for asked, expected in rows(name, "write"):
                self.assertEqual(written(lambda: graph_of(asked).write()), expected, asked)

    def test_orders(self):
        for asked, expected in rows("order", "order"):
            try:
                order = mavisdrok.order(graph_of(asked))
                answer = ";".join("%d:%d" % (atom, order.number[atom]) for atom in order.walked)
                # The list has each atom's text as well, which the line has.
                expected = ";".join(":".join(part.split(":")[:2]) for part in expected.split(" ", 2)[2].split(";"))
            except Refusal as refusal:
                answer = refused(refusal)
            self.assertEqual(answer, expected, asked)

    def test_atoms_are_spelt(self):
        spelt = [row for row in rows("features", "spell") if "," in row[0]]
        self.assertGreater(len(spelt), 100)
        for asked, expected in spelt:
            atom = graph_of(asked)[0]
            self.assertEqual(atom_form(atom), asked)
            self.assertEqual(encoded(str(atom)), expected, asked)


class Objects(unittest.TestCase):
    def test_a_refusal_tells_number_name_and_place(self):
        with self.assertRaises(Refusal) as raised:
            mavisdrok.read("CC)")
        refusal = raised.exception
        self.assertEqual((refusal.number, refusal.name, refusal.values, refusal.place), (2, "Character", (2,), 2))
        self.assertEqual(str(refusal), "2 Character: the character at place 2 cannot stand there")
        again = pickle.loads(pickle.dumps(refusal))
        self.assertEqual((again.number, again.place, str(again)), (2, 2, str(refusal)))
        with self.assertRaises(Refusal) as raised:
            mavisdrok.rewrite("C1C1")
        self.assertEqual((raised.exception.name, raised.exception.values, raised.exception.place), ("DuplicateBond", (0, 1), None))

    def test_words_that_stand_for_nothing_are_refused(self):
        for atoms, bonds, number, value in [
            ([7] * 6, [], 17, 0),
            ([3, 0, 0, 3], [], 17, 1),
            ([3, 0, 0], [1, 0], 17, 1),
            ([3, 0, 1], [1, 0, 1], 17, 2),
            ([3, 0, 0] * 1025, [], 13, 1025),
        ]:
            with self.assertRaises(Refusal) as raised:
                Graph(atoms, bonds)
            self.assertEqual((raised.exception.number, raised.exception.values, raised.exception.place), (number, (value,), None))
        self.assertEqual(Graph([], []).write(), "")

    def test_any_text(self):
        for text, number in [("", 1), (b"", 1), ("C\0", 2), ("Cé", 2), ("\udc80", 2), ("C" * 9000, 12), (b"\xff", 2)]:
            with self.assertRaises(Refusal) as raised:
                mavisdrok.read(text)
            self.assertEqual(raised.exception.number, number)
        for wrong in [None, 7, ["C"]]:
            with self.assertRaises(TypeError):
                mavisdrok.read(wrong)

    def test_the_largest_job(self):
        self.assertEqual(len(mavisdrok.read("C" * 1024)), 1024)
        with self.assertRaises(Refusal) as raised:
            mavisdrok.read("C" * 1025)
        self.assertEqual((raised.exception.name, raised.exception.place), ("AtomRoom", 1024))

    def test_a_graph_is_its_words(self):
        graph = mavisdrok.read("C1CC[C@H]1F")
        self.assertEqual(Graph(*graph.words()), graph)
        self.assertNotEqual(mavisdrok.read("C"), graph)
        self.assertEqual(eval(repr(graph)), graph)

    def test_threads_do_not_meet(self):
        lines = ["C" * n for n in range(1, 40)]
        wrong = []

        def work():
            for _ in range(50):
                wrong.extend(line for line in lines if mavisdrok.rewrite(line) != line)

        threads = [threading.Thread(target=work) for _ in range(4)]
        for thread in threads:
            thread.start()
        for thread in threads:
            thread.join()
        self.assertEqual(wrong, [])

    def test_the_module_s_examples(self):
        failed, tried = doctest.testmod(mavisdrok)
        self.assertEqual(failed, 0)
        self.assertGreater(tried, 3)


if __name__ == "__main__":
    unittest.main()
