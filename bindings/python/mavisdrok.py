"""SMILES lines read, walked and written by a proved library.

    >>> graph = read("C1CC[C@H]1F")
    >>> graph.write()
    'C([C@@H](CC1)F)1'
    >>> graph.order().walked
    [0, 3, 2, 1, 4]
    >>> graph[3].configuration, [bond.target for bond in graph[3].bonds]
    ('TH2', [2, 0, 4])
    >>> read("C)")
    Traceback (most recent call last):
    ...
    mavisdrok.Refusal: 2 Character: the character at place 1 cannot stand there

It needs the standard library alone, and libmavisdrok.so, which tools/archive makes: the file that MAVISDROK_LIBRARY names,
the project's own in target/native, or the system's. docs/PACKING.md says how atoms and bonds are packed in words.
"""
import ctypes
import os
import threading
from array import array
from collections import namedtuple

__all__ = ["Atom", "Bond", "Graph", "Order", "Refusal", "order", "read", "rewrite", "version", "write"]

# The largest job, and the words of an atom, of a bond entry and of a report.
ATOMS, BONDS = 1024, 2304
ATOM_WORDS, BOND_WORDS, REPORT_WORDS = 3, 2, 3
# A line has at most so many bytes for each atom and for each bond entry.
ATOM_BYTES, ENTRY_BYTES = 24, 4
# No text of an atom is longer.
LONGEST = 21

# The desk's numbers: the name of each, how many values it carries, and what it means.
NUMBERS = [
    ("Done", 2, "done"),
    ("EndOfLine", 0, "the text ends where more has to follow"),
    ("Character", 1, "the character at place {} cannot stand there"),
    ("Join", 2, "the two ends of the ring bond between atoms {} and {} disagree"),
    ("Rnum", 1, "a ring number is opened and never closed: the use numbered {}"),
    ("UnknownTarget", 2, "atom {} is bonded to atom {}, which is not there"),
    ("Loop", 1, "atom {} is bonded to itself"),
    ("HalfBond", 2, "atom {0} is bonded to atom {1}, and {1} not to {0}"),
    ("DuplicateBond", 2, "atoms {} and {} are bonded twice"),
    ("IncompatibleBond", 2, "the bond between atoms {} and {} has ends that disagree"),
    ("Inversion", 1, "atom {} bears hydrogen, so its mark had to be turned, and only @ and @@ can be"),
    ("RingNumbers", 2, "the ring bond between atoms {} and {} needs a number above 99"),
    ("TextTooLong", 1, "the text has {} bytes: 8192 are the most"),
    ("AtomRoom", 1, "one atom too many for the room, at {}"),
    ("BondRoom", 1, "one bond too many for the room, at {}"),
    ("Nesting", 1, "one branch too many at place {}: 128 may be open at once"),
    ("OutRoom", 1, "the output is too small: {} bytes are needed"),
    ("BadTable", 1, "record {} stands for nothing"),
    ("NoAtom", 0, "there is no atom to bond to"),
    ("Overpop", 0, "a pop of as many atoms as are held, or more"),
]
# Those whose first value is a place in the text that was read.
CHARACTER, ATOM_ROOM, BOND_ROOM, NESTING, BAD_TABLE = 2, 13, 14, 15, 17
PLACES = {CHARACTER, ATOM_ROOM, BOND_ROOM, NESTING}

# What atoms are called: those without brackets from 1 on, the symbols of bracket atoms from FIRST_BRACKET on, in the order of
# a dictionary, and the configurations.
PLAIN = " * B C N O S P F Cl Br I At Ts b c n o p s".split(" ")
SYMBOLS = (
    "* Ac Ag Al Am Ar As At Au B Ba Be Bh Bi Bk Br "
    "C Ca Cd Ce Cf Cl Cm Cn Co Cr Cs Cu Db Ds Dy Er Es Eu F Fe Fl Fm Fr Ga Gd Ge "
    "H He Hf Hg Ho Hs I In Ir K Kr La Li Lr Lu Lv Mc Md Mg Mn Mo Mt "
    "N Na Nb Nd Ne Nh Ni No Np O Og Os P Pa Pb Pd Pm Po Pr Pt Pu "
    "Ra Rb Re Rf Rg Rh Rn Ru S Sb Sc Se Sg Si Sm Sn Sr Ta Tb Tc Te Th Ti Tl Tm Ts "
    "U V W Xe Y Yb Zn Zr as b c n o p s se "
).split()
CONFIGURATIONS = (
    [None, "TH1", "TH2", "AL1", "AL2", "SP1", "SP2", "SP3"]
    + ["TB%d" % i for i in range(1, 21)]
    + ["OH%d" % i for i in range(1, 31)]
)
BOND_KINDS = [None, "Elided", "Single", "Double", "Triple", "Quadruple", "Aromatic", "Up", "Down"]

# How the fields of a bracket atom are packed in its two words.
FIRST_BRACKET, KIND_ROOM, NUMBER_ROOM, CHARGE_ROOM = 20, 256, 1001, 32
NO_NUMBER, NO_HYDROGENS, NO_CHARGE, CHARGE_ZERO = 1000, 10, 31, 15


def _load():
    """The library, from the first place that has one."""
    named = os.environ.get("MAVISDROK_LIBRARY")
    project = os.path.dirname(os.path.dirname(os.path.dirname(os.path.realpath(__file__))))
    own = os.path.join(project, "target", "native", "libmavisdrok.so")
    for path in [named] if named else [own, "libmavisdrok.so.0"]:
        try:
            return ctypes.CDLL(path)
        except OSError:
            pass
    raise ImportError("libmavisdrok.so is not there as %s: tools/archive makes it" % (named or own))


_lib = _load()
_lib.mavisdrok_version.restype = ctypes.c_char_p
version = _lib.mavisdrok_version().decode()


def _declare(name, *kinds):
    """A call of the library. A slice, `s`, is a pointer and a length; `n` is a count, `w` a word."""
    of = {"s": [ctypes.c_void_p, ctypes.c_size_t], "n": [ctypes.c_size_t], "w": [ctypes.c_uint32]}
    call = getattr(_lib, "mavisdrok_" + name)
    call.argtypes = [kind for letter in kinds for kind in of[letter]]
    call.restype = None
    return call


_read = _declare("read", "s", "s", "s", "s")
_write = _declare("write", "s", "n", "s", "n", "s", "s")
_order = _declare("order", "s", "n", "s", "n", "s", "s", "s", "s")
_spell_atom = _declare("spell_atom", "s", "w", "w", "s")


class _Lent(threading.local):
    """What is lent to the library, for each thread its own: room for the largest job."""

    def __init__(self):
        self.atoms = (ctypes.c_uint32 * (ATOMS * ATOM_WORDS))()
        self.bonds = (ctypes.c_uint32 * (BONDS * BOND_WORDS))()
        self.out = (ctypes.c_uint8 * (ATOMS * ATOM_BYTES + BONDS * ENTRY_BYTES))()
        self.report = (ctypes.c_uint64 * REPORT_WORDS)()
        self.at = [ctypes.addressof(cells) for cells in (self.atoms, self.bonds, self.out, self.report)]


_lent = _Lent()


class Refusal(ValueError):
    """A refusal: the desk's number and name, the values that it carries, and, where there is one, the place in the text."""

    def __init__(self, number, values, reading=False):
        self.number = number
        self.name, carried, meaning = NUMBERS[number]
        self.values = tuple(values[:carried])
        self.place = self.values[0] if reading and number in PLACES else None
        super().__init__("%d %s: %s" % (number, self.name, meaning.format(*self.values)))

    def __reduce__(self):
        return _refusal, (self.number, self.values, self.place is not None)


def _refusal(number, values, reading):
    return Refusal(number, values, reading)


def _told(report, reading=False):
    """The values that 0 carries; any other number is raised."""
    if report[0]:
        raise Refusal(report[0], report[1:], reading)
    return report[1], report[2]


Bond = namedtuple("Bond", "kind target")
Bond.__doc__ = """One of the two entries of a bond: its kind by name, Elided to Down, and the number of the other atom."""

Order = namedtuple("Order", "walked number back")
Order.__doc__ = """A walk order: for each number in it the atom; for each atom its number; for each atom the place, from 1, of
its entry back to the atom that it was reached from, 0 for a root."""


class Atom(namedtuple("Atom", "symbol bracket isotope configuration hydrogens charge map bonds words")):
    """An atom of a graph. A field that is not there is None, which is not the same as 0. str() is its text."""

    __slots__ = ()

    def __str__(self):
        out, report = (ctypes.c_uint8 * LONGEST)(), _lent.report
        _spell_atom(ctypes.addressof(out), LONGEST, *self.words, _lent.at[3], REPORT_WORDS)
        return bytes(out[: _told(report)[0]]).decode("ascii")


def _atom(first, second, bonds):
    """The atom of the two words of its kind."""
    if first < FIRST_BRACKET:
        return Atom(PLAIN[first], False, None, None, None, None, None, bonds, (first, second))
    rest, symbol = divmod(first, KIND_ROOM)
    rest, isotope = divmod(rest, NUMBER_ROOM)
    hydrogens, configuration = divmod(rest, len(CONFIGURATIONS))
    map_, charge = divmod(second, CHARGE_ROOM)
    return Atom(
        SYMBOLS[symbol - FIRST_BRACKET],
        True,
        None if isotope == NO_NUMBER else isotope,
        CONFIGURATIONS[configuration],
        None if hydrogens == NO_HYDROGENS else hydrogens,
        None if charge == NO_CHARGE else charge - CHARGE_ZERO,
        None if map_ == NO_NUMBER else map_,
        bonds,
        (first, second),
    )


class Graph:
    """A graph in the library's tables. It is a sequence of its atoms.

    Every record stands for an atom or a bond entry, and every entry is held by an atom; whether the two ends of a bond agree
    is for write and order to say.
    """

    def __init__(self, atoms, bonds):
        """The graph of words: three an atom, two a bond entry. The library judges them."""
        self._atoms, self._bonds = array("I", atoms), array("I", bonds)
        self._seen = None
        n, m = len(self._atoms) // ATOM_WORDS, len(self._bonds) // BOND_WORDS
        if len(self._atoms) % ATOM_WORDS or len(self._bonds) % BOND_WORDS:
            raise Refusal(BAD_TABLE, [n if len(self._atoms) % ATOM_WORDS else n + m])
        try:
            self.order()
        except Refusal as refusal:
            if refusal.number in (ATOM_ROOM, BOND_ROOM, BAD_TABLE):
                raise

    @classmethod
    def _held(cls, atoms, bonds):
        """The graph of words that the library has laid."""
        graph = cls.__new__(cls)
        graph._atoms, graph._bonds, graph._seen = array("I", atoms), array("I", bonds), None
        return graph

    def words(self):
        """The words of the atoms and of the bond entries."""
        return self._atoms.tolist(), self._bonds.tolist()

    def _lend(self):
        """The two tables as the library takes them."""
        (atoms, n), (bonds, m) = self._atoms.buffer_info(), self._bonds.buffer_info()
        return atoms, n, n // ATOM_WORDS, bonds, m, m // BOND_WORDS

    @property
    def atoms(self):
        """The atoms, in their order, each with its bonds."""
        if self._seen is None:
            bonds = iter(self._bonds)
            records = iter(self._atoms)
            self._seen = [
                _atom(first, second, tuple(Bond(BOND_KINDS[next(bonds)], next(bonds)) for _ in range(entries)))
                for first, second, entries in zip(records, records, records)
            ]
        return self._seen

    def __len__(self):
        return len(self._atoms) // ATOM_WORDS

    def __getitem__(self, at):
        return self.atoms[at]

    def __iter__(self):
        return iter(self.atoms)

    def __eq__(self, other):
        if not isinstance(other, Graph):
            return NotImplemented
        return self._atoms == other._atoms and self._bonds == other._bonds

    __hash__ = None

    def __repr__(self):
        return "Graph(%r, %r)" % self.words()

    def write(self):
        """The graph as a line. A graph that is written is simple: every bond leads to another atom, no two atoms have more than
        one, and each is held at both ends, of reversed kind. Any other is refused, where purr writes some."""
        lent = _lent
        _write(*self._lend(), lent.at[2], len(lent.out), lent.at[3], REPORT_WORDS)
        return ctypes.string_at(lent.at[2], _told(lent.report)[0]).decode("ascii")

    def order(self):
        """The order in which the atoms are written."""
        n = len(self)
        tables = [array("I", bytes(4 * n)) for _ in Order._fields]
        lent = [part for table in tables for part in table.buffer_info()]
        _order(*self._lend(), *lent, _lent.at[3], REPORT_WORDS)
        _told(_lent.report)
        return Order(*(table.tolist() for table in tables))


def _read_lent(text):
    """Reads a text into what is lent, as much of it as the text can need: the numbers of atoms and of bond entries."""
    if isinstance(text, str):
        text = text.encode("utf-8", "surrogatepass")
    elif not isinstance(text, bytes):
        raise TypeError("a line is a str or bytes, not %s" % type(text).__name__)
    lent, size = _lent, len(text)
    atoms, bonds = min(size, ATOMS) * ATOM_WORDS, min(2 * size, BONDS) * BOND_WORDS
    _read(text, size, lent.at[0], atoms, lent.at[1], bonds, lent.at[3], REPORT_WORDS)
    return _told(lent.report, reading=True) + (atoms, bonds)


def read(text):
    """The graph of a line, a str or bytes. Raises Refusal."""
    n, m, _, _ = _read_lent(text)
    return Graph._held(_lent.atoms[: n * ATOM_WORDS], _lent.bonds[: m * BOND_WORDS])


def rewrite(text):
    """A line read and written. Raises Refusal."""
    n, m, atoms, bonds = _read_lent(text)
    lent = _lent
    _write(lent.at[0], atoms, n, lent.at[1], bonds, m, lent.at[2], n * ATOM_BYTES + m * ENTRY_BYTES, lent.at[3], REPORT_WORDS)
    return ctypes.string_at(lent.at[2], _told(lent.report)[0]).decode("ascii")


def write(graph):
    """A graph as a line. Raises Refusal."""
    return graph.write()


def order(graph):
    """The order in which a graph's atoms are written. Raises Refusal."""
    return graph.order()
