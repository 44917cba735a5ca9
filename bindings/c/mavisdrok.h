/* Mavisdrok's calls, for C: the read call, the write call and the walk order; the single calls of a builder, of a writer and
 * of the pool; one atom, bond or ring number as text. The archive is made by tools/archive.
 *
 * Every call takes any bytes, any tables, any words and any counts, ends, and writes nothing outside what it is lent.
 *
 * What is lent: a slice is a pointer and a length in elements. The pointer is aligned for its elements, one byte, four or
 * eight; it may be null where the length is 0, and nowhere else. The slices lent to one call do not overlap, but two that are
 * only read may. What is lent to be written holds values already, whichever. A call keeps no pointer.
 *
 * report: three words, as far as there is room: the desk's number, and the two values that it carries, 0 where it carries
 * fewer: crates/desk_report/specs/Report.antt has them for each answer. Words after the third are untouched. So are words of a
 * state after its own. docs/PACKING.md says how atoms, bonds and states are packed in words.
 *
 * What is left: after 0 of a read, a write, an order, a build, a reading of an atom or a spelling, what is lent to be written
 * is zero after what the call has laid there; after a refusal it is zero all through. A single event or a call of the pool that
 * is refused changes nothing but the report.
 *
 * A call takes less than 256 KiB of stack. The reader calls itself for each branch that is open, of which there are at most
 * 128: measured as tools/archive compiles it, such a line takes 147 KiB on x86-64 and 192 on ARM, another line or another call
 * less than 40. Each page of it is touched in turn, so that too little stack ends in a fault at its guard page. */
#ifndef MAVISDROK_H
#define MAVISDROK_H

#include <stddef.h>
#include <stdint.h>

#ifdef __cplusplus
extern "C" {
#endif

/* The version of this header, and of the library: mavisdrok_version tells it of a library at hand. */
#define MAVISDROK_VERSION "0.2.0"
const char *mavisdrok_version(void);

/* The largest job: bytes of a line, atoms and bond entries; and the words of an atom and of an entry. */
#define MAVISDROK_TEXT 8192
#define MAVISDROK_ATOMS 1024
#define MAVISDROK_BONDS 2304
#define MAVISDROK_ATOM_WORDS 3
#define MAVISDROK_BOND_WORDS 2
#define MAVISDROK_REPORT_WORDS 3

/* The words of an atom's kind, of an entry in the making and of each state; the words of a builder's ring numbers and of a
 * pool's table. */
#define MAVISDROK_KIND_WORDS 2
#define MAVISDROK_ENTRY_WORDS 3
#define MAVISDROK_BUILDER_WORDS 11
#define MAVISDROK_WRITER_WORDS 2
#define MAVISDROK_POOL_WORDS 2
#define MAVISDROK_RINGS 100
#define MAVISDROK_PAIRS 300

/* The desk's numbers: the first word of a report. docs/LABEL.md says in words what each means. */
enum mavisdrok_number {
    MAVISDROK_DONE,
    MAVISDROK_END_OF_LINE,
    MAVISDROK_CHARACTER,
    MAVISDROK_JOIN,
    MAVISDROK_RNUM,
    MAVISDROK_UNKNOWN_TARGET,
    MAVISDROK_LOOP,
    MAVISDROK_HALF_BOND,
    MAVISDROK_DUPLICATE_BOND,
    MAVISDROK_INCOMPATIBLE_BOND,
    MAVISDROK_INVERSION,
    MAVISDROK_RING_NUMBERS,
    MAVISDROK_TEXT_TOO_LONG,
    MAVISDROK_ATOM_ROOM,
    MAVISDROK_BOND_ROOM,
    MAVISDROK_NESTING,
    MAVISDROK_OUT_ROOM,
    MAVISDROK_BAD_TABLE,
    MAVISDROK_NO_ATOM,
    MAVISDROK_OVERPOP
};

/* A ring number, 0 to 99. One that is larger is answered 17. */
typedef uint32_t mavisdrok_rnum;

/* A bond's kind. */
enum {
    MAVISDROK_ELIDED = 1,
    MAVISDROK_SINGLE,
    MAVISDROK_DOUBLE,
    MAVISDROK_TRIPLE,
    MAVISDROK_QUADRUPLE,
    MAVISDROK_AROMATIC,
    MAVISDROK_UP,
    MAVISDROK_DOWN
};

/* Reads a line. After 0, with the numbers of atoms and of bond entries, the tables hold its graph and zeros after it;
 * after a refusal they hold zeros. */
void mavisdrok_read(const uint8_t *text, size_t text_len,
                    uint32_t *atoms, size_t atoms_len,
                    uint32_t *bonds, size_t bonds_len,
                    uint64_t *report, size_t report_len);

/* Writes the graph of n atoms and m bond entries. After 0, with the bytes written, the output holds the line and zeros
 * after it; after a refusal it holds zeros.
 *
 * A graph that is answered 0 is simple: every bond leads to another atom, no two atoms have more than one, and each is held at
 * both ends, of reversed kind. 5 to 9 name the first that is not so, as the walk comes to it, ring bonds among them: 5 with an
 * atom and its target that is none, 6 with an atom that is bonded to itself, 7 with an atom and one that has no entry back, 8
 * with two atoms one of which has more than one entry for the other, 9 with the target and the source of a bond whose two
 * entries do not match. */
void mavisdrok_write(const uint32_t *atoms, size_t atoms_len, size_t n,
                     const uint32_t *bonds, size_t bonds_len, size_t m,
                     uint8_t *out, size_t out_len,
                     uint64_t *report, size_t report_len);

/* The walk order of that graph: for each number in walk order the atom; for each atom its number in walk order; for each
 * atom the place, from 1, of its entry back to the atom that it was reached from, 0 for a root. */
void mavisdrok_order(const uint32_t *atoms, size_t atoms_len, size_t n,
                     const uint32_t *bonds, size_t bonds_len, size_t m,
                     uint32_t *walked, size_t walked_len,
                     uint32_t *number, size_t number_len,
                     uint32_t *back, size_t back_len,
                     uint64_t *report, size_t report_len);

/* ---- A builder
 *
 * atoms: three words an atom; entries: three words an entry; path: a word an atom; rings: a hundred words. There is room for as
 * many atoms and entries as these tables hold, 1024 and 2304 at most, so lend tables of the same lengths to each call. state:
 * eleven words, as mavisdrok_builder_start lays them and each accepted event leaves them. An atom's kind is its two words, a
 * bond's its number. The events answer 17, 18, 13, 14, 10, or 0; 13 and 14 carry the atoms held, 10 the atom. An event that is
 * not answered 0 changes nothing but the report. */

/* A builder that has seen no event, over the tables that its events will be lent: its state, and every ring number free. 17
 * with nothing changed if the state, the path or the ring numbers have too few words; then every event would answer 17. */
void mavisdrok_builder_start(const uint32_t *atoms, size_t atoms_len,
                             const uint32_t *entries, size_t entries_len,
                             const uint32_t *path, size_t path_len,
                             uint32_t *rings, size_t rings_len,
                             uint64_t *state, size_t state_len,
                             uint64_t *report, size_t report_len);

/* A first atom of a component. */
void mavisdrok_builder_root(uint32_t *atoms, size_t atoms_len,
                            const uint32_t *entries, size_t entries_len,
                            uint32_t *path, size_t path_len,
                            const uint32_t *rings, size_t rings_len,
                            uint64_t *state, size_t state_len,
                            uint32_t first, uint32_t second,
                            uint64_t *report, size_t report_len);

/* A new atom, bonded to the current one. */
void mavisdrok_builder_extend(uint32_t *atoms, size_t atoms_len,
                              uint32_t *entries, size_t entries_len,
                              uint32_t *path, size_t path_len,
                              const uint32_t *rings, size_t rings_len,
                              uint64_t *state, size_t state_len,
                              uint32_t bond, uint32_t first, uint32_t second,
                              uint64_t *report, size_t report_len);

/* A ring number at the current atom. */
void mavisdrok_builder_join(const uint32_t *atoms, size_t atoms_len,
                            uint32_t *entries, size_t entries_len,
                            const uint32_t *path, size_t path_len,
                            uint32_t *rings, size_t rings_len,
                            uint64_t *state, size_t state_len,
                            uint32_t bond, mavisdrok_rnum number,
                            uint64_t *report, size_t report_len);

/* So many atoms off the path. A pop beyond it empties it. */
void mavisdrok_builder_pop(const uint32_t *atoms, size_t atoms_len,
                           const uint32_t *entries, size_t entries_len,
                           const uint32_t *path, size_t path_len,
                           const uint32_t *rings, size_t rings_len,
                           uint64_t *state, size_t state_len,
                           size_t n,
                           uint64_t *report, size_t report_len);

/* The graph in its final form, in the builder's own table of atoms and in a table of bonds, two words for each entry held: 17,
 * 3, 4, or 0 with the numbers of atoms and of bond entries. After a refusal both tables hold zeros. */
void mavisdrok_builder_build(uint32_t *atoms, size_t atoms_len,
                             uint32_t *bonds, size_t bonds_len,
                             const uint32_t *entries, size_t entries_len,
                             const uint32_t *path, size_t path_len,
                             const uint32_t *rings, size_t rings_len,
                             const uint64_t *state, size_t state_len,
                             uint64_t *report, size_t report_len);

/* ---- A writer
 *
 * out: the bytes of the line; starts: a word a piece; state: two words, two zeros to begin with. The events answer 17, 18, 19,
 * 13 with the pieces held, 16 with the bytes that the line would have, or 0 with the bytes that it has. An event that is not
 * answered 0 changes nothing but the report.
 *
 * An event that is answered 0 where no piece was held leaves zeros after the line, whatever was there. A later one writes
 * nothing after the line that it makes and never makes it shorter, so the zeros stay, as long as nobody else writes there
 * (crates/desk_writer/specs/OnPieces.antt, Onward). They are not laid again with each event: a line would then cost its
 * length times the output's. */

/* A first atom of a component. */
void mavisdrok_writer_root(uint8_t *out, size_t out_len,
                           uint32_t *starts, size_t starts_len,
                           uint64_t *state, size_t state_len,
                           uint32_t first, uint32_t second,
                           uint64_t *report, size_t report_len);

/* An atom bonded to the one before. */
void mavisdrok_writer_extend(uint8_t *out, size_t out_len,
                             uint32_t *starts, size_t starts_len,
                             uint64_t *state, size_t state_len,
                             uint32_t bond, uint32_t first, uint32_t second,
                             uint64_t *report, size_t report_len);

/* A ring number at the last piece. */
void mavisdrok_writer_join(uint8_t *out, size_t out_len,
                           uint32_t *starts, size_t starts_len,
                           uint64_t *state, size_t state_len,
                           uint32_t bond, mavisdrok_rnum number,
                           uint64_t *report, size_t report_len);

/* The last n pieces, put in brackets onto the piece before. */
void mavisdrok_writer_pop(uint8_t *out, size_t out_len,
                          uint32_t *starts, size_t starts_len,
                          uint64_t *state, size_t state_len,
                          size_t n,
                          uint64_t *report, size_t report_len);

/* ---- The pool: a ring number for the pair of two atoms, opened by the first call for it and closed by the next.
 *
 * pairs: three hundred words, all zero to begin with; state: two words, 1 and 0 to begin with. 17, 11 with the two atoms, or 0
 * with the number. A call that is not answered 0 changes nothing but the report. */
void mavisdrok_pool_hit(uint32_t *pairs, size_t pairs_len,
                        uint64_t *state, size_t state_len,
                        uint32_t a, uint32_t b,
                        uint64_t *report, size_t report_len);

/* ---- One atom, bond or ring number as text */

/* The atom that a text begins with: 17 where fewer than two words are lent for its kind, 1, 2 with a place, or 0 with the
 * place after it and its two words in kind, with zeros after them. After a refusal kind holds zeros. */
void mavisdrok_read_atom(const uint8_t *text, size_t text_len,
                         uint32_t *kind, size_t kind_len,
                         uint64_t *report, size_t report_len);

/* The text of an atom, a bond, a ring number: 17, 16 with the bytes that it needs, or 0 with the bytes written, and zeros
 * after them. After a refusal the output holds zeros. */
void mavisdrok_spell_atom(uint8_t *out, size_t out_len, uint32_t first, uint32_t second,
                          uint64_t *report, size_t report_len);

void mavisdrok_spell_bond(uint8_t *out, size_t out_len, uint32_t bond,
                          uint64_t *report, size_t report_len);

void mavisdrok_spell_rnum(uint8_t *out, size_t out_len, mavisdrok_rnum number,
                          uint64_t *report, size_t report_len);

/* ---- What the words say
 *
 * These functions are in this header alone: the library has proved code, and its version. */

/* The name of one of the desk's numbers. */
static inline const char *mavisdrok_name(uint64_t number)
{
    static const char *const names[] = {
        "Done", "EndOfLine", "Character", "Join", "Rnum", "UnknownTarget", "Loop", "HalfBond", "DuplicateBond",
        "IncompatibleBond", "Inversion", "RingNumbers", "TextTooLong", "AtomRoom", "BondRoom", "Nesting", "OutRoom",
        "BadTable", "NoAtom", "Overpop"
    };
    return number <= MAVISDROK_OVERPOP ? names[number] : "NoSuchNumber";
}

/* What a field of an atom holds where there is none: no isotope, number of hydrogens, charge or map is this number. */
#define MAVISDROK_NONE (-1000)

/* An atom. A charge of 0, 0 hydrogens and isotope 0 are written in the line, and are not the same as none. */
struct mavisdrok_atom {
    int bracket;        /* whether it is in brackets; if not, each field below is none */
    const char *symbol; /* "*", an element, or as b c n o p s se where it is aromatic */
    int isotope;        /* 0 to 999 */
    int configuration;  /* 0 for none; mavisdrok_configuration names the others */
    int hydrogens;      /* 0 to 9 */
    int charge;         /* -15 to 15 */
    int map;            /* 0 to 999 */
    uint32_t entries;   /* how many bond entries it has: they follow those of the atoms before it */
};

/* An entry of a bond, one of its two. */
struct mavisdrok_bond {
    int kind;        /* MAVISDROK_ELIDED to MAVISDROK_DOWN */
    uint32_t target; /* the number of the other atom, from 0 */
};

/* The numbers of docs/PACKING.md: the first of each sort of atom, and the room of each field but the last of a word. */
#define MAVISDROK_FIRST_ALIPHATIC 2
#define MAVISDROK_FIRST_AROMATIC 14
#define MAVISDROK_FIRST_BRACKET 20
#define MAVISDROK_SYMBOLS 127
#define MAVISDROK_CONFIGURATIONS 58
#define MAVISDROK_KIND_ROOM 256
#define MAVISDROK_NUMBER_ROOM 1001
#define MAVISDROK_CHARGE_ROOM 32
#define MAVISDROK_NO_NUMBER 1000
#define MAVISDROK_NO_HYDROGENS 10
#define MAVISDROK_NO_CHARGE 31
#define MAVISDROK_CHARGE_ZERO 15

/* The name of a configuration, "TH1" to "OH30", "" for none and for a number that is none. */
static inline const char *mavisdrok_configuration(int configuration)
{
    static const char *const names[] = {
        "", "TH1", "TH2", "AL1", "AL2", "SP1", "SP2", "SP3", "TB1", "TB2", "TB3", "TB4", "TB5", "TB6", "TB7", "TB8", "TB9",
        "TB10", "TB11", "TB12", "TB13", "TB14", "TB15", "TB16", "TB17", "TB18", "TB19", "TB20", "OH1", "OH2", "OH3", "OH4",
        "OH5", "OH6", "OH7", "OH8", "OH9", "OH10", "OH11", "OH12", "OH13", "OH14", "OH15", "OH16", "OH17", "OH18", "OH19",
        "OH20", "OH21", "OH22", "OH23", "OH24", "OH25", "OH26", "OH27", "OH28", "OH29", "OH30"
    };
    return 0 < configuration && configuration < MAVISDROK_CONFIGURATIONS ? names[configuration] : "";
}

/* The name of a symbol of a bracket atom, below MAVISDROK_SYMBOLS: the names in the order of a dictionary. */
static inline const char *mavisdrok_symbol(uint32_t symbol)
{
    static const char *const names[] = {
        "*", "Ac", "Ag", "Al", "Am", "Ar", "As", "At", "Au", "B", "Ba", "Be", "Bh", "Bi", "Bk", "Br", "C",
        "Ca", "Cd", "Ce", "Cf", "Cl", "Cm", "Cn", "Co", "Cr", "Cs", "Cu", "Db", "Ds", "Dy", "Er", "Es", "Eu",
        "F", "Fe", "Fl", "Fm", "Fr", "Ga", "Gd", "Ge", "H", "He", "Hf", "Hg", "Ho", "Hs", "I", "In", "Ir",
        "K", "Kr", "La", "Li", "Lr", "Lu", "Lv", "Mc", "Md", "Mg", "Mn", "Mo", "Mt", "N", "Na", "Nb", "Nd",
        "Ne", "Nh", "Ni", "No", "Np", "O", "Og", "Os", "P", "Pa", "Pb", "Pd", "Pm", "Po", "Pr", "Pt", "Pu",
        "Ra", "Rb", "Re", "Rf", "Rg", "Rh", "Rn", "Ru", "S", "Sb", "Sc", "Se", "Sg", "Si", "Sm", "Sn", "Sr",
        "Ta", "Tb", "Tc", "Te", "Th", "Ti", "Tl", "Tm", "Ts", "U", "V", "W", "Xe", "Y", "Yb", "Zn", "Zr",
        "as", "b", "c", "n", "o", "p", "s", "se"
    };
    return names[symbol];
}

/* An atom without brackets: its number, below MAVISDROK_FIRST_BRACKET, is not 0. */
static inline const char *mavisdrok_plain_symbol(uint32_t kind)
{
    static const char *const names[] = {
        "", "*", "B", "C", "N", "O", "S", "P", "F", "Cl", "Br", "I", "At", "Ts", "b", "c", "n", "o", "p", "s"
    };
    return names[kind];
}

/* The atom that the two words of its kind stand for: 1, or 0 where they stand for none; then nothing is told. */
static inline int mavisdrok_unpack_kind(const uint32_t *kind, struct mavisdrok_atom *atom)
{
    uint32_t rest = kind[0] / MAVISDROK_KIND_ROOM, isotope = rest % MAVISDROK_NUMBER_ROOM;
    uint32_t hydrogens = rest / MAVISDROK_NUMBER_ROOM / MAVISDROK_CONFIGURATIONS;
    uint32_t symbol = kind[0] % MAVISDROK_KIND_ROOM, charge = kind[1] % MAVISDROK_CHARGE_ROOM;
    uint32_t map = kind[1] / MAVISDROK_CHARGE_ROOM;
    int bracket = kind[0] >= MAVISDROK_FIRST_BRACKET;

    if (!bracket && (kind[0] == 0 || kind[1] != 0))
        return 0;
    if (bracket && (symbol < MAVISDROK_FIRST_BRACKET || symbol >= MAVISDROK_FIRST_BRACKET + MAVISDROK_SYMBOLS ||
                    hydrogens > MAVISDROK_NO_HYDROGENS || map > MAVISDROK_NO_NUMBER))
        return 0;
    atom->bracket = bracket;
    atom->symbol = bracket ? mavisdrok_symbol(symbol - MAVISDROK_FIRST_BRACKET) : mavisdrok_plain_symbol(kind[0]);
    atom->isotope = bracket && isotope != MAVISDROK_NO_NUMBER ? (int)isotope : MAVISDROK_NONE;
    atom->configuration = (int)(rest / MAVISDROK_NUMBER_ROOM % MAVISDROK_CONFIGURATIONS);
    atom->hydrogens = bracket && hydrogens != MAVISDROK_NO_HYDROGENS ? (int)hydrogens : MAVISDROK_NONE;
    atom->charge = bracket && charge != MAVISDROK_NO_CHARGE ? (int)charge - MAVISDROK_CHARGE_ZERO : MAVISDROK_NONE;
    atom->map = bracket && map != MAVISDROK_NO_NUMBER ? (int)map : MAVISDROK_NONE;
    atom->entries = 0;
    return 1;
}

/* The atom of the three words of its record. */
static inline int mavisdrok_unpack_atom(const uint32_t *record, struct mavisdrok_atom *atom)
{
    if (!mavisdrok_unpack_kind(record, atom))
        return 0;
    atom->entries = record[MAVISDROK_KIND_WORDS];
    return 1;
}

/* The bond entry of the two words of its record: 1, or 0 where they stand for none; then nothing is told. */
static inline int mavisdrok_unpack_bond(const uint32_t *record, struct mavisdrok_bond *bond)
{
    if (record[0] < MAVISDROK_ELIDED || record[0] > MAVISDROK_DOWN)
        return 0;
    bond->kind = (int)record[0];
    bond->target = record[1];
    return 1;
}

#ifdef __cplusplus
}
#endif

#endif
