/* Checks what mavisdrok.h says beside its calls: the names, the fields of atoms and bonds, that a slice of no cells may be lent
 * as a null pointer, and the stack that a call takes. From the project's root:
 *
 *     tools/archive
 *     cc -g -pthread -Ibindings/c bindings/c/check.c target/native/libmavisdrok.a -o target/native/check
 *     valgrind --error-exitcode=1 target/native/check crates/replay/data/lines.txt
 *
 * The arguments are lists of purr's stored answers: each line that is read there is read here, and its graph is put into the
 * list's form out of the unpacked fields. It ends with 1 at the first thing that is wrong. */
#include "mavisdrok.h"

#include <pthread.h>
#include <stdarg.h>
#include <stdio.h>
#include <stdlib.h>
#include <string.h>

#define LEN(t) (sizeof(t) / sizeof *(t))
#define LONGEST_ROW 65536

static void fail(const char *form, ...)
{
    va_list words;
    va_start(words, form);
    vprintf(form, words);
    va_end(words);
    printf("\n");
    exit(1);
}

static void *block(size_t bytes)
{
    void *b = malloc(bytes ? bytes : 1);
    if (!b)
        fail("no memory");
    memset(b, 0, bytes);
    return b;
}

/* ---- A graph in the form of the lists: oracle/README.md, "The text form". */

static char form[LONGEST_ROW];

static void add(const char *words, ...)
{
    size_t at = strlen(form);
    va_list rest;
    va_start(rest, words);
    vsnprintf(form + at, sizeof form - at, words, rest);
    va_end(rest);
}

static void add_field(int field)
{
    if (field == MAVISDROK_NONE)
        add(",~");
    else
        add(",%d", field);
}

static void add_atom(const struct mavisdrok_atom *atom)
{
    if (!atom->bracket) {
        add("%s", atom->symbol);
        return;
    }
    if (atom->isotope == MAVISDROK_NONE)
        add("[~,%s", atom->symbol);
    else
        add("[%d,%s", atom->isotope, atom->symbol);
    add(",%s", atom->configuration ? mavisdrok_configuration(atom->configuration) : "~");
    add_field(atom->hydrogens);
    add_field(atom->charge);
    add_field(atom->map);
    add("]");
}

static void add_graph(const uint32_t *atoms, size_t n, const uint32_t *bonds, size_t m)
{
    size_t next = 0;
    add("0 %zu %zu ", n, m);
    for (size_t i = 0; i < n; i++) {
        struct mavisdrok_atom atom;
        if (!mavisdrok_unpack_atom(atoms + i * MAVISDROK_ATOM_WORDS, &atom))
            fail("atom %zu stands for nothing", i);
        add("%s", i ? ";" : "");
        add_atom(&atom);
        for (uint32_t e = 0; e < atom.entries; e++, next++) {
            struct mavisdrok_bond bond;
            if (next >= m || !mavisdrok_unpack_bond(bonds + next * MAVISDROK_BOND_WORDS, &bond))
                fail("entry %zu stands for nothing", next);
            add(" %c%u", " e-=#$:/\\"[bond.kind], bond.target);
        }
    }
    if (next != m)
        fail("%zu entries of %zu were met", next, m);
}

/* The bytes that a list's text stands for, in place: `!hh` is a byte, `!-` the empty text. */
static size_t decode(char *text)
{
    size_t to = 0;
    for (size_t at = 0; text[at]; at++) {
        unsigned byte;
        if (text[at] == '!' && text[at + 1] == '-') {
            at++;
        } else if (text[at] == '!' && sscanf(text + at + 1, "%2x", &byte) == 1) {
            text[to++] = (char)byte;
            at += 2;
        } else {
            text[to++] = text[at];
        }
    }
    return to;
}

/* Reads the text of a row, into tables that end where they have to, and compares the answer. */
static void compare(char *text, const char *expected)
{
    static uint32_t atoms[MAVISDROK_ATOMS * MAVISDROK_ATOM_WORDS], bonds[MAVISDROK_BONDS * MAVISDROK_BOND_WORDS];
    uint64_t report[MAVISDROK_REPORT_WORDS];
    char *row = strdup(text);

    form[0] = 0;
    mavisdrok_read((const uint8_t *)text, decode(text), atoms, LEN(atoms), bonds, LEN(bonds), report, LEN(report));
    if (report[0] == MAVISDROK_DONE)
        add_graph(atoms, report[1], bonds, report[2]);
    else
        add("%d", (int)report[0]);
    /* What a refusal carries is compared by the other tests. */
    if (report[0] == MAVISDROK_DONE ? strcmp(form, expected) != 0 : strtoull(expected, NULL, 10) != report[0])
        fail("%s: %s, and the list has %s", row, form, expected);
    free(row);
}

static size_t list(const char *path)
{
    static char row[LONGEST_ROW];
    size_t compared = 0;
    FILE *file = fopen(path, "r");

    if (!file)
        fail("%s cannot be read", path);
    while (fgets(row, sizeof row, file)) {
        char *answer = strchr(row, '\t');
        row[strcspn(row, "\n")] = 0;
        if (!answer || strncmp(row, "read ", 5) != 0)
            continue;
        *answer = 0;
        /* The last column is ours. */
        compare(row + 5, strrchr(answer + 1, '\t') ? strrchr(answer + 1, '\t') + 1 : answer + 1);
        compared++;
    }
    fclose(file);
    return compared;
}

/* ---- Words that stand for an atom are those that the library spells. */

static void kinds(void)
{
    static const uint32_t seconds[] = {0, 1, 31, 32, 32000, 32031, 32032, UINT32_MAX};
    uint32_t some = 1;

    for (uint32_t i = 0; i < 200000; i++) {
        /* All small numbers, then numbers from all over. */
        uint32_t kind[] = {i < 1024 ? i : some, seconds[i % LEN(seconds)]};
        uint8_t out[21];
        uint64_t report[MAVISDROK_REPORT_WORDS];
        struct mavisdrok_atom atom;

        some = some * 1664525u + 1013904223u;
        if (i % 3 == 0)
            kind[0] %= 256u * 1001 * 58 * 11;
        mavisdrok_spell_atom(out, sizeof out, kind[0], kind[1], report, LEN(report));
        if (mavisdrok_unpack_kind(kind, &atom) != (report[0] != MAVISDROK_BAD_TABLE))
            fail("words %u %u: spelling answers %s", kind[0], kind[1], mavisdrok_name(report[0]));
    }
}

/* ---- No pointer where there are no cells: each call, with each choice of its slices empty, once with null pointers and once
 * with others, has to do the same. */

#define MOST 7

struct slice {
    void *at;
    size_t len, size;
};

struct call {
    const char *name;
    void (*make)(struct slice *s);
    /* The sizes of the cells of each slice. */
    size_t sizes[MOST];
};

#define L(i) s[i].at, s[i].len

static void call_read(struct slice *s) { mavisdrok_read(L(0), L(1), L(2), L(3)); }
static void call_write(struct slice *s) { mavisdrok_write(L(0), 2, L(1), 2, L(2), L(3)); }
static void call_order(struct slice *s) { mavisdrok_order(L(0), 2, L(1), 2, L(2), L(3), L(4), L(5)); }
static void call_start(struct slice *s) { mavisdrok_builder_start(L(0), L(1), L(2), L(3), L(4), L(5)); }
static void call_root(struct slice *s) { mavisdrok_builder_root(L(0), L(1), L(2), L(3), L(4), 3, 0, L(5)); }
static void call_extend(struct slice *s) { mavisdrok_builder_extend(L(0), L(1), L(2), L(3), L(4), 1, 3, 0, L(5)); }
static void call_join(struct slice *s) { mavisdrok_builder_join(L(0), L(1), L(2), L(3), L(4), 1, 1, L(5)); }
static void call_pop(struct slice *s) { mavisdrok_builder_pop(L(0), L(1), L(2), L(3), L(4), 1, L(5)); }
static void call_build(struct slice *s) { mavisdrok_builder_build(L(0), L(1), L(2), L(3), L(4), L(5), L(6)); }
static void call_told_root(struct slice *s) { mavisdrok_writer_root(L(0), L(1), L(2), 3, 0, L(3)); }
static void call_told_extend(struct slice *s) { mavisdrok_writer_extend(L(0), L(1), L(2), 1, 3, 0, L(3)); }
static void call_told_join(struct slice *s) { mavisdrok_writer_join(L(0), L(1), L(2), 1, 1, L(3)); }
static void call_told_pop(struct slice *s) { mavisdrok_writer_pop(L(0), L(1), L(2), 0, L(3)); }
static void call_hit(struct slice *s) { mavisdrok_pool_hit(L(0), L(1), 0, 1, L(2)); }
static void call_read_atom(struct slice *s) { mavisdrok_read_atom(L(0), L(1), L(2)); }
static void call_spell_atom(struct slice *s) { mavisdrok_spell_atom(L(0), 3, 0, L(1)); }
static void call_spell_bond(struct slice *s) { mavisdrok_spell_bond(L(0), 3, L(1)); }
static void call_spell_rnum(struct slice *s) { mavisdrok_spell_rnum(L(0), 42, L(1)); }

static const struct call calls[] = {
    {"read", call_read, {1, 4, 4, 8}},
    {"write", call_write, {4, 4, 1, 8}},
    {"order", call_order, {4, 4, 4, 4, 4, 8}},
    {"builder_start", call_start, {4, 4, 4, 4, 8, 8}},
    {"builder_root", call_root, {4, 4, 4, 4, 8, 8}},
    {"builder_extend", call_extend, {4, 4, 4, 4, 8, 8}},
    {"builder_join", call_join, {4, 4, 4, 4, 8, 8}},
    {"builder_pop", call_pop, {4, 4, 4, 4, 8, 8}},
    {"builder_build", call_build, {4, 4, 4, 4, 4, 8, 8}},
    {"writer_root", call_told_root, {1, 4, 8, 8}},
    {"writer_extend", call_told_extend, {1, 4, 8, 8}},
    {"writer_join", call_told_join, {1, 4, 8, 8}},
    {"writer_pop", call_told_pop, {1, 4, 8, 8}},
    {"pool_hit", call_hit, {4, 8, 8}},
    {"read_atom", call_read_atom, {1, 4, 8}},
    {"spell_atom", call_spell_atom, {1, 8}},
    {"spell_bond", call_spell_bond, {1, 8}},
    {"spell_rnum", call_spell_rnum, {1, 8}},
};

/* Cells for a call that goes through: two carbons, bonded, and a pool that has handed out nothing. Zeros do for the rest. */
static const uint32_t two_carbons[] = {3, 0, 1, 3, 0, 1}, one_bond[] = {1, 1, 1, 0};
static const uint64_t new_pool[] = {1, 0};

static void *copy(const void *from, size_t bytes)
{
    return memcpy(block(bytes), from, bytes);
}

/* The slice i of a call, with cells. */
static struct slice full(const struct call *c, size_t i)
{
    size_t size = c->sizes[i];
    int tables = c->make == call_write || c->make == call_order;

    if (c->make == call_hit && i == 1)
        return (struct slice){copy(new_pool, sizeof new_pool), LEN(new_pool), size};
    if (tables && i == 0)
        return (struct slice){copy(two_carbons, sizeof two_carbons), LEN(two_carbons), size};
    if (tables && i == 1)
        return (struct slice){copy(one_bond, sizeof one_bond), LEN(one_bond), size};
    if (size == 1)
        return (struct slice){copy("C1CC[C@H]1F......................", 32), c->make == call_read ? 11 : 32, size};
    return (struct slice){block(300 * size), 300, size};
}

/* What comes before a call: a builder's start, and a first atom for what needs one. */
static void before(const struct call *c, struct slice *s, size_t n)
{
    size_t first = c->make == call_build ? 1 : 0;
    struct slice of[] = {s[0], s[first + 1], s[first + 2], s[first + 3], s[first + 4], s[n - 1]};
    int told = strncmp(c->name, "writer_", 7) == 0, built = strncmp(c->name, "builder_", 8) == 0;

    if (told && c->make != call_told_root)
        call_told_root(s);
    if (built && c->make != call_start)
        call_start(of);
    if (built && c->make != call_start && c->make != call_root)
        call_root(of);
}

static size_t slices(const struct call *c)
{
    size_t n = 0;
    while (n < MOST && c->sizes[n])
        n++;
    return n;
}

/* The call with the slices of a choice empty: null, or one cell that may not be touched. */
static void lend(const struct call *c, struct slice *s, unsigned empty, int null)
{
    size_t n = slices(c);

    for (size_t i = 0; i < n; i++) {
        s[i] = full(c, i);
        if (!(empty >> i & 1))
            continue;
        free(s[i].at);
        s[i] = (struct slice){null ? NULL : block(0), 0, c->sizes[i]};
    }
    before(c, s, n);
    c->make(s);
}

static void same(const struct call *c, unsigned empty)
{
    struct slice with[MOST], without[MOST];
    size_t n = slices(c);

    lend(c, with, empty, 1);
    lend(c, without, empty, 0);
    /* With all its cells each call goes through, so that nothing here is refused for another reason. */
    if (empty == 0 && ((uint64_t *)with[n - 1].at)[0] != MAVISDROK_DONE)
        fail("%s is refused", c->name);
    for (size_t i = 0; i < n; i++) {
        if (with[i].len && memcmp(with[i].at, without[i].at, with[i].len * with[i].size) != 0)
            fail("%s, slices %x empty: slice %zu differs", c->name, empty, i);
        free(with[i].at);
        free(without[i].at);
    }
}

static void nulls(void)
{
    for (const struct call *c = calls; c < calls + LEN(calls); c++)
        for (unsigned empty = 0; empty < 1u << slices(c); empty++)
            same(c, empty);
}

/* ---- The line that takes most of the stack, in a thread that has no more than the header asks for. */

#define STACK (256 * 1024)
#define BRANCHES 128

static void *deepest(void *unused)
{
    static uint8_t text[3 * BRANCHES + 1], out[24 * (BRANCHES + 1) + 8 * BRANCHES];
    static uint32_t atoms[(BRANCHES + 1) * MAVISDROK_ATOM_WORDS], bonds[2 * BRANCHES * MAVISDROK_BOND_WORDS];
    static uint32_t order[3][BRANCHES + 1];
    uint64_t report[MAVISDROK_REPORT_WORDS];
    size_t n, m;

    (void)unused;
    for (size_t i = 0; i < BRANCHES; i++) {
        text[2 * i] = 'C';
        text[2 * i + 1] = '(';
        text[2 * BRANCHES + 1 + i] = ')';
    }
    text[2 * BRANCHES] = 'C';
    mavisdrok_read(text, sizeof text, atoms, LEN(atoms), bonds, LEN(bonds), report, LEN(report));
    n = report[1], m = report[2];
    if (report[0] != MAVISDROK_DONE || n != BRANCHES + 1 || m != 2 * BRANCHES)
        fail("the deepest line is answered %s", mavisdrok_name(report[0]));
    mavisdrok_write(atoms, LEN(atoms), n, bonds, LEN(bonds), m, out, sizeof out, report, LEN(report));
    if (report[0] != MAVISDROK_DONE || report[1] != n)
        fail("the deepest graph is answered %s", mavisdrok_name(report[0]));
    mavisdrok_order(atoms, LEN(atoms), n, bonds, LEN(bonds), m, order[0], n, order[1], n, order[2], n, report, LEN(report));
    if (report[0] != MAVISDROK_DONE)
        fail("its order is answered %s", mavisdrok_name(report[0]));
    return NULL;
}

static void stack(void)
{
    pthread_attr_t small;
    pthread_t thread;

    if (pthread_attr_init(&small) || pthread_attr_setstacksize(&small, STACK) || pthread_create(&thread, &small, deepest, NULL))
        fail("no thread with %d bytes of stack", STACK);
    pthread_join(thread, NULL);
}

int main(int argc, char **argv)
{
    size_t compared = 0;

    for (uint64_t i = 0; i <= MAVISDROK_OVERPOP + 1; i++)
        printf("%d %s\n", (int)i, mavisdrok_name(i));
    if (strcmp(mavisdrok_version(), MAVISDROK_VERSION) != 0)
        fail("the library is of version %s, the header of %s", mavisdrok_version(), MAVISDROK_VERSION);
    kinds();
    nulls();
    stack();
    for (int i = 1; i < argc; i++)
        compared += list(argv[i]);
    printf("%zu calls take no pointer where there are no cells, %zu lines compared\n", LEN(calls), compared);
    return argc > 1 && compared == 0;
}
