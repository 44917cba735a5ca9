/* Builds a ring event by event, writes it, and tells a writer the same events. From the project's root:
 *
 *     tools/archive
 *     cc -Ibindings/c bindings/c/events.c target/native/libmavisdrok.a -o target/native/events
 *     target/native/events */
#include "mavisdrok.h"

#include <stdio.h>
#include <stdlib.h>
#include <string.h>

/* Room for the molecule at hand. */
#define PLACES 8
#define SLOTS 16

#define LEN(t) (sizeof(t) / sizeof *(t))

static uint64_t report[MAVISDROK_REPORT_WORDS];

/* A refusal ends the program. */
static void accepted(void)
{
    if (report[0] != MAVISDROK_DONE) {
        printf("refused: %s %u %u\n", mavisdrok_name(report[0]), (unsigned)report[1], (unsigned)report[2]);
        exit(1);
    }
}

/* The two words of the atom that a text begins with. */
static void atom(const char *text, uint32_t *kind)
{
    mavisdrok_read_atom((const uint8_t *)text, strlen(text), kind, MAVISDROK_KIND_WORDS, report, LEN(report));
    accepted();
}

static void build(const uint32_t *c, const uint32_t *o)
{
    static uint32_t atoms[PLACES * MAVISDROK_ATOM_WORDS], entries[SLOTS * MAVISDROK_ENTRY_WORDS], path[PLACES];
    static uint32_t rings[MAVISDROK_RINGS], bonds[SLOTS * MAVISDROK_BOND_WORDS];
    static uint8_t out[24 * PLACES + 4 * SLOTS];
    uint64_t state[MAVISDROK_BUILDER_WORDS];

    mavisdrok_builder_start(atoms, LEN(atoms), entries, LEN(entries), path, LEN(path), rings, LEN(rings),
                            state, LEN(state), report, LEN(report));
    accepted();
    mavisdrok_builder_root(atoms, LEN(atoms), entries, LEN(entries), path, LEN(path), rings, LEN(rings),
                           state, LEN(state), c[0], c[1], report, LEN(report));
    accepted();
    mavisdrok_builder_join(atoms, LEN(atoms), entries, LEN(entries), path, LEN(path), rings, LEN(rings),
                           state, LEN(state), MAVISDROK_ELIDED, 1, report, LEN(report));
    accepted();
    for (int i = 0; i < 2; i++) {
        mavisdrok_builder_extend(atoms, LEN(atoms), entries, LEN(entries), path, LEN(path), rings, LEN(rings),
                                 state, LEN(state), MAVISDROK_ELIDED, c[0], c[1], report, LEN(report));
        accepted();
    }
    mavisdrok_builder_extend(atoms, LEN(atoms), entries, LEN(entries), path, LEN(path), rings, LEN(rings),
                             state, LEN(state), MAVISDROK_DOUBLE, o[0], o[1], report, LEN(report));
    accepted();
    mavisdrok_builder_pop(atoms, LEN(atoms), entries, LEN(entries), path, LEN(path), rings, LEN(rings),
                          state, LEN(state), 1, report, LEN(report));
    accepted();
    mavisdrok_builder_join(atoms, LEN(atoms), entries, LEN(entries), path, LEN(path), rings, LEN(rings),
                           state, LEN(state), MAVISDROK_ELIDED, 1, report, LEN(report));
    accepted();
    mavisdrok_builder_build(atoms, LEN(atoms), bonds, LEN(bonds), entries, LEN(entries), path, LEN(path),
                            rings, LEN(rings), state, LEN(state), report, LEN(report));
    accepted();
    printf("%u atoms, %u bond entries: ", (unsigned)report[1], (unsigned)report[2]);
    mavisdrok_write(atoms, LEN(atoms), report[1], bonds, LEN(bonds), report[2], out, sizeof out, report, LEN(report));
    accepted();
    printf("%.*s\n", (int)report[1], (const char *)out);
}

static void tell(const uint32_t *c, const uint32_t *o)
{
    static uint8_t out[32];
    static uint32_t starts[PLACES];
    uint64_t state[MAVISDROK_WRITER_WORDS] = {0, 0};

    mavisdrok_writer_root(out, sizeof out, starts, LEN(starts), state, LEN(state), c[0], c[1], report, LEN(report));
    accepted();
    mavisdrok_writer_join(out, sizeof out, starts, LEN(starts), state, LEN(state), MAVISDROK_ELIDED, 1, report, LEN(report));
    accepted();
    for (int i = 0; i < 2; i++) {
        mavisdrok_writer_extend(out, sizeof out, starts, LEN(starts), state, LEN(state), MAVISDROK_ELIDED, c[0], c[1],
                                report, LEN(report));
        accepted();
    }
    mavisdrok_writer_extend(out, sizeof out, starts, LEN(starts), state, LEN(state), MAVISDROK_DOUBLE, o[0], o[1],
                            report, LEN(report));
    accepted();
    mavisdrok_writer_pop(out, sizeof out, starts, LEN(starts), state, LEN(state), 1, report, LEN(report));
    accepted();
    mavisdrok_writer_join(out, sizeof out, starts, LEN(starts), state, LEN(state), MAVISDROK_ELIDED, 1, report, LEN(report));
    accepted();
    printf("told as events: %.*s\n", (int)report[1], (const char *)out);
}

int main(void)
{
    uint32_t c[MAVISDROK_KIND_WORDS], o[MAVISDROK_KIND_WORDS];

    atom("C", c);
    atom("O", o);
    build(c, o);
    tell(c, o);
    return 0;
}
