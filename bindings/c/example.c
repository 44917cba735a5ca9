/* Reads a line and writes it again. From the project's root:
 *
 *     tools/archive
 *     cc -Ibindings/c bindings/c/example.c target/native/libmavisdrok.a -o target/native/example
 *     target/native/example 'C1CC[C@H]1F' */
#include "mavisdrok.h"

#include <stdio.h>
#include <string.h>

static uint32_t atoms[MAVISDROK_ATOMS * MAVISDROK_ATOM_WORDS];
static uint32_t bonds[MAVISDROK_BONDS * MAVISDROK_BOND_WORDS];
/* The longest line that there is. */
static uint8_t out[24 * MAVISDROK_ATOMS + 4 * MAVISDROK_BONDS];

int main(int argc, char **argv)
{
    uint64_t report[MAVISDROK_REPORT_WORDS];
    const char *line = argc > 1 ? argv[1] : "";

    mavisdrok_read((const uint8_t *)line, strlen(line), atoms, sizeof atoms / sizeof *atoms,
                   bonds, sizeof bonds / sizeof *bonds, report, MAVISDROK_REPORT_WORDS);
    if (report[0] == MAVISDROK_DONE)
        mavisdrok_write(atoms, sizeof atoms / sizeof *atoms, report[1], bonds, sizeof bonds / sizeof *bonds, report[2],
                        out, sizeof out, report, MAVISDROK_REPORT_WORDS);
    if (report[0] != MAVISDROK_DONE) {
        printf("refused: %s %u %u\n", mavisdrok_name(report[0]), (unsigned)report[1], (unsigned)report[2]);
        return 1;
    }
    printf("%.*s\n", (int)report[1], (const char *)out);
    return 0;
}
