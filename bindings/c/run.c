/* Runs a netlist for the rows of 0 and 1 on standard input, one for each clock, and prints a row of outputs for each.
 * Usage: run netlist.blif < rows. Status: 0 with rows, 1 with a refusal, 2 where
 * something cannot be read or written. */
#include "vumneath.h"

#include <stdio.h>
#include <stdlib.h>

static uint8_t text[VUMNEATH_MAX_TEXT + 1];
static uint32_t gates[VUMNEATH_LEND_GATES], pins[VUMNEATH_LEND_PINS], outputs[VUMNEATH_LEND_OUTPUTS];
static uint32_t work_gates[VUMNEATH_LEND_GATES], work_pins[VUMNEATH_LEND_PINS];

/* Reads the netlist of a file. */
static vumneath_network read_netlist(const char *path)
{
    FILE *file = fopen(path, "rb");
    if (!file) {
        perror(path);
        exit(2);
    }
    size_t length = fread(text, 1, sizeof text, file);
    if (ferror(file)) {
        perror(path);
        exit(2);
    }
    fclose(file);
    return vumneath_read_blif(text, length, gates, VUMNEATH_LEND_GATES, pins, VUMNEATH_LEND_PINS, outputs, VUMNEATH_LEND_OUTPUTS,
        work_gates, VUMNEATH_LEND_GATES, work_pins, VUMNEATH_LEND_PINS);
}

/* Memory of so many bytes, with what was in the old. */
static uint8_t *memory(uint8_t *old, size_t bytes)
{
    uint8_t *all = realloc(old, bytes + 1);
    if (!all) {
        fprintf(stderr, "no memory for %zu bytes\n", bytes);
        exit(2);
    }
    return all;
}

/* All bytes of standard input. */
static uint8_t *read_rows(size_t *length)
{
    size_t room = 4096, got;
    uint8_t *rows = memory(NULL, room);
    for (*length = 0; (got = fread(rows + *length, 1, room - *length, stdin)) > 0; *length += got)
        if (*length + got == room)
            rows = memory(rows, room *= 2);
    if (ferror(stdin)) {
        perror("standard input");
        exit(2);
    }
    return rows;
}

int main(int argc, char **argv)
{
    if (argc != 2)
        return fprintf(stderr, "usage: run netlist.blif < rows\n"), 2;
    vumneath_network net = read_netlist(argv[1]);
    if (net.refused)
        return printf("refused=%u\n", net.refused), 1;
    size_t length, clocks, room;
    uint8_t *rows = read_rows(&length);
    clocks = length / (net.inputs + 1);
    room = clocks * (net.outputs + 1);
    uint8_t *out = memory(NULL, room);
    vumneath_rows ran = vumneath_run(net.inputs, net.gates, net.pins, net.outputs, gates, VUMNEATH_LEND_GATES, pins, VUMNEATH_LEND_PINS,
        outputs, VUMNEATH_LEND_OUTPUTS, rows, length, out, room);
    if (ran.refused)
        printf("refused=%u\n", ran.refused);
    else if (fwrite(out, 1, ran.length, stdout) != ran.length || fflush(stdout))
        return perror("standard output"), 2;
    free(rows);
    free(out);
    return ran.refused != 0;
}
