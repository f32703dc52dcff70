/* Reads a netlist from standard input, lists its gates and writes it back.
 * Usage: example < netlist.blif. Status: 0 with a text, 1 with a refusal, 2 with a
 * library of another interface than the header's. */
#include "vumneath.h"

#include <stdio.h>

static uint8_t text[VUMNEATH_MAX_TEXT + 1], out[VUMNEATH_MAX_TEXT];
static uint32_t gates[VUMNEATH_LEND_GATES], pins[VUMNEATH_LEND_PINS], outputs[VUMNEATH_LEND_OUTPUTS];
static uint32_t work_gates[VUMNEATH_LEND_GATES], work_pins[VUMNEATH_LEND_PINS];

static const char *const names[] = {
    "", "And", "Xor", "And", "Xor", "Maj", "Mux", "And", "Or", "Nand", "Nor", "Xor", "Xnor", "Buf", "Dff",
};

static void print_signal(uint32_t s)
{
    if (VUMNEATH_IS_CONSTANT(s))
        printf("%u", s);
    else if (VUMNEATH_IS_INPUT(s))
        printf("%si%u", VUMNEATH_IS_INVERTED(s) ? "!" : "", VUMNEATH_INPUT_NUMBER(s));
    else
        printf("%sx%u", VUMNEATH_IS_INVERTED(s) ? "!" : "", VUMNEATH_GATE_NUMBER(s));
}

static void print_gate(uint32_t g)
{
    const uint32_t *record = gates + VUMNEATH_GATE_CELLS * g;
    printf("x%u = %s(", g, names[record[VUMNEATH_RECORD_FORM]]);
    for (uint32_t i = 0; i < record[VUMNEATH_RECORD_COUNT]; i++) {
        fputs(i ? ", " : "", stdout);
        print_signal(pins[record[VUMNEATH_RECORD_FIRST] + i]);
    }
    fputs(record[VUMNEATH_RECORD_START] ? ", start=1)\n" : ")\n", stdout);
}

int main(void)
{
    if (vumneath_interface() != VUMNEATH_INTERFACE)
        return fprintf(stderr, "the library has the interface %u, not %d\n", vumneath_interface(), VUMNEATH_INTERFACE), 2;
    size_t length = fread(text, 1, sizeof text, stdin);
    vumneath_network net = vumneath_read_blif(text, length, gates, VUMNEATH_LEND_GATES, pins, VUMNEATH_LEND_PINS,
        outputs, VUMNEATH_LEND_OUTPUTS, work_gates, VUMNEATH_LEND_GATES, work_pins, VUMNEATH_LEND_PINS);
    if (net.refused)
        return printf("refused=%u\n", net.refused), 1;
    printf("inputs: %u, gates: %u, outputs: %u\n", net.inputs, net.gates, net.outputs);
    for (uint32_t g = 0; g < net.gates; g++)
        print_gate(g);
    vumneath_text written = vumneath_write_blif(net.inputs, net.gates, net.pins, net.outputs, gates, VUMNEATH_LEND_GATES,
        pins, VUMNEATH_LEND_PINS, outputs, VUMNEATH_LEND_OUTPUTS, out, sizeof out);
    if (written.refused)
        return printf("refused=%u\n", written.refused), 1;
    fwrite(out, 1, written.length, stdout);
    return 0;
}
