/* Measures the stack that each function takes: a thread runs on a painted stack and makes nothing but the calls. */
#define _POSIX_C_SOURCE 200809L
#include "lent.h"

#include <pthread.h>
#include <stdlib.h>
#include <string.h>

/* What the header says is enough. */
enum { STATED = 36 * 1024, STACK = 512 * 1024, PAINT = 0x6b };

static struct lent list;
static struct cells5 lent;
static uint8_t out[VUMNEATH_MAX_TEXT];

static void *no_call(void *unused)
{
    return unused;
}

/* Reads every stored text; where write is not null, it writes each network read and only that is left to compare. */
static void *call_all(void *write)
{
    size_t at = 0;
    unsigned long count = next_word(&list, &at);
    for (unsigned long i = 0; i < count; i++) {
        struct lent text = { NULL, NULL, next_word(&list, &at) };
        text.part = list.part + at;
        at += text.bytes;
        vumneath_network net = read_lent(&text, &lent);
        if (write)
            vumneath_write_blif(net.inputs, net.gates, net.pins, net.outputs, cells(&lent.gates), cell_count(&lent.gates),
                cells(&lent.pins), cell_count(&lent.pins), cells(&lent.outputs), cell_count(&lent.outputs), out, sizeof out);
    }
    return NULL;
}

/* Writes the network that is in the cells: an Xor of 11 inputs, a flip-flop with enable and reset, inverters for each input. */
static void *call_write(void *unused)
{
    static const struct gate gates[] = { { VUMNEATH_DFF, 3, 0 }, { VUMNEATH_XOR, 11, 0 } };
    uint32_t *gate = cells(&lent.gates), *pin = cells(&lent.pins);
    size_t length = lay_records(gate, gates, 2);
    for (uint32_t i = 0; i < 14; i++)
        pin[i] = VUMNEATH_INPUT(i + 200) | VUMNEATH_INVERTED;
    cells(&lent.outputs)[0] = VUMNEATH_GATE(1) | VUMNEATH_INVERTED;
    vumneath_text text = vumneath_write_blif(256, 2, 14, 1, gate, length, pin, 14, cells(&lent.outputs), 1, out, sizeof out);
    check(text.refused == 0, "the network for the stack's measure is written", text.refused);
    return unused;
}

/* Runs the network that is in the cells: a flip-flop, a gate of three inputs and one of many, for two rows. */
static void *call_run(void *unused)
{
    static const uint8_t rows[] = "0\n1\n";
    static const struct gate gates[] = { { VUMNEATH_DFF, 3, 1 }, { VUMNEATH_MUX, 3, 0 }, { VUMNEATH_XOR, 100, 0 } };
    uint32_t *gate = cells(&lent.gates), *pin = cells(&lent.pins);
    size_t length = lay_records(gate, gates, 3);
    memcpy(pin, (uint32_t[]){ VUMNEATH_GATE(2), VUMNEATH_ONE, VUMNEATH_ZERO }, 3 * sizeof *pin);
    for (uint32_t i = 3; i < 106; i++)
        pin[i] = i % 3 ? VUMNEATH_GATE(0) : VUMNEATH_INPUT(0);
    cells(&lent.outputs)[0] = VUMNEATH_GATE(1);
    vumneath_rows ran = vumneath_run(1, 3, 106, 1, gate, length, pin, 106, cells(&lent.outputs), 1, rows, sizeof rows - 1, out, sizeof out);
    check(ran.refused == 0, "the network for the stack's measure is run", ran.refused);
    return unused;
}

/* How many bytes of a painted stack a thread changes. */
static size_t depth(void *(*run)(void *), void *argument)
{
    uint8_t *stack = aligned_alloc(4096, STACK);
    pthread_attr_t attributes;
    pthread_t thread;
    size_t untouched = 0;
    memset(stack, PAINT, STACK);
    bool started = pthread_attr_init(&attributes) == 0 && pthread_attr_setstack(&attributes, stack, STACK) == 0
        && pthread_create(&thread, &attributes, run, argument) == 0 && pthread_join(thread, NULL) == 0;
    check(started, "a thread ran on the painted stack", 0);
    while (untouched < STACK && stack[untouched] == PAINT)
        untouched++;
    free(stack);
    return STACK - untouched;
}

void measure_stack(const char *texts)
{
    list = load(texts);
    lent = lend_cells(enough);
    call_all(out);
    size_t none = depth(no_call, NULL), reading = depth(call_all, NULL) - none, writing = depth(call_write, NULL) - none;
    size_t both = depth(call_all, out) - none, running = depth(call_run, NULL) - none;
    check(reading <= STATED && both <= STATED && writing <= STATED, "the stack in use is within what the header states", reading);
    check(running <= STATED, "the stack in use by a run is within what the header states", running);
    printf("stack: %zu bytes for reading, %zu for writing, %zu for running, callers' frames included; %d are stated as enough\n", reading,
        writing, running, STATED);
    take_back(&list, 0);
    take_back_cells(&lent, 0);
}
