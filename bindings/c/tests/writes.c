/* Replays the stored networks and compares with the stored answers; then calls the writer by hand. */
#include "lent.h"

#include <stdlib.h>
#include <string.h>

/* Writes a network into a dirty slice and checks what is left; the answer is the refusal's number. length: the text's. */
static uint32_t write_checked(struct network net, size_t room, uint32_t *length, unsigned long place)
{
    struct lent gates = lend_copy(net.gates.part, net.gates.bytes), pins = lend_copy(net.pins.part, net.pins.bytes);
    struct lent outputs = lend_copy(net.outputs.part, net.outputs.bytes), out = lend(room, 0xa5);
    vumneath_text text = write_lent(&net, &out);
    check(text.refused == 0 || (text.refused >= 20 && text.refused <= 22), "a writer's refusal is 20, 21 or 22", place);
    check(text.length <= room && (!text.refused || !text.length), "the length is within the slice, and 0 after a refusal", place);
    check(all_zero(&out, text.length), "bytes behind the text are zero", place);
    check(memcmp(gates.part, net.gates.part, gates.bytes) == 0 && memcmp(pins.part, net.pins.part, pins.bytes) == 0
        && memcmp(outputs.part, net.outputs.part, outputs.bytes) == 0, "the network is unchanged", place);
    take_back(&gates, place);
    take_back(&pins, place);
    take_back(&outputs, place);
    take_back(&out, place);
    *length = text.length;
    return text.refused;
}

/* Writes one stored network, once more into a slice of exactly the text's length, and once into one that is a byte short. */
static void replay_network(const struct network *net, size_t room, const struct lent *answers, size_t at, size_t end, unsigned long i)
{
    uint32_t length;
    struct lent out = lend(room, 0xa5);
    vumneath_text text = write_lent(net, &out);
    compare_answer(answers, at, end, text.refused, text.length, out.part, i);
    take_back(&out, i);
    check(write_checked(*net, room, &length, i) == text.refused && length == text.length, "a second writing answers the same", i);
    if (text.refused)
        return;
    check(write_checked(*net, text.length, &length, i) == 0, "a slice of the text's length is enough", i);
    check(write_checked(*net, text.length - 1, &length, i) == VUMNEATH_REFUSED_TEXT_DOES_NOT_FIT, "a byte less is 22", i);
}

void replay_writes(const char *networks, const char *stored, unsigned long step)
{
    struct lent list = load(networks), answers = load(stored);
    size_t at = 0, answer = answer_start(&answers, "network", 0, 0);
    unsigned long count = next_word(&list, &at), taken = 0, left_out = 0;
    for (unsigned long i = 0; i < count; i++) {
        bool over = false;
        size_t room, end = answer_start(&answers, "network", i + 1, answer);
        struct network net = next_network(&list, &at, &room, &over);
        if (i % step == 0 && !over)
            replay_network(&net, room, &answers, answer, end, i);
        taken += i % step == 0 && !over;
        left_out += i % step == 0 && over;
        answer = end;
        take_back_network(&net, i);
    }
    check(at == list.bytes, "the list of networks was read to its end", at);
    take_back(&list, count);
    take_back(&answers, count);
    printf("writing: %lu of %lu stored networks; %lu left out, a count over 32 bits cannot be passed\n", taken, count, left_out);
}

/* x0 = Dff(x3, i1, !i0), x1 = Xor(i0, !i1), x2 = Mux(x0, x1, 1), x3 = Or(x1, !x2); outputs x3, !x2. */
static const struct gate good_gates[] = { { VUMNEATH_DFF, 3, 0 }, { VUMNEATH_XOR_2, 2, 0 }, { VUMNEATH_MUX, 3, 0 }, { VUMNEATH_OR, 2, 0 } };
static const uint32_t good_pins[] = {
    VUMNEATH_GATE(3), VUMNEATH_INPUT(1), VUMNEATH_INPUT(0) | VUMNEATH_INVERTED, VUMNEATH_INPUT(0), VUMNEATH_INPUT(1) | 1,
    VUMNEATH_GATE(0), VUMNEATH_GATE(1), VUMNEATH_ONE, VUMNEATH_GATE(1), VUMNEATH_GATE(2) | VUMNEATH_INVERTED,
};
static const uint32_t good_outputs[] = { VUMNEATH_GATE(3), VUMNEATH_GATE(2) | VUMNEATH_INVERTED };

/* The cells of the network above. */
enum { GATES = 4 * VUMNEATH_GATE_CELLS, PINS = 10, OUTPUTS = 2 };

/* The network above with fewer cells of each kind than it has, if asked. */
static struct network good_network(size_t gates, size_t pins, size_t outputs)
{
    uint32_t records[GATES];
    struct network net = { 2, 4, 10, 2, { 0 }, { 0 }, { 0 } };
    lay_records(records, good_gates, 4);
    net.gates = lend_copy(records, gates * sizeof(uint32_t));
    net.pins = lend_copy(good_pins, pins * sizeof(uint32_t));
    net.outputs = lend_copy(good_outputs, outputs * sizeof(uint32_t));
    return net;
}

static uint32_t write_good(size_t gates, size_t pins, size_t outputs)
{
    uint32_t length;
    struct network net = good_network(gates, pins, outputs);
    uint32_t refused = write_checked(net, VUMNEATH_MAX_TEXT, &length, 0);
    take_back_network(&net, 0);
    return refused;
}

/* Every cell of the network changed: a refusal or a text, and nothing else is touched. */
static void call_damaged(void)
{
    static const uint32_t others[] = { 0, 1, 2, 3, 13, 14, 15, 256, 1024, 16384, 0x7fffffff, 0x80000000, 0xfffffffa, 0xffffffff };
    const size_t kinds = sizeof others / sizeof *others, behind = GATES + PINS;
    struct network net = good_network(GATES, PINS, OUTPUTS);
    for (size_t i = 0; i < (behind + OUTPUTS) * kinds; i++) {
        size_t place = i / kinds;
        uint32_t *cell = place < GATES ? cells(&net.gates) + place : place < behind ? cells(&net.pins) + place - GATES
            : cells(&net.outputs) + place - behind;
        uint32_t kept = *cell, length;
        *cell = others[i % kinds];
        write_checked(net, VUMNEATH_MAX_TEXT, &length, i);
        *cell = kept;
    }
    take_back_network(&net, 0);
}

/* Each count too large, up to the largest 32-bit number. */
static void call_counts(void)
{
    static const uint32_t others[] = { 11, 257, 1025, 16385, 0x40000001, 0x55555556, 0x80000000, 0xffffffff };
    struct network net = good_network(GATES, PINS, OUTPUTS);
    uint32_t *const counts[] = { &net.gate_count, &net.pin_count, &net.output_count, &net.inputs }, length;
    for (size_t i = 0; i < 4 * sizeof others / sizeof *others; i++) {
        uint32_t *count = counts[i % 4], kept = *count;
        *count = others[i / 4];
        bool fits = count == &net.inputs && *count <= VUMNEATH_MAX_INPUTS;
        check(write_checked(net, VUMNEATH_MAX_TEXT, &length, i) == (fits ? 0 : VUMNEATH_REFUSED_NOT_A_NETWORK), "a count too large is 20", i);
        *count = kept;
    }
    take_back_network(&net, 0);
}

/* One gate of a form with pins of input 0 and of input 10, whose names have two and three letters. */
static uint32_t write_wide(uint32_t form, uint32_t short_names, uint32_t long_names, size_t room, uint32_t *length)
{
    uint32_t count = short_names + long_names;
    struct gate gate = { form, count, 0 };
    struct network net = { 11, 1, count, 1, lend_records(&gate, 1, 0), lend(count * sizeof(uint32_t), 0), lend(sizeof(uint32_t), 0) };
    cells(&net.outputs)[0] = VUMNEATH_GATE(0);
    for (uint32_t i = 0; i < count; i++)
        cells(&net.pins)[i] = i < short_names ? VUMNEATH_INPUT(0) : VUMNEATH_INPUT(10);
    uint32_t refused = write_checked(net, room, length, count);
    take_back_network(&net, count);
    return refused;
}

/* A text of exactly 32,768 bytes, and one of a byte more: a pin of input 0 takes four bytes, one of input 10 five. */
static void call_longest(void)
{
    uint32_t length, none = 0;
    check(write_wide(VUMNEATH_AND, 0, 0, VUMNEATH_MAX_TEXT, &none) == 0, "an And of nothing", 0);
    uint32_t left = VUMNEATH_MAX_TEXT - none, tens = left % 4;
    check(write_wide(VUMNEATH_AND, (left - 5 * tens) / 4, tens, VUMNEATH_MAX_TEXT, &length) == 0, "the longest text", left);
    check(length == VUMNEATH_MAX_TEXT, "the longest text has 32,768 bytes", length);
    check(write_wide(VUMNEATH_AND, (left - 5 * tens) / 4 - 1, tens + 1, 2 * VUMNEATH_MAX_TEXT, &length) == VUMNEATH_REFUSED_TEXT_DOES_NOT_FIT,
        "a byte more is 22 in a slice with room", left);
    check(write_wide(VUMNEATH_AND, VUMNEATH_MAX_PINS, 0, VUMNEATH_MAX_TEXT, &length) == VUMNEATH_REFUSED_TEXT_DOES_NOT_FIT, "16,384 pins", 0);
    check(write_wide(VUMNEATH_AND, VUMNEATH_MAX_PINS + 1, 0, VUMNEATH_MAX_TEXT, &length) == VUMNEATH_REFUSED_NOT_A_NETWORK, "16,385 pins", 0);
    check(write_wide(VUMNEATH_XOR, 12, 0, 2 * VUMNEATH_MAX_TEXT, &length) != VUMNEATH_REFUSED_WIDE_EXCLUSIVE, "Xor of 12 inputs", 0);
    check(write_wide(VUMNEATH_XOR, 13, 0, 0, &length) == VUMNEATH_REFUSED_WIDE_EXCLUSIVE, "Xor of 13 inputs", 0);
    check(write_wide(VUMNEATH_XNOR, 13, 0, 0, &length) == VUMNEATH_REFUSED_WIDE_EXCLUSIVE, "Xnor of 13 inputs", 0);
}

/* The network with the largest counts: 256 inputs and outputs, 1,024 gates, all constants. */
static void call_largest(void)
{
    uint32_t length;
    struct gate gates[1024];
    for (uint32_t g = 0; g < 1024; g++)
        gates[g] = (struct gate){ VUMNEATH_BUF, 1, 0 };
    struct network net = { 256, 1024, 1024, 256, lend_records(gates, 1024, 0), lend(1024 * sizeof(uint32_t), 0),
        lend(256 * sizeof(uint32_t), 0) };
    check(write_checked(net, VUMNEATH_MAX_TEXT, &length, 0) == 0, "the largest counts are written", 0);
    net.gate_count = 1023;
    check(write_checked(net, VUMNEATH_MAX_TEXT, &length, 0) == VUMNEATH_REFUSED_NOT_A_NETWORK, "pins that no gate has are 20", 0);
    take_back_network(&net, 0);
}

static void call_null(void)
{
    const struct lent no_cells = { NULL, NULL, 0 };
    struct network net = { 0, 0, 0, 0, no_cells, no_cells, no_cells };
    struct lent out = lend(200, 0xa5);
    vumneath_text text = write_lent(&net, &no_cells);
    check(text.refused == VUMNEATH_REFUSED_TEXT_DOES_NOT_FIT && text.length == 0, "no room at all is 22", 0);
    text = write_lent(&net, &out);
    check(text.refused == 0 && text.length == 95, "null pointers of length 0 are the empty network", 0);
    net.gate_count = 1;
    text = write_lent(&net, &out);
    check(text.refused == VUMNEATH_REFUSED_NOT_A_NETWORK, "a gate without cells is 20", 0);
    take_back(&out, 0);
}

void call_writes(void)
{
    unsigned long before = checks;
    call_null();
    check(write_good(GATES, PINS, OUTPUTS) == 0, "slices with exactly enough cells", 0);
    check(write_good(GATES - 1, PINS, OUTPUTS) == VUMNEATH_REFUSED_NOT_A_NETWORK, "a gate cell short", 0);
    check(write_good(GATES, PINS - 1, OUTPUTS) == VUMNEATH_REFUSED_NOT_A_NETWORK, "a pin cell short", 0);
    check(write_good(GATES, PINS, OUTPUTS - 1) == VUMNEATH_REFUSED_NOT_A_NETWORK, "an output cell short", 0);
    call_damaged();
    call_counts();
    call_longest();
    call_largest();
    printf("writing by hand: %lu checks\n", checks - before);
}
