#include "lent.h"

#include <stdlib.h>
#include <string.h>

size_t guard = 64;
unsigned long checks, failures;

const struct sizes5 enough = {
    VUMNEATH_LEND_GATES, VUMNEATH_LEND_PINS, VUMNEATH_LEND_OUTPUTS, VUMNEATH_LEND_GATES, VUMNEATH_LEND_PINS,
};
const struct sizes5 one_more = {
    VUMNEATH_LEND_GATES + 1, VUMNEATH_LEND_PINS + 1, VUMNEATH_LEND_OUTPUTS + 1, VUMNEATH_LEND_GATES + 1, VUMNEATH_LEND_PINS + 1,
};

enum { GUARD_BYTE = 0x5c };

void check(bool holds, const char *what, unsigned long place)
{
    checks++;
    if (holds)
        return;
    failures++;
    if (failures <= 20)
        printf("FAILED: %s, at %lu\n", what, place);
}

struct lent lend(size_t bytes, uint8_t fill)
{
    struct lent lent = { malloc(bytes + 2 * guard), NULL, bytes };
    if (!lent.block && bytes + guard) {
        printf("no memory for %zu bytes\n", bytes);
        exit(2);
    }
    lent.part = lent.block + guard;
    memset(lent.block, GUARD_BYTE, guard);
    memset(lent.part, fill, bytes);
    memset(lent.part + bytes, GUARD_BYTE, guard);
    return lent;
}

struct lent lend_copy(const void *bytes, size_t count)
{
    struct lent lent = lend(count, 0);
    if (count)
        memcpy(lent.part, bytes, count);
    return lent;
}

void take_back(struct lent *lent, unsigned long place)
{
    bool same = true;
    for (size_t i = 0; i < guard; i++)
        same = same && lent->block[i] == GUARD_BYTE && lent->part[lent->bytes + i] == GUARD_BYTE;
    check(same, "the bytes around a buffer are unchanged", place);
    free(lent->block);
}

uint32_t *cells(const struct lent *lent)
{
    return (uint32_t *)(void *)lent->part;
}

size_t cell_count(const struct lent *lent)
{
    return lent->bytes / sizeof(uint32_t);
}

bool all_zero(const struct lent *lent, size_t from)
{
    if (from >= lent->bytes)
        return from == lent->bytes;
    return lent->part[from] == 0 && memcmp(lent->part + from, lent->part + from + 1, lent->bytes - from - 1) == 0;
}

struct cells5 lend_cells(struct sizes5 sizes)
{
    struct cells5 lent = {
        lend(sizes.gates * sizeof(uint32_t), 0xff), lend(sizes.pins * sizeof(uint32_t), 0xff),
        lend(sizes.outputs * sizeof(uint32_t), 0xff), lend(sizes.work_gates * sizeof(uint32_t), 0xff),
        lend(sizes.work_pins * sizeof(uint32_t), 0xff),
    };
    return lent;
}

void take_back_cells(struct cells5 *lent, unsigned long place)
{
    take_back(&lent->gates, place);
    take_back(&lent->pins, place);
    take_back(&lent->outputs, place);
    take_back(&lent->work_gates, place);
    take_back(&lent->work_pins, place);
}

vumneath_network read_lent(const struct lent *text, const struct cells5 *lent)
{
    make_undefined(&lent->gates);
    make_undefined(&lent->pins);
    make_undefined(&lent->outputs);
    make_undefined(&lent->work_gates);
    make_undefined(&lent->work_pins);
    vumneath_network net = vumneath_read_blif(text->part, text->bytes, cells(&lent->gates), cell_count(&lent->gates), cells(&lent->pins),
        cell_count(&lent->pins), cells(&lent->outputs), cell_count(&lent->outputs), cells(&lent->work_gates),
        cell_count(&lent->work_gates), cells(&lent->work_pins), cell_count(&lent->work_pins));
    check_defined(&net, sizeof net, "the reader's answer is defined");
    check_defined(lent->gates.part, lent->gates.bytes, "the gate cells are defined");
    check_defined(lent->pins.part, lent->pins.bytes, "the pin cells are defined");
    check_defined(lent->outputs.part, lent->outputs.bytes, "the output cells are defined");
    check_defined(lent->work_gates.part, lent->work_gates.bytes, "the working gate cells are defined");
    check_defined(lent->work_pins.part, lent->work_pins.bytes, "the working pin cells are defined");
    return net;
}

void check_left(vumneath_network net, const struct cells5 *lent, unsigned long place)
{
    bool known = net.refused <= VUMNEATH_REFUSED_COMBINATIONAL_LOOP || net.refused == VUMNEATH_REFUSED_WRONG_START;
    check(known, "a reader's refusal is 1 to 14 or 34", place);
    if (net.refused)
        check(!net.inputs && !net.gates && !net.pins && !net.outputs, "counts are zero after a refusal", place);
    check(net.inputs <= VUMNEATH_MAX_INPUTS, "inputs are within the sizes", place);
    check(all_zero(&lent->gates, (size_t)net.gates * VUMNEATH_GATE_CELLS * sizeof(uint32_t)), "gate cells beyond are zero", place);
    check(all_zero(&lent->pins, (size_t)net.pins * sizeof(uint32_t)), "pin cells beyond are zero", place);
    check(all_zero(&lent->outputs, (size_t)net.outputs * sizeof(uint32_t)), "output cells beyond are zero", place);
    check(all_zero(&lent->work_gates, 0), "working gate cells are zero", place);
    check(all_zero(&lent->work_pins, 0), "working pin cells are zero", place);
}

uint32_t read_checked(const void *text, size_t length, struct sizes5 sizes, unsigned long place)
{
    struct lent bytes = lend_copy(text, length);
    struct cells5 lent = lend_cells(sizes);
    vumneath_network net = read_lent(&bytes, &lent);
    check_left(net, &lent, place);
    check(length == 0 || memcmp(bytes.part, text, length) == 0, "the text is unchanged", place);
    take_back_cells(&lent, place);
    take_back(&bytes, place);
    return net.refused;
}

vumneath_text write_lent(const struct network *net, const struct lent *out)
{
    make_undefined(out);
    vumneath_text text = vumneath_write_blif(net->inputs, net->gate_count, net->pin_count, net->output_count, cells(&net->gates),
        cell_count(&net->gates), cells(&net->pins), cell_count(&net->pins), cells(&net->outputs), cell_count(&net->outputs),
        out->part, out->bytes);
    check_defined(&text, sizeof text, "the writer's answer is defined");
    check_defined(out->part, out->bytes, "the output slice is defined");
    return text;
}

vumneath_rows run_lent(const struct network *net, const struct lent *rows, const struct lent *out)
{
    make_undefined(out);
    vumneath_rows ran = vumneath_run(net->inputs, net->gate_count, net->pin_count, net->output_count, cells(&net->gates),
        cell_count(&net->gates), cells(&net->pins), cell_count(&net->pins), cells(&net->outputs), cell_count(&net->outputs),
        rows->part, rows->bytes, out->part, out->bytes);
    check_defined(&ran.refused, sizeof ran.refused, "a run's refusal is defined"); /* field by field: four bytes between them are padding */
    check_defined(&ran.length, sizeof ran.length, "a run's length is defined");
    check_defined(out->part, out->bytes, "the slice of a run is defined");
    return ran;
}

size_t record_cell(size_t gate, size_t place)
{
    return gate * VUMNEATH_GATE_CELLS + place;
}

size_t lay_records(uint32_t *to, const struct gate *gates, size_t count)
{
    uint32_t first = 0;
    memset(to, 0, record_cell(count, 0) * sizeof *to);
    for (size_t g = 0; g < count; g++) {
        to[record_cell(g, VUMNEATH_RECORD_FORM)] = gates[g].form;
        to[record_cell(g, VUMNEATH_RECORD_FIRST)] = first;
        to[record_cell(g, VUMNEATH_RECORD_COUNT)] = gates[g].pins;
        to[record_cell(g, VUMNEATH_RECORD_START)] = gates[g].start;
        first += gates[g].pins;
    }
    return record_cell(count, 0);
}

struct lent lend_records(const struct gate *gates, size_t count, size_t more)
{
    struct lent lent = lend(record_cell(count + more, 0) * sizeof(uint32_t), 0);
    for (size_t i = lay_records(cells(&lent), gates, count); i < cell_count(&lent); i++)
        cells(&lent)[i] = 99;
    return lent;
}

struct gate gate_of(uint32_t form, uint32_t start)
{
    bool two = form == VUMNEATH_AND_2 || form == VUMNEATH_XOR_2, one = form == VUMNEATH_BUF;
    return (struct gate){ form, one ? 1 : two ? 2 : 3, start };
}

struct network network_of(const struct gate *gates, uint32_t count)
{
    struct network net = { 1, count, 0, 1, lend_records(gates, count, 0), { 0 }, lend(sizeof(uint32_t), 0) };
    for (uint32_t g = 0; g < count; g++)
        net.pin_count += gates[g].pins;
    net.pins = lend(net.pin_count * sizeof(uint32_t), 0);
    uint32_t *pin = cells(&net.pins);
    for (uint32_t g = 0; g < count; pin += gates[g++].pins) {
        for (uint32_t p = 0; p < gates[g].pins; p++)
            pin[p] = VUMNEATH_INPUT(0);
        if (gates[g].form == VUMNEATH_DFF) {
            pin[VUMNEATH_DFF_ENABLE] = VUMNEATH_ONE;
            pin[VUMNEATH_DFF_RESET] = VUMNEATH_ZERO;
        }
    }
    cells(&net.outputs)[0] = VUMNEATH_GATE(count - 1);
    return net;
}

uint32_t refused_by_write(const struct network *net)
{
    struct lent out = lend(VUMNEATH_MAX_TEXT, 0xa5);
    vumneath_text text = write_lent(net, &out);
    check(all_zero(&out, text.length) && (text.refused == 0 || text.length == 0), "bytes behind the text are zero", text.refused);
    take_back(&out, 0);
    return text.refused;
}

uint32_t refused_by_run(const struct network *net)
{
    const struct lent no_rows = { NULL, NULL, 0 };
    struct lent out = lend(VUMNEATH_MAX_TEXT, 0xa5);
    vumneath_rows ran = run_lent(net, &no_rows, &out);
    check(all_zero(&out, 0) && ran.length == 0, "no rows leave zeros", ran.refused);
    take_back(&out, 0);
    return ran.refused;
}

void take_back_network(struct network *net, unsigned long place)
{
    take_back(&net->gates, place);
    take_back(&net->pins, place);
    take_back(&net->outputs, place);
}

struct lent load(const char *path)
{
    FILE *file = fopen(path, "rb");
    if (!file || fseek(file, 0, SEEK_END) != 0) {
        printf("cannot read %s\n", path);
        exit(2);
    }
    struct lent all = lend((size_t)ftell(file), 0);
    rewind(file);
    if (fread(all.part, 1, all.bytes, file) != all.bytes) {
        printf("cannot read %s\n", path);
        exit(2);
    }
    fclose(file);
    return all;
}

uint32_t next_word(const struct lent *list, size_t *at)
{
    char digits[9] = "";
    if (*at + 9 > list->bytes) {
        printf("the list ends too early\n");
        exit(2);
    }
    memcpy(digits, list->part + *at, 8);
    *at += 9;
    return (uint32_t)strtoul(digits, NULL, 16);
}

size_t answer_start(const struct lent *answers, const char *word, unsigned long i, size_t from)
{
    char line[40];
    size_t length = (size_t)snprintf(line, sizeof line, "%s %lu\n", word, i);
    for (size_t at = from; at + length <= answers->bytes; at++)
        if ((at == 0 || answers->part[at - 1] == '\n') && memcmp(answers->part + at, line, length) == 0)
            return at;
    return answers->bytes;
}

static struct lent next_cells(const struct lent *list, size_t *at, uint32_t count)
{
    struct lent lent = lend(count * sizeof(uint32_t), 0);
    for (uint32_t i = 0; i < count; i++)
        cells(&lent)[i] = next_word(list, at);
    return lent;
}

/* The next count, two words with the upper one first. over: set where it takes more than 32 bits. */
static uint32_t next_count(const struct lent *list, size_t *at, bool *over)
{
    *over = next_word(list, at) != 0 || *over;
    return next_word(list, at);
}

struct network next_network(const struct lent *list, size_t *at, size_t *room, bool *over)
{
    struct network net = { 0 };
    net.inputs = next_count(list, at, over);
    net.gate_count = next_count(list, at, over);
    net.pin_count = next_count(list, at, over);
    net.output_count = next_count(list, at, over);
    *room = next_word(list, at);
    uint32_t gates = next_word(list, at), pins = next_word(list, at), outputs = next_word(list, at);
    net.gates = next_cells(list, at, gates);
    net.pins = next_cells(list, at, pins);
    net.outputs = next_cells(list, at, outputs);
    return net;
}

void compare_answer(const struct lent *answers, size_t at, size_t end, uint32_t refused, size_t length, const uint8_t *out,
    unsigned long i)
{
    char line[80];
    int head = refused ? snprintf(line, sizeof line, "network %lu\nrefused=%u\n", i, refused)
                       : snprintf(line, sizeof line, "network %lu\nlength=%zu\n", i, length);
    bool same = at + (size_t)head + length == end && memcmp(answers->part + at, line, (size_t)head) == 0
        && (length == 0 || memcmp(answers->part + at + head, out, length) == 0);
    check(same, "the stored answer for a network", i);
}
