/* Replays the stored networks with rows and compares with the stored answers; then calls vumneath_run by hand. */
#include "lent.h"

#include <stdlib.h>
#include <string.h>

enum { ROOM = 4096 };

/* Runs a network into a dirty slice of so many bytes and checks what is left; the answer is the refusal's number. What is left is copied
 * to ran, where it is not null. */
static uint32_t run_checked(const struct network *net, const void *text, size_t length, size_t room, void *ran, unsigned long place)
{
    struct lent gates = lend_copy(net->gates.part, net->gates.bytes), pins = lend_copy(net->pins.part, net->pins.bytes);
    struct lent outputs = lend_copy(net->outputs.part, net->outputs.bytes), rows = lend_copy(text, length), out = lend(room, 0xa5);
    vumneath_rows answer = run_lent(net, &rows, &out);
    bool known = answer.refused == 0 || answer.refused == 20 || (answer.refused >= 29 && answer.refused <= 31);
    check(known, "a run's refusal is 20 or 29 to 31", place);
    if (answer.refused)
        check(answer.length == 0, "the length is 0 after a refusal", place);
    else
        check(answer.length == length / (net->inputs + 1) * (net->output_count + 1), "a row of outputs for each row", place);
    check(answer.length <= room && all_zero(&out, answer.length), "bytes behind the rows are zero", place);
    check(memcmp(gates.part, net->gates.part, gates.bytes) == 0 && memcmp(pins.part, net->pins.part, pins.bytes) == 0
        && memcmp(outputs.part, net->outputs.part, outputs.bytes) == 0, "the network is unchanged by a run", place);
    check(length == 0 || memcmp(rows.part, text, length) == 0, "the rows are unchanged", place);
    if (ran && room)
        memcpy(ran, out.part, room);
    take_back(&gates, place);
    take_back(&pins, place);
    take_back(&outputs, place);
    take_back(&rows, place);
    take_back(&out, place);
    return answer.refused;
}

/* Runs one stored network, once more into a slice of exactly the rows' length, and once into one that is a byte short. */
static void replay_run(const struct network *net, const struct lent *rows, size_t room, const struct lent *answers, size_t at, size_t end,
    unsigned long i)
{
    struct lent out = lend(room, 0xa5);
    vumneath_rows ran = run_lent(net, rows, &out);
    compare_answer(answers, at, end, ran.refused, ran.length, out.part, i);
    take_back(&out, i);
    check(run_checked(net, rows->part, rows->bytes, room, NULL, i) == ran.refused, "a second run answers the same", i);
    if (ran.refused)
        return;
    check(run_checked(net, rows->part, rows->bytes, ran.length, NULL, i) == 0, "a slice of the rows' length is enough", i);
    if (ran.length)
        check(run_checked(net, rows->part, rows->bytes, ran.length - 1, NULL, i) == VUMNEATH_REFUSED_WRONG_ROWS, "a byte less is 31", i);
}

void replay_runs(const char *networks, const char *stored, unsigned long step)
{
    struct lent list = load(networks), answers = load(stored);
    size_t at = 0, answer = answer_start(&answers, "network", 0, 0);
    unsigned long count = next_word(&list, &at), taken = 0, left_out = 0;
    for (unsigned long i = 0; i < count; i++) {
        bool over = false;
        size_t room, end = answer_start(&answers, "network", i + 1, answer);
        struct network net = next_network(&list, &at, &room, &over);
        size_t length = next_word(&list, &at);
        struct lent rows = lend_copy(list.part + at, length);
        if (i % step == 0 && !over)
            replay_run(&net, &rows, room, &answers, answer, end, i);
        taken += i % step == 0 && !over;
        left_out += i % step == 0 && over;
        at += length;
        answer = end;
        take_back(&rows, i);
        take_back_network(&net, i);
    }
    check(at == list.bytes, "the list of networks with rows was read to its end", at);
    take_back(&list, count);
    take_back(&answers, count);
    printf("running: %lu of %lu stored networks; %lu left out, a count over 32 bits cannot be passed\n", taken, count, left_out);
}

/* The same for rows that are a C string, with room for more than is wanted. */
static uint32_t run_string(const struct network *net, const char *rows)
{
    return run_checked(net, rows, strlen(rows), ROOM, NULL, strlen(rows));
}

/* Whether rows give the rows wanted, both C strings: into a slice with room and one that is exactly full, but not into one a byte short. */
static bool gives(const struct network *net, const char *rows, const char *wanted)
{
    size_t length = strlen(rows), full = strlen(wanted);
    char *ran = calloc(full + ROOM + 1, 1);
    bool same = run_checked(net, rows, length, full + ROOM, ran, length) == 0 && strcmp(ran, wanted) == 0;
    memset(ran, 0, full + ROOM);
    same = same && run_checked(net, rows, length, full, ran, length) == 0 && strcmp(ran, wanted) == 0;
    if (full)
        same = same && run_checked(net, rows, length, full - 1, NULL, length) == VUMNEATH_REFUSED_WRONG_ROWS;
    free(ran);
    return same;
}

/* A network of so many gates, whose pins are still to be set; every gate has as many. */
static struct network uniform(uint32_t inputs, uint32_t gates, uint32_t form, uint32_t pins, uint32_t outputs)
{
    struct gate all[VUMNEATH_MAX_GATES];
    for (uint32_t g = 0; g < gates; g++)
        all[g] = (struct gate){ form, pins, 0 };
    struct network net = { inputs, gates, gates * pins, outputs, lend_records(all, gates, 0),
        lend((size_t)gates * pins * sizeof(uint32_t), 0), lend(outputs * sizeof(uint32_t), 0) };
    for (uint32_t i = 0; i < outputs; i++)
        cells(&net.outputs)[i] = gates ? VUMNEATH_GATE(gates - 1) : VUMNEATH_ZERO;
    return net;
}

/* x0 = And(i0, i1), x1 = Dff(x3, 1, 0), x2 = Xor(x0, x1), x3 = Or(x2, !i1), with the cells of one gate, one pin and one output more. */
static struct network good_network(void)
{
    static const struct gate gates[] = { { VUMNEATH_AND_2, 2, 0 }, { VUMNEATH_DFF, 3, 0 }, { VUMNEATH_XOR_2, 2, 0 }, { VUMNEATH_OR, 2, 0 } };
    static const uint32_t pins[] = {
        VUMNEATH_INPUT(0), VUMNEATH_INPUT(1), VUMNEATH_GATE(3), VUMNEATH_ONE, VUMNEATH_ZERO, VUMNEATH_GATE(0), VUMNEATH_GATE(1),
        VUMNEATH_GATE(2), VUMNEATH_INPUT(1) | VUMNEATH_INVERTED, VUMNEATH_GATE(99),
    };
    static const uint32_t outputs[] = {
        VUMNEATH_GATE(3), VUMNEATH_GATE(1) | VUMNEATH_INVERTED, VUMNEATH_INPUT(0), VUMNEATH_ONE, VUMNEATH_GATE(99),
    };
    struct network net = { 2, 4, 9, 4, lend_records(gates, 4, 1), lend_copy(pins, sizeof pins), lend_copy(outputs, sizeof outputs) };
    return net;
}

static const char good_rows[] = "00\n01\n11\n11\n10\n", good_answer[] = "1101\n1001\n0011\n1111\n1011\n";

/* Each form of up to three pins, the inputs; what it gives for 000, 001, 010 and so on to 111. */
static void call_forms(void)
{
    static const struct { uint32_t form, pins; const char *bits; } forms[] = {
        { 1, 2, "00000011" }, { 2, 2, "00111100" }, { 3, 3, "00000001" }, { 4, 3, "01101001" }, { 5, 3, "00010111" },
        { 6, 3, "01010011" }, { 7, 3, "00000001" }, { 8, 3, "01111111" }, { 9, 3, "11111110" }, { 10, 3, "10000000" },
        { 11, 3, "01101001" }, { 12, 3, "10010110" }, { 13, 1, "00001111" }, { 7, 1, "00001111" }, { 8, 1, "00001111" },
        { 9, 1, "11110000" }, { 10, 1, "11110000" }, { 11, 1, "00001111" }, { 12, 1, "11110000" }, { 7, 0, "11111111" },
        { 8, 0, "00000000" }, { 9, 0, "00000000" }, { 10, 0, "11111111" }, { 11, 0, "00000000" }, { 12, 0, "11111111" },
    };
    for (size_t i = 0; i < sizeof forms / sizeof *forms; i++) {
        char wanted[17] = "";
        struct network net = uniform(3, 1, forms[i].form, forms[i].pins, 1);
        for (uint32_t p = 0; p < forms[i].pins; p++)
            cells(&net.pins)[p] = VUMNEATH_INPUT(p);
        for (size_t row = 0; row < 8; row++)
            memcpy(wanted + 2 * row, (char[]){ forms[i].bits[row], '\n' }, 2);
        check(gives(&net, "000\n001\n010\n011\n100\n101\n110\n111\n", wanted), "what a form makes of its inputs", i);
        take_back_network(&net, i);
    }
}

/* A gate of so many pins, by turns input 0 and input 1, for the four rows. None is too wide here. */
static void call_wide(uint32_t pins)
{
    bool first_odd = (pins + 1) / 2 % 2 == 1, second_odd = pins / 2 % 2 == 1;
    char odd[] = { '0', '\n', second_odd ? '1' : '0', '\n', first_odd ? '1' : '0', '\n', first_odd != second_odd ? '1' : '0', '\n', 0 };
    char even[] = { '1', '\n', second_odd ? '0' : '1', '\n', first_odd ? '0' : '1', '\n', first_odd != second_odd ? '0' : '1', '\n', 0 };
    const char *const wanted[] = { "0\n0\n0\n1\n", "0\n1\n1\n1\n", "1\n1\n1\n0\n", "1\n0\n0\n0\n", odd, even };
    for (uint32_t form = VUMNEATH_AND; form <= VUMNEATH_XNOR; form++) {
        struct network net = uniform(2, 1, form, pins, 1);
        for (uint32_t p = 0; p < pins; p++)
            cells(&net.pins)[p] = VUMNEATH_INPUT(p % 2);
        check(gives(&net, "00\n01\n10\n11\n", wanted[form - VUMNEATH_AND]), "what a form makes of many inputs", pins);
        take_back_network(&net, form);
    }
}

/* 1,024 flip-flops in a line, from the first to the last or back: a one goes on by one at each clock. */
static void call_line(bool back)
{
    struct network net = uniform(1, 1024, VUMNEATH_DFF, 3, 1);
    char rows[2 * 1026 + 1] = "1\n", wanted[2 * 1026 + 1];
    for (uint32_t g = 0; g < 1024; g++) {
        bool first = g == (back ? 1023 : 0);
        cells(&net.pins)[3 * g + VUMNEATH_DFF_DATA] = first ? VUMNEATH_INPUT(0) : back ? VUMNEATH_GATE(g + 1) : VUMNEATH_GATE(g - 1);
        cells(&net.pins)[3 * g + VUMNEATH_DFF_ENABLE] = VUMNEATH_ONE;
    }
    if (back)
        cells(&net.outputs)[0] = VUMNEATH_GATE(0);
    for (size_t i = 2; i < sizeof rows - 1; i += 2)
        memcpy(rows + i, "0\n", 3);
    memcpy(wanted, rows, sizeof rows);
    wanted[0] = '0';
    wanted[2 * 1024] = '1';
    check(gives(&net, rows, wanted), "flip-flops in a line step together", back);
    take_back_network(&net, back);
}

/* The largest counts: 256 inputs, 256 outputs, and 1,024 gates with 16,384 pins in a line, each the inverse of the one before. */
static void call_largest(void)
{
    struct network net = uniform(256, 1024, VUMNEATH_OR, 16, 256);
    char rows[2 * 257 + 1], wanted[2 * 257 + 1];
    for (uint32_t p = 0; p < 16384; p++)
        cells(&net.pins)[p] = p < 16 ? VUMNEATH_INPUT(255) : VUMNEATH_GATE(p / 16 - 1) | VUMNEATH_INVERTED;
    cells(&net.outputs)[0] = VUMNEATH_INPUT(0);
    for (size_t i = 0; i < 2 * 257; i++) {
        rows[i] = i % 257 == 256 ? '\n' : i == 0 || i == 257 + 255 ? '1' : '0';
        wanted[i] = i % 257 == 256 ? '\n' : i <= 256 ? '1' : '0';
    }
    rows[2 * 257] = wanted[2 * 257] = 0;
    check(gives(&net, rows, wanted), "the largest counts are run", 0);
    net.inputs = 257;
    check(run_string(&net, rows) == VUMNEATH_REFUSED_NOT_A_NETWORK, "257 inputs are 20 in a run", 0);
    take_back_network(&net, 0);
}

/* No rows, no inputs, no outputs, no gates, and null pointers of length 0. */
static void call_empty(void)
{
    struct network net = good_network(), constant = uniform(0, 1, VUMNEATH_NOR, 0, 2);
    struct network silent = uniform(1, 0, 0, 0, 0), none = uniform(0, 0, 0, 0, 0);
    const struct lent no_cells = { NULL, NULL, 0 };
    const struct network null = { 0, 0, 0, 0, no_cells, no_cells, no_cells };
    struct lent line = lend_copy("\n", 1), out = lend(1, 0xa5);
    check(gives(&net, "", ""), "no rows give none", 0);
    check(gives(&constant, "\n\n\n", "11\n11\n11\n"), "without inputs a row is an LF", 0);
    check(gives(&constant, "", ""), "no rows without inputs", 0);
    check(run_string(&constant, "0\n") == VUMNEATH_REFUSED_WRONG_ROWS, "a character where there are no inputs", 0);
    check(gives(&silent, "1\n0\n", "\n\n"), "without outputs each clock gives an LF", 0);
    check(run_checked(&silent, "1\n0\n", 4, 1, NULL, 0) == VUMNEATH_REFUSED_WRONG_ROWS, "LFs have to fit", 0);
    check(gives(&none, "\n\n", "\n\n"), "the empty network", 0);
    check(run_lent(&null, &no_cells, &no_cells).refused == 0, "null pointers of length 0: no rows", 0);
    check(run_lent(&null, &line, &no_cells).refused == VUMNEATH_REFUSED_WRONG_ROWS, "null pointers of length 0: no room", 0);
    vumneath_rows ran = run_lent(&null, &line, &out);
    check(ran.refused == 0 && ran.length == 1 && out.part[0] == '\n', "null pointers of length 0: the empty network", 0);
    take_back(&line, 0);
    take_back(&out, 0);
    take_back_network(&net, 0);
    take_back_network(&constant, 0);
    take_back_network(&silent, 0);
    take_back_network(&none, 0);
}

/* Rows that are wrong; every beginning of good ones, and every byte of them changed. */
static void call_wrong_rows(void)
{
    static const char *const wrong[] = {
        "\n", "0\n", "0", "00", "000\n", "00\n0", "00\n0\n", "00\n000\n", "00\r\n", "00\n\n", "0 \n", " 0\n", "0\t\n", "2\n\n",
        "00\n02\n", "00 11\n",
    };
    static const char others[] = { '\0', '\n', '\r', ' ', '/', '0', '1', '2', 'O', '\x80', '\xb0', '\xff' };
    struct network net = good_network();
    char rows[sizeof good_rows];
    for (size_t i = 0; i < sizeof wrong / sizeof *wrong; i++)
        check(run_string(&net, wrong[i]) == VUMNEATH_REFUSED_WRONG_ROWS, "a wrong row is 31", i);
    for (size_t i = 0; i < sizeof good_rows; i++)
        check(run_checked(&net, good_rows, i, ROOM, NULL, i) == (i % 3 ? VUMNEATH_REFUSED_WRONG_ROWS : 0), "a row without LF is 31", i);
    for (size_t i = 0; i < (sizeof good_rows - 1) * sizeof others; i++) {
        size_t place = i / sizeof others;
        char other = others[i % sizeof others];
        bool fits = place % 3 == 2 ? other == '\n' : other == '0' || other == '1';
        memcpy(rows, good_rows, sizeof rows);
        rows[place] = other;
        uint32_t refused = run_checked(&net, rows, sizeof rows - 1, ROOM, NULL, i);
        check(refused == (fits ? 0 : VUMNEATH_REFUSED_WRONG_ROWS), "another character is 31", i);
    }
    take_back_network(&net, 0);
}

/* The refusal of the good network with one pin changed, for rows. */
static uint32_t with_pin(size_t pin, uint32_t signal, const char *rows)
{
    struct network net = good_network();
    cells(&net.pins)[pin] = signal;
    uint32_t refused = run_string(&net, rows);
    take_back_network(&net, pin);
    return refused;
}

/* 29 by the inputs of x0, x2 and x3, which are no flip-flops; 30 by the enable and the reset of x1. */
static void call_unsorted(void)
{
    static const uint32_t others[] = { VUMNEATH_ZERO, VUMNEATH_ONE, VUMNEATH_INPUT(1), VUMNEATH_INPUT(1) | 1, 2, 3, 4, 5, 6, 7, 8, 9 };
    static const uint32_t owners[] = { 0, 0, 1, 1, 1, 2, 2, 3, 3 };
    for (size_t i = 0; i < 9 * sizeof others / sizeof *others; i++) {
        size_t pin = i % 9;
        uint32_t signal = others[i / 9], owner = owners[pin], wanted = 0;
        if (owner != 1 && VUMNEATH_IS_GATE(signal) && VUMNEATH_GATE_NUMBER(signal) >= owner)
            wanted = VUMNEATH_REFUSED_NOT_SORTED;
        if ((pin == 3 && signal != VUMNEATH_ONE) || (pin == 4 && signal != VUMNEATH_ZERO))
            wanted = VUMNEATH_REFUSED_OTHER_FLIP_FLOP;
        check(with_pin(pin, signal, good_rows) == wanted, "29 and 30 by one pin", i);
        check(with_pin(pin, signal, "") == wanted, "29 and 30 without rows", i);
    }
}

/* Two things wrong: 20 before 29, 29 before 30 wherever they stand, 30 before 31; and no room, which is 31. */
static void call_order(void)
{
    struct network net = good_network();
    uint32_t *pin = cells(&net.pins);
    check(gives(&net, good_rows, good_answer), "a network by hand", 0);
    net.pin_count = 10;
    pin[7] = VUMNEATH_GATE(3);
    check(run_string(&net, good_rows) == VUMNEATH_REFUSED_NOT_A_NETWORK, "20 before 29", 0);
    check(run_string(&net, "x") == VUMNEATH_REFUSED_NOT_A_NETWORK, "20 before 31", 0);
    net.pin_count = 9;
    check(run_string(&net, "x") == VUMNEATH_REFUSED_NOT_SORTED, "29 before 31", 0);
    pin[3] = VUMNEATH_ZERO;
    check(run_string(&net, good_rows) == VUMNEATH_REFUSED_NOT_SORTED, "29 of a later gate before 30", 0);
    pin[9] = VUMNEATH_ZERO;
    net.pin_count = 10;
    check(run_string(&net, good_rows) == VUMNEATH_REFUSED_NOT_A_NETWORK, "20 before 29 and 30", 0);
    net.pin_count = 9;
    pin[7] = VUMNEATH_GATE(2);
    check(run_string(&net, "x") == VUMNEATH_REFUSED_OTHER_FLIP_FLOP, "30 before 31", 0);
    check(run_checked(&net, good_rows, sizeof good_rows - 1, 0, NULL, 0) == VUMNEATH_REFUSED_OTHER_FLIP_FLOP, "30 before no room", 0);
    pin[3] = VUMNEATH_ONE;
    check(run_checked(&net, good_rows, sizeof good_rows - 1, 0, NULL, 0) == VUMNEATH_REFUSED_WRONG_ROWS, "no room is 31", 0);
    check(gives(&net, good_rows, good_answer), "the network as it was", 0);
    take_back_network(&net, 0);
}

/* Every cell of the network changed, every count, and every slice a cell short: a refusal or rows, and nothing else is touched. */
static void call_damaged(void)
{
    static const uint32_t others[] = {
        0, 1, 2, 3, 13, 14, 15, 256, 1024, 16384, 0x40000001, 0x55555556, 0x7fffffff, 0x80000000, 0xfffffffa, 0xffffffff,
    };
    const size_t kinds = sizeof others / sizeof *others, pins = record_cell(4, 0), outputs = pins + 9, behind = outputs + 4;
    struct network net = good_network();
    uint32_t *const counts[] = { &net.gate_count, &net.pin_count, &net.output_count, &net.inputs };
    for (size_t i = 0; i < (behind + 4) * kinds; i++) {
        size_t place = i / kinds;
        uint32_t *cell = place < pins ? cells(&net.gates) + place : place < outputs ? cells(&net.pins) + place - pins
            : place < behind ? cells(&net.outputs) + place - outputs : counts[place - behind];
        uint32_t kept = *cell;
        *cell = others[i % kinds];
        run_checked(&net, good_rows, sizeof good_rows - 1, ROOM, NULL, i);
        *cell = kept;
    }
    struct lent *const slices[] = { &net.gates, &net.pins, &net.outputs };
    for (size_t i = 0; i < 3; i++) {
        struct network less = net;
        struct lent *slice = i == 0 ? &less.gates : i == 1 ? &less.pins : &less.outputs;
        *slice = lend_copy(slices[i]->part, slices[i]->bytes - (i == 0 ? VUMNEATH_GATE_CELLS : 1) * sizeof(uint32_t));
        check(gives(&less, good_rows, good_answer), "exactly enough cells", i);
        slice->bytes -= sizeof(uint32_t);
        check(run_string(&less, good_rows) == VUMNEATH_REFUSED_NOT_A_NETWORK, "a cell short is 20 in a run", i);
        slice->bytes += sizeof(uint32_t);
        take_back(slice, i);
    }
    take_back_network(&net, 0);
}

void call_runs(void)
{
    unsigned long before = checks;
    call_forms();
    for (uint32_t pins = 2; pins <= 16; pins++)
        call_wide(pins);
    call_wide(64);
    call_wide(65);
    call_wide(VUMNEATH_MAX_PINS);
    call_line(false);
    call_line(true);
    call_largest();
    call_empty();
    call_wrong_rows();
    call_unsorted();
    call_order();
    call_damaged();
    printf("running by hand: %lu checks\n", checks - before);
}
