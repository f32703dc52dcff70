/* Start values: which word of a .latch is one, 34 where it is none, the cell that it is read into, runs from it, and the text that has it
 * again; and 20 in each call for a start value that a gate cannot have. */
#include "lent.h"

#include <string.h>

enum { ROOM = 4096 };

/* Reads a text into cells that are checked and taken back. refused: the refusal's number. The network has just the cells in use. */
static struct network read_network(const char *text, uint32_t *refused)
{
    struct lent bytes = lend_copy(text, strlen(text));
    struct cells5 lent = lend_cells(enough);
    vumneath_network read = read_lent(&bytes, &lent);
    check_left(read, &lent, strlen(text));
    struct network net = { read.inputs, read.gates, read.pins, read.outputs,
        lend_copy(lent.gates.part, record_cell(read.gates, 0) * sizeof(uint32_t)), lend_copy(lent.pins.part, read.pins * sizeof(uint32_t)),
        lend_copy(lent.outputs.part, read.outputs * sizeof(uint32_t)) };
    *refused = read.refused;
    take_back_cells(&lent, strlen(text));
    take_back(&bytes, strlen(text));
    return net;
}

/* Whether a network is run for rows and gives the rows wanted, both C strings. */
static bool gives(const struct network *net, const char *rows, const char *wanted)
{
    struct lent given = lend_copy(rows, strlen(rows)), out = lend(ROOM, 0xa5);
    vumneath_rows ran = run_lent(net, &given, &out);
    bool same = ran.refused == 0 && ran.length == strlen(wanted) && memcmp(out.part, wanted, ran.length) == 0 && all_zero(&out, ran.length);
    take_back(&given, 0);
    take_back(&out, 0);
    return same;
}

/* Writes a network into a C string with room for every text; whether the text has a line, which is given with the LFs around it. */
static bool writes_line(const struct network *net, const char *line, char *text)
{
    struct lent out = lend(VUMNEATH_MAX_TEXT, 0xa5);
    vumneath_text written = write_lent(net, &out);
    memcpy(text, out.part, written.length);
    text[written.length] = 0;
    take_back(&out, 0);
    return written.refused == 0 && strstr(text, line);
}

/* Every number of words behind .latch, with start values and with others in each place. */
static void call_words(void)
{
    static const struct { const char *words; uint32_t refused, start; } latches[] = {
        { "", 0, 0 }, { " 0", 0, 0 }, { " 1", 0, 1 }, { " 2", 0, 0 }, { " 3", 0, 0 },
        { " re clk", 0, 0 }, { " re 1", 0, 0 }, { " 1 1", 0, 0 }, { " 1 4", 0, 0 },
        { " re clk 0", 0, 0 }, { " re clk 1", 0, 1 }, { " re clk 2", 0, 0 }, { " re clk 3", 0, 0 }, { " as NIL 1", 0, 1 },
        { " 1 1 0", 0, 0 }, { " 4 4 1", 0, 1 }, { " re clk 1 0", 0, 1 }, { " re clk 0 1", 0, 0 }, { " re clk 1 4 x 5", 0, 1 },
        { "\t1 ", 0, 1 }, { " 1\r", 0, 1 }, { " 1# 4", 0, 1 }, { " \\\n1", 0, 1 }, { " re\\\nclk\\\n1", 0, 1 },
        { " 4", 34, 0 }, { " re", 34, 0 }, { " clk", 34, 0 }, { " 00", 34, 0 }, { " 01", 34, 0 }, { " 11", 34, 0 }, { " -1", 34, 0 },
        { " 1.", 34, 0 }, { " '1'", 34, 0 }, { " /", 34, 0 }, { " one", 34, 0 }, { " re clk 4", 34, 0 }, { " re clk clk", 34, 0 },
        { " re clk 10", 34, 0 }, { " 1 1 4 1", 34, 0 }, { " re clk 4 1", 34, 0 }, { " \\\n4", 34, 0 },
    };
    for (size_t i = 0; i < sizeof latches / sizeof *latches; i++) {
        char text[100], written[VUMNEATH_MAX_TEXT + 1];
        uint32_t refused, again;
        snprintf(text, sizeof text, ".inputs d\n.outputs q\n.latch d q%s\n", latches[i].words);
        struct network net = read_network(text, &refused);
        check(refused == latches[i].refused, "what the words behind .latch are", i);
        if (refused == 0) {
            uint32_t start = latches[i].start;
            check(cells(&net.gates)[VUMNEATH_RECORD_START] == start, "the start value is in its cell", i);
            check(gives(&net, "0\n1\n0\n", start ? "1\n0\n1\n" : "0\n0\n1\n"), "a run begins at the start value", i);
            check(writes_line(&net, start ? "\n.latch i0 x0 1\n" : "\n.latch i0 x0 0\n", written), "the start value is written", i);
            struct network back = read_network(written, &again);
            check(again == 0 && cells(&back.gates)[VUMNEATH_RECORD_START] == start, "the start value is read again", i);
            take_back_network(&back, i);
        }
        take_back_network(&net, i);
    }
}

/* 34 together with each other refusal: by statement with 4 and 5, behind 1, 2 and 3, before all others, behind .end and .exdc too. */
static void call_refused(void)
{
    static const struct { const char *text; uint32_t refused; } texts[] = {
        { ".latch d q 4", 34 }, { ".latch d q 4\n\x80", 3 }, { ".latch d q 4\n.model\n", 34 }, { ".model\n.latch d q 4\n", 4 },
        { ".latch d q 4\n.latch d\n", 34 }, { ".latch d\n.latch d q 4\n", 4 }, { ".latch d q 4\n.gate\n", 34 }, { ".gate\n.latch d q 4\n", 5 },
        { ".model m\n.model m\n.latch d q 4\n", 34 }, { ".end\n.latch d q 4\n", 34 }, { ".names\n.latch d q 4\n", 34 },
        { ".inputs a a\n.latch d q 4\n", 34 }, { ".outputs y\n.latch d q 4\n", 34 }, { ".latch d q 1\n", 11 },
        { ".names y\n2\n.latch d q 4\n", 34 }, { ".names y\n1\n0\n.latch d q 4\n", 34 }, { ".names y y\n1 1\n.latch d q 4\n", 34 },
        { ".model m\n.end\n.latch d q 4\n", 34 }, { ".model m\n.end\n.latch d q 1\n", 0 }, { ".exdc\n.latch d q 4\n", 34 },
        { ".exdc\n.latch d q 1\n", 0 }, { "d q 4\n", 0 }, { "#.latch d q 4\n", 0 },
    };
    static char longest[VUMNEATH_MAX_TEXT + 1];
    struct sizes5 too_few = enough;
    too_few.outputs--;
    for (size_t i = 0; i < sizeof texts / sizeof *texts; i++)
        check(read_checked(texts[i].text, strlen(texts[i].text), enough, i) == texts[i].refused, "34 and its neighbours", i);
    check(read_checked(".latch d q 4", 12, too_few, 0) == VUMNEATH_REFUSED_TOO_FEW_CELLS, "1 before 34", 0);
    memset(longest, ' ', sizeof longest);
    memcpy(longest, ".latch d q 4\n", 13);
    check(read_checked(longest, sizeof longest - 1, enough, 0) == VUMNEATH_REFUSED_WRONG_START, "34 in the longest text", 0);
    check(read_checked(longest, sizeof longest, enough, 0) == VUMNEATH_REFUSED_TEXT_TOO_LONG, "2 before 34", 0);
    memcpy(longest, ".inputs", 7);
    for (size_t i = 0; i < 257; i++)
        snprintf(longest + 7 + 5 * i, 6, " n%03zu", i);
    memcpy(longest + 7 + 5 * 257, "\n.latch d q 4\n", 14);
    check(read_checked(longest, 7 + 5 * 257 + 14, enough, 0) == VUMNEATH_REFUSED_WRONG_START, "34 before 6", 0);
}

/* A flip-flop that takes its inverse, from each start value; and two of them, one from each. */
static void call_turns(void)
{
    static const char *const rows = "\n\n\n\n";
    static const struct { const char *text, *wanted; } turning[] = {
        { ".outputs q\n.latch d q 0\n.names q d\n0 1\n", "0\n1\n0\n1\n" }, { ".outputs q\n.latch d q 1\n.names q d\n0 1\n", "1\n0\n1\n0\n" },
        { ".outputs q\n.latch d q 2\n.names q d\n0 1\n", "0\n1\n0\n1\n" }, { ".outputs q\n.latch d q 3\n.names q d\n0 1\n", "0\n1\n0\n1\n" },
        { ".outputs q\n.latch q q 1\n", "1\n1\n1\n1\n" }, { ".outputs p q\n.latch p q 1\n.latch q p 0\n", "01\n10\n01\n10\n" },
        { ".outputs p q\n.latch p q 0\n.latch q p 1\n", "10\n01\n10\n01\n" },
    };
    for (size_t i = 0; i < sizeof turning / sizeof *turning; i++) {
        char written[VUMNEATH_MAX_TEXT + 1];
        uint32_t refused;
        struct network net = read_network(turning[i].text, &refused);
        check(refused == 0 && gives(&net, rows, turning[i].wanted), "flip-flops that turn", i);
        check(writes_line(&net, "\n.latch ", written), "flip-flops that turn are written", i);
        struct network back = read_network(written, &refused);
        check(refused == 0 && gives(&back, rows, turning[i].wanted), "flip-flops that turn, read back", i);
        take_back_network(&net, i);
        take_back_network(&back, i);
    }
}

/* 1,024 flip-flops in a line with start values by a rule: they come out one by one, the last one's first. */
static void call_line(void)
{
    struct gate gates[1024];
    char rows[2 * 1025 + 1] = "", wanted[2 * 1025 + 1];
    for (uint32_t g = 0; g < 1024; g++)
        gates[g] = gate_of(VUMNEATH_DFF, (g % 3 == 0 || g % 7 == 0));
    struct network net = network_of(gates, 1024);
    for (uint32_t g = 1; g < 1024; g++)
        cells(&net.pins)[3 * g + VUMNEATH_DFF_DATA] = VUMNEATH_GATE(g - 1);
    for (size_t i = 0; i < 1025; i++) {
        memcpy(rows + 2 * i, "0\n", 3);
        memcpy(wanted + 2 * i, i < 1024 && gates[1023 - i].start ? "1\n" : "0\n", 3);
    }
    check(gives(&net, rows, wanted), "each flip-flop starts at its own value", 0);
    take_back_network(&net, 0);
}

/* Each form with start values that it can have and with others, as the first and as the second of two gates. */
static void call_forms(void)
{
    static const uint32_t starts[] = { 0, 1, 2, 3, 14, 0x100, 0x80000000, 0xffffffff };
    for (uint32_t form = VUMNEATH_AND_2; form <= VUMNEATH_DFF; form++)
        for (size_t i = 0; i < sizeof starts / sizeof *starts; i++)
            for (size_t second = 0; second < 2; second++) {
                struct gate gates[] = { gate_of(VUMNEATH_BUF, 0), gate_of(VUMNEATH_BUF, 0) };
                gates[second] = gate_of(form, starts[i]);
                struct network net = network_of(gates, 2);
                uint32_t wanted = starts[i] > (form == VUMNEATH_DFF) ? VUMNEATH_REFUSED_NOT_A_NETWORK : 0;
                check(refused_by_write(&net) == wanted, "a start value that the form cannot have is 20 in writing", form);
                check(refused_by_run(&net) == wanted, "a start value that the form cannot have is 20 in a run", form);
                take_back_network(&net, form);
            }
}

/* .flop with a start value; and 20 by a start value before all other refusals. */
static void call_order(void)
{
    char written[VUMNEATH_MAX_TEXT + 1];
    struct gate flop = gate_of(VUMNEATH_DFF, 1), wide = { VUMNEATH_XOR, 13, 0 }, own = gate_of(VUMNEATH_BUF, 0);
    struct network net = network_of(&flop, 1), wide_net = network_of(&wide, 1), own_net = network_of(&own, 1);
    const struct lent no_room = { NULL, NULL, 0 };
    struct lent line = lend_copy("x", 1);
    cells(&net.pins)[VUMNEATH_DFF_ENABLE] = VUMNEATH_INPUT(0);
    check(writes_line(&net, "\n.flop D=i0 Q=x0 init=1 E=i0\n", written), ".flop has the start value", 0);
    check(refused_by_run(&net) == VUMNEATH_REFUSED_OTHER_FLIP_FLOP, "30 for another enable", 0);
    cells(&net.gates)[VUMNEATH_RECORD_START] = 2;
    check(refused_by_run(&net) == VUMNEATH_REFUSED_NOT_A_NETWORK, "20 before 30", 0);
    check(refused_by_write(&wide_net) == VUMNEATH_REFUSED_WIDE_EXCLUSIVE, "21 for 13 inputs", 0);
    cells(&wide_net.gates)[VUMNEATH_RECORD_START] = 1;
    check(refused_by_write(&wide_net) == VUMNEATH_REFUSED_NOT_A_NETWORK, "20 before 21", 0);
    check(write_lent(&wide_net, &no_room).refused == VUMNEATH_REFUSED_NOT_A_NETWORK, "20 before 22", 0);
    cells(&own_net.pins)[0] = VUMNEATH_GATE(0);
    check(refused_by_run(&own_net) == VUMNEATH_REFUSED_NOT_SORTED, "29 for its own input", 0);
    cells(&own_net.gates)[VUMNEATH_RECORD_START] = 1;
    check(refused_by_run(&own_net) == VUMNEATH_REFUSED_NOT_A_NETWORK, "20 before 29", 0);
    check(run_lent(&own_net, &line, &no_room).refused == VUMNEATH_REFUSED_NOT_A_NETWORK, "20 before 31", 0);
    take_back(&line, 0);
    take_back_network(&net, 0);
    take_back_network(&wide_net, 0);
    take_back_network(&own_net, 0);
}

void call_starts(void)
{
    unsigned long before = checks;
    call_words();
    call_refused();
    call_turns();
    call_line();
    call_forms();
    call_order();
    printf("start values by hand: %lu checks\n", checks - before);
}
