/* The interface's number, and what a caller gets that was built for interface 1: it lends 3,072 cells for gates, and hands over records of
 * three cells. */
#include "lent.h"

#include <string.h>

enum { OLD_CELLS = 3, OLD_LEND = OLD_CELLS * VUMNEATH_MAX_GATES };

/* Whether all bytes of a buffer from a place on are 0xff, as they were before the call. */
static bool all_ones(const struct lent *lent, size_t from)
{
    bool same = true;
    for (size_t i = from; i < lent->bytes; i++)
        same = same && lent->part[i] == 0xff;
    return same;
}

/* Reads with so many cells lent for gates and for working, of buffers that have enough: refusal 1, every cell that is lent is zero, and the
 * cells behind are as they were. */
static void read_with(const char *text, size_t gates, size_t work_gates, unsigned long place)
{
    struct lent bytes = lend_copy(text, strlen(text));
    struct cells5 whole = lend_cells(enough), lent = whole;
    lent.gates.bytes = gates * sizeof(uint32_t);
    lent.work_gates.bytes = work_gates * sizeof(uint32_t);
    vumneath_network net = read_lent(&bytes, &lent);
    check(net.refused == VUMNEATH_REFUSED_TOO_FEW_CELLS, "3,072 cells for gates are too few", place);
    check_left(net, &lent, place);
    check(all_ones(&whole.gates, lent.gates.bytes), "no cell behind the gates is touched", place);
    check(all_ones(&whole.work_gates, lent.work_gates.bytes), "no cell behind the working gates is touched", place);
    take_back_cells(&whole, place);
    take_back(&bytes, place);
}

static void call_reads_before(void)
{
    static const char *const texts[] = {
        "", ".end", "\x80", ".latch d q 4", ".inputs d\n.outputs q\n.latch d q 1\n", ".inputs a b\n.outputs y\n.names a b y\n11 1\n",
    };
    for (size_t i = 0; i < sizeof texts / sizeof *texts; i++) {
        read_with(texts[i], OLD_LEND, OLD_LEND, i);
        read_with(texts[i], OLD_LEND, VUMNEATH_LEND_GATES, i);
        read_with(texts[i], VUMNEATH_LEND_GATES, OLD_LEND, i);
        read_with(texts[i], VUMNEATH_LEND_GATES - 1, VUMNEATH_LEND_GATES - 1, i);
    }
}

/* The network of gates in records of three cells, and behind them so many cells more. */
static struct network as_before(const struct gate *gates, uint32_t count, size_t more, uint32_t fill)
{
    struct network net = network_of(gates, count);
    struct lent records = lend((OLD_CELLS * (size_t)count + more) * sizeof(uint32_t), 0);
    uint32_t first = 0;
    for (size_t i = 0; i < cell_count(&records); i++)
        cells(&records)[i] = fill;
    for (uint32_t g = 0; g < count; g++) {
        memcpy(cells(&records) + OLD_CELLS * g, (uint32_t[]){ gates[g].form, first, gates[g].pins }, OLD_CELLS * sizeof(uint32_t));
        first += gates[g].pins;
    }
    take_back(&net.gates, count);
    net.gates = records;
    return net;
}

/* Writing and running such a network. */
static void refused_with(const struct gate *gates, uint32_t count, size_t more, uint32_t fill, uint32_t wanted)
{
    struct network net = as_before(gates, count, more, fill);
    check(refused_by_write(&net) == wanted, "records of three cells in writing", count);
    check(refused_by_run(&net) == wanted, "records of three cells in a run", count);
    take_back_network(&net, count);
}

/* With exactly the cells of interface 1. */
static void call_exact(void)
{
    static const uint32_t counts[] = { 1, 2, 3, 4, 5, 8, 767, 768, 769, 1023, 1024 };
    struct gate gates[VUMNEATH_MAX_GATES];
    for (uint32_t form = VUMNEATH_AND_2; form <= VUMNEATH_DFF; form++)
        for (size_t i = 0; i < sizeof counts / sizeof *counts; i++) {
            for (uint32_t g = 0; g < counts[i]; g++)
                gates[g] = gate_of(form, 0);
            refused_with(gates, counts[i], 0, 0, VUMNEATH_REFUSED_NOT_A_NETWORK);
        }
}

/* With more cells: every two forms are refused, alone and before others, whatever is behind them; one gate is taken with the cell behind its
 * record as its start value. */
static void call_more(void)
{
    static const uint32_t fills[] = { 0, 1, 2, 3, 14, 0xffffffff };
    for (uint32_t form = VUMNEATH_AND_2; form <= VUMNEATH_DFF; form++)
        for (size_t i = 0; i < sizeof fills / sizeof *fills; i++) {
            struct gate gates[] = { gate_of(form, 0), { 0 }, gate_of(VUMNEATH_AND_3, 0), gate_of(VUMNEATH_DFF, 0) };
            refused_with(gates, 1, OLD_LEND, fills[i], fills[i] > (form == VUMNEATH_DFF) ? VUMNEATH_REFUSED_NOT_A_NETWORK : 0);
            for (uint32_t second = VUMNEATH_AND_2; second <= VUMNEATH_DFF; second++) {
                gates[1] = gate_of(second, 0);
                refused_with(gates, 2, OLD_LEND, fills[i], VUMNEATH_REFUSED_NOT_A_NETWORK);
                refused_with(gates, 4, OLD_LEND, fills[i], VUMNEATH_REFUSED_NOT_A_NETWORK);
            }
        }
}

void call_interface(void)
{
    unsigned long before = checks;
    check(vumneath_interface() == VUMNEATH_INTERFACE, "the library's interface is the header's", vumneath_interface());
    call_reads_before();
    call_exact();
    call_more();
    printf("interface %u, and callers of interface 1: %lu checks\n", vumneath_interface(), checks - before);
}
