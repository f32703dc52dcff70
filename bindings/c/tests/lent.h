/* Buffers to lend: each has guard bytes on both sides, or ends where its block ends so that memcheck sees a byte taken outside it. */
#ifndef LENT_H
#define LENT_H

#include "vumneath.h"

#include <stdbool.h>
#include <stdio.h>

struct lent {
    uint8_t *block, *part;
    size_t bytes;
};

/* The guard bytes on each side. */
extern size_t guard;

/* Checks made, and those that failed. */
extern unsigned long checks, failures;

/* Counts a check; one that fails is told with its place. */
void check(bool holds, const char *what, unsigned long place);

/* A buffer that is all fill, and a buffer with the bytes given. */
struct lent lend(size_t bytes, uint8_t fill);
struct lent lend_copy(const void *bytes, size_t count);
/* Checks that the guards are as they were, and frees the buffer. */
void take_back(struct lent *lent, unsigned long place);

uint32_t *cells(const struct lent *lent);
size_t cell_count(const struct lent *lent);
bool all_zero(const struct lent *lent, size_t from);

/* Tells valgrind that a buffer holds nothing yet; checks that every byte is defined; prints how many were checked, or what is left out. */
void make_undefined(const struct lent *lent);
void check_defined(const void *bytes, size_t count, const char *what);
void tell_defined(void);

/* The five buffers that reading fills, and the counts of their cells. */
struct cells5 { struct lent gates, pins, outputs, work_gates, work_pins; };
struct sizes5 { size_t gates, pins, outputs, work_gates, work_pins; };
extern const struct sizes5 enough, one_more;

struct cells5 lend_cells(struct sizes5 sizes);
void take_back_cells(struct cells5 *lent, unsigned long place);
/* Reads a text into buffers that are undefined to valgrind, and checks that they and the answer are defined then. */
vumneath_network read_lent(const struct lent *text, const struct cells5 *lent);
/* Checks that a refusal leaves zero counts and cells, and a success zeros beyond the counts and in the working cells. */
void check_left(vumneath_network net, const struct cells5 *lent, unsigned long place);
/* Reads a text and checks what is left; the answer is the refusal's number. */
uint32_t read_checked(const void *text, size_t length, struct sizes5 sizes, unsigned long place);

/* A network for the writer and for a run. */
struct network { uint32_t inputs, gate_count, pin_count, output_count; struct lent gates, pins, outputs; };

/* A gate of a network by hand. */
struct gate { uint32_t form, pins, start; };

/* The place of a cell of a gate's record. */
size_t record_cell(size_t gate, size_t place);
/* Stores the records of gates one behind the other, their runs of pins from pin 0 on; the answer is how many cells they take. */
size_t lay_records(uint32_t *to, const struct gate *gates, size_t count);
/* A buffer with the records of gates, and behind them the cells of so many gates more, all 99. */
struct lent lend_records(const struct gate *gates, size_t count, size_t more);
/* A gate of a form, with as many pins as it can have, three where it can have any number. */
struct gate gate_of(uint32_t form, uint32_t start);
/* A network of these gates: every pin is input 0, but a flip-flop's enable is one and its reset zero; the output is the last gate. */
struct network network_of(const struct gate *gates, uint32_t count);

/* Writes a network into a buffer that is undefined to valgrind, and checks that it and the answer are defined then. */
vumneath_text write_lent(const struct network *net, const struct lent *out);
/* Runs a network in the same way. */
vumneath_rows run_lent(const struct network *net, const struct lent *rows, const struct lent *out);
/* The refusals of writing a network, and of running it for no rows. */
uint32_t refused_by_write(const struct network *net);
uint32_t refused_by_run(const struct network *net);
void take_back_network(struct network *net, unsigned long place);

/* A file's bytes. Ends the test where it cannot be read. */
struct lent load(const char *path);

/* The next number of a list: eight hexadecimal digits and a separator. */
uint32_t next_word(const struct lent *list, size_t *at);

/* The place of answer i in a list of answers, each of which starts with a line 'WORD N', or the end of the list. */
size_t answer_start(const struct lent *answers, const char *word, unsigned long i, size_t from);

/* The next network of a list. room: the bytes to lend for what it gives. over: set where a count takes more than 32 bits. */
struct network next_network(const struct lent *list, size_t *at, size_t *room, bool *over);

/* Compares the answer for network i with the stored one from a place to another: 'refused=N', or 'length=N' and as many bytes. */
void compare_answer(const struct lent *answers, size_t at, size_t end, uint32_t refused, size_t length, const uint8_t *out,
    unsigned long i);

/* What the other files run. step: each how manyth stored text or network is taken. */
void replay_reads(const char *texts, const char *answers, unsigned long step);
void replay_writes(const char *networks, const char *answers, unsigned long step);
void replay_runs(const char *networks, const char *answers, unsigned long step);
void call_reads(void);
void call_writes(void);
void call_runs(void);
void call_starts(void);
void call_interface(void);
void measure_stack(const char *texts);

#endif
