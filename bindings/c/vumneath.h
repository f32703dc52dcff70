/* Vumneath: BLIF netlists, read, written and run, proved.
 *
 * BLIF is the Berkeley Logic Interchange Format, a text that describes logic gates and flip-flops. vumneath_read_blif turns such a text
 * into a sorted network in cells that the caller lends; vumneath_write_blif turns a network in cells into such a text; vumneath_run runs a
 * sorted network over rows of 0 and 1. Link libvumneath.a (x86-64 Linux); it needs memcpy and memset and nothing else.
 *
 * The functions
 *   - always return: whatever the bytes and cells hold, the answer is a result or the number of a refusal;
 *   - use no heap, no file, no global state and no lock, so threads may call them at the same time with slices of their own;
 *   - need less than 36 KiB of stack (measured by the tests: 32 KiB for reading, 2 KiB for writing, 28 KiB for running);
 *   - do not look at the cells and bytes to be filled before they store there: memory that was never written is fine.
 *
 * A slice is a pointer and a length in elements: bytes of a text or of rows, 32-bit cells otherwise. The caller sees to three things:
 *   - a slice's memory exists in its whole length, and cells are aligned as uint32_t is;
 *   - a slice that is filled shares no memory with any other slice of the call;
 *   - a pointer is not used when its length is 0, and may then be null. An empty slice is a slice like any other: no text is the empty
 *     netlist, and no cells are too few.
 */
#ifndef VUMNEATH_H
#define VUMNEATH_H

#include <stddef.h>
#include <stdint.h>

#ifdef __cplusplus
extern "C" {
#endif

/* The interface that this header describes. The number rises when a caller built for the one before would lend too few cells or read
 * records wrongly. vumneath_interface answers the library's: where it is another number, make no other call. The shared library's SONAME,
 * libvumneath.so.2, has the number too.
 * Interface 1, up to version 0.5.0, had no such function, and three cells for a gate's record. A caller built for it gets refusal 1 from
 * vumneath_read_blif, since it lends 3,072 cells for gates, and nothing is stored behind what it lends. A network that it hands over is
 * refused with 20 where it has two gates or more. Where it has one, and the cell behind its record is lent, that cell is taken as the start
 * value, and the answer may be that of another network. */
#define VUMNEATH_INTERFACE 2

/* The interface of the library. */
uint32_t vumneath_interface(void);

/* Sizes: what a text or a network has at most. */
#define VUMNEATH_MAX_TEXT 32768    /* bytes of a text, read or written */
#define VUMNEATH_MAX_INPUTS 256    /* inputs of a network */
#define VUMNEATH_MAX_OUTPUTS 256   /* outputs of a network */
#define VUMNEATH_MAX_GATES 1024    /* gates of a network, flip-flops among them */
#define VUMNEATH_MAX_PINS 16384    /* gate inputs of a network, all gates together */

/* Cells to lend to vumneath_read_blif. More is fine; fewer is refusal 1. */
#define VUMNEATH_GATE_CELLS 4      /* cells of one gate's record */
#define VUMNEATH_LEND_GATES 4096   /* gates, and work_gates: a record for each of 1,024 gates */
#define VUMNEATH_LEND_PINS 16384   /* pins, and work_pins */
#define VUMNEATH_LEND_OUTPUTS 256  /* outputs */

/* Refusals of vumneath_read_blif; 34 below is one more, between 5 and 6 in the order. Of several that apply the answer is the first in the
 * order, except among 4, 5 and 34 and among 7 to 10, which are asked statement by statement, and among 12 and 13, which are asked cover by
 * cover: there the earlier statement or cover decides. */
#define VUMNEATH_REFUSED_TOO_FEW_CELLS 1       /* too few cells are lent */
#define VUMNEATH_REFUSED_TEXT_TOO_LONG 2       /* the text is over 32,768 bytes */
#define VUMNEATH_REFUSED_HIGH_BYTE 3           /* the text has a byte of 128 or more */
#define VUMNEATH_REFUSED_MISSING_NAME 4        /* .model lacks a name, or .latch has fewer than two */
#define VUMNEATH_REFUSED_UNSUPPORTED 5         /* a statement that starts with a dot is not supported */
#define VUMNEATH_REFUSED_SIZE_PASSED 6         /* there are over 256 inputs, 256 outputs, 1,024 gates or 16,384 pins */
#define VUMNEATH_REFUSED_SECOND_MODEL 7        /* there is a second .model before any .end */
#define VUMNEATH_REFUSED_END_BEFORE_MODEL 8    /* .end comes before any .model */
#define VUMNEATH_REFUSED_NAMES_EMPTY 9         /* .names has no names */
#define VUMNEATH_REFUSED_DEFINED_TWICE 10      /* a name is defined twice */
#define VUMNEATH_REFUSED_UNDEFINED 11          /* an output, a latch's input or a cover's input is not defined */
#define VUMNEATH_REFUSED_WRONG_CUBE_LINE 12    /* a cube line is wrong: its tokens, its columns or its output */
#define VUMNEATH_REFUSED_OUTPUTS_DIFFER 13     /* the cube lines of a cover differ in output */
#define VUMNEATH_REFUSED_COMBINATIONAL_LOOP 14 /* there is a combinational loop */

/* Refusals of vumneath_write_blif, in the order in which they are asked. */
#define VUMNEATH_REFUSED_NOT_A_NETWORK 20      /* what is lent is no network */
#define VUMNEATH_REFUSED_WIDE_EXCLUSIVE 21     /* an Xor or Xnor of any number of inputs has over 12 */
#define VUMNEATH_REFUSED_TEXT_DOES_NOT_FIT 22  /* the text does not fit into the output slice or into 32,768 bytes */

/* Refusals of vumneath_run, in the order in which they are asked; 20 is asked before them, and 29 of all gates before 30. */
#define VUMNEATH_REFUSED_NOT_SORTED 29         /* a combinational gate has a gate input whose number is not lower than its own */
#define VUMNEATH_REFUSED_OTHER_FLIP_FLOP 30    /* a flip-flop has another enable or reset */
#define VUMNEATH_REFUSED_WRONG_ROWS 31         /* a row has the wrong length, another character or no LF, or the output rows do not fit */

/* Refusals of the program passreport; no function answers these. */
#define VUMNEATH_REFUSED_WRONG_SHEET 32        /* a sheet line is missing, misformed or left over, or the sheet is over 40,960 bytes */
#define VUMNEATH_REFUSED_NO_OUTPUT 33          /* the network has no output */

/* One more refusal of vumneath_read_blif, asked with 4 and 5, of the statements behind .end and .exdc too. */
#define VUMNEATH_REFUSED_WRONG_START 34        /* a latch's start value is not 0, 1, 2 or 3 */

/* Signals. A signal is one cell: a constant, an input or a gate, as it is or inverted. Bit 0 is the inversion. Gates are numbered from 0
 * in the order of their records, inputs from 0 in the order in which the text names them. Input 0 is FFFFFFFE hexadecimal, input 1
 * FFFFFFFC, gate 0 is 2, gate 1 is 4; each plus 1 where it is inverted. */
#define VUMNEATH_ZERO UINT32_C(0)               /* constant zero */
#define VUMNEATH_ONE UINT32_C(1)                /* constant one: zero inverted */
#define VUMNEATH_INVERTED UINT32_C(1)           /* the bit of the inversion */
#define VUMNEATH_INPUT_BIT UINT32_C(0x80000000) /* the bit that an input has and a gate or a constant has not */
#define VUMNEATH_GATE(v) (2 * ((uint32_t)(v) + 1))       /* the signal of gate v */
#define VUMNEATH_INPUT(v) (0 - 2 * ((uint32_t)(v) + 1))  /* the signal of input v: 2^32 - 2 (v + 1) */
#define VUMNEATH_IS_INVERTED(s) (((s) & VUMNEATH_INVERTED) != 0)
#define VUMNEATH_IS_CONSTANT(s) ((s) < 2)
#define VUMNEATH_IS_INPUT(s) (((s) & VUMNEATH_INPUT_BIT) != 0)
#define VUMNEATH_IS_GATE(s) (!VUMNEATH_IS_CONSTANT(s) && !VUMNEATH_IS_INPUT(s))
#define VUMNEATH_GATE_NUMBER(s) ((uint32_t)(s) / 2 - 1)  /* v of a gate's signal, inverted or not */
#define VUMNEATH_INPUT_NUMBER(s) (~(uint32_t)(s) / 2)    /* v of an input's signal, inverted or not */

/* Gates. Gate g has the record gates[4 g], gates[4 g + 1], gates[4 g + 2], gates[4 g + 3]: its form, the place of its first pin in the pins,
 * its number of pins, and its start value. A pin is the signal that one of the gate's inputs takes. The runs of pins follow each other in gate
 * order: gate 0 starts at pin 0, each further gate where the one before ends, and the last ends at the number of pins. The start value is 0 or
 * 1 for a flip-flop and 0 for every other gate; another one is a case of refusal 20 in every call.
 * Reading gives flip-flops first, then every other gate behind the gates that it takes its inputs from. It uses the forms 7 to 9, 13 and
 * 14; writing and running take all 14. */
#define VUMNEATH_RECORD_FORM 0   /* place of the form number in a record */
#define VUMNEATH_RECORD_FIRST 1  /* place of the first pin */
#define VUMNEATH_RECORD_COUNT 2  /* place of the number of pins */
#define VUMNEATH_RECORD_START 3  /* place of the start value */

#define VUMNEATH_AND_2 1   /* Binary And, 2 pins */
#define VUMNEATH_XOR_2 2   /* Binary Xor, 2 pins */
#define VUMNEATH_AND_3 3   /* Ternary And, 3 pins */
#define VUMNEATH_XOR_3 4   /* Ternary Xor, 3 pins: one where an odd number of pins is one */
#define VUMNEATH_MAJ 5     /* Ternary Maj, 3 pins: one where two or three pins are one */
#define VUMNEATH_MUX 6     /* Ternary Mux, 3 pins: the second where the first is one, else the third */
#define VUMNEATH_AND 7     /* Nary And, any number of pins: one where there are none */
#define VUMNEATH_OR 8      /* Nary Or, any number of pins: zero where there are none */
#define VUMNEATH_NAND 9    /* Nary Nand, any number of pins: zero where there are none */
#define VUMNEATH_NOR 10    /* Nary Nor, any number of pins: one where there are none */
#define VUMNEATH_XOR 11    /* Nary Xor, any number of pins: one where an odd number of pins is one */
#define VUMNEATH_XNOR 12   /* Nary Xnor, any number of pins: one where an even number of pins is one */
#define VUMNEATH_BUF 13    /* Buf, 1 pin: the pin's value */
#define VUMNEATH_DFF 14    /* Dff, a flip-flop, 3 pins: data, enable, reset */

/* A flip-flop starts at its start value. At each clock a reset of one makes it zero; else an enable of one makes it take its data; else it
 * holds. */
#define VUMNEATH_DFF_DATA 0    /* place of the data among a flip-flop's pins */
#define VUMNEATH_DFF_ENABLE 1  /* place of the enable: constant one where the text has a .latch */
#define VUMNEATH_DFF_RESET 2   /* place of the reset: constant zero where the text has a .latch */

/* refused is 0 on success, else the refusal's number; the counts are then 0 */
typedef struct { uint32_t refused, inputs, gates, pins, outputs; } vumneath_network;

/* Reads a text. Where .latch has three words behind it the third is the start value, where it has five or more the fifth, and else it is 0;
 * 2 and 3, which are BLIF's for any value and for an unknown one, are read as 0. A latch's type and control are ignored: every flip-flop takes
 * its data at each clock. The file DIFFERENCES.md, which is installed as share/doc/vumneath/DIFFERENCES.md, lists each place where a text is
 * read otherwise than BLIF has it. On success the counts are those of the network; gates, pins and outputs hold it from their starts, with
 * zero in every further cell. work_gates and work_pins are used for working and are all zero afterwards. After a refusal all cells of the five
 * slices are zero. The text is only read, and nothing points into it afterwards. */
vumneath_network vumneath_read_blif(const uint8_t *text, size_t text_len,
    uint32_t *gates, size_t gates_len, uint32_t *pins, size_t pins_len, uint32_t *outputs, size_t outputs_len,
    uint32_t *work_gates, size_t work_gates_len, uint32_t *work_pins, size_t work_pins_len);

/* refused is 0 on success, else the refusal's number; the length is then 0 */
typedef struct { uint32_t refused, length; } vumneath_text;

/* Writes a network as a text. The network is given as reading leaves it: four counts and three slices, which may be longer than the
 * counts say and are only read. Any counts and cells may be given; what is no network is refused. On success out holds length bytes of
 * text and zero in every further byte (a C string where it is longer than the text); after a refusal all its bytes are zero. */
vumneath_text vumneath_write_blif(uint32_t inputs, uint32_t gate_count, uint32_t pin_count, uint32_t output_count,
    const uint32_t *gates, size_t gates_len, const uint32_t *pins, size_t pins_len, const uint32_t *outputs, size_t outputs_len,
    uint8_t *out, size_t out_len);

/* refused is 0 on success, else the refusal's number; the length is then 0 */
typedef struct { uint32_t refused; size_t length; } vumneath_rows;

/* Runs a network, given as to vumneath_write_blif, for one clock after the other, from the flip-flops' start values. rows has a row for each
 * clock: a character 0 or 1 for each input, in order, and an LF. out gets a row for each clock: a character 0 or 1 for each output, in
 * order, and an LF. The outputs are those before the flip-flops step at that clock. There may be any number of rows, none too; out has to
 * have a byte for each output and each LF, which is rows_len / (inputs + 1) * (output_count + 1) bytes, and may be longer.
 * The network has to be sorted, as reading leaves it: each gate input of a gate that is no flip-flop has a lower number than the gate
 * itself. Flip-flops may stand anywhere. Each has the enable VUMNEATH_ONE and the reset VUMNEATH_ZERO, as reading leaves them.
 * On success out holds length bytes and zero in every further byte; after a refusal all its bytes are zero. The network and the rows are
 * only read. */
vumneath_rows vumneath_run(uint32_t inputs, uint32_t gate_count, uint32_t pin_count, uint32_t output_count,
    const uint32_t *gates, size_t gates_len, const uint32_t *pins, size_t pins_len, const uint32_t *outputs, size_t outputs_len,
    const uint8_t *rows, size_t rows_len, uint8_t *out, size_t out_len);

#ifdef __cplusplus
}
#endif

#endif
