"""BLIF netlists, read, written and run, proved.

BLIF is the Berkeley Logic Interchange Format, a text that describes logic gates and flip-flops. read() turns such a text into a
sorted Network and write() turns a Network into such a text; Network.run() runs a sorted Network over rows of 0 and 1. All call a
library that is proved to answer every text, every network and all rows, sound or damaged, with a result or a numbered Refusal.
report() reads and runs by these calls, and counts the commands of a pass that an interlock accepts and rejects.

>>> network = read(b".model m\\n.inputs a b\\n.outputs y\\n.names a b y\\n10 1\\n.end\\n")
>>> [str(gate) for gate in network.gates], [str(signal) for signal in network.outputs]
(['And(i0, !i1)'], ['x0'])
>>> write(network).splitlines()[-1]
b'.names gnd'
>>> network.run(b"10\\n11\\n"), network.run([[1, 0], [1, 1]])
(b'1\\n0\\n', [[1], [0]])
>>> read(b".outputs y")
Traceback (most recent call last):
vumneath.Refusal: refused=11: an output, a latch's input or a cover's input is not defined

A flip-flop starts at the value that its .latch says, and a run begins there:

>>> turning = read(b".outputs q\\n.latch d q 1\\n.names q d\\n0 1\\n")
>>> str(turning.gates[0]), turning.gates[0].start, turning.run(b"\\n\\n\\n")
('Dff(x1, 1, 0, start=1)', 1, b'1\\n0\\n1\\n')

The library is libvumneath.so.2: the file that VUMNEATH_LIB names, else the one in lib/ of the prefix that this module was installed
into, else the one that tests/bindings leaves in the repository. A library of another interface than INTERFACE is an ImportError.
"""

import ctypes
import operator
import os
import re
from typing import Iterable, List, NamedTuple, Optional, Tuple, Union

__version__ = "0.6.1"

# The interface of the library that this module is for; the C header says when the number rises.
INTERFACE = 2

MAX_TEXT = 32768
MAX_INPUTS = 256
MAX_OUTPUTS = 256
MAX_GATES = 1024
MAX_PINS = 16384
MAX_SHEET = 40960
MAX_COMMANDS = 128
GATE_CELLS = 4

# Each refusal: its number, its name, its sentence.
_REFUSALS = (
    (1, "TooFewCells", "too few cells are lent"),
    (2, "TextTooLong", "the text is over 32,768 bytes"),
    (3, "HighByte", "the text has a byte of 128 or more"),
    (4, "MissingName", ".model lacks a name, or .latch has fewer than two"),
    (5, "Unsupported", "a statement that starts with a dot is not supported"),
    (6, "SizePassed", "there are over 256 inputs, 256 outputs, 1,024 gates or 16,384 pins"),
    (7, "SecondModel", "there is a second .model before any .end"),
    (8, "EndBeforeModel", ".end comes before any .model"),
    (9, "NamesEmpty", ".names has no names"),
    (10, "DefinedTwice", "a name is defined twice"),
    (11, "Undefined", "an output, a latch's input or a cover's input is not defined"),
    (12, "WrongCubeLine", "a cube line is wrong: its tokens, its columns or its output"),
    (13, "OutputsDiffer", "the cube lines of a cover differ in output"),
    (14, "CombinationalLoop", "there is a combinational loop"),
    (20, "NotANetwork", "what is lent is no network"),
    (21, "WideExclusive", "an Xor or Xnor of any number of inputs has over 12"),
    (22, "TextDoesNotFit", "the text does not fit into the output slice or into 32,768 bytes"),
    (29, "NotSorted", "a combinational gate has a gate input whose number is not lower than its own"),
    (30, "OtherFlipFlop", "a flip-flop has another enable or reset"),
    (31, "WrongRows", "a row has the wrong length, another character or no LF, or the output rows do not fit"),
    (32, "WrongSheet", "a sheet line is missing, misformed or left over, or the sheet is over 40,960 bytes"),
    (33, "NoOutput", "the network has no output"),
    (34, "WrongStart", "a latch's start value is not 0, 1, 2 or 3"),
)
REFUSALS = {number: sentence for number, _, sentence in _REFUSALS}
_NAMES = {number: name for number, name, _ in _REFUSALS}

# The gate forms 1 to 14: Binary, Ternary, Nary, Buf and Dff, with the type where the form has several.
FORMS = (
    "Binary And", "Binary Xor", "Ternary And", "Ternary Xor", "Ternary Maj", "Ternary Mux", "Nary And", "Nary Or", "Nary Nand",
    "Nary Nor", "Nary Xor", "Nary Xnor", "Buf", "Dff",
)

# How many pins a gate has; one of the form Nary has any number.
_PIN_COUNTS = {"Binary": 2, "Ternary": 3, "Buf": 1, "Dff": 3}


class Refusal(Exception):
    """Why a text is not read, a network not written or not run, or no report made: its number, its name and a plain sentence. Where write()
    or run() refuses what is no network, where run() refuses a network or rows, and where report() refuses a sheet, the detail says what is
    wrong with it."""

    def __init__(self, number: int, detail: str = ""):
        # What stands in the exception's args is handed to this function again where a refusal is copied or pickled.
        super().__init__(number, *([detail] if detail else []))
        self.number = number
        self.name = _NAMES[number]
        self.sentence = REFUSALS[number]
        self.detail = detail

    def __str__(self) -> str:
        return f"refused={self.number}: {self.sentence}" + (f" ({self.detail})" if self.detail else "")


class Signal(NamedTuple):
    """A constant, an input or a gate, as it is or inverted, by its cell: bit 0 is the inversion, bit 31 marks an input."""

    cell: int

    @staticmethod
    def from_input(v: int) -> "Signal":
        """Input v, counted from 0."""
        if not 0 <= v < 2**30:
            raise ValueError(f"no signal holds input {v}")
        return Signal(2**32 - 2 * (v + 1))

    @staticmethod
    def from_var(v: int) -> "Signal":
        """Gate v, counted from 0."""
        if not 0 <= v < 2**30 - 1:
            raise ValueError(f"no signal holds gate {v}")
        return Signal(2 * (v + 1))

    def is_constant(self) -> bool:
        return self.cell < 2

    def is_input(self) -> bool:
        return self.cell >= 0x80000000

    def is_var(self) -> bool:
        return not self.is_constant() and not self.is_input()

    def is_inverted(self) -> bool:
        """Whether it is inverted; constant one is zero inverted."""
        return self.cell % 2 == 1

    def number(self) -> int:
        """The number of the input or gate, or the constant's value."""
        if self.is_constant():
            return self.cell
        return (0xFFFFFFFF - self.cell) // 2 if self.is_input() else self.cell // 2 - 1

    def __invert__(self) -> "Signal":
        return Signal(self.cell ^ 1)

    def __str__(self) -> str:
        if self.is_constant():
            return str(self.cell)
        return f"{'!' if self.is_inverted() else ''}{'i' if self.is_input() else 'x'}{self.number()}"


ZERO = Signal(0)
ONE = Signal(1)


class Gate(NamedTuple):
    """A gate: one of FORMS, the signals of its inputs, and its start value. The inputs of a Dff are data, enable and reset, and its start
    value is 0 or 1; that of every other gate is 0."""

    form: str
    pins: Tuple[Signal, ...]
    start: int = 0

    def __str__(self) -> str:
        start = [f"start={self.start}"] if self.start else []
        return f"{self.form.split()[-1]}({', '.join([*map(str, self.pins), *start])})"


class Network(NamedTuple):
    """How many inputs there are, the gates in order and the outputs' signals."""

    inputs: int
    gates: List[Gate]
    outputs: List[Signal]

    def run(self, rows: Union[bytes, Iterable[Iterable[int]]]) -> Union[bytes, List[List[int]]]:
        """Runs the network for one clock after the other, from the flip-flops' start values. There is a row for each clock, and there may be
        any number of them.

        A bytes-like object of one dimension is the text of the rows: a character 0 or 1 for each input, in order, and an LF. The answer is
        such a text, of a row of outputs for each clock. Anything else is taken as rows of bits, 0 or 1 or a bool for each input, and the
        answer is a list with a list of bits for each clock.

        >>> lock = read(b".inputs wrong\\n.outputs locked\\n.names wrong locked next\\n00 0\\n.latch next locked 0\\n")
        >>> lock.run(b"0\\n1\\n0\\n0\\n")
        b'0\\n0\\n1\\n1\\n'
        >>> lock.run([[False], [True], [False], [False]])
        [[0], [0], [1], [1]]

        A network that was read can be run; one of the caller's has to be sorted, with flip-flops of the enable one and the reset zero. The
        refusals are 20, 29, 30 and 31, and their detail says what is wrong; a row of the wrong length and a bit that is neither 0 nor 1
        are 31. What is no list of bits is a TypeError, and a gate or a signal that is none is an error as it is to write()."""
        text = _text_of(rows)
        if text is not None:
            return _run(self, text)
        text, wrong = _text_of_bits(rows, self.inputs)
        return [[character - 48 for character in row] for row in _run(self, text, wrong).splitlines()]


class Report(NamedTuple):
    """The report for a pass log: the part that a sheet names, how many commands the sheet has, and how many of them an interlock accepts
    and rejects. Its str() is the four lines that the program passreport prints, each ended by LF."""

    part: str
    commands: int
    accepted: int
    rejected: int

    def __str__(self) -> str:
        return "".join(f"{name}={value}\n" for name, value in zip(self._fields, self))


class NetworkAnswer(ctypes.Structure):
    """The struct that vumneath_read_blif answers."""

    _fields_ = [(name, ctypes.c_uint32) for name in ("refused", "inputs", "gates", "pins", "outputs")]


class TextAnswer(ctypes.Structure):
    """The struct that vumneath_write_blif answers."""

    _fields_ = [(name, ctypes.c_uint32) for name in ("refused", "length")]


class RowsAnswer(ctypes.Structure):
    """The struct that vumneath_run answers."""

    _fields_ = [("refused", ctypes.c_uint32), ("length", ctypes.c_size_t)]


def _checked(path: str) -> ctypes.CDLL:
    """The library of a file, if it has the interface of this module. One of interface 1 does not tell its own."""
    library = ctypes.CDLL(path)
    try:
        tell = library.vumneath_interface
    except AttributeError:
        found = "no function vumneath_interface"
    else:
        tell.argtypes, tell.restype = [], ctypes.c_uint32
        if tell() == INTERFACE:
            return library
        found = f"the interface {tell()}"
    raise ImportError(f"{path} has {found}, and this module is for the interface {INTERFACE}: ./install PREFIX installs both together")


def _load() -> ctypes.CDLL:
    here, name = os.path.dirname(os.path.realpath(__file__)), f"libvumneath.so.{INTERFACE}"
    named = os.environ.get("VUMNEATH_LIB")
    near = [os.path.join(here, "../../../lib"), os.path.join(here, "../../target/bindings/installed/lib")]
    paths = [named] if named else [os.path.normpath(os.path.join(folder, name)) for folder in near]
    for path in paths:
        if os.path.isfile(path):
            return _checked(path)
    raise ImportError(f"no shared library at {' or '.join(paths)}: ./install PREFIX makes PREFIX/lib/{name}; set VUMNEATH_LIB to it")


_library = _load()
_cells, _bytes, _size, _number = ctypes.POINTER(ctypes.c_uint32), ctypes.POINTER(ctypes.c_uint8), ctypes.c_size_t, ctypes.c_uint32
_library.vumneath_read_blif.argtypes = [_bytes, _size] + [_cells, _size] * 5
_library.vumneath_read_blif.restype = NetworkAnswer
_library.vumneath_write_blif.argtypes = [_number] * 4 + [_cells, _size] * 3 + [_bytes, _size]
_library.vumneath_write_blif.restype = TextAnswer
_library.vumneath_run.argtypes = [_number] * 4 + [_cells, _size] * 3 + [_bytes, _size] * 2
_library.vumneath_run.restype = RowsAnswer


def read_cells(text, gates, pins, outputs, work_gates, work_pins) -> NetworkAnswer:
    """vumneath_read_blif over ctypes arrays: the text of c_uint8, the five others of c_uint32. The C header tells how a network
    lies in cells."""
    lent = (text, gates, pins, outputs, work_gates, work_pins)
    return _library.vumneath_read_blif(*(part for array in lent for part in (array, len(array))))


def _fitting(numbers):
    """Counts or start values for the library; one that 32 bits do not hold becomes the largest that they do, which is refused as well."""
    return [n if 0 <= n < 2**32 else 2**32 - 1 for n in numbers]


def write_cells(counts, gates, pins, outputs, out) -> TextAnswer:
    """vumneath_write_blif over four counts (inputs, gates, pins, outputs) and ctypes arrays. A count that 32 bits do not hold becomes
    the largest that they do, which is refused as well."""
    lent = (gates, pins, outputs, out)
    return _library.vumneath_write_blif(*_fitting(counts), *(part for array in lent for part in (array, len(array))))


def run_cells(counts, gates, pins, outputs, rows, out) -> RowsAnswer:
    """vumneath_run over four counts, as write_cells() takes them, and ctypes arrays: the rows and the rows of outputs of c_uint8."""
    lent = (gates, pins, outputs, rows, out)
    return _library.vumneath_run(*_fitting(counts), *(part for array in lent for part in (array, len(array))))


def _bytes_of(text, call: str) -> bytes:
    """All bytes of a bytes-like object: also of one whose items have several bytes, or whose items do not lie side by side. Call is the
    name of the function that was given it."""
    try:
        return memoryview(text).tobytes()
    except TypeError:
        raise TypeError(f"{call}() wants a bytes-like object, such as bytes or bytearray, not {type(text).__name__}") from None


def read(text: bytes) -> Network:
    """Reads a BLIF text: all bytes of a bytes-like object. Flip-flops come first, then every other gate behind those that it takes its
    inputs from. Where .latch has three words behind it the third is the start value, where it has five or more the fifth, and else it is
    0; 2 and 3 are read as 0, and any other word there is refused with 34. A latch's type and control are ignored."""
    data = _bytes_of(text, "read")
    lent = [(ctypes.c_uint32 * n)() for n in (MAX_GATES * GATE_CELLS, MAX_PINS, MAX_OUTPUTS, MAX_GATES * GATE_CELLS, MAX_PINS)]
    answer = read_cells((ctypes.c_uint8 * len(data)).from_buffer_copy(data), *lent)
    if answer.refused:
        raise Refusal(answer.refused)
    records = [lent[0][g * GATE_CELLS : (g + 1) * GATE_CELLS] for g in range(answer.gates)]
    gates = [Gate(FORMS[form - 1], tuple(map(Signal, lent[1][first : first + n])), start) for form, first, n, start in records]
    return Network(answer.inputs, gates, [Signal(cell) for cell in lent[2][: answer.outputs]])


def _number_of(value, place: str) -> int:
    """A whole number; place says where it stands."""
    try:
        return operator.index(value)
    except TypeError:
        raise TypeError(f"{place} is no whole number but {value!r}") from None


def _lend(signals, place: str) -> List[int]:
    """The cells of signals; place says where they stand."""
    cells = []
    for i, signal in enumerate(signals):
        if not isinstance(signal, Signal):
            raise TypeError(f"{place} {i} is no Signal but {signal!r}")
        cell = _number_of(signal.cell, f"the cell of {place} {i}")
        if not 0 <= cell < 2**32:
            raise ValueError(f"the cell of {place} {i} is no number of 32 bits but {cell}")
        cells.append(cell)
    return cells


def _wrong_with(network: Network) -> str:
    """What a network that was refused with 20 has wrong; the first thing found."""
    pins = [len(gate.pins) for gate in network.gates]
    for what, count, limit in (
        ("inputs", network.inputs, MAX_INPUTS), ("outputs", len(network.outputs), MAX_OUTPUTS),
        ("gates", len(pins), MAX_GATES), ("pins", sum(pins), MAX_PINS),
    ):
        if not 0 <= count <= limit:
            return f"{count} {what}, where 0 to {limit} are possible"
    for v, gate in enumerate(network.gates):
        wanted = _PIN_COUNTS.get(gate.form.split()[0])
        if wanted is not None and len(gate.pins) != wanted:
            return f"gate {v}, {gate.form}, has {len(gate.pins)} pins and not {wanted}"
        if not 0 <= gate.start <= (gate.form == "Dff"):
            possible = "0 or 1" if gate.form == "Dff" else "only 0"
            return f"gate {v}, {gate.form}, has the start value {gate.start}, where {possible} is possible"
    users = [(f"gate {v}", gate.pins) for v, gate in enumerate(network.gates)] + [("an output", network.outputs)]
    for user, signals in users:
        for signal in signals:
            count = network.inputs if signal.is_input() else len(pins)
            if not signal.is_constant() and signal.number() >= count:
                return f"{user} takes {signal}, which there is not"
    return ""


def _not_sorted(network: Network) -> str:
    """The first pin for which a network was refused with 29."""
    for v, gate in enumerate(network.gates):
        for signal in gate.pins:
            if gate.form != "Dff" and signal.is_var() and signal.number() >= v:
                return f"gate {v} takes {signal}"
    return ""


def _other_flip_flop(network: Network) -> str:
    """The first flip-flop for which a network was refused with 30."""
    for v, gate in enumerate(network.gates):
        if gate.form == "Dff" and tuple(gate.pins[1:]) != (ONE, ZERO):
            return f"gate {v} has the enable {gate.pins[1]} and the reset {gate.pins[2]}"
    return ""


_DETAILS = {20: _wrong_with, 29: _not_sorted, 30: _other_flip_flop}


def _lend_network(network: Network):
    """The counts of a network, and ctypes arrays with its gates, pins and outputs."""
    records, pins = [], []
    for v, gate in enumerate(network.gates):
        if gate.form not in FORMS:
            raise ValueError(f"gate {v} has the form {gate.form!r}, which is none of vumneath.FORMS: {', '.join(FORMS)}")
        start = _number_of(gate.start, f"the start value of gate {v}")
        records += [FORMS.index(gate.form) + 1, len(pins), len(gate.pins), *_fitting([start])]
        pins += _lend(gate.pins, f"gate {v}, pin")
    lent = [(ctypes.c_uint32 * len(part))(*part) for part in (records, pins, _lend(network.outputs, "output"))]
    inputs = _number_of(network.inputs, "the number of inputs")
    return (inputs, len(network.gates), len(pins), len(network.outputs)), lent


def _refuse(number: int, network: Network) -> None:
    """Raises the refusal of a network; 0 is none."""
    if number:
        raise Refusal(number, _DETAILS[number](network) if number in _DETAILS else "")


def write(network: Network) -> bytes:
    """Writes a network, read or made by the caller, as a BLIF text. What is no network is refused with 20, and the refusal's detail says
    why. A form that is none of FORMS and a cell over 32 bits are a ValueError; a pin that is no Signal and a start value that is no whole
    number are a TypeError."""
    counts, lent = _lend_network(network)
    out = (ctypes.c_uint8 * MAX_TEXT)()
    answer = write_cells(counts, *lent, out)
    _refuse(answer.refused, network)
    return bytes(out[: answer.length])


# What is a row of no network, since no LF ends it.
_NO_ROW = b"0"


def _text_of(rows) -> Optional[bytes]:
    """All bytes of a bytes-like object of one dimension; none of another object."""
    try:
        view = memoryview(rows)
    except TypeError:
        return None
    return view.tobytes() if view.ndim == 1 else None


def _each(items, otherwise: str):
    """An iterator over the items of a list; otherwise says what is wrong where it is none."""
    if not isinstance(items, str):
        try:
            return iter(items)
        except TypeError:
            pass
    raise TypeError(f"{otherwise} but {items!r}")


def _text_of_bits(rows, inputs: int) -> Tuple[bytes, str]:
    """The text of rows of bits. Where a row is wrong: what is a row of no network, and what is wrong with the first that is."""
    text = bytearray()
    for i, row in enumerate(_each(rows, "what run() is given is neither a bytes-like object nor a list of rows")):
        bits = list(_each(row, f"row {i} is no list of bits"))
        if len(bits) != inputs:
            return _NO_ROW, f"row {i} has {len(bits)} bits, where {inputs} are wanted"
        for k, bit in enumerate(bits):
            if bit not in (0, 1):
                return _NO_ROW, f"row {i} has {bit!r} at place {k}, where 0 or 1 is wanted"
        text += bytes(49 if bit == 1 else 48 for bit in bits) + b"\n"
    return bytes(text), ""


def _wrong_row(text: bytes, inputs: int) -> str:
    """What is wrong with rows that were refused with 31; the first thing found."""
    for start in range(0, len(text), inputs + 1):
        for k in range(inputs + 1):
            found, wanted = text[start + k : start + k + 1], (b"\n",) if k == inputs else (b"0", b"1")
            if found not in wanted:
                place = f"row {start // (inputs + 1)} has {found or 'nothing'} at place {k}"
                return f"{place}, where {'an LF' if k == inputs else '0 or 1'} is wanted"
    return ""


def _run(network: Network, text: bytes, wrong: str = "") -> bytes:
    """The rows of outputs for a text of rows; wrong says what is wrong with the bits that it was made of."""
    counts, lent = _lend_network(network)
    inputs, outputs = counts[0], counts[3]
    clocks = len(text) // (inputs + 1) if 0 <= inputs <= MAX_INPUTS else 0
    out = (ctypes.c_uint8 * (clocks * (outputs + 1)))()
    answer = run_cells(counts, *lent, (ctypes.c_uint8 * len(text)).from_buffer_copy(text), out)
    if answer.refused == 31:
        raise Refusal(31, wrong or _wrong_row(text, inputs))
    _refuse(answer.refused, network)
    return memoryview(out)[: answer.length].tobytes()


def _wrong_head(lines: List[bytes], number: int, wanted: str) -> Refusal:
    """The refusal of a sheet whose line of this number, counted from 1, is missing or misformed; wanted says what it has to be."""
    if number > len(lines):
        return Refusal(32, f"line {number} is missing, where {wanted} is wanted")
    line = lines[number - 1]
    return Refusal(32, f"line {number} is {line[:32]!r}{' and so on' if line[32:] else ''}, where {wanted} is wanted")


def _sheet_of(text: bytes) -> Tuple[str, int, bytes]:
    """The part, the number of command rows and the text of these rows that a sheet has. What is no sheet is refused with 32."""
    if len(text) > MAX_SHEET:
        raise Refusal(32, f"{len(text)} bytes, where at most {MAX_SHEET} are possible")
    *lines, behind = text.split(b"\n")
    if behind:
        raise Refusal(32, f"line {len(lines) + 1} has no LF at its end")
    first, second = (lines + [b"", b""])[:2]
    part = re.fullmatch(rb"part=([A-Za-z0-9]{1,16})", first)
    if not part:
        raise _wrong_head(lines, 1, "part= with 1 to 16 letters or digits")
    count = re.fullmatch(rb"rows=([1-9][0-9]{0,2})", second)
    if not count or int(count[1]) > MAX_COMMANDS:
        raise _wrong_head(lines, 2, f"rows= with a number from 1 to {MAX_COMMANDS} without leading zeros")
    commands, found = int(count[1]), len(lines) - 2
    if found != commands:
        wrong = f"line {len(lines) + 1} is missing" if found < commands else f"line {commands + 3} is left over"
        raise Refusal(32, f"{wrong}: line 2 is {second!r}, and there are {found} command rows")
    return part[1].decode("ascii"), commands, text[len(first) + len(second) + 2 :]


def report(netlist: bytes, sheet: bytes) -> Report:
    """The report for a pass log, as the program passreport gives it for the files netlist.blif and sheet.txt: runs the commands of a sheet
    on a netlist, from the flip-flops' start values, and counts the rows at which the first output is 1 and those at which it is 0.

    A sheet is the line part= with 1 to 16 ASCII letters or digits, the line rows= with a number from 1 to 128 without leading zeros, and so
    many command rows: a character 0 or 1 for each input of the netlist, in order. An LF ends each line, and nothing stands behind the last.

    >>> netlist = b".inputs arm fire safe\\n.outputs go\\n.names arm fire safe go\\n110 1\\n"
    >>> report(netlist, b"part=ADCS7\\nrows=3\\n110\\n111\\n010\\n")
    Report(part='ADCS7', commands=3, accepted=1, rejected=2)
    >>> print(report(netlist, b"part=ADCS7\\nrows=3\\n110\\n111\\n010\\n"), end="")
    part=ADCS7
    commands=3
    accepted=1
    rejected=2

    The refusals are, in this order, 32 where the sheet is none, those of read(), 33 where the network has no output, and 31 where a command
    row has another length or another character. The detail of 32 names the sheet's line, counted from 1; that of 31 names the command row,
    counted from 0 as run() does."""
    netlist, sheet = _bytes_of(netlist, "report"), _bytes_of(sheet, "report")
    part, commands, rows = _sheet_of(sheet)
    network = read(netlist)
    if not network.outputs:
        raise Refusal(33)
    first = network.run(rows)[:: len(network.outputs) + 1]
    return Report(part, commands, first.count(b"1"), first.count(b"0"))
