"""The tests of the Python module: stored texts, networks, rows and sheets with their answers, and calls by hand.

Usage: python3 test_vumneath.py
"""

import array
import copy
import ctypes
import doctest
import multiprocessing
import os
import pickle
import re
import string
import types
import unittest
import unittest.mock

import vumneath
from vumneath import GATE_CELLS, MAX_GATES, MAX_OUTPUTS, MAX_PINS, ONE, ZERO, Gate, Network, Refusal, Signal

HERE = os.path.dirname(os.path.realpath(__file__))
GUARD = 16
ENOUGH = (MAX_GATES * GATE_CELLS, MAX_PINS, MAX_OUTPUTS, MAX_GATES * GATE_CELLS, MAX_PINS)
GOOD = b".model m\n.inputs a b c\n.outputs y q\n.names a b c y\n11- 1\n0-1 1\n.latch y q 0\n.end\n"


def stored(path):
    with open(os.path.join(HERE, "../../crates", path), "rb") as file:
        return file.read()


class Guarded:
    """An array of so many cells or bytes that are all ones, in a block with guards on both sides."""

    def __init__(self, kind, count):
        self.size = ctypes.sizeof(kind)
        self.block = bytearray(b"\x5c" * GUARD + b"\xff" * (count * self.size) + b"\x5c" * GUARD)
        self.part = (kind * count).from_buffer(self.block, GUARD)

    def unharmed(self, used):
        """Whether the guards are as they were and all is zero behind the part in use."""
        ends = GUARD + used * self.size, GUARD + len(self.part) * self.size
        guards = self.block[:GUARD] + self.block[ends[1] :]
        return guards == b"\x5c" * (2 * GUARD) and not self.block[ends[0] : ends[1]].strip(b"\0")


def read_guarded(text, sizes=ENOUGH):
    """What reading answers, in the notation of the stored answers; 'harmed' where another cell was changed or is not zero."""
    lent = [Guarded(ctypes.c_uint32, n) for n in sizes]
    answer = vumneath.read_cells((ctypes.c_uint8 * len(text)).from_buffer_copy(text), *(each.part for each in lent))
    used = (answer.gates * GATE_CELLS, answer.pins, answer.outputs, 0, 0)
    if not all(each.unharmed(n) for each, n in zip(lent, used)):
        return "harmed"
    if answer.refused:
        return f"refused={answer.refused}\n"
    said = f"counts {answer.inputs} {answer.gates} {answer.pins} {answer.outputs}\n"
    for word, each, n in zip(("gates", "pins", "outputs"), lent, used):
        said += word + "".join(f" {cell:x}" for cell in each.part[:n]) + "\n"
    return said


def write_guarded(counts, cells, room):
    """What writing answers, in the notation of the stored answers; 'harmed' where another byte or a cell was changed."""
    out = Guarded(ctypes.c_uint8, room)
    lent = [(ctypes.c_uint32 * len(part))(*part) for part in cells]
    answer = vumneath.write_cells(counts, *lent, out.part)
    if not out.unharmed(answer.length) or [list(part) for part in lent] != cells:
        return b"harmed"
    if answer.refused:
        return b"refused=%d\n" % answer.refused
    return b"length=%d\n" % answer.length + bytes(out.part[: answer.length])


def run_guarded(counts, cells, rows, room):
    """What a run answers, in the notation of the stored answers; 'harmed' where another byte, a cell or a row was changed."""
    out = Guarded(ctypes.c_uint8, room)
    lent = [(ctypes.c_uint32 * len(part))(*part) for part in cells]
    text = (ctypes.c_uint8 * len(rows)).from_buffer_copy(rows)
    answer = vumneath.run_cells(counts, *lent, text, out.part)
    unchanged = [list(part) for part in lent] == cells and bytes(text) == rows
    if not unchanged or not out.unharmed(answer.length) or (answer.refused and answer.length):
        return b"harmed"
    if answer.refused:
        return b"refused=%d\n" % answer.refused
    return b"length=%d\n" % answer.length + bytes(out.part[: answer.length])


def stored_reports():
    """The stored netlists and sheets, each with the cells that are lent of each kind."""
    listed, at = stored("report_replay/stdin"), 9
    for _ in range(int(listed[:8], 16)):
        words = [int(word, 16) for word in listed[at : at + 72].split()]
        between, end = at + 72 + words[6], at + 72 + words[6] + words[7]
        yield words[1:6], listed[at + 72 : between], listed[between:end]
        at = end
    if at != len(listed):
        raise ValueError(f"the list of reports has {len(listed) - at} bytes behind the last")


def printed(netlist, sheet):
    """The bytes that passreport prints for two texts, by the module: those of the report, or of the refusal's line."""
    try:
        return str(vumneath.report(netlist, sheet)).encode("ascii")
    except Refusal as refusal:
        return b"refused=%d\n" % refusal.number


def number(call, *arguments):
    """The refusal's number, or 0."""
    try:
        call(*arguments)
    except Refusal as refusal:
        return refusal.number
    return 0


class Replay(unittest.TestCase):
    def test_stored_texts(self):
        answers = re.split(rb"^(?:text \d+|short)\n", stored("read_replay/stdout"), flags=re.M)[1:]
        texts, at = stored("read_replay/stdin"), 9
        for i in range(int(texts[:8], 16)):
            length = int(texts[at : at + 8], 16)
            text, at = texts[at + 9 : at + 9 + length], at + 9 + length
            sizes = ENOUGH if i % 2 == 0 else [n + 1 for n in ENOUGH]
            self.assertEqual(read_guarded(text, sizes), answers[i].decode("ascii"), f"text {i}")
        self.assertEqual(at, len(texts))

    def test_stored_networks(self):
        answers = re.split(rb"^network \d+\n", stored("write_replay/stdout"), flags=re.M)[1:]
        words = iter([int(word, 16) for word in stored("write_replay/stdin").split()])
        for i in range(next(words)):
            counts = [next(words) * 2**32 + next(words) for _ in range(4)]
            room, *sizes = [next(words) for _ in range(4)]
            cells = [[next(words) for _ in range(n)] for n in sizes]
            self.assertEqual(write_guarded(counts, cells, room), answers[i], f"network {i}")
        self.assertEqual(list(words), [])

    def test_stored_runs(self):
        answers = re.split(rb"^network \d+\n", stored("run_replay/stdout"), flags=re.M)[1:]
        listed, at = stored("run_replay/stdin"), 0

        def take(count):
            nonlocal at
            at += 9 * count
            return [int(word, 16) for word in listed[at - 9 * count : at].split()]

        for i in range(*take(1)):
            words = take(8)
            room, *sizes = take(4)
            cells = [take(n) for n in sizes]
            (length,) = take(1)
            at += length
            counts = [upper * 2**32 + lower for upper, lower in zip(words[::2], words[1::2])]
            self.assertEqual(run_guarded(counts, cells, listed[at - length : at], room), answers[i], f"network {i}")
        self.assertEqual(at, len(listed))

    def test_stored_reports(self):
        answers = re.split(rb"^report \d+\n", stored("report_replay/stdout"), flags=re.M)[1:]
        left_out = 0
        for i, (sizes, netlist, sheet) in enumerate(stored_reports()):
            # a report that is cut, since the bytes lent for it are fewer, and one for which too few cells are lent: nothing is lent here
            if answers[i].endswith(b"cut\n") or any(lent < wanted for lent, wanted in zip(sizes, ENOUGH)):
                left_out += 1
                continue
            said = printed(netlist, sheet)
            self.assertEqual(b"length=%d\n" % len(said) + said, answers[i], f"report {i}")
        self.assertLess(left_out * 4, len(answers))
        self.assertEqual(len(list(stored_reports())), len(answers))


class Calls(unittest.TestCase):
    def test_damaged(self):
        for i in range(len(GOOD)):
            self.assertNotEqual(read_guarded(GOOD[:i]), "harmed")
            self.assertEqual(read_guarded(GOOD[:i] + b"\x80" + GOOD[i + 1 :]), "refused=3\n")

    def test_behind_end(self):
        for rest in b".model n\n.inputs a\n", b"notes, in words\n", b".names\n2 2\n":
            self.assertEqual(read_guarded(GOOD + rest), read_guarded(GOOD))
        for rest, refused in (b".gate", 5), (b".model", 4), (b"\x80", 3):
            self.assertEqual(read_guarded(GOOD + rest), f"refused={refused}\n")

    def test_short(self):
        for i in range(5):
            self.assertEqual(read_guarded(GOOD, [n - (kind == i) for kind, n in enumerate(ENOUGH)]), "refused=1\n")
        cells = [[13, 0, 1, 0], [0xFFFFFFFE], [2]]
        text = write_guarded((1, 1, 1, 1), cells, 32768)
        length = len(text) - len(b"length=NNN\n")
        self.assertEqual(write_guarded((1, 1, 1, 1), cells, length), text)
        self.assertEqual(write_guarded((1, 1, 1, 1), cells, length - 1), b"refused=22\n")
        for i in range(3):
            one_short = [part[:-1] if kind == i else part for kind, part in enumerate(cells)]
            self.assertEqual(write_guarded((1, 1, 1, 1), one_short, 32768), b"refused=20\n")
        self.assertEqual(write_guarded((2**32 + 1, 1, 1, 1), cells, 32768), b"refused=20\n")

    def test_largest(self):
        self.assertEqual([number(vumneath.read, b" " * n) for n in (32768, 32769)], [0, 2])
        for limit, before, each in ((256, ".inputs", " n{}"), (1024, "", ".names n{}\n")):
            texts = [before + "".join(each.format(i) for i in range(n)) for n in (limit, limit + 1)]
            self.assertEqual([number(vumneath.read, text.encode()) for text in texts], [0, 6])

    def test_networks_of_the_caller(self):
        a, b, c = Signal.from_input(0), ~Signal.from_input(1), Signal.from_var(13)
        pins = {"Binary": (a, b), "Ternary": (a, b, c), "Nary": (a, b, c, ONE), "Buf": (b,), "Dff": (a, b, c)}
        gates = [Gate(form, pins[form.split()[0]]) for form in vumneath.FORMS]
        self.assertIn(b".flop D=i0 Q=x13 init=0 E=i1_n R=x13\n", vumneath.write(Network(2, gates, [~c, ZERO])))
        for inputs in (257, -1, 2**32):
            self.assertEqual(number(vumneath.write, Network(inputs, [], [])), 20)
        self.assertEqual(number(vumneath.write, Network(0, [Gate("Binary And", (ONE,))], [])), 20)
        self.assertEqual(number(vumneath.write, Network(0, [Gate("Nary Xor", (ONE,) * 13)], [])), 21)
        self.assertEqual(number(vumneath.write, Network(0, [Gate("Nary And", (ONE,) * 16384)], [])), 22)
        for network in (Network(0, [Gate("Lut", ())], []), Network(0, [], [Signal(2**32)]), Network(0, [], [Signal(-1)])):
            self.assertRaises(ValueError, vumneath.write, network)

    def test_read_and_write(self):
        network = vumneath.read(GOOD)
        self.assertEqual(vumneath.read(vumneath.write(network)).inputs, network.inputs)
        self.assertEqual(vumneath.read(b""), Network(0, [], []))

    def test_bytes_like(self):
        text = GOOD + b" " * (-len(GOOD) % 24)
        network, words = vumneath.read(text), array.array("I", text)
        spread = memoryview(bytes(byte for pair in zip(text, b"#" * len(text)) for byte in pair))
        kinds = [
            bytearray(text), array.array("b", text), array.array("Q", text), words, memoryview(text).cast("d"),
            memoryview(text).cast("I", (len(text) // 24, 6)), (ctypes.c_uint32 * len(words))(*words), spread[::2],
            memoryview(text[::-1])[::-1], memoryview(array.array("I", words[::-1]))[::-1],
        ]
        for kind in kinds:
            self.assertEqual(vumneath.read(kind), network, repr(kind))
        self.assertEqual(number(vumneath.read, array.array("Q", bytes(32776))), 2)
        self.assertEqual(vumneath.read(array.array("I")), vumneath.read(b""))
        for other, said in ((text.decode(), "str"), (None, "NoneType"), (list(text), "list"), (7, "int")):
            self.assertRaisesRegex(TypeError, rf"^read\(\) wants a bytes-like object, .* not {said}$", vumneath.read, other)

    def test_messages(self):
        a, messages = Signal.from_input(0), []
        for inputs, form, pins in (
            (1, "Lut", ()), (1, None, ()), (1, "Buf", ("a",)), (1, "Buf", (a, 4)), (1, "Buf", (Signal("a"),)), (1, "Buf", (Signal(0.5),)),
            (1, "Buf", (Signal(2**32),)), ("one", "Buf", (a,)), (1, "Binary And", (a,)), (1, "Dff", (a,) * 4), (1, "Buf", ()),
            (1, "Buf", (~Signal.from_input(1),)), (1, "Buf", (Signal.from_var(1),)), (257, "Buf", (a,)), (-1, "Buf", (ONE,)),
            (1, "Nary Or", (a,) * 16385),
        ):
            with self.assertRaises((ValueError, TypeError, Refusal)) as raised:
                vumneath.write(Network(inputs, [Gate(form, pins)], []))
            messages.append(f"{type(raised.exception).__name__}: {raised.exception}")
        forms, twenty = ", ".join(vumneath.FORMS), "Refusal: refused=20: what is lent is no network "
        self.assertEqual(messages, [
            f"ValueError: gate 0 has the form 'Lut', which is none of vumneath.FORMS: {forms}",
            f"ValueError: gate 0 has the form None, which is none of vumneath.FORMS: {forms}",
            "TypeError: gate 0, pin 0 is no Signal but 'a'",
            "TypeError: gate 0, pin 1 is no Signal but 4",
            "TypeError: the cell of gate 0, pin 0 is no whole number but 'a'",
            "TypeError: the cell of gate 0, pin 0 is no whole number but 0.5",
            "ValueError: the cell of gate 0, pin 0 is no number of 32 bits but 4294967296",
            "TypeError: the number of inputs is no whole number but 'one'",
            twenty + "(gate 0, Binary And, has 1 pins and not 2)",
            twenty + "(gate 0, Dff, has 4 pins and not 3)",
            twenty + "(gate 0, Buf, has 0 pins and not 1)",
            twenty + "(gate 0 takes !i1, which there is not)",
            twenty + "(gate 0 takes x1, which there is not)",
            twenty + "(257 inputs, where 0 to 256 are possible)",
            twenty + "(-1 inputs, where 0 to 256 are possible)",
            twenty + "(16385 pins, where 0 to 16384 are possible)",
        ])
        self.assertRaisesRegex(TypeError, "^output 0 is no Signal but 2$", vumneath.write, Network(0, [], [2]))
        with self.assertRaises(Refusal) as raised:
            vumneath.write(Network(0, [], [ONE, ~a]))
        self.assertEqual(raised.exception.detail, "an output takes !i0, which there is not")

    def test_refusals_are_copied(self):
        for refusal in [Refusal(n) for n in vumneath.REFUSALS] + [Refusal(20, "257 inputs")]:
            copies = [copy.copy(refusal), copy.deepcopy(refusal)]
            copies += [pickle.loads(pickle.dumps(refusal, protocol)) for protocol in range(pickle.HIGHEST_PROTOCOL + 1)]
            for each in copies:
                self.assertEqual((type(each), each.args, vars(each), str(each)), (Refusal, refusal.args, vars(refusal), str(refusal)))
        self.assertEqual(str(Refusal(7)), "refused=7: there is a second .model before any .end")
        self.assertEqual(repr(Refusal(7)), "Refusal(7)")

    def test_refusals_from_other_processes(self):
        with multiprocessing.Pool(1) as pool:
            self.assertEqual(pool.apply_async(vumneath.read, (GOOD,)).get(60), vumneath.read(GOOD))
            for text, wanted in ((b".end", 8), (b"\x80", 3)):
                with self.assertRaises(Refusal) as raised:
                    pool.apply_async(vumneath.read, (text,)).get(60)
                self.assertEqual(raised.exception.number, wanted)
            with self.assertRaises(Refusal) as raised:
                pool.apply_async(vumneath.write, (Network(257, [], []),)).get(60)
            self.assertEqual(raised.exception.detail, "257 inputs, where 0 to 256 are possible")

    def test_signals(self):
        self.assertEqual([Signal.from_input(1).cell, Signal.from_var(1).cell], [0xFFFFFFFC, 4])
        self.assertEqual([str(s) for s in (ZERO, ONE, ~Signal.from_input(3), Signal.from_var(4))], ["0", "1", "!i3", "x4"])
        self.assertRaises(ValueError, Signal.from_var, 2**30)
        self.assertRaises(ValueError, Signal.from_input, -1)

    def test_refusals_of_the_header(self):
        with open(os.path.join(HERE, "../c/vumneath.h"), encoding="ascii") as file:
            lines = re.findall(r"^#define VUMNEATH_REFUSED_(\w+) +(\d+) +/\* (.*) \*/$", file.read(), flags=re.M)
        refusals = [Refusal(n) for n in vumneath.REFUSALS]
        self.assertEqual([(each.name.upper(), str(each.number), each.sentence) for each in refusals],
                         [(constant.replace("_", ""), n, sentence) for constant, n, sentence in lines])

    def test_doc(self):
        self.assertEqual(doctest.testmod(vumneath).failed, 0)


def i(v):
    return Signal.from_input(v)


def x(v):
    return Signal.from_var(v)


def flop(data, enable=ONE, reset=ZERO):
    return Gate("Dff", (data, enable, reset))


def runnable(**changed):
    """x0 = And(i0, i1), x1 = Dff(x3, 1, 0), x2 = Xor(x0, x1), x3 = Or(x2, !i1), with gates changed by their names."""
    gates = [Gate("Binary And", (i(0), i(1))), flop(x(3)), Gate("Binary Xor", (x(0), x(1))), Gate("Nary Or", (x(2), ~i(1)))]
    return Network(2, [changed.get(f"x{v}", gate) for v, gate in enumerate(gates)], [x(3), ~x(1), i(0), ONE])


class Runs(unittest.TestCase):
    TEXT = b"00\n01\n11\n11\n10\n"
    BITS = [[0, 0], [0, 1], [1, 1], [1, 1], [1, 0]]
    RAN = b"1101\n1001\n0011\n1111\n1011\n"
    RAN_BITS = [[1, 1, 0, 1], [1, 0, 0, 1], [0, 0, 1, 1], [1, 1, 1, 1], [1, 0, 1, 1]]

    def test_bytes_and_bits(self):
        network = runnable()
        self.assertEqual(network.run(self.TEXT), self.RAN)
        for text in (bytearray(self.TEXT), memoryview(self.TEXT), array.array("B", self.TEXT), memoryview(self.TEXT[::-1])[::-1]):
            self.assertEqual(network.run(text), self.RAN)
        two_dimensions = (ctypes.c_uint8 * 2 * 5)(*map(tuple, self.BITS))
        bools = [[bool(bit) for bit in row] for row in self.BITS]
        arrays = [array.array("i", row) for row in self.BITS]
        for rows in (self.BITS, tuple(map(tuple, bools)), map(iter, self.BITS), arrays, two_dimensions):
            self.assertEqual(network.run(rows), self.RAN_BITS)
        self.assertEqual(vumneath.read(vumneath.write(network)).run(self.BITS), self.RAN_BITS)

    def test_forms(self):
        bits = (
            "00000011", "00111100", "00000001", "01101001", "00010111", "01010011", "00000001", "01111111", "11111110", "10000000",
            "01101001", "10010110", "00001111", "00000111",
        )
        pins = {"Binary": (i(0), i(1)), "Buf": (i(0),), "Dff": (i(0), ONE, ZERO)}
        rows = [[k >> 2, k >> 1 & 1, k & 1] for k in range(8)]
        for form, wanted in zip(vumneath.FORMS, bits):
            network = Network(3, [Gate(form, pins.get(form.split()[0], (i(0), i(1), i(2))))], [x(0)])
            self.assertEqual("".join(str(bit) for row in network.run(rows) for bit in row), wanted, form)
        self.assertEqual(Network(1, [Gate("Nary Xor", (i(0),) * 13)], [x(0)]).run([[0], [1]]), [[0], [1]])

    def test_empty(self):
        self.assertEqual((runnable().run(b""), runnable().run([])), (b"", []))
        constant, silent, none = Network(0, [], [ONE, ZERO]), Network(1, [], []), Network(0, [], [])
        self.assertEqual((constant.run(b"\n\n"), constant.run([[], []])), (b"10\n10\n", [[1, 0], [1, 0]]))
        self.assertEqual((silent.run(b"0\n1\n"), silent.run([[0], [1]])), (b"\n\n", [[], []]))
        self.assertEqual((none.run(b"\n"), none.run([[]])), (b"\n", [[]]))

    def test_details(self):
        self_taking, other = Gate("Buf", (~x(2),)), flop(x(3), i(0))
        details = [
            (runnable(x2=Gate("Buf", (x(4),))), b"", 20, "gate 2 takes x4, which there is not"),
            (runnable(x2=Gate("Buf", (x(4),)), x1=other, x0=Gate("Buf", (x(0),))), b"x", 20, "gate 2 takes x4, which there is not"),
            (Network(257, [], []), b"x", 20, "257 inputs, where 0 to 256 are possible"),
            (Network(-1, [], []), b"x", 20, "-1 inputs, where 0 to 256 are possible"),
            (Network(-2, [], []), [[1]], 20, "-2 inputs, where 0 to 256 are possible"),
            (Network(2**32, [], []), [], 20, "4294967296 inputs, where 0 to 256 are possible"),
            (runnable(x2=self_taking), b"", 29, "gate 2 takes !x2"),
            (runnable(x0=Gate("Buf", (x(1),))), self.TEXT, 29, "gate 0 takes x1"),
            (runnable(x2=self_taking, x1=other), [[2]], 29, "gate 2 takes !x2"),
            (runnable(x1=other), b"", 30, "gate 1 has the enable i0 and the reset 0"),
            (runnable(x1=flop(x(0), ONE, ONE)), [[0]], 30, "gate 1 has the enable 1 and the reset 1"),
            (runnable(), b"00\n0", 31, "row 1 has nothing at place 1, where 0 or 1 is wanted"),
            (runnable(), b"00\n00", 31, "row 1 has nothing at place 2, where an LF is wanted"),
            (runnable(), b"00\n00\r", 31, "row 1 has b'\\r' at place 2, where an LF is wanted"),
            (runnable(), b"00\n00\r\n", 31, "row 1 has b'\\r' at place 2, where an LF is wanted"),
            (runnable(), b"00\n0\n", 31, "row 1 has b'\\n' at place 1, where 0 or 1 is wanted"),
            (runnable(), b"02\n", 31, "row 0 has b'2' at place 1, where 0 or 1 is wanted"),
            (Network(0, [], []), b"\n0", 31, "row 1 has b'0' at place 0, where an LF is wanted"),
            (runnable(), [[0, 0], [0]], 31, "row 1 has 1 bits, where 2 are wanted"),
            (runnable(), [[0, 0, 1]], 31, "row 0 has 3 bits, where 2 are wanted"),
            (runnable(), [[0, 0], [0, 2]], 31, "row 1 has 2 at place 1, where 0 or 1 is wanted"),
            (runnable(), [[0, -1]], 31, "row 0 has -1 at place 1, where 0 or 1 is wanted"),
            (runnable(), [[None, 0]], 31, "row 0 has None at place 0, where 0 or 1 is wanted"),
            (runnable(), [b"01"], 31, "row 0 has 48 at place 0, where 0 or 1 is wanted"),
        ]
        for network, rows, wanted, detail in details:
            with self.assertRaises(Refusal) as raised:
                network.run(rows)
            self.assertEqual((raised.exception.number, raised.exception.detail), (wanted, detail))

    def test_messages(self):
        for rows, said in (
            (7, "nor a list of rows but 7"), ("0\n", r"nor a list of rows but '0\\n'"), (None, "nor a list of rows but None"),
            ([[0, 0], 1], "row 1 is no list of bits but 1"), (["00"], "row 0 is no list of bits but '00'"),
        ):
            self.assertRaisesRegex(TypeError, f"{said}$", runnable().run, rows)
        self.assertRaises(ValueError, Network(0, [Gate("Lut", ())], []).run, b"")
        self.assertRaises(TypeError, Network("one", [], []).run, b"")
        self.assertRaises(TypeError, Network(0, [], [2]).run, [])

    def test_lent(self):
        counts, cells, rows = (1, 1, 1, 2), [[13, 0, 1, 0], [0xFFFFFFFE], [2, 3]], b"1\n0\n"
        for room in range(10):
            self.assertEqual(run_guarded(counts, cells, rows, room), b"refused=31\n" if room < 6 else b"length=6\n10\n01\n")
        for kind in range(3):
            one_short = [part[:-1] if kind == k else part for k, part in enumerate(cells)]
            self.assertEqual(run_guarded(counts, one_short, rows, 6), b"refused=20\n")
            one_more = [part + [99] if kind == k else part for k, part in enumerate(cells)]
            self.assertEqual(run_guarded(counts, one_more, rows, 6), b"length=6\n10\n01\n")
        self.assertEqual(run_guarded((2**32 + 1, 1, 1, 2), cells, rows, 6), b"refused=20\n")

    def test_interlocks(self):
        for name in ("lock", "locked"):
            files = []
            for kind in ("blif", "rows", "rows.out"):
                with open(os.path.join(HERE, "../netlists", f"{name}.{kind}"), "rb") as file:
                    files.append(file.read())
            network = vumneath.read(files[0])
            self.assertEqual(network.run(files[1]), files[2])
            self.assertEqual(vumneath.read(vumneath.write(network)).run(files[1]), files[2])


def latch(words):
    """A text with a latch that has these words behind its names."""
    return f".inputs d\n.outputs q\n.latch d q{words}\n".encode()


class Starts(unittest.TestCase):
    ZERO = ("", " 0", " 2", " 3", " re clk", " re 1", " 1 1", " re clk 0", " re clk 2", " re clk 3", " re clk 0 1", " 1 1 0 1 1")
    ONE = (" 1", " re clk 1", " as NIL 1", " re clk 1 0", " 4 4 1", "\t1 ", " 1# 4", " \\\n1")
    WRONG = (" 4", " re", " clk", " 00", " 01", " 11", " -1", " one", " re clk 4", " re clk x", " re clk 10", " 1 1 4 1")

    def test_words(self):
        for words, start in [(words, 0) for words in self.ZERO] + [(words, 1) for words in self.ONE]:
            network = vumneath.read(latch(words))
            self.assertEqual(network.gates, [Gate("Dff", (i(0), ONE, ZERO), start)], words)
            self.assertIn(f"gates e 0 3 {start}\n", read_guarded(latch(words)))
            self.assertEqual(network.run(b"0\n1\n0\n"), b"1\n0\n1\n" if start else b"0\n0\n1\n", words)
            text = vumneath.write(network)
            self.assertIn(b"\n.latch i0 x0 %d\n" % start, text)
            self.assertEqual(vumneath.read(text).gates[0], network.gates[0])
        for words in self.WRONG:
            self.assertEqual(read_guarded(latch(words)), "refused=34\n", words)
            with self.assertRaises(Refusal) as raised:
                vumneath.read(latch(words))
            self.assertEqual(str(raised.exception), "refused=34: a latch's start value is not 0, 1, 2 or 3")

    def test_order(self):
        wrong = b".latch d q 4\n"
        for text, wanted in (
            (wrong, 34), (wrong + b"\x80", 3), (wrong + b".model\n", 34), (b".model\n" + wrong, 4), (wrong + b".gate\n", 34),
            (b".gate\n" + wrong, 5), (b".end\n" + wrong, 34), (b".inputs a a\n" + wrong, 34), (b".latch d q 1\n", 11),
            (b".model m\n.end\n" + wrong, 34), (b".model m\n.end\n.latch d q 1\n", 0), (b".exdc\n" + wrong, 34),
            (b".inputs" + b"".join(b" n%d" % v for v in range(257)) + b"\n" + wrong, 34),
            (wrong + b" " * (32768 - len(wrong)), 34), (wrong + b" " * (32769 - len(wrong)), 2),
        ):
            self.assertEqual(number(vumneath.read, text), wanted, text[:40])
        self.assertEqual(number(vumneath.report, wrong, b"part=a\nrows=1\n\n"), 34)
        self.assertEqual(number(vumneath.report, wrong, b""), 32)

    def test_line(self):
        starts = [int(g % 3 == 0 or g % 7 == 0) for g in range(100)]
        network = Network(0, [Gate("Dff", (x(g - 1) if g else ZERO, ONE, ZERO), start) for g, start in enumerate(starts)], [x(99)])
        wanted = [[start] for start in starts[::-1]] + [[0]]
        self.assertEqual(network.run([[]] * 101), wanted)
        self.assertEqual(vumneath.read(vumneath.write(network)).run([[]] * 101), wanted)

    def test_reports(self):
        for start, accepted in ((0, 2), (1, 3), (2, 2), (3, 2)):
            netlist = b".outputs q\n.latch d q %d\n.names q d\n0 1\n" % start
            self.assertEqual(vumneath.report(netlist, b"part=a\nrows=5\n\n\n\n\n\n"), ("a", 5, accepted, 5 - accepted))

    def test_gates(self):
        pins = (i(0), ONE, ZERO)
        self.assertEqual(Gate("Dff", pins), Gate("Dff", pins, 0))
        self.assertEqual([str(Gate("Dff", pins, start)) for start in (0, 1)], ["Dff(i0, 1, 0)", "Dff(i0, 1, 0, start=1)"])
        for start in (1, True):
            self.assertIn(b"\n.flop D=i0 Q=x0 init=1 E=i1\n", vumneath.write(Network(2, [Gate("Dff", (i(0), i(1), ZERO), start)], [])))

    def test_not_a_network(self):
        pins = {"Binary": (i(0),) * 2, "Buf": (i(0),)}
        for form in vumneath.FORMS:
            for start in (0, 1, 2, 3, -1, 2**31, 2**32 - 1, 2**32, 2**32 + 1):
                network = Network(1, [Gate(form, pins.get(form.split()[0], (i(0), ONE, ZERO)), start)], [x(0)])
                wanted = 0 if 0 <= start <= (form == "Dff") else 20
                self.assertEqual([number(vumneath.write, network), number(network.run, b"0\n")], [wanted] * 2, (form, start))
        details = (
            (Gate("Buf", (i(0),), 1), "gate 0, Buf, has the start value 1, where only 0 is possible"),
            (Gate("Dff", (i(0), ONE, ZERO), 2), "gate 0, Dff, has the start value 2, where 0 or 1 is possible"),
            (Gate("Dff", (i(0), ONE, ZERO), -1), "gate 0, Dff, has the start value -1, where 0 or 1 is possible"),
        )
        for gate, detail in details:
            with self.assertRaises(Refusal) as raised:
                vumneath.write(Network(1, [gate], []))
            self.assertEqual(raised.exception.detail, detail)
        for start in ("1", None, 0.5):
            said = f"^the start value of gate 0 is no whole number but {start!r}$"
            self.assertRaisesRegex(TypeError, said, vumneath.write, Network(1, [Gate("Buf", (ONE,), start)], []))


class Interface(unittest.TestCase):
    def test_one_interface(self):
        with open(os.path.join(HERE, "../c/vumneath.h"), encoding="ascii") as file:
            self.assertIn(f"\n#define VUMNEATH_INTERFACE {vumneath.INTERFACE}\n", file.read())
        self.assertEqual(vumneath._library.vumneath_interface(), vumneath.INTERFACE)

    def test_other_libraries(self):
        said = "^FILE has {}, and this module is for the interface 2: .* installs both together$"
        for library, found in (
            (types.SimpleNamespace(vumneath_interface=lambda: 3), "the interface 3"),
            (types.SimpleNamespace(vumneath_interface=lambda: 1), "the interface 1"),
            (types.SimpleNamespace(), "no function vumneath_interface"),
        ):
            with unittest.mock.patch("ctypes.CDLL", return_value=library):
                self.assertRaisesRegex(ImportError, said.format(found), vumneath._checked, "FILE")

    def test_caller_of_interface_1(self):
        self.assertEqual(read_guarded(latch(" 0"), (3072, MAX_PINS, MAX_OUTPUTS, 3072, MAX_PINS)), "refused=1\n")
        for n in (1, 2, 3, 1024):
            cells = [[cell for g in range(n) for cell in (13, g, 1)], [1] * n, []]
            self.assertEqual(write_guarded((0, n, n, 0), cells, 32768), b"refused=20\n")
            self.assertEqual(run_guarded((0, n, n, 0), cells, b"", 0), b"refused=20\n")


class Reports(unittest.TestCase):
    # accepts where a and not b; the second output is one always
    NETLIST = b".inputs a b\n.outputs y one\n.names a b y\n10 1\n.names one\n1\n"
    SHEET = b"part=ADCS7\nrows=4\n10\n11\n10\n00\n"

    def number(self, sheet, netlist=NETLIST):
        return number(vumneath.report, netlist, sheet)

    def test_counts(self):
        counted = vumneath.report(self.NETLIST, self.SHEET)
        self.assertEqual(counted, vumneath.Report(part="ADCS7", commands=4, accepted=2, rejected=2))
        self.assertEqual(str(counted), "part=ADCS7\ncommands=4\naccepted=2\nrejected=2\n")
        self.assertEqual(vumneath.report(bytearray(self.NETLIST), memoryview(self.SHEET)), counted)
        constant = vumneath.report(b".outputs y\n.names y\n1\n", b"part=a\nrows=3\n\n\n\n")
        self.assertEqual(constant, ("a", 3, 3, 0))

    def test_pass(self):
        files = []
        for name in ("netlist.blif", "sheet.txt", "report.txt"):
            with open(os.path.join(HERE, "../pass", name), "rb") as file:
                files.append(file.read())
        self.assertEqual(printed(*files[:2]), files[2])

    def test_limits(self):
        for part, rows, wanted in (
            ("a", 1, 0), ("0123456789abcdeF", 1, 0), ("", 1, 32), ("0123456789abcdeFg", 1, 32),
            ("Z9", 128, 0), ("Z9", 129, 32), ("Z9", 0, 32),
        ):
            sheet = f"part={part}\nrows={rows}\n" + "10\n" * rows
            self.assertEqual(self.number(sheet.encode()), wanted, (part, rows))
        taken = bytes(byte for byte in range(256) if self.number(b"part=%c\nrows=1\n10\n" % byte) == 0)
        self.assertEqual(taken.decode(), string.digits + string.ascii_uppercase + string.ascii_lowercase)
        self.assertEqual([self.number(b"part=a\nrows=1\n%s\n" % (b"1" * (n - 15))) for n in (40960, 40961)], [31, 32])
        self.assertEqual([self.number(self.SHEET, b" " * n) for n in (32768, 32769)], [33, 2])

    def test_order(self):
        wrong, bad_row = b"part=a\nrows=1\n", b"part=a\nrows=1\nx\n"
        netlists = (b".end", b"\x80", b".inputs a a", b"", b".inputs a b\n", self.NETLIST)
        for sheet, wanted in ((wrong, [32] * 6), (bad_row, [8, 3, 10, 33, 33, 31]), (self.SHEET, [8, 3, 10, 33, 33, 0])):
            self.assertEqual([self.number(sheet, netlist) for netlist in netlists], wanted)
        self.assertEqual([self.number(b""), self.number(b"", b""), self.number(b"part=a\nrows=1\n\n", b"")], [32, 32, 33])

    def test_details(self):
        part, rows = "part= with 1 to 16 letters or digits is wanted", "rows= with a number from 1 to 128 without leading zeros is wanted"
        details = [
            (b"", 32, f"line 1 is missing, where {part}"),
            (b"\n", 32, f"line 1 is b'', where {part}"),
            (b"part=a", 32, "line 1 has no LF at its end"),
            (b"part=a\nrows=1", 32, "line 2 has no LF at its end"),
            (b"part=a\nrows=1\n10", 32, "line 3 has no LF at its end"),
            (b"part=a\nrows=1\n10\n1", 32, "line 4 has no LF at its end"),
            (b"part=\nrows=1\n10\n", 32, f"line 1 is b'part=', where {part}"),
            (b"part=a\r\nrows=1\n10\n", 32, f"line 1 is b'part=a\\r', where {part}"),
            (b"part=a b\nrows=1\n10\n", 32, f"line 1 is b'part=a b', where {part}"),
            (b"part=\xe9\nrows=1\n10\n", 32, f"line 1 is b'part=\\xe9', where {part}"),
            (b" part=a\nrows=1\n10\n", 32, f"line 1 is b' part=a', where {part}"),
            (b"part=" + b"a" * 50 + b"\n", 32, f"line 1 is b'part={'a' * 27}' and so on, where {part}"),
            (b"rows=1\npart=a\n10\n", 32, f"line 1 is b'rows=1', where {part}"),
            (b"part=a\n", 32, f"line 2 is missing, where {rows}"),
            (b"part=a\n\nrows=1\n10\n", 32, f"line 2 is b'', where {rows}"),
            (b"part=a\nrows=1\r\n10\n", 32, f"line 2 is b'rows=1\\r', where {rows}"),
            (b"part=a\nrows=01\n10\n", 32, f"line 2 is b'rows=01', where {rows}"),
            (b"part=a\nrows=+1\n10\n", 32, f"line 2 is b'rows=+1', where {rows}"),
            (b"part=a\nrows=0\n", 32, f"line 2 is b'rows=0', where {rows}"),
            (b"part=a\nrows=129\n" + b"10\n" * 129, 32, f"line 2 is b'rows=129', where {rows}"),
            (b"part=a\nrows=1\n", 32, "line 3 is missing: line 2 is b'rows=1', and there are 0 command rows"),
            (b"part=a\nrows=3\n10\n10\n", 32, "line 5 is missing: line 2 is b'rows=3', and there are 2 command rows"),
            (b"part=a\nrows=1\n10\n\n", 32, "line 4 is left over: line 2 is b'rows=1', and there are 2 command rows"),
            (b"x" * 40961, 32, "40961 bytes, where at most 40960 are possible"),
            (b"part=a\nrows=2\n10\n1\n", 31, "row 1 has b'\\n' at place 1, where 0 or 1 is wanted"),
            (b"part=a\nrows=2\n10\n101\n", 31, "row 1 has b'1' at place 2, where an LF is wanted"),
            (b"part=a\nrows=2\n10\r\n10\n", 31, "row 0 has b'\\r' at place 2, where an LF is wanted"),
            (b"part=a\nrows=2\n10\n1 \n", 31, "row 1 has b' ' at place 1, where 0 or 1 is wanted"),
        ]
        for sheet, wanted, detail in details:
            with self.assertRaises(Refusal) as raised:
                vumneath.report(self.NETLIST, sheet)
            self.assertEqual((raised.exception.number, raised.exception.detail), (wanted, detail))

    def test_damaged(self):
        for length in range(len(self.SHEET)):
            self.assertEqual(self.number(self.SHEET[:length]), 32)
        for at in range(len(self.SHEET)):
            for byte in b"\0\n\r 09Zz\xff":
                sheet = self.SHEET[:at] + bytes([byte]) + self.SHEET[at + 1 :]
                self.assertIn(self.number(sheet), (0, 31, 32), sheet)

    def test_messages(self):
        for netlist, sheet in (("", self.SHEET), (self.NETLIST, self.SHEET.decode())):
            self.assertRaisesRegex(TypeError, r"^report\(\) wants a bytes-like object, .* not str$", vumneath.report, netlist, sheet)


if __name__ == "__main__":
    unittest.main()
