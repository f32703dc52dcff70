// Networks with rows by hand, with what document 02 says of each.
use crate::generate::{filled, make, Numbers, Plain, Shape};
use crate::lent::{lent, Lent, MAX_TEXT, MOST, RECORD};
use crate::models::plain_flops;
use crate::nets::{i, net, x, Gates};
use crate::runs::{Run, WIDE};
use crate::{layouts, trips, Signal};

pub enum Hand {
    Rows(String),
    Refused(u32),
    Compared,   // run, and the output rows are on no paper
    Fits(bool), // whether the cells are a network, which alone is on paper
}

type Case = (Run, Hand);

fn zero() -> Signal {
    Signal::zero()
}

fn one() -> Signal {
    Signal::one()
}

pub fn flop(d: Signal) -> (u32, Vec<Signal>) {
    (14, vec![d, one(), zero()])
}

// The bytes that as many output rows take as there are rows.
fn needed(p: &Plain, rows: &[u8]) -> usize {
    rows.iter().filter(|b| **b == b'\n').count() * (p.outputs.len() + 1)
}

// A network with rows and so many bytes for output rows.
fn within(p: &Plain, rows: &[u8], room: usize) -> Run {
    Run { lent: Lent { room, ..lent(p) }, rows: rows.to_vec() }
}

// The same with two bytes more than its output rows take.
fn with(p: &Plain, rows: &[u8]) -> Run {
    within(p, rows, needed(p, rows) + 2)
}

fn rows(p: &Plain, given: &str, wanted: &str) -> Case {
    (with(p, given.as_bytes()), Hand::Rows(wanted.to_string()))
}

fn refused(p: &Plain, given: &[u8], k: u32) -> Case {
    (with(p, given), Hand::Refused(k))
}

fn compared(p: &Plain, given: &[u8]) -> Case {
    (with(p, given), Hand::Compared)
}

// Rows of bits as bytes.
pub fn text(rows: &[Vec<bool>]) -> Vec<u8> {
    rows.iter().flat_map(|row| row.iter().map(|b| b'0' + *b as u8).chain([b'\n'])).collect()
}

// ---- refusals

// Wrong cells, a wrong order, a wrong flip-flop and wrong rows, so many ways of each; way 0 is right.
const WAYS: [usize; 4] = [7, 5, 5, 5];
const NUMBERS: [u32; 4] = [20, 29, 30, 31];

// A flip-flop, three gates and a flip-flop, wrong in these ways.
fn wrong_in(ways: [usize; 4]) -> Run {
    let input = [i(1), x(1), !x(2), x(4), x(3)][ways[1]];
    let mut gates = vec![flop(x(2)), (1, vec![i(0), input]), (2, vec![x(1), x(0)]), (13, vec![i(0)]), flop(x(0))];
    match ways[2] {
        1 => gates[0].1[1] = zero(),
        2 => gates[0].1[2] = one(),
        3 => gates[4].1[1] = i(0),
        4 => gates[4].1[2] = x(1),
        _ => (),
    }
    let p = net(2, gates, vec![x(2), !x(4)]);
    let given = ["10\n11\n01\n", "10\n12\n01\n", "10\n1\n01\n", "10\n11\n01", "10\n11\n01\n"][ways[3]];
    let mut r = within(&p, given.as_bytes(), if ways[3] == 4 { 8 } else { 10 });
    match ways[0] {
        1 => r.lent.outputs[1] = x(5).raw(),
        2 => r.lent.gates[3 * RECORD] = 15,
        3 => r.lent.outputs.truncate(1),
        4 => r.lent.counts[1] += 1 << 32,
        5 => r.lent.gates[3 * RECORD + 3] = 1,
        6 => r.lent.gates[4 * RECORD + 3] = 2,
        _ => (),
    }
    r
}

// Each way alone, each two that make different refusals, and all four.
fn refusals() -> Vec<Case> {
    let mut all = vec![(wrong_in([0; 4]), Hand::Rows("01\n11\n11\n".to_string()))];
    let first = |ways: [usize; 4]| NUMBERS[ways.iter().position(|w| *w > 0).unwrap()];
    for a in 0..4 {
        for (b, v, w) in (a..4).flat_map(|b| (1..WAYS[a]).flat_map(move |v| (1..WAYS[b]).map(move |w| (b, v, w)))) {
            let mut ways = [0; 4];
            ways[a] = v;
            ways[b] = w;
            if a < b || v == w {
                all.push((wrong_in(ways), Hand::Refused(first(ways))));
            }
        }
    }
    all.push((wrong_in([1; 4]), Hand::Refused(20)));
    all
}

// Counts whose sums and products pass 32 bits.
fn large_counts() -> Vec<Case> {
    let p = net(1, vec![flop(i(0))], vec![x(0)]);
    let with_count = |place: usize, n: u64| {
        let mut r = with(&p, b"1\n");
        r.lent.counts[place] = n;
        (r, Hand::Refused(20))
    };
    let large = [0x5555_5555, 0x5555_5556, 1 << 31, (1 << 32) - 1];
    (0..4).flat_map(|place| large.map(|n| with_count(place, n))).collect()
}

// The order of gates: each input of a gate in turn a gate that is not lower, a flip-flop too; flip-flops before and behind what they read.
fn orders() -> Vec<Case> {
    let alone = |gates: Gates| net(3, gates, vec![x(0)]);
    let mut all = Vec::new();
    for (form, n) in [(1, 2), (2, 2), (3, 3), (4, 3), (5, 3), (6, 3), (7, 9), (8, 1), (9, 2), (10, 2), (11, 8), (12, 2), (13, 1)] {
        for k in 0..n {
            let wrong = [x(1), !x(2), x(3)][k % 3];
            let pins = (0..n).map(|j| if j == k { wrong } else { i(j as u32 % 3) }).collect();
            all.push(refused(&alone(vec![(13, vec![i(0)]), (form, pins), (13, vec![i(1)]), flop(i(2))]), b"000\n", 29));
        }
    }
    let buf = |s| (13, vec![s]);
    all.extend([
        refused(&alone(vec![buf(x(0))]), b"", 29),
        refused(&alone(vec![buf(i(0)), buf(!x(1))]), b"", 29),
        refused(&alone(vec![buf(x(1)), flop(x(0))]), b"101\n", 29),
        refused(&alone(vec![flop(i(0)), buf(x(2)), flop(i(0))]), b"101\n", 29),
        rows(&net(1, vec![flop(x(1)), buf(x(0)), flop(x(1))], vec![x(0), x(1), x(2)]), "1\n1\n", "000\n000\n"),
        rows(&net(1, vec![flop(!x(1)), buf(x(0)), flop(x(0))], vec![x(0), x(1), x(2)]), "1\n1\n0\n", "000\n110\n001\n"),
        rows(&net(1, vec![flop(x(2)), flop(!x(1)), buf(i(0))], vec![x(0), x(1), x(2)]), "1\n0\n0\n", "001\n110\n000\n"),
    ]);
    all
}

// Enables and resets: only the signals one and zero; also in the second flip-flop, and where a gate's bit is always one.
fn controls() -> Vec<Case> {
    let always = (7, vec![]);
    let with = |e, r| net(1, vec![always.clone(), flop(x(2)), (14, vec![i(0), e, r])], vec![x(1), x(2)]);
    let mut all = vec![rows(&with(one(), zero()), "1\n0\n0\n", "00\n01\n10\n")];
    for s in [zero(), one(), i(0), !i(0), x(0), !x(0), x(1), x(2), !x(2)] {
        if s != one() {
            all.push(refused(&with(s, zero()), b"", 30));
        }
        if s != zero() {
            all.push(refused(&with(one(), s), b"0\n", 30));
        }
    }
    all.push(refused(&with(zero(), one()), b"0\n", 30));
    all
}

// ---- rows

const OTHERS: [u8; 22] = [0, 1, 9, 10, 11, 13, 14, 32, 45, 46, 47, 50, 51, 58, 73, 79, 108, 128, 138, 176, 177, 255];

// A byte in the place of a row's character, and in the place of its LF.
pub fn one_byte(bytes: impl Iterator<Item = u8>) -> Vec<Case> {
    let p = net(1, vec![], vec![i(0), !i(0)]);
    let digit = |b: u8| b == b'0' || b == b'1';
    let character = |b: u8| if digit(b) { Hand::Rows(format!("{}{}\n", b - b'0', b'1' - b)) } else { Hand::Refused(31) };
    let end = |b: u8| if b == b'\n' { Hand::Rows("01\n".to_string()) } else { Hand::Refused(31) };
    bytes.flat_map(|b| [(within(&p, &[b, b'\n'], 5), character(b)), (within(&p, &[b'0', b], 5), end(b))]).collect()
}

// Rows that are wrong for two inputs.
#[rustfmt::skip]
const WRONG: [&[u8]; 30] = [
    b"\n", b"0\n", b"011\n", b"01", b"0", b"01\n0", b"01\n10", b"01\n1\n", b"01\n\n", b"\n01\n", b"01\r\n", b"01\n10\r\n", b"01\r",
    b" 01\n", b"01 \n", b"0 1\n", b"0 \n", b"01\n 1\n", b"0x\n", b"21\n", b"01\n02\n", b"0\n1", b"0\n\n", b"01\n0\n\n", b"0101\n",
    b"01\n01", b"01\n0101\n", b"01,10\n", b"01\0", b"01\n\0\0\n",
];

// Rows of two characters, wrong and right; no inputs, no outputs, neither.
fn characters() -> Vec<Case> {
    let swap = net(2, vec![], vec![i(1), i(0)]);
    let nothing = net(0, vec![], vec![]);
    let source = net(0, vec![flop(!x(0))], vec![x(0), one()]);
    let sink = net(2, vec![flop(i(0))], vec![]);
    let mut all: Vec<Case> = WRONG.into_iter().map(|w| refused(&swap, w, 31)).collect();
    all.extend([
        rows(&swap, "", ""),
        rows(&swap, "01\n", "10\n"),
        rows(&swap, "00\n01\n10\n11\n10\n", "00\n10\n01\n11\n01\n"),
        rows(&source, "", ""),
        rows(&source, "\n", "01\n"),
        rows(&source, "\n\n\n\n", "01\n11\n01\n11\n"),
        refused(&source, b"0\n", 31),
        refused(&source, b"\n\n0", 31),
        refused(&source, b"\n\r\n", 31),
        refused(&source, b"\n \n", 31),
        rows(&sink, "01\n10\n", "\n\n"),
        refused(&sink, b"01\n1\n", 31),
        rows(&nothing, "", ""),
        rows(&nothing, "\n", "\n"),
        rows(&nothing, "\n\n\n", "\n\n\n"),
        refused(&nothing, b"0", 31),
        refused(&nothing, b"\n\n1\n", 31),
    ]);
    all.extend(one_byte(OTHERS.into_iter()));
    all
}

// Output slices that are just long enough, a byte short, and longer: for no rows, for one and for three; rows that are wrong as well.
fn rooms() -> Vec<Case> {
    let swap = net(2, vec![], vec![i(1), i(0)]);
    let sink = net(1, vec![], vec![]);
    let wide = net(1, vec![], vec![i(0), !i(0), i(0), i(0)]);
    let many = net(6, vec![], vec![i(5)]);
    let at = |p: &Plain, given: &str, wanted: &str, room: usize| {
        let hand = if room < wanted.len() { Hand::Refused(31) } else { Hand::Rows(wanted.to_string()) };
        (within(p, given.as_bytes(), room), hand)
    };
    let mut all = Vec::new();
    for room in 0..13 {
        all.push(at(&swap, "01\n11\n10\n", "10\n11\n01\n", room));
        all.push(at(&many, "000001\n111110\n", "1\n0\n", room));
        all.push(at(&wide, "1\n0\n", "1011\n0100\n", room));
        all.push((within(&swap, b"01\n1x\n", room), Hand::Refused(31)));
    }
    for room in 0..5 {
        all.push(at(&swap, "", "", room));
        all.push(at(&swap, "10\n", "01\n", room));
        all.push(at(&sink, "1\n0\n1\n", "\n\n\n", room));
    }
    all
}

// ---- clocks

// Shift registers and rings that run both ways; flip-flops that hold, turn over and take constants.
fn flops() -> Vec<Case> {
    let up = net(1, vec![flop(i(0)), flop(x(0)), flop(x(1))], vec![x(0), x(1), x(2)]);
    let down = net(1, vec![flop(x(1)), flop(x(2)), flop(i(0))], vec![x(0), x(1), x(2)]);
    let ring_up = net(0, vec![flop(!x(2)), flop(x(0)), flop(x(1))], vec![x(0), x(1), x(2)]);
    let ring_down = net(0, vec![flop(x(1)), flop(x(2)), flop(!x(0))], vec![x(0), x(1), x(2)]);
    let swap = net(1, vec![flop(x(1)), flop(x(2)), (6, vec![i(0), one(), x(0)])], vec![x(0), x(1)]);
    let plain = net(0, vec![flop(!x(0)), flop(x(1)), flop(one()), flop(zero()), flop(!x(4))], (0..5).map(x).collect());
    let turned = net(1, vec![flop(!i(0)), (13, vec![!x(0)])], vec![x(0), !x(0), x(1)]);
    vec![
        rows(&up, "1\n0\n1\n1\n0\n", "000\n100\n010\n101\n110\n"),
        rows(&down, "1\n0\n1\n1\n0\n", "000\n001\n010\n101\n011\n"),
        rows(&ring_up, "\n\n\n\n\n\n\n\n", "000\n100\n110\n111\n011\n001\n000\n100\n"),
        rows(&ring_down, "\n\n\n\n\n\n\n\n", "000\n001\n011\n111\n110\n100\n000\n001\n"),
        rows(&swap, "1\n0\n0\n0\n0\n", "00\n01\n10\n01\n10\n"),
        rows(&plain, "\n\n\n", "00000\n10101\n00100\n"),
        rows(&turned, "0\n1\n0\n", "011\n100\n011\n"),
    ]
}

// Flip-flops that start at one: that hold, turn over, shift both ways, and start otherwise than others; before, behind and among gates.
fn starts() -> Vec<Case> {
    let all = |n: u32| (0..n).map(x).collect::<Vec<_>>();
    let buf = |s| (13, vec![s]);
    let held = net(0, vec![flop(x(0))], vec![x(0), !x(0)]);
    let turned = net(0, vec![flop(!x(0))], vec![x(0)]);
    let taken = net(1, vec![flop(i(0))], vec![x(0)]);
    let up = net(1, vec![flop(i(0)), flop(x(0)), flop(x(1))], all(3));
    let down = net(1, vec![flop(x(1)), flop(x(2)), flop(i(0))], all(3));
    let ring = net(0, vec![flop(x(3)), flop(x(0)), flop(x(1)), flop(x(2))], all(4));
    let among = net(1, vec![buf(i(0)), flop(x(2)), buf(!x(1)), flop(x(0)), flop(x(3))], vec![x(1), x(3), x(4), x(2)]);
    let exact = |p: &Plain, given: &str, wanted: &str| (within(p, given.as_bytes(), wanted.len()), Hand::Rows(wanted.to_string()));
    vec![
        rows(&held, "\n\n\n", "01\n01\n01\n"),
        rows(&held.clone().starting(&[0]), "\n\n\n", "10\n10\n10\n"),
        rows(&turned.clone().starting(&[0]), "\n\n\n\n", "1\n0\n1\n0\n"),
        rows(&taken.clone().starting(&[0]), "0\n", "1\n"),
        rows(&taken.clone().starting(&[0]), "0\n1\n0\n", "1\n0\n1\n"),
        rows(&taken.starting(&[0]), "", ""),
        rows(&up.clone().starting(&[0]), "0\n0\n0\n0\n", "100\n010\n001\n000\n"),
        rows(&up.clone().starting(&[2]), "0\n0\n1\n", "001\n000\n000\n"),
        rows(&up.starting(&[0, 1, 2]), "0\n0\n0\n0\n", "111\n011\n001\n000\n"),
        rows(&down.clone().starting(&[2]), "0\n0\n0\n0\n", "001\n010\n100\n000\n"),
        rows(&down.starting(&[0, 2]), "1\n0\n0\n", "101\n011\n110\n"),
        rows(&ring.clone().starting(&[0]), &"\n".repeat(5), "1000\n0100\n0010\n0001\n1000\n"),
        rows(&ring.starting(&[1, 2]), &"\n".repeat(5), "0110\n0011\n1001\n1100\n0110\n"),
        rows(&among.clone().starting(&[1]), "1\n0\n0\n", "1000\n0101\n1010\n"),
        rows(&among.clone().starting(&[3]), "1\n0\n0\n", "0101\n1110\n0011\n"),
        rows(&among.clone().starting(&[4]), "1\n0\n0\n", "0011\n1100\n0011\n"),
        exact(&among.starting(&[1, 3, 4]), "0\n", "1110\n"),
        // other enables and resets are 30 from any start value
        refused(&net(1, vec![(14, vec![i(0), i(0), zero()])], vec![x(0)]).starting(&[0]), b"0\n", 30),
        refused(&net(1, vec![(14, vec![i(0), one(), one()])], vec![x(0)]).starting(&[0]), b"0\n", 30),
    ]
}

// An interlock: a gate that opens and closes by turns; after a wrong command it takes none.
fn interlock() -> Vec<Case> {
    let (open, close, is_open, locked, accepted) = (i(0), i(1), x(0), x(1), x(4));
    let gates = vec![
        flop(x(5)),
        flop(x(6)),
        (6, vec![is_open, close, open]),
        (2, vec![open, close]),
        (3, vec![x(2), x(3), !locked]),
        (2, vec![is_open, accepted]),
        (8, vec![locked, !accepted]),
    ];
    let p = net(2, gates, vec![accepted, locked]);
    vec![
        rows(&p, "10\n01\n10\n01\n", "10\n10\n10\n10\n"),
        rows(&p, "10\n01\n10\n10\n01\n10\n", "10\n10\n10\n00\n01\n01\n"),
        rows(&p, "01\n10\n01\n", "00\n01\n01\n"),
        rows(&p, "10\n11\n01\n00\n", "10\n00\n01\n01\n"),
        rows(&p, "00\n10\n", "00\n01\n"),
        // open at first, and locked at first
        rows(&p.clone().starting(&[0]), "01\n10\n01\n01\n", "10\n10\n10\n00\n"),
        rows(&p.starting(&[1]), "10\n01\n", "01\n01\n"),
    ]
}

// A counter of three bits with a carry, and every kind of signal as an output.
fn outputs() -> Vec<Case> {
    let gates = vec![flop(!x(0)), flop(x(3)), flop(x(5)), (2, vec![x(0), x(1)]), (1, vec![x(0), x(1)]), (2, vec![x(4), x(2)])];
    let counter = net(0, gates, vec![x(2), x(1), x(0)]);
    let each = net(1, vec![flop(i(0)), (1, vec![i(0), x(0)])], vec![zero(), one(), i(0), !i(0), x(0), !x(0), x(1), !x(1), i(0), one()]);
    vec![
        rows(&counter, &"\n".repeat(9), "000\n001\n010\n011\n100\n101\n110\n111\n000\n"),
        rows(&counter.starting(&[1, 2]), "\n\n\n", "110\n111\n000\n"),
        rows(&each, "1\n1\n0\n", "0110010111\n0110101011\n0101100101\n"),
    ]
}

// ---- gates

// Each form of up to three inputs for every row; Nary gates of nothing.
fn forms() -> Vec<Case> {
    let nothing = net(0, (7..13).map(|form| (form, vec![])).collect(), (0..6).map(x).collect());
    let mut all: Vec<Case> = trips::forms().into_iter().map(|(p, given)| compared(&p, &text(&given))).collect();
    all.push(rows(&nothing, "\n", "100101\n"));
    all
}

// Every Nary form of so many inputs: for zeros, for ones, and for rows in which one bit is other than all others.
fn wide() -> Vec<Case> {
    let mut all = Vec::new();
    for n in WIDE {
        let pins = |turned: usize| (0..n).map(|k| i(k as u32) ^ (k % 7 == turned)).collect::<Vec<_>>();
        let mut given: Vec<Vec<bool>> = vec![vec![false; n], vec![true; n]];
        given.extend((0..n).flat_map(|k| [false, true].map(|b| (0..n).map(|j| (j == k) != b).collect())));
        let outputs = || (0..6).map(x).collect();
        all.push(compared(&net(n, (7..13).map(|form| (form, pins(7))).collect(), outputs()), &text(&given)));
        let turned = |row: &Vec<bool>| row.iter().enumerate().map(|(k, b)| *b != (k % 7 == 3)).collect();
        let others: Vec<Vec<bool>> = given.iter().take(20).map(turned).collect();
        all.push(compared(&net(n, (7..13).map(|form| (form, pins(3))).collect(), outputs()), &text(&others)));
    }
    all
}

// ---- sizes

// Flip-flops that shift up, others that shift down, and gates in a chain: 1,024 in all.
fn long() -> Case {
    let gate = |k: u32| match k {
        0 | 511 => flop(i(0)),
        1..=255 => flop(x(k - 1)),
        256..=510 => flop(x(k + 1)),
        _ => (13, vec![!x(k - 1)]),
    };
    let p = net(1, (0..1024).map(gate).collect(), vec![x(0), x(2), !x(255), x(511), x(509), x(256), x(512), x(1022), !x(1023)]);
    compared(&p.starting(&[0, 253, 256, 511]), b"1\n0\n1\n1\n0\n")
}

// The largest sizes, all at once: sorted gates from a seed, with inputs added until the pins are used up.
fn largest() -> Case {
    let mut r = Numbers(7);
    let made = make(&mut r, &Shape { inputs: 256, gates: 1024, outputs: 256, wide: 16, loops: true, flops: 5 });
    let p = lowered(plain_flops(filled(made, 16384)));
    let given: Vec<Vec<bool>> = (0..4).map(|_| (0..256).map(|_| r.below(2) == 0).collect()).collect();
    (within(&p, &text(&given), 4 * 257), Hand::Compared)
}

// More rows than any text has bytes.
fn many_rows() -> Vec<Case> {
    let nothing = net(0, vec![], vec![]);
    let most = MOST[0];
    vec![
        (within(&nothing, &vec![b'\n'; MAX_TEXT + 1], most), Hand::Rows("\n".repeat(MAX_TEXT + 1))),
        (within(&nothing, &vec![b'\n'; 300], 299), Hand::Refused(31)),
    ]
}

// The cells of layouts.rs, with a row of zeros: of those that are networks it is not on paper whether they are sorted.
fn cells() -> Vec<Case> {
    let rows = |l: &Lent| [vec![b'0'; l.counts[0].min(256) as usize], vec![b'\n']].concat();
    layouts::by_hand().into_iter().map(|(fits, l)| (Run { rows: rows(&l), lent: l }, Hand::Fits(fits))).collect()
}

// The network with a lower gate, or zero, in the place of each gate input of a combinational gate that is not lower.
pub fn lowered(mut p: Plain) -> Plain {
    for (g, node) in p.gates.iter_mut().enumerate().filter(|(_, node)| !node.is_flop()) {
        for s in node.pins.iter_mut().filter(|s| s.is_var() && s.var() as usize >= g) {
            let lower = if g > 0 { x(s.var() % g as u32) } else { zero() };
            *s = lower ^ s.is_inverted();
        }
    }
    p
}

pub fn by_hand() -> Vec<Case> {
    let refused = [refusals(), large_counts(), orders(), controls(), characters(), rooms()];
    let run = [flops(), starts(), interlock(), outputs(), forms(), wide(), vec![long(), largest()], many_rows()];
    refused.into_iter().chain(run).flatten().chain(cells()).collect()
}
