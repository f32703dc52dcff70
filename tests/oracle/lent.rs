// Networks in lent cells, and what writing must answer for each: Quaigh's `write_blif`, with document 01's refusals and its `.flop`
// lines, and with document 02's start values, which Quaigh does not have.
use crate::generate::{Node, Plain};
use crate::io::blif::write_blif;
use crate::io::utils::sig_to_string;
use crate::{cells, words, Signal};

pub const MAX_TEXT: usize = 32768;

// The cells of a gate's record: form number, first pin, pin count, start value.
pub const RECORD: usize = 4;

// What the program has room for: bytes of the output slice, gate cells, pin cells, output cells.
pub const MOST: [usize; 4] = [32800, 4101, 16386, 258];

#[derive(Clone)]
pub struct Lent {
    pub counts: [u64; 4], // inputs, gates, pins, outputs
    pub gates: Vec<u32>,
    pub pins: Vec<u32>,
    pub outputs: Vec<u32>,
    pub room: usize, // bytes of the output slice
}

pub enum Wanted {
    Written(String),
    Refused(u32),
}

// A network with just its cells, and an output slice with room for every text.
pub fn lent(p: &Plain) -> Lent {
    let (gates, pins, outputs) = cells(p);
    let counts = [p.inputs as u64, p.gates.len() as u64, pins.len() as u64, outputs.len() as u64];
    Lent { counts, gates, pins, outputs, room: MOST[0] }
}

fn signal(cell: &u32) -> Signal {
    Signal::from_ind(cell >> 1) ^ (cell & 1 != 0)
}

fn takes(form: u32, count: usize) -> bool {
    match form {
        1 | 2 => count == 2,
        3..=6 | 14 => count == 3,
        7..=12 => true,
        13 => count == 1,
        _ => false,
    }
}

// How a look at start values for 20 may go wrong.
#[derive(Clone, Copy, PartialEq, Debug)]
pub enum Lax {
    Nothing,
    AllFree,     // no start value is looked at
    OthersFree,  // only those of flip-flops
    BufFree,     // that of a Buf is not
    FlopsFree,   // those of flip-flops are not
    FlopsTwo,    // a flip-flop's may be 2
    FlopsThree,  // a flip-flop's may be up to 3
    OthersOne,   // every gate's may be 1
    LowByte,     // only the lowest byte of the cell is looked at
    FirstOnly,   // only the first gate's is looked at
    FlopsZero,   // a flip-flop's has to be 0
    Beyond,      // cells beyond the gates in use are looked at
}

pub const LAX: [Lax; 11] = [
    Lax::AllFree,
    Lax::OthersFree,
    Lax::BufFree,
    Lax::FlopsFree,
    Lax::FlopsTwo,
    Lax::FlopsThree,
    Lax::OthersOne,
    Lax::LowByte,
    Lax::FirstOnly,
    Lax::FlopsZero,
    Lax::Beyond,
];

// Whether gate g of this form can have this start value: a flip-flop 0 or 1, any other gate 0.
fn starts(g: usize, form: u32, start: u32, m: Lax) -> bool {
    let most = match (form, m) {
        (_, Lax::AllFree) => u32::MAX,
        (14, Lax::FlopsFree) => u32::MAX,
        (14, Lax::FlopsTwo) => 2,
        (14, Lax::FlopsThree) => 3,
        (14, Lax::FlopsZero) => 0,
        (14, _) => 1,
        (_, Lax::OthersFree) => u32::MAX,
        (13, Lax::BufFree) => u32::MAX,
        (_, Lax::OthersOne) => 1,
        _ => 0,
    };
    let seen = if m == Lax::LowByte { start & 255 } else { start };
    seen <= most || (m == Lax::FirstOnly && g > 0)
}

// The network of the cells, if it has the layout, the start values and the signals that refusal 20 asks for.
pub fn decoded(l: &Lent) -> Option<Plain> {
    decoded_with(l, Lax::Nothing)
}

pub fn decoded_with(l: &Lent, m: Lax) -> Option<Plain> {
    if l.counts.iter().zip([256, 1024, 16384, 256]).any(|(n, most)| *n > most) {
        return None;
    }
    let [inputs, gates, pins, outputs] = l.counts.map(|n| n as usize);
    let records = l.gates.get(..RECORD * gates)?;
    let pins = l.pins.get(..pins)?;
    let outputs: Vec<Signal> = l.outputs.get(..outputs)?.iter().map(signal).collect();
    let mut p = Plain { inputs, gates: Vec::new(), outputs };
    let mut at = 0;
    for (g, r) in records.chunks(RECORD).enumerate() {
        if !takes(r[0], r[2] as usize) || r[1] as usize != at || !starts(g, r[0], r[3], m) {
            return None;
        }
        let pins = pins.get(at..at + r[2] as usize)?.iter().map(signal).collect();
        p.gates.push(Node { form: r[0], pins, start: r[3] });
        at += r[2] as usize;
    }
    let n = p.network();
    let valid = pins.iter().all(|c| n.is_valid(signal(c))) && p.outputs.iter().all(|s| n.is_valid(*s));
    let beyond = m == Lax::Beyond && l.gates[RECORD * gates..].chunks(RECORD).any(|r| r.get(3).is_some_and(|start| *start > 1));
    if at == pins.len() && valid && !beyond { Some(p) } else { None }
}

// A `.latch` line as document 02 has it: Quaigh's up to the start value, then that of its flip-flop.
fn latch(p: &Plain, rust: &str) -> String {
    let before = rust.strip_suffix(" 0\n").unwrap();
    let number: usize = before[before.rfind(" x").unwrap() + 2..].parse().unwrap();
    format!("{before} {}\n", p.gates[number].start)
}

// A `.flop` line as documents 01 and 02 have it: Quaigh's up to `init=`, then the start value, the enable and the reset by their names.
fn flop(p: &Plain, rust: &str) -> String {
    let before = &rust[..rust.find(" init=0").unwrap()];
    let number: usize = before[before.find(" Q=x").unwrap() + 4..].parse().unwrap();
    let Node { pins, start, .. } = &p.gates[number];
    let mut line = format!("{before} init={start}");
    if pins[1] != Signal::one() {
        line += &format!(" E={}", sig_to_string(&pins[1]));
    }
    if pins[2] != Signal::zero() {
        line += &format!(" R={}", sig_to_string(&pins[2]));
    }
    line + "\n"
}

// Quaigh's text.
pub fn quaigh(p: &Plain) -> String {
    let mut out = Vec::new();
    write_blif(&mut out, &p.network());
    String::from_utf8(out).unwrap()
}

// The same with the start values of document 02 and document 01's `.flop` lines.
pub fn text(p: &Plain) -> String {
    let line = |l: &str| match l.split(' ').next() {
        Some(".latch") => latch(p, l),
        Some(".flop") => flop(p, l),
        _ => l.to_string(),
    };
    quaigh(p).split_inclusive('\n').map(line).collect()
}

pub fn wanted(l: &Lent) -> Wanted {
    let Some(p) = decoded(l) else {
        return Wanted::Refused(20);
    };
    if p.gates.iter().any(|g| (g.form == 11 || g.form == 12) && g.pins.len() > 12) {
        return Wanted::Refused(21);
    }
    let t = text(&p);
    if t.len() > l.room || t.len() > MAX_TEXT { Wanted::Refused(22) } else { Wanted::Written(t) }
}

// The answer's lines: the refusal, or the text behind its length.
pub fn shown(w: &Wanted) -> String {
    match w {
        Wanted::Refused(k) => format!("refused={k}\n"),
        Wanted::Written(t) => format!("length={}\n{t}", t.len()),
    }
}

// The numbers that the program reads: counts of two words each, lengths, cells.
pub fn given(l: &Lent) -> String {
    let lengths = [l.room, l.gates.len(), l.pins.len(), l.outputs.len()];
    assert!(lengths.iter().zip(MOST).all(|(n, most)| *n <= most), "a network that the program has no room for");
    let counts: Vec<u32> = l.counts.iter().flat_map(|n| [(n >> 32) as u32, *n as u32]).collect();
    words(&counts) + &words(&lengths.map(|n| n as u32)) + &words(&l.gates) + &words(&l.pins) + &words(&l.outputs)
}
