// The networks that are run, and the rows that they are run for. Interlocks and the shift register are texts that are read; the others are
// lent as they stand.
use crate::inputs::Numbers;
use crate::part::{Lent, NetworkAnswer, Part};
use std::fmt::Write;

// The numbers of the gate forms in use.
const AND_2: u32 = 1;
const XOR_2: u32 = 2;
const AND: u32 = 7;
const OR: u32 = 8;
const NAND: u32 = 9;
const NOR: u32 = 10;
const XOR: u32 = 11;
const XNOR: u32 = 12;

// A network as it is lent: each gate with its form and its signals.
pub struct Gates {
    inputs: usize,
    gates: Vec<(u32, Vec<u32>)>,
    outputs: Vec<u32>,
}

pub enum Source {
    Text(Vec<u8>),
    Gates(Gates),
}

pub struct RunInput {
    pub name: String,
    pub source: Source,
    pub clocks: usize,
    // whether every bit of every row is one
    ones: bool,
}

impl Gates {
    // Puts the network into the lent cells.
    pub fn lay(&self, lent: &mut Lent) -> NetworkAnswer {
        lent.fill(0);
        let mut first = 0;
        for (record, (form, signals)) in lent.gates.chunks_mut(lent.gate_cells).zip(&self.gates) {
            record[..3].copy_from_slice(&[*form, first as u32, signals.len() as u32]);
            lent.pins[first..first + signals.len()].copy_from_slice(signals);
            first += signals.len();
        }
        lent.outputs[..self.outputs.len()].copy_from_slice(&self.outputs);
        let [inputs, gates, pins, outputs] = [self.inputs, self.gates.len(), first, self.outputs.len()].map(|n| n as u32);
        NetworkAnswer { refused: 0, inputs, gates, pins, outputs }
    }
}

impl RunInput {
    // Puts the network into the lent cells: reads its text, or lays its gates.
    pub fn lay(&self, part: Part, lent: &mut Lent) -> NetworkAnswer {
        let n = match &self.source {
            Source::Text(text) => lent.read(part, text),
            Source::Gates(gates) => gates.lay(lent),
        };
        assert!(n.refused == 0, "{} is refused by {}", self.name, n.refused);
        n
    }

    // A row for each clock: bits from a seed, or ones.
    pub fn rows(&self, inputs: u32) -> Vec<u8> {
        let mut numbers = Numbers(99);
        let mut rows = Vec::new();
        for _ in 0..self.clocks {
            rows.extend((0..inputs).map(|_| if self.ones || numbers.below(2) == 1 { b'1' } else { b'0' }));
            rows.push(b'\n');
        }
        rows
    }
}

// The signals of input v and of gate v.
fn input(v: usize) -> u32 {
    0u32.wrapping_sub(2 * (v as u32 + 1))
}

fn gate(v: usize) -> u32 {
    2 * (v as u32 + 1)
}

// One of so many inputs and gates, inverted or not.
fn any(numbers: &mut Numbers, inputs: usize, gates: usize) -> u32 {
    let k = numbers.below(inputs + gates);
    let signal = if k < inputs { input(k) } else { gate(k - inputs) };
    signal + numbers.below(2) as u32
}

// So many gates, each of so many pins that are inputs or earlier gates, with forms by turns from a seed; the last gates are outputs.
fn gates(inputs: usize, count: usize, pins: usize, outputs: usize, forms: &[u32]) -> Gates {
    let mut numbers = Numbers((count * pins) as u64);
    let mut gates = Vec::new();
    for g in 0..count {
        let form = forms[numbers.below(forms.len())];
        gates.push((form, (0..pins).map(|_| any(&mut numbers, inputs, g)).collect()));
    }
    Gates { inputs, gates, outputs: (count - outputs..count).map(gate).collect() }
}

// So many gates, each the And of all inputs.
fn ands_of_inputs(inputs: usize, count: usize) -> Gates {
    Gates { inputs, gates: vec![(AND, (0..inputs).map(input).collect()); count], outputs: vec![gate(count - 1)] }
}

// The Xor of so many inputs.
pub fn xor_of_inputs(inputs: usize) -> Gates {
    Gates { inputs, gates: vec![(XOR, (0..inputs).map(input).collect())], outputs: vec![gate(0)] }
}

// A line of a cover: its columns, of which one is no dash at least, and its output.
fn line(numbers: &mut Numbers, columns: usize, signs: &[u8], output: u8) -> String {
    let mut line: String = (0..columns).map(|_| signs[numbers.below(signs.len())] as char).collect();
    if line.bytes().all(|c| c == b'-') {
        line = format!("1{}", &line[1..]);
    }
    format!("{line} {output}\n")
}

// So many of the names, none twice.
fn some(numbers: &mut Numbers, names: &[String], count: usize) -> Vec<String> {
    let mut some: Vec<String> = Vec::new();
    while some.len() < count {
        let name = &names[numbers.below(names.len())];
        if !some.contains(name) {
            some.push(name.clone());
        }
    }
    some
}

// An interlock of so many gates when it is read. A fifth are flip-flops. A cover of one line is a Buf, an And or a Nand of up to five of the
// names before it; one of k lines is an Or of k gates, each a Buf or an And.
pub fn interlock(size: usize) -> String {
    let mut numbers = Numbers(size as u64);
    let flops = size / 5;
    let mut names: Vec<String> = (0..4 + numbers.below(6)).map(|i| format!("in{i}")).collect();
    let mut text = format!(".model interlock\n.inputs {}\n", names.join(" "));
    names.extend((0..flops).map(|f| format!("held{f}")));
    let (before, mut left) = (names.len(), size - flops);
    while left > 0 {
        let several = left > 2 && numbers.below(4) == 0;
        let lines = if several { 2 + numbers.below((left - 2).min(4)) } else { 1 };
        let columns = if several { 2 + numbers.below(4) } else { 1 + numbers.below(5) };
        let name = format!("n{}", names.len() - before);
        let _ = writeln!(text, ".names {} {name}", some(&mut numbers, &names, columns).join(" "));
        let output = if several || columns == 1 { 1 } else { 1 - numbers.below(3) as u8 / 2 };
        for _ in 0..lines {
            text += &line(&mut numbers, columns, if several { b"01-" } else { b"01" }, output);
        }
        names.push(name);
        left -= if several { lines + 1 } else { 1 };
    }
    for f in 0..flops {
        let _ = writeln!(text, ".latch {} held{f} 0", names[before + numbers.below(names.len() - before)]);
    }
    let shown = &names[before.max(names.len() - 6)..];
    text + &format!(".outputs {}\n.end\n", shown.join(" "))
}

// A shift register of so many flip-flops, seen at four places.
pub fn shift_register(size: usize) -> String {
    let seen = [0, size / 4, size / 2, size - 1].map(|f| format!("q{f}"));
    let mut text = format!(".model m\n.inputs d\n.outputs {}\n.latch d q0 0\n", seen.join(" "));
    for f in 1..size {
        let _ = writeln!(text, ".latch q{} q{f} 0", f - 1);
    }
    text + ".end\n"
}

// The networks by name.
fn networks() -> Vec<(String, Source)> {
    let mut all = Vec::new();
    for size in [20, 30, 40, 50, 60] {
        all.push((format!("interlock-{size}"), Source::Text(interlock(size).into_bytes())));
    }
    let mut add = |name: &str, gates: Gates| all.push((name.to_string(), Source::Gates(gates)));
    add("ands-of-2", gates(16, 1024, 2, 8, &[AND]));
    add("forms-of-2", gates(16, 1024, 2, 8, &[AND, OR, NAND]));
    add("binary-ands", gates(16, 1024, 2, 8, &[AND_2]));
    add("binary-ands-and-xors", gates(16, 1024, 2, 8, &[AND_2, XOR_2]));
    add("ands-of-100", gates(100, 160, 100, 8, &[AND]));
    add(ALL_ONES, ands_of_inputs(100, 160));
    add("xors-of-100", gates(100, 160, 100, 8, &[XOR]));
    add("forms-of-100", gates(100, 160, 100, 8, &[AND, OR, NAND, NOR, XOR, XNOR]));
    all.push(("shift-register".to_string(), Source::Text(shift_register(1024).into_bytes())));
    all
}

// The network whose rows are all ones, so that every And looks at all its pins.
const ALL_ONES: &str = "ands-of-100-ones";

// Those that are run for 10 clocks as well, so that what comes before the clocks shows.
const SHORT: [&str; 5] = ["interlock-20", "interlock-60", "forms-of-2", "forms-of-100", "shift-register"];

// Every network for 1,000 clocks, then some for 10.
pub fn runs() -> Vec<RunInput> {
    let run = |clocks: usize| move |(name, source): (String, Source)| RunInput { ones: name == ALL_ONES, name: format!("{name}-rows-{clocks}"), source, clocks };
    let short = networks().into_iter().filter(|(name, _)| SHORT.contains(&name.as_str()));
    networks().into_iter().map(run(1000)).chain(short.map(run(10))).collect()
}
