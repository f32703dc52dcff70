// Measures the part and Quaigh on the same inputs, by turns: reading, writing, and running beside a plain simulator over Quaigh's network; and
// the program `passreport` beside a plain one.
// usage: bench names [FILES] | once PLACED NAME [FILES] | stack PLACED | reports [once] FOLDER | measure PLACED FOLDER DOCS [FILES]
//        PLACED is a folder that bench/place filled; FOLDER has counts of instructions and the programs `passreport` and `plain_report`
mod clock;
mod inputs;
mod io;
mod network;
mod networks;
mod part;
mod programs;
mod quaigh;
mod report;
mod runs;
mod simulate;
mod stack;

pub use network::{BinaryType, Gate, NaryType, Network, Signal, TernaryType};

use inputs::Input;
use io::blif::{read_blif, write_blif};
use part::{Lent, NetworkAnswer, Part, TextAnswer};
use runs::MeasuredRun;
use std::hint::black_box;
use std::time::Instant;

// The least times in nanoseconds of this part, the mean over its places, and of Quaigh; None where there is nothing to compare.
#[derive(Clone, Copy)]
pub struct Pair {
    pub part: f64,
    pub rust: f64,
}

pub struct Measured {
    pub name: String,
    pub bytes: usize,
    pub read: Option<Pair>,
    // the part's, with ones in every lent cell before each read
    pub read_filled: f64,
    pub write: Option<Pair>,
    pub written: usize,
    // the number of the refusal, of reading or else of writing
    pub refused: (u32, u32),
}

#[no_mangle]
#[inline(never)]
pub extern "C" fn counted_part_read(lent: &mut Lent, part: Part, text: &Vec<u8>) -> NetworkAnswer {
    lent.read(part, text)
}

#[no_mangle]
#[inline(never)]
pub extern "C" fn counted_part_write(lent: &mut Lent, part: Part, n: NetworkAnswer) -> TextAnswer {
    lent.write(part, n)
}

#[no_mangle]
#[inline(never)]
pub fn counted_rust_read(text: &Vec<u8>) {
    drop(black_box(read_blif(text.as_slice())));
}

#[no_mangle]
#[inline(never)]
pub fn counted_rust_write(out: &mut Vec<u8>, n: &Network) {
    out.clear();
    write_blif(out, n);
}

// The network of an input on both sides, if it is read.
fn read_both(lent: &mut Lent, part: Part, input: &Input) -> (NetworkAnswer, Option<Network>) {
    // an Xor of 12 inputs: its text has more lines than may be read, so the network is lent
    if input.name == "xor-of-12" {
        let a = networks::xor_of_inputs(12).lay(lent);
        return (a, Some(quaigh::network(lent, a)));
    }
    let a = lent.read(part, &input.text);
    let n = if a.refused == 0 { Some(read_blif(input.text.as_slice()).expect("Quaigh reads what is read here")) } else { None };
    (a, n)
}

fn least(best: &mut f64, f: impl FnOnce()) {
    let start = Instant::now();
    f();
    *best = best.min(start.elapsed().as_nanos() as f64);
}

// How many runs: about a fifth of a second in all, a hundred at least.
fn how_often(input: &Input) -> usize {
    (200_000_000 / (input.text.len() * 60 + 20_000)).clamp(100, 5_000)
}

// This part's least times at one place: of a read, of one with ones in every cell before, and of a write.
#[derive(Clone, Copy)]
struct Times {
    read: f64,
    filled: f64,
    write: f64,
}

fn measure(parts: &[Part], input: &Input) -> Measured {
    let mut lent = Lent::new();
    let (a, n) = read_both(&mut lent, parts[0], input);
    let mut w = lent.write(parts[0], a);
    let mut out = Vec::with_capacity(1 << 20);
    let mut times = vec![Times { read: f64::MAX, filled: f64::MAX, write: f64::MAX }; parts.len()];
    let mut rust = [f64::MAX; 2];
    // comments, blanks and the like are all the network without anything; no-gates stands for it
    let written = n.as_ref().filter(|n| n.nb_nodes() + n.nb_inputs() > 0);
    for _ in 0..how_often(input) {
        for (part, t) in parts.iter().zip(times.iter_mut()) {
            if !input.text.is_empty() {
                lent.fill(u32::MAX);
                least(&mut t.filled, || drop(black_box(counted_part_read(&mut lent, *part, &input.text))));
                least(&mut t.read, || drop(black_box(counted_part_read(&mut lent, *part, &input.text))));
            }
            if written.is_some() {
                least(&mut t.write, || w = black_box(counted_part_write(&mut lent, *part, a)));
            }
        }
        if n.is_some() && !input.text.is_empty() {
            least(&mut rust[0], || counted_rust_read(&input.text));
        }
        if let Some(n) = written {
            least(&mut rust[1], || counted_rust_write(&mut out, n));
        }
    }
    // covers of two or more lines with output 0 are built otherwise here, and start values are written (docs/DIFFERENCES.md); only a file may
    // have such a cover or a latch that starts at one
    let same = w.refused == 0 && lent.out[..w.length as usize] == out[..];
    assert!(same || input.file || w.refused != 0 || rust[1] == f64::MAX, "the two texts of {} differ", input.name);
    let mean = |f: fn(&Times) -> f64| times.iter().map(f).sum::<f64>() / parts.len() as f64;
    let compared = |part: f64, rust: f64| if rust < f64::MAX { Some(Pair { part, rust }) } else { None };
    Measured {
        name: input.name.clone(),
        bytes: input.text.len(),
        read: compared(mean(|t| t.read), rust[0]),
        read_filled: mean(|t| t.filled),
        write: if same { compared(mean(|t| t.write), rust[1]) } else { None },
        written: w.length as usize,
        refused: (a.refused, w.refused),
    }
}

// What document 01's rules on cells and bytes that are not filled cost by themselves: to clear all lent cells, and to clear the output slice.
// The least times in nanoseconds, beside a read by Quaigh.
pub struct Rule {
    pub cells: f64,
    pub bytes: f64,
}

fn rule() -> Rule {
    let mut lent = Lent::new();
    let text = b".model m\n.inputs a b\n.outputs a\n.end\n".to_vec();
    let mut rule = Rule { cells: f64::MAX, bytes: f64::MAX };
    for _ in 0..5_000 {
        least(&mut rule.cells, || black_box(&mut lent).fill(0));
        counted_rust_read(&text);
        least(&mut rule.bytes, || black_box(&mut lent.out).fill(0));
        counted_rust_read(&text);
    }
    rule
}

fn all(folder: Option<&String>) -> Vec<Input> {
    let mut all = inputs::inputs();
    all.push(Input { name: "xor-of-12".to_string(), text: Vec::new(), file: false });
    if let Some(f) = folder {
        all.extend(inputs::files(f));
    }
    all
}

// Reads, writes or runs one input once on both sides.
fn once(part: Part, name: &str, folder: Option<&String>) {
    if let Some(run) = networks::runs().iter().find(|r| r.name == name) {
        runs::measure(&[part], run, true);
        return;
    }
    let all = all(folder);
    let input = all.iter().find(|i| i.name == name).expect("no such input");
    let mut lent = Lent::new();
    let (a, n) = read_both(&mut lent, part, input);
    if !input.text.is_empty() {
        black_box(counted_part_read(&mut lent, part, &input.text));
    }
    if let Some(n) = n {
        if !input.text.is_empty() {
            counted_rust_read(&input.text);
        }
        black_box(counted_part_write(&mut lent, part, a));
        counted_rust_write(&mut Vec::with_capacity(1 << 20), &n);
    }
}

fn main() {
    let words: Vec<String> = std::env::args().skip(1).collect();
    match words[0].as_str() {
        "names" => {
            all(words.get(1)).iter().for_each(|i| println!("{}", i.name));
            networks::runs().iter().for_each(|r| println!("{}", r.name));
        }
        "once" => once(part::load_all(&words[1])[0], &words[2], words.get(3)),
        "stack" => stack::measure(part::load_all(&words[1])[0]).iter().for_each(|d| println!("{d}")),
        "reports" if words[1] == "once" => programs::measure_all(&words[2], true).all.iter().for_each(|m| println!("{} was reported on once", m.name)),
        "reports" => report::print_reports(&programs::measure_all(&words[1], false)),
        _ => {
            let made = all(None).len();
            let parts = part::load_all(&words[1]);
            let measured: Vec<Measured> = all(words.get(4)).iter().map(|i| measure(&parts, i)).collect();
            let worst = inputs::worst().each_ref().map(|i| measure(&parts, i));
            let runs: Vec<MeasuredRun> = networks::runs().iter().map(|r| runs::measure(&parts, r, false)).collect();
            let reports = programs::measure_all(&words[2], false);
            report::report(&measured, made, &worst, &runs, &reports, &stack::measure(parts[0]), &rule(), &words[2], &words[3]);
        }
    }
}
