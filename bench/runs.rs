// Measures runs: the part's and those of the plain simulator over Quaigh's network, by turns.
use crate::io::blif::read_blif;
use crate::networks::{RunInput, Source};
use crate::part::{Lent, NetworkAnswer, Part, RowsAnswer};
use crate::{clock, quaigh, simulate, Network, Pair};
use std::hint::black_box;

pub struct MeasuredRun {
    pub name: String,
    pub gates: u32,
    pub pins: u32,
    pub clocks: usize,
    pub run: Pair,
}

#[no_mangle]
#[inline(never)]
pub extern "C" fn counted_part_run(lent: &Lent, part: Part, n: NetworkAnswer, rows: &Vec<u8>, out: &mut Vec<u8>) -> RowsAnswer {
    lent.run(part, n, rows, out)
}

#[no_mangle]
#[inline(never)]
pub fn counted_rust_run(network: &Network, rows: &Vec<u8>, out: &mut Vec<u8>) {
    out.clear();
    simulate::run(network, rows, out).expect("every row is one of the network");
}

// The network on both sides: by both readers where it is a text.
fn lay_both(lent: &mut Lent, part: Part, input: &RunInput) -> (NetworkAnswer, Network) {
    let n = input.lay(part, lent);
    match &input.source {
        Source::Text(text) => (n, read_blif(text.as_slice()).expect("Quaigh reads what is read here")),
        Source::Gates(_) => (n, quaigh::network(lent, n)),
    }
}

// How many turns: about a second for each network, 40 at least.
fn how_often(units: usize) -> usize {
    (1_000_000_000 / (units * 8)).clamp(40, 5_000)
}

// The least times of a run: of the part the mean over its places, and of the simulator. The part fills a slice that has just the room, and
// the simulator a vector that has room already; both give the same rows.
pub fn measure(parts: &[Part], input: &RunInput, once: bool) -> MeasuredRun {
    let mut lent = Lent::new();
    let (n, network) = lay_both(&mut lent, parts[0], input);
    let rows = input.rows(n.inputs);
    let units = n.pins as usize * input.clocks;
    let calls = if once { 1 } else { clock::together(units) };
    let mut out = vec![0; input.clocks * (n.outputs as usize + 1)];
    let mut rust_out = Vec::with_capacity(out.len());
    let mut times = vec![f64::MAX; parts.len()];
    let mut rust = f64::MAX;
    let mut turn = || {
        clock::least(&mut rust, calls, || counted_rust_run(&network, &rows, &mut rust_out));
        for (part, time) in parts.iter().zip(times.iter_mut()) {
            let mut answer = RowsAnswer::default();
            clock::least(time, calls, || answer = black_box(counted_part_run(&lent, *part, n, &rows, &mut out)));
            assert!(answer.refused == 0 && answer.length == out.len(), "{} is refused by {}", input.name, answer.refused);
            assert!(out == rust_out, "the rows of {} differ", input.name);
        }
    };
    for t in 0..if once { 1 } else { how_often(units * calls) } {
        clock::deeper(t % clock::DEPTHS, &mut turn);
    }
    let part = times.iter().sum::<f64>() / parts.len() as f64;
    MeasuredRun { name: input.name.clone(), gates: n.gates, pins: n.pins, clocks: input.clocks, run: Pair { part, rust } }
}
