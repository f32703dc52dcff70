// Measures static libraries of the part beside each other: each is there at several places in memory.
// usage: compare once|measure FOLDER..      a folder that bench/place filled for each library
mod clock;
mod inputs;
mod networks;
mod part;

use inputs::Input;
use networks::RunInput;
use part::{Lent, NetworkAnswer, Part, RowsAnswer, TextAnswer, GATE_CELLS, GATE_CELLS_BEFORE, PLACES};
use std::hint::black_box;
use std::time::Instant;

// One library at one place, and the least times of its calls in nanoseconds.
struct Placed {
    part: Part,
    times: [f64; 3],
}

// The cells and bytes lent, for each width of a record.
struct Lents([Lent; 2]);

// The calls, by their places among the times.
const CALLS: [&str; 3] = ["reading", "writing", "running"];
const RUNNING: usize = 2;

// For each call the sums of the logarithms of each library's times beside the first library's, and how many inputs they are of.
struct Sums {
    sums: [Vec<f64>; 3],
    counts: [usize; 3],
}

impl Lents {
    fn new() -> Lents {
        Lents([GATE_CELLS_BEFORE, GATE_CELLS].map(Lent::of_width))
    }

    // Those of the width that a library takes.
    fn of(&mut self, part: Part) -> &mut Lent {
        &mut self.0[usize::from(part.gate_cells == GATE_CELLS)]
    }
}

fn least<T>(best: &mut f64, f: impl FnOnce() -> T) -> T {
    let start = Instant::now();
    let answer = black_box(f());
    *best = best.min(start.elapsed().as_nanos() as f64);
    answer
}

// How often each library gets an input: so that all take about half a second, within limits.
fn how_often(nanoseconds: usize, libraries: usize, limits: [usize; 2]) -> usize {
    (400_000_000 / (nanoseconds * libraries + 20_000)).clamp(limits[0], limits[1])
}

// All libraries by turns over one input; how many bytes are written, 0 where a network without gates or none is.
fn measure(lents: &mut Lents, placed: &mut [Placed], input: &Input, runs: usize) -> usize {
    let mut written = 0;
    for p in placed.iter_mut() {
        p.times = [f64::MAX; 3];
    }
    for _ in 0..runs {
        for p in placed.iter_mut() {
            let lent = lents.of(p.part);
            let n: NetworkAnswer = least(&mut p.times[0], || lent.read(p.part, &input.text));
            let t: TextAnswer = least(&mut p.times[1], || lent.write(p.part, n));
            written = if n.gates > 0 && t.refused == 0 { t.length as usize } else { 0 };
        }
    }
    written
}

// All libraries by turns over one network, and that they give the same rows; the number of its pins by that of the clocks.
fn measure_run(lents: &mut Lents, placed: &mut [Placed], input: &RunInput, once: bool) -> usize {
    let n = placed.iter().map(|p| input.lay(p.part, lents.of(p.part))).last().expect("a library");
    let units = n.pins as usize * input.clocks;
    let calls = if once { 1 } else { clock::together(units) };
    let turns = if once { 1 } else { how_often(units * calls, placed.len(), [40, 5_000]) };
    let rows = input.rows(n.inputs);
    let mut first = vec![0; input.clocks * (n.outputs as usize + 1)];
    lents.of(placed[0].part).run(placed[0].part, n, &rows, &mut first);
    let mut out = vec![0; first.len()];
    for p in placed.iter_mut() {
        p.times = [f64::MAX; 3];
    }
    let mut turn = || {
        for p in placed.iter_mut() {
            let lent = lents.of(p.part);
            let mut answer = RowsAnswer::default();
            clock::least(&mut p.times[RUNNING], calls, || answer = black_box(lent.run(p.part, n, &rows, &mut out)));
            assert!(answer.refused == 0 && out == first, "{} is refused by {}, or its rows differ", input.name, answer.refused);
        }
    };
    for t in 0..turns {
        clock::deeper(t % clock::DEPTHS, &mut turn);
    }
    units
}

// The mean over a library's places, the least and the greatest, in nanoseconds a byte, or a pin and clock.
fn show(placed: &[Placed], call: usize, units: usize) {
    for library in placed.chunks(PLACES.len()) {
        let times = || library.iter().map(|p| p.times[call] / units as f64);
        let mean = times().sum::<f64>() / PLACES.len() as f64;
        print!("  {mean:.3} ({:.3} to {:.3})", times().fold(f64::MAX, f64::min), times().fold(0.0, f64::max));
    }
}

impl Sums {
    fn new(libraries: usize) -> Sums {
        Sums { sums: [0, 1, 2].map(|_| vec![0.0; libraries]), counts: [0; 3] }
    }

    // Adds what was measured of a call: the means over the places.
    fn add(&mut self, placed: &[Placed], call: usize) {
        let mean = |library: &[Placed]| library.iter().map(|p| p.times[call]).sum::<f64>().ln();
        let first = mean(&placed[..PLACES.len()]);
        for (sum, library) in self.sums[call].iter_mut().zip(placed.chunks(PLACES.len())) {
            *sum += mean(library) - first;
        }
        self.counts[call] += 1;
    }

    fn tell(&self) {
        for (call, name) in CALLS.into_iter().enumerate().filter(|(call, _)| self.counts[*call] > 0) {
            let of_first: Vec<String> = self.sums[call].iter().map(|s| format!("{:.3}", (s / self.counts[call] as f64).exp())).collect();
            println!("{name}: {} of the first library's time in the geometric mean of {} inputs", of_first.join(" "), self.counts[call]);
        }
    }
}

fn compare_texts(placed: &mut [Placed], sums: &mut Sums, once: bool) {
    let mut lents = Lents::new();
    println!("input, bytes, and for each library ns a byte: the mean of {} places (least to greatest); the same for writing", PLACES.len());
    for input in inputs::inputs().iter().take(if once { 1 } else { usize::MAX }) {
        let runs = if once { 1 } else { how_often(input.text.len() * 10, placed.len(), [200, 5_000]) };
        let written = measure(&mut lents, placed, input, runs);
        print!("{}  {}", input.name, input.text.len());
        for (call, bytes) in [input.text.len(), written].into_iter().enumerate().filter(|(_, bytes)| *bytes > 0) {
            show(placed, call, bytes);
            sums.add(placed, call);
            print!("{}", if call == 0 { "  |" } else { "" });
        }
        println!();
    }
}

fn compare_runs(placed: &mut [Placed], sums: &mut Sums, once: bool) {
    let mut lents = Lents::new();
    println!("network, and for each library ns a pin and clock: the mean of {} places (least to greatest)", PLACES.len());
    for input in networks::runs().iter().take(if once { 1 } else { usize::MAX }) {
        let units = measure_run(&mut lents, placed, input, once);
        print!("{}", input.name);
        show(placed, RUNNING, units);
        sums.add(placed, RUNNING);
        println!();
    }
}

fn main() {
    let words: Vec<String> = std::env::args().skip(1).collect();
    let (once, folders) = (words[0] == "once", &words[1..]);
    let mut placed: Vec<Placed> = folders.iter().flat_map(|f| part::load_all(f)).map(|part| Placed { part, times: [f64::MAX; 3] }).collect();
    let mut sums = Sums::new(folders.len());
    compare_texts(&mut placed, &mut sums, once);
    match placed.iter().position(|p| p.part.run.is_none()) {
        Some(at) => println!("running is not compared: library {} has no vumneath_run", at / PLACES.len() + 1),
        None => compare_runs(&mut placed, &mut sums, once),
    }
    sums.tell();
}
