// The oracle: Quaigh's answers, as lists that programs of this repository replay. What Quaigh has no answer for, start values of flip-flops,
// runs and reports, is answered from document 02 by the oracle's own files.
// usage: oracle checks SEED COUNT                  texts and networks with what is read and written, as the file specs/Stored of worked_cases
//        oracle sort SEED COUNT GIVEN WANTED       files of networks and of what `topo_sort` makes of them
//        oracle texts SEED COUNT GIVEN WANTED      files of texts and of the statements that `read_statements` finds
//        oracle reads SEED COUNT GIVEN WANTED      files of texts and of what `read_blif` answers, as documents 01 and 02 have it
//        oracle writes SEED COUNT GIVEN WANTED     files of lent networks and of what `write_blif` writes, as documents 01 and 02 have it
//        oracle trips SEED COUNT GIVEN WANTED      files of lent networks with rows, and of what is answered when they are written and read
//        oracle compare_trips SEED COUNT PROGRAM   such networks, written and read back by a program
//        oracle runs SEED COUNT GIVEN WANTED       files of lent networks with rows, and of the output rows, as document 02 has it
//        oracle compare_runs SEED COUNT PROGRAM    so many networks with rows run by a program, beside a plain run of the oracle's own
//        oracle reports SEED COUNT GIVEN WANTED    files of netlists with sheets, and of the reports for them, as document 02 has it
//        oracle compare_reports SEED COUNT PROGRAM such netlists with sheets reported on by a program, beside the oracle's own report
//        oracle compare_reads SEED COUNT PROGRAM   so many texts read by a program, beside what `read_blif` answers
//        oracle compare_writes SEED COUNT PROGRAM  so many networks written by a program, beside what `write_blif` writes
//        oracle compare_files PROGRAM FILE..       files of one text each read by a program, cut behind 32,769 bytes
mod compare;
mod generate;
mod io;
mod layouts;
mod lent;
mod limits;
mod models;
mod nets;
mod network;
mod plain_writer;
mod points;
mod reads;
mod report;
mod report_lists;
mod rows;
mod run_lists;
mod runs;
mod scale;
mod sheets;
mod simulate;
mod smaller_nets;
mod smaller_texts;
mod starts;
mod texts;
mod tricky;
mod trips;
mod variants;
mod writes;
pub use network::{BinaryType, Gate, NaryType, Network, Signal, TernaryType};

use generate::{filled, make, most_used, refused, smallest, Numbers, Plain, Shape};
use std::panic::{catch_unwind, AssertUnwindSafe};
use variants::{order, starts, Mistake, MISTAKES, START_MISTAKES};

// Each number as eight hexadecimal digits and a blank, the last of a line with LF.
fn words(ws: &[u32]) -> String {
    let mut s = String::new();
    for (i, w) in ws.iter().enumerate() {
        s += &format!("{:08x}{}", w, if i + 1 == ws.len() { '\n' } else { ' ' });
    }
    s
}

// The cells of a network: gate records, pins and outputs.
pub fn cells(p: &Plain) -> (Vec<u32>, Vec<u32>, Vec<u32>) {
    let mut gates = Vec::new();
    let mut pins = Vec::new();
    for g in &p.gates {
        gates.extend([g.form, pins.len() as u32, g.pins.len() as u32, g.start]);
        pins.extend(g.pins.iter().map(|s| s.raw()));
    }
    let outs: Vec<u32> = p.outputs.iter().map(|s| s.raw()).collect();
    (gates, pins, outs)
}

// A word and cells, as the programs print them.
pub fn line(word: &str, cells: &[u32]) -> String {
    word.to_string() + &cells.iter().map(|c| format!(" {c:x}")).collect::<String>() + "\n"
}

// What `topo_sort` makes of it; nothing where it panics. Each start value goes where it says that its gate goes.
fn sorted(p: &Plain) -> Option<Plain> {
    let mut n = p.network();
    let moved = catch_unwind(AssertUnwindSafe(|| n.topo_sort())).ok()?;
    let mut s = Plain::of(&n);
    for (g, to) in p.gates.iter().zip(moved.iter()) {
        s.gates[to.var() as usize].start = g.start;
    }
    Some(s)
}

// The network in an order of old numbers.
fn permuted(p: &Plain, o: &[usize]) -> Plain {
    let mut place = vec![0; o.len()];
    for (new, old) in o.iter().enumerate() {
        place[*old] = new;
    }
    let moved = |s: &Signal| {
        if s.is_var() { Signal::from_var(place[s.var() as usize] as u32) ^ s.is_inverted() } else { *s }
    };
    Plain {
        inputs: p.inputs,
        gates: o.iter().map(|g| p.gates[*g].with_pins(moved)).collect(),
        outputs: p.outputs.iter().map(moved).collect(),
    }
}

// Small networks first, then the largest sizes, then middling ones.
fn random(r: &mut Numbers, k: usize, count: usize) -> Plain {
    if k == count / 2 {
        let most = Shape { inputs: 256, gates: 1024, outputs: 256, wide: 16, loops: false, flops: 9 };
        return filled(make(r, &most), 16384);
    }
    let shape = if k < count / 2 {
        Shape { inputs: 2, gates: k % 6, outputs: 2, wide: 3, loops: k % 5 == 4, flops: 1 + k % 4 }
    } else if k == count / 2 + 1 {
        Shape { inputs: 3, gates: 1024, outputs: 1, wide: 2, loops: true, flops: 0 }
    } else {
        Shape { inputs: 5, gates: r.below(24), outputs: r.below(5), wide: 5, loops: k % 9 == 0, flops: 1 + r.below(6) }
    };
    make(r, &shape)
}

// What the program prints before the first network, to show that it tells what is wrong: a new cell or an output beyond the counts that has
// changed, and more outputs than are lent.
const SORT_TOLD: &str = "told
gates\nchanged\npins\noutputs
gates\npins\nchanged\noutputs
gates\npins\noutputs\nchanged
gates\npins\noutputs more than are lent\n";

// A network's counts and cells, as the program reads them.
fn sort_given(p: &Plain) -> String {
    let (gates, pins, outputs) = cells(p);
    words(&[p.inputs as u32, p.gates.len() as u32, pins.len() as u32, outputs.len() as u32]) + &words(&gates) + &words(&pins) + &words(&outputs)
}

// The answer's lines: the sorted network, or a word and the outputs as they are lent.
fn sort_shown(p: &Plain, answer: Result<&Plain, &str>) -> String {
    match answer {
        Ok(s) => {
            let (gates, pins, outputs) = cells(s);
            "sorted\n".to_string() + &line("gates", &gates) + &line("pins", &pins) + &line("outputs", &outputs)
        }
        Err(word) => format!("{word}\ngates\npins\n") + &line("outputs", &cells(p).2),
    }
}

// Stops unless the plain sort agrees with Quaigh's, and each mistake is told apart; prints the gate count of the smallest network that does.
fn tell_sort_mistakes(nets: &[Plain]) {
    let all_cells = |p: Option<Plain>| p.map(|p| cells(&p));
    let mut caught = vec![usize::MAX; MISTAKES.len()];
    let mut caught_starts = vec![usize::MAX; START_MISTAKES.len()];
    for p in nets {
        let least = |old: usize, apart: bool| if apart { old.min(p.gates.len()) } else { old };
        let by = |m: Mistake| all_cells(order(p, m).map(|o| permuted(p, &o)));
        let right = all_cells(sorted(p));
        assert!(by(Mistake::Nothing) == right, "the plain sort and the Rust differ");
        for (m, n) in MISTAKES.iter().zip(&mut caught) {
            *n = least(*n, by(*m) != right);
        }
        let (Some(o), Some(s)) = (order(p, Mistake::Nothing), sorted(p)) else { continue };
        for (m, n) in START_MISTAKES.iter().zip(&mut caught_starts) {
            *n = least(*n, starts(p, &o, *m).into_iter().ne(s.gates.iter().map(|g| g.start)));
        }
    }
    let names = MISTAKES.iter().map(|m| format!("{m:?}")).chain(START_MISTAKES.iter().map(|m| format!("{m:?} of start values")));
    for (m, n) in names.zip(caught.into_iter().chain(caught_starts)) {
        assert!(n != usize::MAX, "the list does not tell {m} apart");
        eprintln!("{m} told apart by a network of {n} gates");
    }
}

// The networks, and what the program prints for them.
fn sort_list(seed: u64, count: usize) -> (Vec<u8>, Vec<u8>) {
    let mut r = Numbers(seed);
    let mut nets = smallest();
    for k in 0..count {
        nets.push(random(&mut r, k, count));
    }
    nets.extend(most_used());
    let refused = refused();
    let mut given = words(&[(nets.len() + refused.len()) as u32]);
    let mut wanted = SORT_TOLD.to_string();
    let mut seen = [0; 3];
    for (n, p) in nets.iter().enumerate() {
        let s = sorted(p);
        seen[s.is_none() as usize] += 1;
        given += &sort_given(p);
        wanted += &format!("network {n}\n{}", sort_shown(p, s.as_ref().ok_or("loop")));
    }
    for (n, p) in refused.iter().enumerate() {
        seen[2] += 1;
        given += &sort_given(p);
        wanted += &format!("network {}\n{}", nets.len() + n, sort_shown(p, Err("refused")));
    }
    eprintln!("networks sorted, with a loop, refused: {seen:?}");
    tell_sort_mistakes(&nets);
    (given.into_bytes(), wanted.into_bytes())
}

fn main() {
    std::panic::set_hook(Box::new(|_| {}));
    let a: Vec<String> = std::env::args().collect();
    if let Err(e) = catch_unwind(|| run(&a)) {
        let why = e.downcast_ref::<String>().cloned().or(e.downcast_ref::<&str>().map(|s| s.to_string()));
        eprintln!("stopped: {}", why.unwrap_or_default());
        std::process::exit(1);
    }
}

// Writes a list's two files.
fn store(a: &[String], list: (Vec<u8>, Vec<u8>)) {
    std::fs::write(&a[4], list.0).unwrap();
    std::fs::write(&a[5], list.1).unwrap();
}

// Status 0 only where nothing differs.
fn finish(counts: (usize, usize)) {
    std::process::exit((counts.1 > 0) as i32);
}

fn run(a: &[String]) {
    let seed = || a[2].parse::<u64>().unwrap();
    let count = || a[3].parse::<usize>().unwrap();
    match a[1].as_str() {
        "checks" => print!("{}", models::checks(seed(), count())),
        "sort" => store(a, sort_list(seed(), count())),
        "texts" => store(a, texts::lists(seed(), count())),
        "reads" => store(a, reads::lists(seed(), count())),
        "writes" => store(a, writes::lists(seed(), count())),
        "trips" => store(a, trips::lists(seed(), count())),
        "compare_trips" => finish(compare::compare(&a[4], "trips", trips::trips(seed(), count()).into_iter())),
        "runs" => store(a, run_lists::lists(seed(), count())),
        "compare_runs" => finish(compare::compare(&a[4], "runs", run_lists::runs(seed(), count()))),
        "reports" => store(a, report_lists::lists(seed(), count())),
        "compare_reports" => finish(compare::compare(&a[4], "reports", report_lists::reports(seed(), count()))),
        "compare_reads" => finish(compare::compare(&a[4], "reading", scale::texts(seed(), count()))),
        "compare_writes" => finish(compare::compare(&a[4], "writing", scale::networks(seed(), count()))),
        "compare_files" => {
            let text = |f: &String| reads::Text(std::fs::read(f).unwrap().into_iter().take(32769).collect());
            finish(compare::compare(&a[2], "reading", a[3..].iter().map(text)))
        }
        other => panic!("no command {other}"),
    }
}
