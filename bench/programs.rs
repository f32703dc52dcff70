// Measures the program `passreport` beside a plain one over Quaigh (bench/plain_report.rs): whole processes, started by turns in a folder with
// a netlist and a sheet of 128 rows.
use crate::inputs::{inputs, Numbers};
use crate::io::blif::read_blif;
use crate::{networks, Pair};
use std::path::Path;
use std::process::{Command, Stdio};
use std::time::Instant;

pub struct MeasuredReport {
    pub name: String,
    pub bytes: usize,
    pub inputs: usize,
    pub gates: usize,
    pub report: Pair,
}

// What is told of reports: each of them, and the least times of both programs where they have next to nothing to do.
pub struct Reports {
    pub all: Vec<MeasuredReport>,
    pub start: Pair,
}

const ROWS: usize = 128;
const TURNS: usize = 300;

// Two interlocks, the most small gates, the most flip-flops, and a netlist of 256 inputs, which gets an output.
fn netlists() -> Vec<(String, String)> {
    let text = |name: &str| {
        let found = inputs().into_iter().find(|i| i.name == name).expect("no such input");
        String::from_utf8(found.text).unwrap()
    };
    let wide = text("definitions-and-uses-10000").replace(".end\n", ".outputs g100\n.end\n");
    vec![
        ("interlock-20".to_string(), networks::interlock(20)),
        ("interlock-60".to_string(), networks::interlock(60)),
        ("small-gates-32768".to_string(), text("small-gates-32768")),
        ("shift-register".to_string(), networks::shift_register(1024)),
        ("256-inputs".to_string(), wide),
    ]
}

// A sheet of rows from a seed.
fn sheet(inputs: usize) -> String {
    let mut numbers = Numbers(99);
    let mut text = format!("part=BENCH\nrows={ROWS}\n");
    for _ in 0..ROWS {
        text.extend((0..inputs).map(|_| ['0', '1'][numbers.below(2)]));
        text.push('\n');
    }
    text
}

// What a process prints; its time counts from its start until it has ended.
fn least(best: &mut f64, program: &mut Command) -> Vec<u8> {
    let start = Instant::now();
    let done = program.stdin(Stdio::null()).output().expect("the program starts");
    *best = best.min(start.elapsed().as_nanos() as f64);
    assert!(done.status.success(), "{program:?} ends with {}", done.status);
    done.stdout
}

// Both programs, so many turns each: `passreport` in a folder without files, which it refuses by 32, and the plain one where it ends at once.
fn measure_start(programs: &Path, turns: usize) -> Pair {
    let folder = programs.join("empty");
    std::fs::create_dir_all(&folder).unwrap();
    let mut start = Pair { part: f64::MAX, rust: f64::MAX };
    for _ in 0..turns {
        let ours = least(&mut start.part, Command::new(programs.join("passreport")).current_dir(&folder));
        assert!(ours == b"refused=32\n", "a missing sheet is not refused by 32");
        least(&mut start.rust, Command::new(programs.join("plain_report")).arg("nothing").current_dir(&folder));
    }
    start
}

// Both programs, so many turns each, on one netlist. Both must print the same.
fn measure(programs: &Path, name: &str, text: &str, turns: usize) -> MeasuredReport {
    let network = read_blif(text.as_bytes()).expect("Quaigh reads what is read here");
    let folder = programs.join("pass");
    std::fs::create_dir_all(&folder).unwrap();
    std::fs::write(folder.join("netlist.blif"), text).unwrap();
    std::fs::write(folder.join("sheet.txt"), sheet(network.nb_inputs())).unwrap();
    let mut report = Pair { part: f64::MAX, rust: f64::MAX };
    for _ in 0..turns {
        let ours = least(&mut report.part, Command::new(programs.join("passreport")).current_dir(&folder));
        let theirs = least(&mut report.rust, Command::new(programs.join("plain_report")).current_dir(&folder));
        assert!(ours == theirs && ours.starts_with(b"part=BENCH\n"), "the reports of {name} differ");
    }
    MeasuredReport { name: name.to_string(), bytes: text.len(), inputs: network.nb_inputs(), gates: network.nb_nodes(), report }
}

// The programs stand in a folder as `passreport` and `plain_report`.
pub fn measure_all(programs: &str, once: bool) -> Reports {
    let programs = std::fs::canonicalize(programs).expect("there is a folder of programs");
    let turns = if once { 1 } else { TURNS };
    let all = netlists().iter().map(|(name, text)| measure(&programs, name, text, turns)).collect();
    Reports { all, start: measure_start(&programs, turns) }
}
