// The table, the plot and the page docs/speed.md.
use crate::programs::Reports;
use crate::stack::Deepest;
use crate::{Measured, MeasuredRun, Pair, Rule};
use std::collections::HashMap;
use std::fmt::Write;

// The instructions of one call, by the counted function's name; empty where they were not counted.
fn counts(folder: &str, name: &str) -> HashMap<String, f64> {
    let text = std::fs::read_to_string(format!("{folder}/{name}.count")).unwrap_or_default();
    text.lines().filter_map(|l| l.split_once(' ')).map(|(f, n)| (f.to_string(), n.parse().unwrap())).collect()
}

fn ratio(p: &Pair) -> f64 {
    p.rust / p.part
}

fn mean(pairs: &[Pair]) -> f64 {
    (pairs.iter().map(|p| ratio(p).ln()).sum::<f64>() / pairs.len() as f64).exp()
}

fn worst(all: &[(&str, Pair)]) -> String {
    let (name, p) = all.iter().min_by(|a, b| ratio(&a.1).total_cmp(&ratio(&b.1))).unwrap();
    format!("{:.2} ({name})", ratio(p))
}

// The cells of a row about reading, writing or running: nanoseconds and instructions of both per byte, or per pin and clock, and the ratios.
fn cells(p: Option<Pair>, units: usize, counts: &HashMap<String, f64>, what: &str) -> String {
    let Some(p) = p else {
        return "| | | | ".to_string();
    };
    let u = units as f64;
    let count = |side: &str| counts.get(&format!("counted_{side}_{what}")).map(|n| n / u);
    let instructions = match (count("part"), count("rust")) {
        (Some(x), Some(y)) => format!("{x:.1} / {y:.1}"),
        _ => String::new(),
    };
    format!("| {:.2} / {:.2} | {instructions} | **{:.2}** ", p.part / u, p.rust / u, ratio(&p))
}

fn table(rows: &[Measured], folder: &str) -> String {
    let mut t = String::from("| input | bytes | read: ns a byte, this part / Rust | instructions a byte | ratio | written bytes | write: ns a byte | instructions a byte | ratio |\n|---|---|---|---|---|---|---|---|---|\n");
    for m in rows {
        let c = counts(folder, &m.name);
        let _ = writeln!(t, "| {} | {} {}| {} {}|", m.name, m.bytes, cells(m.read, m.bytes, &c, "read"), m.written, cells(m.write, m.written, &c, "write"));
    }
    t
}

fn run_table(runs: &[MeasuredRun], folder: &str) -> String {
    let mut t = String::from("| network | gates | pins | rows | ns a pin and clock, this part / plain simulator | instructions a pin and clock | ratio |\n|---|---|---|---|---|---|---|\n");
    for m in runs {
        let units = m.pins as usize * m.clocks;
        let _ = writeln!(t, "| {} | {} | {} | {} {}|", m.name, m.gates, m.pins, m.clocks, cells(Some(m.run), units, &counts(folder, &m.name), "run"));
    }
    t
}

fn report_table(reports: &Reports) -> String {
    let mut t = String::from("| netlist | bytes | inputs | gates | µs, `passreport` / plain program | ratio |\n|---|---|---|---|---|---|\n");
    for m in &reports.all {
        let p = m.report;
        let _ = writeln!(t, "| {} | {} | {} | {} | {:.0} / {:.0} | **{:.2}** |", m.name, m.bytes, m.inputs, m.gates, p.part / 1e3, p.rust / 1e3, ratio(&p));
    }
    t
}

// The reports' table and the line about them.
pub fn print_reports(reports: &Reports) {
    println!("{}{}\nits start: {}", report_table(reports), report_summary(reports), starts(reports));
}

// How long both programs take where they have next to nothing to do.
fn starts(reports: &Reports) -> String {
    format!("{:.0} µs beside {:.0} µs", reports.start.part / 1e3, reports.start.rust / 1e3)
}

fn report_summary(reports: &Reports) -> String {
    let all: Vec<(&str, Pair)> = reports.all.iter().map(|m| (m.name.as_str(), m.report)).collect();
    summary("the process of `passreport`, its start included", "that of a plain program over Quaigh", &all)
}

fn pairs<'a>(rows: &'a [Measured], f: fn(&Measured) -> Option<Pair>) -> Vec<(&'a str, Pair)> {
    rows.iter().filter_map(|m| f(m).map(|p| (m.name.as_str(), p))).collect()
}

// A line about all inputs of one kind: what, and beside whom.
fn summary(what: &str, whom: &str, all: &[(&str, Pair)]) -> String {
    if all.is_empty() {
        return String::new();
    }
    let only: Vec<Pair> = all.iter().map(|a| a.1).collect();
    let slower = only.iter().filter(|p| ratio(p) < 1.0).count();
    format!("{what}: {:.2} times as fast as {whom} in the geometric mean of {} inputs; least {}; slower on {slower}", mean(&only), only.len(), worst(all))
}

const FAMILIES: [(&str, &str); 4] = [("small-gates-", "#1b6ca8"), ("long-names-", "#b8550f"), ("latches-", "#3a7d2c"), ("cover-of-16-", "#7b3fa0")];

// Time in microseconds over bytes, both by powers of ten: a line for each family, broken for the Rust.
fn plot(rows: &[Measured], f: fn(&Measured) -> Option<Pair>, left: f64, title: &str) -> String {
    let x = |b: f64| left + 60.0 + (b.log10() - 1.9) / 2.7 * 330.0;
    let y = |ns: f64| 360.0 - (ns.log10() - 2.5) / 4.0 * 320.0;
    let mut s = format!("<text x=\"{}\" y=\"24\" font-weight=\"bold\">{title}</text>\n", left + 60.0);
    for (b, label) in [(100.0, "100"), (1e3, "1,000"), (1e4, "10,000"), (32768.0, "32,768")] {
        let _ = writeln!(s, "<line x1=\"{0:.1}\" y1=\"40\" x2=\"{0:.1}\" y2=\"360\" stroke=\"#ddd\"/><text x=\"{0:.1}\" y=\"376\" text-anchor=\"middle\">{label}</text>", x(b));
    }
    for (ns, label) in [(1e3, "1 µs"), (1e4, "10 µs"), (1e5, "100 µs"), (1e6, "1 ms")] {
        let _ = writeln!(s, "<line x1=\"{1:.1}\" y1=\"{0:.1}\" x2=\"{2:.1}\" y2=\"{0:.1}\" stroke=\"#ddd\"/><text x=\"{3:.1}\" y=\"{0:.1}\" text-anchor=\"end\">{label}</text>", y(ns), left + 60.0, left + 390.0, left + 54.0);
    }
    for (family, colour) in FAMILIES {
        let points: Vec<(f64, Pair)> = rows.iter().filter(|m| m.name.starts_with(family)).filter_map(|m| f(m).map(|p| (m.bytes as f64, p))).collect();
        for (dash, side) in [("", 0), ("5 4", 1)] {
            let line: String = points.iter().map(|(b, p)| format!("{:.1},{:.1} ", x(*b), y(if side == 0 { p.part } else { p.rust }))).collect();
            let _ = writeln!(s, "<polyline points=\"{line}\" fill=\"none\" stroke=\"{colour}\" stroke-width=\"2\" stroke-dasharray=\"{dash}\"/>");
        }
    }
    s
}

fn svg(rows: &[Measured]) -> String {
    let mut s = String::from("<svg xmlns=\"http://www.w3.org/2000/svg\" width=\"840\" height=\"430\" font-family=\"sans-serif\" font-size=\"12\">\n<rect width=\"840\" height=\"430\" fill=\"white\"/>\n");
    s += &plot(rows, |m| m.read, 0.0, "Reading: time over the text's bytes");
    s += &plot(rows, |m| m.write, 420.0, "Writing: time over the bytes that were read");
    for (i, (family, colour)) in FAMILIES.iter().enumerate() {
        let at = 60 + 180 * i;
        let _ = writeln!(s, "<line x1=\"{at}\" y1=\"404\" x2=\"{}\" y2=\"404\" stroke=\"{colour}\" stroke-width=\"2\"/><text x=\"{}\" y=\"408\">{}</text>", at + 24, at + 30, family.trim_end_matches('-').replace('-', " "));
    }
    s + "<text x=\"60\" y=\"424\">whole lines: this part; broken lines: Quaigh, in Rust</text>\n</svg>\n"
}

// The inputs on which the Rust is ahead: both times, and what the rule costs by itself.
fn slower(rows: &[Measured], what: &str, alone: f64, f: fn(&Measured) -> Option<Pair>) -> String {
    let slow = pairs(rows, f).into_iter().filter(|(_, p)| ratio(p) < 1.0);
    slow.map(|(name, p)| format!("| {what} {name} | {:.2} | {:.2} | {:.2} |\n", p.part / 1e3, p.rust / 1e3, alone / 1e3)).collect()
}

// The lines over the tables.
fn summaries(made: &[Measured], given: &[Measured], runs: &[MeasuredRun]) -> Vec<String> {
    let (rust, read, write) = ("the Rust", |m: &Measured| m.read, |m: &Measured| m.write);
    let mut lines = vec![summary("reading", rust, &pairs(made, read)), summary("writing", rust, &pairs(made, write))];
    if !given.is_empty() {
        let compared = given.iter().filter(|m| m.read.is_some()).count();
        lines.push(format!("files: {} given, {compared} read, {} refused", given.len(), given.len() - compared));
        lines.push(summary("reading the files", rust, &pairs(given, read)));
        lines.push(summary("writing the files", rust, &pairs(given, write)));
    }
    for clocks in [1000, 10] {
        let ran: Vec<(&str, Pair)> = runs.iter().filter(|m| m.clocks == clocks).map(|m| (m.name.as_str(), m.run)).collect();
        lines.push(summary(&format!("running {clocks} rows"), "a plain simulator over Quaigh's network", &ran));
    }
    lines
}

// What is told of a text that was made against the index.
fn told(m: &Measured) -> String {
    let p = m.read.expect("a text made against the index is read");
    format!("{} bytes, {:.0} µs here and {:.0} µs in the Rust", m.bytes, p.part / 1e3, p.rust / 1e3)
}

pub fn report(
    rows: &[Measured],
    made: usize,
    worst: &[Measured],
    runs: &[MeasuredRun],
    reports: &Reports,
    stack: &[Deepest],
    rule: &Rule,
    folder: &str,
    docs: &str,
) {
    let behind = slower(rows, "reading", rule.cells, |m| m.read) + &slower(rows, "writing", rule.bytes, |m| m.write);
    let cores = std::thread::available_parallelism().map_or(1, |n| n.get());
    let (made, given) = rows.split_at(made);
    let mut lines = summaries(made, given, runs);
    let filled: String = made.iter().filter(|m| m.name.starts_with("small-gates-")).map(|m| format!("| {} | {:.2} | {:.2} |\n", m.bytes, m.read.unwrap().part / 1e3, m.read_filled / 1e3)).collect();
    print!("{}{}", table(rows, folder), run_table(runs, folder));
    println!("{}", lines.join("\n"));
    print_reports(reports);
    lines.push(report_summary(reports));
    stack.iter().for_each(|d| println!("{d}"));
    let (tree, hash) = (told(&worst[0]), told(&worst[1]));
    println!("names of one tree: {tree}\nnames of one hash: {hash}");
    print!("{behind}");
    let points: String = lines.iter().map(|l| format!("- {l}\n")).collect();
    let deepest: String = stack.iter().map(|d| format!("- {d}\n")).collect();
    let fills = [
        ("@CORES@", cores.to_string()),
        ("@SUMMARY@", points),
        ("@TABLE@", table(made, folder)),
        ("@FILLED@", filled),
        ("@TREE@", tree),
        ("@HASH@", hash),
        ("@CELLS@", format!("{:.2}", rule.cells / 1e3)),
        ("@BYTES@", format!("{:.2}", rule.bytes / 1e3)),
        ("@SLOWER@", behind),
        ("@RUNS@", run_table(runs, folder)),
        ("@REPORTS@", report_table(reports)),
        ("@START@", starts(reports)),
        ("@STACK@", deepest),
    ];
    let page = fills.iter().fold(include_str!("speed.template").to_string(), |page, (mark, text)| page.replace(mark, text.trim_end()));
    std::fs::write(format!("{docs}/speed.md"), page).unwrap();
    std::fs::write(format!("{docs}/speed.svg"), svg(made)).unwrap();
}
