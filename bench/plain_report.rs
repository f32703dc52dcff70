// A plain program that reports for a pass log as `passreport` does, over Quaigh's network and bench/simulate.rs: it reads netlist.blif and
// sheet.txt of the current folder and prints the four lines. What `passreport` refuses ends it with a message and status 1.
// usage: plain_report [nothing]      with the word it ends at once
mod io;
mod network;
mod simulate;

pub use network::{BinaryType, Gate, NaryType, Network, Signal, TernaryType};

use std::io::Write;

// The part and the rows of a sheet.
fn parts(sheet: &str) -> Option<(&str, &str)> {
    let (first, rest) = sheet.split_once('\n')?;
    let (second, rows) = rest.split_once('\n')?;
    let part = first.strip_prefix("part=").filter(|p| p.len() <= 16 && !p.is_empty() && p.bytes().all(|c| c.is_ascii_alphanumeric()))?;
    let count: usize = second.strip_prefix("rows=")?.parse().ok()?;
    let lines = rows.bytes().filter(|c| *c == b'\n').count();
    if lines == count && (1..=128).contains(&count) && rows.ends_with('\n') {
        Some((part, rows))
    } else {
        None
    }
}

fn report() -> Result<String, String> {
    let netlist = std::fs::read("netlist.blif").map_err(|e| e.to_string())?;
    let sheet = std::fs::read_to_string("sheet.txt").map_err(|e| e.to_string())?;
    let (part, rows) = parts(&sheet).ok_or("the sheet is wrong")?;
    let network = io::blif::read_blif(netlist.as_slice())?;
    if network.nb_outputs() == 0 {
        return Err("there is no output".to_string());
    }
    let mut out = Vec::new();
    simulate::run(&network, rows.as_bytes(), &mut out).ok_or("a row is wrong")?;
    let lines: Vec<&[u8]> = out.chunks(network.nb_outputs() + 1).collect();
    let accepted = lines.iter().filter(|l| l[0] == b'1').count();
    Ok(format!("part={part}\ncommands={}\naccepted={accepted}\nrejected={}\n", lines.len(), lines.len() - accepted))
}

fn main() {
    if std::env::args().nth(1).is_some_and(|word| word == "nothing") {
        return;
    }
    match report() {
        Ok(lines) => std::io::stdout().write_all(lines.as_bytes()).expect("standard output takes the report"),
        Err(why) => {
            eprintln!("plain_report: {why}");
            std::process::exit(1);
        }
    }
}
