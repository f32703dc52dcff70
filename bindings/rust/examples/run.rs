//! Runs a netlist for the rows of 0 and 1 on standard input, one for each clock, and prints a row of outputs for each.
//! Usage: run netlist.blif < rows. Status: 0 with rows, 1 with a refusal.
use std::io::{self, Read, Write};
use std::process::ExitCode;
use std::{env, fs};
use vumneath::Network;

fn main() -> io::Result<ExitCode> {
    let Some(path) = env::args_os().nth(1) else {
        eprintln!("usage: run netlist.blif < rows");
        return Ok(ExitCode::from(2));
    };
    let text = fs::read(path)?;
    let mut rows = Vec::new();
    io::stdin().read_to_end(&mut rows)?;
    match Network::read(&text).and_then(|network| network.run(&rows)) {
        Ok(ran) => io::stdout().write_all(&ran).map(|()| ExitCode::SUCCESS),
        Err(refusal) => {
            println!("refused={}", refusal.number());
            Ok(ExitCode::FAILURE)
        }
    }
}
