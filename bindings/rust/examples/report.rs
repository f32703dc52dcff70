//! Prints the report for a pass log: how many commands of a sheet the interlock of a netlist accepts and rejects.
//! Usage: report netlist.blif sheet.txt. Status: 0 with a report, 1 with a refusal.
use std::process::ExitCode;
use std::{env, fs, io};

fn main() -> io::Result<ExitCode> {
    let paths: Vec<_> = env::args_os().skip(1).collect();
    let [netlist, sheet] = &paths[..] else {
        eprintln!("usage: report netlist.blif sheet.txt");
        return Ok(ExitCode::from(2));
    };
    match vumneath::report(&fs::read(netlist)?, &fs::read(sheet)?) {
        Ok(report) => {
            print!("{report}");
            Ok(ExitCode::SUCCESS)
        }
        Err(refusal) => {
            println!("refused={}", refusal.number());
            Ok(ExitCode::FAILURE)
        }
    }
}
