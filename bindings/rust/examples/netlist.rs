//! Reads a netlist from standard input, lists its gates and writes it back.
//! Usage: netlist < netlist.blif. Status: 0 with a text, 1 with a refusal.
use std::io::{self, Read, Write};
use std::process::ExitCode;
use vumneath::{Network, Refusal};

/// The list of the gates, and the text.
fn list_and_write(text: &[u8]) -> Result<(String, Vec<u8>), Refusal> {
    let network = Network::read(text)?;
    let (inputs, gates, outputs) = (network.inputs(), network.gates().len(), network.outputs().len());
    let mut list = format!("inputs: {inputs}, gates: {gates}, outputs: {outputs}\n");
    for (v, gate) in network.gates().iter().enumerate() {
        list += &format!("x{v} = {gate}\n");
    }
    Ok((list, network.write()?))
}

fn main() -> io::Result<ExitCode> {
    let mut text = Vec::new();
    io::stdin().read_to_end(&mut text)?;
    match list_and_write(&text) {
        Ok((list, written)) => {
            io::stdout().write_all(list.as_bytes())?;
            io::stdout().write_all(&written)?;
            Ok(ExitCode::SUCCESS)
        }
        Err(refusal) => {
            println!("refused={}", refusal.number());
            Ok(ExitCode::FAILURE)
        }
    }
}
