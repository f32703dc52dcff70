// Quaigh's network of the lent cells.
use crate::part::{Lent, NetworkAnswer};
use crate::{BinaryType, Gate, NaryType, Network, Signal, TernaryType};

fn signal(cell: &u32) -> Signal {
    Signal::from_ind(cell >> 1) ^ (cell & 1 != 0)
}

// A gate of Quaigh's from its form's number and its pins.
fn gate(form: u32, pins: &[Signal]) -> Gate {
    let two = || [pins[0], pins[1]];
    let three = || [pins[0], pins[1], pins[2]];
    match form {
        1 => Gate::Binary(two(), BinaryType::And),
        2 => Gate::Binary(two(), BinaryType::Xor),
        3 => Gate::Ternary(three(), TernaryType::And),
        4 => Gate::Ternary(three(), TernaryType::Xor),
        5 => Gate::Ternary(three(), TernaryType::Maj),
        6 => Gate::Ternary(three(), TernaryType::Mux),
        7 => Gate::Nary(pins.into(), NaryType::And),
        8 => Gate::Nary(pins.into(), NaryType::Or),
        9 => Gate::Nary(pins.into(), NaryType::Nand),
        10 => Gate::Nary(pins.into(), NaryType::Nor),
        11 => Gate::Nary(pins.into(), NaryType::Xor),
        12 => Gate::Nary(pins.into(), NaryType::Xnor),
        13 => Gate::Buf(pins[0]),
        14 => Gate::Dff(three()),
        _ => panic!("no gate has form {form}"),
    }
}

// The network in the lent cells, with a network's counts.
pub fn network(lent: &Lent, n: NetworkAnswer) -> Network {
    let mut network = Network::new();
    network.add_inputs(n.inputs as usize);
    for record in lent.gates.chunks(lent.gate_cells).take(n.gates as usize) {
        let (first, count) = (record[1] as usize, record[2] as usize);
        let pins: Vec<Signal> = lent.pins[first..first + count].iter().map(signal).collect();
        network.add(gate(record[0], &pins));
    }
    for cell in &lent.outputs[..n.outputs as usize] {
        network.add_output(signal(cell));
    }
    network
}
