// A plain simulator over Quaigh's network, its enum and vectors. It takes the same rows as the part's run and gives the same.
use crate::{BinaryType, Gate, NaryType, Network, Signal, TernaryType};

// The bit of a signal at a clock, from the row and the gates' bits. Most signals are gates, so that is asked first.
#[inline]
fn signal_bit(row: &[bool], bits: &[bool], s: &Signal) -> bool {
    let bit = if s.is_var() {
        bits[s.var() as usize]
    } else if s.is_input() {
        row[s.input() as usize]
    } else {
        false
    };
    bit != s.is_inverted()
}

// The bit of a gate at a clock; a flip-flop gives its held bit.
fn gate_bit(row: &[bool], bits: &[bool], held: bool, gate: &Gate) -> bool {
    let v = |s: &Signal| signal_bit(row, bits, s);
    match gate {
        Gate::Binary([a, b], BinaryType::And) => v(a) && v(b),
        Gate::Binary([a, b], BinaryType::Xor) => v(a) ^ v(b),
        Gate::Ternary([a, b, c], TernaryType::And) => v(a) && v(b) && v(c),
        Gate::Ternary([a, b, c], TernaryType::Xor) => v(a) ^ v(b) ^ v(c),
        Gate::Ternary([a, b, c], TernaryType::Maj) => [a, b, c].into_iter().filter(|s| v(s)).count() >= 2,
        Gate::Ternary([a, b, c], TernaryType::Mux) => v(if v(a) { b } else { c }),
        Gate::Nary(pins, NaryType::And) => pins.iter().all(v),
        Gate::Nary(pins, NaryType::Or) => pins.iter().any(v),
        Gate::Nary(pins, NaryType::Nand) => !pins.iter().all(v),
        Gate::Nary(pins, NaryType::Nor) => !pins.iter().any(v),
        Gate::Nary(pins, NaryType::Xor) => pins.iter().fold(false, |x, s| x ^ v(s)),
        Gate::Nary(pins, NaryType::Xnor) => !pins.iter().fold(false, |x, s| x ^ v(s)),
        Gate::Buf(a) => v(a),
        Gate::Dff(_) => held,
        Gate::Lut(_) => unreachable!("no table gate is run"),
    }
}

// What a flip-flop holds after a clock; no other gate is asked.
fn next_bit(row: &[bool], bits: &[bool], held: bool, gate: &Gate) -> bool {
    let Gate::Dff([data, enable, reset]) = gate else {
        return held;
    };
    if signal_bit(row, bits, reset) {
        false
    } else if signal_bit(row, bits, enable) {
        signal_bit(row, bits, data)
    } else {
        held
    }
}

// Runs a sorted network over rows of 0 and 1, each ended by LF, from all flip-flops at zero; None where a row is none of this network.
pub fn run(network: &Network, rows: &[u8], out: &mut Vec<u8>) -> Option<()> {
    let gates = network.nb_nodes();
    let flops: Vec<usize> = (0..gates).filter(|g| matches!(network.gate(*g), Gate::Dff(_))).collect();
    let mut row = vec![false; network.nb_inputs()];
    let mut bits = vec![false; gates];
    let mut held = vec![false; gates];
    for line in rows.chunks(row.len() + 1) {
        if line.len() != row.len() + 1 || line[row.len()] != b'\n' {
            return None;
        }
        for (bit, c) in row.iter_mut().zip(line) {
            *bit = match c {
                b'0' => false,
                b'1' => true,
                _ => return None,
            };
        }
        for g in 0..gates {
            bits[g] = gate_bit(&row, &bits, held[g], network.gate(g));
        }
        for i in 0..network.nb_outputs() {
            out.push(if signal_bit(&row, &bits, &network.output(i)) { b'1' } else { b'0' });
        }
        out.push(b'\n');
        for g in &flops {
            held[*g] = next_bit(&row, &bits, held[*g], network.gate(*g));
        }
    }
    Some(())
}
