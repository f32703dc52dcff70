//! Calls by hand: good, damaged, short and largest input, and networks made by the caller.
mod common;

use common::{read, write, ENOUGH};
use vumneath::cells::{Counts, GATE_CELLS};
use vumneath::{interface, BinaryType, Gate, NaryType, Network, Refusal, Signal, TernaryType, INTERFACE};

const GOOD: &[u8] = b".model m\n.inputs a b c\n.outputs y q\n.names a b c y\n11- 1\n0-1 1\n.latch y q 0\n.end\n";

fn number(result: Result<Network, Refusal>) -> u32 {
    result.map_or_else(Refusal::number, |_| 0)
}

#[test]
fn every_beginning_and_every_changed_byte() {
    assert_eq!(number(Network::read(GOOD)), 0);
    for length in 0..GOOD.len() {
        assert_eq!(read(&GOOD[..length], ENOUGH).0.refused, number(Network::read(&GOOD[..length])));
    }
    for i in 0..GOOD.len() * 6 {
        let mut text = GOOD.to_vec();
        text[i / 6] = b"\0\n\\.2\xff"[i % 6];
        assert_eq!(read(&text, ENOUGH).0.refused == 3, i % 6 == 5);
    }
}

#[test]
fn behind_end() {
    let with = |rest: &[u8]| Network::read(&[GOOD, rest].concat());
    for rest in [&b".model n\n.inputs a\n"[..], b"notes, in words\n", b".names\n2 2\n"] {
        assert_eq!(with(rest), Network::read(GOOD));
    }
    assert_eq!([&b".gate"[..], b".model", b"\x80"].map(|rest| number(with(rest))), [5, 4, 3]);
}

#[test]
fn sizes() {
    let many = |before: &str, each: &str, count| number(Network::read((before.to_string() + &each.repeat(count)).as_bytes()));
    assert_eq!((many("", " ", 32768), many("", " ", 32769)), (0, 2));
    assert_eq!((many(".inputs a\n.outputs", " a", 256), many(".inputs a\n.outputs", " a", 257)), (0, 6));
    let gates = |count| (0..count).map(|i| format!(".names n{i}\n")).collect::<String>();
    assert_eq!(number(Network::read(gates(1024).as_bytes())), 0);
    assert_eq!(number(Network::read(gates(1025).as_bytes())), 6);
}

/// One gate of each form.
fn all_forms() -> Network {
    let (a, b, c) = (Signal::from_input(0), !Signal::from_input(1), Signal::from_var(13));
    let mut gates = vec![Gate::Binary([a, b], BinaryType::And), Gate::Binary([a, b], BinaryType::Xor)];
    for kind in [TernaryType::And, TernaryType::Xor, TernaryType::Maj, TernaryType::Mux] {
        gates.push(Gate::Ternary([a, b, c], kind));
    }
    for kind in [NaryType::And, NaryType::Or, NaryType::Nand, NaryType::Nor, NaryType::Xor, NaryType::Xnor] {
        gates.push(Gate::Nary(vec![a, b, c, Signal::one()], kind));
    }
    gates.extend([Gate::Buf(b), Gate::Dff([a, b, c], false)]);
    Network::new(2, gates, vec![Signal::from_var(12), !c, Signal::zero()])
}

#[test]
fn networks_of_the_caller() {
    let network = all_forms();
    for (gate, form) in network.gates().iter().zip(1..) {
        assert_eq!(gate.form(), form);
        assert_eq!(Gate::from_form(form, gate.pins(), 0).as_ref(), Some(gate));
    }
    let text = String::from_utf8(network.write().unwrap()).unwrap();
    assert!(text.contains(".flop D=i0 Q=x13 init=0 E=i1_n R=x13\n"), "{text}");
    let refused = |network: Network| network.write().unwrap_err().number();
    assert_eq!(refused(Network::new(257, vec![], vec![])), 20);
    assert_eq!(refused(Network::new(u32::MAX, vec![], vec![])), 20);
    assert_eq!(refused(Network::new(0, vec![], vec![Signal::from_var(0)])), 20);
    assert_eq!(refused(Network::new(0, vec![Gate::Nary(vec![Signal::one(); 13], NaryType::Xor)], vec![])), 21);
    assert_eq!(refused(Network::new(0, vec![Gate::Nary(vec![Signal::one(); 16384], NaryType::And)], vec![])), 22);
}

#[test]
fn exactly_enough_and_one_short() {
    let counts = Counts { inputs: 1, gates: 1, pins: 1, outputs: 1 };
    let (gates, pins, outputs) = ([13, 0, 1, 0], [0xffff_fffe], [2]);
    let (answer, text) = write(counts, [&gates, &pins, &outputs], 32768);
    assert_eq!((answer.refused, answer.length as usize), (0, text.len()));
    let number = |gates: &[u32], pins: &[u32], outputs: &[u32], room| write(counts, [gates, pins, outputs], room).0.refused;
    assert_eq!(number(&gates, &pins, &outputs, text.len()), 0);
    assert_eq!(number(&gates, &pins, &outputs, text.len() - 1), 22);
    assert_eq!(number(&gates[..GATE_CELLS - 1], &pins, &outputs, text.len()), 20);
    assert_eq!(number(&gates, &[], &outputs, text.len()), 20);
    assert_eq!(number(&gates, &pins, &[], text.len()), 20);
}

#[test]
fn signals() {
    assert_eq!(Signal::from_input(1).raw(), 0xffff_fffc);
    assert_eq!(Signal::from_var(1).raw(), 4);
    assert_eq!((Signal::from_var(u32::MAX).raw(), Signal::from_input(u32::MAX).raw()), (0x7fff_fffe, 0x8000_0000));
    for v in [0, 1, 255, 1023, 1 << 29] {
        let (input, gate) = (Signal::from_input(v), Signal::from_var(v));
        assert_eq!(((!input).input(), input.var()), (Some(v), None));
        assert_eq!(((gate ^ true).var(), gate.input()), (Some(v), None));
        assert_eq!((!gate).without_inversion(), gate ^ false);
    }
    assert_eq!(
        [Signal::zero(), Signal::one(), !Signal::from_input(3), Signal::from_var(4)].map(|s| s.to_string()),
        ["0", "1", "!i3", "x4"]
    );
}

/// The interface of this crate, of the library and of the C header.
#[test]
fn one_interface() {
    let header = std::fs::read_to_string(concat!(env!("CARGO_MANIFEST_DIR"), "/../c/vumneath.h")).unwrap();
    let stated = header.lines().find_map(|line| line.strip_prefix("#define VUMNEATH_INTERFACE "));
    assert_eq!((stated, interface()), (Some(INTERFACE.to_string().as_str()), INTERFACE));
}

/// The refusals are the constants of the C header, as they are named there.
#[test]
fn refusals_of_the_header() {
    let header = std::fs::read_to_string(concat!(env!("CARGO_MANIFEST_DIR"), "/../c/vumneath.h")).unwrap();
    let mut found = Vec::new();
    for line in header.lines().filter_map(|line| line.strip_prefix("#define VUMNEATH_REFUSED_")) {
        let (constant, rest) = line.split_once(' ').unwrap();
        let (number, comment) = rest.split_once("/*").unwrap();
        let refusal = Refusal::from_number(number.trim().parse().unwrap()).unwrap();
        assert_eq!(refusal.to_string(), comment.trim_end_matches("*/").trim());
        assert_eq!(format!("{refusal:?}").to_uppercase(), constant.replace('_', ""));
        assert_eq!(Refusal::of(refusal.number()), Err(refusal));
        found.push(refusal);
    }
    assert_eq!(found, Refusal::ALL);
    assert_eq!(Refusal::of(0), Ok(()));
    assert_eq!([0, 15, 19, 28, 35, u32::MAX].map(Refusal::from_number), [None; 6]);
}
