//! Runs by hand: rows over bytes and over bits, lent slices of every length, and each refusal with its neighbours.
mod common;

use common::run;
use vumneath::cells::{Counts, GATE_CELLS};
use vumneath::{BinaryType, Gate, NaryType, Network, Refusal, Signal, TernaryType};

const ROWS: &[u8] = b"00\n01\n11\n11\n10\n";
const RAN: &[u8] = b"1101\n1001\n0011\n1111\n1011\n";

fn x(v: u32) -> Signal {
    Signal::from_var(v)
}

fn i(v: u32) -> Signal {
    Signal::from_input(v)
}

fn flop(data: Signal) -> Gate {
    Gate::Dff([data, Signal::one(), Signal::zero()], false)
}

/// x0 = And(i0, i1), x1 = Dff(x3, 1, 0), x2 = Xor(x0, x1), x3 = Or(x2, !i1).
fn gates() -> Vec<Gate> {
    let and = Gate::Binary([i(0), i(1)], BinaryType::And);
    let xor = Gate::Binary([x(0), x(1)], BinaryType::Xor);
    vec![and, flop(x(3)), xor, Gate::Nary(vec![x(2), !i(1)], NaryType::Or)]
}

fn network(gates: Vec<Gate>) -> Network {
    Network::new(2, gates, vec![x(3), !x(1), i(0), Signal::one()])
}

/// The bits of rows that are lists of characters.
fn bits(rows: &[&str]) -> Vec<Vec<bool>> {
    rows.iter().map(|row| row.bytes().map(|c| c == b'1').collect()).collect()
}

#[test]
fn bytes_and_bits() {
    let network = network(gates());
    assert_eq!(network.run(ROWS).unwrap(), RAN);
    let rows = bits(&["00", "01", "11", "11", "10"]);
    assert_eq!(network.run_bits(&rows).unwrap(), bits(&["1101", "1001", "0011", "1111", "1011"]));
    let slices: Vec<&[bool]> = rows.iter().map(Vec::as_slice).collect();
    assert_eq!(network.run_bits(&slices), network.run_bits(&rows));
    assert_eq!(network.run_bits(&[[false, true]; 3]).unwrap(), bits(&["0101", "0101", "0101"]));
}

/// What the same network gives once it is written and read back, which sorts it.
#[test]
fn written_and_read_back() {
    let back = Network::read(&network(gates()).write().unwrap()).unwrap();
    assert_eq!(back.run(ROWS).unwrap(), RAN);
}

/// What each form of three pins or fewer gives for 000, 001, 010 and so on to 111.
#[test]
fn forms() {
    let three = || [i(0), i(1), i(2)];
    let nary = |kind| Gate::Nary(three().to_vec(), kind);
    for (gate, wanted) in [
        (Gate::Binary([i(0), i(1)], BinaryType::And), "00000011"),
        (Gate::Binary([i(0), i(1)], BinaryType::Xor), "00111100"),
        (Gate::Ternary(three(), TernaryType::And), "00000001"),
        (Gate::Ternary(three(), TernaryType::Xor), "01101001"),
        (Gate::Ternary(three(), TernaryType::Maj), "00010111"),
        (Gate::Ternary(three(), TernaryType::Mux), "01010011"),
        (nary(NaryType::And), "00000001"),
        (nary(NaryType::Or), "01111111"),
        (nary(NaryType::Nand), "11111110"),
        (nary(NaryType::Nor), "10000000"),
        (nary(NaryType::Xor), "01101001"),
        (nary(NaryType::Xnor), "10010110"),
        (Gate::Nary(vec![i(0); 13], NaryType::Xor), "00001111"),
        (Gate::Buf(!i(0)), "11110000"),
        (flop(i(2)), "00101010"),
    ] {
        let said = format!("{gate}");
        let rows: Vec<[bool; 3]> = (0..8).map(|k| [k & 4 != 0, k & 2 != 0, k & 1 != 0]).collect();
        let ran = Network::new(3, vec![gate], vec![x(0)]).run_bits(&rows).unwrap();
        assert_eq!(ran.concat(), bits(&[wanted]).concat(), "{said}");
    }
}

/// No rows, no inputs, no outputs and no gates.
#[test]
fn empty() {
    let none: [[bool; 2]; 0] = [];
    assert_eq!(network(gates()).run(b""), Ok(vec![]));
    assert_eq!(network(gates()).run_bits(&none), Ok(vec![]));
    let constant = Network::new(0, vec![], vec![Signal::one()]);
    assert_eq!(constant.run(b"\n\n").unwrap(), b"1\n1\n");
    assert_eq!(constant.run_bits(&[[], []]).unwrap(), [[true], [true]]);
    let silent = Network::new(1, vec![], vec![]);
    assert_eq!(silent.run(b"0\n1\n").unwrap(), b"\n\n");
    assert_eq!(silent.run_bits(&[[true], [false]]).unwrap(), [[], []] as [[bool; 0]; 2]);
    assert_eq!(Network::new(0, vec![], vec![]).run_bits(&[[]; 3]).unwrap(), [[], [], []] as [[bool; 0]; 3]);
}

#[test]
fn wrong_rows() {
    let network = network(gates());
    for rows in ["\n", "0\n", "00", "000\n", "00\n0", "00\n000\n", "00\r\n", "00\n\n", "0 \n", "00\n02\n", "00 11\n"] {
        assert_eq!(network.run(rows.as_bytes()), Err(Refusal::WrongRows), "{rows:?}");
    }
    for k in 0..ROWS.len() {
        assert_eq!(network.run(&ROWS[..k]), if k % 3 == 0 { Ok(RAN[..k / 3 * 5].to_vec()) } else { Err(Refusal::WrongRows) });
        let mut rows = ROWS.to_vec();
        rows[k] = b'\r';
        assert_eq!(network.run(&rows), Err(Refusal::WrongRows));
    }
    for rows in [&["0"][..], &["000"], &[""], &["00", "0"], &["0", "000"], &["000", "0"], &["00", "00", "000"]] {
        assert_eq!(network.run_bits(&bits(rows)), Err(Refusal::WrongRows), "{rows:?}");
    }
}

/// More rows than any memory holds; an array of so many takes none where a row has no bits.
#[test]
fn rows_that_do_not_fit() {
    let rows: &[[bool; 0]] = &[[]; usize::MAX];
    assert_eq!(Network::new(0, vec![], vec![]).run_bits(rows), Err(Refusal::WrongRows));
    assert_eq!(Network::new(1, vec![], vec![]).run_bits(rows), Err(Refusal::WrongRows));
    assert_eq!(Network::new(0, vec![], vec![Signal::one(); 256]).run_bits(&rows[..usize::MAX / 2]), Err(Refusal::WrongRows));
    assert_eq!(Network::new(u32::MAX, vec![], vec![]).run_bits(rows), Err(Refusal::NotANetwork));
}

/// 20, 29, 30 and 31, each alone and together with those behind it.
#[test]
fn order_of_refusals() {
    let refusals = |change: &dyn Fn(&mut Vec<Gate>)| {
        let mut gates = gates();
        change(&mut gates);
        let network = network(gates);
        let number = |refusal: Refusal| refusal.number();
        let with = |rows: &[u8]| network.run(rows).map_or_else(number, |_| 0);
        let by_bits = network.run_bits(&[[true]]).map_or_else(number, |_| 0);
        assert_eq!(by_bits, with(b"1\n"));
        [with(ROWS), with(b""), by_bits]
    };
    let other = |enable, reset| move |gates: &mut Vec<Gate>| gates[1] = Gate::Dff([x(3), enable, reset], false);
    let buf = |signal| move |gates: &mut Vec<Gate>| gates[2] = Gate::Buf(signal);
    assert_eq!(refusals(&|_| ()), [0, 0, 31]);
    assert_eq!(refusals(&buf(i(1))), [0, 0, 31]);
    assert_eq!(refusals(&buf(x(4))), [20; 3]);
    assert_eq!(refusals(&buf(i(2))), [20; 3]);
    assert_eq!(refusals(&buf(!x(2))), [29; 3]);
    assert_eq!(refusals(&buf(x(3))), [29; 3]);
    assert_eq!(refusals(&|gates| gates[0] = Gate::Buf(x(1))), [29; 3]);
    assert_eq!(refusals(&other(i(0), Signal::zero())), [30; 3]);
    assert_eq!(refusals(&other(Signal::zero(), Signal::zero())), [30; 3]);
    assert_eq!(refusals(&other(Signal::one(), Signal::one())), [30; 3]);
    assert_eq!(refusals(&|gates| (other(i(0), i(1))(gates), buf(x(2))(gates)).0), [29; 3]);
    assert_eq!(refusals(&|gates| (other(i(0), i(2))(gates), buf(x(2))(gates)).0), [20; 3]);
    let counts = |inputs, outputs| Network::new(inputs, vec![], vec![Signal::one(); outputs]).run(b"x").unwrap_err().number();
    assert_eq!([counts(256, 256), counts(257, 256), counts(256, 257), counts(u32::MAX, 0)], [31, 20, 20, 20]);
}

/// The smallest examples of README's table.
#[test]
fn smallest_refused() {
    let refused = |gates, rows: &[u8]| Network::new(0, gates, vec![]).run(rows).unwrap_err().number();
    assert_eq!(refused(vec![Gate::Buf(x(0))], b""), 29);
    assert_eq!(refused(vec![Gate::Dff([Signal::zero(); 3], false)], b""), 30);
    assert_eq!(refused(vec![], b"0"), 31);
}

/// The output slice exactly full, a byte short and longer; cells lent short.
#[test]
fn lent_slices() {
    let counts = Counts { inputs: 1, gates: 1, pins: 1, outputs: 2 };
    let (gates, pins, outputs) = ([13, 0, 1, 0], [0xffff_fffe], [2, 3]);
    let number =
        |gates: &[u32], pins: &[u32], outputs: &[u32], room| run(counts, [gates, pins, outputs], b"1\n0\n", room).0.refused;
    for room in [6, 7, 100] {
        assert_eq!(run(counts, [&gates, &pins, &outputs], b"1\n0\n", room).1, b"10\n01\n");
    }
    for room in 0..6 {
        assert_eq!(number(&gates, &pins, &outputs, room), 31);
    }
    assert_eq!(number(&gates[..GATE_CELLS - 1], &pins, &outputs, 6), 20);
    assert_eq!(number(&gates, &[], &outputs, 6), 20);
    assert_eq!(number(&gates, &pins, &outputs[..1], 6), 20);
    assert_eq!(number(&[13, 0, 1, 0, 99], &[0xffff_fffe, 99], &[2, 3, 99], 6), 0);
}

/// The interlocks of the examples, as they are read and once more written and read.
#[test]
fn interlocks() {
    for name in ["lock", "locked"] {
        let file = |kind| std::fs::read(format!("{}/../netlists/{name}.{kind}", env!("CARGO_MANIFEST_DIR"))).unwrap();
        let network = Network::read(&file("blif")).unwrap();
        assert_eq!(network.run(&file("rows")).unwrap(), file("rows.out"));
        let back = Network::read(&network.write().unwrap()).unwrap();
        assert_eq!(back.run(&file("rows")).unwrap(), file("rows.out"));
    }
}
