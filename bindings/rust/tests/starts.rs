//! Start values by hand: which word of a `.latch` is one, runs from it, the text that has it again, and those that a gate cannot have.
mod common;

use common::{read, run, write, ENOUGH};
use vumneath::cells::{Counts, GATE_CELLS};
use vumneath::{report, Gate, Network, Refusal, Signal};

/// The network of a latch with these words behind its names, or the refusal's number.
fn latch(words: &str) -> Result<Network, u32> {
    Network::read(format!(".inputs d\n.outputs q\n.latch d q{words}\n").as_bytes()).map_err(Refusal::number)
}

#[test]
fn words_of_a_latch() {
    let zero =
        ["", " 0", " 2", " 3", " re clk", " re 1", " 1 1", " re clk 0", " re clk 2", " re clk 3", " re clk 0 1", " 1 1 0 1 1"];
    let one = [" 1", " re clk 1", " as NIL 1", " re clk 1 0", " 4 4 1", "\t1 ", " 1# 4", " \\\n1"];
    for (words, start) in zero.map(|words| (words, false)).into_iter().chain(one.map(|words| (words, true))) {
        let network = latch(words).unwrap();
        assert_eq!(network.gates(), [Gate::Dff([Signal::from_input(0), Signal::one(), Signal::zero()], start)], "{words:?}");
        assert_eq!(network.gates()[0].start(), start);
        assert_eq!(network.run(b"0\n1\n0\n").unwrap(), if start { b"1\n0\n1\n" } else { b"0\n0\n1\n" }, "{words:?}");
        let text = network.write().unwrap();
        let back = Network::read(&text).unwrap(); // its gates are this one, vdd and gnd
        assert_eq!(back.gates()[0], network.gates()[0], "{words:?}");
        let line = format!("\n.latch i0 x0 {}\n", u8::from(start));
        assert!(String::from_utf8(text).unwrap().contains(&line), "{words:?}");
    }
    for words in [" 4", " re", " clk", " 00", " 01", " 11", " -1", " one", " re clk 4", " re clk x", " re clk 10", " 1 1 4 1"] {
        assert_eq!(latch(words), Err(34), "{words:?}");
    }
}

/// The fourth cell of the record.
#[test]
fn cell() {
    for (text, start) in
        [(&b".inputs d\n.latch d q 1"[..], 1), (b".inputs d\n.latch d q 3", 0), (b".inputs d\n.latch d q re clk 1", 1)]
    {
        let (answer, [gates, pins, _]) = read(text, ENOUGH);
        assert_eq!((answer.refused, answer.gates, pins.len()), (0, 1, 3));
        assert_eq!(gates, [14, 0, 3, start]);
    }
}

/// 34 is asked with 4 and 5, statement by statement; behind 2 and 3, before the others, and behind `.end` and `.exdc` too.
#[test]
fn order() {
    let number = |text: &[u8]| Network::read(text).map_or_else(Refusal::number, |_| 0);
    for (text, wanted) in [
        (&b".latch d q 4\n"[..], 34),
        (b".latch d q 4\n\x80", 3),
        (b".latch d q 4\n.model\n", 34),
        (b".model\n.latch d q 4\n", 4),
        (b".latch d q 4\n.gate\n", 34),
        (b".gate\n.latch d q 4\n", 5),
        (b".end\n.latch d q 4\n", 34),
        (b".inputs a a\n.latch d q 4\n", 34),
        (b".latch d q 1\n", 11),
        (b".model m\n.end\n.latch d q 4\n", 34),
        (b".model m\n.end\n.latch d q 1\n", 0),
        (b".exdc\n.latch d q 4\n", 34),
    ] {
        assert_eq!(number(text), wanted, "{}", text.escape_ascii());
    }
    let padded = |length: usize| [b".latch d q 4\n", " ".repeat(length - 13).as_bytes()].concat();
    assert_eq!([number(&padded(32768)), number(&padded(32769))], [34, 2]);
    let inputs: String = (0..257).map(|i| format!(" n{i}")).collect();
    assert_eq!(number(format!(".inputs{inputs}\n.latch d q 4\n").as_bytes()), 34);
    let sheet = b"part=a\nrows=1\n\n";
    assert_eq!(report(b".latch d q 4\n", sheet), Err(Refusal::WrongStart));
    assert_eq!(report(b".latch d q 4\n", b""), Err(Refusal::WrongSheet));
}

/// Each flip-flop of a line starts at its own value: they come out one by one, the last one's first.
#[test]
fn line() {
    let starts: Vec<bool> = (0..100).map(|g| g % 3 == 0 || g % 7 == 0).collect();
    let data = |g: usize| if g == 0 { Signal::zero() } else { Signal::from_var(g as u32 - 1) };
    let gates = starts.iter().enumerate().map(|(g, &start)| Gate::Dff([data(g), Signal::one(), Signal::zero()], start));
    let network = Network::new(0, gates.collect(), vec![Signal::from_var(99)]);
    let wanted: Vec<bool> = starts.iter().rev().copied().chain([false]).collect();
    assert_eq!(network.run_bits(&[[]; 101]).unwrap().concat(), wanted);
    let back = Network::read(&network.write().unwrap()).unwrap();
    assert_eq!(back.run_bits(&[[]; 101]).unwrap().concat(), wanted);
}

/// A report counts from the start values.
#[test]
fn reports() {
    for (start, accepted) in [(0, 2), (1, 3), (2, 2), (3, 2)] {
        let netlist = format!(".outputs q\n.latch d q {start}\n.names q d\n0 1\n");
        let counted = report(netlist.as_bytes(), b"part=a\nrows=5\n\n\n\n\n\n").unwrap();
        assert_eq!((counted.accepted, counted.rejected), (accepted, 5 - accepted));
    }
}

/// Gates of the caller's: how they print, `.flop`, and what `from_form` takes.
#[test]
fn gates() {
    let (d, e, one, zero) = (Signal::from_input(0), Signal::from_input(1), Signal::one(), Signal::zero());
    assert_eq!(
        [false, true].map(|start| Gate::Dff([d, one, zero], start).to_string()),
        ["Dff(i0, 1, 0)", "Dff(i0, 1, 0, start=1)"]
    );
    assert!(!Gate::Dff([d, one, zero], true).is_comb() && !Gate::Buf(d).start());
    let text = Network::new(2, vec![Gate::Dff([d, e, zero], true)], vec![]).write().unwrap();
    assert!(String::from_utf8(text).unwrap().contains("\n.flop D=i0 Q=x0 init=1 E=i1\n"));
    for form in 1..=15 {
        let pins = |start| [1, 2, 3].iter().filter(|&&n| Gate::from_form(form, &vec![one; n], start).is_some()).count();
        let some = pins(0);
        assert_eq!(some > 0, form < 15, "form {form}");
        assert_eq!([pins(1), pins(2), pins(u32::MAX)], [if form == 14 { some } else { 0 }, 0, 0], "form {form}");
    }
    assert_eq!(Gate::from_form(14, &[d, one, zero], 1), Some(Gate::Dff([d, one, zero], true)));
}

/// 20 in writing and in a run for each form with a start value that it cannot have.
#[test]
fn not_a_network() {
    for form in 1..=14u32 {
        let pins: &[u32] = match form {
            1 | 2 => &[0xffff_fffe; 2],
            13 => &[0xffff_fffe],
            _ => &[0xffff_fffe, 1, 0],
        };
        let counts = Counts { inputs: 1, gates: 1, pins: pins.len() as u32, outputs: 1 };
        for start in [0, 1, 2, 3, 1 << 31, u32::MAX] {
            let gates = [form, 0, counts.pins, start];
            let wanted = if start > u32::from(form == 14) { 20 } else { 0 };
            assert_eq!(write(counts, [&gates, pins, &[2]], 32768).0.refused, wanted, "form {form}, start value {start}");
            assert_eq!(run(counts, [&gates, pins, &[2]], b"0\n", 100).0.refused, wanted, "form {form}, start value {start}");
        }
    }
}

/// What a caller of interface 1 gets: it lends 3,072 cells for gates, and hands over records of three cells.
#[test]
fn caller_of_interface_1() {
    let mut sizes = ENOUGH;
    (sizes[0], sizes[3]) = (3072, 3072);
    assert_eq!(read(b".inputs d\n.latch d q 0\n", sizes).0.refused, 1);
    for n in [1, 2, 3, 1024u32] {
        let gates: Vec<u32> = (0..n).flat_map(|g| [13, g, 1]).collect();
        assert!(gates.len() < GATE_CELLS * n as usize);
        let counts = Counts { inputs: 0, gates: n, pins: n, outputs: 0 };
        assert_eq!(write(counts, [&gates, &vec![1; n as usize], &[]], 32768).0.refused, 20);
        assert_eq!(run(counts, [&gates, &vec![1; n as usize], &[]], b"", 0).0.refused, 20);
    }
}
