//! Lent cells and bytes with guards on both sides, and the lists of stored texts and networks.
#![allow(dead_code)] // each test file takes its part
use std::fmt::Write;
use std::path::Path;
use vumneath::cells::{self, Counts, NetworkAnswer, RowsAnswer, TextAnswer};

const GUARD: usize = 16;
const GUARD_CELL: u32 = 0x5c5c_5c5c;
const GUARD_BYTE: u8 = 0x5c;

/// Cells of each kind: gates, pins, outputs, working gates, working pins.
pub type Sizes = [usize; 5];
pub const ENOUGH: Sizes = [GATES, cells::MAX_PINS, cells::MAX_OUTPUTS, GATES, cells::MAX_PINS];
pub const ONE_MORE: Sizes = [ENOUGH[0] + 1, ENOUGH[1] + 1, ENOUGH[2] + 1, ENOUGH[3] + 1, ENOUGH[4] + 1];
const GATES: usize = cells::MAX_GATES * cells::GATE_CELLS;

/// Cells that are all ones between guards.
fn guarded(count: usize) -> Vec<u32> {
    let mut cells = vec![GUARD_CELL; count + 2 * GUARD];
    cells[GUARD..GUARD + count].fill(u32::MAX);
    cells
}

/// The cells between the guards, which have to be as they were.
fn between(cells: &[u32]) -> Vec<u32> {
    let (before, rest) = cells.split_at(GUARD);
    let (inside, behind) = rest.split_at(rest.len() - GUARD);
    assert!(before.iter().chain(behind).all(|&cell| cell == GUARD_CELL), "the cells around a slice are unchanged");
    inside.to_vec()
}

/// What reading answers, and the gates, pins and outputs in use. All other cells have to be zero.
pub fn read(text: &[u8], sizes: Sizes) -> (NetworkAnswer, [Vec<u32>; 3]) {
    let [mut g, mut p, mut o, mut wg, mut wp] = sizes.map(guarded);
    let inside = |i: usize| GUARD..GUARD + sizes[i];
    let answer =
        cells::read_blif(text, &mut g[inside(0)], &mut p[inside(1)], &mut o[inside(2)], &mut wg[inside(3)], &mut wp[inside(4)]);
    let left = [between(&g), between(&p), between(&o)];
    let used = [answer.gates as usize * cells::GATE_CELLS, answer.pins as usize, answer.outputs as usize];
    for work in [between(&wg), between(&wp)].iter().chain([0, 1, 2].map(|i| left[i][used[i]..].to_vec()).iter()) {
        assert!(work.iter().all(|&cell| cell == 0), "cells beyond the counts and working cells are zero");
    }
    (answer, [0, 1, 2].map(|i| left[i][..used[i]].to_vec()))
}

/// What reading answers, in the notation of the stored answers.
pub fn read_notation(text: &[u8], sizes: Sizes) -> String {
    let (answer, left) = read(text, sizes);
    if answer.refused != 0 {
        return format!("refused={}\n", answer.refused);
    }
    let mut said = format!("counts {} {} {} {}\n", answer.inputs, answer.gates, answer.pins, answer.outputs);
    for (word, cells) in ["gates", "pins", "outputs"].iter().zip(left) {
        said += word;
        cells.iter().for_each(|cell| write!(said, " {cell:x}").unwrap());
        said.push('\n');
    }
    said
}

/// The first bytes between the guards, which have to be as they were; all behind the text has to be zero.
fn guarded_text(out: &[u8], length: usize) -> Vec<u8> {
    let (text, behind) = out[GUARD..out.len() - GUARD].split_at(length);
    assert!(behind.iter().all(|&byte| byte == 0), "bytes behind the text are zero");
    let mut guards = out[..GUARD].iter().chain(&out[out.len() - GUARD..]);
    assert!(guards.all(|&byte| byte == GUARD_BYTE), "the bytes around are unchanged");
    text.to_vec()
}

/// What writing answers, and the text. All other bytes have to be zero.
pub fn write(counts: Counts, lent: [&[u32]; 3], room: usize) -> (TextAnswer, Vec<u8>) {
    let mut out = vec![GUARD_BYTE; room + 2 * GUARD];
    out[GUARD..GUARD + room].fill(0xa5);
    let answer = cells::write_blif(counts, lent[0], lent[1], lent[2], &mut out[GUARD..GUARD + room]);
    (answer, guarded_text(&out, answer.length as usize))
}

/// What a run answers, and the rows. All other bytes have to be zero.
pub fn run(counts: Counts, lent: [&[u32]; 3], rows: &[u8], room: usize) -> (RowsAnswer, Vec<u8>) {
    let mut out = vec![GUARD_BYTE; room + 2 * GUARD];
    out[GUARD..GUARD + room].fill(0xa5);
    let answer = cells::run(counts, lent[0], lent[1], lent[2], rows, &mut out[GUARD..GUARD + room]);
    (answer, guarded_text(&out, answer.length))
}

/// A list of stored texts or networks, or of their answers.
pub fn stored(file: &str) -> Vec<u8> {
    let path = Path::new(env!("CARGO_MANIFEST_DIR")).join("../../crates").join(file);
    std::fs::read(&path).unwrap_or_else(|e| panic!("{}: {e}", path.display()))
}

/// The numbers and bytes of a list.
pub struct List {
    bytes: Vec<u8>,
    at: usize,
}

impl List {
    pub fn new(bytes: Vec<u8>) -> List {
        List { bytes, at: 0 }
    }

    pub fn bytes(&mut self, length: usize) -> Vec<u8> {
        self.at += length;
        self.bytes[self.at - length..self.at].to_vec()
    }

    /// The next number: eight hexadecimal digits and a separator.
    pub fn word(&mut self) -> u32 {
        let digits = self.bytes(9);
        u32::from_str_radix(std::str::from_utf8(&digits[..8]).unwrap(), 16).unwrap()
    }

    pub fn words(&mut self, count: u32) -> Vec<u32> {
        (0..count).map(|_| self.word()).collect()
    }

    pub fn ended(&self) -> bool {
        self.at == self.bytes.len()
    }
}
