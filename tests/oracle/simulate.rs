// A network run for rows from its start values, worked out backwards from its outputs, with mistakes that a trip, or a simulation of one, could make.
// The stored list must hold, for each mistake, a network that is read back and whose outputs it changes.
use crate::generate::{Node, Plain};
use crate::Signal;

#[derive(Clone, Copy, PartialEq, Debug)]
pub enum Mistake {
    Nothing,
    PinNotInverted,
    BufNotInverted,
    OutputNotInverted,
    OutputsReversed,
    RowReversed,
    OneForZero,
    StartsAtZero,
    StartsAtOne,
    StartsTurned,
    StartsReversed,     // those of the flip-flops in reversed order
    FirstStartForAll,   // every flip-flop starts as the first does
    StartsByNumber,     // the k-th flip-flop starts as gate k does
    EnableIsZero,
    ResetIsOne,
    LastFlopNeverSteps,
    StepsBeforeOutputs,
    StepsOneByOne,
    StepsOneByOneDown,
    FirstRowTwice,
    MuxOtherWay,
    MajOfThree,
    OrForXor,
    NandForNor,
    NothingIsZero,
    LastPinLost,
}

pub const MISTAKES: [Mistake; 25] = [
    Mistake::PinNotInverted,
    Mistake::BufNotInverted,
    Mistake::OutputNotInverted,
    Mistake::OutputsReversed,
    Mistake::RowReversed,
    Mistake::OneForZero,
    Mistake::StartsAtZero,
    Mistake::StartsAtOne,
    Mistake::StartsTurned,
    Mistake::StartsReversed,
    Mistake::FirstStartForAll,
    Mistake::StartsByNumber,
    Mistake::EnableIsZero,
    Mistake::ResetIsOne,
    Mistake::LastFlopNeverSteps,
    Mistake::StepsBeforeOutputs,
    Mistake::StepsOneByOne,
    Mistake::StepsOneByOneDown,
    Mistake::FirstRowTwice,
    Mistake::MuxOtherWay,
    Mistake::MajOfThree,
    Mistake::OrForXor,
    Mistake::NandForNor,
    Mistake::NothingIsZero,
    Mistake::LastPinLost,
];

// What is known at a clock; `bits` are the gates worked out so far.
struct Clock<'a> {
    p: &'a Plain,
    m: Mistake,
    row: &'a [bool],
    held: &'a [bool],
    bits: Vec<Option<bool>>,
}

impl Clock<'_> {
    fn at<'a>(p: &'a Plain, m: Mistake, row: &'a [bool], held: &'a [bool]) -> Clock<'a> {
        Clock { p, m, row, held, bits: vec![None; p.gates.len()] }
    }

    fn signal(&mut self, s: &Signal) -> bool {
        let plain = if s.is_constant() {
            self.m == Mistake::OneForZero
        } else if s.is_input() {
            self.row[s.input() as usize]
        } else {
            self.gate(s.var() as usize)
        };
        plain != s.is_inverted()
    }

    fn pin(&mut self, form: u32, s: &Signal) -> bool {
        let lost = if form == 13 { Mistake::BufNotInverted } else { Mistake::PinNotInverted };
        let s = if self.m == lost && !s.is_constant() { s.without_inversion() } else { *s };
        self.signal(&s)
    }

    fn gate(&mut self, g: usize) -> bool {
        let Node { form, pins, .. } = &self.p.gates[g];
        if *form == 14 {
            return self.held[g];
        }
        if let Some(b) = self.bits[g] {
            return b;
        }
        let mut bits: Vec<bool> = pins.iter().map(|s| self.pin(*form, s)).collect();
        if self.m == Mistake::LastPinLost && (7..=12).contains(form) {
            bits.pop();
        }
        let b = made(*form, &bits, self.m);
        self.bits[g] = Some(b);
        b
    }

    fn step(&mut self, g: usize) -> bool {
        let pins = &self.p.gates[g].pins;
        let [data, enable, reset] = [0, 1, 2].map(|k| self.pin(14, &pins[k]));
        if reset || self.m == Mistake::ResetIsOne {
            return false;
        }
        if enable && self.m != Mistake::EnableIsZero { data } else { self.held[g] }
    }

    fn outputs(&mut self) -> Vec<bool> {
        let p = self.p;
        let bare = self.m == Mistake::OutputNotInverted;
        let shown = |s: &Signal| if bare && !s.is_constant() { s.without_inversion() } else { *s };
        let mut all: Vec<bool> = p.outputs.iter().map(|s| self.signal(&shown(s))).collect();
        if self.m == Mistake::OutputsReversed {
            all.reverse();
        }
        all
    }
}

// What a form makes of bits.
fn made(form: u32, bits: &[bool], m: Mistake) -> bool {
    let ones = bits.iter().filter(|b| **b).count();
    if bits.is_empty() && m == Mistake::NothingIsZero {
        return false;
    }
    match form {
        1 | 3 | 7 => ones == bits.len(),
        2 | 4 | 11 if m == Mistake::OrForXor => ones > 0,
        2 | 4 | 11 => ones % 2 == 1,
        5 => ones >= if m == Mistake::MajOfThree { 3 } else { 2 },
        6 => bits[if bits[0] == (m == Mistake::MuxOtherWay) { 2 } else { 1 }],
        8 => ones > 0,
        9 => ones < bits.len(),
        10 if m == Mistake::NandForNor => ones < bits.len(),
        10 => ones == 0,
        12 => ones % 2 == 0,
        13 => bits[0],
        _ => panic!("form {form} is not combinational"),
    }
}

// What the flip-flops hold next.
fn stepped(p: &Plain, m: Mistake, row: &[bool], held: &[bool]) -> Vec<bool> {
    let mut flops = p.flops();
    if m == Mistake::StepsOneByOneDown {
        flops.reverse();
    }
    let one_by_one = m == Mistake::StepsOneByOne || m == Mistake::StepsOneByOneDown;
    let mut next = held.to_vec();
    for g in &flops {
        let seen = if one_by_one { next.clone() } else { held.to_vec() };
        if m != Mistake::LastFlopNeverSteps || flops.last() != Some(g) {
            next[*g] = Clock::at(p, m, row, &seen).step(*g);
        }
    }
    next
}

// What the flip-flops hold at first.
fn starts(p: &Plain, m: Mistake) -> Vec<bool> {
    let flops = p.flops();
    let mut held = vec![false; p.gates.len()];
    for (k, g) in flops.iter().enumerate() {
        let start = |gate: usize| p.gates[gate].start == 1;
        held[*g] = match m {
            Mistake::StartsAtZero => false,
            Mistake::StartsAtOne => true,
            Mistake::StartsTurned => !start(*g),
            Mistake::StartsReversed => start(flops[flops.len() - 1 - k]),
            Mistake::FirstStartForAll => start(flops[0]),
            Mistake::StartsByNumber => start(k),
            _ => start(*g),
        };
    }
    held
}

// The outputs' bits at each clock.
pub fn run(p: &Plain, rows: &[Vec<bool>], m: Mistake) -> Vec<Vec<bool>> {
    let mut held = starts(p, m);
    let mut all = Vec::new();
    for (k, given) in rows.iter().enumerate() {
        let mut row = if m == Mistake::FirstRowTwice { rows[k.saturating_sub(1)].clone() } else { given.clone() };
        if m == Mistake::RowReversed {
            row.reverse();
        }
        let next = stepped(p, m, &row, &held);
        let shown = if m == Mistake::StepsBeforeOutputs { &next } else { &held };
        all.push(Clock::at(p, m, &row, shown).outputs());
        held = next;
    }
    all
}
