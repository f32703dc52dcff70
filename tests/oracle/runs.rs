// Runs of lent networks for rows: what request 1 of document 02 answers, right or with one of the mistakes that its rules leave room for.
// The stored list must hold, for each mistake, a run that it changes.
use crate::generate::{Node, Plain};
use crate::lent::{decoded, decoded_with, Lax, Lent, LAX, RECORD};
use crate::{simulate, writes, Signal};

type Rows = Vec<Vec<bool>>;

// A lent network, whose room is that of the output rows, and the rows' bytes.
#[derive(Clone)]
pub struct Run {
    pub lent: Lent,
    pub rows: Vec<u8>,
}

// The length of the output rows or the refusal's number, and the output slice, whose bytes were 165 before.
pub struct Answer {
    pub result: Result<usize, u32>,
    pub out: Vec<u8>,
}

#[derive(Clone, Copy, PartialEq, Debug)]
pub enum Mistake {
    Nothing,
    CountsCut,                  // 20: counts by their low 32 bits
    FirstPinsFree,              // 20: first pins not looked at
    CellsBeyond,                // 20: signals beyond the counts looked at
    OrderBeforeOutputs,         // 29 before the outputs' signals are looked at
    FlopsBeforeOutputs,         // 30 before them
    RowsFirst,                  // 31 before 20
    RowsBeforeOrder,            // 31 before 29
    RowsBeforeFlops,            // 31 before 30
    FlopsBeforeOrder,           // 30 before 29
    GateByGate,                 // 29 or 30, whichever the first wrong gate has
    FlopInputsFree,             // 29: a flip-flop as an input not looked at
    FlopsSortedToo,             // 29: a flip-flop's own inputs looked at
    OwnInputFree,               // 29: a gate that is its own input passes
    InvertedInputFree,          // 29: inverted inputs not looked at
    FirstInputOnly,             // 29: only the first input looked at
    LastGateFree,               // 29: the last gate not looked at
    EnableFree,                 // 30: the enable not looked at
    ResetFree,                  // 30: the reset not looked at
    EnableConstant,             // 30: either constant is an enable
    ResetConstant,              // 30: either constant is a reset
    FirstFlopOnly,              // 30: only the first flip-flop looked at
    CrTaken,                    // 31: a CR before LF goes
    BlanksTaken,                // 31: blanks go
    LfAdded,                    // 31: an LF is added behind the last row
    EmptyRowsTaken,             // 31: empty rows go
    ShortRowsTaken,             // 31: zeros are added to a short row
    LongRowsTaken,              // 31: a long row is cut
    OtherIsZero,                // 31: any other character is a zero
    LowBit,                     // 31: a character's lowest bit is taken
    StopsAtWrongRow,            // 31: the rows before a wrong one are run
    FitsWithoutLf,              // 31: rows × outputs must fit
    FitsByRows,                 // 31: the rows' bytes must fit
    FitsByFirst,                // 31: one output row must fit
    NeverFull,                  // 31: a byte must be left over
    CutToFit,                   // 31: rows whose outputs do not fit are left out
    NoRowsRefused,              // 31 for no rows
    NoInputsNoRows,             // without inputs nothing is run
    NoOutputsNoRows,            // without outputs nothing is written
    OutLeft(u32),               // the output slice left as it was after this refusal
    WrittenStays,               // the output rows before a wrong row stay
    RestLeft,                   // the bytes behind the output rows left as they were
    LastByteLeft,               // the slice's last byte left as it was
    LengthWithoutLf,            // a length of rows × outputs
    LfLeftOut,                  // no LF behind an output row
    LastRowDropped,             // the last row not run
    HeldCleared,                // every row begins at the start values
    OneOutputIsZero,            // the constant one as an output shown as a zero
    PinLost(u32, usize, usize), // this pin of a gate of this form and pin count
    FormFor(u32, u32),          // the second form for the first
    Start(Lax),                 // 20: start values looked at in another way
    Simulated(simulate::Mistake),
}

// The mistakes without a parameter.
const MISTAKES: [Mistake; 46] = [
    Mistake::CountsCut,
    Mistake::FirstPinsFree,
    Mistake::CellsBeyond,
    Mistake::OrderBeforeOutputs,
    Mistake::FlopsBeforeOutputs,
    Mistake::RowsFirst,
    Mistake::RowsBeforeOrder,
    Mistake::RowsBeforeFlops,
    Mistake::FlopsBeforeOrder,
    Mistake::GateByGate,
    Mistake::FlopInputsFree,
    Mistake::FlopsSortedToo,
    Mistake::OwnInputFree,
    Mistake::InvertedInputFree,
    Mistake::FirstInputOnly,
    Mistake::LastGateFree,
    Mistake::EnableFree,
    Mistake::ResetFree,
    Mistake::EnableConstant,
    Mistake::ResetConstant,
    Mistake::FirstFlopOnly,
    Mistake::CrTaken,
    Mistake::BlanksTaken,
    Mistake::LfAdded,
    Mistake::EmptyRowsTaken,
    Mistake::ShortRowsTaken,
    Mistake::LongRowsTaken,
    Mistake::OtherIsZero,
    Mistake::LowBit,
    Mistake::StopsAtWrongRow,
    Mistake::FitsWithoutLf,
    Mistake::FitsByRows,
    Mistake::FitsByFirst,
    Mistake::NeverFull,
    Mistake::CutToFit,
    Mistake::NoRowsRefused,
    Mistake::NoInputsNoRows,
    Mistake::NoOutputsNoRows,
    Mistake::WrittenStays,
    Mistake::RestLeft,
    Mistake::LastByteLeft,
    Mistake::LengthWithoutLf,
    Mistake::LfLeftOut,
    Mistake::LastRowDropped,
    Mistake::HeldCleared,
    Mistake::OneOutputIsZero,
];

// The pin counts of gates that the list must have of every Nary form.
pub const WIDE: [usize; 7] = [6, 7, 8, 9, 16, 17, 100];

// All of them: those of a form for each two that take the same pins, those of a pin for each Nary form and the first and last pins.
pub fn mistakes() -> Vec<Mistake> {
    let mut all = MISTAKES.to_vec();
    all.extend([20, 29, 30, 31].map(Mistake::OutLeft));
    all.extend(LAX.map(Mistake::Start));
    all.extend(simulate::MISTAKES.map(Mistake::Simulated));
    for forms in [1..3, 3..7, 7..13] {
        for (a, b) in forms.clone().flat_map(|a| forms.clone().map(move |b| (a, b))).filter(|(a, b)| a != b) {
            all.push(Mistake::FormFor(a, b));
        }
    }
    for (form, n) in (7..13).flat_map(|form| WIDE.map(|n| (form, n))) {
        all.extend((0..n).filter(|pin| *pin < 17 || *pin + 2 >= n).map(|pin| Mistake::PinLost(form, n, pin)));
    }
    all
}

// ---- 20, 29 and 30

// The network of the cells, if it has the layout and the signals that 20 asks for.
fn network(l: &Lent, m: Mistake) -> Option<Plain> {
    let mut l = l.clone();
    match m {
        Mistake::CountsCut => l.counts = l.counts.map(|n| n & 0xffff_ffff),
        Mistake::FirstPinsFree => {
            let mut at = 0u32;
            for record in l.gates.chunks_exact_mut(RECORD) {
                record[1] = at;
                at = at.wrapping_add(record[2]);
            }
        }
        _ => (),
    }
    let p = decoded_with(&l, if let Mistake::Start(lax) = m { lax } else { Lax::Nothing })?;
    let valid = |c: &u32| p.network().is_valid(Signal::from_ind(c >> 1));
    let beyond = [&l.pins[l.counts[2] as usize..], &l.outputs[l.counts[3] as usize..]].concat();
    if m == Mistake::CellsBeyond && !beyond.iter().all(valid) {
        None
    } else {
        Some(p)
    }
}

fn is_flop(p: &Plain, g: usize) -> bool {
    p.gates[g].is_flop()
}

// Whether gate g is combinational and has a gate input whose number is not lower than its own.
fn wrong_input(p: &Plain, g: usize, m: Mistake) -> bool {
    let wrong = |s: &Signal| {
        let v = s.var() as usize;
        let free = (m == Mistake::FlopInputsFree && is_flop(p, v)) || (m == Mistake::InvertedInputFree && s.is_inverted());
        !free && (v > g || (v == g && m != Mistake::OwnInputFree))
    };
    let looked = match m {
        Mistake::LastGateFree if g + 1 == p.gates.len() => 0,
        Mistake::FirstInputOnly => 1,
        _ => usize::MAX,
    };
    let comb = !is_flop(p, g) || m == Mistake::FlopsSortedToo;
    comb && p.gates[g].pins.iter().take(looked).any(|s| s.is_var() && wrong(s))
}

// Whether gate g is a flip-flop whose enable is not the signal one, or whose reset is not the signal zero.
fn other_control(p: &Plain, g: usize, m: Mistake) -> bool {
    let enable = |s: Signal| s == Signal::one() || m == Mistake::EnableFree || (m == Mistake::EnableConstant && s.is_constant());
    let reset = |s: Signal| s == Signal::zero() || m == Mistake::ResetFree || (m == Mistake::ResetConstant && s.is_constant());
    let looked = m != Mistake::FirstFlopOnly || !(0..g).any(|f| is_flop(p, f));
    let ps = &p.gates[g].pins;
    is_flop(p, g) && looked && !(enable(ps[1]) && reset(ps[2]))
}

// Whether there is a wrong input: 29.
fn unsorted(p: &Plain, m: Mistake) -> bool {
    let later = |g: usize| m == Mistake::GateByGate && (0..g).any(|f| other_control(p, f, m));
    (0..p.gates.len()).any(|g| wrong_input(p, g, m) && !later(g))
}

// Whether there is another enable or reset: 30.
fn other_flop(p: &Plain, m: Mistake) -> bool {
    (0..p.gates.len()).any(|g| other_control(p, g, m))
}

// ---- 31

// The rows as a mistake takes them.
fn taken(rows: &[u8], m: Mistake) -> Vec<u8> {
    let with_lf = |l: &[u8]| [l, b"\n"].concat();
    let lines = rows.split_inclusive(|b| *b == b'\n');
    match m {
        Mistake::CrTaken => lines.flat_map(|l| l.strip_suffix(b"\r\n").map_or(l.to_vec(), with_lf)).collect(),
        Mistake::BlanksTaken => rows.iter().copied().filter(|b| *b != b' ').collect(),
        Mistake::LfAdded if rows.last().is_some_and(|b| *b != b'\n') => with_lf(rows),
        Mistake::EmptyRowsTaken => lines.filter(|l| l != b"\n").flatten().copied().collect(),
        _ => rows.to_vec(),
    }
}

// A character's bit; nothing where it is another than 0 and 1.
fn bit(c: u8, m: Mistake) -> Option<bool> {
    match c {
        b'0' => Some(false),
        b'1' => Some(true),
        _ if m == Mistake::OtherIsZero => Some(false),
        _ if m == Mistake::LowBit => Some(c & 1 == 1),
        _ => None,
    }
}

// A row's bits; nothing where it has the wrong length, another character or no LF.
fn row_bits(inputs: u64, line: &[u8], m: Mistake) -> Option<Vec<bool>> {
    let row = line.strip_suffix(b"\n")?;
    let mut bits = row.iter().map(|c| bit(*c, m)).collect::<Option<Vec<bool>>>()?;
    let n = bits.len() as u64;
    if (n < inputs && inputs <= 256 && m == Mistake::ShortRowsTaken) || (n > inputs && m == Mistake::LongRowsTaken) {
        bits.resize(inputs as usize, false);
    }
    if bits.len() as u64 == inputs {
        Some(bits)
    } else {
        None
    }
}

// The rows up to the first wrong one, and whether there is none.
fn good_rows(inputs: u64, rows: &[u8], m: Mistake) -> (Rows, bool) {
    let taken = taken(rows, m);
    let mut all: Rows = Vec::new();
    for line in taken.split_inclusive(|b| *b == b'\n') {
        match row_bits(inputs, line, m) {
            Some(bits) => all.push(bits),
            None => return (all, false),
        }
    }
    (all, true)
}

// Whether so many output rows fit.
fn fits(r: &Run, rows: usize, m: Mistake) -> bool {
    let (n, outputs, room) = (rows as u128, r.lent.counts[3] as u128, r.lent.room as u128);
    match m {
        Mistake::FitsWithoutLf => n * outputs <= room,
        Mistake::FitsByRows => r.rows.len() as u128 <= room,
        Mistake::FitsByFirst => n.min(1) * (outputs + 1) <= room,
        Mistake::NeverFull => n * (outputs + 1) < room,
        Mistake::CutToFit => true,
        _ => n * (outputs + 1) <= room,
    }
}

// Whether the rows are wrong or do not fit: 31.
fn wrong_rows(r: &Run, m: Mistake) -> bool {
    let (rows, whole) = good_rows(r.lent.counts[0], &r.rows, m);
    let refused = m == Mistake::NoRowsRefused && rows.is_empty();
    refused || !(whole || m == Mistake::StopsAtWrongRow) || !fits(r, rows.len(), m)
}

// ---- the order

fn order(m: Mistake) -> [u32; 4] {
    match m {
        Mistake::RowsFirst => [31, 20, 29, 30],
        Mistake::RowsBeforeOrder => [20, 31, 29, 30],
        Mistake::RowsBeforeFlops => [20, 29, 31, 30],
        Mistake::FlopsBeforeOrder => [20, 30, 29, 31],
        _ => [20, 29, 30, 31],
    }
}

// The first refusal that holds.
fn refusal(r: &Run, p: Option<&Plain>, m: Mistake) -> Option<u32> {
    if m == Mistake::OrderBeforeOutputs || m == Mistake::FlopsBeforeOutputs {
        let [inputs, gates, pins, _] = r.lent.counts;
        let bare = decoded(&Lent { counts: [inputs, gates, pins, 0], ..r.lent.clone() });
        if bare.as_ref().is_some_and(|b| m == Mistake::OrderBeforeOutputs && unsorted(b, m)) {
            return Some(29);
        }
        if bare.is_some_and(|b| m == Mistake::FlopsBeforeOutputs && !unsorted(&b, m) && other_flop(&b, m)) {
            return Some(30);
        }
    }
    let holds = |k: &u32| match (k, p) {
        (31, _) => wrong_rows(r, m),
        (_, None) => *k == 20,
        (29, Some(p)) => unsorted(p, m),
        (30, Some(p)) => other_flop(p, m),
        _ => false,
    };
    order(m).into_iter().find(holds)
}

// ---- the output rows

// The network as a mistake has it; one that is not sorted, and should have been refused, with zero for each wrong input.
fn altered(mut p: Plain, m: Mistake) -> Plain {
    let unsorted = writes::unsorted(&p);
    for (g, node) in p.gates.iter_mut().enumerate() {
        let Node { form, pins: ps, .. } = node;
        if unsorted && *form != 14 {
            ps.iter_mut().filter(|s| s.is_var() && s.var() as usize >= g).for_each(|s| *s = Signal::zero());
        }
        match m {
            Mistake::FormFor(a, b) if *form == a => *form = b,
            Mistake::PinLost(f, n, pin) if *form == f && ps.len() == n => drop(ps.remove(pin)),
            _ => (),
        }
    }
    if m == Mistake::OneOutputIsZero {
        p.outputs.iter_mut().filter(|s| **s == Signal::one()).for_each(|s| *s = Signal::zero());
    }
    p
}

// The outputs' bits at each clock.
fn outputs(p: &Plain, rows: &Rows, m: Mistake) -> Rows {
    let inner = if let Mistake::Simulated(s) = m { s } else { simulate::Mistake::Nothing };
    if m == Mistake::HeldCleared {
        return rows.iter().flat_map(|row| simulate::run(p, &[row.clone()], inner)).collect();
    }
    simulate::run(p, rows, inner)
}

fn rendered(rows: &Rows, m: Mistake) -> Vec<u8> {
    let end: &[u8] = if m == Mistake::LfLeftOut { b"" } else { b"\n" };
    let digits = |row: &Vec<bool>| row.iter().map(|b| b'0' + *b as u8).collect::<Vec<u8>>();
    rows.iter().flat_map(|row| [digits(row), end.to_vec()].concat()).collect()
}

// The output rows for the rows up to the first wrong one.
fn output_rows(r: &Run, p: &Plain, m: Mistake) -> Vec<u8> {
    let p = altered(p.clone(), m);
    let mut rows = good_rows(p.inputs as u64, &r.rows, m).0;
    if m == Mistake::CutToFit {
        rows.truncate(r.lent.room / (p.outputs.len() + 1));
    }
    if m == Mistake::LastRowDropped {
        rows.pop();
    }
    let none = (m == Mistake::NoInputsNoRows && p.inputs == 0) || (m == Mistake::NoOutputsNoRows && p.outputs.is_empty());
    rendered(&outputs(&p, &if none { Vec::new() } else { rows }, m), m)
}

// What the slice holds where these bytes are written at its front.
fn slice_with(room: usize, front: &[u8], rest: u8) -> Vec<u8> {
    let mut out = vec![rest; room];
    let n = front.len().min(room);
    out[..n].copy_from_slice(&front[..n]);
    out
}

// What a run answers.
pub fn ran(r: &Run, m: Mistake) -> Answer {
    let p = network(&r.lent, m);
    let room = r.lent.room;
    let (result, front, rest) = match refusal(r, p.as_ref(), m) {
        Some(k) => {
            let left = if m == Mistake::OutLeft(k) { 165 } else { 0 };
            let written = if m == Mistake::WrittenStays && k == 31 { output_rows(r, &p.unwrap(), m) } else { Vec::new() };
            (Err(k), written, left)
        }
        None => {
            let p = p.unwrap();
            let text = output_rows(r, &p, m);
            let lines = text.len() / (p.outputs.len() + 1);
            let length = if m == Mistake::LengthWithoutLf { lines * p.outputs.len() } else { text.len() };
            (Ok(length), text, if m == Mistake::RestLeft { 165 } else { 0 })
        }
    };
    let mut out = slice_with(room, &front, rest);
    if m == Mistake::LastByteLeft && front.len() < room {
        out[room - 1] = 165;
    }
    Answer { result, out }
}

// The answer's lines: the refusal, or the output rows behind their length; and whether a byte behind them, or one after a refusal, is not zero.
pub fn shown(a: &Answer) -> Vec<u8> {
    let (head, n) = match a.result {
        Err(k) => (format!("refused={k}\n"), 0),
        Ok(n) => (format!("length={n}\n"), n),
    };
    let mut all = head.into_bytes();
    if n > a.out.len() {
        all.extend(b"more than are lent\n");
        return all;
    }
    all.extend(&a.out[..n]);
    if a.out[n..].iter().any(|b| *b != 0) {
        all.extend(b"not zero\n");
    }
    all
}
