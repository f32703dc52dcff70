// Reports for a pass log: what request 2 of document 02 answers for a netlist and a sheet, right or with one of the mistakes that its rules
// leave room for. The stored list must hold, for each mistake, a report that it changes.
use crate::generate::Plain;
use crate::reads::{wanted as read, Wanted};
use crate::simulate;

pub const MOST_SHEET: usize = 40960;
pub const MOST_NETLIST: usize = 32768;

// The cells that refusal 1 asks for: gates, pins, outputs, working gates and working pins.
pub const CELLS: [usize; 5] = [4096, 16384, 256, 4096, 16384];

// What a report is asked for: both files, the output slice's length and how many cells of each kind are lent.
#[derive(Clone)]
pub struct Asked {
    pub netlist: Vec<u8>,
    pub sheet: Vec<u8>,
    pub room: usize,
    pub cells: [usize; 5],
}

// The length that is told and the output slice, whose bytes were 165 before.
pub struct Answer {
    pub length: usize,
    pub out: Vec<u8>,
}

#[derive(Clone, Copy, PartialEq, Debug)]
pub enum Mistake {
    Nothing,
    MostBytes(usize),   // 32: this is the longest sheet
    MostRows(usize),    // 32: this is the largest number of rows
    NoRows,             // 32: no rows are taken
    MostLetters(usize), // 32: this is the longest part
    NoLetters,          // 32: an empty part is taken
    Taken(u8),          // 32: this byte is taken in a part
    NotTaken(u8),       // 32: this byte is not
    LeadingZeros,       // 32: leading zeros are taken
    PlusSign,           // 32: a plus sign before the number
    Blanks,             // 32: blanks around a head line and its value
    NumberBegins,       // 32: bytes behind the digits
    Wraps(u128),        // 32: the number of rows modulo this
    AnyCase,            // 32: keys in capitals
    AnyKey,             // 32: whatever stands before the first equals sign
    HeadSwapped,        // 32: the number before the part
    HeadTwice,          // 32: a head line that is there twice
    CrInHead,           // 32: a CR before a head line's LF goes
    CrInRow,            // a CR before a row's LF goes
    CrRefused,          // 32, not 31, for a CR in a row
    LfAdded,            // 32: the last line's LF may be missing
    LfBehind,           // 32: an LF behind the last row
    ZerosBehind,        // 32: zero bytes behind the last row
    LeftOver,           // 32: rows behind the last
    Missing,            // 32: fewer rows
    EmptyLines,         // 32: empty lines are left out
    WidthRefused,       // 32, not 31, for a row of another length than the first
    EmptyRefused,       // 32, not 31, for an empty row
    OldCells,           // 1: 3,072 cells for gates are enough
    NetlistFirst,       // the reader's refusals before 32
    CellsFirst,         // 1 before 32
    OutputsFirst,       // 33 before 32
    RowsFirst,          // 31 before the reader's
    RowsBeforeOutputs,  // 31 before 33
    MostText(usize),    // 2: this is the longest netlist
    NetlistCut,         // 2: a longer netlist is cut
    NoNetlist,          // 5, not 33, for an empty netlist
    NoOutputRejects,    // 33: without outputs every row is rejected
    NoOutputAccepts,    // 33: without outputs every row is accepted
    NoInputRefused,     // 33 without inputs
    ShortRows,          // 31: zeros are added to a short row
    LongRows,           // 31: a long row is cut
    OtherIsZero,        // 31: any other character is a zero
    LowBit,             // 31: a character's lowest bit is taken
    FirstRowOnly,       // 31: only the first row is looked at
    LastRowFree,        // 31: the last row is not looked at
    WrongRejected,      // 31: wrong rows are rejected and not run
    StopsAtWrong,       // 31: the rows before a wrong one are run
    SecondOutput,       // the second output decides, where there is one
    LastOutput,         // the last output decides
    AnyOutput,          // one output of one is enough
    EveryOutput,        // all outputs must be one
    Swapped,            // accepted and rejected the other way round
    HeldCleared,        // every row begins at the start values
    StopsAtReject,      // rows behind a rejected one are rejected
    LastRowDropped,     // the last row is not counted
    OneDigit,           // counts by their last digit
    ThreeDigits,        // counts with leading zeros
    PartCut(usize),     // a part by so many of its letters
    LinesSwapped,       // rejected before accepted
    LastLfLeftOut,      // no LF behind the last line
    LengthOfSlice,      // a cut report is as long as the slice
    NothingCut,         // of a report that does not fit nothing is there
    NeverFull,          // a byte must be left over
    RestLeft,           // the bytes behind the report left as they were
    Simulated(simulate::Mistake),
}

// The mistakes without a parameter.
const MISTAKES: [Mistake; 54] = [
    Mistake::NoRows,
    Mistake::NoLetters,
    Mistake::LeadingZeros,
    Mistake::PlusSign,
    Mistake::Blanks,
    Mistake::NumberBegins,
    Mistake::AnyCase,
    Mistake::AnyKey,
    Mistake::HeadSwapped,
    Mistake::HeadTwice,
    Mistake::CrInHead,
    Mistake::CrInRow,
    Mistake::CrRefused,
    Mistake::LfAdded,
    Mistake::LfBehind,
    Mistake::ZerosBehind,
    Mistake::LeftOver,
    Mistake::Missing,
    Mistake::EmptyLines,
    Mistake::WidthRefused,
    Mistake::EmptyRefused,
    Mistake::OldCells,
    Mistake::NetlistFirst,
    Mistake::CellsFirst,
    Mistake::OutputsFirst,
    Mistake::RowsFirst,
    Mistake::RowsBeforeOutputs,
    Mistake::NetlistCut,
    Mistake::NoNetlist,
    Mistake::NoOutputRejects,
    Mistake::NoOutputAccepts,
    Mistake::NoInputRefused,
    Mistake::ShortRows,
    Mistake::LongRows,
    Mistake::OtherIsZero,
    Mistake::LowBit,
    Mistake::FirstRowOnly,
    Mistake::LastRowFree,
    Mistake::WrongRejected,
    Mistake::StopsAtWrong,
    Mistake::SecondOutput,
    Mistake::LastOutput,
    Mistake::AnyOutput,
    Mistake::EveryOutput,
    Mistake::Swapped,
    Mistake::HeldCleared,
    Mistake::StopsAtReject,
    Mistake::LastRowDropped,
    Mistake::OneDigit,
    Mistake::ThreeDigits,
    Mistake::LinesSwapped,
    Mistake::LastLfLeftOut,
    Mistake::NothingCut,
    Mistake::NeverFull,
];

// Bytes that stand beside letters and digits, and further ones that are neither.
pub const BESIDE: [u8; 16] = [b'/', b':', b'@', b'[', b'`', b'{', b'_', b'-', b' ', b'=', b'\r', 0, 127, 128, 0xe9, 255];
pub const ENDS: [u8; 6] = *b"09AZaz";

// All of them.
pub fn mistakes() -> Vec<Mistake> {
    let mut all = MISTAKES.to_vec();
    all.extend([MOST_SHEET - 1, MOST_SHEET + 1].map(Mistake::MostBytes));
    all.extend([99, 127, 129, 200, 255, 256].map(Mistake::MostRows));
    all.extend([15, 17, 20].map(Mistake::MostLetters));
    all.extend(BESIDE.map(Mistake::Taken));
    all.extend(ENDS.map(Mistake::NotTaken));
    all.extend([256, 65536, 1 << 32, 1 << 64].map(Mistake::Wraps));
    all.extend([MOST_NETLIST - 1, MOST_NETLIST + 1].map(Mistake::MostText));
    all.extend([8, 15].map(Mistake::PartCut));
    all.extend([Mistake::LengthOfSlice, Mistake::RestLeft]);
    all.extend(simulate::MISTAKES.map(Mistake::Simulated).into_iter().filter(|m| !never_read(m)));
    all
}

// Mistakes about forms, pins and outputs that no netlist as read has, or that leave every count as it is.
fn never_read(m: &Mistake) -> bool {
    use simulate::Mistake::*;
    let Mistake::Simulated(s) = m else { return false };
    matches!(s, MuxOtherWay | MajOfThree | OrForXor | NandForNor | NothingIsZero | OutputNotInverted | StartsByNumber)
}

// ---- the sheet

pub struct Sheet {
    pub part: Vec<u8>,
    pub rows: Vec<Vec<u8>>,
}

fn is_part(value: &[u8], m: Mistake) -> bool {
    let most = if let Mistake::MostLetters(n) = m { n } else { 16 };
    let least = if m == Mistake::NoLetters { 0 } else { 1 };
    let fits = |c: &u8| (c.is_ascii_alphanumeric() || m == Mistake::Taken(*c)) && m != Mistake::NotTaken(*c);
    (least..=most).contains(&value.len()) && value.iter().all(fits)
}

// The number that a value is; nothing where it is not one of 1 to 128 in decimal.
fn number(value: &[u8], m: Mistake) -> Option<usize> {
    let value = std::str::from_utf8(value).ok()?;
    let digits = match m {
        Mistake::LeadingZeros if value.starts_with('0') => value.trim_start_matches('0'),
        Mistake::PlusSign => value.strip_prefix('+').unwrap_or(value),
        Mistake::NumberBegins => &value[..value.find(|c: char| !c.is_ascii_digit()).unwrap_or(value.len())],
        _ => value,
    };
    let least = if m == Mistake::NoRows { 0 } else { 1 };
    let most = if let Mistake::MostRows(n) = m { n } else { 128 };
    let whole = digits.parse::<u128>().ok().filter(|k| *digits == k.to_string());
    let wrapped = if let Mistake::Wraps(n) = m { whole.map(|k| k % n) } else { None };
    (least..=most).find(|n| *digits == n.to_string() || wrapped == Some(*n as u128))
}

// The value behind a key.
fn value<'a>(line: &'a [u8], key: &[u8], m: Mistake) -> Option<&'a [u8]> {
    let line = if m == Mistake::CrInHead { line.strip_suffix(b"\r").unwrap_or(line) } else { line };
    match m {
        Mistake::Blanks => line.trim_ascii().strip_prefix(key).map(|v| v.trim_ascii()),
        Mistake::AnyCase if line.len() >= key.len() && line[..key.len()].eq_ignore_ascii_case(key) => Some(&line[key.len()..]),
        Mistake::AnyKey => line.iter().position(|b| *b == b'=').map(|k| &line[k + 1..]),
        _ => line.strip_prefix(key),
    }
}

// The sheet's bytes as a mistake takes them.
fn taken(bytes: &[u8], m: Mistake) -> Vec<u8> {
    let mut lines: Vec<Vec<u8>> = bytes.split_inclusive(|b| *b == b'\n').map(|l| l.to_vec()).collect();
    match m {
        Mistake::LfAdded if bytes.last().is_some_and(|b| *b != b'\n') => lines.push(b"\n".to_vec()),
        Mistake::LfBehind if bytes.ends_with(b"\n\n") && sheet(bytes, Mistake::Nothing).is_none() => drop(lines.pop()),
        Mistake::ZerosBehind => lines.retain(|l| !l.iter().all(|b| *b == 0)),
        Mistake::EmptyLines => lines.retain(|l| l != b"\n"),
        Mistake::HeadTwice if lines.len() > 2 && lines[0] == lines[1] => drop(lines.remove(1)),
        Mistake::HeadTwice if lines.len() > 2 && lines[1] == lines[2] => drop(lines.remove(2)),
        Mistake::HeadSwapped if lines.len() > 1 && lines[0].starts_with(b"rows") => lines.swap(0, 1),
        Mistake::CrInRow => {
            let cut = |l: &Vec<u8>| l.strip_suffix(b"\r\n").map_or(l.clone(), |front| [front, b"\n"].concat());
            lines = lines.iter().take(2).cloned().chain(lines.iter().skip(2).map(cut)).collect();
        }
        _ => (),
    }
    lines.concat()
}

// The rows as a mistake has them; nothing where it refuses them here.
fn taken_rows(mut rows: Vec<Vec<u8>>, n: usize, m: Mistake) -> Option<Vec<Vec<u8>>> {
    let refused = match m {
        Mistake::CrRefused => rows.iter().flatten().any(|b| *b == b'\r'),
        Mistake::WidthRefused => rows.iter().any(|r| r.len() != rows[0].len()),
        Mistake::EmptyRefused => rows.iter().any(|r| r.is_empty()),
        _ => false,
    };
    if m == Mistake::LeftOver {
        rows.truncate(n);
    }
    let fewer = m == Mistake::Missing && rows.len() < n;
    if !refused && (rows.len() == n || fewer) {
        Some(rows)
    } else {
        None
    }
}

// The sheet of a file; nothing where a line is missing, misformed or left over, or the file is too long: 32.
pub fn sheet(bytes: &[u8], m: Mistake) -> Option<Sheet> {
    let most = if let Mistake::MostBytes(n) = m { n } else { MOST_SHEET };
    if bytes.len() > most {
        return None;
    }
    let taken = if m == Mistake::Nothing { bytes.to_vec() } else { taken(bytes, m) };
    let ended = |l: &[u8]| l.strip_suffix(b"\n").map(|l| l.to_vec());
    let lines = taken.split_inclusive(|b| *b == b'\n').map(ended).collect::<Option<Vec<Vec<u8>>>>()?;
    let [first, second, rows @ ..] = &lines[..] else {
        return None;
    };
    let part = value(first, b"part=", m)?;
    let n = number(value(second, b"rows=", m)?, m)?;
    if !is_part(part, m) {
        return None;
    }
    Some(Sheet { part: part.to_vec(), rows: taken_rows(rows.to_vec(), n, m)? })
}

// ---- 31

// A character's bit; nothing where it is another than 0 and 1.
fn bit(c: &u8, m: Mistake) -> Option<bool> {
    match c {
        b'0' => Some(false),
        b'1' => Some(true),
        _ if m == Mistake::OtherIsZero => Some(false),
        _ if m == Mistake::LowBit => Some(c & 1 == 1),
        _ => None,
    }
}

// A row's bits; nothing where it has the wrong length or another character.
fn row_bits(inputs: usize, row: &[u8], m: Mistake) -> Option<Vec<bool>> {
    let mut bits = row.iter().map(|c| bit(c, m)).collect::<Option<Vec<bool>>>()?;
    if (bits.len() < inputs && m == Mistake::ShortRows) || (bits.len() > inputs && m == Mistake::LongRows) {
        bits.resize(inputs, false);
    }
    if bits.len() == inputs {
        Some(bits)
    } else {
        None
    }
}

// The bits of every row; nothing where one is wrong: 31.
fn bits(inputs: usize, s: &Sheet, m: Mistake) -> Option<Vec<Vec<bool>>> {
    let mut all = Vec::new();
    for (k, row) in s.rows.iter().enumerate() {
        let free = (m == Mistake::FirstRowOnly && k > 0) || (m == Mistake::LastRowFree && k + 1 == s.rows.len());
        match row_bits(inputs, row, m) {
            Some(bits) => all.push(bits),
            None if free => all.push(vec![false; inputs]),
            None if m == Mistake::WrongRejected => (),
            None if m == Mistake::StopsAtWrong => return Some(all),
            None => return None,
        }
    }
    Some(all)
}

// ---- the order

// The first refusal that holds; 0 stands for the reader's own.
fn refusal(a: &Asked, s: Option<&Sheet>, w: &Wanted, m: Mistake) -> Option<u32> {
    let order = match m {
        Mistake::NetlistFirst => [1, 0, 32, 33, 31],
        Mistake::CellsFirst => [1, 32, 0, 33, 31],
        Mistake::OutputsFirst => [33, 32, 1, 0, 31],
        Mistake::RowsFirst => [32, 31, 1, 0, 33],
        Mistake::RowsBeforeOutputs => [32, 1, 0, 31, 33],
        _ => [32, 1, 0, 33, 31],
    };
    let holds = |k: u32| match (k, w) {
        (32, _) => s.is_none().then_some(32),
        (1, _) => (short(a) && !(m == Mistake::OldCells && old_cells(a))).then_some(1),
        (0, Wanted::Refused(n)) => Some(*n),
        (33, Wanted::Read(p)) => without_output(p, m).then_some(33),
        (31, _) => s.is_some_and(|s| wrong_rows(w, s, m)).then_some(31),
        _ => None,
    };
    order.into_iter().find_map(holds)
}

// Whether fewer cells are lent than refusal 1 asks for.
pub fn short(a: &Asked) -> bool {
    a.cells.iter().zip(CELLS).any(|(n, least)| *n < least)
}

// Whether those are enough that a record of three cells asks for.
fn old_cells(a: &Asked) -> bool {
    a.cells.iter().zip([3072, 16384, 256, 3072, 16384]).all(|(n, least)| *n >= least)
}

fn without_output(p: &Plain, m: Mistake) -> bool {
    match m {
        Mistake::NoOutputRejects | Mistake::NoOutputAccepts => false,
        Mistake::NoInputRefused => p.outputs.is_empty() || p.inputs == 0,
        _ => p.outputs.is_empty(),
    }
}

// Whether a row is wrong; where there is no network, whether it is for any.
fn wrong_rows(w: &Wanted, s: &Sheet, m: Mistake) -> bool {
    match w {
        Wanted::Read(p) => bits(p.inputs, s, m).is_none(),
        Wanted::Refused(_) => bits(s.rows[0].len(), s, m).is_none(),
    }
}

// ---- the lines

// Whether each row is accepted.
fn accepted(p: &Plain, rows: &[Vec<bool>], m: Mistake) -> Vec<bool> {
    let inner = if let Mistake::Simulated(s) = m { s } else { simulate::Mistake::Nothing };
    let outputs: Vec<Vec<bool>> = match m {
        Mistake::HeldCleared => rows.iter().flat_map(|row| simulate::run(p, &[row.clone()], inner)).collect(),
        _ => simulate::run(p, rows, inner),
    };
    let decided = |bits: &Vec<bool>| match m {
        Mistake::NoOutputRejects | Mistake::NoOutputAccepts if bits.is_empty() => m == Mistake::NoOutputAccepts,
        Mistake::SecondOutput => bits[1.min(bits.len() - 1)],
        Mistake::LastOutput => bits[bits.len() - 1],
        Mistake::AnyOutput => bits.contains(&true),
        Mistake::EveryOutput => !bits.contains(&false),
        _ => bits[0],
    };
    outputs.iter().map(decided).collect()
}

// How many rows are accepted and how many are rejected.
fn counts(p: &Plain, s: &Sheet, m: Mistake) -> (usize, usize) {
    let rows = bits(p.inputs, s, m).unwrap();
    let mut each = accepted(p, &rows, m);
    match m {
        Mistake::LastRowDropped => drop(each.pop()),
        Mistake::WrongRejected => each.resize(s.rows.len(), false),
        Mistake::StopsAtReject => {
            let n = each.iter().position(|b| !b).unwrap_or(each.len());
            each[n..].fill(false);
        }
        _ => (),
    }
    let ones = each.iter().filter(|b| **b).count();
    if m == Mistake::Swapped {
        (each.len() - ones, ones)
    } else {
        (ones, each.len() - ones)
    }
}

fn decimal(n: usize, m: Mistake) -> String {
    match m {
        Mistake::OneDigit => (n % 10).to_string(),
        Mistake::ThreeDigits => format!("{n:03}"),
        _ => n.to_string(),
    }
}

// The four lines.
fn lines(p: &Plain, s: &Sheet, m: Mistake) -> Vec<u8> {
    let (ones, zeros) = counts(p, s, m);
    let shown = if let Mistake::PartCut(n) = m { &s.part[..n.min(s.part.len())] } else { &s.part[..] };
    let mut last = [format!("accepted={}\n", decimal(ones, m)), format!("rejected={}\n", decimal(zeros, m))];
    if m == Mistake::LinesSwapped {
        last.reverse();
    }
    [b"part=", shown, format!("\ncommands={}\n{}", decimal(ones + zeros, m), last.concat()).as_bytes()].concat()
}

// What reading the netlist answers.
fn netlist_read(a: &Asked, right: &Wanted, m: Mistake) -> Option<Wanted> {
    match m {
        Mistake::NetlistCut if a.netlist.len() > MOST_NETLIST => Some(read(&a.netlist[..MOST_NETLIST])),
        Mistake::MostText(n) if a.netlist.len() > n => Some(Wanted::Refused(2)),
        Mistake::MostText(n) if a.netlist.len() == n && matches!(right, Wanted::Refused(2)) => Some(read(&a.netlist[..n - 1])),
        Mistake::NoNetlist if a.netlist.is_empty() => Some(Wanted::Refused(5)),
        _ => None,
    }
}

// The report's bytes, given what reading the netlist answers.
fn report(a: &Asked, right: &Wanted, m: Mistake) -> Vec<u8> {
    let other = netlist_read(a, right, m);
    let w = other.as_ref().unwrap_or(right);
    let s = sheet(&a.sheet, m);
    let mut all = match (refusal(a, s.as_ref(), w, m), w, s) {
        (None, Wanted::Read(p), Some(s)) => lines(p, &s, m),
        (Some(k), _, _) => format!("refused={k}\n").into_bytes(),
        _ => panic!("no network, no sheet and no refusal"),
    };
    if m == Mistake::LastLfLeftOut {
        all.pop();
    }
    all
}

// What is answered: the report, or as much of it as the slice has, and then a length of one more than the slice's.
pub fn answered(a: &Asked, right: &Wanted, m: Mistake) -> Answer {
    let text = report(a, right, m);
    let most = if m == Mistake::NeverFull { a.room.saturating_sub(1) } else { a.room };
    let mut out = vec![if m == Mistake::RestLeft { 165 } else { 0 }; a.room];
    let n = text.len().min(a.room);
    let cut = text.len() > most;
    if !(cut && m == Mistake::NothingCut) {
        out[..n].copy_from_slice(&text[..n]);
    }
    let told = if m == Mistake::LengthOfSlice { a.room } else { a.room + 1 };
    Answer { length: if cut { told } else { text.len() }, out }
}

// The answer's lines: the report behind its length, or what the slice has of it; and whether a byte behind the report is not zero.
pub fn shown(a: &Answer) -> Vec<u8> {
    let mut all = format!("length={}\n", a.length).into_bytes();
    if a.length > a.out.len() {
        all.extend(&a.out);
        all.extend(b"\ncut\n");
        return all;
    }
    all.extend(&a.out[..a.length]);
    if a.out[a.length..].iter().any(|b| *b != 0) {
        all.extend(b"not zero\n");
    }
    all
}
