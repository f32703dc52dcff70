use crate::{Network, Refusal};
use std::fmt;

/// Bytes of a sheet, at most.
const MAX_SHEET: usize = 40960;
/// Letters and digits of a part, at most.
const MAX_PART: usize = 16;
/// Command rows of a sheet, at most.
const MAX_COMMANDS: usize = 128;

/// The report for a pass log: how many commands a sheet has, and how many of them an interlock accepts and rejects. It prints as the four
/// lines that the program `passreport` prints, each ended by LF.
#[derive(Clone, Debug, PartialEq, Eq, Hash)]
pub struct Report {
    /// The part that the sheet names: 1 to 16 ASCII letters or digits.
    pub part: String,
    /// How many command rows there are; each is accepted or rejected.
    pub commands: usize,
    /// At how many rows the first output is 1.
    pub accepted: usize,
    /// At how many rows the first output is 0.
    pub rejected: usize,
}

/// A sheet taken apart: its part, how many command rows it has, and the text of these rows.
struct Sheet<'a> {
    part: &'a str,
    commands: usize,
    rows: &'a [u8],
}

/// The first line of a text, without its LF, and the text behind it; none where there is no LF.
fn first_line(text: &[u8]) -> Option<(&[u8], &[u8])> {
    let end = text.iter().position(|&byte| byte == b'\n')?;
    Some((&text[..end], &text[end + 1..]))
}

/// The part of a line `part=`.
fn part_of(line: &[u8]) -> Option<&str> {
    let part = line.strip_prefix(b"part=")?;
    let plain = (1..=MAX_PART).contains(&part.len()) && part.iter().all(u8::is_ascii_alphanumeric);
    std::str::from_utf8(part).ok().filter(|_| plain)
}

/// The number of a line `rows=`.
fn count_of(line: &[u8]) -> Option<usize> {
    let digits = line.strip_prefix(b"rows=")?;
    let plain = digits.iter().all(u8::is_ascii_digit) && !digits.starts_with(b"0");
    let count = std::str::from_utf8(digits).ok().filter(|_| plain)?.parse().ok()?;
    (1..=MAX_COMMANDS).contains(&count).then_some(count)
}

/// Takes a sheet apart; none where it is refused with 32.
fn sheet_of(text: &[u8]) -> Option<Sheet<'_>> {
    let (first, behind) = first_line(text)?;
    let (second, rows) = first_line(behind)?;
    let sheet = Sheet { part: part_of(first)?, commands: count_of(second)?, rows };
    let lines = rows.iter().filter(|&&byte| byte == b'\n').count();
    let whole = text.len() <= MAX_SHEET && text.ends_with(b"\n") && lines == sheet.commands;
    whole.then_some(sheet)
}

/// The report for a pass log, as the program `passreport` gives it for the files netlist.blif and sheet.txt: runs the commands of a sheet
/// on a netlist, from the flip-flops' start values, and counts the rows at which the first output is 1 and those at which it is 0.
///
/// A sheet is the line `part=` with 1 to 16 ASCII letters or digits, the line `rows=` with a number from 1 to 128 without leading zeros,
/// and so many command rows: a character 0 or 1 for each input of the netlist, in order. An LF ends each line, and nothing stands behind
/// the last.
///
/// ```
/// use vumneath::{report, Refusal};
///
/// let netlist = b".inputs arm fire safe\n.outputs go\n.names arm fire safe go\n110 1\n";
/// let counted = report(netlist, b"part=ADCS7\nrows=3\n110\n111\n010\n")?;
/// assert_eq!((counted.accepted, counted.rejected), (1, 2));
/// assert_eq!(counted.to_string(), "part=ADCS7\ncommands=3\naccepted=1\nrejected=2\n");
///
/// assert_eq!(report(netlist, b"part=ADCS7\nrows=3\n110\n111\n"), Err(Refusal::WrongSheet));
/// assert_eq!(report(b"", b"part=ADCS7\nrows=1\n110\n"), Err(Refusal::NoOutput));
/// assert_eq!(report(netlist, b"part=ADCS7\nrows=1\n11\n"), Err(Refusal::WrongRows));
/// # Ok::<(), Refusal>(())
/// ```
///
/// # Errors
///
/// In this order: 32 where the sheet is none, those of [`Network::read`], 33 where the network has no output, and 31 where a command row
/// has another length or another character.
pub fn report(netlist: &[u8], sheet: &[u8]) -> Result<Report, Refusal> {
    let sheet = sheet_of(sheet).ok_or(Refusal::WrongSheet)?;
    let network = Network::read(netlist)?;
    if network.outputs().is_empty() {
        return Err(Refusal::NoOutput);
    }
    let ran = network.run(sheet.rows)?;
    let rows_with = |first| ran.chunks(network.outputs().len() + 1).filter(|row| row.starts_with(first)).count();
    Ok(Report { part: sheet.part.to_string(), commands: sheet.commands, accepted: rows_with(b"1"), rejected: rows_with(b"0") })
}

impl fmt::Display for Report {
    fn fmt(&self, f: &mut fmt::Formatter<'_>) -> fmt::Result {
        writeln!(f, "part={}\ncommands={}\naccepted={}\nrejected={}", self.part, self.commands, self.accepted, self.rejected)
    }
}
