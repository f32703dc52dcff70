// Texts, and what reading must answer for each: what Quaigh's `read_blif` answers, for a text with statements behind `.end` to the part up to it,
// with document 01's numbers and sizes and its And where cover lines with output 0 are joined; 34 and the start values, which Quaigh ignores,
// by starts.rs.
use crate::{cells, line};
use crate::compare::{number, Case};
use crate::generate::{Node, Numbers, Plain};
use crate::io::statements::{
    goes_on_behind_end, latches, network_with, parsed_with, parses, too_large, too_large_with, up_to_end, with_ones, EndMistake, END_MISTAKES,
};
use crate::starts::{self, first_of_quaigh, first_refusal, has_34, started};
use crate::models::{built, outcome, Answer};
use crate::points;
use crate::smaller_texts;
use crate::tricky;
use std::collections::BTreeMap;
use std::panic::catch_unwind;

const MAX_TEXT: usize = 32768;

pub enum Wanted {
    Read(Plain),
    Refused(u32),
}

// Where an answer comes from.
#[derive(Clone, Copy, PartialEq)]
enum Source {
    Same,   // Quaigh's network
    Joined, // Quaigh's network with And in the place of Nand
    Error,  // Quaigh's message
    Panic,  // Quaigh's panic
    Limit,  // a size or a byte that Quaigh takes
    Start,  // a start value, which Quaigh ignores
}

// A network as read, with And in place of the Nand that joins a cover's lines: those gates are an Or when the outputs are 1.
fn joined_by_and(text: &[u8], mut p: Plain) -> (Plain, bool) {
    let ones = Plain::of(&with_ones(text));
    assert!(p.outputs == ones.outputs && p.gates.len() == ones.gates.len(), "a gate moved");
    let mut any = false;
    for (gate, other) in p.gates.iter_mut().zip(&ones.gates) {
        let bare = |g: &Node| g.pins.iter().filter(|s| s.is_var()).map(|s| s.var()).collect::<Vec<_>>();
        assert!(bare(gate) == bare(other), "a gate moved");
        if gate.form == 9 && other.form == 8 {
            gate.form = 7;
            any = true;
        }
    }
    (p, any)
}

// What reading must answer.
pub fn wanted(text: &[u8]) -> Wanted {
    sourced(text).0
}

fn sourced(text: &[u8]) -> (Wanted, Source) {
    with_starts(text, starts::Mistake::Nothing)
}

// The same with a mistake about start values.
fn with_starts(text: &[u8], m: starts::Mistake) -> (Wanted, Source) {
    let wrong_start = (Wanted::Refused(34), Source::Start);
    let before = |limit: starts::Mistake| m == limit && has_34(text);
    if text.len() > MAX_TEXT {
        return if before(starts::Mistake::BeforeLength) { wrong_start } else { (Wanted::Refused(2), Source::Limit) };
    }
    if text.iter().any(|b| *b >= 128) {
        return if before(starts::Mistake::BeforeBytes) { wrong_start } else { (Wanted::Refused(3), Source::Limit) };
    }
    match (first_refusal(text, m), by_statement(text), m) {
        (Some(34), None, starts::Mistake::Behind(k)) if matches!(in_model(text, m).0, Wanted::Refused(n) if n == k) => in_model(text, m),
        (Some(34), _, _) => wrong_start,
        (_, Some(4), _) => (Wanted::Refused(4), Source::Panic),
        (_, Some(k), _) => (Wanted::Refused(k), Source::Error),
        (_, None, _) => in_model(text, m),
    }
}

// What reading must answer for a text that parses: what it answers for the part up to `.end`.
fn in_model(text: &[u8], m: starts::Mistake) -> (Wanted, Source) {
    by_model(if goes_on_behind_end(text) { up_to_end(text) } else { text }, m)
}

// Which of 4 and 5 comes first in a text, by Quaigh; the plain look at it must find the same.
fn by_statement(text: &[u8]) -> Option<u32> {
    let found = match catch_unwind(|| parses(text)) {
        Err(_) => Some(4),
        Ok(false) => Some(5),
        Ok(true) => None,
    };
    assert!(found == first_of_quaigh(text), "{:?}: {found:?} by Quaigh, not by the plain look", text.escape_ascii().to_string());
    found
}

// What Quaigh answers for a text that parses, after 6.
fn by_quaigh(text: &[u8]) -> (Answer, bool) {
    if too_large(text) { (Answer::Refused(6), false) } else { built(text) }
}

// An answer of Quaigh's as lines.
fn in_quaigh(a: Answer) -> String {
    match a {
        Answer::Read(n) => shown(&Wanted::Read(Plain::of(&n))),
        Answer::Refused(k) => shown(&Wanted::Refused(k)),
    }
}

// What reading must answer for a text that parses, if all of it is the model's; with a mistake about start values.
fn by_model(text: &[u8], m: starts::Mistake) -> (Wanted, Source) {
    match by_quaigh(text) {
        (Answer::Refused(6), _) => (Wanted::Refused(6), Source::Limit),
        (Answer::Refused(k), panicked) => (Wanted::Refused(k), if panicked { Source::Panic } else { Source::Error }),
        (Answer::Read(n), _) => {
            let p = Plain::of(&n);
            let nand = p.gates.iter().any(|g| g.form == 9);
            let (p, any) = if nand { joined_by_and(text, p) } else { (p, false) };
            (Wanted::Read(started(text, p, &latches(text), m)), if any { Source::Joined } else { Source::Same })
        }
    }
}

// Whether statements stand behind the `.end` that stops a text, and whether Quaigh answers otherwise for the whole of it.
fn behind_end(text: &[u8], w: &Wanted) -> [bool; 2] {
    let some = !matches!(w, Wanted::Refused(2..=5 | 34)) && goes_on_behind_end(text);
    [some, some && in_quaigh(by_quaigh(text).0) != in_quaigh(by_quaigh(up_to_end(text)).0)]
}

// What a reader answers that goes wrong at `.end`, in Quaigh's networks; 0 where it breaks down.
fn with_mistake(text: &[u8], m: EndMistake) -> String {
    let refused = |k: u32| shown(&Wanted::Refused(k));
    match catch_unwind(|| parses(parsed_with(text, m))) {
        Err(_) => return refused(4),
        Ok(false) => return refused(5),
        Ok(true) => (),
    }
    if too_large_with(text, m) {
        return refused(6);
    }
    match catch_unwind(|| outcome(|| network_with(text, m)).0) {
        Err(_) => refused(0),
        Ok(a) => in_quaigh(a),
    }
}

// Prints the shortest text that tells a mistake apart; there must be one.
fn print_apart<'a>(m: &str, apart: impl Iterator<Item = &'a Vec<u8>>) {
    let apart = apart.min_by_key(|t| t.len()).unwrap_or_else(|| panic!("the list does not tell {m} apart"));
    let shown = apart.escape_ascii().to_string();
    eprintln!("{m} told apart by {} bytes: {}", apart.len(), &shown[..shown.len().min(60)]);
}

// The same of each mistake about start values.
fn tell_start_mistakes(texts: &[Text]) {
    let latched: Vec<&Vec<u8>> = texts.iter().map(|t| &t.0).filter(|t| t.windows(6).any(|w| w == b".latch")).collect();
    let right: Vec<String> = latched.iter().map(|t| shown(&wanted(t))).collect();
    for m in starts::mistakes() {
        let apart = latched.iter().zip(&right).filter(|(t, right)| shown(&with_starts(t, m).0) != **right);
        print_apart(&format!("{m:?} of start values"), apart.map(|(t, _)| *t));
    }
    eprintln!("{} mistakes of start values told apart", starts::mistakes().len());
}

// The same of each mistake at `.end`, by texts at which it does not break down; those refused by 34 are left out. Without a mistake, the
// statements up to `.end` have to give what the text up to it gives.
fn tell_end_mistakes(texts: &[Text]) {
    let fits = |t: &&Vec<u8>| t.len() <= MAX_TEXT && t.is_ascii() && !has_34(t);
    let few: Vec<&Vec<u8>> = texts.iter().map(|t| &t.0).filter(fits).collect();
    for t in &few {
        let right = with_mistake(t, EndMistake::Nothing);
        let parsed = catch_unwind(|| parses(t)).unwrap_or(false);
        assert!(!parsed || right == in_quaigh(by_quaigh(up_to_end(t)).0), "{:?}: the part up to `.end`", t.escape_ascii().to_string());
    }
    for m in END_MISTAKES {
        let told = |t: &&&Vec<u8>| ![with_mistake(t, EndMistake::Nothing), shown(&Wanted::Refused(0))].contains(&with_mistake(t, m));
        print_apart(&format!("{m:?}"), few.iter().filter(told).copied());
    }
}

// The answer's lines: the refusal, or the counts and the cells in use.
fn shown(w: &Wanted) -> String {
    match w {
        Wanted::Refused(k) => format!("refused={k}\n"),
        Wanted::Read(p) => {
            let (gates, pins, outputs) = cells(p);
            format!("counts {} {} {} {}\n", p.inputs, p.gates.len(), pins.len(), outputs.len())
                + &line("gates", &gates)
                + &line("pins", &pins)
                + &line("outputs", &outputs)
        }
    }
}

// What the program prints before the texts, to show that it tells what is wrong: each slice in turn has a cell that is not zero, after a network
// without cells in use and after a refusal; then more pins are in use than are lent.
fn told() -> String {
    let parts = ["gates\n", "pins\n", "outputs\n", "", ""];
    let mut all = "told\n".to_string();
    for kind in 0..parts.len() {
        let lines = parts.iter().enumerate().map(|(k, part)| part.to_string() + if k == kind { "not zero\n" } else { "" });
        all += &("counts 0 0 0 0\n".to_string() + &lines.collect::<String>() + "refused=1\nnot zero\n");
    }
    all + "counts 0 0 16386 0\ngates\npins more than are lent\noutputs\nrefused=1\n"
}

// What the program prints after the texts: each slice one cell short, then no cells and a text that is too long.
const SHORT: &str = "short\nrefused=1\nrefused=1\nrefused=1\nrefused=1\nrefused=1\nrefused=1\n";

// The texts by hand, whose answers must be those on paper.
pub fn by_hand() -> Vec<Vec<u8>> {
    let checked = |(k, t): (u32, Vec<u8>)| {
        let w = match wanted(&t) {
            Wanted::Read(_) => 0,
            Wanted::Refused(k) => k,
        };
        assert!(w == k, "{:?}: {w}, and by hand {k}", String::from_utf8_lossy(&t[..t.len().min(200)]));
        t
    };
    points::by_hand().into_iter().map(checked).collect()
}

// The texts by hand, every short sequence of fragments, and so many from a seed: the kinds that the stored list has.
fn texts(seed: u64, count: usize) -> Vec<Vec<u8>> {
    let mut r = Numbers(seed);
    let seeded: Vec<Vec<u8>> = (0..count).map(|k| tricky::text(&mut r, k)).collect();
    let ended = (0..count / 10).map(|k| tricky::ended(&mut r, k));
    by_hand().into_iter().chain(points::sequences(3)).chain(seeded).chain(ended).collect()
}

#[derive(Clone)]
pub struct Text(pub Vec<u8>);

impl Case for Text {
    const WORD: &'static str = "text";
    const BEHIND: &'static str = SHORT;
    const TWICE: bool = true; // a text of odd number is lent a cell more of each kind
    const ANSWERED: &'static str = "read";
    const NOTES: &'static [&'static str] = &[
        "read, as Quaigh's network",
        "read, as Quaigh's network with And in the place of Nand where lines with output 0 are joined",
        "refused where Quaigh gives a message",
        "refused where Quaigh panics",
        "refused for a size or a byte that Quaigh takes",
        "refused for a start value, which Quaigh ignores",
        "read, with a start value of one",
        "with statements behind `.end`, as Quaigh answers for the part up to it",
        "of these, where Quaigh answers otherwise for the whole",
    ];

    fn bytes(&self) -> usize {
        self.0.len() + 9
    }

    fn given(&self) -> Vec<u8> {
        assert!(self.0.len() <= MAX_TEXT + 1, "a text that the program has no room for");
        [format!("{:08x}\n", self.0.len()).as_bytes(), &self.0].concat()
    }

    fn answer(&self) -> (Vec<u8>, Vec<bool>) {
        let (w, source) = sourced(&self.0);
        let sources = [Source::Same, Source::Joined, Source::Error, Source::Panic, Source::Limit, Source::Start];
        let one = matches!(&w, Wanted::Read(p) if p.gates.iter().any(|g| g.start == 1));
        let notes = [&sources.map(|s| s == source)[..], &[one], &behind_end(&self.0, &w)].concat();
        (shown(&w).into_bytes(), notes)
    }

    fn smaller(&self) -> Box<dyn Iterator<Item = Text> + '_> {
        Box::new(smaller_texts::smaller(&self.0).map(Text))
    }

    fn shown(&self) -> String {
        format!("\"{}\"", self.0.escape_ascii())
    }
}

// The stored list: the texts, and the answers, each behind the number of its text. Prints how often each answer occurs; each must.
pub fn lists(seed: u64, count: usize) -> (Vec<u8>, Vec<u8>) {
    let texts: Vec<Text> = texts(seed, count).into_iter().map(Text).collect();
    let mut given = format!("{:08x}\n", texts.len()).into_bytes();
    let mut wanted = told().into_bytes();
    let mut seen = BTreeMap::new();
    for (i, t) in texts.iter().enumerate() {
        let w = t.answer().0;
        *seen.entry(number(&w)).or_insert(0) += 1;
        given.extend(t.given());
        wanted.extend(format!("text {i}\n").into_bytes());
        wanted.extend(w);
    }
    wanted.extend(SHORT.bytes());
    eprintln!("{} texts; answers (0 for read): {seen:?}", texts.len());
    assert!((2..15).chain([34]).all(|k| seen.contains_key(&k)), "a refusal does not occur");
    tell_end_mistakes(&texts);
    tell_start_mistakes(&texts);
    (given, wanted)
}
