// Start values of latches, and refusal 34 (document 02, CR 4), by a plain look at the text, written from documents 01 and 02, since
// Quaigh ignores them; right, or with one of the mistakes that their rules leave room for. The stored list must hold, for each mistake, a text
// whose answer it changes.
use crate::generate::Plain;

#[derive(Clone, Copy, PartialEq, Debug)]
pub enum Mistake {
    Nothing,
    // which token is the start value
    NoneOfThree,      // of three tokens none
    ThirdOfFour,      // of four the third
    FourthOfFour,     // of four the fourth
    NoneOfFive,       // of five or more none
    ThirdOfFive,      // of five or more the third
    FourthOfFive,     // of five or more the fourth
    OnlyOfFive,       // of six or more none
    ThirdOfSix,       // of six or more the third
    LastTaken,        // of three or more the last
    NamesNotCounted,  // the tokens are counted behind the two names
    // what it says
    OneIsZero,
    TwoIsOne,
    ThreeIsOne,
    MissingIsOne, // a latch without one starts at one
    TwoStays,     // 2 is left in the cell
    ThreeStays,   // 3 is
    // which tokens are start values
    Never34,      // any other token is zero
    AnyDigit,     // any digit
    FirstByte,    // the first byte is looked at alone
    LastByte,     // the last one
    AsNumber,     // any decimal number of up to 3
    TypeTaken,    // a type in its place is zero
    TwoRefused,
    ThreeRefused,
    // where 34 stands
    BeforeLength,   // before 2
    BeforeBytes,    // before 3
    BeforeOthers,   // before 4 and 5, wherever they are
    BehindOthers,   // behind 4 and 5
    Behind(u32),    // behind this refusal, one of 6 to 14
    ToEnd,          // not behind `.end`
    ToExdc,         // not behind `.exdc`
    ToStop,         // not behind the first of both
    OneNameIs34,    // for a latch with one name, which is 4
    // which flip-flop has it
    NotMoved,    // the gate that has the number which the latch had before the sort
    FlopsDown,   // the flip-flops in reversed order
    FirstForAll, // all have that of the first latch
    LastForAll,  // all have that of the last
    OnlyFirst,   // all but the first are zero
}

// The mistakes without a parameter.
const MISTAKES: [Mistake; 37] = [
    Mistake::NoneOfThree,
    Mistake::ThirdOfFour,
    Mistake::FourthOfFour,
    Mistake::NoneOfFive,
    Mistake::ThirdOfFive,
    Mistake::FourthOfFive,
    Mistake::OnlyOfFive,
    Mistake::ThirdOfSix,
    Mistake::LastTaken,
    Mistake::NamesNotCounted,
    Mistake::OneIsZero,
    Mistake::TwoIsOne,
    Mistake::ThreeIsOne,
    Mistake::MissingIsOne,
    Mistake::TwoStays,
    Mistake::ThreeStays,
    Mistake::Never34,
    Mistake::AnyDigit,
    Mistake::FirstByte,
    Mistake::LastByte,
    Mistake::AsNumber,
    Mistake::TypeTaken,
    Mistake::TwoRefused,
    Mistake::ThreeRefused,
    Mistake::BeforeLength,
    Mistake::BeforeBytes,
    Mistake::BeforeOthers,
    Mistake::BehindOthers,
    Mistake::ToEnd,
    Mistake::ToExdc,
    Mistake::ToStop,
    Mistake::OneNameIs34,
    Mistake::NotMoved,
    Mistake::FlopsDown,
    Mistake::FirstForAll,
    Mistake::LastForAll,
    Mistake::OnlyFirst,
];

// All of them.
pub fn mistakes() -> Vec<Mistake> {
    MISTAKES.into_iter().chain((6..15).map(Mistake::Behind)).collect()
}

// ---- statements

type Token<'a> = &'a [u8];

// A line without its end and its comment, and whether the next line continues it.
fn shown(line: &[u8]) -> (&[u8], bool) {
    let line = line.strip_suffix(b"\n").map_or(line, |l| l.strip_suffix(b"\r").unwrap_or(l));
    match (line.iter().position(|b| *b == b'#'), line.strip_suffix(b"\\")) {
        (Some(k), _) => (&line[..k], false),
        (None, Some(front)) => (front, true),
        (None, None) => (line, false),
    }
}

// The statements, each as its tokens.
pub fn statements(text: &[u8]) -> Vec<Vec<Token>> {
    let blank = |b: &u8| (9..=13).contains(b) || *b == 32;
    let mut all = Vec::new();
    let mut pending: Vec<Token> = Vec::new();
    for line in text.split_inclusive(|b| *b == b'\n') {
        let (front, continues) = shown(line);
        pending.extend(front.split(blank).filter(|t| !t.is_empty()));
        if !continues && !pending.is_empty() {
            all.push(std::mem::take(&mut pending));
        }
    }
    all.extend(Some(pending).filter(|p| !p.is_empty()));
    all
}

// ---- the start value of a latch, from the tokens behind `.latch`

// The token that is the start value: of three the third, of five or more the fifth.
fn start_token<'a>(behind: &[Token<'a>], m: Mistake) -> Option<Token<'a>> {
    let behind = if m == Mistake::NamesNotCounted { &behind[2..] } else { behind };
    let n = behind.len();
    let place = match (n, m) {
        (3.., Mistake::LastTaken) => n,
        (3, Mistake::NoneOfThree) => 0,
        (3, _) => 3,
        (4, Mistake::ThirdOfFour) => 3,
        (4, Mistake::FourthOfFour) => 4,
        (5.., Mistake::NoneOfFive) => 0,
        (5.., Mistake::ThirdOfFive) => 3,
        (5.., Mistake::FourthOfFive) => 4,
        (6.., Mistake::OnlyOfFive) => 0,
        (6.., Mistake::ThirdOfSix) => 3,
        (5.., _) => 5,
        _ => 0,
    };
    (1..=behind.len()).contains(&place).then(|| behind[place - 1])
}

// What a start token leaves in the cell: 2 and 3 leave 0; nothing where it is not 0, 1, 2 or 3.
fn start_cell(token: Token, m: Mistake) -> Option<u32> {
    let token = match m {
        Mistake::FirstByte => &token[..1],
        Mistake::LastByte => &token[token.len() - 1..],
        Mistake::AsNumber => match std::str::from_utf8(token).ok().and_then(|t| t.parse::<u32>().ok()) {
            Some(k) if k < 4 => [b"0", b"1", b"2", b"3"][k as usize],
            _ => token,
        },
        _ => token,
    };
    match (token, m) {
        (b"2", Mistake::TwoRefused) | (b"3", Mistake::ThreeRefused) => None,
        (b"0", _) => Some(0),
        (b"1", _) => Some((m != Mistake::OneIsZero) as u32),
        (b"2", _) => Some(if m == Mistake::TwoStays { 2 } else { (m == Mistake::TwoIsOne) as u32 }),
        (b"3", _) => Some(if m == Mistake::ThreeStays { 3 } else { (m == Mistake::ThreeIsOne) as u32 }),
        ([b'4'..=b'9'], Mistake::AnyDigit) | (b"re" | b"fe" | b"ah" | b"al" | b"as", Mistake::TypeTaken) => Some(0),
        _ if m == Mistake::Never34 => Some(0),
        _ => None,
    }
}

// The start cell of a latch, which is zero without a start value; nothing where that is wrong: 34.
fn latch_cell(behind: &[Token], m: Mistake) -> Option<u32> {
    start_token(behind, m).map_or(Some((m == Mistake::MissingIsOne) as u32), |t| start_cell(t, m))
}

// ---- 4, 5 and 34

// The number of a statement that is refused.
fn refused(tokens: &[Token], m: Mistake) -> Option<u32> {
    let (first, behind) = (tokens[0], &tokens[1..]);
    match first {
        b".model" if behind.is_empty() => Some(4),
        b".latch" if behind.len() == 1 && m == Mistake::OneNameIs34 => Some(34),
        b".latch" if behind.len() < 2 => Some(4),
        b".latch" if latch_cell(behind, m).is_none() => Some(34),
        b".model" | b".inputs" | b".outputs" | b".latch" | b".names" | b".end" | b".exdc" => None,
        _ => (first[0] == b'.').then_some(5),
    }
}

// How many statements a mistake looks at for 34.
fn looked_at(found: &[Vec<Token>], m: Mistake) -> usize {
    let stops: &[&[u8]] = match m {
        Mistake::ToEnd => &[b".end"],
        Mistake::ToExdc => &[b".exdc"],
        Mistake::ToStop => &[b".end", b".exdc"],
        _ => &[],
    };
    found.iter().position(|s| stops.contains(&s[0])).unwrap_or(found.len())
}

// The refusals of the statements, in text order: those that are 4 or 5, and those that are 34.
fn refusals(text: &[u8], m: Mistake) -> Vec<u32> {
    let found = statements(text);
    let n = looked_at(&found, m);
    let each = found.iter().enumerate().filter_map(|(k, s)| refused(s, m).filter(|r| *r != 34 || k < n));
    each.collect()
}

// The first refusal of a text by statement: 4, 5 or 34.
pub fn first_refusal(text: &[u8], m: Mistake) -> Option<u32> {
    let all = refusals(text, m);
    let other = all.iter().find(|r| **r != 34).copied();
    match m {
        Mistake::BeforeOthers if all.contains(&34) => Some(34),
        Mistake::BehindOthers => other.or(all.first().copied()),
        _ => all.first().copied(),
    }
}

// The first that is 4 or 5, which is Quaigh's.
pub fn first_of_quaigh(text: &[u8]) -> Option<u32> {
    refusals(text, Mistake::Nothing).into_iter().find(|r| *r != 34)
}

// Whether a text has a statement that is 34.
pub fn has_34(text: &[u8]) -> bool {
    refusals(text, Mistake::Nothing).contains(&34)
}

// ---- the cells

// The start cells of the latches up to the first `.end` or `.exdc`, in text order.
fn latch_cells(text: &[u8], m: Mistake) -> Vec<u32> {
    let found = statements(text);
    let model = found.iter().take_while(|s| s[0] != b".end" && s[0] != b".exdc");
    model.filter(|s| s[0] == b".latch").map(|s| latch_cell(&s[1..], m).unwrap_or(0)).collect()
}

// The network read from a text, with the start values of its latches; `latches` has the gate of each of them, and the number that its
// gate had before the sort.
pub fn started(text: &[u8], mut p: Plain, latches: &[(usize, usize)], m: Mistake) -> Plain {
    let mut cells = latch_cells(text, m);
    assert!(cells.len() == latches.len(), "not as many latches as Quaigh finds");
    let (first, last) = (cells.first().copied(), cells.last().copied());
    match m {
        Mistake::FlopsDown => cells.reverse(),
        Mistake::FirstForAll => cells.fill(first.unwrap_or(0)),
        Mistake::LastForAll => cells.fill(last.unwrap_or(0)),
        Mistake::OnlyFirst => cells.iter_mut().skip(1).for_each(|c| *c = 0),
        _ => (),
    }
    for (cell, (gate, before)) in cells.into_iter().zip(latches) {
        p.gates[if m == Mistake::NotMoved { *before } else { *gate }].start = cell;
    }
    p
}
