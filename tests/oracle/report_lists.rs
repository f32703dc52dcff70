// The netlists and sheets to report on, by hand and from a seed, and their answers.
use crate::compare::{number, Case};
use crate::generate::{make, Numbers, Shape};
use crate::lent::text;
use crate::models::plain_flops;
use crate::reads::{by_hand as netlists_by_hand, wanted as read, Wanted};
use crate::report::{answered, mistakes, sheet, short, shown, Asked, Mistake, BESIDE, CELLS, ENDS, MOST_NETLIST, MOST_SHEET};
use crate::sheets::{by_hand as with_hands, Hand, CROSSED, ROOM, WIRE};
use crate::smaller_texts::{runs as parts, smaller};
use crate::{scale, tricky, words};

// ---- netlists from a seed

// A network as it is written: it is read again, mostly with an output.
fn written(r: &mut Numbers, k: usize) -> Vec<u8> {
    let flops = r.below(5);
    let s = match k % 400 {
        399 => Shape { inputs: 256, gates: r.below(60), outputs: 1 + r.below(256), wide: 6, loops: false, flops },
        n if n % 20 == 7 => Shape { inputs: r.below(30), gates: r.below(40), outputs: 1 + r.below(30), wide: 5, loops: false, flops },
        _ => Shape { inputs: r.below(5), gates: r.below(9), outputs: 1 + r.below(3), wide: 4, loops: false, flops },
    };
    text(&plain_flops(make(r, &s))).into_bytes()
}

// Half as written; the others of the kinds that reading is compared on, and those by hand.
fn netlist(r: &mut Numbers, k: usize, hands: &[Vec<u8>]) -> Vec<u8> {
    match k % 10 {
        0..=4 => written(r, k / 10),
        5 | 6 => tricky::text(r, k / 10),
        7 => scale::text(r, k / 10),
        8 => hands[r.below(hands.len())].clone(),
        _ => {
            let t = written(r, k / 10);
            tricky::damaged(r, t)
        }
    }
}

// ---- sheets from a seed

// Letters and digits, those at the ends of their ranges more often.
fn letters(r: &mut Numbers, n: usize) -> Vec<u8> {
    let all: Vec<u8> = (0..128u8).filter(|b| b.is_ascii_alphanumeric()).collect();
    (0..n).map(|_| if r.below(2) == 0 { ENDS[r.below(ENDS.len())] } else { all[r.below(all.len())] }).collect()
}

fn row(r: &mut Numbers, inputs: usize) -> Vec<u8> {
    (0..inputs).map(|_| b'0' + r.below(2) as u8).collect()
}

// A sheet before it is bytes: its head lines, its rows, and what stands behind them.
struct Parts {
    head: Vec<Vec<u8>>,
    rows: Vec<Vec<u8>>,
    behind: Vec<u8>,
}

fn sound(r: &mut Numbers, inputs: usize) -> Parts {
    let n = match r.below(40) {
        0 => [9, 10, 11, 99, 100, 127, 128][r.below(7)],
        1 => 1 + r.below(128),
        _ => 1 + r.below(8),
    };
    let long = r.below(4) == 0;
    let length = if long { 13 + r.below(4) } else { 1 + r.below(8) };
    let part = letters(r, length);
    let head = vec![[b"part=", &part[..]].concat(), format!("rows={n}").into_bytes()];
    Parts { head, rows: (0..n).map(|_| row(r, inputs)).collect(), behind: Vec::new() }
}

// Another value for the number of n rows.
fn other_number(r: &mut Numbers, n: usize) -> String {
    match r.below(12) {
        0 => format!("0{n}"),
        1 => format!("+{n}"),
        2 => format!(" {n}"),
        3 => format!("{n} "),
        4 => "0".to_string(),
        5 => (n + 1).to_string(),
        6 => (n - 1).to_string(),
        7 => ["128", "129", "256", "1000"][r.below(4)].to_string(),
        8 => String::new(),
        9 => (n as u128 + (1 << [8, 16, 32, 64][r.below(4)])).to_string(),
        10 => format!("{n}.0"),
        _ => format!("{n:x}h"),
    }
}

// Another part: none, too long, or with another byte.
fn other_part(r: &mut Numbers) -> Vec<u8> {
    match r.below(4) {
        0 => Vec::new(),
        1 => {
            let n = 15 + r.below(4);
            letters(r, n)
        }
        _ => {
            let n = 1 + r.below(16);
            let mut part = letters(r, n);
            let at = r.below(part.len());
            part[at] = BESIDE[r.below(BESIDE.len())];
            part
        }
    }
}

const KEYS: [&str; 12] = ["part", "part =", " part=", "Part=", "PART=", "part:", "rows", "rows =", " rows=", "Rows=", "ROWS=", "="];

// Another number of rows, with as many rows or not.
fn damaged_count(r: &mut Numbers, s: &mut Parts, inputs: usize) {
    let n = [0, 1, 127, 128, 129, 130, s.rows.len() + 1, s.rows.len() - 1][r.below(8)];
    s.head[1] = format!("rows={n}").into_bytes();
    if r.below(3) > 0 {
        while s.rows.len() < n {
            s.rows.push(row(r, inputs));
        }
        s.rows.truncate(n);
    }
}

// A row of another width or with another character: the first, the last or one between.
fn damaged_row(r: &mut Numbers, s: &mut Parts) {
    let n = s.rows.len();
    let at = [0, n - 1, n / 2, r.below(n)][r.below(4)];
    let row = &mut s.rows[at];
    match r.below(6) {
        0 => row.push(b'0'),
        1 => drop(row.pop()),
        2 => row.clear(),
        3 => row.push(b'\r'),
        _ if !row.is_empty() => {
            let k = r.below(row.len());
            row[k] = b"2/ \r\0x-\xb0\xb1:"[r.below(10)];
        }
        _ => row.push(b' '),
    }
}

// CR before each LF, or in one of the lines.
fn with_cr(r: &mut Numbers, s: &mut Parts) {
    let lines = s.head.len() + s.rows.len();
    let one = if r.below(3) == 0 { lines } else { r.below(lines) };
    for (k, line) in s.head.iter_mut().chain(&mut s.rows).enumerate() {
        if k == one || one == lines {
            line.push(b'\r');
        }
    }
}

// One change that is mostly, and not always, a fault.
fn damaged(r: &mut Numbers, s: &mut Parts, inputs: usize) {
    if s.head.len() < 2 || s.rows.is_empty() {
        return;
    }
    match r.below(14) {
        0 => s.head[1] = [b"rows=", other_number(r, s.rows.len()).as_bytes()].concat(),
        1 => s.head[0] = [b"part=", &other_part(r)[..]].concat(),
        2 => {
            let line = r.below(2);
            let value = s.head[line].get(5..).unwrap_or_default().to_vec();
            s.head[line] = [KEYS[r.below(KEYS.len())].as_bytes(), &value].concat();
        }
        3 => damaged_count(r, s, inputs),
        4..=7 => damaged_row(r, s),
        8 => with_cr(r, s),
        9 => s.behind = [&b"\n"[..], b"\0", b" ", b"1", b"1\n", b"\r\n"][r.below(6)].to_vec(),
        10 => drop(s.head.remove(r.below(2))),
        11 => s.head.swap(0, 1),
        12 => {
            let line = s.head[r.below(2)].clone();
            s.head.insert(r.below(3), line);
        }
        _ => drop(s.rows.remove(r.below(s.rows.len()))),
    }
}

// A byte changed, left out or put in, or the last one gone.
fn damaged_bytes(r: &mut Numbers, s: &mut Vec<u8>) {
    let odd = *b"01\n\r 2/=:@[`{\0\x80prA9";
    let at = r.below(s.len());
    match r.below(4) {
        0 => s[at] = odd[r.below(odd.len())],
        1 => drop(s.remove(at)),
        2 => s.insert(at, odd[r.below(odd.len())]),
        _ => drop(s.pop()),
    }
}

// The sheet about as long as it may be: its last row goes on.
fn near_limit(r: &mut Numbers, s: &mut Vec<u8>) {
    let n = MOST_SHEET - 1 + r.below(3);
    s.pop();
    s.resize(n - 1, b'1');
    s.push(b'\n');
}

// Half are sound; the others have one change or two, or another byte, and one in 500 is about as long as it may be.
fn random_sheet(r: &mut Numbers, k: usize, inputs: usize) -> Vec<u8> {
    let mut s = sound(r, inputs);
    let way = r.below(20);
    let changes = if way < 10 { 0 } else { 1 + (way < 13) as usize };
    for _ in 0..if way == 19 { 0 } else { changes } {
        damaged(r, &mut s, inputs);
    }
    let lines: Vec<Vec<u8>> = s.head.iter().chain(&s.rows).map(|l| [l, &b"\n"[..]].concat()).collect();
    let mut all = [lines.concat(), s.behind].concat();
    if way == 19 {
        damaged_bytes(r, &mut all);
    }
    if k % 500 == 499 {
        near_limit(r, &mut all);
    }
    all
}

// ---- from a seed

// A netlist with a sheet for its inputs; now and then with too few cells or a short output slice.
fn random(r: &mut Numbers, k: usize, hands: &[Vec<u8>]) -> Asked {
    let netlist = netlist(r, k, hands);
    let inputs = match read(&netlist) {
        Wanted::Read(p) => p.inputs,
        Wanted::Refused(_) => r.below(4),
    };
    let sheet = random_sheet(r, k, inputs);
    let mut a = Asked { netlist, sheet, room: ROOM, cells: CELLS };
    if r.below(16) == 0 {
        a.room = r.below(64);
    }
    if r.below(24) == 0 {
        let place = r.below(5);
        a.cells[place] = [CELLS[place] - 1, CELLS[place] + 1, r.below(CELLS[place])][r.below(3)];
    }
    a
}

// The netlists by hand that are short; those at the limits of the sizes only where they are asked for.
fn seeded(seed: u64, longest: usize) -> impl Iterator<Item = Asked> {
    let mut r = Numbers(seed);
    let hands: Vec<Vec<u8>> = netlists_by_hand().into_iter().filter(|t| t.len() <= longest).collect();
    (0..).map(move |k| random(&mut r, k, &hands))
}

// ---- all of a kind

// Every text of up to three of these pieces as a sheet, and behind a head.
const PIECES: [&str; 10] = ["part=", "rows=", "A", "1", "2", "0", "\n", "\r", " ", "1\n"];

fn short_sheets() -> impl Iterator<Item = Asked> {
    let mut texts: Vec<String> = vec![String::new()];
    let mut from = 0;
    for _ in 0..3 {
        let to = texts.len();
        for k in from..to {
            texts.extend(PIECES.map(|p| texts[k].clone() + p));
        }
        from = to;
    }
    let fronts = ["", "part=A\n", "part=A\nrows=1\n", "part=A\nrows=2\n", "part=A\nrows=1", "part=A"];
    let all = fronts.into_iter().flat_map(move |f| texts.clone().into_iter().map(move |t| f.to_string() + &t));
    all.map(|s| crate::sheets::asked(WIRE.as_bytes(), s.as_bytes()))
}

// Every netlist by hand with a sheet for its inputs, and with one whose row has another character.
fn every_netlist() -> impl Iterator<Item = Asked> {
    netlists_by_hand().into_iter().flat_map(|t| {
        let inputs = if let Wanted::Read(p) = read(&t) { p.inputs } else { 1 };
        let rows = ["0".repeat(inputs), "1".repeat(inputs), "01".repeat(128)[..inputs].to_string()];
        let right = crate::sheets::sheet("A1", &[&rows[0], &rows[1], &rows[2], &rows[0]]);
        let wrong = crate::sheets::sheet("A1", &[&rows[0], "x"]);
        [right, wrong].map(|s| crate::sheets::asked(&t, &s))
    })
}

// ---- the lists

// Whether a report is as by hand.
fn as_by_hand(a: &Asked, hand: &Hand, text: &[u8]) -> bool {
    let wanted = match hand {
        Hand::Compared => return text.starts_with(b"part="),
        Hand::Refused(k) => format!("refused={k}\n").into_bytes(),
        Hand::Counts(ones, zeros) => {
            let part = a.sheet.split_inclusive(|b| *b == b'\n').next().unwrap();
            [part, format!("commands={}\naccepted={ones}\nrejected={zeros}\n", ones + zeros).as_bytes()].concat()
        }
    };
    text == wanted
}

// The cases by hand, whose answers must be those on paper.
fn checked(cases: Vec<(Asked, Hand)>) -> Vec<Asked> {
    let mut all = Vec::new();
    for (a, hand) in cases {
        let whole = answered(&Asked { room: ROOM, ..a.clone() }, &read(&a.netlist), Mistake::Nothing);
        let text = &whole.out[..whole.length];
        assert!(as_by_hand(&a, &hand, text), "not as by hand: {}\n{}", a.shown(), String::from_utf8_lossy(text));
        all.push(a);
    }
    all
}

// So many reports, or all by hand and the smallest: by hand, every netlist by hand, every short sheet, and the others from the seed.
pub fn reports(seed: u64, count: usize) -> impl Iterator<Item = Asked> {
    let mut first = checked(with_hands());
    first.extend(every_netlist().chain(short_sheets()));
    let n = count.max(first.len());
    first.into_iter().chain(seeded(seed, MOST_NETLIST + 1)).take(n)
}

// ---- which refusals apply

// The refusals, in their order but for 4, 5 and 34, of which the first statement decides, and those beside which each is counted.
const ORDER: [u32; 18] = [32, 1, 2, 3, 4, 5, 34, 6, 7, 8, 9, 10, 11, 12, 13, 14, 33, 31];
const BESIDES: [u32; 4] = [32, 1, 33, 31];

// The refusals that would come if those before them did not, as far as that is sure: 33 of a netlist that is not read where it speaks of
// no outputs, 31 where a row would be wrong for every netlist.
fn applying(a: &Asked, w: &Wanted) -> Vec<u32> {
    let lines: Vec<&[u8]> = a.sheet.split_inclusive(|b| *b == b'\n').skip(2).collect();
    let other = lines.iter().any(|l| l.iter().any(|b| !b"01\n".contains(b)));
    let (output, row) = match w {
        Wanted::Read(p) => (p.outputs.is_empty(), other || lines.iter().any(|l| l.len() != p.inputs + 1)),
        Wanted::Refused(_) => (!a.netlist.windows(8).any(|t| t == b".outputs"), other),
    };
    let reader = if let Wanted::Refused(k) = w { *k } else { 0 };
    let holds = |k: &u32| match k {
        32 => sheet(&a.sheet, Mistake::Nothing).is_none(),
        1 => short(a),
        33 => output,
        31 => row,
        k => *k == reader,
    };
    ORDER.into_iter().filter(holds).collect()
}

// What is noted of a report: of each refusal whether it applies alone, and beside which others it does; and what a report without one has.
fn noted(a: &Asked, w: &Wanted, text: &[u8]) -> Vec<bool> {
    let all = applying(a, w);
    let alone = |k: u32| all == [k];
    let both = |k: u32, j: u32| k != j && all.contains(&k) && all.contains(&j);
    let mut notes: Vec<bool> = ORDER.iter().flat_map(|k| [vec![alone(*k)], BESIDES.map(|j| both(*k, j)).to_vec()].concat()).collect();
    let whole = all.is_empty() && !text.ends_with(b"\ncut\n");
    let line = |l: &[u8]| text.split(|b| *b == b'\n').any(|t| t == l);
    let flop = if let Wanted::Read(p) = w { !p.flops().is_empty() } else { false };
    let one = if let Wanted::Read(p) = w { p.gates.iter().any(|g| g.start == 1) } else { false };
    notes.extend([whole && flop, whole && one, whole && line(b"accepted=0"), whole && line(b"rejected=0"), whole && line(b"commands=128")]);
    notes.push(text.ends_with(b"\ncut\n"));
    notes
}

const OTHERS: [&str; 6] = [
    "reported, with a flip-flop",
    "reported, with a flip-flop that starts at one",
    "reported, none accepted",
    "reported, none rejected",
    "reported, 128 commands",
    "cut where the slice ends",
];

// A line for each refusal, and the others.
fn table(sums: &[usize]) -> Vec<String> {
    let mut all = vec!["refusal    alone  with 32   with 1  with 33  with 31".to_string()];
    for (k, row) in ORDER.iter().zip(sums.chunks(1 + BESIDES.len())) {
        all.push(format!("{k:7}") + &row.iter().map(|n| format!("{n:9}")).collect::<String>());
    }
    let rest = &sums[ORDER.len() * (1 + BESIDES.len())..];
    all.extend(OTHERS.iter().zip(rest).map(|(what, n)| format!("{what}: {n}")));
    all
}

// Stops unless every refusal applies alone, and every two that can apply together do.
fn expect_every(sums: &[usize]) {
    for (k, row) in ORDER.iter().zip(sums.chunks(1 + BESIDES.len())) {
        assert!(row[0] > 0, "{k} does not apply alone");
        for (j, n) in BESIDES.iter().zip(&row[1..]) {
            assert!(k == j || *n > 0, "{k} and {j} do not apply together");
        }
    }
}

impl Case for Asked {
    const WORD: &'static str = "report";
    const BEHIND: &'static str = "";
    const TWICE: bool = false;
    const ANSWERED: &'static str = "reported";
    const NOTES: &'static [&'static str] = &[""; ORDER.len() * (1 + BESIDES.len()) + OTHERS.len()];

    fn bytes(&self) -> usize {
        self.netlist.len() + self.sheet.len() + 72
    }

    fn given(&self) -> Vec<u8> {
        let [g, p, o, wg, wp] = self.cells;
        let lengths = [self.room, g, p, o, wg, wp, self.netlist.len(), self.sheet.len()];
        let most = [ROOM, CELLS[0] + 1, CELLS[1] + 1, CELLS[2] + 1, CELLS[3] + 1, CELLS[4] + 1, MOST_NETLIST + 2, MOST_SHEET + 2];
        assert!(lengths.iter().zip(most).all(|(n, m)| *n <= m), "a report that the program has no room for");
        [words(&lengths.map(|n| n as u32)).as_bytes(), &self.netlist, &self.sheet].concat()
    }

    fn answer(&self) -> (Vec<u8>, Vec<bool>) {
        let w = read(&self.netlist);
        let text = shown(&answered(self, &w, Mistake::Nothing));
        let notes = noted(self, &w, &text);
        (text, notes)
    }

    // Of a report that is cut, the number of the whole one.
    fn number(&self, answer: &[u8]) -> u32 {
        if answer.ends_with(b"\ncut\n") {
            let whole = Asked { room: ROOM, ..self.clone() };
            return whole.number(&whole.answer().0);
        }
        let behind = answer.iter().position(|b| *b == b'\n').unwrap() + 1;
        number(&answer[behind..])
    }

    fn notes(sums: &[usize]) -> Vec<String> {
        table(sums)
    }

    fn smaller(&self) -> Box<dyn Iterator<Item = Asked> + '_> {
        let plain =
            [(ROOM, CELLS), (ROOM, self.cells), (self.room, CELLS)].into_iter().map(|(room, cells)| Asked { room, cells, ..self.clone() });
        let lent = plain.filter(|a| (a.room, a.cells) != (self.room, self.cells));
        let netlists = ["", WIRE, CROSSED].into_iter().filter(|t| t.len() < self.netlist.len()).map(|t| t.as_bytes().to_vec());
        let netlists = netlists.chain(smaller(&self.netlist)).map(|netlist| Asked { netlist, ..self.clone() });
        let sheets = fewer_rows(&self.sheet).chain(smaller(&self.sheet)).map(|sheet| Asked { sheet, ..self.clone() });
        Box::new(lent.chain(fewer_columns(self)).chain(sheets).chain(netlists))
    }

    fn shown(&self) -> String {
        let lent = format!("room for {} bytes, cells {:?}", self.room, self.cells);
        format!("netlist \"{}\"\nsheet \"{}\"\n{lent}", self.netlist.escape_ascii(), self.sheet.escape_ascii())
    }
}

// The sheet with some of its rows left out and the number of those that stay.
fn fewer_rows(bytes: &[u8]) -> Box<dyn Iterator<Item = Vec<u8>> + '_> {
    let lines: Vec<&[u8]> = bytes.split_inclusive(|b| *b == b'\n').collect();
    if lines.len() < 4 || sheet(bytes, Mistake::Nothing).is_none() {
        return Box::new(std::iter::empty());
    }
    let n = lines.len() - 2;
    let without = move |(a, e): (usize, usize)| {
        let head = [lines[0], format!("rows={}\n", n - (e - a)).as_bytes()].concat();
        [head, lines[2..2 + a].concat(), lines[2 + e..].concat()].concat()
    };
    Box::new(parts(n).skip(1).map(without))
}

// The netlist without one of the names of its first line of inputs, and the rows without its column.
fn fewer_columns(a: &Asked) -> impl Iterator<Item = Asked> + '_ {
    let text = String::from_utf8(a.netlist.clone()).unwrap_or_default();
    let line = text.lines().find(|l| l.starts_with(".inputs ")).unwrap_or("").to_string();
    let names: Vec<String> = line.split(' ').map(|t| t.to_string()).collect();
    (1..names.len()).map(move |k| {
        let kept = [&names[..k], &names[k + 1..]].concat().join(" ");
        let cut = |(n, l): (usize, &[u8])| if n > 1 && l.len() > k { [&l[..k - 1], &l[k..]].concat() } else { l.to_vec() };
        let rows = a.sheet.split_inclusive(|b| *b == b'\n').enumerate().flat_map(cut).collect();
        Asked { netlist: text.replacen(&line, &kept, 1).into_bytes(), sheet: rows, ..a.clone() }
    })
}

// What the program prints before the reports, to show that it tells what is wrong: a byte behind a report that is not zero, a report that is
// longer than the slice, a cell that is not zero.
const TOLD: &[u8] = b"told\nlength=3\nok\nnot zero\nlength=5\nok\n\x01\ncut\nnot zero\n";

// The longest netlist of those by hand that the stored list has from the seed.
const LONGEST: usize = 2000;

// The stored list: what reports are asked for, and the answers, each behind its number. Prints how often each refusal applies.
pub fn lists(seed: u64, count: usize) -> (Vec<u8>, Vec<u8>) {
    let all: Vec<Asked> = checked(with_hands()).into_iter().chain(seeded(seed, LONGEST).take(count)).collect();
    told_apart(&all);
    let mut given = words(&[all.len() as u32]).into_bytes();
    let mut wanted = TOLD.to_vec();
    let mut sums = vec![0; Asked::NOTES.len()];
    for (n, a) in all.iter().enumerate() {
        let (w, notes) = a.answer();
        sums.iter_mut().zip(notes).for_each(|(sum, yes)| *sum += yes as usize);
        given.extend(Case::given(a));
        wanted.extend(format!("report {n}\n").into_bytes());
        wanted.extend(w);
    }
    eprintln!("{} reports", all.len());
    table(&sums).iter().for_each(|l| eprintln!("{l}"));
    expect_every(&sums);
    (given, wanted)
}

// Stops unless each mistake is told apart; prints the number of the first report that does, and how many mistakes there are.
fn told_apart(all: &[Asked]) {
    let read: Vec<Wanted> = all.iter().map(|a| read(&a.netlist)).collect();
    let text = |k: usize, m: Mistake| shown(&answered(&all[k], &read[k], m));
    let right: Vec<Vec<u8>> = (0..all.len()).map(|k| text(k, Mistake::Nothing)).collect();
    let every = mistakes();
    for m in &every {
        let first = (0..all.len()).find(|k| text(*k, *m) != right[*k]);
        let n = first.unwrap_or_else(|| panic!("the list does not tell {m:?} apart"));
        eprintln!("{m:?} told apart by report {n}");
    }
    eprintln!("{} mistakes told apart", every.len());
}
