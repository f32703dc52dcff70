// Networks to write and to read back, each with rows, and what must be answered: Quaigh's `write_blif` and its `read_blif` with document
// 01's numbers and document 02's start values, and the output rows that the network written gives for the rows from its start values.
use crate::compare::Case;
use crate::generate::{make, Numbers, Plain, Shape};
use crate::lent::{decoded, given as cells_given, lent, wanted as written, Lent, Wanted as Written, RECORD};
use crate::models::plain_flops;
use crate::nets::{i, net, x};
use crate::reads::{wanted as read, Wanted as Read};
use crate::rows::{flop, text};
use crate::simulate::{run, Mistake, MISTAKES};
use crate::variants::order;
use crate::writes::unsorted;
use crate::{layouts, variants, words, Signal};
use std::collections::BTreeMap;

type Rows = Vec<Vec<bool>>;

// A lent network, and the rows to run where it is read back, of a bit for each input.
#[derive(Clone)]
pub struct Trip {
    lent: Lent,
    rows: Rows,
}

// What must be answered.
enum Answer {
    NotWritten(u32),
    NotRead(u32),
    Back(usize, Plain),
}

fn wanted(l: &Lent) -> Answer {
    let text = match written(l) {
        Written::Refused(k) => return Answer::NotWritten(k),
        Written::Written(t) => t,
    };
    match read(text.as_bytes()) {
        Read::Refused(k) => Answer::NotRead(k),
        Read::Read(p) => Answer::Back(text.len(), p),
    }
}

// ---- by hand

// Every row of so many bits.
fn every(n: usize) -> Rows {
    (0..1 << n).map(|k: usize| (0..n).map(|j| k >> j & 1 == 1).collect()).collect()
}

// Each form with as many inputs as it can have, up to three, and with one of them inverted; every row.
pub fn forms() -> Vec<(Plain, Rows)> {
    let mut all = Vec::new();
    for form in 1..14 {
        let counts = match form {
            1 | 2 => 2..3,
            3..=6 => 3..4,
            13 => 1..2,
            _ => 0..4,
        };
        for n in counts {
            for turned in 0..n + 1 {
                let pins = (0..n).map(|k| i(k as u32) ^ (k + 1 == turned)).collect();
                all.push((net(3, vec![(form, pins)], vec![x(0), !x(0)]), every(3)));
            }
        }
    }
    all
}

// Networks with flip-flops: the witness of crate round_trip, shifts, counters, and one that feeds itself.
fn flops() -> Vec<(Plain, Rows)> {
    let bits = |s: &str| s.bytes().map(|b| vec![b == b'1']).collect::<Rows>();
    let witness = net(2, vec![flop(x(1)), (11, vec![i(0), x(0)]), (6, vec![x(0), i(1), x(1)])], vec![!x(2)]);
    let sums = [(2, vec![x(1), x(0)]), (4, vec![x(3), x(5), Signal::zero()]), (1, vec![x(0), x(1)])];
    let [low, high, carry] = sums;
    let counter = vec![flop(!x(0)), flop(x(2)), low, flop(x(4)), high, carry];
    vec![
        (witness, [every(2), every(2), every(2)].concat()),
        (net(1, vec![flop(i(0))], vec![x(0)]), bits("0110100")),
        (net(1, vec![flop(!i(0))], vec![x(0), !x(0)]), bits("0110100")),
        (net(1, vec![flop(i(0)), flop(x(0)), flop(!x(1))], vec![x(2), x(1), x(0), i(0)]), bits("110100011101")),
        (net(1, vec![flop(x(1)), flop(x(2)), flop(i(0))], vec![x(0), x(1), x(2)]), bits("110100011101")),
        (net(0, counter, vec![x(3), x(1), x(0)]), vec![vec![]; 17]),
        (net(0, vec![flop(!x(0))], vec![x(0), !x(0)]), vec![vec![]; 4]),
        (net(0, vec![flop(x(0))], vec![x(0)]), vec![vec![]; 3]),
        (net(0, vec![flop(Signal::one()), flop(Signal::zero())], vec![x(0), x(1)]), vec![vec![]; 3]),
        // no rows
        (net(1, vec![flop(i(0))], vec![x(0)]), vec![]),
    ]
}

// Flip-flops that start at one, whose values go through the text: alone, among others, behind gates that the sort moves.
fn starts() -> Vec<(Plain, Rows)> {
    let bits = |s: &str| s.bytes().map(|b| vec![b == b'1']).collect::<Rows>();
    let clocks = |n: usize| vec![vec![]; n];
    let all = |n: u32| (0..n).map(x).collect::<Vec<_>>();
    let shift = net(1, vec![flop(i(0)), flop(x(0)), flop(x(1))], all(3));
    let ring = net(0, vec![flop(x(3)), flop(x(0)), flop(x(1)), flop(x(2))], all(4));
    let among = vec![(1, vec![x(4), i(0)]), flop(x(0)), (13, vec![!x(1)]), flop(x(2)), (8, vec![x(3), i(0)]), flop(!x(5))];
    let among = net(1, among, vec![x(1), x(3), x(5), x(4), x(0)]);
    let many: Vec<usize> = (0..40).filter(|k| k % 7 < 3).collect();
    let long = net(1, (0..40).map(|k| flop(if k == 0 { i(0) } else { !x(k - 1) })).collect(), all(40));
    let mut nets = vec![
        (net(0, vec![flop(x(0))], vec![x(0)]).starting(&[0]), clocks(3)),
        (net(0, vec![flop(!x(0))], vec![x(0), !x(0)]).starting(&[0]), clocks(4)),
        (net(1, vec![flop(i(0))], vec![x(0)]).starting(&[0]), bits("0110")),
        (net(1, vec![flop(i(0))], vec![x(0)]).starting(&[0]), vec![]),
        (long.starting(&many), bits("01101001")),
    ];
    for ones in [&[0][..], &[1], &[2], &[0, 2], &[0, 1, 2]] {
        nets.push((shift.clone().starting(ones), bits("01000")));
        nets.push((ring.clone().starting(ones), clocks(5)));
    }
    for ones in [&[1][..], &[3], &[5], &[1, 5], &[3, 5]] {
        nets.push((among.clone().starting(ones), bits("010011")));
    }
    // an enable that is no constant is written, and not read
    nets.push((net(1, vec![(14, vec![i(0), i(0), Signal::zero()])], vec![x(0)]).starting(&[0]), bits("01")));
    nets
}

// Start values that are 20: of a flip-flop 2 and more, of another gate 1.
fn wrong_starts() -> Vec<Trip> {
    let p = net(1, vec![flop(i(0)), (13, vec![x(0)])], vec![x(1)]);
    let with = |g: usize, start: u32| {
        let mut l = lent(&p);
        l.gates[RECORD * g + 3] = start;
        Trip { lent: l, rows: vec![vec![true]] }
    };
    vec![with(0, 2), with(0, 3), with(0, u32::MAX), with(1, 1), with(1, u32::MAX)]
}

// Outputs of constants and inputs, repeated, or none; no gates; gates that are not sorted; loops and what is none.
fn shapes() -> Vec<(Plain, Rows)> {
    let (zero, one) = (Signal::zero(), Signal::one());
    let last = |n: u32| (0..n).map(|k| if k + 1 == n { (13, vec![i(0)]) } else { (13, vec![!x(k + 1)]) }).collect::<Vec<_>>();
    vec![
        (net(0, vec![], vec![]), vec![vec![]; 2]),
        (net(2, vec![], vec![i(1), !i(0), zero, one, i(1), i(0)]), every(2)),
        (net(2, vec![(1, vec![i(0), i(1)])], vec![]), every(2)),
        (net(2, vec![(1, vec![!x(1), i(0)]), (2, vec![i(0), i(1)])], vec![x(0), x(1)]), every(2)),
        (net(1, last(9), vec![x(0), !x(8)]), every(1)),
        (net(1, last(1000), vec![x(0), !x(999)]), every(1)),
        (
            net(
                2,
                vec![(1, vec![i(0), zero]), (3, vec![one, i(1), one]), (8, vec![zero, i(0)]), (11, vec![one, i(1)])],
                (0..4).map(x).collect(),
            ),
            every(2),
        ),
        (net(1, vec![(1, vec![x(0), i(0)])], vec![x(0)]), every(1)),
        (net(1, vec![(1, vec![x(1), i(0)]), (13, vec![x(0)])], vec![x(0)]), every(1)),
        (net(1, vec![(1, vec![x(1), i(0)]), flop(x(0))], vec![x(0)]), every(1)),
    ]
}

// The limits of a text that is read: gates with the two constants, pins, Xor by its lines; flip-flops that are not plain.
fn limits() -> Vec<(Plain, Rows)> {
    let row = |n: usize| (0..n).map(|k| k % 3 == 0).collect::<Vec<bool>>();
    let alone = |inputs, form, pins: Vec<Signal>| net(inputs, vec![(form, pins)], vec![x(0)]);
    let xor = |form, n: usize| (alone(n, form, (0..n as u32).map(i).collect()), vec![row(n), vec![true; n]]);
    let wide = |form, n: u32| (alone(3, form, (0..n).map(|k| i(k % 3)).collect()), every(3));
    let shift = |n: u32| (0..n).map(|k| flop(if k == 0 { i(0) } else { x(k - 1) })).collect();
    let chain = |n: u32| (net(1, shift(n), vec![x(0), x(2)]), [every(1), every(1), every(1)].concat());
    let turned = |n: usize| (net(1, vec![(13, vec![i(0)]); n], (0..n.min(256) as u32).map(|k| !x(k)).collect()), every(1));
    let full = (0..1022).map(|k| if k % 2 == 0 { (13, vec![i(k % 256)]) } else { flop(i(k % 256)) }).collect();
    let control = |e, r| (alone(2, 14, vec![i(0), e, r]), every(2));
    let mut all = vec![xor(11, 9), xor(12, 10), xor(11, 11), xor(12, 12), xor(11, 13), xor(12, 13)];
    all.extend([wide(8, 5000), wide(9, 8162), wide(9, 8163), chain(1022), chain(1023), turned(200), turned(820)]);
    all.push((net(256, full, (766..1022).map(x).collect()), vec![row(256), vec![true; 256], row(256)]));
    for c in [i(1), !i(1), Signal::zero(), Signal::one(), x(0)] {
        all.extend([control(c, Signal::zero()), control(Signal::one(), c)]);
    }
    all
}

// ---- from a seed

// Every eighth has a flip-flop's enable or reset as it was made; the others are plain.
fn plain(r: &mut Numbers, p: Plain) -> Plain {
    if r.below(8) > 0 {
        return plain_flops(p);
    }
    p
}

fn shape(r: &mut Numbers, k: usize) -> Shape {
    let loops = k % 17 == 16;
    let flops = r.below(5);
    match k % 400 {
        399 => Shape { inputs: 256, gates: 600, outputs: 256, wide: 3, loops: false, flops },
        n if n % 50 == 13 => Shape { inputs: 3, gates: 3, outputs: 2, wide: 14, loops, flops: 0 },
        n if n % 10 == 7 => Shape { inputs: r.below(14), gates: r.below(40), outputs: r.below(14), wide: 5, loops, flops },
        _ => Shape { inputs: r.below(5), gates: r.below(8), outputs: r.below(5), wide: 4, loops, flops },
    }
}

fn random(r: &mut Numbers, k: usize) -> Trip {
    let s = shape(r, k);
    let made = make(r, &s);
    let p = plain(r, made);
    let mut l = lent(&p);
    match r.below(20) {
        0 => l = layouts::changed(r, l),
        1 => l.room = r.below(400),
        _ => (),
    }
    let (n, inputs) = (r.below(8), l.counts[0].min(256));
    let rows = (0..n).map(|_| (0..inputs).map(|_| r.below(2) == 0).collect()).collect();
    Trip { lent: l, rows }
}

// The networks by hand and so many from a seed.
pub fn trips(seed: u64, count: usize) -> Vec<Trip> {
    let by_hand = [forms(), flops(), starts(), shapes(), limits()].into_iter().flatten();
    let mut all: Vec<Trip> = by_hand.map(|(p, rows)| Trip { lent: lent(&p), rows }).collect();
    all.extend(wrong_starts());
    let mut r = Numbers(seed);
    all.extend((0..count).map(|k| random(&mut r, k)));
    all
}

// ---- the lists

// The bytes that the program has room for, of rows and of output rows.
const MOST_ROWS: usize = 4096;

// What the program prints before the networks, to show that it tells what is wrong: a byte of the text or a cell of one of five slices that is
// not zero, with a network without cells in use; a byte behind output rows, or one after a refusal, that is not zero, and output rows longer
// than their slice.
fn told() -> String {
    let runs = "length=0\nnot zero\nlength=1\nmore than are lent\nrefused=20\nnot zero\n";
    "told\n".to_string() + &"length=0 counts 0 0 0 0\nnot zero\n".repeat(6) + runs
}

fn as_text(rows: &Rows) -> String {
    String::from_utf8(text(rows)).unwrap()
}

// What the program reads: a network to write, and its rows behind their length.
fn given(t: &Trip) -> String {
    let rows = as_text(&t.rows);
    assert!(rows.len() <= MOST_ROWS, "rows that the program has no room for");
    cells_given(&t.lent) + &words(&[rows.len() as u32]) + &rows
}

pub fn all_given(ts: &[Trip]) -> String {
    words(&[ts.len() as u32]) + &ts.iter().map(given).collect::<String>()
}

// The kind of an answer, its lines, and for a network read back whether it is not sorted, has a flip-flop, has one that starts at one, is
// without rows, and how many clocks and bits of outputs it has.
fn shown(t: &Trip) -> (String, String, [usize; 6]) {
    match wanted(&t.lent) {
        Answer::NotWritten(k) => (format!("not written {k}"), format!("not written={k}\n"), [0; 6]),
        Answer::NotRead(k) => (format!("not read {k}"), format!("not read={k}\n"), [0; 6]),
        Answer::Back(length, b) => {
            let p = decoded(&t.lent).unwrap();
            assert!(order(&p, variants::Mistake::Nothing).is_some(), "a loop is read back");
            let outs = run(&p, &t.rows, Mistake::Nothing);
            let one = p.gates.iter().any(|g| g.start == 1);
            let kinds = [unsorted(&p), !p.flops().is_empty(), one, t.rows.is_empty()].map(|k| k as usize);
            let counts = [kinds[0], kinds[1], kinds[2], kinds[3], outs.len(), outs.concat().len()];
            let head = format!("length={length} counts {} {} {} {}\n", b.inputs, b.gates.len(), b.pins(), b.outputs.len());
            let rows = as_text(&outs);
            assert!(rows.len() <= MOST_ROWS, "output rows that the program has no room for");
            ("read back".to_string(), head + &format!("length={}\n{rows}", rows.len()).repeat(2), counts)
        }
    }
}

// The answers, each behind the number of its network. Prints how often each occurs; of the networks read back how many are not sorted and
// how many have a flip-flop; and how many clocks and output bits are compared.
pub fn answers(ts: &[Trip]) -> Vec<String> {
    let mut seen: BTreeMap<String, usize> = BTreeMap::new();
    let mut back = [0; 6];
    let mut all = Vec::new();
    for (n, t) in ts.iter().enumerate() {
        let (kind, shown, counts) = shown(t);
        back.iter_mut().zip(counts).for_each(|(sum, c)| *sum += c);
        *seen.entry(kind).or_insert(0) += 1;
        all.push(format!("network {n}\n{shown}"));
    }
    eprintln!("{} networks; answers: {seen:?}", ts.len());
    eprintln!("of those read back, not sorted, with a flip-flop, with one that starts at one, without rows: {:?}", &back[..4]);
    eprintln!("clocks: {}; bits of outputs: {}", back[4], back[5]);
    all
}

// Stops unless the network read back gives the same outputs by the same simulation, and each mistake is told apart; prints the number of
// the first network that does, and its gate count.
pub fn told_apart(ts: &[Trip]) {
    let mut caught: Vec<Option<(usize, usize)>> = vec![None; MISTAKES.len()];
    for (n, t) in ts.iter().enumerate() {
        let Answer::Back(_, b) = wanted(&t.lent) else {
            continue;
        };
        let p = decoded(&t.lent).unwrap();
        let right = run(&p, &t.rows, Mistake::Nothing);
        assert!(run(&b, &t.rows, Mistake::Nothing) == right, "network {n} comes back with other outputs");
        for (m, first) in MISTAKES.iter().zip(&mut caught) {
            if first.is_none() && run(&p, &t.rows, *m) != right {
                *first = Some((n, p.gates.len()));
            }
        }
    }
    for (m, first) in MISTAKES.iter().zip(&caught) {
        let (n, gates) = first.unwrap_or_else(|| panic!("the list does not tell {m:?} apart"));
        eprintln!("{m:?} told apart by network {n}, of {gates} gates");
    }
}

impl Case for Trip {
    const WORD: &'static str = "network";
    const BEHIND: &'static str = "";
    const TWICE: bool = false;
    const ANSWERED: &'static str = "read back, or not written or read";
    const NOTES: &'static [&'static str] = &[];

    fn bytes(&self) -> usize {
        self.lent.bytes()
    }

    fn given(&self) -> Vec<u8> {
        given(self).into_bytes()
    }

    fn answer(&self) -> (Vec<u8>, Vec<bool>) {
        (shown(self).1.into_bytes(), Vec::new())
    }

    fn smaller(&self) -> Box<dyn Iterator<Item = Trip> + '_> {
        let rows = (0..self.rows.len()).map(|k| Trip { lent: self.lent.clone(), rows: [&self.rows[..k], &self.rows[k + 1..]].concat() });
        Box::new(rows)
    }

    fn shown(&self) -> String {
        given(self)
    }
}

// The stored list.
pub fn lists(seed: u64, count: usize) -> (Vec<u8>, Vec<u8>) {
    let ts = trips(seed, count);
    told_apart(&ts);
    (all_given(&ts).into_bytes(), (told() + &answers(&ts).concat()).into_bytes())
}
