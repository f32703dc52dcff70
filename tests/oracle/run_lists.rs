// The networks to run, by hand and from a seed, and their answers.
use crate::compare::{number, Case};
use crate::generate::{make, Node, Numbers, Plain, Shape};
use crate::lent::{decoded, given as cells_given, lent, Lent, MOST};
use crate::models::plain_flops;
use crate::nets::x;
use crate::rows::{by_hand as with_hands, lowered, one_byte, text, Hand};
use crate::runs::{mistakes, ran, shown, Mistake, Run};
use crate::smaller_texts::runs as parts;
use crate::{layouts, nets, smaller_nets, words, Signal};
use std::collections::BTreeMap;

// ---- from a seed

fn shape(r: &mut Numbers, k: usize) -> Shape {
    let (loops, flops) = (true, r.below(5));
    match k % 1000 {
        999 => Shape { inputs: r.below(257), gates: r.below(1025), outputs: r.below(257), wide: 6, loops, flops },
        n if n % 20 == 13 => Shape { inputs: 1 + r.below(30), gates: r.below(5), outputs: r.below(5), wide: 40, loops, flops },
        n if n % 20 == 7 => Shape { inputs: r.below(14), gates: r.below(40), outputs: r.below(14), wide: 9, loops, flops },
        _ => Shape { inputs: r.below(5), gates: r.below(8), outputs: r.below(5), wide: 8, loops, flops },
    }
}

// A gate input that is not lower, in a combinational gate; or another enable or reset.
fn damaged_gate(r: &mut Numbers, mut p: Plain) -> Plain {
    if p.gates.is_empty() {
        return p;
    }
    let (n, g) = (p.gates.len(), r.below(p.gates.len()));
    let other = [Signal::zero(), Signal::one(), x(r.below(n) as u32), !x(g as u32)][r.below(4)];
    let node = &mut p.gates[g];
    if node.is_flop() {
        node.pins[1 + r.below(2)] = other;
    } else if !node.pins.is_empty() {
        let k = r.below(node.pins.len());
        node.pins[k] = x((g + r.below(n - g)) as u32) ^ (r.below(2) == 0);
    }
    p
}

// Another byte, a byte less or more, the last byte gone, or CR, a blank or LF somewhere.
fn damaged_rows(r: &mut Numbers, mut rows: Vec<u8>) -> Vec<u8> {
    let odd = *b"01\n\r 2/\0\xb0\xb1";
    let at = r.below(rows.len() + 1);
    match r.below(6) {
        0 if at < rows.len() => rows[at] = odd[r.below(odd.len())],
        1 if at < rows.len() => drop(rows.remove(at)),
        2 => rows.insert(at, odd[r.below(odd.len())]),
        3 => drop(rows.pop()),
        4 => rows.extend(b"\n"),
        _ => {
            let with_cr = |l: &[u8]| [l, b"\r\n"].concat();
            rows = rows.split_inclusive(|b| *b == b'\n').flat_map(|l| l.strip_suffix(b"\n").map_or(l.to_vec(), with_cr)).collect();
        }
    }
    rows
}

// A sorted network with rows; every third is damaged in one way or two: its gates, its cells, its rows or the length of its output slice.
fn random(r: &mut Numbers, k: usize) -> Run {
    let s = shape(r, k);
    let mut p = lowered(plain_flops(make(r, &s)));
    let ways = if r.below(3) > 0 { [9, 9] } else { [r.below(4), r.below(8)] };
    if ways.contains(&0) {
        p = damaged_gate(r, p);
    }
    let n = if r.below(10) == 0 { r.below(40) } else { r.below(7) };
    let bits: Vec<Vec<bool>> = (0..n).map(|_| (0..p.inputs).map(|_| r.below(2) == 0).collect()).collect();
    let needed = n * (p.outputs.len() + 1);
    let mut run = Run { lent: Lent { room: (needed + r.below(3)).min(MOST[0]), ..lent(&p) }, rows: text(&bits) };
    if ways.contains(&1) {
        run.lent = layouts::changed(r, run.lent);
    }
    if ways.contains(&2) {
        run.rows = damaged_rows(r, run.rows);
    }
    if ways.contains(&3) {
        run.lent.room = [needed.saturating_sub(1), r.below(needed + 1), run.rows.len(), needed + 40][r.below(4)].min(MOST[0]);
    }
    run
}

fn seeded(seed: u64) -> impl Iterator<Item = Run> {
    let mut r = Numbers(seed);
    (0..).map(move |k| random(&mut r, k))
}

// ---- all of a kind

// Every network of one gate over one input, for three rows.
fn singles() -> impl Iterator<Item = Run> {
    nets::singles().into_iter().map(|l| Run { lent: Lent { room: 7, ..l }, rows: b"0\n1\n0\n".to_vec() })
}

// Every text of up to four of these bytes as the rows of networks with no input, one and two.
fn short_rows() -> impl Iterator<Item = Run> {
    let bytes = b"01\n\r 2";
    let mut texts: Vec<Vec<u8>> = vec![vec![]];
    let mut from = 0;
    for _ in 0..4 {
        let to = texts.len();
        for k in from..to {
            texts.extend(bytes.map(|b| [&texts[k][..], &[b]].concat()));
        }
        from = to;
    }
    let wires = |n: usize| lent(&nets::net(n, vec![], (0..n as u32).map(nets::i).collect()));
    (0..3).flat_map(move |n| texts.clone().into_iter().map(move |rows| Run { lent: Lent { room: 9, ..wires(n) }, rows }))
}

// ---- the lists

// The runs by hand, whose answers must be those on paper.
fn checked(cases: Vec<(Run, Hand)>) -> Vec<Run> {
    let mut all = Vec::new();
    for (run, hand) in cases {
        let a = ran(&run, Mistake::Nothing);
        let right = match hand {
            Hand::Rows(t) => a.result == Ok(t.len()) && a.out.starts_with(t.as_bytes()),
            Hand::Refused(k) => a.result == Err(k),
            Hand::Compared => a.result.is_ok(),
            Hand::Fits(fits) => fits == (a.result != Err(20)),
        };
        assert!(right, "not as by hand: {}\n{}", run.shown(), String::from_utf8_lossy(&shown(&a)));
        all.push(run);
    }
    all
}

// So many runs, or all by hand and the smallest: by hand, every byte in a row, every network of a single gate, every short text, and the
// others from the seed.
pub fn runs(seed: u64, count: usize) -> impl Iterator<Item = Run> {
    let mut first = checked(with_hands());
    first.extend(checked(one_byte(0..=255)));
    first.extend(singles().chain(short_rows()));
    let n = count.max(first.len());
    first.into_iter().chain(seeded(seed)).take(n)
}

impl Case for Run {
    const WORD: &'static str = "network";
    const BEHIND: &'static str = "";
    const TWICE: bool = false;
    const ANSWERED: &'static str = "run";
    const NOTES: &'static [&'static str] = &[
        "run, with a flip-flop",
        "run, with a flip-flop that starts at one",
        "run, with a gate of over six inputs",
        "run, without rows",
        "run, without a byte left over",
    ];

    fn bytes(&self) -> usize {
        self.lent.bytes() + self.rows.len() + 9
    }

    fn given(&self) -> Vec<u8> {
        assert!(self.rows.len() <= MOST[0], "rows that the program has no room for");
        [cells_given(&self.lent).as_bytes(), words(&[self.rows.len() as u32]).as_bytes(), &self.rows].concat()
    }

    fn answer(&self) -> (Vec<u8>, Vec<bool>) {
        let a = ran(self, Mistake::Nothing);
        let Ok(n) = a.result else {
            return (shown(&a), vec![false; Run::NOTES.len()]);
        };
        let p = decoded(&self.lent).unwrap();
        let some = |f: &dyn Fn(&Node) -> bool| p.gates.iter().any(f);
        let full = n > 0 && n == self.lent.room;
        (shown(&a), vec![some(&|g| g.is_flop()), some(&|g| g.start == 1), some(&|g| g.pins.len() > 6), n == 0, full])
    }

    fn smaller(&self) -> Box<dyn Iterator<Item = Run> + '_> {
        let lines: Vec<&[u8]> = self.rows.split_inclusive(|b| *b == b'\n').collect();
        let line = self.lent.counts[3].min(256) as usize + 1;
        let fewer = move |(a, e): (usize, usize)| {
            let rows = [lines[..a].concat(), lines[e..].concat()].concat();
            let room = self.lent.room.saturating_sub((e - a) * line);
            [self.lent.room, room].map(|room| Run { lent: Lent { room, ..self.lent.clone() }, rows: rows.clone() })
        };
        let n = self.rows.split_inclusive(|b| *b == b'\n').count();
        let networks = smaller_nets::smaller(&self.lent).map(|l| Run { rows: cut_to(&self.rows, l.counts[0]), lent: l });
        Box::new(parts(n).flat_map(fewer).chain(networks))
    }

    fn shown(&self) -> String {
        format!("{}\nrows \"{}\"", smaller_nets::shown(&self.lent), self.rows.escape_ascii())
    }
}

// The rows with at most so many characters before each LF.
fn cut_to(rows: &[u8], inputs: u64) -> Vec<u8> {
    let n = inputs.min(256) as usize;
    let cut = |l: &[u8]| [&l[..n.min(l.len())], b"\n"].concat();
    rows.split_inclusive(|b| *b == b'\n').flat_map(|l| l.strip_suffix(b"\n").map_or(l.to_vec(), cut)).collect()
}

// What the program prints before the networks, to show that it tells what is wrong: a byte that is not zero, behind output rows without bytes
// and after a refusal; output rows longer than the slice.
const TOLD: &str = "told\nlength=0\nnot zero\nrefused=20\nnot zero\nlength=32801\nmore than are lent\nrefused=20\n";

// The stored list: the networks with rows, and the answers, each behind the number of its network. Prints how often each answer occurs.
pub fn lists(seed: u64, count: usize) -> (Vec<u8>, Vec<u8>) {
    let all: Vec<Run> = checked(with_hands()).into_iter().chain(seeded(seed).take(count)).collect();
    told_apart(&all);
    let mut given = words(&[all.len() as u32]).into_bytes();
    let mut wanted = TOLD.as_bytes().to_vec();
    let mut seen: BTreeMap<u32, usize> = BTreeMap::new();
    let mut notes = [0; Run::NOTES.len()];
    for (n, run) in all.iter().enumerate() {
        let (w, held) = run.answer();
        *seen.entry(number(&w)).or_insert(0) += 1;
        notes.iter_mut().zip(held).for_each(|(sum, yes)| *sum += yes as usize);
        given.extend(Case::given(run));
        wanted.extend(format!("network {n}\n").into_bytes());
        wanted.extend(w);
    }
    eprintln!("{} networks; answers (0 for run): {seen:?}", all.len());
    for (what, n) in Run::NOTES.iter().zip(notes) {
        eprintln!("{what}: {n}");
    }
    (given, wanted)
}

// Stops unless each mistake is told apart; prints the number of the first network that does, but for those of one form or pin, and how many
// mistakes there are.
fn told_apart(all: &[Run]) {
    let right: Vec<Vec<u8>> = all.iter().map(|r| shown(&ran(r, Mistake::Nothing))).collect();
    let every = mistakes();
    for m in &every {
        let first = all.iter().zip(&right).position(|(r, right)| shown(&ran(r, *m)) != *right);
        let n = first.unwrap_or_else(|| panic!("the list does not tell {m:?} apart"));
        if !matches!(m, Mistake::FormFor(..) | Mistake::PinLost(..)) {
            eprintln!("{m:?} told apart by network {n}");
        }
    }
    eprintln!("{} mistakes told apart", every.len());
}
