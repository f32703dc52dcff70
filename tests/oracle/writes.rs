// The networks to write, and their answers.
use crate::compare::{number, Case};
use crate::generate::{make, Numbers, Plain, Shape};
use crate::lent::{decoded, decoded_with, given, lent, quaigh, shown, text, wanted, Lent, Wanted, LAX, MAX_TEXT};
use crate::nets::Hand;
use crate::plain_writer::{written, Mistake, MISTAKES};
use crate::variants::order;
use crate::{layouts, nets, smaller_nets, variants, words, Signal};
use std::collections::BTreeMap;

// A plain flip-flop, one with an enable, one with a reset, or as it is.
fn some_plain(r: &mut Numbers, mut p: Plain) -> Plain {
    for g in p.gates.iter_mut().filter(|g| g.is_flop()) {
        let kind = r.below(4);
        if kind < 2 {
            g.pins[1] = Signal::one();
        }
        if kind == 0 || kind == 2 {
            g.pins[2] = Signal::zero();
        }
    }
    p
}

fn shape(r: &mut Numbers, k: usize) -> Shape {
    let loops = k % 5 == 4;
    let flops = r.below(5);
    match k % 1000 {
        250 => Shape { inputs: r.below(257), gates: r.below(1025), outputs: r.below(257), wide: 3, loops, flops },
        n if n % 20 == 13 => Shape { inputs: 3, gates: 3, outputs: 2, wide: 14, loops, flops: 0 },
        n if n % 20 == 7 => Shape { inputs: r.below(14), gates: r.below(40), outputs: r.below(14), wide: 5, loops, flops },
        _ => Shape { inputs: r.below(4), gates: r.below(6), outputs: r.below(4), wide: 4, loops, flops },
    }
}

// A network from a seed: every third has cells to spare, every fourth something changed, every fifth a short output slice.
fn random(r: &mut Numbers, k: usize) -> Lent {
    let s = shape(r, k);
    let made = make(r, &s);
    let p = some_plain(r, made);
    let mut l = lent(&p);
    let narrow = p.gates.iter().all(|g| g.form < 11 || g.pins.len() < 13);
    let n = if narrow { text(&p).len() } else { 200 };
    if r.below(5) == 0 {
        l.room = [n, n.saturating_sub(1), r.below(n), n + 1, MAX_TEXT][r.below(5)].min(MAX_TEXT + 1);
    }
    if r.below(3) == 0 && p.gates.len() < 1000 {
        let cells = [&mut l.gates, &mut l.pins, &mut l.outputs];
        cells[r.below(3)].push(r.next() as u32);
    }
    if r.below(4) == 0 { layouts::changed(r, l) } else { l }
}

fn kind(w: &Wanted) -> u32 {
    match w {
        Wanted::Written(_) => 0,
        Wanted::Refused(k) => *k,
    }
}

// The networks by hand, whose answers must be those on paper.
pub fn by_hand() -> Vec<Lent> {
    let mut all = Vec::new();
    for (l, h) in nets::by_hand() {
        let got = shown(&wanted(&l));
        let right = match h {
            Hand::Written(t) => got == shown(&Wanted::Written(t)),
            Hand::Refused(k) => got == shown(&Wanted::Refused(k)),
            Hand::Compared => got.starts_with("length="),
        };
        assert!(right, "not as by hand: counts {:?}\n{got}", l.counts);
        all.push(l);
    }
    for (fits, l) in layouts::by_hand() {
        let k = kind(&wanted(&l));
        assert!(fits == (k != 20), "not as by hand: {k}\n{}", given(&l));
        all.push(l);
    }
    all
}

pub fn seeded(seed: u64) -> impl Iterator<Item = Lent> {
    let mut r = Numbers(seed);
    (0..).map(move |k| random(&mut r, k))
}

// Whether a combinational gate has an input that is no lower gate.
pub fn unsorted(p: &Plain) -> bool {
    let higher = |g: usize, s: &Signal| s.is_var() && s.var() as usize >= g;
    p.gates.iter().enumerate().any(|(g, node)| !node.is_flop() && node.pins.iter().any(|s| higher(g, s)))
}

impl Case for Lent {
    const WORD: &'static str = "network";
    const BEHIND: &'static str = "";
    const TWICE: bool = false;
    const ANSWERED: &'static str = "written";
    const NOTES: &'static [&'static str] = &[
        "written with a .flop line",
        "written with a .flop line whose enable or reset Quaigh writes otherwise",
        "written with a start value of one, which Quaigh writes as 0",
        "written, not sorted",
        "written, with a combinational loop",
    ];

    fn bytes(&self) -> usize {
        9 * (12 + self.gates.len() + self.pins.len() + self.outputs.len())
    }

    fn given(&self) -> Vec<u8> {
        given(self).into_bytes()
    }

    fn answer(&self) -> (Vec<u8>, Vec<bool>) {
        let w = wanted(self);
        let Wanted::Written(t) = &w else {
            return (shown(&w).into_bytes(), vec![false; Lent::NOTES.len()]);
        };
        let p = decoded(self).unwrap();
        let flop = t.contains("\n.flop ");
        let one = p.gates.iter().any(|g| g.start == 1);
        let other = quaigh(&p) != written(&p, Mistake::StartIsZero);
        let notes = vec![flop, flop && other, one, unsorted(&p), order(&p, variants::Mistake::Nothing).is_none()];
        (shown(&w).into_bytes(), notes)
    }

    fn smaller(&self) -> Box<dyn Iterator<Item = Lent> + '_> {
        smaller_nets::smaller(self)
    }

    fn shown(&self) -> String {
        smaller_nets::shown(self)
    }
}

// What the program prints before the networks, to show that it tells what is wrong: a byte that is not zero, behind a text without bytes and
// after a refusal; a cell of gates, pins or outputs that has changed; a text longer than the slice.
const TOLD: &str = "told
length=0\nnot zero\nrefused=20\nnot zero
length=0\nchanged\nrefused=20
length=0\nchanged\nrefused=20
length=0\nchanged\nrefused=20
length=32801\nmore than are lent\nrefused=20\n";

// The stored list: the networks, and the answers, each behind the number of its network. Prints how often each answer occurs.
pub fn lists(seed: u64, count: usize) -> (Vec<u8>, Vec<u8>) {
    let networks: Vec<Lent> = by_hand().into_iter().chain(seeded(seed).take(count)).collect();
    told_apart(&networks);
    let mut given = words(&[networks.len() as u32]).into_bytes();
    let mut wanted = TOLD.as_bytes().to_vec();
    let mut seen: BTreeMap<u32, usize> = BTreeMap::new();
    let mut notes = [0; Lent::NOTES.len()];
    for (n, l) in networks.iter().enumerate() {
        let (w, held) = l.answer();
        *seen.entry(number(&w)).or_insert(0) += 1;
        for (n, yes) in notes.iter_mut().zip(held) {
            *n += yes as usize;
        }
        given.extend(Case::given(l));
        wanted.extend(format!("network {n}\n").into_bytes());
        wanted.extend(w);
    }
    eprintln!("{} networks; answers (0 for written): {seen:?}", networks.len());
    for (what, n) in Lent::NOTES.iter().zip(notes) {
        eprintln!("{what}: {n}");
    }
    (given, wanted)
}

// Stops unless the plain writer writes the same texts, and each mistake is told apart; prints the gate count of the smallest network
// that does.
fn told_apart(ls: &[Lent]) {
    let mut caught = vec![usize::MAX; MISTAKES.len()];
    for l in ls {
        let Wanted::Written(t) = wanted(l) else {
            continue;
        };
        let p = decoded(l).unwrap();
        assert!(written(&p, Mistake::Nothing) == t, "the plain writer and Quaigh differ\n{t}");
        for (m, least) in MISTAKES.iter().zip(&mut caught) {
            if p.gates.len() < *least && written(&p, *m) != t {
                *least = p.gates.len();
            }
        }
    }
    for (m, n) in MISTAKES.iter().zip(&caught) {
        assert!(*n != usize::MAX, "the list does not tell {m:?} apart");
        eprintln!("{m:?} told apart by a network of {n} gates");
    }
    for m in LAX {
        let apart = ls.iter().filter(|l| decoded(l).is_some() != decoded_with(l, m).is_some());
        let n = apart.map(|l| l.counts[1]).min().unwrap_or_else(|| panic!("the list does not tell {m:?} apart"));
        eprintln!("20 with {m:?} of start values told apart by {n} gates");
    }
}
