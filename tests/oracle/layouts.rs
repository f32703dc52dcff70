// Cells that are no network, or only just one, by hand and from a seed.
use crate::generate::{Numbers, Plain};
use crate::lent::{lent, Lent, RECORD};
use crate::nets::{i, net, x, Gates};
use crate::Signal;

// A gate of each form, one without pins before the last, over two inputs.
fn each_form() -> Plain {
    let pins = |form: u32| match form {
        1 | 2 => 2,
        13 => 1,
        10 => 0,
        _ => 3,
    };
    let signals = [i(0), !i(1), x(13), !x(0), Signal::one(), Signal::zero()];
    let gates: Gates = (1..15).map(|f| (f, (0..pins(f)).map(|k| signals[(f as usize + k) % 6]).collect())).collect();
    net(2, gates, vec![x(13), !x(0), i(1)])
}

// Sizes over the limits, with cells for each, and sizes over the slices.
fn sizes() -> Vec<(bool, Lent)> {
    let base = lent(&each_form());
    let mut all = Vec::new();
    for place in 0..4 {
        for n in [1 << 32, (1 << 32) + base.counts[place], 1 << 63, u64::MAX / 3 + 1, u64::MAX - 1, u64::MAX] {
            let mut l = base.clone();
            l.counts[place] = n;
            all.push((false, l));
        }
    }
    let of = |p: Plain| lent(&p);
    let gates = |n: usize| of(net(1, vec![(7, vec![]); n], vec![]));
    let pins = |n: usize| of(net(1, vec![(10, vec![i(0); n])], vec![]));
    let outputs = |n: usize| of(net(1, vec![], vec![i(0); n]));
    all.extend([
        (true, of(net(256, vec![], vec![i(255)]))),
        (false, of(net(257, vec![], vec![i(255)]))),
        (false, gates(1025)),
        (false, pins(16385)),
        (true, outputs(256)),
        (false, outputs(257)),
    ]);
    // one cell short of each kind, none at all, and cells to spare that hold anything
    for place in 1..4 {
        let mut l = base.clone();
        let cells = [&mut l.gates, &mut l.pins, &mut l.outputs];
        cells[place - 1].pop();
        all.push((false, l.clone()));
        let cells = [&mut l.gates, &mut l.pins, &mut l.outputs];
        cells[place - 1].clear();
        all.push((false, l));
        let mut l = base.clone();
        let cells = [&mut l.gates, &mut l.pins, &mut l.outputs];
        cells[place - 1].extend([0x8000_0000, u32::MAX]);
        all.push((true, l.clone()));
        l.counts[place] += 1;
        all.push((false, l));
    }
    all
}

// Each form, also unknown ones, with each small pin count.
fn forms() -> Vec<(bool, Lent)> {
    let mut all = Vec::new();
    for form in (0..17).chain([255, 256, 257, 270, 1 << 31, (1 << 31) + 1, u32::MAX - 13, u32::MAX]) {
        for n in 0..5 {
            let mut l = lent(&net(1, vec![(7, vec![i(0); n])], vec![]));
            l.gates[0] = form;
            let fits = match form {
                1 | 2 => n == 2,
                3..=6 | 14 => n == 3,
                7..=12 => true,
                13 => n == 1,
                _ => false,
            };
            all.push((fits, l));
        }
    }
    all
}

// Runs of pins: of two gates with two pins each, and of gates without pins before, between and behind them.
fn runs() -> Vec<(bool, Lent)> {
    let base = |records: &[u32], pins: usize| Lent {
        counts: [2, records.len() as u64 / 2, pins as u64, 0],
        gates: records.chunks(2).flat_map(|r| [7, r[0], r[1], 0]).collect(),
        pins: (0..pins).map(|k| i(k as u32 % 2).raw()).collect(),
        outputs: vec![],
        room: 32800,
    };
    vec![
        (true, base(&[0, 2, 2, 2], 4)),
        (false, base(&[0, 2, 1, 2], 3)), // they overlap
        (false, base(&[0, 2, 1, 2], 4)),
        (false, base(&[0, 2, 0, 2], 2)),
        (false, base(&[0, 2, 3, 2], 5)), // a gap between
        (false, base(&[0, 2, 3, 1], 4)),
        (false, base(&[1, 2, 3, 2], 5)), // the first starts elsewhere
        (false, base(&[1, 1, 2, 2], 4)),
        (false, base(&[2, 2, 0, 2], 4)), // the other way round
        (false, base(&[0, 2, 2, 2], 5)), // pins that no run has
        (false, base(&[0, 2, 2, 2], 3)), // a run that ends behind the pins
        (false, base(&[0, 2, 2, 3], 4)),
        (false, base(&[], 1)),
        (false, base(&[0, 0], 1)),
        (true, base(&[0, 0, 0, 2, 2, 0, 2, 2, 4, 0], 4)), // gates without pins
        (false, base(&[1, 0, 0, 2, 2, 0, 2, 2, 4, 0], 4)),
        (false, base(&[0, 0, 0, 2, 0, 0, 2, 2, 4, 0], 4)),
        (false, base(&[0, 0, 0, 2, 3, 0, 2, 2, 4, 0], 4)),
        (false, base(&[0, 0, 0, 2, 2, 0, 2, 2, 0, 0], 4)),
        (false, base(&[0, 0, 0, 2, 2, 0, 2, 2, 5, 0], 4)),
        (false, base(&[0, 2, 2, u32::MAX, 1, 3], 4)), // sums that pass 32 bits
        (false, base(&[0, u32::MAX, u32::MAX, 5], 4)),
        (false, base(&[0, 1 << 31, 1 << 31, 1 << 31, 0, 4], 4)),
        (false, base(&[0, 2, u32::MAX, 2], 4)),
        (false, base(&[u32::MAX, 0], 0)),
    ]
}

// Start values: of each form, alone and in the record of one gate among others; cells beyond the gates in use that hold anything.
fn starts() -> Vec<(bool, Lent)> {
    let base = lent(&each_form());
    let values = [1, 2, 3, 255, 256, 257, 1 << 16, 1 << 31, (1 << 31) + 1, u32::MAX - 1, u32::MAX];
    let mut all = Vec::new();
    for g in 0..14 {
        let with = |start: u32| {
            let mut l = base.clone();
            l.gates[RECORD * g + 3] = start;
            (g == 13 && start == 1, l)
        };
        all.extend(values.into_iter().take(if g < 12 { 2 } else { values.len() }).map(with));
    }
    let flop = |start: u32| {
        let mut l = lent(&net(1, vec![(14, vec![i(0), Signal::one(), Signal::zero()])], vec![x(0)]));
        l.gates[3] = start;
        l
    };
    all.extend([(true, flop(0)), (true, flop(1)), (false, flop(2)), (false, flop(u32::MAX))]);
    // of an enable and a reset that are not plain, of a gate without pins, and with a record's cell too few
    let other = net(2, vec![(14, vec![i(0), i(1), x(0)]), (10, vec![])], vec![]).starting(&[0]);
    all.push((true, lent(&other)));
    all.push((false, lent(&other.clone().starting(&[1]))));
    let mut short = flop(1);
    short.gates.pop();
    all.push((false, short));
    // cells beyond the gates in use
    for beyond in [vec![14, 3, 3, 2], vec![13, 3, 1, 1], vec![0, 0, 0, u32::MAX], vec![0; 3]] {
        let mut l = flop(1);
        l.gates.extend(beyond);
        all.push((true, l));
    }
    // 20 before 21
    let wide = net(1, vec![(11, vec![i(0); 13]), (13, vec![i(0)])], vec![]);
    all.push((false, lent(&wide.starting(&[1]))));
    all
}

// An invalid signal in each place, one that is just valid, and constants.
fn signals() -> Vec<(bool, Lent)> {
    let base = lent(&each_form());
    let good = [i(1), !i(1), x(13), !x(13), Signal::one(), Signal::zero()].map(|s| s.raw());
    let bad = [i(2), !i(2), i(256), x(14), !x(14), x(1024)].map(|s| s.raw());
    let far = [0x8000_0000, 0x8000_0001, 0x7fff_fffe, 0x7fff_ffff, 0x8000_001c, 0x4000_0002];
    let mut all = Vec::new();
    for (k, pin) in (0..base.pins.len()).map(|p| (p, true)).chain((0..base.outputs.len()).map(|p| (p, false))) {
        for (fits, values) in [(true, good), (false, bad), (false, far)] {
            let mut l = base.clone();
            let cells = if pin { &mut l.pins } else { &mut l.outputs };
            cells[k] = values[k % 6];
            all.push((fits, l));
        }
    }
    for (inputs, s) in [(0, i(0)), (0, !i(0)), (1, x(0)), (256, x(1)), (1, i(1))] {
        all.push((false, lent(&net(inputs, vec![], vec![s]))));
    }
    // 20 before 21
    all.push((false, lent(&net(1, vec![(11, vec![i(0); 13])], vec![i(1)]))));
    all
}

// The cells, and whether they are a network.
pub fn by_hand() -> Vec<(bool, Lent)> {
    [sizes(), forms(), runs(), signals(), starts()].concat()
}

// Another number in a cell's place: near it, a signal near the counts, or anything.
fn other(r: &mut Numbers, cell: u32, l: &Lent) -> u32 {
    match r.below(6) {
        0 => cell.wrapping_add(1),
        1 => cell.wrapping_sub(1),
        2 => cell ^ (1 << r.below(32)),
        3 => r.below(16) as u32,
        4 => i(l.counts[0] as u32 + r.below(2) as u32).raw().wrapping_add(2),
        _ => r.next() as u32,
    }
}

// The cells with one thing changed: a count, a cell, a slice's length, two records, a start value.
pub fn changed(r: &mut Numbers, mut l: Lent) -> Lent {
    let sizes = [l.gates.len(), l.pins.len(), l.outputs.len()];
    match r.below(9) {
        0 => {
            let n = &mut l.counts[r.below(4)];
            *n = if r.below(2) == 0 { n.wrapping_sub(1) } else { *n + 1 };
        }
        1 => l.counts[r.below(4)] = r.next() >> r.below(64),
        2 | 3 if sizes[0] > 0 => {
            let k = r.below(sizes[0]);
            l.gates[k] = other(r, l.gates[k], &l);
        }
        4 if sizes[1] > 0 => {
            let k = r.below(sizes[1]);
            l.pins[k] = other(r, l.pins[k], &l);
        }
        5 if sizes[2] > 0 => {
            let k = r.below(sizes[2]);
            l.outputs[k] = other(r, l.outputs[k], &l);
        }
        6 => {
            let cells = [&mut l.gates, &mut l.pins, &mut l.outputs];
            cells[r.below(3)].pop();
        }
        7 if sizes[0] >= 2 * RECORD => {
            let k = RECORD * r.below(sizes[0] / RECORD - 1);
            for c in k..k + RECORD {
                l.gates.swap(c, c + RECORD);
            }
        }
        8 if sizes[0] >= RECORD => {
            let start = &mut l.gates[RECORD * r.below(sizes[0] / RECORD) + 3];
            *start = [*start ^ 1, 1, 2, 3, 256, u32::MAX][r.below(6)];
        }
        _ => (),
    }
    l
}
