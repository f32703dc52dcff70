// Lent networks that are a little simpler than one: with gates, pins, outputs, inputs or cells left out, or a plainer form, signal or
// number in the place of another.
use crate::generate::{Node, Plain};
use crate::lent::{decoded, decoded_with, lent, text, Lax, Lent, MOST, RECORD};
use crate::smaller_texts::runs;
use crate::Signal;

// A cell's place in the order from plain to odd: constants, inputs from i0, gates from x0, anything else.
fn rank(cell: u32) -> u64 {
    match cell {
        0 | 1 => cell as u64,
        c if c >> 31 == 1 => 2 + (u32::MAX - (c ^ 1)) as u64,
        c => (1 << 32) + c as u64,
    }
}

// The order: fewer cells, then smaller counts, then plainer cells, then an output slice nearer to the longest.
fn weight(l: &Lent) -> (usize, u128, u128, usize) {
    let cells = [&l.gates, &l.pins, &l.outputs];
    let n = cells.iter().map(|c| c.len()).sum();
    let records: u128 = l.gates.iter().map(|c| *c as u128).sum();
    let signals: u128 = l.pins.iter().chain(&l.outputs).map(|c| rank(*c) as u128).sum();
    (n, l.counts.iter().map(|c| *c as u128).sum(), records + signals, MOST[0] - l.room.min(MOST[0]))
}

// The gates without some: what used one of them uses zero.
fn without_gates(p: &Plain, a: usize, e: usize) -> Plain {
    let moved = |s: &Signal| match s {
        s if !s.is_var() || (s.var() as usize) < a => *s,
        s if (s.var() as usize) < e => Signal::zero() ^ s.is_inverted(),
        s => Signal::from_var(s.var() - (e - a) as u32) ^ s.is_inverted(),
    };
    let kept = p.gates[..a].iter().chain(&p.gates[e..]);
    Plain {
        inputs: p.inputs,
        gates: kept.map(|g| g.with_pins(moved)).collect(),
        outputs: p.outputs.iter().map(moved).collect(),
    }
}

// The network with each of its signals by a function.
fn with_signals(p: &Plain, inputs: usize, f: impl Fn(Signal) -> Signal) -> Plain {
    Plain {
        inputs,
        gates: p.gates.iter().map(|g| g.with_pins(|s| f(*s))).collect(),
        outputs: p.outputs.iter().map(|s| f(*s)).collect(),
    }
}

// The network with fewer inputs: those left out become zero, or one of the others.
fn with_fewer_inputs(p: &Plain) -> impl Iterator<Item = Plain> + '_ {
    let cut = move |n: usize| {
        let gone = |s: &Signal| s.is_input() && s.input() as usize >= n;
        with_signals(p, n, |s| if gone(&s) { Signal::zero() ^ s.is_inverted() } else { s })
    };
    let folded = move |n: usize| {
        let other = |s: &Signal| Signal::from_input(s.input() % n as u32) ^ s.is_inverted();
        with_signals(p, n, |s| if s.is_input() { other(&s) } else { s })
    };
    let least = [0, p.inputs / 2, p.inputs.saturating_sub(1)];
    least.into_iter().map(cut).chain(least.into_iter().filter(|n| *n > 0).map(folded))
}

// Gates that may stand in the place of one: with pins left out, of another form with the same pins or fewer, with a smaller start value. A start
// value that 20 refuses stays where the form changes.
fn plainer_gates(gate: &Node) -> impl Iterator<Item = Node> + '_ {
    let (form, ps) = (gate.form, &gate.pins[..]);
    let start = if gate.is_flop() { 0 } else { gate.start };
    let of = move |form: u32, ps: &[Signal]| Node { form, pins: ps.to_vec(), start };
    let fewer = runs(if (7..=12).contains(&form) { ps.len() } else { 0 });
    let fitting: &[u32] = match ps.len() {
        1 => &[7, 8, 9, 10, 11, 12],
        2 => &[1, 2, 7, 8, 9, 10, 11],
        3 => &[3, 4, 5, 6, 7, 8, 9, 10, 11, 12],
        _ => &[7, 8, 9, 10, 11],
    };
    let mut all: Vec<Node> = fitting.iter().filter(|f| **f < form).map(|f| of(*f, ps)).collect();
    all.extend((0..3).filter(|start| *start < gate.start).map(|start| Node { start, ..of(form, ps) }));
    if ps.len() > 1 {
        all.push(of(13, &ps[..1]));
    }
    if ps.len() > 2 {
        all.push(of(1, &ps[..2]));
    }
    fewer.map(move |(a, e)| of(form, &[&ps[..a], &ps[e..]].concat())).chain(all)
}

fn with_plainer_gates(p: &Plain) -> impl Iterator<Item = Plain> + '_ {
    let put = move |g: usize, gate: Node| {
        let mut q = p.clone();
        q.gates[g] = gate;
        q
    };
    let each = p.gates.iter().enumerate();
    each.flat_map(move |(g, gate)| plainer_gates(gate).map(move |gate| put(g, gate)))
}

// A network of whole gates, with gates, outputs, inputs or pins left out or plainer.
fn plainer(p: &Plain) -> impl Iterator<Item = Plain> + '_ {
    let outputs = move |(a, e): (usize, usize)| Plain { outputs: [&p.outputs[..a], &p.outputs[e..]].concat(), ..p.clone() };
    let gates = runs(p.gates.len()).map(move |(a, e)| without_gates(p, a, e));
    with_fewer_inputs(p).chain(runs(p.outputs.len()).map(outputs)).chain(gates).chain(with_plainer_gates(p))
}

// The length of the text, none where it is too wide to be written.
fn length(p: &Plain) -> usize {
    let narrow = p.gates.iter().all(|g| !(g.form == 11 || g.form == 12) || g.pins.len() < 13);
    if narrow { text(p).len() } else { 0 }
}

// Each plainer network with the same output slice and, where that is not the longest, with one whose length moves as the text's does.
fn as_networks(l: &Lent, p: &Plain) -> Vec<Lent> {
    let before = length(p);
    let mut all = Vec::new();
    for q in plainer(p).take(8192) {
        all.push(Lent { room: l.room, ..lent(&q) });
        if l.room < MOST[0] {
            all.push(Lent { room: (l.room + length(&q)).saturating_sub(before), ..lent(&q) });
        }
    }
    all
}

fn cells_of(l: &mut Lent, place: usize) -> &mut Vec<u32> {
    match place {
        1 => &mut l.gates,
        2 => &mut l.pins,
        _ => &mut l.outputs,
    }
}

// Cells left out with their count or without; those beyond the counts first.
fn with_fewer_cells(l: &Lent, place: usize) -> impl Iterator<Item = Lent> + '_ {
    let step = if place == 1 { RECORD } else { 1 };
    let n = [l.gates.len(), l.pins.len(), l.outputs.len()][place - 1];
    let used = (l.counts[place].min(n as u64) as usize * step).min(n);
    let cut = move |a: usize, e: usize, fewer: usize| {
        let mut m = l.clone();
        m.counts[place] = m.counts[place].saturating_sub(fewer as u64);
        cells_of(&mut m, place).drain(a..e);
        m
    };
    let some = runs(used / step).flat_map(move |(a, e)| [cut(a * step, e * step, e - a), cut(a * step, e * step, 0)]);
    std::iter::once(cut(used, n, 0)).chain(some)
}

// Smaller counts, and an output slice nearer to the longest.
fn with_smaller_counts(l: &Lent) -> impl Iterator<Item = Lent> + '_ {
    let put = move |place: usize, n: u64| {
        let mut m = l.clone();
        m.counts[place] = n;
        m
    };
    let counts = (0..4).flat_map(move |k| [0, l.counts[k] / 2, l.counts[k].saturating_sub(1)].map(|n| put(k, n)));
    counts.chain([MOST[0], (l.room + 1).min(MOST[0])].map(|room| Lent { room, ..l.clone() }))
}

// Another number in a cell's place.
fn with_plainer_cells(l: &Lent, place: usize) -> impl Iterator<Item = Lent> + '_ {
    let cells = [&l.gates, &l.pins, &l.outputs][place - 1];
    let put = move |k: usize, n: u32| {
        let mut m = l.clone();
        cells_of(&mut m, place)[k] = n;
        m
    };
    let (plain, turned) = (Signal::from_input(0).raw(), (!Signal::from_input(0)).raw());
    let others = move |c: u32| [0, 1, plain, turned, 2, 3, c & !1, c / 2, c.saturating_sub(2), c.saturating_sub(1)];
    (0..cells.len()).flat_map(move |k| others(cells[k]).map(|n| put(k, n)))
}

// Of a network, or of one but for its start values, only what leaves it such is of use: the answer for cells that are none is 20.
pub fn smaller(l: &Lent) -> Box<dyn Iterator<Item = Lent> + '_> {
    let now = weight(l);
    let lower = move |m: &Lent| weight(m) < now;
    let signals = (2..4).flat_map(move |place| with_plainer_cells(l, place));
    if let Some(p) = decoded_with(l, Lax::AllFree) {
        return Box::new(as_networks(l, &p).into_iter().chain(with_smaller_counts(l)).chain(signals).filter(lower));
    }
    let cells = (1..4).flat_map(move |place| with_fewer_cells(l, place));
    Box::new(cells.chain(with_smaller_counts(l)).chain(with_plainer_cells(l, 1)).chain(signals).filter(lower))
}

fn numbers(cells: &[u32]) -> String {
    cells.iter().map(|c| format!(" {c:x}")).collect()
}

const FORMS: [&str; 15] = ["", "And2", "Xor2", "And3", "Xor3", "Maj", "Mux", "And", "Or", "Nand", "Nor", "Xor", "Xnor", "Buf", "Dff"];

// The network in words, or its counts and cells where it is none.
pub fn shown(l: &Lent) -> String {
    let room = format!("room for {} bytes", l.room);
    let cells = format!("cells: gates{}; pins{}; outputs{}", numbers(&l.gates), numbers(&l.pins), numbers(&l.outputs));
    let Some(p) = decoded(l) else {
        let [i, g, n, o] = l.counts;
        return format!("no network: counts {i} {g} {n} {o}; {cells}; {room}");
    };
    let list = |s: &[Signal]| s.iter().map(|s| s.to_string()).collect::<Vec<_>>().join(", ");
    let start = |n: &Node| if n.is_flop() { format!(" from {}", n.start) } else { String::new() };
    let gate = |(g, n): (usize, &Node)| format!("x{g} = {}({}){}; ", FORMS[n.form as usize], list(&n.pins), start(n));
    let gates: String = p.gates.iter().enumerate().map(gate).collect();
    format!("{} inputs; {gates}outputs {}; {room}\n{cells}", p.inputs, list(&p.outputs))
}
