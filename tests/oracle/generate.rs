// Networks made from a seed.
use crate::{BinaryType, Gate, NaryType, Network, Signal, TernaryType};

// A small generator of numbers (splitmix64), so that a seed gives the same list everywhere.
pub struct Numbers(pub u64);

impl Numbers {
    pub fn next(&mut self) -> u64 {
        self.0 = self.0.wrapping_add(0x9e37_79b9_7f4a_7c15);
        let mut z = self.0;
        z = (z ^ (z >> 30)).wrapping_mul(0xbf58_476d_1ce4_e5b9);
        z = (z ^ (z >> 27)).wrapping_mul(0x94d0_49bb_1331_11eb);
        z ^ (z >> 31)
    }
    pub fn below(&mut self, n: usize) -> usize {
        (self.next() % n as u64) as usize
    }
}

// A gate of a plain network: its form number 1 to 14, its pins, and its start value: 0 or 1 for a flip-flop, 0 for every other form.
#[derive(Clone)]
pub struct Node {
    pub form: u32,
    pub pins: Vec<Signal>,
    pub start: u32,
}

impl Node {
    // A gate that starts at zero.
    pub fn new(form: u32, pins: Vec<Signal>) -> Node {
        Node { form, pins, start: 0 }
    }

    pub fn is_flop(&self) -> bool {
        self.form == 14
    }

    // The gate with each of its signals by a function.
    pub fn with_pins(&self, f: impl Fn(&Signal) -> Signal) -> Node {
        Node { pins: self.pins.iter().map(f).collect(), ..*self }
    }
}

// A network before it is a `Network`, which has no start values.
#[derive(Clone)]
pub struct Plain {
    pub inputs: usize,
    pub gates: Vec<Node>,
    pub outputs: Vec<Signal>,
}

pub fn gate_of(form: u32, p: &[Signal]) -> Gate {
    let nary = |t| Gate::Nary(p.to_vec().into_boxed_slice(), t);
    match form {
        1 => Gate::Binary([p[0], p[1]], BinaryType::And),
        2 => Gate::Binary([p[0], p[1]], BinaryType::Xor),
        3 => Gate::Ternary([p[0], p[1], p[2]], TernaryType::And),
        4 => Gate::Ternary([p[0], p[1], p[2]], TernaryType::Xor),
        5 => Gate::Ternary([p[0], p[1], p[2]], TernaryType::Maj),
        6 => Gate::Ternary([p[0], p[1], p[2]], TernaryType::Mux),
        7 => nary(NaryType::And),
        8 => nary(NaryType::Or),
        9 => nary(NaryType::Nand),
        10 => nary(NaryType::Nor),
        11 => nary(NaryType::Xor),
        12 => nary(NaryType::Xnor),
        13 => Gate::Buf(p[0]),
        14 => Gate::Dff([p[0], p[1], p[2]]),
        _ => panic!("no form {form}"),
    }
}

pub fn plain_of(g: &Gate) -> Node {
    let form = match g {
        Gate::Binary(_, BinaryType::And) => 1,
        Gate::Binary(_, BinaryType::Xor) => 2,
        Gate::Ternary(_, TernaryType::And) => 3,
        Gate::Ternary(_, TernaryType::Xor) => 4,
        Gate::Ternary(_, TernaryType::Maj) => 5,
        Gate::Ternary(_, TernaryType::Mux) => 6,
        Gate::Nary(_, NaryType::And) => 7,
        Gate::Nary(_, NaryType::Or) => 8,
        Gate::Nary(_, NaryType::Nand) => 9,
        Gate::Nary(_, NaryType::Nor) => 10,
        Gate::Nary(_, NaryType::Xor) => 11,
        Gate::Nary(_, NaryType::Xnor) => 12,
        Gate::Buf(_) => 13,
        Gate::Dff(_) => 14,
        Gate::Lut(_) => panic!("a table gate"),
    };
    Node::new(form, g.dependencies().to_vec())
}

impl Plain {
    pub fn network(&self) -> Network {
        let mut n = Network::new();
        n.add_inputs(self.inputs);
        for g in &self.gates {
            n.add(gate_of(g.form, &g.pins));
        }
        for s in &self.outputs {
            n.add_output(*s);
        }
        n
    }
    pub fn of(n: &Network) -> Plain {
        Plain {
            inputs: n.nb_inputs(),
            gates: (0..n.nb_nodes()).map(|i| plain_of(n.gate(i))).collect(),
            outputs: (0..n.nb_outputs()).map(|i| n.output(i)).collect(),
        }
    }
    pub fn pins(&self) -> usize {
        self.gates.iter().map(|g| g.pins.len()).sum()
    }
    pub fn flops(&self) -> Vec<usize> {
        (0..self.gates.len()).filter(|g| self.gates[*g].is_flop()).collect()
    }
    // The same with one as the start value of these gates.
    pub fn starting(mut self, gates: &[usize]) -> Plain {
        gates.iter().for_each(|g| self.gates[*g].start = 1);
        self
    }
}

// How a network is made: its sizes, how many inputs a Nary gate may have, and whether loops may come about.
pub struct Shape {
    pub inputs: usize,
    pub gates: usize,
    pub outputs: usize,
    pub wide: usize,
    pub loops: bool,
    pub flops: usize, // one gate in so many is a flip-flop, 0 for none
}

// A signal of a constant, an input or a gate, inverted or not. A combinational gate uses gates of lower rank only, unless loops are
// wanted, and flip-flops.
fn signal(r: &mut Numbers, s: &Shape, rank: &[usize], flop: &[bool], user: Option<usize>) -> Signal {
    for _ in 0..20 {
        let k = r.below(10);
        let inv = r.below(3) == 0;
        let plain = if k == 0 {
            Signal::zero()
        } else if k <= 3 && s.inputs > 0 {
            Signal::from_input(r.below(s.inputs) as u32)
        } else if s.gates > 0 {
            let g = r.below(s.gates);
            let fine = s.loops
                || flop[g]
                || match user {
                    Some(u) => flop[u] || rank[g] < rank[u],
                    None => true,
                };
            if !fine {
                continue;
            }
            Signal::from_var(g as u32)
        } else {
            Signal::zero()
        };
        return plain ^ inv;
    }
    Signal::zero()
}

pub fn make(r: &mut Numbers, s: &Shape) -> Plain {
    let mut rank: Vec<usize> = (0..s.gates).collect();
    for i in (1..s.gates).rev() {
        rank.swap(i, r.below(i + 1));
    }
    let flop: Vec<bool> = (0..s.gates).map(|_| s.flops > 0 && r.below(s.flops) == 0).collect();
    let mut gates = Vec::new();
    for g in 0..s.gates {
        let form = if flop[g] { 14 } else { 1 + r.below(13) as u32 };
        let n = match form {
            1 | 2 => 2,
            3..=6 | 14 => 3,
            13 => 1,
            _ => r.below(s.wide + 1),
        };
        let mut p: Vec<Signal> = (0..n).map(|_| signal(r, s, &rank, &flop, Some(g))).collect();
        // repeats, also of a signal with its complement
        if n >= 2 && r.below(3) == 0 {
            p[1] = p[0] ^ (r.below(2) == 0);
        }
        gates.push(Node { form, pins: p, start: if flop[g] { r.below(2) as u32 } else { 0 } });
    }
    let outputs = (0..s.outputs).map(|_| signal(r, s, &rank, &flop, None)).collect();
    Plain {
        inputs: s.inputs,
        gates,
        outputs,
    }
}

// The same with inputs added to a Nary gate until there are so many pins.
pub fn filled(mut p: Plain, pins: usize) -> Plain {
    let missing = pins - p.pins();
    let inputs = p.inputs;
    let gate = p.gates.iter_mut().find(|g| (7..=12).contains(&g.form)).unwrap();
    gate.pins.extend((0..missing).map(|k| Signal::from_input((k % inputs) as u32) ^ (k % 3 == 0)));
    p
}

// Networks of two inputs, as few gates as tell a mistake apart.
pub fn smallest() -> Vec<Plain> {
    let i = Signal::from_input;
    let g = Signal::from_var;
    let (one, zero) = (Signal::one(), Signal::zero());
    let net = |gates: Vec<Node>| {
        let outputs = (0..gates.len()).map(|k| g(k as u32)).collect();
        Plain { inputs: 2, gates, outputs }
    };
    let and = |a, b| Node::new(1, vec![a, b]);
    let and3 = |a, b, c| Node::new(3, vec![a, b, c]);
    let flop = |d| Node::new(14, vec![d, one, zero]);
    vec![
        // in order already, and moved all the same
        net(vec![and(i(0), i(1)), and(i(0), !i(1)), and(g(1), g(0))]),
        // a repeat counts twice, also x with !x
        net(vec![and(i(0), i(1)), and(i(0), !i(1)), and3(g(0), g(1), g(0))]),
        net(vec![and(i(0), i(1)), and(i(0), !i(1)), and3(g(0), g(1), !g(0))]),
        // a popped flip-flop lowers nothing
        net(vec![flop(g(1)), and(i(0), i(1)), and(g(1), i(0)), and3(g(2), g(0), g(1))]),
        // a flip-flop's data is no use of it
        net(vec![and(i(0), i(1)), flop(g(0))]),
        net(vec![and(i(0), i(1)), flop(g(0)), and(i(1), i(0))]),
        // flip-flops come first, in old order
        net(vec![and(i(0), i(1)), flop(i(0)), flop(i(1))]),
        // the last of the stack first
        net(vec![and(g(1), g(2)), and(i(0), i(1)), and(i(1), i(0))]),
        // rings of one gate, of two, and one that a flip-flop opens
        net(vec![and(g(0), i(0))]),
        net(vec![and(g(1), i(0)), and(g(0), i(1))]),
        net(vec![and(g(1), i(0)), flop(g(0))]),
        // no gates, and a gate of no pins
        net(vec![]),
        net(vec![Node::new(7, vec![])]),
        // start values go with their flip-flops: alone, behind a gate, scattered among gates that move, in old order
        net(vec![flop(i(0))]).starting(&[0]),
        net(vec![and(i(0), i(1)), flop(i(0))]).starting(&[1]),
        net(vec![and(i(0), i(1)), flop(i(0)), flop(i(1))]).starting(&[1]),
        net(vec![and(i(0), i(1)), flop(i(0)), flop(i(1))]).starting(&[2]),
        net(vec![flop(g(2)), and(g(3), i(0)), flop(g(0)), and(i(0), i(1)), flop(g(1))]).starting(&[0, 4]),
        net(vec![flop(g(2)), and(g(3), i(0)), flop(g(0)), and(i(0), i(1)), flop(g(1))]).starting(&[2]),
        net(vec![flop(i(0)), flop(g(0)), flop(g(1)), flop(g(2))]).starting(&[0, 1, 3]),
        net(vec![and(g(1), i(0)), flop(g(0)), flop(i(1))]).starting(&[1]),
    ]
}

// Networks that use one gate, as itself or inverted, by every pin that there may be.
pub fn most_used() -> Vec<Plain> {
    const PINS: usize = 16384;
    let uses = |g: u32, n: usize| -> Vec<Signal> { (0..n).map(|k| Signal::from_var(g) ^ (k % 3 == 1)).collect() };
    let nothing = || Node::new(7, vec![]);
    let net = |gates: Vec<Node>| Plain { inputs: 1, outputs: vec![Signal::from_var(0), Signal::from_var(gates.len() as u32 - 1)], gates };
    let share = |k: u32| PINS / 1023 + (PINS % 1023 > k as usize) as usize;
    let many = (0..1023).map(|k| Node::new(7 + k % 6, uses(1023, share(k))));
    vec![
        // by one gate
        net(vec![Node::new(8, uses(1, PINS)), nothing()]),
        // the last of 1,024 gates by all the others
        net(many.chain([nothing()]).collect()),
        // three of the pins are a flip-flop's, whose inputs are no uses
        net(vec![Node::new(9, uses(2, PINS - 3)), Node::new(14, uses(2, 3)), nothing()]),
        // by itself
        net(vec![Node::new(7, uses(0, PINS))]),
    ]
}

// Networks that the part refuses: with one input, gate, pin or output more than it takes, or another start value.
pub fn refused() -> Vec<Plain> {
    let i = Signal::from_input(0);
    let net = |inputs, gates, outputs| Plain { inputs, gates, outputs: vec![i; outputs] };
    let flop = |start| Node { start, ..Node::new(14, vec![i, Signal::one(), Signal::zero()]) };
    let buf = |start| Node { start, ..Node::new(13, vec![i]) };
    vec![
        net(257, vec![], 1),
        net(1, vec![buf(0); 1025], 1),
        net(1, vec![Node::new(7, vec![i; 16385])], 1),
        net(1, vec![], 257),
        net(1, vec![flop(2)], 1),
        net(1, vec![flop(1), flop(u32::MAX)], 1),
        net(1, vec![buf(1)], 1),
        net(1, vec![flop(1), buf(0), buf(1), flop(0)], 1),
        net(1, vec![Node { start: 1, ..Node::new(7, vec![]) }], 1),
    ]
}
