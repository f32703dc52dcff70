// A plain writer of document 01's text with document 02's start values, right or with one of the mistakes that its rules leave room for.
use crate::generate::Plain;
use crate::Signal;

#[derive(Clone, Copy, Debug, PartialEq)]
pub enum Mistake {
    Nothing,
    BufInputInverted,     // an inverter for the signal of a Buf
    BufOneIsVdd,          // Buf(one) as `.names vdd` and `1 1`
    ConstantInverted,     // an inverter for a constant
    OutputNotInverted,    // outputs not counted for inverters
    ControlNotInverted,   // enable and reset not counted for inverters
    InverterForEachUse,   // one for each use
    InvertersByUse,       // in order of first use
    InputsFirst,          // those of inputs before those of gates
    InputsUpwards,        // those of inputs upwards
    LastColumnFirst,      // column i is not bit i
    TernaryXorByMask,     // the lines of a Ternary Xor in the order of a Nary one
    MuxOtherWay,          // first ? third : second
    OrByOnes,             // Or as a line for each input
    XorOfNothingLine,     // ` 0` for an Xor of nothing
    NoLineOfNothing,      // no line for And and Nor of nothing
    LatchInPlace,         // flip-flops among the gates
    NoEmptyLine,          // no empty line without latches
    EnableOneShown,       // ` E=vdd`
    ResetIsEnable,        // the enable after ` R=`, as Quaigh has it
    EnableOtherNotation,  // the enable in the notation of `Display`, as Quaigh has it
    FlopOnlyIfBoth,       // `.flop` only with both an enable and a reset
    StartIsZero,          // 0 for every start value, as Quaigh has it
    StartIsOne,           // 1 for every one
    LatchStartIsZero,     // 0 in every `.latch` line
    InitIsZero,           // 0 behind every `init=`
    StartTurned,          // 1 for 0 and 0 for 1
    StartsReversed,       // the start values of the flip-flops in reversed order
    StartsInGateOrder,    // that of gate k in the line of the flip-flop k
    ZeroLeftOut,          // no start value where it is 0
}

pub const MISTAKES: [Mistake; 29] = [
    Mistake::BufInputInverted,
    Mistake::BufOneIsVdd,
    Mistake::ConstantInverted,
    Mistake::OutputNotInverted,
    Mistake::ControlNotInverted,
    Mistake::InverterForEachUse,
    Mistake::InvertersByUse,
    Mistake::InputsFirst,
    Mistake::InputsUpwards,
    Mistake::LastColumnFirst,
    Mistake::TernaryXorByMask,
    Mistake::MuxOtherWay,
    Mistake::OrByOnes,
    Mistake::XorOfNothingLine,
    Mistake::NoLineOfNothing,
    Mistake::LatchInPlace,
    Mistake::NoEmptyLine,
    Mistake::EnableOneShown,
    Mistake::ResetIsEnable,
    Mistake::EnableOtherNotation,
    Mistake::FlopOnlyIfBoth,
    Mistake::StartIsZero,
    Mistake::StartIsOne,
    Mistake::LatchStartIsZero,
    Mistake::InitIsZero,
    Mistake::StartTurned,
    Mistake::StartsReversed,
    Mistake::StartsInGateOrder,
    Mistake::ZeroLeftOut,
];

fn name(cell: u32) -> String {
    match cell {
        0 => "gnd".to_string(),
        1 => "vdd".to_string(),
        _ => {
            let bare = if cell >> 31 == 1 { format!("i{}", (u32::MAX - cell) / 2) } else { format!("x{}", cell / 2 - 1) };
            bare + if cell % 2 == 1 { "_n" } else { "" }
        }
    }
}

// The start value of the k-th flip-flop, in a line that is a `.latch` or not.
fn start(p: &Plain, k: usize, latch: bool, m: Mistake) -> u32 {
    let flops = p.flops();
    let of = |g: usize| p.gates[g].start;
    match m {
        Mistake::StartIsZero => 0,
        Mistake::StartIsOne => 1,
        Mistake::LatchStartIsZero if latch => 0,
        Mistake::InitIsZero if !latch => 0,
        Mistake::StartTurned => 1 - of(flops[k]),
        Mistake::StartsReversed => of(flops[flops.len() - 1 - k]),
        Mistake::StartsInGateOrder => of(k),
        _ => of(flops[k]),
    }
}

fn flop(net: &Plain, g: usize, p: &[u32], m: Mistake) -> String {
    let k = net.flops().iter().position(|f| *f == g).unwrap();
    let mut other = p[1] != 1 || p[2] != 0;
    if m == Mistake::FlopOnlyIfBoth {
        other = p[1] != 1 && p[2] != 0;
    }
    if !other {
        let front = format!(".latch {} x{g}", name(p[0]));
        return match start(net, k, true, m) {
            0 if m == Mistake::ZeroLeftOut => front + "\n",
            v => format!("{front} {v}\n"),
        };
    }
    let mut s = format!(".flop D={} Q=x{g} init={}", name(p[0]), start(net, k, false, m));
    if p[1] != 1 || m == Mistake::EnableOneShown {
        s += " E=";
        s += &if m == Mistake::EnableOtherNotation {
            (Signal::from_ind(p[1] >> 1) ^ (p[1] & 1 == 1)).to_string()
        } else {
            name(p[1])
        };
    }
    if p[2] != 0 {
        s += &format!(" R={}", name(if m == Mistake::ResetIsEnable { p[1] } else { p[2] }));
    }
    s + "\n"
}

// The lines of a cover of n inputs, by the sum over masks for the exclusive forms.
fn lines(form: u32, n: usize, m: Mistake) -> String {
    let fixed = |ls: &[&str]| ls.iter().map(|l| format!("{l} 1\n")).collect::<String>();
    let masks = |odd: usize| {
        let column = |k: usize, b: usize| if m == Mistake::LastColumnFirst { k >> (n - 1 - b) } else { k >> b };
        let cube = |k: usize| (0..n).map(|b| if column(k, b) % 2 == 1 { '1' } else { '0' }).collect::<String>();
        let ones = |k: usize| (0..n).filter(|b| k >> b & 1 == 1).count();
        (0..1usize << n).filter(|k| ones(*k) % 2 == odd).map(|k| cube(k) + " 1\n").collect::<String>()
    };
    match form {
        1 => fixed(&["11"]),
        2 => fixed(&["10", "01"]),
        3 => fixed(&["111"]),
        4 if m == Mistake::TernaryXorByMask => fixed(&["100", "010", "001", "111"]),
        4 => fixed(&["111", "100", "010", "001"]),
        5 => fixed(&["11-", "-11", "1-1"]),
        6 if m == Mistake::MuxOtherWay => fixed(&["1-1", "01-"]),
        6 => fixed(&["11-", "0-1"]),
        7 | 10 if n == 0 && m == Mistake::NoLineOfNothing => String::new(),
        8 if m == Mistake::OrByOnes => (0..n).map(|k| "-".repeat(k) + "1" + &"-".repeat(n - 1 - k) + " 1\n").collect(),
        7 => "1".repeat(n) + " 1\n",
        8 => "0".repeat(n) + " 0\n",
        9 => "1".repeat(n) + " 0\n",
        10 => "0".repeat(n) + " 1\n",
        11 if n == 0 && m == Mistake::XorOfNothingLine => " 0\n".to_string(),
        11 => masks(1),
        _ => masks(0),
    }
}

fn cover(g: usize, form: u32, p: &[u32], m: Mistake) -> String {
    if form == 13 {
        let (cell, line) = if p[0] == 1 && m == Mistake::BufOneIsVdd { (1, "1 1") } else { (p[0] & !1, ["1 1", "0 1"][p[0] as usize % 2]) };
        return format!(".names {} x{g}\n{line}\n", name(cell));
    }
    let names: String = p.iter().map(|c| format!(" {}", name(*c))).collect();
    format!(".names{names} x{g}\n{}", lines(form, p.len(), m))
}

// The signals without inversion that get an inverter.
fn inverters(gates: &[(u32, Vec<u32>)], outputs: &[u32], m: Mistake) -> Vec<u32> {
    let mut used: Vec<u32> = if m == Mistake::OutputNotInverted { Vec::new() } else { outputs.to_vec() };
    for (form, p) in gates {
        match form {
            13 if m != Mistake::BufInputInverted => (),
            14 if m == Mistake::ControlNotInverted => used.push(p[0]),
            _ => used.extend(p),
        }
    }
    let mut bare: Vec<u32> = used.into_iter().filter(|c| c % 2 == 1 && (*c > 1 || m == Mistake::ConstantInverted)).map(|c| c - 1).collect();
    if m == Mistake::InvertersByUse {
        let mut seen = std::collections::HashSet::new();
        bare.retain(|c| seen.insert(*c));
        return bare;
    }
    bare.sort();
    if m != Mistake::InverterForEachUse {
        bare.dedup();
    }
    let (mut of_gates, mut of_inputs): (Vec<u32>, Vec<u32>) = bare.into_iter().partition(|c| c >> 31 == 0);
    if m == Mistake::InputsUpwards {
        of_inputs.reverse();
    }
    if m == Mistake::InputsFirst {
        std::mem::swap(&mut of_gates, &mut of_inputs);
    }
    [of_gates, of_inputs].concat()
}

pub fn written(p: &Plain, m: Mistake) -> String {
    let gates: Vec<(u32, Vec<u32>)> = p.gates.iter().map(|g| (g.form, g.pins.iter().map(|s| s.raw()).collect())).collect();
    let outputs: Vec<u32> = p.outputs.iter().map(|s| s.raw()).collect();
    let mut s = "# .blif file\n# Generated by quaigh\n\n.model quaigh\n\n.inputs".to_string();
    s += &(0..p.inputs).map(|k| format!(" i{k}")).collect::<String>();
    s += "\n\n.outputs";
    s += &outputs.iter().map(|c| format!(" {}", name(*c))).collect::<String>();
    s += "\n\n";
    let flops: String = gates.iter().enumerate().filter(|(_, (f, _))| *f == 14).map(|(g, (_, ps))| flop(p, g, ps, m)).collect();
    if m != Mistake::LatchInPlace {
        s += &flops;
    }
    if m != Mistake::NoEmptyLine || !flops.is_empty() {
        s += "\n";
    }
    for (g, (form, ps)) in gates.iter().enumerate() {
        if *form != 14 {
            s += &cover(g, *form, ps, m);
        } else if m == Mistake::LatchInPlace {
            s += &flop(p, g, ps, m);
        }
    }
    for c in inverters(&gates, &outputs, m) {
        s += &format!(".names {} {}\n0 1\n", name(c), name(c + 1));
    }
    s + ".names vdd\n1\n.names gnd\n"
}
