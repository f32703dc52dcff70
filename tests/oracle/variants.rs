// The sort once more, in plain words, with the mistakes that ports make. Without a mistake it must agree with Quaigh's `topo_sort`;
// the recorded list must hold, for each mistake, a network at which it gives another answer.
use crate::generate::Plain;

#[derive(Clone, Copy, PartialEq, Debug)]
pub enum Mistake {
    Nothing,
    LowestFirst,
    FlopDataCounts,
    RepeatsOnce,
    RepeatsTwice, // a repeat is counted twice over, and lowered once
    Forwards,
    FlopsLast,
    LeftAlone,
    PoppedFlopLowers,
    Bits(u32), // a count has so many bits
}

pub const MISTAKES: [Mistake; 10] = [
    Mistake::LowestFirst,
    Mistake::FlopDataCounts,
    Mistake::RepeatsOnce,
    Mistake::RepeatsTwice,
    Mistake::Forwards,
    Mistake::FlopsLast,
    Mistake::LeftAlone,
    Mistake::PoppedFlopLowers,
    Mistake::Bits(8),
    Mistake::Bits(14),
];

// The new order as old numbers; nothing at a loop.
pub fn order(net: &Plain, m: Mistake) -> Option<Vec<usize>> {
    let n = net.gates.len();
    if m == Mistake::LeftAlone {
        return Some((0..n).collect());
    }
    let comb = |g: usize| !net.gates[g].is_flop();
    let used = |g: usize| -> Vec<usize> {
        let mut v: Vec<usize> = net.gates[g].pins.iter().filter(|s| s.is_var()).map(|s| s.var() as usize).collect();
        if m == Mistake::RepeatsOnce {
            let mut seen = Vec::new();
            v.retain(|x| {
                if seen.contains(x) {
                    false
                } else {
                    seen.push(*x);
                    true
                }
            });
        }
        v
    };
    let held = |count: i64| if let Mistake::Bits(k) = m { count & ((1 << k) - 1) } else { count };
    let mut counts = vec![0i64; n];
    for g in 0..n {
        if comb(g) || m == Mistake::FlopDataCounts {
            let uses = used(g);
            for (k, d) in uses.iter().enumerate() {
                let again = m == Mistake::RepeatsTwice && uses[..k].contains(d);
                counts[*d] = held(counts[*d] + 1 + again as i64);
            }
        }
    }
    let mut visited: Vec<bool> = (0..n).map(|g| !comb(g)).collect();
    let mut stack: Vec<usize> = (0..n).filter(|g| counts[*g] == 0 && !visited[*g]).collect();
    let mut recorded = Vec::new();
    while !stack.is_empty() {
        let v = if m == Mistake::LowestFirst {
            let at = (0..stack.len()).min_by_key(|i| stack[*i]).unwrap();
            stack.remove(at)
        } else {
            stack.pop().unwrap()
        };
        if visited[v] {
            if m != Mistake::PoppedFlopLowers || comb(v) {
                continue;
            }
        } else {
            visited[v] = true;
            recorded.push(v);
        }
        for d in used(v) {
            counts[d] = held(counts[d] - 1);
            if counts[d] == 0 {
                stack.push(d);
            }
        }
    }
    let flops: Vec<usize> = (0..n).filter(|g| !comb(*g)).collect();
    if m != Mistake::Forwards {
        recorded.reverse();
    }
    let all = if m == Mistake::FlopsLast {
        [recorded, flops].concat()
    } else {
        [flops, recorded].concat()
    };
    if all.len() == n {
        Some(all)
    } else {
        None
    }
}

// How a sort may go wrong at start values, with the gates in the right order.
#[derive(Clone, Copy, PartialEq, Debug)]
pub enum StartMistake {
    Lost,         // all are zero
    NotMoved,     // each stays at the number that its gate had
    Backwards,    // each goes the way that the gate of its new number came
    FlopsDown,    // those of the flip-flops in reversed order
    FirstForAll,  // every flip-flop has that of the first
    OnlyToMoved,  // lost where a flip-flop keeps its number
}

pub const START_MISTAKES: [StartMistake; 6] = [
    StartMistake::Lost,
    StartMistake::NotMoved,
    StartMistake::Backwards,
    StartMistake::FlopsDown,
    StartMistake::FirstForAll,
    StartMistake::OnlyToMoved,
];

// The start values in an order of old numbers.
pub fn starts(net: &Plain, order: &[usize], m: StartMistake) -> Vec<u32> {
    let start = |g: usize| net.gates[g].start;
    let place = |g: usize| order.iter().position(|old| *old == g).unwrap();
    let flops = net.flops();
    let one = |(new, old): (usize, &usize)| match (m, flops.iter().position(|f| f == old)) {
        (StartMistake::NotMoved, _) => start(new),
        (StartMistake::Backwards, _) => start(place(new)),
        (StartMistake::FlopsDown, Some(k)) => start(flops[flops.len() - 1 - k]),
        (StartMistake::FirstForAll, Some(_)) => start(flops[0]),
        (StartMistake::OnlyToMoved, Some(_)) if *old != new => start(*old),
        _ => 0,
    };
    order.iter().enumerate().map(one).collect()
}
