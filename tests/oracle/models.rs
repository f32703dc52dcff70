// BLIF texts made from a seed, what Quaigh's `read_blif` makes of them, and the checks of crate worked_cases.
use crate::generate::{make, Node, Numbers, Plain, Shape};
use crate::io::blif::read_blif;
use crate::lent::text as written;
use crate::reads::{wanted, Wanted};
use crate::{Network, Signal};
use std::panic::{catch_unwind, AssertUnwindSafe};

// A network, or a refusal's number.
pub enum Answer {
    Read(Network),
    Refused(u32),
}

// The number of a message of `read_blif`.
fn number(message: &str) -> u32 {
    let known = [
        ("Multiple models", 7),
        ("End statement", 8),
        ("with no output", 9),
        ("defined twice", 10),
        ("not defined", 11),
        ("Invalid cube", 12),
        ("Inconsistent", 13),
        ("not supported", 5),
    ];
    known.iter().find(|(m, _)| message.contains(m)).expect(message).1
}

// What a reader gives for a text in whose statements no name is missing, and whether it panics: where a latch's input is undefined (11) and
// at a loop (14).
pub fn outcome(read: impl FnOnce() -> Result<Network, String>) -> (Answer, bool) {
    match catch_unwind(AssertUnwindSafe(read)) {
        Ok(Ok(n)) => (Answer::Read(n), false),
        Ok(Err(m)) => (Answer::Refused(number(&m)), false),
        Err(e) => {
            let why = e.downcast_ref::<String>().cloned().or(e.downcast_ref::<&str>().map(|s| s.to_string())).unwrap_or_default();
            let looped = why.to_lowercase().contains("loop");
            assert!(looped || why.contains("no entry found"), "another panic: {why}");
            (Answer::Refused(if looped { 14 } else { 11 }), true)
        }
    }
}

// What `read_blif` gives for such a text.
pub fn built(text: &[u8]) -> (Answer, bool) {
    outcome(|| read_blif(text))
}

const NAMES: [&str; 7] = ["a", "b", "c", "d", "y", "z", "w"];

fn name(r: &mut Numbers, names: &[String]) -> String {
    if names.is_empty() || r.below(25) == 0 { NAMES[r.below(NAMES.len())].to_string() } else { names[r.below(names.len())].clone() }
}

// A cover's lines, of one output and never two or more of 0, where Quaigh and the Berkeley text part; now and then a wrong one.
fn cubes(r: &mut Numbers, inputs: usize) -> String {
    let n = r.below(4);
    let out = n >= 2 || r.below(2) == 0;
    let mixed = r.below(12) == 0;
    let mut s = String::new();
    for k in 0..n {
        let wrong = r.below(30) == 0;
        let columns: String = (0..inputs + wrong as usize).map(|_| ['0', '1', '-'][r.below(3)]).collect();
        let one = out && !(mixed && k == 1);
        let o = if r.below(60) == 0 { "2" } else if one { "1" } else { "0" };
        s += &format!("{columns} {o}\n");
    }
    s
}

// What stands behind a latch's names; the last ones are refused.
const STARTS: [&str; 10] = ["", " 0", " 1", " 3", " re clk", " re clk 2", " re clk 1", " x", " re", " re clk 10 1"];

// A text: distinct names defined by inputs, latches and covers, used anywhere, with a fault now and then.
pub fn text(r: &mut Numbers) -> String {
    let inputs = r.below(4);
    let gates = r.below(4);
    let mut names: Vec<String> = NAMES[..inputs + gates].iter().map(|n| n.to_string()).collect();
    let mut s = String::new();
    if r.below(8) > 0 {
        s += ".model m # name\n";
    }
    s += &format!(".inputs {}\n", names[..inputs].join(if r.below(2) == 0 { " " } else { " \\\n" }));
    if r.below(2) == 0 {
        s += &format!(".outputs {} {}\n", name(r, &names), name(r, &names));
    }
    for g in 0..gates {
        if r.below(30) == 0 {
            names[inputs + g] = names[0].clone();
        }
        let out = names[inputs + g].clone();
        if r.below(3) == 0 {
            let any = r.below(4) == 0;
            let start = STARTS[r.below(if any { STARTS.len() } else { 7 })];
            s += &format!(".latch {} {out}{start}\r\n", name(r, &names));
        } else {
            let n = r.below(4);
            let used: Vec<String> = (0..n).map(|_| name(r, &names)).collect();
            s += &format!(".names {} {out}\n", used.join(" "));
            if r.below(6) == 0 {
                s += "\n# lines\n";
            }
            s += &cubes(r, n);
        }
    }
    s += match r.below(30) {
        0 => ".gate\n",
        1 => ".names\n",
        2 => "1 1\n.end\n.outputs q\n",
        3 | 4 => ".exdc\n.names q\n",
        5 => ".end\n.end\n",
        6 => ".end\n.inputs q\n.model n\n",
        7 => ".end\n.names\n1 1\n",
        8 => ".end\n2 2\n.latch q\n",
        9 => ".end\n0 1\n.names y y\n1 1\n",
        10 => ".model\n",
        11 => ".latch a\n",
        12 | 13 => ".model n\n",
        _ => "",
    };
    s
}

// ---- the same as terms of crate worked_cases, specs/Checks.antt

fn signal(s: &Signal) -> String {
    let bare = s.without_inversion();
    let node = if bare.is_constant() {
        "zero_s".to_string()
    } else if bare.is_input() {
        format!("plain (Input {})", bare.input())
    } else {
        format!("plain (Var {})", bare.var())
    };
    match (s.is_inverted(), bare.is_constant()) {
        (false, _) => node,
        (true, true) => "one_s".to_string(),
        (true, false) => format!("invert ({node})"),
    }
}

fn listed(parts: Vec<String>) -> String {
    parts.iter().map(|p| if p.contains(' ') { format!("({p}) ∷ ") } else { format!("{p} ∷ ") }).collect::<String>() + "[]"
}

const FORMS: [&str; 14] = ["", "And2", "Xor2", "And3", "Xor3", "Maj3", "Mux3", "AndN", "OrN", "NandN", "NorN", "XorN", "XnorN", "Buf"];

fn gate(g: &Node) -> String {
    if g.is_flop() {
        let [d, e, r] = [0, 1, 2].map(|k| signal(&g.pins[k]));
        return format!("Dff (record {{ data_in = {d}; enable = {e}; reset = {r}; start = {} }})", g.start == 1);
    }
    format!("Comb {} ({})", FORMS[g.form as usize], listed(g.pins.iter().map(signal).collect()))
}

fn net(p: &Plain) -> String {
    let gates = listed(p.gates.iter().map(gate).collect());
    format!("net_from {} ({gates}) ({})", p.inputs, listed(p.outputs.iter().map(signal).collect()))
}

fn quoted(text: &str) -> String {
    text.replace('\\', "\\\\").replace('\n', "\\n").replace('\r', "\\r")
}

// Plain flip-flops, since Quaigh writes others in a notation of its own.
pub fn plain_flops(mut p: Plain) -> Plain {
    for g in p.gates.iter_mut().filter(|g| g.is_flop()) {
        g.pins[1] = Signal::one();
        g.pins[2] = Signal::zero();
    }
    p
}

// The file specs/Stored.antt of that crate, with all that its checks may use.
const HEAD: &str = "-- Texts and networks made from a seed, with Quaigh's answers and document 02's start values (tests/oracle/checks). Assumes nothing: these
-- are definitions.
use Rattle.std.specs.Prelude.{true, false, List, [], ◌∷◌}
use Rattle.lists.specs.Lists.{bytes}
use Rattle.signal.specs.Signal.{Input, Var, plain, zero_s, one_s, invert}
use Rattle.gates.specs.Gate.{And2, Xor2, And3, Xor3, Maj3, Mux3, AndN, OrN, NandN, NorN, XorN, XnorN, Buf, Comb, Dff}
use Rattle.network.specs.Net.{net_from}
use Rattle.worked_cases.specs.Checks.{Check, reads, writes, network, number}

-- the checks
unfoldable pub stored : List Check
stored =
";

// What the list uses whatever its checks are.
const ALWAYS: [&str; 4] = ["List", "[]", "◌∷◌", "Check"];

// The file's head for such checks, which imports what they use and nothing else.
fn head(checks: &str) -> String {
    let words: Vec<&str> = checks.split(|c: char| !c.is_alphanumeric() && c != '_').collect();
    let mut s = String::new();
    for line in HEAD.lines() {
        let Some((module, names)) = line.strip_prefix("use ").and_then(|l| l.strip_suffix('}')).and_then(|l| l.split_once(".{")) else {
            s += &format!("{line}\n");
            continue;
        };
        let used: Vec<&str> = names.split(", ").filter(|n| ALWAYS.contains(n) || words.contains(n)).collect();
        if !used.is_empty() {
            s += &format!("use {module}.{{{}}}\n", used.join(", "));
        }
    }
    s
}

// Checks of `read_text` and `text_of`: COUNT texts and a network for every four; tells how often each answer occurs.
pub fn checks(seed: u64, count: usize) -> String {
    let mut r = Numbers(seed);
    let mut parts = Vec::new();
    let mut seen = std::collections::BTreeMap::new();
    for _ in 0..count {
        let t = text(&mut r);
        let (kind, answer) = match wanted(t.as_bytes()) {
            Wanted::Read(p) => (0, format!("network ({})", net(&p))),
            Wanted::Refused(k) => (k, format!("number {k}")),
        };
        *seen.entry(kind).or_insert(0) += 1;
        parts.push(format!("reads (bytes \"{}\") ({answer})", quoted(&t)));
    }
    let texts = parts.len();
    for k in 0..count / 4 {
        let shape = Shape { inputs: k % 4, gates: k % 5, outputs: k % 3, wide: 3, loops: k % 2 == 0, flops: 1 + k % 4 };
        let p = plain_flops(make(&mut r, &shape));
        if let Ok(t) = catch_unwind(|| written(&p)) {
            parts.push(format!("writes ({}) (bytes \"{}\")", net(&p), quoted(&t)));
        }
    }
    eprintln!("{texts} texts, {} networks; answers (0 for read): {seen:?}", parts.len() - texts);
    let list = parts.join("\n    ∷ ");
    format!("{}    {list}\n    ∷ []\n", head(&list))
}
