// Texts made from a seed: whole models in many spellings, damaged copies of them, and fragments.
use crate::generate::Numbers;
use crate::models;
use crate::texts::random;

fn pick<'a>(r: &mut Numbers, all: &[&'a str]) -> &'a str {
    all[r.below(all.len())]
}

// What stands between two tokens, and at the end of a statement.
fn gap(r: &mut Numbers) -> &'static str {
    if r.below(8) > 0 { " " } else { pick(r, &["  ", "\t", "\r", "\x0b", "\x0c", " \\\n", "\\\n", "\\\r\n", " \\\n\\\n "]) }
}

fn end(r: &mut Numbers) -> &'static str {
    if r.below(6) > 0 { "\n" } else { pick(r, &["\r\n", " \n", "\t\r\n", " # c\n", "#\\\n", "# .end\r\n", "\n\n", "\n#\n", "\n \t\n", "\\\n\n"]) }
}

fn statement(r: &mut Numbers, tokens: &[String]) -> String {
    let mut s = if r.below(20) == 0 { " ".to_string() } else { String::new() };
    for (i, t) in tokens.iter().enumerate() {
        if i > 0 {
            s += gap(r);
        }
        s += t;
    }
    s + end(r)
}

fn tokens(keyword: &str, names: &[String]) -> Vec<String> {
    [&[keyword.to_string()], names].concat()
}

// Distinct names, now and then odd ones.
fn distinct(r: &mut Numbers, n: usize) -> Vec<String> {
    let mut all: Vec<String> = Vec::new();
    while all.len() < n {
        let odd = r.below(4) == 0;
        let letters = if odd { "aB.-01\\_[]$\x00\x1c\x1f\x7f" } else { "abcxyz0123" };
        let letters: Vec<char> = letters.chars().collect();
        let name: String = (0..1 + r.below(3)).map(|_| letters[r.below(letters.len())]).collect();
        if !all.contains(&name) {
            all.push(name);
        }
    }
    all
}

// How a model is made.
struct Shape {
    inputs: usize,
    gates: usize,
    wide: usize,
    lines: usize,
    loops: bool,
    faults: usize, // one in so many lines or names is wrong, 0 for none
}

fn shape(r: &mut Numbers, k: usize) -> Shape {
    let faults = if k % 3 == 0 { 20 + r.below(40) } else { 0 };
    let loops = r.below(8) == 0;
    match k % 10 {
        0 => Shape { inputs: r.below(12), gates: r.below(30), wide: 12, lines: 4, loops, faults },
        1 => Shape { inputs: r.below(3), gates: 1 + r.below(3), wide: 40, lines: 10, loops, faults },
        2 => Shape { inputs: 1, gates: r.below(9), wide: 2, lines: 2, loops: true, faults },
        _ => Shape { inputs: r.below(5), gates: r.below(8), wide: 4, lines: 3, loops, faults },
    }
}

const GOOD_STARTS: &[&str] = &["0", "1", "1", "1", "2", "3"];
const BAD_STARTS: &[&str] = &["4", "01", "10", "00", "-", "x", "re", "NIL", "1\\", "+1", ".end", "\x00"];
const TYPES: &[&str] = &["re", "fe", "ah", "al", "as", "0", "1", "x"];

// What stands behind a latch's two names: nothing, a start value, a type and a control, or all of them and more. A start value is good unless a
// fault is wanted; a token that is none may be anything.
fn behind_latch(r: &mut Numbers, fault: bool) -> Vec<String> {
    let start = if fault { pick(r, BAD_STARTS) } else { pick(r, GOOD_STARTS) };
    let typed = [pick(r, TYPES), pick(r, &["clk", "NIL", "c", "1", "4"])];
    let more: Vec<&str> = (0..r.below(4)).map(|_| if r.below(2) == 0 { pick(r, BAD_STARTS) } else { pick(r, GOOD_STARTS) }).collect();
    let tokens = match r.below(if fault { 3 } else { 6 }) {
        0 => vec![start],
        1 => [&typed[..], &[start]].concat(),
        2 => [&typed[..], &[start], &more].concat(),
        3 => typed.to_vec(),
        4 => vec![start],
        _ => Vec::new(),
    };
    tokens.iter().map(|t| t.to_string()).collect()
}

// The lines of a cover, of one output unless a fault is wanted.
fn lines(r: &mut Numbers, s: &Shape, columns: usize) -> String {
    let n = r.below(s.lines + 1);
    let one = r.below(2) == 0;
    let dashes = r.below(4);
    let mut t = String::new();
    for _ in 0..n {
        let fault = s.faults > 0 && r.below(s.faults) == 0;
        let mut c: String = (0..columns).map(|_| if r.below(4) < dashes { '-' } else { ['0', '1'][r.below(2)] }).collect();
        let mut o = if one { "1" } else { "0" }.to_string();
        if fault {
            match r.below(5) {
                0 => c.push('1'),
                1 => c = c.replacen('1', "2", 1),
                2 => o = if one { "0" } else { "1" }.to_string(),
                3 => o = pick(r, &["-", "2", "11", "x"]).to_string(),
                _ => o += " 1",
            }
        }
        t += &statement(r, &if c.is_empty() { vec![o] } else { vec![c, o] });
    }
    t
}

// A model's statements: covers use inputs, flip-flops and covers of lower rank, or anything where loops are wanted.
fn model(r: &mut Numbers, s: &Shape, names: &[String]) -> Vec<String> {
    let (inputs, gates) = (&names[..s.inputs], &names[s.inputs..s.inputs + s.gates]);
    let mut rank: Vec<usize> = (0..s.gates).collect();
    for i in (1..s.gates).rev() {
        rank.swap(i, r.below(i + 1));
    }
    let flop: Vec<bool> = (0..s.gates).map(|_| r.below(4) == 0).collect();
    let mut all = Vec::new();
    for g in 0..s.gates {
        let usable: Vec<&String> = (0..s.gates)
            .filter(|h| s.loops || flop[g] || flop[*h] || rank[*h] < rank[g])
            .map(|h| &gates[h])
            .chain(inputs)
            .collect();
        let mut used = |r: &mut Numbers| {
            let wrong = s.faults > 0 && r.below(s.faults * 3) == 0;
            if wrong || usable.is_empty() { names[r.below(names.len())].clone() } else { usable[r.below(usable.len())].clone() }
        };
        let out = if s.faults > 0 && r.below(s.faults * 2) == 0 { used(r) } else { gates[g].clone() };
        if flop[g] {
            let mut t = vec![used(r), out];
            let fault = s.faults > 0 && r.below(s.faults) < 2;
            t.extend(behind_latch(r, fault));
            all.push(statement(r, &tokens(".latch", &t)));
        } else {
            let n = if usable.is_empty() { 0 } else { r.below(s.wide + 1) };
            let mut t: Vec<String> = (0..n).map(|_| used(r)).collect();
            t.push(out);
            all.push(statement(r, &tokens(".names", &t)) + &lines(r, s, n));
        }
    }
    ports(r, inputs, &names[..s.inputs + s.gates], &mut all);
    all
}

// Inputs and outputs in one or more statements anywhere.
fn ports(r: &mut Numbers, inputs: &[String], names: &[String], all: &mut Vec<String>) {
    let cut = r.below(inputs.len() + 1);
    let at = r.below(all.len() + 1);
    all.insert(if r.below(2) == 0 { 0 } else { at }, statement(r, &tokens(".inputs", &inputs[..cut])));
    let after = all.iter().position(|t| t.contains(".inputs")).unwrap() + 1;
    if cut < inputs.len() {
        let at = after + r.below(all.len() + 1 - after);
        all.insert(at, statement(r, &tokens(".inputs", &inputs[cut..])));
    }
    for _ in 0..r.below(3) {
        let outs: Vec<String> = (0..r.below(4)).filter(|_| !names.is_empty()).map(|_| names[r.below(names.len())].clone()).collect();
        let at = r.below(all.len() + 1);
        all.insert(at, statement(r, &tokens(".outputs", &outs)));
    }
}

fn whole(r: &mut Numbers, k: usize) -> Vec<u8> {
    let s = shape(r, k);
    let names = distinct(r, s.inputs + s.gates + 1);
    let mut all = model(r, &s, &names);
    if r.below(3) > 0 {
        all.insert(0, statement(r, &tokens(".model", &["m".to_string()])));
        let at = if r.below(4) == 0 { 1 + r.below(all.len()) } else { all.len() };
        all.insert(at, statement(r, &[".end".to_string()]));
    }
    if r.below(12) == 0 {
        let at = if r.below(2) == 0 { r.below(all.len() + 1) } else { all.len() };
        all.insert(at, statement(r, &[".exdc".to_string()]));
        let behind = &["", ".names\n", "1 1\n", ".inputs q q\n", ".model z\n", ".end\n", ".names q w\n2 2\n", ".latch q w 1\n", ".latch q w x\n"];
        all.push(pick(r, behind).to_string());
    }
    all.concat().into_bytes()
}

// A model with more behind its `.end`: the same again, another model, cube lines, names over the sizes, a statement that parses or one that does
// not, notes; now and then with `.exdc` before it, and a quarter damaged.
pub fn ended(r: &mut Numbers, k: usize) -> Vec<u8> {
    let s = shape(r, k);
    let names = distinct(r, s.inputs + s.gates + 1);
    let named = statement(r, &tokens(".model", &["m".to_string()]));
    let mut all = model(r, &s, &names);
    let before = if r.below(12) > 0 { 0 } else { r.below(all.len() + 1) };
    all.insert(before, named.clone());
    let end = if r.below(6) > 0 { all.len() } else { r.below(all.len() + 1) };
    all.insert(end, statement(r, &[".end".to_string()]));
    if r.below(20) == 0 {
        let at = r.below(end + 1);
        all.insert(at, statement(r, &[".exdc".to_string()]));
    }
    match r.below(7) {
        0 => all.extend(all.clone()),
        1 => {
            let (s, names) = (shape(r, k + 1), distinct(r, 20));
            let few = Shape { inputs: s.inputs.min(9), gates: s.gates.min(9), ..s };
            all.push(named);
            all.extend(model(r, &few, &names));
        }
        2 => {
            let columns = r.below(4);
            all.push(lines(r, &s, columns));
        }
        3 => all.push(pick(r, &[".inputs", ".outputs"]).to_string() + &" a".repeat(257) + "\n"),
        4 => all.push(pick(r, &[".names\n", ".inputs q q\n", ".outputs q w\n", ".latch q w 1\n", ".end\n", ".exdc\n.names\n"]).to_string()),
        5 => all.push(pick(r, &[".model\n", ".latch q\n", ".latch q w x\n", ".latch q w re c 4\n", ".gate\n", ".endd\n", ". end\n"]).to_string()),
        _ => all.push(pick(r, &["# notes\n", "notes, in words\n", "see .names\n"]).to_string()),
    }
    let t = all.concat().into_bytes();
    if r.below(4) == 0 { damaged(r, t) } else { t }
}

// Distinct long names that are hard to tell apart: of pieces that the index's hash does not tell apart, or alike but for one byte.
fn alike(r: &mut Numbers, n: usize) -> Vec<String> {
    let pieces = r.below(2) == 0;
    let length = if pieces { 4 + r.below(5) } else { 8 + r.below(60) };
    let mut all: Vec<String> = Vec::new();
    while all.len() < n {
        let place = r.below(length);
        let letter = (b'a' + r.below(26) as u8) as char;
        let piece = |k: usize, r: &mut Numbers| match pieces {
            true => pick(r, &["PPPPPPPPPPPP", "EMNSIHPSVDHK", "CUPKXKP^PXTN"]).to_string(),
            false => if k == place { letter } else { '_' }.to_string(),
        };
        let name: String = (0..length).map(|k| piece(k, r)).collect();
        if !all.contains(&name) {
            all.push(name);
        }
    }
    all
}

// A model with such names, now and then one cut short.
pub fn long_named(r: &mut Numbers, k: usize) -> Vec<u8> {
    let s = shape(r, k);
    let mut names = alike(r, s.inputs + s.gates + 1);
    if r.below(3) == 0 {
        let i = r.below(names.len());
        names[i].pop();
    }
    model(r, &s, &names).concat().into_bytes()
}

pub const BYTES: &[u8] = b"\n\n\r \t\\#.-01ab\x0b\x0c\x00\x1c\x7f\x80";

// One change: a byte changed, dropped, doubled or put in, a line dropped, doubled or swapped with another, the rest cut off.
pub fn damaged(r: &mut Numbers, mut t: Vec<u8>) -> Vec<u8> {
    if t.is_empty() {
        return t;
    }
    let at = r.below(t.len());
    let mut rows: Vec<Vec<u8>> = t.split_inclusive(|b| *b == b'\n').map(|l| l.to_vec()).collect();
    let (i, j) = (r.below(rows.len()), r.below(rows.len()));
    match r.below(8) {
        0 => t[at] = BYTES[r.below(BYTES.len())],
        1 => drop(t.remove(at)),
        2 => t.insert(at, t[at]),
        3 => t.insert(at, BYTES[r.below(BYTES.len())]),
        4 => t.truncate(at),
        5 => {
            rows.remove(i);
            t = rows.concat();
        }
        6 => {
            rows.insert(i, rows[j].clone());
            t = rows.concat();
        }
        _ => {
            rows.swap(i, j);
            t = rows.concat();
        }
    }
    t
}

// A short name by number.
fn short(k: usize) -> String {
    let letter = |d: usize| (b'A' + d as u8) as char;
    format!("{}{}", letter(k / 36 % 58), std::char::from_digit((k % 36) as u32, 36).unwrap())
}

// A latch or a cover that is the k-th gate, behind so many inputs, with its gates and pins.
fn definition(r: &mut Numbers, inputs: usize, k: usize, wide: usize, most: usize) -> (String, usize, usize) {
    let out = short(inputs + k);
    if r.below(5) == 0 {
        let start = pick(r, &["", " 0", " 1", " 2", " re c 1"]);
        return (format!(".latch {} {out}{start}\n", short(r.below(inputs + k + 1))), 1, 3);
    }
    let (n, rows) = (r.below(wide), r.below(most));
    let used: String = (0..n).map(|_| short(r.below(inputs + k)) + " ").collect();
    let column: String = (0..n).map(|_| ['0', '1', '-'][r.below(3)]).collect();
    let row = format!("{column} {}\n", r.below(2));
    (format!(".names {used}{out}\n{}", row.repeat(rows)), 1 + if rows > 1 { rows } else { 0 }, (rows + 1) * (n + 2))
}

// A model about as large as the sizes allow, one or a few over them or below.
pub fn near_limit(r: &mut Numbers) -> Vec<u8> {
    let inputs = 1 + r.below(258);
    let mut t = ".inputs".to_string() + &(0..inputs).map(|k| " ".to_string() + &short(k)).collect::<String>() + "\n";
    let (most_gates, most_pins) = (1020 + r.below(7), 16378 + r.below(10));
    let (wide, rows) = (1 + r.below(60), 1 + r.below(24));
    let (mut gates, mut pins, mut k) = (0, 0, 0);
    while gates < most_gates && pins < most_pins && t.len() < 31800 {
        let close = gates + 24 > most_gates || pins + 1500 > most_pins;
        let (d, g, p) = definition(r, inputs, k, if close { 1 } else { wide }, if close { 2 } else { rows });
        t += &d;
        (gates, pins, k) = (gates + g, pins + p, k + 1);
    }
    let outputs = r.below(258);
    t += &(".outputs".to_string() + &(0..outputs).map(|_| " ".to_string() + &short(r.below(inputs + k))).collect::<String>() + "\n");
    t.truncate(32769);
    t.into_bytes()
}

// The text of a number: most are whole models, a third damaged once or more, a few fragments, and one in 600 is near a limit.
pub fn text(r: &mut Numbers, k: usize) -> Vec<u8> {
    if k % 600 == 599 {
        return near_limit(r);
    }
    match k % 12 {
        0 => models::text(r).into_bytes(),
        1 => random(r),
        2..=5 => {
            let mut t = whole(r, k / 12);
            for _ in 0..1 + r.below(2) {
                t = damaged(r, t);
            }
            t
        }
        _ => whole(r, k / 12),
    }
}
