// The texts that are measured. Each family is made at sizes up to the limits, so that the growth shows.
use std::fmt::Write;

pub struct Input {
    pub name: String,
    pub text: Vec<u8>,
    pub file: bool,
}

// Numbers from a seed.
pub struct Numbers(pub u64);

impl Numbers {
    pub fn below(&mut self, n: usize) -> usize {
        self.0 = self.0.wrapping_mul(6364136223846793005).wrapping_add(1442695040888963407);
        (self.0 >> 33) as usize % n
    }
}

const SIZES: [usize; 6] = [100, 300, 1_000, 3_000, 10_000, 32_768];

// Gates of two inputs over three inputs, each a cover of one line, with names from `name`, up to a size.
fn gates(size: usize, name: &dyn Fn(usize) -> String) -> String {
    let mut numbers = Numbers(size as u64);
    let mut names: Vec<String> = (0..3).map(name).collect();
    let mut text = format!(".model m\n.inputs {}\n.outputs {}\n", names.join(" "), name(3));
    for g in 3..1003 {
        let (a, b) = (numbers.below(names.len()), names.len() - 1 - numbers.below(names.len().min(20)));
        let cover = format!(".names {} {} {}\n{} 1\n", names[a], names[b], name(g), ["11", "00", "10", "-1"][numbers.below(4)]);
        if text.len() + cover.len() + 5 > size {
            break;
        }
        text += &cover;
        names.push(name(g));
    }
    text + ".end\n"
}

// One cover of so many inputs and lines of all three characters, up to a size.
fn cover(size: usize, inputs: usize) -> String {
    let mut numbers = Numbers(size as u64);
    let names: Vec<String> = (0..inputs).map(|i| format!("i{i}")).collect();
    let mut text = format!(".model m\n.inputs {}\n.outputs y\n.names {} y\n", names.join(" "), names.join(" "));
    let most = (16384 / (inputs + 2) - 1).min(1000);
    for _ in 0..most {
        if text.len() + inputs + 8 > size {
            break;
        }
        text.extend((0..inputs).map(|_| ['0', '1', '-'][numbers.below(3)]));
        text += " 1\n";
    }
    text + ".end\n"
}

// As many definitions as there may be, then covers that use them, up to a size.
fn definitions(size: usize) -> String {
    let mut numbers = Numbers(size as u64);
    let inputs: Vec<String> = (0..256).map(|i| format!("n{i}")).collect();
    let mut text = format!(".model m\n.inputs {}\n", inputs.join(" "));
    for g in 0..1000 {
        let mut cover = ".names".to_string();
        for _ in 0..4 {
            let k = numbers.below(256 + g);
            let _ = if k < 256 { write!(cover, " n{k}") } else { write!(cover, " g{}", k - 256) };
        }
        let _ = write!(cover, " g{g}\n1111 1\n");
        if text.len() + cover.len() + 5 > size {
            break;
        }
        text += &cover;
    }
    text + ".end\n"
}

// Names of four letters or digits that the part's index puts into one tree.
fn one_tree() -> impl Iterator<Item = String> {
    let signs = b"abcdefghijklmnopqrstuvwxyz0123456789";
    let names = (0..36usize.pow(4)).map(|k| [k / 46656, k / 1296 % 36, k / 36 % 36, k % 36].map(|d| signs[d]));
    names.filter(|n| n.iter().fold(0, |h, c| (h * 623 + *c as usize) % 1024) == 0).map(|n| String::from_utf8_lossy(&n).into_owned())
}

// A chain of flip-flops, up to a size.
fn latches(size: usize) -> String {
    let mut text = ".model m\n.inputs a\n.outputs q0\n".to_string();
    for g in 0..1000 {
        let line = if g == 0 { ".latch a q0 0\n".to_string() } else { format!(".latch q{} q{g} 0\n", g - 1) };
        if text.len() + line.len() + 5 > size {
            break;
        }
        text += &line;
    }
    text + ".end\n"
}

// The Xor of so many inputs by all its lines.
fn xor(inputs: usize) -> String {
    let names: Vec<String> = (0..inputs).map(|i| format!("i{i}")).collect();
    let mut text = format!(".model m\n.inputs {}\n.outputs y\n.names {} y\n", names.join(" "), names.join(" "));
    for mask in (0..1usize << inputs).filter(|m| m.count_ones() % 2 == 1) {
        text.extend((0..inputs).map(|i| if mask >> i & 1 == 1 { '1' } else { '0' }));
        text += " 1\n";
    }
    text + ".end\n"
}

// Changes to a name of twelve letters that leave its hash as it is: short vectors d with d[0] * 623^11 + .. + d[11] = 0 modulo 2^54, found
// by lattice reduction.
const NO_CHANGE: [[i32; 12]; 12] = [
    [-11, -3, -2, 3, -7, -8, 0, 3, 6, -12, -8, -5],
    [-13, 5, 0, -5, 8, -5, 0, 14, 0, 8, 4, -2],
    [7, 4, 2, -13, -10, 13, 6, -8, 4, 1, -3, 9],
    [-3, -2, 3, -5, -9, -15, 8, 5, -3, 14, 0, -1],
    [5, -2, -8, -4, 4, 0, 8, 0, 1, -21, -13, 8],
    [-2, 11, -8, -2, -10, 1, 14, -5, -9, 6, -9, -3],
    [3, 15, 8, -4, -8, -5, -3, -15, -8, 0, 2, 3],
    [-7, 1, 7, -13, 10, -21, 2, -2, 9, 1, -10, -3],
    [-15, 4, 6, -9, -2, 10, -9, 8, -2, 3, -19, -9],
    [1, 2, 7, 5, 2, 6, 15, 3, -3, 8, 16, -18],
    [-6, -7, 11, 4, 10, 8, 16, 3, -10, -1, -5, 9],
    [-4, 13, 4, 18, -13, -4, 4, 8, 2, 10, -5, 7],
];

// Names of one hash: sums of some of the changes to a name of twelve letters, where each letter is one that a name may have.
fn one_hash() -> impl Iterator<Item = String> {
    (0..1u32 << NO_CHANGE.len()).filter_map(|some| {
        let mut name = [80i32; 12];
        for (_, change) in NO_CHANGE.iter().enumerate().filter(|(i, _)| some >> i & 1 == 1) {
            name.iter_mut().zip(change).for_each(|(c, d)| *c += d);
        }
        if name.iter().all(|c| (36..127).contains(c) && *c != 92) {
            Some(name.iter().map(|c| *c as u8 as char).collect())
        } else {
            None
        }
    })
}

// A text made against the index: as many gates as there is room for, or names, each with two earlier names as inputs.
fn against_the_index(name: &str, names: Vec<String>) -> Input {
    let mut numbers = Numbers(1);
    let mut text = format!(".model m\n.inputs {}\n", names[..3].join(" "));
    for g in 3..names.len() {
        let gate = format!(".names {} {} {}\n11 1\n", names[numbers.below(g)], names[numbers.below(g)], names[g]);
        if text.len() + gate.len() > 32768 {
            break;
        }
        text += &gate;
    }
    Input { name: name.to_string(), text: text.into_bytes(), file: false }
}

// Names that share a tree of the index, and names that share a whole hash.
pub fn worst() -> [Input; 2] {
    [against_the_index("one-tree", one_tree().take(1027).collect()), against_the_index("one-hash", one_hash().take(1027).collect())]
}

// A text of one piece, as often as 32,768 bytes have room for.
fn repeated(piece: &str) -> String {
    piece.repeat(32768 / piece.len())
}

pub fn inputs() -> Vec<Input> {
    let mut all = Vec::new();
    let mut add = |name: String, text: String| all.push(Input { name, text: text.into_bytes(), file: false });
    let short = |g: usize| if g < 26 { ((b'a' + g as u8) as char).to_string() } else { format!("n{g}") };
    let long = |g: usize| format!("top/interlock/uplink/command/decoder/stage_{g:04}");
    for size in SIZES {
        add(format!("small-gates-{size}"), gates(size, &short));
    }
    add("one-gate-100".to_string(), gates(100, &|g| format!("net{:04}", 997 + g)));
    add("no-gates".to_string(), ".model m\n.inputs a b\n.outputs a\n.end\n".to_string());
    for size in &SIZES[2..] {
        add(format!("long-names-{size}"), gates(*size, &long));
        add(format!("latches-{size}"), latches(*size));
    }
    for size in &SIZES[1..] {
        add(format!("cover-of-16-{size}"), cover(*size, 16));
    }
    for size in &SIZES[3..5] {
        add(format!("cover-of-200-{size}"), cover(*size, 200));
    }
    add("huge-cover".to_string(), cover(32768, 40));
    for size in &SIZES[3..] {
        add(format!("definitions-and-uses-{size}"), definitions(*size));
    }
    add("xor-of-10".to_string(), xor(10));
    add("comment-one-line".to_string(), format!("#{}\n", "c".repeat(32766)));
    add("comment-lines".to_string(), repeated("# made by a tool, with the date, the options and the names of its files\n"));
    add("continuations".to_string(), repeated("\\\n"));
    add("blanks".to_string(), repeated(" "));
    add("empty-lines".to_string(), repeated("\n"));
    all
}

// The BLIF files of a folder, by name.
pub fn files(folder: &str) -> Vec<Input> {
    let mut paths = Vec::new();
    let mut folders = vec![std::path::PathBuf::from(folder)];
    while let Some(f) = folders.pop() {
        for entry in std::fs::read_dir(f).unwrap().flatten() {
            let path = entry.path();
            if path.is_dir() {
                folders.push(path);
            } else if path.extension().is_some_and(|e| e == "blif") {
                paths.push(path);
            }
        }
    }
    paths.sort();
    let name = |p: &std::path::PathBuf| p.file_stem().unwrap().to_string_lossy().into_owned();
    paths.iter().map(|p| Input { name: name(p), text: std::fs::read(p).unwrap(), file: true }).collect()
}
