// Texts by hand at the limits of the sizes and one over, with the answer that documents 01 and 02 give each (0: read).

fn names(keyword: &str, first: &str, n: usize) -> String {
    keyword.to_string() + &(0..n).map(|k| format!(" {first}{k}")).collect::<String>() + "\n"
}

// A keyword with one name again and again.
fn again(keyword: &str, name: &str, n: usize) -> String {
    format!("{keyword}{}\n", format!(" {name}").repeat(n))
}

fn lines(line: &str, n: usize) -> String {
    format!("{line}\n").repeat(n)
}

// A cover of a with so many columns, all of them dashes but the first and the last, and so many lines.
fn cover(columns: usize, n: usize) -> String {
    let column = format!("1{}0 1", "-".repeat(columns - 2));
    again(".names", "a", columns).trim_end().to_string() + " y\n" + &lines(&column, n)
}

// Inputs and outputs.
fn ports() -> Vec<(u32, String)> {
    vec![
        (0, names(".inputs", "i", 256) + ".outputs i255 i0\n"),
        (6, names(".inputs", "i", 257)),
        (10, again(".inputs", "a", 256)),
        (6, again(".inputs", "a", 257)),
        (6, lines(".inputs a", 257)),
        (0, ".inputs a\n".to_string() + &again(".outputs", "a", 256)),
        (6, ".inputs a\n".to_string() + &again(".outputs", "a", 257)),
        (11, again(".outputs", "a", 256)),
        (5, again(".inputs", "a", 257) + ".foo"),
        (4, again(".outputs", "a", 257) + ".model"),
        (0, ".exdc\n".to_string() + &again(".inputs", "a", 257) + &again(".outputs", "a", 257)),
        (0, ".model m\n.end\n".to_string() + &again(".inputs", "a", 257)),
    ]
}

fn gates() -> Vec<(u32, String)> {
    let latches = |n: usize| (0..n).map(|k| format!(".latch q{} q{k}\n", (k + 1) % n)).collect::<String>();
    let chain = |n: usize| ".names x0\n".to_string() + &(1..n).map(|k| format!(".names x{} x{k}\n1 1\n", k - 1)).collect::<String>();
    let empty = |n: usize| (0..n).map(|k| format!(".names {k}\n")).collect::<String>();
    vec![
        (0, latches(1024) + ".outputs q0 q1023\n"),
        (6, lines(".latch a b", 1025)),
        (10, lines(".latch a b", 1024)),
        (0, ".outputs x1023\n".to_string() + &chain(1024)),
        (6, lines(".names", 1025)),
        (9, lines(".names", 1024)),
        (0, ".names y\n".to_string() + &lines("1", 1023) + ".outputs y\n"),
        (6, ".names y\n".to_string() + &lines("1", 1024)),
        (0, ".names y\n".to_string() + &lines("0", 1023)),
        (9, ".names\n".to_string() + &lines("1", 1023)),
        (6, ".names\n".to_string() + &lines("1", 1024)),
        // one line adds no gate
        (0, empty(1023) + ".names y\n1\n"),
        (6, empty(1023) + ".names y\n1\n1\n"),
        // stray lines and what follows .exdc count nothing
        (0, lines("1", 2000) + ".exdc\n" + &lines(".names", 1025)),
        // 1,280 definitions, used from the last to the first
        (0, names(".inputs", "i", 256) + &empty(1024) + &again(".outputs", "1023", 1) + ".outputs i0 0 i255\n"),
        (10, names(".inputs", "i", 256) + &empty(1023) + ".names i255\n"),
    ]
}

// Behind `.end` nothing is counted, also where it is refused; what stands before it is.
fn ended() -> Vec<(u32, String)> {
    let model = || ".model m\n".to_string();
    let outputs = again(".outputs", "a", 257);
    let gates = lines(".names", 1025);
    let pins = cover(8191, 1);
    vec![
        (0, model() + ".end\n" + &outputs),
        (0, model() + ".end\n" + &gates),
        (0, model() + ".end\n" + &pins),
        (8, ".end\n".to_string() + &gates),
        (8, ".end\n".to_string() + &outputs + ".model m\n"),
        (6, model() + &outputs + ".end\n"),
        (6, model() + &gates + ".end\n"),
        (6, model() + &pins + ".end\n"),
        (6, gates + ".end\n"),
        // the most before it and one behind it
        (0, model() + &names(".inputs", "i", 256) + ".end\n.inputs a\n"),
        (0, model() + ".inputs a\n" + &again(".outputs", "a", 256) + ".end\n.outputs a\n"),
        (10, model() + &lines(".latch a b", 1024) + ".end\n.latch a b\n"),
        (0, model() + ".inputs a\n" + &cover(8190, 1) + ".end\n.names z\n"),
        (0, model() + ".names y\n" + &lines("1", 1023) + ".end\n1\n"),
        (6, model() + ".names y\n" + &lines("1", 1024) + ".end\n"),
    ]
}

// Start values: before 6, of as many latches as there may be, and of one more.
fn starts() -> Vec<(u32, String)> {
    let ring = |n: usize, start: &dyn Fn(usize) -> &'static str| {
        (0..n).map(|k| format!(".latch {} {k} {}\n", (k + 1) % n, start(k))).collect::<String>()
    };
    let wrong = ".latch a a x\n";
    vec![
        (0, ring(1024, &|k| ["0", "1", "2", "1", "3"][k % 5]) + ".outputs 0 1 1023\n"),
        (0, ring(1024, &|_| "re c 1")),
        (0, ring(300, &|k| if k == 299 { "re c 1 x y z" } else { "re c" }) + ".names y\n" + &lines("1", 723)),
        (6, ring(1025, &|_| "1")),
        (34, ring(1025, &|k| if k == 1024 { "x" } else { "1" })),
        (34, ring(1024, &|k| if k == 1023 { "4" } else { "1" })),
        (34, wrong.to_string() + &again(".inputs", "b", 257)),
        (34, again(".outputs", "b", 257) + wrong),
        (34, lines(".names", 1025) + wrong),
        (34, wrong.to_string() + &cover(8191, 1)),
        (34, ".model m\n".to_string() + &lines(".names", 1025) + ".end\n" + wrong),
        (4, ".latch a\n".to_string() + wrong + &again(".inputs", "b", 257)),
    ]
}

fn pins() -> Vec<(u32, String)> {
    let wide = |n: usize| ".inputs a\n.outputs y\n".to_string() + &cover(n, 1);
    vec![
        // (1 + 1) * (8190 + 2), and 2 more for one more name
        (0, wide(8190)),
        (6, wide(8191)),
        // 16,382 with 2 for a cover, and with 3 for a latch
        (0, wide(8189) + ".names z\n"),
        (6, wide(8189) + ".latch a z\n"),
        // (127 + 1) * (126 + 2); (112 + 1) * (143 + 2) is one over
        (0, ".inputs a\n.outputs y\n".to_string() + &cover(126, 127)),
        (6, ".inputs a\n.outputs y\n".to_string() + &cover(143, 112)),
        // 1,024 gates and 16,384 pins at once, every column a literal, with output 0
        (0, ".inputs a b\n.outputs y\n.names a b a b a b a b a b a b a b y\n".to_string() + &lines("10101010101010 0", 1023)),
        // one gate used 89 * 180 times, with (0 + 1) * (0 + 2) + (89 + 1) * (180 + 2) pins counted
        (0, ".outputs y\n.names a\n".to_string() + again(".names", "a", 180).trim_end() + " y\n" + &lines(&("10".repeat(90) + " 1"), 89)),
    ]
}

// Bytes and tokens.
fn bytes() -> Vec<(u32, Vec<u8>)> {
    let filled = |before: &str, fill: u8, n: usize| {
        let mut t = before.as_bytes().to_vec();
        t.resize(n, fill);
        t
    };
    let mut over = filled("", b'#', 32769);
    over[32768] = 128;
    let mut last = filled(".foo", b' ', 32768);
    last[32767] = 128;
    vec![
        (34, filled(".latch a a ", b'1', 32768)),
        (2, filled(".latch a a x\n", b' ', 32769)),
        (34, filled(".latch a a x\n", b' ', 32768)),
        (0, filled(".latch a a 1\n", b'\n', 32768)),
        (0, filled(".inputs ", b'x', 32768)),
        (2, over),
        (3, last),
        (0, b"1 ".repeat(16384)),
        (0, b"1\n".repeat(16384)),
        (0, b"\\\n".repeat(16384)),
        (0, filled("", b'\n', 32768)),
        (6, b".names y\n".iter().copied().chain(b"1 ".repeat(8).into_iter()).chain(b"\n1".repeat(16370)).collect()),
    ]
}

pub fn sizes() -> Vec<(u32, Vec<u8>)> {
    let texts = [ports(), gates(), pins(), ended(), starts()].concat();
    let mut all: Vec<(u32, Vec<u8>)> = texts.into_iter().map(|(k, t)| (k, t.into_bytes())).collect();
    all.extend(bytes());
    all
}
