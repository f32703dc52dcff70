// Netlists with sheets by hand, with what document 02 says of each.
use crate::report::{Asked, CELLS, MOST_NETLIST, MOST_SHEET};

pub enum Hand {
    Counts(usize, usize), // accepted and rejected
    Refused(u32),
    Compared, // a report, and its counts are on no paper
}

type Case = (Asked, Hand);

// A slice that has room for every report.
pub const ROOM: usize = 100;

pub const WIRE: &str = ".inputs a\n.outputs a\n";
pub const CROSSED: &str = ".inputs a b\n.outputs b a\n";
const TURNS: &str = ".outputs q\n.latch d q\n.names q d\n0 1\n";
const SINK: &str = ".inputs a\n.names a y\n1 1\n";

// A gate that opens and closes by turns; after a wrong command it takes none.
const LOCK: &str = "# open and close by turns
.model lock
.inputs open close
.outputs accepted locked
.latch next is_open re clock 0
.latch wrong locked re clock 0
.names is_open open close locked accepted
0100 1
1010 1
.names is_open accepted next
10 1
01 1
.names locked accepted wrong
00 1
1- 1
.end
";

pub fn asked(netlist: &[u8], sheet: &[u8]) -> Asked {
    Asked { netlist: netlist.to_vec(), sheet: sheet.to_vec(), room: ROOM, cells: CELLS }
}

// A sheet of these rows.
pub fn sheet(part: &str, rows: &[&str]) -> Vec<u8> {
    let lines: String = rows.iter().map(|r| r.to_string() + "\n").collect();
    format!("part={part}\nrows={}\n{lines}", rows.len()).into_bytes()
}

fn counts(netlist: &str, rows: &[&str], accepted: usize) -> Case {
    (asked(netlist.as_bytes(), &sheet("A1", rows)), Hand::Counts(accepted, rows.len() - accepted))
}

fn refused(netlist: &str, sheet: &[u8], k: u32) -> Case {
    (asked(netlist.as_bytes(), sheet), Hand::Refused(k))
}

// ---- the order

// A netlist for each of the reader's refusals, none with an output.
fn netlists() -> Vec<(u32, Vec<u8>)> {
    let small: [(u32, &[u8]); 14] = [
        (0, b".inputs b\n"),
        (3, b"# \x80\n"),
        (4, b".latch a\n"),
        (5, b".gate and2\n"),
        (34, b".latch a q x\n"),
        (7, b".model m\n.model m\n"),
        (8, b".end\n"),
        (9, b".names\n"),
        (10, b".inputs a a\n"),
        (11, b".latch d q\n"),
        (12, b".names y\n2\n"),
        (13, b".names y\n1\n0\n"),
        (14, b".names y y\n1 1\n"),
        (0, b""),
    ];
    let mut all: Vec<(u32, Vec<u8>)> = small.iter().map(|(k, t)| (*k, t.to_vec())).collect();
    all.push((6, format!(".inputs{}\n", " a".repeat(257)).into_bytes()));
    all.push((2, vec![b'#'; MOST_NETLIST + 1]));
    all
}

// The same with an output and an input before it.
fn with_output(text: &[u8]) -> Vec<u8> {
    let front = b".outputs z\n.inputs z\n";
    let over = text.len() > MOST_NETLIST;
    [front, &text[if over { front.len() } else { 0 }..]].concat()
}

// What may be wrong beside a netlist.
#[derive(Clone, Copy)]
struct Wrong {
    sheet: bool,  // 32
    cells: bool,  // 1
    output: bool, // 33
    row: bool,    // 31
}

// A netlist that the reader answers by k, with these wrong as well. Its inputs are so many that a right row fits where it is read.
fn wrong_in(n: usize, k: u32, text: &[u8], w: Wrong) -> Case {
    let netlist = if w.output { text.to_vec() } else { with_output(text) };
    let inputs = (text == b".inputs b\n") as usize + !w.output as usize;
    let row = if w.row { ["x", "2", "1 ", "\r"][n % 4].to_string() } else { "1".repeat(inputs) };
    let mut a = asked(&netlist, &sheet("A1", &[&row]));
    if w.sheet {
        a.sheet[[0, 6, 9][n % 3]] = b' ';
    }
    if w.cells {
        a.cells[n % 5] -= 1;
    }
    let hand = match w {
        Wrong { sheet: true, .. } => Hand::Refused(32),
        Wrong { cells: true, .. } => Hand::Refused(1),
        _ if k > 0 => Hand::Refused(k),
        Wrong { output: true, .. } => Hand::Refused(33),
        Wrong { row: true, .. } => Hand::Refused(31),
        _ => Hand::Compared,
    };
    (a, hand)
}

// Every answer of the reader with each of the other refusals, alone and together; of the long netlists only some with too few cells.
fn order() -> Vec<Case> {
    let mut all = Vec::new();
    for (k, text) in netlists() {
        for n in 0..16 {
            let w = Wrong { sheet: n & 1 > 0, cells: n & 2 > 0, output: n & 4 > 0, row: n & 8 > 0 };
            if text.len() < MOST_NETLIST || !w.cells || !(w.sheet || w.row) {
                all.push(wrong_in(all.len(), k, &text, w));
            }
        }
    }
    all
}

// ---- the sheet

// Sheets that are wrong.
#[rustfmt::skip]
const WRONG: [&[u8]; 96] = [
    // lines that are missing, misplaced, doubled or left over
    b"", b"\n", b"\n\n\n", b"part=A", b"part=A\n", b"part=A\nrows=1", b"part=A\nrows=1\n", b"rows=1\n1\n", b"part=A\n1\n", b"1\n",
    b"rows=1\npart=A\n1\n", b"part=A\n1\nrows=1\n", b"part=A\npart=A\nrows=1\n1\n", b"part=A\nrows=1\nrows=1\n1\n",
    b"part=A\nrows=2\nrows=2\n1\n1\n", b"part=A\nrows=1\n1", b"part=A\nrows=1\n1\n\n", b"part=A\nrows=1\n1\n\n\n",
    b"part=A\nrows=1\n1\n0\n", b"part=A\nrows=1\n1\n0", b"part=A\nrows=1\n1\n ", b"part=A\nrows=1\n1\n\0", b"part=A\nrows=1\n1\n\0\0\0",
    b"part=A\nrows=1\n1\n\r\n", b"part=A\nrows=1\n1\npart=A\n", b"part=A\nrows=2\n1\n", b"part=A\nrows=2\n1\n0",
    b"part=A\nrows=3\n1\n0\n", b"\npart=A\nrows=1\n1\n", b"part=A\n\nrows=1\n1\n", b"part=A\nrows=1\n\n1\n", b"part=A\nrows=2\n\n1\n0\n",
    b"part=A\nissue=1\nrows=1\n1\n", b"#\npart=A\nrows=1\n1\n", b"part=A\nrows=1\n#\n1\n", b"part=A rows=1\n1\n",
    // keys
    b" part=A\nrows=1\n1\n", b"part =A\nrows=1\n1\n", b"Part=A\nrows=1\n1\n", b"PART=A\nROWS=1\n1\n", b"part:A\nrows=1\n1\n",
    b"partA\nrows=1\n1\n", b"par=A\nrows=1\n1\n", b"parts=A\nrows=1\n1\n", b"name=A\nrows=1\n1\n", b"part\nrows=1\n1\n",
    b"=A\nrows=1\n1\n", b"A\n1\n1\n", b"\xef\xbb\xbfpart=A\nrows=1\n1\n", b"part=A\n rows=1\n1\n", b"part=A\nrows =1\n1\n",
    b"part=A\nRows=1\n1\n", b"part=A\nrow=1\n1\n", b"part=A\nrows:1\n1\n", b"part=A\nrows1\n1\n", b"part=A\n=1\n1\n",
    b"part=A\ncommands=1\n1\n",
    // parts
    b"part=\nrows=1\n1\n", b"part= \nrows=1\n1\n", b"part= A\nrows=1\n1\n", b"part=A \nrows=1\n1\n", b"part=A B\nrows=1\n1\n",
    b"part==\nrows=1\n1\n", b"part=\xc3\xa9\nrows=1\n1\n", b"part=\xef\xbc\xa1\nrows=1\n1\n", b"part=A\t\nrows=1\n1\n",
    b"part=\"A\"\nrows=1\n1\n",
    // ends of lines
    b"part=A\r\nrows=1\n1\n", b"part=A\nrows=1\r\n1\n", b"part=A\r\nrows=1\r\n1\r\n", b"part=A\rrows=1\r1\r", b"part=\r\nrows=1\n1\n",
    b"part=A\nrows=\r\n1\n", b"part=A\nrows=1\n1\r", b"part=A\nrows=1\n1\n\r", b"\rpart=A\nrows=1\n1\n",
    // numbers
    b"part=A\nrows=\n", b"part=A\nrows=\n1\n", b"part=A\nrows=0\n", b"part=A\nrows=0\n1\n", b"part=A\nrows=00\n", b"part=A\nrows=01\n1\n",
    b"part=A\nrows=001\n1\n", b"part=A\nrows=+1\n1\n", b"part=A\nrows=-1\n1\n", b"part=A\nrows= 1\n1\n", b"part=A\nrows=1 \n1\n",
    b"part=A\nrows=1.\n1\n", b"part=A\nrows=1x\n1\n", b"part=A\nrows=0x1\n1\n", b"part=A\nrows=1e0\n1\n", b"part=A\nrows=1\0\n1\n",
    b"part=A\nrows=\xd9\xa1\n1\n", b"part=A\nrows=\xef\xbc\x91\n1\n", b"part=A\nrows=1=1\n1\n", b"part=A\nrows=one\n1\n",
];

// Numbers that are one where only the lower 8, 16, 32 or 64 bits count, and others of many digits, each before one row.
const LARGE: [&str; 12] = [
    "257",
    "65537",
    "4294967297",
    "18446744073709551617",
    "340282366920938463463374607431768211457",
    "1000000000000000000000000000000000000000000000",
    "00000000000000000000000000000000000000000000001",
    "11",
    "111",
    "1111",
    "129",
    "999",
];

fn misformed() -> Vec<Case> {
    let large = LARGE.map(|n| format!("part=A\nrows={n}\n1\n").into_bytes());
    WRONG.iter().map(|s| s.to_vec()).chain(large).map(|s| refused(WIRE, &s, 32)).collect()
}

// Every number of rows up to so many, with as many rows; and a row fewer or more.
fn numbers() -> Vec<Case> {
    let with = |n: usize, rows: usize| {
        let hand = if n == rows && (1..=128).contains(&n) { Hand::Counts(n / 2, n - n / 2) } else { Hand::Refused(32) };
        let text = format!("part=Z9\nrows={n}\n{}", "\n".repeat(rows));
        (asked(TURNS.as_bytes(), text.as_bytes()), hand)
    };
    let near = [1, 2, 9, 10, 11, 99, 100, 101, 127, 128, 129];
    (0..=257).map(|n| with(n, n)).chain(near.into_iter().flat_map(|n| [with(n, n - 1), with(n, n + 1)])).collect()
}

// Every byte in a part, in the number of rows and in a row; parts of up to 20 letters.
fn bytes() -> Vec<Case> {
    let mut all = Vec::new();
    for b in 0..=255u8 {
        let part = if b.is_ascii_alphanumeric() { Hand::Counts(1, 0) } else { Hand::Refused(32) };
        all.push((asked(WIRE.as_bytes(), &[b"part=A", &[b][..], b"Z\nrows=1\n1\n"].concat()), part));
        let number = if b == b'1' { Hand::Counts(1, 0) } else { Hand::Refused(32) };
        all.push((asked(WIRE.as_bytes(), &[b"part=A\nrows=", &[b][..], b"\n1\n"].concat()), number));
        let row = match b {
            b'0' | b'1' => Hand::Counts((b == b'1') as usize + 1, (b == b'0') as usize),
            b'\n' => Hand::Refused(32),
            _ => Hand::Refused(31),
        };
        all.push((asked(WIRE.as_bytes(), &[b"part=A\nrows=2\n1\n", &[b][..], b"\n"].concat()), row));
    }
    for n in 0..=20 {
        let part: String = "Az09Zabcdefghijklmnopq".chars().cycle().skip(n).take(n).collect();
        let hand = if (1..=16).contains(&n) { Hand::Counts(1, 0) } else { Hand::Refused(32) };
        all.push((asked(WIRE.as_bytes(), &sheet(&part, &["1"])), hand));
    }
    all
}

// ---- rows

// Rows that are wrong for two inputs, alone, and before, between and behind others.
const ROWS: [&str; 17] = ["", "0", "1", "011", "1100", "01\r", "\r", "0\r", "\r01", " 01", "01 ", "0 1", "2", "0x", "1/", "\0\0", "12"];

fn wrong_rows() -> Vec<Case> {
    let mut all = Vec::new();
    for w in ROWS {
        for rows in [vec![w], vec![w, "01", "10"], vec!["01", w, "10"], vec!["01", "10", w]] {
            all.push(refused(CROSSED, &sheet("A1", &rows), 31));
        }
    }
    all.extend([
        refused(TURNS, &sheet("A1", &["0"]), 31),
        refused(TURNS, &sheet("A1", &["", " ", ""]), 31),
        refused(TURNS, &sheet("A1", &["", "\r"]), 31),
        refused(SINK, &sheet("A1", &["1", "0"]), 33),
        refused(SINK, &sheet("A1", &["1", "01"]), 33),
        refused(SINK, &sheet("A1", &[""]), 33),
        refused("", &sheet("A1", &[""]), 33),
        refused("", &sheet("A1", &["x"]), 33),
        refused("", b"", 32),
        refused(WIRE, b"", 32),
        refused(".inputs a\n.exdc\n.outputs a\n", &sheet("A1", &["1"]), 33),
        refused(".inputs a\n.outputs\n", &sheet("A1", &["1"]), 33),
        refused("\u{e9}", &sheet("A1", &["1"]), 3),
    ]);
    all
}

// ---- the counts

fn runs() -> Vec<Case> {
    let one = ".outputs y\n.names y\n1\n";
    let zero = ".outputs y\n.names y\n";
    let turned = ".inputs a\n.outputs y\n.names a y\n0 1\n";
    let three = ".inputs a b c\n.outputs y\n.names a b c y\n101 1\n";
    let shift = ".inputs a\n.outputs r\n.latch a p\n.latch p q\n.latch q r\n";
    let down = ".inputs a\n.outputs r\n.latch q r\n.latch p q\n.latch a p\n";
    let apart = ".inputs a b\n.outputs y\n.names a b y\n00 0\n11 0\n";
    let started = ".inputs a\n.outputs q\n.latch a q re clock 1\n";
    let third = started.replace("re clock 1", "1");
    let unknown = started.replace("re clock 1", "re clock 3");
    let either = started.replace("re clock 1", "2");
    let none = started.replace("re clock 1", "re 1");
    let turned_over = TURNS.replace("d q", "d q 1");
    let shift_from = |a: &str, b: &str, c: &str| shift.replace(" p\n", &format!(" p {a}\n")).replace(" q\n", &format!(" q {b}\n")) + c;
    let two = ".inputs a\n.outputs p q\n.names a x\n1 1\n.latch x p 1\n.latch p q 0\n";
    let locked = LOCK.replace("locked re clock 0", "locked re clock 1");
    let open = LOCK.replace("is_open re clock 0", "is_open re clock 1");
    let held = ".inputs a\n.outputs q a\n.latch d q\n.names a q d\n1- 1\n-1 1\n";
    vec![
        counts(WIRE, &["1"], 1),
        counts(WIRE, &["0"], 0),
        counts(WIRE, &["1", "0", "1"], 2),
        counts(CROSSED, &["01", "11", "10", "00", "10"], 2),
        counts(CROSSED, &["10", "10", "10"], 0),
        counts(TURNS, &["", "", "", "", ""], 2),
        counts(one, &["", "", ""], 3),
        counts(zero, &["", "", ""], 0),
        counts(turned, &["1", "0", "0"], 2),
        counts(three, &["101", "110", "011", "101", "111"], 2),
        counts(shift, &["1", "1", "0", "1", "1", "1", "1"], 3),
        counts(shift, &["1", "0", "0"], 0),
        counts(down, &["1", "1", "0", "1", "1", "1", "1"], 3),
        counts(apart, &["01", "10", "00"], 2),
        counts(apart, &["11", "00", "11", "01"], 1),
        counts(started, &["0", "1", "0"], 2),
        counts(started, &["0"], 1),
        counts(started, &["0", "0", "0"], 1),
        counts(&third, &["0", "1", "0"], 2),
        counts(&unknown, &["0", "1", "0"], 1),
        counts(&either, &["0", "1", "0"], 1),
        counts(&none, &["0", "1", "0"], 1),
        counts(&turned_over, &["", "", "", "", ""], 3),
        counts(&shift_from("1", "0", ""), &["0", "0", "0"], 1),
        counts(&shift_from("1", "1", ""), &["0", "0", "0"], 2),
        counts(&shift_from("0", "0", ".latch a s 1\n"), &["0", "0", "0"], 0),
        counts(two, &["0", "0"], 1),
        counts(&two.replace("p q\n", "q p\n"), &["0", "0"], 1),
        counts(&two.replace("x p 1", "x p 0").replace("p q 0", "p q 1"), &["0", "0"], 0),
        counts(&locked, &["10", "01"], 0),
        counts(&open, &["01", "10", "10"], 2),
        counts(held, &["0", "1", "0", "0"], 2),
        counts(LOCK, &["10", "01", "10", "01"], 4),
        counts(LOCK, &["10", "01", "10", "10", "01", "10"], 3),
        counts(LOCK, &["01", "10", "01"], 0),
        counts(LOCK, &["10", "11", "01", "00"], 1),
        counts(LOCK, &["00", "10"], 0),
        counts(&LOCK.replace('\n', "\r\n"), &["10", "01", "11"], 2),
        counts(&LOCK.replace("accepted locked", "locked accepted"), &["10", "10", "10", "10"], 2),
        counts(&format!("{WIRE}.exdc\n.outputs b\n"), &["1", "0"], 1),
        counts(&format!(".model m\n{WIRE}.end\n.model n\n.inputs a b\n.outputs b a\n"), &["1", "0"], 1),
        refused(".model m\n.end\n.inputs a\n.outputs a\n", &sheet("A1", &["1", "0"]), 33),
    ]
}

// ---- slices and cells

// Output slices of every length for the longest report, a short one and two refusals; too few cells of each kind, and more than enough.
fn slices() -> Vec<Case> {
    let longest = asked(WIRE.as_bytes(), &sheet("Az09Az09Az09Az09", &[["1"; 100], ["0"; 100]].concat()[..128]));
    let shortest = asked(WIRE.as_bytes(), &sheet("7", &["0"]));
    let mut all: Vec<Case> = Vec::new();
    for room in 0..=62 {
        all.push((Asked { room, ..longest.clone() }, Hand::Counts(100, 28)));
        all.push((Asked { room, ..shortest.clone() }, Hand::Counts(0, 1)));
    }
    for room in 0..=13 {
        all.push((Asked { room, ..asked(WIRE.as_bytes(), b"") }, Hand::Refused(32)));
        all.push((Asked { room, ..asked(b".gate", &shortest.sheet) }, Hand::Refused(5)));
        all.push((Asked { room, cells: [0; 5], ..shortest.clone() }, Hand::Refused(1)));
    }
    for place in 0..5 {
        let lent = |n: usize| {
            let mut cells = CELLS;
            cells[place] = n;
            Asked { cells, ..asked(WIRE.as_bytes(), &shortest.sheet) }
        };
        let few = lent(CELLS[place] - 1);
        all.push((Asked { sheet: b"part=A\nrows=1\n1".to_vec(), ..few.clone() }, Hand::Refused(32)));
        all.push((Asked { netlist: Vec::new(), ..few.clone() }, Hand::Refused(1)));
        all.extend([(few, Hand::Refused(1)), (lent(0), Hand::Refused(1)), (lent(CELLS[place] + 1), Hand::Counts(0, 1))]);
    }
    all.push((Asked { cells: CELLS.map(|n| n + 1), ..shortest }, Hand::Counts(0, 1)));
    all
}

// ---- sizes

// A netlist with a comment behind it, so long.
fn filled(netlist: &str, n: usize) -> Vec<u8> {
    let mut t = netlist.as_bytes().to_vec();
    t.push(b'#');
    t.resize(n, b'c');
    t
}

// A sheet of one row, so long.
fn long_row(n: usize) -> Vec<u8> {
    let mut s = b"part=LONG\nrows=1\n".to_vec();
    s.resize(n - 1, b'1');
    s.push(b'\n');
    s
}

// Inputs a0, a1 and so on, so many.
fn names(keyword: &str, n: usize) -> String {
    keyword.to_string() + &(0..n).map(|k| format!(" a{k}")).collect::<String>() + "\n"
}

// 128 rows of 256 characters, of which those of odd number have a one in this place and zeros beside it, and the others the reverse.
fn most_rows(place: usize) -> Vec<u8> {
    let row = |k: usize| (0..256).map(|j| if (j == place) == (k % 2 == 1) { '1' } else { '0' }).collect::<String>();
    let rows: Vec<String> = (0..128).map(row).collect();
    sheet("Z", &rows.iter().map(|r| r.as_str()).collect::<Vec<_>>())
}

fn sizes() -> Vec<Case> {
    let wire = sheet("A1", &["1", "0", "1"]);
    let last = names(".inputs", 256) + ".outputs a255\n";
    let every = names(".inputs", 256) + &names(".outputs", 256);
    let mut short = most_rows(0);
    short.remove(31);
    vec![
        (asked(&filled(WIRE, MOST_NETLIST - 1), &wire), Hand::Counts(2, 1)),
        (asked(&filled(WIRE, MOST_NETLIST), &wire), Hand::Counts(2, 1)),
        (asked(&filled(WIRE, MOST_NETLIST + 1), &wire), Hand::Refused(2)),
        (asked(&filled(WIRE, MOST_NETLIST + 2), &wire), Hand::Refused(2)),
        (asked(WIRE.as_bytes(), &long_row(MOST_SHEET - 1)), Hand::Refused(31)),
        (asked(WIRE.as_bytes(), &long_row(MOST_SHEET)), Hand::Refused(31)),
        (asked(WIRE.as_bytes(), &long_row(MOST_SHEET + 1)), Hand::Refused(32)),
        (asked(WIRE.as_bytes(), &long_row(MOST_SHEET + 2)), Hand::Refused(32)),
        (asked(b"", &long_row(MOST_SHEET)), Hand::Refused(33)),
        (asked(b"", &long_row(MOST_SHEET + 1)), Hand::Refused(32)),
        (asked(WIRE.as_bytes(), &[wire.clone(), vec![b'\n'; MOST_SHEET - wire.len()]].concat()), Hand::Refused(32)),
        (asked(last.as_bytes(), &most_rows(255)), Hand::Counts(64, 64)),
        (asked(last.as_bytes(), &most_rows(0)), Hand::Counts(64, 64)),
        (asked(every.as_bytes(), &most_rows(0)), Hand::Counts(64, 64)),
        (asked(last.as_bytes(), &short), Hand::Refused(31)),
    ]
}

pub fn by_hand() -> Vec<Case> {
    let small = [order(), misformed(), numbers(), bytes(), wrong_rows(), runs(), slices()];
    small.into_iter().flatten().chain(sizes()).collect()
}
