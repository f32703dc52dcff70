// Texts, and the statements that Quaigh's own `read_statements` finds in them, each on a line in one notation; the tokens behind a latch's two
// names, which it drops, and 34 by starts.rs.
use crate::generate::Numbers;
use crate::io::statements::{list, Found};
use crate::starts::{first_of_quaigh, first_refusal, statements, Mistake};
use std::panic::catch_unwind;

// Texts that ports get wrong: ends of lines, continuations, comments, blanks, keywords, and cube lines directly after their cover.
const POINTS: &[&[u8]] = &[
    b"",
    b"\n",
    // a CR at the end of the file stays, a blank; a CR before LF goes
    b".outputs a\n.inputs a\\\r",
    b".inputs a\\\r\nb\n",
    b".inputs a\\\r\r\nb\n",
    b".inputs a\rb\n",
    // a continuation at the end of the file, and two backslashes
    b".inputs a\\",
    b".inputs a\\\n",
    b".inputs a\\\\\nb",
    // a backslash before a blank or a comment continues nothing
    b"1 1 \\ ",
    b".inputs a\\ \nb",
    b".inputs a\\#x\nb",
    b".inputs a #\\\n.outputs a",
    // a comment cuts a token, an empty line ends a statement, a continuation parts two tokens
    b".end#x",
    b".inputs a\\\n\nb",
    b".inputs a\\\n\\\nb",
    b".inputs a\\\n#\nb",
    b".inp\\\nuts a",
    b".inputs a\\\n.outputs b",
    // which bytes are blanks
    b".inputs a\x00b\x1cc\x1dd\x1ee\x1ff\x7fg",
    b".inputs a\x0bb\x0cc\td",
    b"\x0b.inputs\x0ca",
    // keywords byte for byte
    b".",
    b".MODEL m",
    b".modelx m",
    b".names\\ a",
    b"\\.foo",
    b".names a y\n.1 1",
    b".names .a .y\n1 1\n.inputs .names",
    b".end .foo",
    b".exdc\n.gate",
    b".exdc x\n.names",
    // names that are missing, and tokens that are too many
    b".model",
    b".model # m",
    b".model m n\n.end x",
    b".latch",
    b".latch d",
    b".latch d \\\nq",
    b".latch d q",
    b".latch d q re clk 2",
    b".latch d # q",
    // start values, and tokens that are none
    b".latch d q 0\n.latch d q 1\n.latch d q 2\n.latch d q 3",
    b".latch d q re clk\n.latch d q 4 x\n.latch d q re clk 1 x y",
    b".latch d q \\\n1\n.latch d q re \\\nclk \\\n3",
    b".latch d q 1 # re clk x",
    b".latch d q 4",
    b".latch d q 01",
    b".latch d q re",
    b".latch d q 0\\ ",
    b".latch d q re clk x",
    b".latch d q 1 1 4 1",
    b".latch d q x\n.foo",
    b".foo\n.latch d q x",
    b".latch d\n.latch d q x",
    b".latch d q x\n.latch d",
    b".exdc\n.latch d q x",
    b".model m\n.end\n.latch d q re clk 5",
    b".foo\n.model",
    b".model\n.foo",
    // cube lines directly after their cover, and those that are not
    b".names a y\n\n# c\n1 1\n0 1",
    b".names a y\n.end\n1 1",
    b".names a y\n.inputs\n1 1",
    b".names a y\n1\n11\n1 1 1",
    b".names y\n- 1\n1\n 0",
    b"1 1",
    b".inputs\n.outputs\n.names",
    b"# only a comment",
    b"   \t \n \\\n  \n",
];

const PIECES: &[&[u8]] = &[
    b".model m ", b".inputs", b".outputs", b".names", b".names", b".latch a b ", b".latch a b 1 ", b".latch a b re c ", b".end", b".exdc", b"a", b"b",
    b"y", b"\\", b"#", b"\n", b"\n", b"\n", b"\r\n", b"\r", b" ", b" ", b" ", b" ", b"\t", b"\x0b", b"\x0c", b"1 1", b"- 0", b"\\\n", b"\\\r\n",
    b"\x1c", b"\x7f", b"\x00", b"0 ", b"3\n",
];

pub fn random(r: &mut Numbers) -> Vec<u8> {
    let n = r.below(40);
    (0..n).flat_map(|_| PIECES[r.below(PIECES.len())].to_vec()).collect()
}

// The largest text: lines of one-letter tokens, and one long token after a continuation.
fn largest() -> Vec<u8> {
    let mut t = b".inputs".to_vec();
    while t.len() + 2 <= 16384 {
        t.extend(b" a");
    }
    t.extend(b"\\\n");
    t.resize(32768, b'x');
    t
}

// A statement's line with the tokens behind a latch's two names, which Quaigh drops.
fn whole(line: Vec<u8>, tokens: &[&[u8]]) -> Vec<u8> {
    let behind = if tokens[0] == b".latch" { &tokens[3..] } else { &[] };
    let all = std::iter::once(&line[..]).chain(behind.iter().copied()).collect::<Vec<_>>();
    all.join(&b' ')
}

// Quaigh's statements, and 34 by the plain look at them; which must find as many statements, and the same of 4 and 5.
fn answer(text: &[u8]) -> Vec<u8> {
    let found = statements(text);
    let (first, other) = (first_refusal(text, Mistake::Nothing), first_of_quaigh(text));
    let refused = match catch_unwind(|| list(text)) {
        Ok(Found::Statements(lines)) if first.is_none() => {
            assert!(lines.len() == found.len(), "the plain look finds other statements");
            return lines.into_iter().zip(&found).flat_map(|(l, s)| [whole(l, s), b"\n".to_vec()].concat()).collect();
        }
        Ok(Found::Statements(_)) => None,
        Ok(Found::Unsupported) => Some(5),
        Err(_) => Some(4),
    };
    assert!(refused == other, "the plain look finds another refusal");
    format!("refused {}\n", first.unwrap()).into_bytes()
}

// The texts, each with its length before it, and the answers, each with a line of its number before it.
pub fn lists(seed: u64, count: usize) -> (Vec<u8>, Vec<u8>) {
    let mut r = Numbers(seed);
    let mut texts: Vec<Vec<u8>> = POINTS.iter().map(|t| t.to_vec()).collect();
    texts.push(largest());
    texts.extend((0..count).map(|_| random(&mut r)));
    let mut given = format!("{:08x}\n", texts.len()).into_bytes();
    let mut wanted = Vec::new();
    for (i, t) in texts.iter().enumerate() {
        given.extend(format!("{:08x}\n", t.len()).into_bytes());
        given.extend(t);
        wanted.extend(format!("text {i}\n").into_bytes());
        wanted.extend(answer(t));
    }
    (given, wanted)
}
