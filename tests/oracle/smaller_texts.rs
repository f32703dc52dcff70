// Texts that are a little simpler than a text: with lines or bytes left out, with the same bytes left out of all names of one length, or
// with a plainer byte in a byte's place. Each is shorter, or as long and plainer, so that no search among them goes on for ever.

// Bytes from plain to odd; a byte that is not among them is odder than all.
const PLAIN: &[u8] = b"ab10\n ";

fn rank(b: u8) -> usize {
    PLAIN.iter().position(|p| *p == b).unwrap_or(PLAIN.len())
}

// The runs of so many of n things, from half of them down to one.
pub fn runs(n: usize) -> impl Iterator<Item = (usize, usize)> {
    let lengths = std::iter::successors(Some(n.div_ceil(2)), |k| if *k > 1 { Some(k.div_ceil(2)) } else { None });
    let whole = if n > 0 { Some((0, n)) } else { None };
    whole.into_iter().chain(lengths.filter(move |_| n > 1).flat_map(move |k| (0..n).step_by(k).map(move |i| (i, (i + k).min(n)))))
}

fn without_lines(t: &[u8]) -> impl Iterator<Item = Vec<u8>> + '_ {
    let rows: Vec<&[u8]> = t.split_inclusive(|b| *b == b'\n').collect();
    runs(rows.len()).map(move |(a, e)| [rows[..a].concat(), rows[e..].concat()].concat())
}

fn without_bytes(t: &[u8]) -> impl Iterator<Item = Vec<u8>> + '_ {
    runs(t.len()).map(move |(a, e)| [&t[..a], &t[e..]].concat())
}

// Where the names of this length start.
fn names_of(t: &[u8], length: usize) -> Vec<usize> {
    let mut all = Vec::new();
    let mut at = 0;
    for word in t.split(|b| b.is_ascii_whitespace()) {
        if word.len() == length && word[0] != b'.' {
            all.push(at);
        }
        at += word.len() + 1;
    }
    all
}

fn with_shorter_names(t: &[u8]) -> impl Iterator<Item = Vec<u8>> + '_ {
    let mut lengths: Vec<usize> = t.split(|b| b.is_ascii_whitespace()).map(|w| w.len()).filter(|n| *n > 1).collect();
    lengths.sort();
    lengths.dedup();
    let cut = move |length: usize, a: usize, e: usize| {
        let mut n = t.to_vec();
        for at in names_of(t, length).into_iter().rev() {
            n.drain(at + a..at + e);
        }
        n
    };
    let some = lengths.into_iter().flat_map(move |n| runs(n).skip(1).map(move |(a, e)| cut(n, a, e)));
    some.filter(move |n| n.len() < t.len())
}

// A blank in the place of a continuation.
fn without_continuations(t: &[u8]) -> impl Iterator<Item = Vec<u8>> + '_ {
    let places = (0..t.len()).filter(move |k| t[*k..].starts_with(b"\\\n"));
    places.map(move |k| [&t[..k], b" ", &t[k + 2..]].concat())
}

fn with_plainer(t: &[u8]) -> impl Iterator<Item = Vec<u8>> + '_ {
    let put = move |i: usize, b: u8| {
        let mut n = t.to_vec();
        n[i] = b;
        n
    };
    (0..t.len()).flat_map(move |i| PLAIN[..rank(t[i])].iter().map(move |b| put(i, *b)))
}

pub fn smaller(t: &[u8]) -> Box<dyn Iterator<Item = Vec<u8>> + '_> {
    let shorter = without_lines(t).chain(without_continuations(t)).chain(with_shorter_names(t)).chain(without_bytes(t));
    Box::new(shorter.chain(with_plainer(t)))
}
