// The texts and networks of a comparison at scale: the kinds that the stored lists have, and further ones.
use crate::generate::{make, Numbers, Shape};
use crate::lent::{text as written, Lent};
use crate::points::{every, sequences};
use crate::reads::{by_hand, Text};
use crate::{nets, tricky, writes};

// Bytes that make a line, and bytes that make the lines of a cover.
const LINE: &[&str] = &["\\", "\n", "\r", " ", "#", ".", "1", "a"];
const COVER: &[&str] = &["\\", "\n", " ", "#", "0", "1", "-"];

// Every text of up to two bytes, or of one.
fn any_bytes(two: bool) -> impl Iterator<Item = Vec<u8>> {
    let one = (0..=255).map(|b| vec![b]);
    let pairs = (0..if two { 65536 } else { 0u32 }).map(|k| vec![(k >> 8) as u8, k as u8]);
    one.chain(pairs)
}

// Every sequence of up to so many fragments or bytes.
fn short(depth: u32) -> impl Iterator<Item = Vec<u8>> {
    let lines = every("", LINE, depth).chain(every(".inputs a\n.outputs y\n.names a y\n", COVER, depth));
    sequences(depth).chain(lines).chain(any_bytes(depth > 4))
}

// The deepest of them that are at most a quarter of all; those of depth 3 in any case.
fn depth(count: usize) -> u32 {
    (3..6).rev().find(|d| short(*d).count() <= count / 4).unwrap_or(3)
}

// A text as it is written, with its blocks in another order, other ends of lines, or damaged.
fn as_written(r: &mut Numbers, k: usize) -> Vec<u8> {
    let s = Shape { inputs: r.below(5), gates: r.below(9), outputs: r.below(5), wide: 5, loops: k % 7 == 6, flops: r.below(5) };
    let made = make(r, &s);
    let p = if k % 5 > 0 { crate::models::plain_flops(made) } else { made };
    let mut t = written(&p);
    if r.below(2) == 0 {
        let mut blocks: Vec<&str> = t.split("\n.").collect();
        for i in (2..blocks.len()).rev() {
            blocks.swap(i, 1 + r.below(i));
        }
        t = blocks.join("\n.");
    }
    if r.below(4) == 0 {
        t = t.replace('\n', "\r\n");
    }
    let times = if r.below(2) == 0 { 0 } else { 1 + r.below(2) };
    (0..times).fold(t.into_bytes(), |t, _| tricky::damaged(r, t))
}

// Bytes from anywhere.
fn any_text(r: &mut Numbers) -> Vec<u8> {
    let most = if r.below(4) == 0 { 256 } else { 128 };
    let n = r.below(48);
    (0..n).map(|_| if r.below(2) == 0 { tricky::BYTES[r.below(14)] } else { r.below(most) as u8 }).collect()
}

// Three quarters of the kinds that the stored list has; the others as they are written, with long names alike, or of any bytes, and one
// in 1,600 near the sizes and damaged.
pub fn text(r: &mut Numbers, k: usize) -> Vec<u8> {
    match k % 8 {
        6 => as_written(r, k / 8),
        7 if k % 1600 == 1599 => {
            let t = tricky::near_limit(r);
            tricky::damaged(r, t)
        }
        7 if k % 16 == 15 => tricky::long_named(r, k / 16),
        7 => any_text(r),
        _ => tricky::text(r, k / 8 * 6 + k % 8),
    }
}

// So many texts, or all by hand and the shortest: by hand, every short one, and the others from the seed, one in nine with more behind `.end`.
pub fn texts(seed: u64, count: usize) -> impl Iterator<Item = Text> {
    let mut r = Numbers(seed);
    let (first, d) = (by_hand(), depth(count));
    let least = first.len() + short(d).count();
    let seeded = (0..).map(move |k| if k % 9 == 8 { tricky::ended(&mut r, k / 9) } else { text(&mut r, k - k / 9) });
    first.into_iter().chain(short(d)).chain(seeded).take(count.max(least)).map(Text)
}

// So many networks, or all by hand and the smallest: by hand, every one of a single gate, and the others from the seed.
pub fn networks(seed: u64, count: usize) -> impl Iterator<Item = Lent> {
    let mut first = writes::by_hand();
    first.extend(nets::singles());
    let n = count.max(first.len());
    first.into_iter().chain(writes::seeded(seed)).take(n)
}
