//! The stored texts, networks, rows and sheets with their answers.
mod common;

use common::{read_notation, run, stored, write, List, ENOUGH, ONE_MORE};
use vumneath::cells::{Counts, MAX_TEXT};
use vumneath::{report, Network};

/// The stored answers from the first one on; before it a program shows what it tells of cells that are not as they must be.
fn answers(path: &str, first: &str) -> Vec<u8> {
    let all = stored(path);
    let start = all.windows(first.len()).position(|part| part == first.as_bytes()).unwrap();
    all[start..].to_vec()
}

#[test]
fn stored_texts() {
    let mut list = List::new(stored("read_replay/stdin"));
    let count = list.word();
    let mut said = String::new();
    for i in 0..count {
        let length = list.word();
        let text = list.bytes(length as usize);
        let answer = read_notation(&text, if i % 2 == 0 { ENOUGH } else { ONE_MORE });
        let number = Network::read(&text).map_or_else(|refusal| refusal.number(), |_| 0);
        assert_eq!(answer.strip_prefix("refused=").unwrap_or("0\n"), format!("{number}\n"), "text {i}");
        said += &format!("text {i}\n{answer}");
    }
    assert!(list.ended());
    said += "short\n";
    for kind in 0..5 {
        let mut sizes = ENOUGH;
        sizes[kind] -= 1;
        said += &read_notation(b"", sizes);
    }
    said += &read_notation(&[0; MAX_TEXT + 1], [0; 5]);
    let wanted = String::from_utf8(answers("read_replay/stdout", "text 0\n")).unwrap();
    assert_eq!(said.lines().count(), wanted.lines().count());
    for (place, (line, stored)) in said.lines().zip(wanted.lines()).enumerate() {
        assert_eq!(line, stored, "line {place}");
    }
}

/// The stored answer of network or report i, cut off the front of the rest.
fn next_answer<'a>(rest: &mut &'a [u8], word: &str, i: u32) -> &'a [u8] {
    let next = format!("\n{word} {}\n", i + 1);
    let end = rest.windows(next.len()).position(|part| part == next.as_bytes()).map_or(rest.len(), |at| at + 1);
    let (answer, behind) = rest.split_at(end);
    *rest = behind;
    answer
}

/// Replays a list of networks, each with the bytes to lend for what it gives. The answer for one, in the notation of the stored answers, is
/// asked for with what follows it in the list; it is none where a count is over 32 bits, which cannot be passed.
fn replay_networks<F>(crate_name: &str, answer: F)
where
    F: Fn(&mut List, Option<Counts>, [&[u32]; 3], usize) -> Option<(u32, usize, Vec<u8>)>,
{
    let mut list = List::new(stored(&format!("{crate_name}/stdin")));
    let answers = answers(&format!("{crate_name}/stdout"), "network 0\n");
    let mut rest = &answers[..];
    let count = list.word();
    let mut left_out = 0;
    for i in 0..count {
        let words = list.words(12);
        let [gates, pins, outputs] = [9, 10, 11].map(|kind| list.words(words[kind]));
        let fitting = [0, 2, 4, 6].iter().all(|&upper| words[upper] == 0);
        let counts = Counts { inputs: words[1], gates: words[3], pins: words[5], outputs: words[7] };
        let wanted = next_answer(&mut rest, "network", i);
        match answer(&mut list, fitting.then_some(counts), [&gates, &pins, &outputs], words[8] as usize) {
            None => left_out += 1,
            Some((0, length, text)) => {
                assert_eq!([format!("network {i}\nlength={length}\n").as_bytes(), &text].concat(), wanted, "network {i}");
            }
            Some((number, _, _)) => assert_eq!(format!("network {i}\nrefused={number}\n").as_bytes(), wanted, "network {i}"),
        }
    }
    assert!(list.ended() && rest.is_empty());
    assert!(left_out * 10 < count, "{left_out} of {count} left out");
}

#[test]
fn stored_networks() {
    replay_networks("write_replay", |_, counts, lent, room| {
        let (answer, text) = write(counts?, lent, room);
        Some((answer.refused, answer.length as usize, text))
    });
}

#[test]
fn stored_runs() {
    replay_networks("run_replay", |list, counts, lent, room| {
        let length = list.word();
        let rows = list.bytes(length as usize);
        let (answer, ran) = run(counts?, lent, &rows, room);
        Some((answer.refused, answer.length, ran))
    });
}

/// The report's lines for a netlist and a sheet, or the line of the refusal, in the notation of the stored answers.
fn report_notation(netlist: &[u8], sheet: &[u8]) -> String {
    let said =
        report(netlist, sheet).map_or_else(|refusal| format!("refused={}\n", refusal.number()), |report| report.to_string());
    format!("length={}\n{said}", said.len())
}

/// Left out are reports that are cut, since the bytes lent for them are fewer, and those for which too few cells are lent: nothing is lent
/// here.
#[test]
fn stored_reports() {
    let mut list = List::new(stored("report_replay/stdin"));
    let answers = answers("report_replay/stdout", "report 0\n");
    let mut rest = &answers[..];
    let count = list.word();
    let mut left_out = 0;
    for i in 0..count {
        let words = list.words(8);
        let [netlist, sheet] = [6, 7].map(|kind| list.bytes(words[kind] as usize));
        let wanted = next_answer(&mut rest, "report", i);
        let enough = words[1..6].iter().zip(ENOUGH).all(|(&lent, wanted)| lent as usize >= wanted);
        if enough && !wanted.ends_with(b"cut\n") {
            let said = report_notation(&netlist, &sheet);
            assert_eq!(format!("report {i}\n{said}"), String::from_utf8_lossy(wanted));
        } else {
            left_out += 1;
        }
    }
    assert!(list.ended() && rest.is_empty());
    assert!(left_out * 4 < count, "{left_out} of {count} left out");
}
