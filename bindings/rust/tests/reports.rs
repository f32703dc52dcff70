//! Reports by hand: the example's pass, sheets at their limits and one over, damaged sheets, and the refusals with their neighbours.
use vumneath::{report, Refusal, Report};

/// Accepts where a and not b; the second output is one always.
const NETLIST: &[u8] = b".inputs a b\n.outputs y one\n.names a b y\n10 1\n.names one\n1\n";
const SHEET: &[u8] = b"part=ADCS7\nrows=4\n10\n11\n10\n00\n";

/// The refusal's number, or 0.
fn number(netlist: &[u8], sheet: &[u8]) -> u32 {
    report(netlist, sheet).map_or_else(Refusal::number, |_| 0)
}

/// A sheet with so many rows as it says, all of them `10`.
fn sheet_of(part: &str, rows: usize) -> String {
    format!("part={part}\nrows={rows}\n{}", "10\n".repeat(rows))
}

#[test]
fn counts() {
    let wanted = Report { part: "ADCS7".to_string(), commands: 4, accepted: 2, rejected: 2 };
    assert_eq!(report(NETLIST, SHEET), Ok(wanted.clone()));
    assert_eq!(wanted.to_string(), "part=ADCS7\ncommands=4\naccepted=2\nrejected=2\n");
    let constant = report(b".outputs y\n.names y\n1\n", b"part=a\nrows=3\n\n\n\n").unwrap();
    assert_eq!((constant.commands, constant.accepted, constant.rejected), (3, 3, 0));
}

/// The folder of the example.
#[test]
fn pass() {
    let file = |name| std::fs::read(format!("{}/../pass/{name}", env!("CARGO_MANIFEST_DIR"))).unwrap();
    let counted = report(&file("netlist.blif"), &file("sheet.txt")).unwrap();
    assert_eq!(counted.to_string().as_bytes(), file("report.txt"));
}

#[test]
fn limits() {
    let at = |part: &str, rows| number(NETLIST, sheet_of(part, rows).as_bytes());
    assert_eq!([at("a", 1), at("0123456789abcdeF", 1), at("", 1), at("0123456789abcdeFg", 1)], [0, 0, 32, 32]);
    assert_eq!([at("Z9", 128), at("Z9", 129), at("Z9", 0)], [0, 32, 32]);
    let with = |byte| number(NETLIST, &[b"part=", &[byte][..], b"\nrows=1\n10\n"].concat());
    let taken: Vec<u8> = (0..=255).filter(|&byte| with(byte) == 0).collect();
    assert_eq!(taken, b"0123456789ABCDEFGHIJKLMNOPQRSTUVWXYZabcdefghijklmnopqrstuvwxyz");
    let longest = |length: usize| number(NETLIST, format!("part=a\nrows=1\n{}\n", "1".repeat(length - 15)).as_bytes());
    assert_eq!([longest(40960), longest(40961)], [31, 32]);
    assert_eq!([32768, 32769].map(|n| number(&vec![b' '; n], SHEET)), [33, 2]);
}

#[test]
fn wrong_sheets() {
    for sheet in [
        "",
        "\n",
        "\n\n\n",
        "part=a",
        "part=a\n",
        "part=a\nrows=1",
        "part=a\nrows=1\n",
        "part=a\nrows=1\n10",
        "part=a\nrows=1\n10\n\n",
        "part=a\nrows=1\n10\n1",
        "part=a\nrows=2\n10\n",
        "part=a\nrows=1\n10\n10\n",
        "rows=1\npart=a\n10\n",
        "rows=1\n10\n",
        "part=\nrows=1\n10\n",
        "part=a b\nrows=1\n10\n",
        "part=a-b\nrows=1\n10\n",
        "part=\u{e9}\nrows=1\n10\n",
        "part= a\nrows=1\n10\n",
        " part=a\nrows=1\n10\n",
        "Part=a\nrows=1\n10\n",
        "part a\nrows=1\n10\n",
        "part=a\r\nrows=1\n10\n",
        "part=a\nrows=1\r\n10\n",
        "part=a\nrows=\n10\n",
        "part=a\nrows=01\n10\n",
        "part=a\nrows=+1\n10\n",
        "part=a\nrows=-1\n10\n",
        "part=a\nrows=1 \n10\n",
        "part=a\nrows= 1\n10\n",
        "part=a\nrows=1.0\n10\n",
        "part=a\nrows=0x1\n10\n",
        "part=a\nrows=one\n10\n",
        "part=a\nROWS=1\n10\n",
        "part=a\nrows=18446744073709551617\n10\n",
        "part=a\n\nrows=1\n10\n",
        "#\npart=a\nrows=1\n10\n",
    ] {
        assert_eq!(number(NETLIST, sheet.as_bytes()), 32, "{sheet:?}");
    }
}

#[test]
fn wrong_rows() {
    for row in ["", "1", "101", "1 ", "12", "10\r", "a0", "\u{e9}"] {
        assert_eq!(number(NETLIST, format!("part=a\nrows=2\n{row}\n10\n").as_bytes()), 31, "{row:?}");
        assert_eq!(number(NETLIST, format!("part=a\nrows=2\n10\n{row}\n").as_bytes()), 31, "{row:?}");
    }
}

/// 32 before the reader's, these before 33, and 33 before 31.
#[test]
fn order() {
    let (wrong, bad_row) = (b"part=a\nrows=1\n", b"part=a\nrows=1\nx\n");
    assert_eq!([number(b".end", wrong), number(b"", wrong), number(NETLIST, wrong)], [32; 3]);
    assert_eq!([number(b".end", bad_row), number(b"\x80", bad_row), number(b".inputs a a", bad_row)], [8, 3, 10]);
    assert_eq!([number(b".end", SHEET), number(b"", bad_row), number(b".inputs a b\n", SHEET)], [8, 33, 33]);
    assert_eq!([number(NETLIST, bad_row), number(NETLIST, SHEET)], [31, 0]);
}

/// The smallest examples of README's table.
#[test]
fn smallest_refused() {
    assert_eq!([number(NETLIST, b""), number(b"", b""), number(b"", b"part=a\nrows=1\n\n")], [32, 32, 33]);
}

/// Every beginning of a sheet is refused with 32, and every changed byte gives a report or 31 or 32.
#[test]
fn damaged() {
    for length in 0..SHEET.len() {
        assert_eq!(number(NETLIST, &SHEET[..length]), 32);
    }
    for (i, byte) in (0..SHEET.len()).flat_map(|i| (0..=255).map(move |byte| (i, byte))) {
        let mut sheet = SHEET.to_vec();
        sheet[i] = byte;
        match report(NETLIST, &sheet) {
            Ok(counted) => assert_eq!((counted.commands, counted.accepted + counted.rejected), (4, 4)),
            Err(refusal) => assert!([31, 32].contains(&refusal.number()), "byte {i} is {byte}: {refusal}"),
        }
    }
}
