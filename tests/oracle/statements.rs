// Quaigh's reader as it stands, with its statements made visible: the file is included, not copied.
include!("blif.rs");
use std::panic::catch_unwind;

// What `read_statements` finds: a line for each statement, or that one is not supported. It panics where a name is missing.
pub enum Found {
    Statements(Vec<Vec<u8>>),
    Unsupported,
}

fn line(kind: &str, names: &[String]) -> Vec<u8> {
    let mut l = kind.as_bytes().to_vec();
    for n in names {
        l.push(b' ');
        l.extend(n.as_bytes());
    }
    l
}

pub fn list(text: &[u8]) -> Found {
    let Ok(found) = read_statements(text) else {
        return Found::Unsupported;
    };
    let lines = found.iter().map(|s| match s {
        Statement::Model(_) => line("model", &[]),
        Statement::End => line("end", &[]),
        Statement::Exdc => line("exdc", &[]),
        Statement::Inputs(n) => line("inputs", n),
        Statement::Outputs(n) => line("outputs", n),
        Statement::Latch { input, output } => line("latch", &[input.clone(), output.clone()]),
        Statement::Name(n) => line("names", n),
        Statement::Cube(s) => line("cube", &[s.clone()]),
    });
    Found::Statements(lines.collect())
}

// How many cube lines stand directly after a statement.
fn lines_after(found: &[Statement], i: usize) -> usize {
    found[i + 1..].iter().take_while(|s| matches!(s, Statement::Cube(_))).count()
}

// Whether every statement is one that is supported. It panics where a name is missing.
pub fn parses(text: &[u8]) -> bool {
    read_statements(text).is_ok()
}

// Whether one of the sizes is passed by these statements, which end where `.end` stops them, up to the first `.exdc`.
fn over_sizes(found: &[Statement]) -> bool {
    let (mut inputs, mut outputs, mut gates, mut pins) = (0, 0, 0, 0);
    for (i, s) in found.iter().enumerate() {
        match s {
            Statement::Exdc => break,
            Statement::Inputs(n) => inputs += n.len(),
            Statement::Outputs(n) => outputs += n.len(),
            Statement::Latch { .. } => {
                gates += 1;
                pins += 3;
            }
            Statement::Name(n) => {
                let k = lines_after(found, i);
                gates += if k >= 2 { k + 1 } else { 1 };
                pins += (k + 1) * (n.len().max(1) - 1 + 2);
            }
            _ => (),
        }
    }
    inputs > 256 || outputs > 256 || gates > 1024 || pins > 16384
}

// The same of a text whose statements are all supported, and in which no name is missing.
pub fn too_large(text: &[u8]) -> bool {
    over_sizes(&read_statements(text).unwrap())
}

// The network of a text that is read, with output 1 in place of 0 in every cover of two or more lines. No gate moves: the sort asks
// which gates a gate uses, not how it joins them.
pub fn with_ones(text: &[u8]) -> Network {
    let mut found = read_statements(text).unwrap();
    for i in 0..found.len() {
        let k = lines_after(&found, i);
        if k < 2 || !matches!(found[i], Statement::Name(_)) {
            continue;
        }
        for s in &mut found[i + 1..=i + k] {
            if let Statement::Cube(line) = s {
                line.pop();
                line.push('1');
            }
        }
    }
    let names = build_name_to_sig(&found).unwrap();
    build_network(&found, &names).unwrap()
}

// ---- which gate is which latch's

// Of each latch of a text that is read, its gate, and the number that its gate had before the sort. To find the gate, the outputs of the latches
// are outputs of the network as well, by which no gate moves.
pub fn latches(text: &[u8]) -> Vec<(usize, usize)> {
    let mut found = read_statements(text).unwrap();
    found.truncate(found.iter().position(|s| matches!(s, Statement::End | Statement::Exdc)).unwrap_or(found.len()));
    let gates = found.iter().filter(|s| matches!(s, Statement::Latch { .. } | Statement::Name(_)));
    let before: Vec<usize> = gates.enumerate().filter(|(_, s)| matches!(s, Statement::Latch { .. })).map(|(g, _)| g).collect();
    if before.is_empty() {
        return Vec::new();
    }
    let name = |s: &Statement| if let Statement::Latch { output, .. } = s { Some(output.clone()) } else { None };
    found.push(Statement::Outputs(found.iter().filter_map(name).collect()));
    let names = build_name_to_sig(&found).unwrap();
    let n = build_network(&found, &names).unwrap();
    let first = n.nb_outputs() - before.len();
    before.iter().enumerate().map(|(k, g)| (n.output(first + k).var() as usize, *g)).collect()
}

// ---- `.end` ends the model (document 02, CR 3)

// Whether `.end` stops these statements: it comes before any `.exdc`.
fn ended(found: &[Statement]) -> bool {
    let stop = found.iter().find(|s| matches!(s, Statement::End | Statement::Exdc));
    matches!(stop, Some(Statement::End))
}

// The part of a text up to the line with the `.end` that stops it; all of a text that none stops. Only words behind `.end`, which are ignored,
// are cut off within a statement.
pub fn up_to_end(text: &[u8]) -> &[u8] {
    let mut at = 0;
    for line in text.split_inclusive(|b| *b == b'\n') {
        at += line.len();
        let named = line.windows(4).any(|w| w == b".end");
        let Some(Ok(Ok(found))) = named.then(|| catch_unwind(|| read_statements(&text[..at]))) else { continue };
        if ended(&found) {
            return &text[..at];
        }
        if found.iter().any(|s| matches!(s, Statement::Exdc)) {
            break;
        }
    }
    text
}

// Whether statements stand behind the `.end` that stops a text whose statements are all supported.
pub fn goes_on_behind_end(text: &[u8]) -> bool {
    let part = up_to_end(text);
    part.len() < text.len() && read_statements(part).unwrap().len() < read_statements(text).unwrap().len()
}

// How a reader may go wrong at `.end`.
#[derive(Clone, Copy, Debug, PartialEq)]
pub enum EndMistake {
    Nothing,
    GoesOn,             // it does not stop
    StopsParsing,       // 4 and 5 are not looked for behind it
    StopsNamesOnly,     // what stands behind it is built, by the names before it
    StopsBuildingOnly,  // names are defined behind it, and 7 to 10 looked for
    CountsOn,           // sizes are counted on
    CountsOnWhereEight, // sizes are counted on behind an `.end` that is refused
    EightLost,          // it may come before any `.model`
    EightBehindExdc,    // it is looked at behind `.exdc`
    EightByTheWhole,    // a `.model` behind it suffices
    SecondModel,        // a `.model` behind it is refused
    LinesJoin,          // cube lines behind it belong to the cover before it
    LastEndStops,       // where there are several
}

pub const END_MISTAKES: [EndMistake; 12] = [
    EndMistake::GoesOn,
    EndMistake::StopsParsing,
    EndMistake::StopsNamesOnly,
    EndMistake::StopsBuildingOnly,
    EndMistake::CountsOn,
    EndMistake::CountsOnWhereEight,
    EndMistake::EightLost,
    EndMistake::EightBehindExdc,
    EndMistake::EightByTheWhole,
    EndMistake::SecondModel,
    EndMistake::LinesJoin,
    EndMistake::LastEndStops,
];

// The part of a text that a reader with this mistake parses.
pub fn parsed_with(text: &[u8], m: EndMistake) -> &[u8] {
    if m == EndMistake::StopsParsing { up_to_end(text) } else { text }
}

// How many statements there are up to the one that stops, with it.
fn stop(found: &[Statement], m: EndMistake) -> usize {
    let first = found.iter().position(|s| matches!(s, Statement::End | Statement::Exdc));
    let last = found.iter().rposition(|s| matches!(s, Statement::End));
    let at = if m == EndMistake::LastEndStops && ended(found) { last } else { first };
    at.map_or(found.len(), |k| k + 1)
}

// The statements before the stop, with what a mistake has of those behind it.
fn kept(text: &[u8], m: EndMistake) -> Vec<Statement> {
    let mut found = parsed(text, m);
    let at = stop(&found, m);
    let stops = ended(&found);
    let rest = found.split_off(at);
    match m {
        EndMistake::GoesOn => found.extend(rest),
        EndMistake::EightLost if stops => drop(found.pop()),
        EndMistake::EightBehindExdc if matches!(found.last(), Some(Statement::Exdc)) => {
            let ends = rest.into_iter().filter(|s| matches!(s, Statement::End));
            found.pop();
            found.extend(ends);
        }
        EndMistake::EightByTheWhole if stops && !found.iter().any(|s| matches!(s, Statement::Model(_))) => {
            found.splice(0..0, rest.into_iter().find(|s| matches!(s, Statement::Model(_))));
        }
        EndMistake::SecondModel if stops => found.extend(rest.into_iter().filter(|s| matches!(s, Statement::Model(_)))),
        EndMistake::LinesJoin if stops => {
            let end = found.pop();
            found.extend(rest.into_iter().take_while(|s| matches!(s, Statement::Cube(_))));
            found.extend(end);
        }
        _ => (),
    }
    found
}

// The statements that such a reader parses.
fn parsed(text: &[u8], m: EndMistake) -> Vec<Statement> {
    read_statements(parsed_with(text, m)).unwrap()
}

// Whether it finds a size passed, in a text that it can parse.
pub fn too_large_with(text: &[u8], m: EndMistake) -> bool {
    let part = kept(text, m);
    let refused = !part.iter().any(|s| matches!(s, Statement::Model(_)));
    let counts_on = m == EndMistake::CountsOn || (m == EndMistake::CountsOnWhereEight && refused);
    over_sizes(&if counts_on { parsed(text, m) } else { part })
}

// What it builds of such a text.
pub fn network_with(text: &[u8], m: EndMistake) -> Result<Network, String> {
    let names = build_name_to_sig(&if m == EndMistake::StopsBuildingOnly { parsed(text, m) } else { kept(text, m) })?;
    build_network(&if m == EndMistake::StopsNamesOnly { parsed(text, m) } else { kept(text, m) }, &names)
}
