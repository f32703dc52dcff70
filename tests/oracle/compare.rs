// Runs a program over cases, texts or networks, in batches, compares what it prints with the answers wanted, and makes what differs as
// small as it goes.
use std::collections::BTreeMap;
use std::fs::File;
use std::path::PathBuf;
use std::process::{Child, Command, Stdio};
use std::time::{Duration, Instant};

pub trait Case: Clone {
    const WORD: &'static str; // what stands before a case's number in what the program prints
    const BEHIND: &'static str; // what the program prints behind the last case
    const TWICE: bool; // whether an answer may depend on whether the case's number is odd
    const ANSWERED: &'static str; // what an answer that is no refusal is called
    const NOTES: &'static [&'static str]; // what is counted besides the answers
    fn bytes(&self) -> usize; // about how long what the program reads is
    fn given(&self) -> Vec<u8>; // what the program reads
    fn answer(&self) -> (Vec<u8>, Vec<bool>); // what the program must print, and which of the notes hold
    fn smaller(&self) -> Box<dyn Iterator<Item = Self> + '_>; // each below this one in an order without endless descent
    fn shown(&self) -> String;

    // The refusal's number of an answer, 0 where there is none.
    fn number(&self, answer: &[u8]) -> u32 {
        number(answer)
    }

    // The lines that tell how often each of the notes holds.
    fn notes(sums: &[usize]) -> Vec<String> {
        Self::NOTES.iter().zip(sums).map(|(what, n)| format!("{what}: {n}")).collect()
    }
}

const BATCH_BYTES: usize = 2 << 20;
const BATCH_CASES: usize = 4096;
const STUCK: Duration = Duration::from_secs(60); // a run of a batch takes less than a second
const PATIENCE: Duration = Duration::from_secs(60); // to make one case smaller
const MOST_FINDINGS: usize = 6; // that are made smaller
const MOST_ENDS: usize = 200; // after a program ended early so often, the comparison stops

struct Program {
    path: String,
    given: PathBuf,
    printed: PathBuf,
}

impl Program {
    // Files stand between the two, not pipes: the program writes a few bytes at a time.
    fn new(path: &str) -> Program {
        let folder = std::env::temp_dir().join(format!("differential-{}", std::process::id()));
        std::fs::create_dir_all(&folder).unwrap();
        Program { path: path.to_string(), given: folder.join("given"), printed: folder.join("printed") }
    }

    fn start<C: Case>(&self, cases: &[C]) -> Child {
        let mut all = format!("{:08x}\n", cases.len()).into_bytes();
        for c in cases {
            all.extend(c.given());
        }
        std::fs::write(&self.given, all).unwrap();
        let (from, to) = (File::open(&self.given).unwrap(), File::create(&self.printed).unwrap());
        let child = Command::new(&self.path).stdin(from).stdout(to).stderr(Stdio::null()).spawn();
        child.unwrap_or_else(|e| panic!("{}: {e}", self.path))
    }

    // What it prints; where it is stuck, what it printed so far.
    fn finish(&self, mut child: Child) -> Vec<u8> {
        let end = Instant::now() + STUCK;
        while child.try_wait().unwrap().is_none() {
            if Instant::now() > end {
                child.kill().unwrap();
                child.wait().unwrap();
            } else {
                std::thread::sleep(Duration::from_micros(200));
            }
        }
        std::fs::read(&self.printed).unwrap()
    }
}

impl Drop for Program {
    fn drop(&mut self) {
        let _ = std::fs::remove_dir_all(self.given.parent().unwrap());
    }
}

// What is printed behind the number of each case.
fn blocks<'a, C: Case>(printed: &'a [u8]) -> Vec<&'a [u8]> {
    let mut starts = Vec::new();
    let mut at = 0;
    for l in printed.split_inclusive(|b| *b == b'\n') {
        if l.starts_with(C::WORD.as_bytes()) && l == format!("{} {}\n", C::WORD, starts.len()).as_bytes() {
            starts.push((at, at + l.len()));
        }
        at += l.len();
    }
    let ends = starts.iter().skip(1).map(|s| s.0).chain([printed.len()]);
    starts.iter().zip(ends).map(|(s, e)| &printed[s.1..e]).collect()
}

// The answers of a run: one for each case that has one, and what stands behind the last where all have one.
fn answers<'a, C: Case>(printed: &'a [u8], wanted: &[Vec<u8>]) -> (Vec<&'a [u8]>, Option<&'a [u8]>) {
    let mut all = blocks::<C>(printed);
    if all.len() < wanted.len() || wanted.is_empty() {
        return (all, None);
    }
    let last = all.pop().unwrap();
    let cut = if C::BEHIND.is_empty() { last.len() } else { end_of::<C>(last, wanted.last().unwrap()) };
    all.push(&last[..cut]);
    (all, Some(&last[cut..]))
}

// Where the last answer ends: before the first line of what stands behind it, else behind what is wanted.
fn end_of<C: Case>(last: &[u8], wanted: &[u8]) -> usize {
    let line = C::BEHIND.split_inclusive('\n').next().unwrap().as_bytes();
    let starts_line = |k: usize| k == 0 || last[k - 1] == b'\n';
    let found = (0..last.len()).find(|k| starts_line(*k) && last[*k..].starts_with(line));
    found.unwrap_or(if last.starts_with(wanted) { wanted.len() } else { last.len() })
}

// An answer in a word, with the lines that tell of a cell or byte that was not left as it must be.
fn brief(answer: &[u8]) -> String {
    let s = String::from_utf8_lossy(answer);
    let first = s.lines().next().unwrap_or("");
    let second = s.lines().nth(1).unwrap_or("");
    let kind = match first {
        f if f.starts_with("counts ") => "read",
        f if f.starts_with("length=") && second.starts_with("refused=") => second,
        f if f.starts_with("length=") => "a length",
        f if f.starts_with("refused=") => f,
        "" => "nothing",
        _ => "other lines",
    };
    let told = ["not zero", "changed", "more than are lent"].iter().filter(|w| s.lines().any(|l| l.ends_with(**w)));
    kind.to_string() + &told.map(|w| format!(" with a line '{w}'")).collect::<String>()
}

// The kind of a difference: the answer wanted and the one that came, each in a word.
type Kind = (String, String);

// The first word of the first line that two answers of one kind do not share.
fn line_apart(wanted: &[u8], got: &[u8]) -> String {
    let rows = |t: &'_ [u8]| t.split_inclusive(|b| *b == b'\n').map(|l| l.to_vec()).collect::<Vec<_>>();
    let (w, g) = (rows(wanted), rows(got));
    let apart = w.iter().zip(g.iter().map(Some).chain(std::iter::repeat(None))).find(|(w, g)| Some(*w) != *g);
    let line = apart.map_or(String::new(), |(w, _)| String::from_utf8_lossy(w).into_owned());
    match line.split_whitespace().next() {
        Some(t) if t.starts_with(['0', '1', '-']) => "a line of 0, 1 and -".to_string(),
        Some(t) => format!("a line {}", t.split('=').next().unwrap()),
        None => "the end".to_string(),
    }
}

fn kind(wanted: &[u8], got: Option<&[u8]>) -> Kind {
    let Some(got) = got else {
        return (brief(wanted), "no answer, the program ended".to_string());
    };
    let (w, g) = (brief(wanted), brief(got));
    if w == g { (w, format!("{g} otherwise from {} on", line_apart(wanted, got))) } else { (w, g) }
}

struct Finding<C> {
    case: C,
    count: usize,
    got: Option<Vec<u8>>,
}

struct Report<C> {
    compared: usize,
    seen: BTreeMap<u32, usize>,
    notes: Vec<usize>,
    findings: BTreeMap<Kind, Finding<C>>,
    behind: bool, // what is printed behind the last case was not as wanted
    ends: usize,
}

// The refusal's number, 0 where there is none.
pub fn number(wanted: &[u8]) -> u32 {
    let digits = wanted.strip_prefix(b"refused=").unwrap_or(b"0\n");
    std::str::from_utf8(&digits[..digits.len() - 1]).unwrap().parse().unwrap()
}

impl<C: Case> Report<C> {
    fn new() -> Report<C> {
        Report { compared: 0, seen: BTreeMap::new(), notes: vec![0; C::NOTES.len()], findings: BTreeMap::new(), behind: false, ends: 0 }
    }

    fn differ(&self) -> usize {
        self.findings.values().map(|f| f.count).sum::<usize>() + self.behind as usize
    }

    fn add(&mut self, case: &C, wanted: &[u8], got: Option<&[u8]>) {
        self.compared += 1;
        *self.seen.entry(case.number(wanted)).or_insert(0) += 1;
        if got == Some(wanted) {
            return;
        }
        let new = || Finding { case: case.clone(), count: 0, got: got.map(|g| g.to_vec()) };
        let f = self.findings.entry(kind(wanted, got)).or_insert_with(new);
        f.count += 1;
        if case.bytes() < f.case.bytes() {
            *f = Finding { count: f.count, ..new() };
        }
    }

    // What the program must print for each case.
    fn wanted(&mut self, cases: &[C]) -> Vec<Vec<u8>> {
        let mut all = Vec::new();
        for c in cases {
            let (wanted, notes) = c.answer();
            for (n, yes) in self.notes.iter_mut().zip(notes) {
                *n += yes as usize;
            }
            all.push(wanted);
        }
        all
    }

    // Compares a batch; where the program ends early, the cases behind are given to it once more.
    fn batch(&mut self, program: &Program, cases: &[C]) {
        let mut at = 0;
        let child = program.start(cases);
        let wanted = self.wanted(cases);
        let mut printed = program.finish(child);
        while at < cases.len() {
            let (got, behind) = answers::<C>(&printed, &wanted[at..]);
            self.behind |= behind.is_some_and(|b| b != C::BEHIND.as_bytes());
            let n = got.len();
            for k in 0..n {
                self.add(&cases[at + k], &wanted[at + k], Some(got[k]));
            }
            at += n;
            if behind.is_some() {
                return;
            }
            self.ends += 1;
            let last_right = n == 0 || got[n - 1] == wanted[at - 1];
            if last_right {
                self.add(&cases[at], &wanted[at], None);
                at += 1;
            }
            if self.ends > MOST_ENDS {
                return;
            }
            printed = program.finish(program.start(&cases[at..]));
        }
    }

    fn print_seen(&self, name: &str) {
        let answer = |k: &u32| if *k == 0 { C::ANSWERED.to_string() } else { k.to_string() };
        let answers: Vec<String> = self.seen.iter().map(|(k, n)| format!("{} {n}", answer(k))).collect();
        println!("{name}: answers: {}", answers.join(", "));
        for l in C::notes(&self.notes) {
            println!("{name}: {l}");
        }
    }
}

// The first of the cases that differs in this way, with the answer that came. Where the program ends early at one that differs in
// another way, it gets those behind once more.
fn first_of<C: Case>(program: &Program, cases: &[C], way: &Kind) -> Option<(usize, Option<Vec<u8>>)> {
    let times = 1 + C::TWICE as usize;
    let twice: Vec<C> = cases.iter().flat_map(|c| vec![c.clone(); times]).collect();
    let wanted: Vec<Vec<u8>> = twice.iter().map(|c| c.answer().0).collect();
    let mut at = 0;
    while at < twice.len() {
        let printed = program.finish(program.start(&twice[at..]));
        let (got, _) = answers::<C>(&printed, &wanted[at..]);
        let got = got.into_iter().map(Some).chain([None]);
        for (w, g) in wanted[at..].iter().zip(got) {
            if g != Some(&w[..]) && kind(w, g) == *way {
                return Some((at / times, g.map(|g| g.to_vec())));
            }
            at += 1;
        }
    }
    None
}

// The next candidates, so many or as many as are enough bytes.
fn some_of<C: Case>(candidates: &mut dyn Iterator<Item = C>, n: usize) -> Vec<C> {
    let mut some: Vec<C> = Vec::new();
    let mut bytes = 0;
    while some.len() < n && bytes < BATCH_BYTES {
        let Some(c) = candidates.next() else { break };
        bytes += c.bytes();
        some.push(c);
    }
    some
}

// The first of the candidates that still differs in this way, with its place and the answer that came; nothing where none does, or
// time is up.
fn first_candidate<C: Case>(
    program: &Program,
    candidates: &mut dyn Iterator<Item = C>,
    way: &Kind,
    end: Instant,
) -> Option<(usize, C, Option<Vec<u8>>)> {
    let (mut at, mut n) = (0, 4);
    while Instant::now() < end {
        let some = some_of(candidates, n);
        if some.is_empty() {
            return None;
        }
        if let Some((k, got)) = first_of(program, &some, way) {
            return Some((at + k, some[k].clone(), got));
        }
        at += some.len();
        n = (2 * n).min(512);
    }
    None
}

// A finding's case made smaller as long as it still differs in this way, and how that went. After a step the search goes on where it
// was, and comes to its end when no candidate is left from there and from the start.
fn smallest<C: Case>(program: &Program, way: &Kind, f: &Finding<C>) -> (C, Option<Vec<u8>>, &'static str) {
    let Some((_, got)) = first_of(program, &[f.case.clone()], way) else {
        return (f.case.clone(), f.got.clone(), "which alone does not differ");
    };
    let end = Instant::now() + PATIENCE;
    let (mut best, mut answer, mut from) = (f.case.clone(), got, 0);
    loop {
        let behind = first_candidate(program, &mut best.smaller().skip(from), way, end).map(|(k, c, g)| (from + k, c, g));
        let next = behind.or_else(|| first_candidate(program, &mut best.smaller().take(from), way, end));
        match next {
            Some((k, c, g)) => (from, best, answer) = (k, c, g),
            None => break,
        }
    }
    (best, answer, if Instant::now() < end { "made as small as it goes" } else { "made smaller until time was up" })
}

// The front of a long answer.
fn front(s: &str) -> String {
    let most = s.char_indices().map(|(k, _)| k).nth(4000);
    most.map_or(s.to_string(), |k| format!("{}... ({} bytes)\n", &s[..k], s.len()))
}

fn print_finding<C: Case>(program: &Program, name: &str, way: &Kind, f: &Finding<C>) {
    println!("{name}: wanted {}, got {}: {} differ in this way", way.0, way.1, f.count);
    let (case, got, how) = smallest(program, way, f);
    println!("{}, {how}:\n{}", C::WORD, front(&case.shown()));
    let got = got.map_or("nothing\n".to_string(), |g| front(&String::from_utf8_lossy(&g)));
    println!("wanted\n{}got\n{got}", front(&String::from_utf8_lossy(&case.answer().0)));
}

// Compares all cases, prints how often each answer occurs and what differs; answers how many were compared and how many differ.
pub fn compare<C: Case>(path: &str, name: &str, mut cases: impl Iterator<Item = C>) -> (usize, usize) {
    let program = Program::new(path);
    let mut report = Report::new();
    let (mut batch, mut bytes) = (Vec::new(), 0);
    loop {
        let next = cases.next();
        if !batch.is_empty() && (next.is_none() || batch.len() == BATCH_CASES || bytes > BATCH_BYTES) {
            report.batch(&program, &batch);
            (batch, bytes) = (Vec::new(), 0);
        }
        if report.ends > MOST_ENDS {
            println!("{name}: stopped, since the program ended early {MOST_ENDS} times");
            break;
        }
        let Some(c) = next else { break };
        bytes += c.bytes();
        batch.push(c);
    }
    report.print_seen(name);
    if report.behind {
        println!("{name}: what is printed behind the last {} is not\n{}", C::WORD, C::BEHIND);
    }
    for (way, f) in report.findings.iter().take(MOST_FINDINGS) {
        print_finding(&program, name, way, f);
    }
    println!("{name}: {} compared, {} differ", report.compared, report.differ());
    (report.compared, report.differ())
}
