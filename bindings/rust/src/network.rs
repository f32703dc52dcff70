use crate::cells::{self, Counts, GATE_CELLS, MAX_GATES, MAX_OUTPUTS, MAX_PINS, MAX_TEXT};
use crate::{Gate, Refusal, Signal};

/// A network of gates: how many inputs it has, its gates in order and what its outputs take.
#[derive(Clone, Debug, PartialEq, Eq)]
pub struct Network {
    inputs: u32,
    gates: Vec<Gate>,
    outputs: Vec<Signal>,
}

/// A network in cells: its counts, its gates' records, their pins, and the outputs.
struct Lent {
    counts: Counts,
    gates: Vec<u32>,
    pins: Vec<u32>,
    outputs: Vec<u32>,
}

/// What is a row of no network, since no LF ends it.
const NO_ROW: &[u8] = b"0";

/// The cells of signals.
fn raw_cells(signals: &[Signal]) -> Vec<u32> {
    signals.iter().map(|signal| signal.raw()).collect()
}

/// The signals of cells.
fn signals(cells: &[u32]) -> Vec<Signal> {
    cells.iter().map(|&cell| Signal::from_raw(cell)).collect()
}

/// A length as a count; one over 32 bits becomes one that the library refuses as well.
fn count(length: usize) -> u32 {
    u32::try_from(length).unwrap_or(u32::MAX)
}

/// The rows of bits as text; none where a row has another length than wanted, or where memory does not hold the text.
fn text_of<R: AsRef<[bool]>>(rows: &[R], inputs: usize) -> Option<Vec<u8>> {
    let mut text = Vec::new();
    text.try_reserve_exact(rows.len().checked_mul(inputs + 1)?).ok()?;
    for row in rows.iter().map(AsRef::as_ref) {
        if row.len() != inputs {
            return None;
        }
        text.extend(row.iter().map(|&bit| b'0' + u8::from(bit)));
        text.push(b'\n');
    }
    Some(text)
}

/// So many zero bytes; none where there is no such number or memory does not hold them.
fn room_for(length: Option<usize>) -> Vec<u8> {
    let mut room = Vec::new();
    match length {
        Some(length) if room.try_reserve_exact(length).is_ok() => room.resize(length, 0),
        _ => {}
    }
    room
}

impl Network {
    /// A network of the caller's. Nothing is checked here: what is no network, such as a gate whose input does not exist, is
    /// refused when it is written or run.
    pub fn new(inputs: u32, gates: Vec<Gate>, outputs: Vec<Signal>) -> Network {
        Network { inputs, gates, outputs }
    }

    /// Reads a BLIF text. Flip-flops come first, then every other gate behind those that it takes its inputs from. Where `.latch` has three
    /// words behind it the third is the start value, where it has five or more the fifth, and else it is zero; 2 and 3 are read as zero. A
    /// latch's type and control are ignored.
    ///
    /// # Errors
    ///
    /// The refusals from 2 to 14, and 34.
    pub fn read(text: &[u8]) -> Result<Network, Refusal> {
        let mut gates = vec![0; MAX_GATES * GATE_CELLS];
        let mut pins = vec![0; MAX_PINS];
        let mut outputs = vec![0; MAX_OUTPUTS];
        let mut work_gates = gates.clone();
        let mut work_pins = pins.clone();
        let answer = cells::read_blif(text, &mut gates, &mut pins, &mut outputs, &mut work_gates, &mut work_pins);
        Refusal::of(answer.refused)?;
        let gates = gates[..answer.gates as usize * GATE_CELLS].chunks(GATE_CELLS).map(|record| {
            let [form, first, length, start] = <[u32; GATE_CELLS]>::try_from(record).expect("a record has as many cells");
            let pins = signals(&pins[first as usize..][..length as usize]);
            Gate::from_form(form, &pins, start).expect("the reader leaves records of gates")
        });
        let outputs = signals(&outputs[..answer.outputs as usize]);
        Ok(Network { inputs: answer.inputs, gates: gates.collect(), outputs })
    }

    /// Writes the network as a BLIF text.
    ///
    /// # Errors
    ///
    /// The refusals from 20 to 22.
    pub fn write(&self) -> Result<Vec<u8>, Refusal> {
        let lent = self.lent();
        let mut text = vec![0; MAX_TEXT];
        let answer = cells::write_blif(lent.counts, &lent.gates, &lent.pins, &lent.outputs, &mut text);
        Refusal::of(answer.refused)?;
        text.truncate(answer.length as usize);
        Ok(text)
    }

    /// Runs the network for one clock after the other, from the flip-flops' start values. There is a row for each clock, and there may be
    /// any number of them: a character 0 or 1 for each input, in order, and an LF. The answer has such a row of outputs for each clock. A
    /// network that was read can be run; one of the caller's has to be sorted, with flip-flops of the enable one and the reset zero.
    ///
    /// ```
    /// use vumneath::{Network, Refusal};
    ///
    /// let lock = Network::read(b".inputs wrong\n.outputs locked\n.names wrong locked next\n00 0\n.latch next locked 0\n")?;
    /// assert_eq!(lock.run(b"0\n1\n0\n0\n")?, b"0\n0\n1\n1\n");
    /// assert_eq!(lock.run(b"0\n1"), Err(Refusal::WrongRows));
    /// # Ok::<(), Refusal>(())
    /// ```
    ///
    /// # Errors
    ///
    /// The refusals 20 and 29 to 31. Output rows that memory does not hold are a case of 31.
    pub fn run(&self, rows: &[u8]) -> Result<Vec<u8>, Refusal> {
        let lent = self.lent();
        let clocks = rows.len() / (self.inputs as usize + 1);
        let mut out = room_for(clocks.checked_mul(self.outputs.len() + 1));
        let answer = cells::run(lent.counts, &lent.gates, &lent.pins, &lent.outputs, rows, &mut out);
        Refusal::of(answer.refused)?;
        out.truncate(answer.length);
        Ok(out)
    }

    /// Runs the network as [`run`](Network::run) does, over rows of bits.
    ///
    /// ```
    /// use vumneath::{Network, Refusal};
    ///
    /// let and = Network::read(b".inputs a b\n.outputs y\n.names a b y\n11 1\n")?;
    /// assert_eq!(and.run_bits(&[[true, false], [true, true]])?, [[false], [true]]);
    /// assert_eq!(and.run_bits(&[vec![true, false], vec![true]]), Err(Refusal::WrongRows));
    /// # Ok::<(), Refusal>(())
    /// ```
    ///
    /// # Errors
    ///
    /// Those of [`run`](Network::run). A row that has not a bit for each input is a case of 31.
    pub fn run_bits<R: AsRef<[bool]>>(&self, rows: &[R]) -> Result<Vec<Vec<bool>>, Refusal> {
        let text = text_of(rows, self.inputs as usize);
        let ran = self.run(text.as_deref().unwrap_or(NO_ROW))?;
        let bits = |row: &[u8]| row[..self.outputs.len()].iter().map(|&c| c == b'1').collect();
        Ok(ran.chunks(self.outputs.len() + 1).map(bits).collect())
    }

    /// The network in cells.
    fn lent(&self) -> Lent {
        let (mut gates, mut pins) = (Vec::new(), Vec::new());
        for gate in &self.gates {
            gates.extend([gate.form(), count(pins.len()), count(gate.pins().len()), u32::from(gate.start())]);
            pins.extend(raw_cells(gate.pins()));
        }
        let outputs = raw_cells(&self.outputs);
        let counts = Counts {
            inputs: self.inputs,
            gates: count(self.gates.len()),
            pins: count(pins.len()),
            outputs: count(outputs.len()),
        };
        Lent { counts, gates, pins, outputs }
    }

    /// How many inputs there are.
    pub fn inputs(&self) -> u32 {
        self.inputs
    }

    /// The gates; gate `v` is `Signal::from_var(v)`.
    pub fn gates(&self) -> &[Gate] {
        &self.gates
    }

    /// The outputs' signals.
    pub fn outputs(&self) -> &[Signal] {
        &self.outputs
    }
}
