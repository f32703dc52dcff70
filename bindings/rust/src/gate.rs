use crate::Signal;
use std::fmt;

/// Types of a gate with two inputs.
#[derive(Clone, Copy, Debug, PartialEq, Eq, Hash)]
#[allow(missing_docs)]
pub enum BinaryType {
    And,
    Xor,
}

/// Types of a gate with three inputs. `Mux` is its second input where the first is one, else its third.
#[derive(Clone, Copy, Debug, PartialEq, Eq, Hash)]
#[allow(missing_docs)]
pub enum TernaryType {
    And,
    Xor,
    Maj,
    Mux,
}

/// Types of a gate with any number of inputs, none too.
#[derive(Clone, Copy, Debug, PartialEq, Eq, Hash)]
#[allow(missing_docs)]
pub enum NaryType {
    And,
    Or,
    Nand,
    Nor,
    Xor,
    Xnor,
}

/// A gate with its inputs. It prints as `And(i0, !x2)`, and a flip-flop that starts at one as `Dff(x3, 1, 0, start=1)`.
#[derive(Clone, Debug, PartialEq, Eq, Hash)]
pub enum Gate {
    /// A gate of two inputs.
    Binary([Signal; 2], BinaryType),
    /// A gate of three inputs.
    Ternary([Signal; 3], TernaryType),
    /// A gate of any number of inputs.
    Nary(Vec<Signal>, NaryType),
    /// The value of one input.
    Buf(Signal),
    /// A flip-flop: data, enable, reset; and its start value, where true is one. Reset comes before enable.
    Dff([Signal; 3], bool),
}

impl Gate {
    /// The gate's inputs in order.
    pub fn pins(&self) -> &[Signal] {
        match self {
            Gate::Binary(pins, _) => pins,
            Gate::Ternary(pins, _) | Gate::Dff(pins, _) => pins,
            Gate::Nary(pins, _) => pins,
            Gate::Buf(pin) => std::slice::from_ref(pin),
        }
    }

    /// Whether it is no flip-flop.
    pub fn is_comb(&self) -> bool {
        !matches!(self, Gate::Dff(..))
    }

    /// The start value: that of a flip-flop, and false of every other gate.
    pub fn start(&self) -> bool {
        matches!(self, Gate::Dff(_, true))
    }

    /// The form number, 1 to 14, that stands in the gate's record.
    pub fn form(&self) -> u32 {
        match self {
            Gate::Binary(_, BinaryType::And) => 1,
            Gate::Binary(_, BinaryType::Xor) => 2,
            Gate::Ternary(_, TernaryType::And) => 3,
            Gate::Ternary(_, TernaryType::Xor) => 4,
            Gate::Ternary(_, TernaryType::Maj) => 5,
            Gate::Ternary(_, TernaryType::Mux) => 6,
            Gate::Nary(_, NaryType::And) => 7,
            Gate::Nary(_, NaryType::Or) => 8,
            Gate::Nary(_, NaryType::Nand) => 9,
            Gate::Nary(_, NaryType::Nor) => 10,
            Gate::Nary(_, NaryType::Xor) => 11,
            Gate::Nary(_, NaryType::Xnor) => 12,
            Gate::Buf(_) => 13,
            Gate::Dff(..) => 14,
        }
    }

    /// The gate of a record: its form number, its inputs and its start value; none where there is no such form, or where it cannot have
    /// so many inputs or this start value.
    pub fn from_form(form: u32, pins: &[Signal], start: u32) -> Option<Gate> {
        if start > u32::from(form == 14) {
            return None;
        }
        let two = || pins.try_into().ok();
        let three = || pins.try_into().ok();
        let any = |kind| Some(Gate::Nary(pins.to_vec(), kind));
        match form {
            1 => Some(Gate::Binary(two()?, BinaryType::And)),
            2 => Some(Gate::Binary(two()?, BinaryType::Xor)),
            3 => Some(Gate::Ternary(three()?, TernaryType::And)),
            4 => Some(Gate::Ternary(three()?, TernaryType::Xor)),
            5 => Some(Gate::Ternary(three()?, TernaryType::Maj)),
            6 => Some(Gate::Ternary(three()?, TernaryType::Mux)),
            7 => any(NaryType::And),
            8 => any(NaryType::Or),
            9 => any(NaryType::Nand),
            10 => any(NaryType::Nor),
            11 => any(NaryType::Xor),
            12 => any(NaryType::Xnor),
            13 => <[Signal; 1]>::try_from(pins).ok().map(|[pin]| Gate::Buf(pin)),
            14 => Some(Gate::Dff(three()?, start == 1)),
            _ => None,
        }
    }

    /// The name of the form's type, as `Xor` for each of the three.
    pub fn name(&self) -> &'static str {
        match self.form() {
            1 | 3 | 7 => "And",
            2 | 4 | 11 => "Xor",
            5 => "Maj",
            6 => "Mux",
            8 => "Or",
            9 => "Nand",
            10 => "Nor",
            12 => "Xnor",
            13 => "Buf",
            _ => "Dff",
        }
    }
}

impl fmt::Display for Gate {
    fn fmt(&self, f: &mut fmt::Formatter<'_>) -> fmt::Result {
        let pins: Vec<String> = self.pins().iter().map(Signal::to_string).collect();
        let start = if self.start() { ", start=1" } else { "" };
        write!(f, "{}({}{start})", self.name(), pins.join(", "))
    }
}
