use std::fmt;
use std::ops::{BitXor, Not};

/// A constant, an input or a gate, as it is or inverted. It prints as `0`, `1`, `i3` or `x4`, with `!` before it where inverted.
#[derive(Clone, Copy, Debug, PartialEq, Eq, Hash)]
pub struct Signal(u32);

const INPUT: u32 = 0x8000_0000;
const LAST_GATE: u32 = (1 << 30) - 2;
const LAST_INPUT: u32 = (1 << 30) - 1;

impl Signal {
    /// Constant zero.
    pub const fn zero() -> Signal {
        Signal(0)
    }

    /// Constant one.
    pub const fn one() -> Signal {
        Signal(1)
    }

    /// Gate `v` of a network, counted from 0. A number too large for a cell gives the last gate that a cell holds, which no network has.
    pub const fn from_var(v: u32) -> Signal {
        if v > LAST_GATE {
            return Signal::from_var(LAST_GATE);
        }
        Signal(2 * (v + 1))
    }

    /// Input `v` of a network, counted from 0. A number too large for a cell gives the last input that a cell holds, which no network
    /// has.
    pub const fn from_input(v: u32) -> Signal {
        if v > LAST_INPUT {
            return Signal::from_input(LAST_INPUT);
        }
        Signal(u32::MAX - (2 * v + 1))
    }

    /// The signal of a cell; every 32-bit number is one.
    pub const fn from_raw(cell: u32) -> Signal {
        Signal(cell)
    }

    /// The signal's cell: bit 0 is the inversion, bit 31 marks an input.
    pub const fn raw(self) -> u32 {
        self.0
    }

    /// Whether it is constant zero or one.
    pub const fn is_constant(self) -> bool {
        self.0 < 2
    }

    /// Whether it is an input, inverted or not.
    pub const fn is_input(self) -> bool {
        self.0 & INPUT != 0
    }

    /// Whether it is a gate, inverted or not.
    pub const fn is_var(self) -> bool {
        !self.is_constant() && !self.is_input()
    }

    /// Whether it is inverted; constant one is zero inverted.
    pub const fn is_inverted(self) -> bool {
        self.0 & 1 != 0
    }

    /// The number of the input, where it is one.
    pub const fn input(self) -> Option<u32> {
        if self.is_input() {
            return Some(!self.0 / 2);
        }
        None
    }

    /// The number of the gate, where it is one.
    pub const fn var(self) -> Option<u32> {
        if self.is_var() {
            return Some(self.0 / 2 - 1);
        }
        None
    }

    /// The same constant, input or gate, not inverted.
    pub const fn without_inversion(self) -> Signal {
        Signal(self.0 & !1)
    }
}

impl Not for Signal {
    type Output = Signal;

    fn not(self) -> Signal {
        Signal(self.0 ^ 1)
    }
}

impl BitXor<bool> for Signal {
    type Output = Signal;

    /// Inverted where the bool is true.
    fn bitxor(self, inverted: bool) -> Signal {
        Signal(self.0 ^ u32::from(inverted))
    }
}

impl fmt::Display for Signal {
    fn fmt(&self, f: &mut fmt::Formatter<'_>) -> fmt::Result {
        let sign = if self.is_inverted() { "!" } else { "" };
        match (self.input(), self.var()) {
            (Some(v), _) => write!(f, "{sign}i{v}"),
            (None, Some(v)) => write!(f, "{sign}x{v}"),
            (None, None) => write!(f, "{}", self.0),
        }
    }
}
