//! BLIF netlists, read, written and run, proved.
//!
//! BLIF is the Berkeley Logic Interchange Format, a text that describes logic gates and flip-flops. [`Network::read`] turns such
//! a text into a sorted network and [`Network::write`] turns a network into such a text; [`Network::run`] runs a sorted network over rows
//! of 0 and 1, and [`Network::run_bits`] over rows of bits. All call a static library that is proved to answer every text, every network
//! and all rows, sound or damaged, with a result or a numbered [`Refusal`]. [`report()`] reads and runs by these calls, and counts the
//! commands of a pass that an interlock accepts and rejects.
//!
//! ```
//! use vumneath::{Gate, NaryType, Network, Refusal, Signal};
//!
//! let text = b".model m\n.inputs a b\n.outputs y\n.names a b y\n10 1\n.end\n";
//! let network = Network::read(text)?;
//! assert_eq!(network.inputs(), 2);
//! let (a, b) = (Signal::from_input(0), Signal::from_input(1));
//! assert_eq!(network.gates(), [Gate::Nary(vec![a, !b], NaryType::And)]);
//! assert_eq!(network.outputs(), [Signal::from_var(0)]);
//! assert!(network.write()?.ends_with(b".names i0 i1_n x0\n11 1\n.names i1 i1_n\n0 1\n.names vdd\n1\n.names gnd\n"));
//! assert_eq!(network.run(b"10\n11\n")?, b"1\n0\n");
//!
//! let refusal = Network::read(b".outputs y\n").unwrap_err();
//! assert_eq!((refusal, refusal.number()), (Refusal::Undefined, 11));
//! assert_eq!(refusal.to_string(), "an output, a latch's input or a cover's input is not defined");
//! # Ok::<(), Refusal>(())
//! ```
//!
//! A flip-flop starts at the value that its `.latch` says, and a run begins there:
//!
//! ```
//! use vumneath::{Gate, Network, Refusal, Signal};
//!
//! let turning = Network::read(b".outputs q\n.latch d q 1\n.names q d\n0 1\n")?;
//! assert_eq!(turning.gates()[0], Gate::Dff([Signal::from_var(1), Signal::one(), Signal::zero()], true));
//! assert_eq!(turning.run(b"\n\n\n")?, b"1\n0\n1\n");
//! assert_eq!(Network::read(b".latch d q 4\n"), Err(Refusal::WrongStart));
//! # Ok::<(), Refusal>(())
//! ```
//!
//! [`cells`] has the functions over slices that the caller lends, for programs that want no heap. [`interface`] is the interface of the
//! library that is linked; where it is not [`INTERFACE`], every call panics.
#![deny(unsafe_code)]
#![warn(missing_docs)]

pub mod cells;
mod gate;
mod network;
mod refusal;
mod report;
mod signal;

pub use cells::{interface, INTERFACE};
pub use gate::{BinaryType, Gate, NaryType, TernaryType};
pub use network::Network;
pub use refusal::Refusal;
pub use report::{report, Report};
pub use signal::Signal;
