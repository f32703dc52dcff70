//! The functions of the library over lent slices: the boundary, and the only unsafe code of this crate.
//!
//! How a network lies in cells is told in the C header, `vumneath.h`. No function here asks for anything: slices of any lengths
//! and contents get an answer. Each needs less than 36 KiB of stack. Each but [`interface`] panics where the library that is linked has
//! another interface than this crate, since it would take records otherwise.
#![allow(unsafe_code)]

/// The interface of the library that this crate is for; the C header says when the number rises.
pub const INTERFACE: u32 = 2;
/// Bytes of a text, at most.
pub const MAX_TEXT: usize = 32768;
/// Inputs of a network, at most.
pub const MAX_INPUTS: usize = 256;
/// Outputs of a network, at most.
pub const MAX_OUTPUTS: usize = 256;
/// Gates of a network, at most.
pub const MAX_GATES: usize = 1024;
/// Gate inputs of a network, at most.
pub const MAX_PINS: usize = 16384;
/// Cells of one gate's record: form number, first pin, number of pins, start value.
pub const GATE_CELLS: usize = 4;

/// What reading answers: `refused` is 0 on success, else the refusal's number, and the counts are then 0.
#[repr(C)]
#[derive(Clone, Copy, Debug, PartialEq, Eq)]
#[allow(missing_docs)]
pub struct NetworkAnswer {
    pub refused: u32,
    pub inputs: u32,
    pub gates: u32,
    pub pins: u32,
    pub outputs: u32,
}

/// What writing answers: `refused` is 0 on success, else the refusal's number, and the length is then 0.
#[repr(C)]
#[derive(Clone, Copy, Debug, PartialEq, Eq)]
#[allow(missing_docs)]
pub struct TextAnswer {
    pub refused: u32,
    pub length: u32,
}

/// What a run answers: `refused` is 0 on success, else the refusal's number, and the length is then 0.
#[repr(C)]
#[derive(Clone, Copy, Debug, PartialEq, Eq)]
#[allow(missing_docs)]
pub struct RowsAnswer {
    pub refused: u32,
    pub length: usize,
}

/// The counts of a network that is lent to the writer or to a run.
#[derive(Clone, Copy, Debug, PartialEq, Eq)]
#[allow(missing_docs)]
pub struct Counts {
    pub inputs: u32,
    pub gates: u32,
    pub pins: u32,
    pub outputs: u32,
}

extern "C" {
    fn vumneath_interface() -> u32;

    fn vumneath_read_blif(
        text: *const u8,
        text_len: usize,
        gates: *mut u32,
        gates_len: usize,
        pins: *mut u32,
        pins_len: usize,
        outputs: *mut u32,
        outputs_len: usize,
        work_gates: *mut u32,
        work_gates_len: usize,
        work_pins: *mut u32,
        work_pins_len: usize,
    ) -> NetworkAnswer;

    fn vumneath_write_blif(
        inputs: u32,
        gate_count: u32,
        pin_count: u32,
        output_count: u32,
        gates: *const u32,
        gates_len: usize,
        pins: *const u32,
        pins_len: usize,
        outputs: *const u32,
        outputs_len: usize,
        out: *mut u8,
        out_len: usize,
    ) -> TextAnswer;

    fn vumneath_run(
        inputs: u32,
        gate_count: u32,
        pin_count: u32,
        output_count: u32,
        gates: *const u32,
        gates_len: usize,
        pins: *const u32,
        pins_len: usize,
        outputs: *const u32,
        outputs_len: usize,
        rows: *const u8,
        rows_len: usize,
        out: *mut u8,
        out_len: usize,
    ) -> RowsAnswer;
}

/// The interface of the library that is linked. Where it is not [`INTERFACE`], the other functions panic.
pub fn interface() -> u32 {
    // SAFETY: the function takes nothing and answers a number.
    unsafe { vumneath_interface() }
}

/// Panics where the library that is linked has another interface than this crate.
fn check_interface() {
    let linked = interface();
    assert!(
        linked == INTERFACE,
        "libvumneath.a has the interface {linked}, and this crate is for {INTERFACE}: ./install PREFIX installs both together"
    );
}

/// Reads a text into lent cells. It wants 4,096 cells for gates, 16,384 for pins, 256 for outputs and as many again as working
/// gates and pins; fewer is refusal 1. Cells beyond the counts, and all cells after a refusal, are zero.
pub fn read_blif(
    text: &[u8],
    gates: &mut [u32],
    pins: &mut [u32],
    outputs: &mut [u32],
    work_gates: &mut [u32],
    work_pins: &mut [u32],
) -> NetworkAnswer {
    check_interface();
    // SAFETY: each pointer comes with the length of its own slice, and borrowing keeps the six apart.
    unsafe {
        vumneath_read_blif(
            text.as_ptr(),
            text.len(),
            gates.as_mut_ptr(),
            gates.len(),
            pins.as_mut_ptr(),
            pins.len(),
            outputs.as_mut_ptr(),
            outputs.len(),
            work_gates.as_mut_ptr(),
            work_gates.len(),
            work_pins.as_mut_ptr(),
            work_pins.len(),
        )
    }
}

/// Writes a network as a text into a lent slice. Any counts and cells may be given; what is no network is refusal 20. Bytes
/// behind the text, and all bytes after a refusal, are zero.
pub fn write_blif(counts: Counts, gates: &[u32], pins: &[u32], outputs: &[u32], out: &mut [u8]) -> TextAnswer {
    check_interface();
    // SAFETY: each pointer comes with the length of its own slice, and borrowing keeps the output apart from the others.
    unsafe {
        vumneath_write_blif(
            counts.inputs,
            counts.gates,
            counts.pins,
            counts.outputs,
            gates.as_ptr(),
            gates.len(),
            pins.as_ptr(),
            pins.len(),
            outputs.as_ptr(),
            outputs.len(),
            out.as_mut_ptr(),
            out.len(),
        )
    }
}

/// Runs a sorted network over rows, one for each clock, from the flip-flops' start values, into a lent slice. A row is a character 0 or 1
/// for each input and an LF; the slice gets one for each clock, a character 0 or 1 for each output and an LF. Any counts, cells and rows may
/// be given. Bytes behind the rows, and all bytes after a refusal, are zero.
pub fn run(counts: Counts, gates: &[u32], pins: &[u32], outputs: &[u32], rows: &[u8], out: &mut [u8]) -> RowsAnswer {
    check_interface();
    // SAFETY: each pointer comes with the length of its own slice, and borrowing keeps the output apart from the others.
    unsafe {
        vumneath_run(
            counts.inputs,
            counts.gates,
            counts.pins,
            counts.outputs,
            gates.as_ptr(),
            gates.len(),
            pins.as_ptr(),
            pins.len(),
            outputs.as_ptr(),
            outputs.len(),
            rows.as_ptr(),
            rows.len(),
            out.as_mut_ptr(),
            out.len(),
        )
    }
}
