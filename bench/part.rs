// The calls that the static library exports, and the cells and bytes that a caller lends.
use std::ffi::{c_char, c_int, c_void, CString};

extern "C" {
    fn dlopen(file: *const c_char, mode: c_int) -> *mut c_void;
    fn dlsym(library: *mut c_void, name: *const c_char) -> *mut c_void;
}

#[repr(C)]
#[derive(Clone, Copy, Default)]
pub struct NetworkAnswer {
    pub refused: u32,
    pub inputs: u32,
    pub gates: u32,
    pub pins: u32,
    pub outputs: u32,
}

#[repr(C)]
#[derive(Clone, Copy, Default)]
pub struct TextAnswer {
    pub refused: u32,
    pub length: u32,
}

#[repr(C)]
#[derive(Clone, Copy, Default)]
pub struct RowsAnswer {
    pub refused: u32,
    pub length: usize,
}

// text, gates, pins, outputs, work gates, work pins: each with its length.
pub type Read =
    unsafe extern "C" fn(*const u8, usize, *mut u32, usize, *mut u32, usize, *mut u32, usize, *mut u32, usize, *mut u32, usize) -> NetworkAnswer;

// inputs, gates, pins and outputs in use, then gates, pins, outputs and the text to be filled: each with its length.
pub type Write =
    unsafe extern "C" fn(u32, u32, u32, u32, *const u32, usize, *const u32, usize, *const u32, usize, *mut u8, usize) -> TextAnswer;

// inputs, gates, pins and outputs in use, then gates, pins, outputs, rows and the rows to be filled: each with its length.
pub type Run = unsafe extern "C" fn(
    u32, u32, u32, u32, *const u32, usize, *const u32, usize, *const u32, usize, *const u8, usize, *mut u8, usize,
) -> RowsAnswer;

// The calls of one library at one place in memory, and the cells of a gate's record that it takes; a library from before runs has no call for
// them.
#[derive(Clone, Copy)]
pub struct Part {
    pub read: Read,
    pub write: Write,
    pub run: Option<Run>,
    pub gate_cells: usize,
}

// A function of a library by its name; null where there is none.
fn find(library: *mut c_void, name: &str) -> *mut c_void {
    let name = CString::new(name).unwrap();
    unsafe { dlsym(library, name.as_ptr()) }
}

fn symbol(library: *mut c_void, name: &str) -> *mut c_void {
    let found = find(library, name);
    assert!(!found.is_null(), "no {name}");
    found
}

// The library in a file that bench/place made.
pub fn load(file: &str) -> Part {
    let name = CString::new(file).unwrap();
    let now = 2;
    let library = unsafe { dlopen(name.as_ptr(), now) };
    assert!(!library.is_null(), "{file} cannot be loaded");
    unsafe {
        Part {
            read: std::mem::transmute::<*mut c_void, Read>(symbol(library, "vumneath_read_blif")),
            write: std::mem::transmute::<*mut c_void, Write>(symbol(library, "vumneath_write_blif")),
            run: std::mem::transmute::<*mut c_void, Option<Run>>(find(library, "vumneath_run")),
            gate_cells: if find(library, "vumneath_interface").is_null() { GATE_CELLS_BEFORE } else { GATE_CELLS },
        }
    }
}

// The places at which a library is linked: so many bytes behind a multiple of 64.
pub const PLACES: [usize; 4] = [0, 16, 32, 48];

// A library at all its places, from the folder that bench/place filled.
pub fn load_all(folder: &str) -> Vec<Part> {
    PLACES.iter().map(|bytes| load(&format!("{folder}/{bytes}.so"))).collect()
}

// The cells of one gate's record; and in a library from before start values, which does not tell its interface.
pub const GATE_CELLS: usize = 4;
pub const GATE_CELLS_BEFORE: usize = 3;

// The cells and bytes that a caller lends, of exactly the sizes that are asked for.
pub struct Lent {
    pub gate_cells: usize,
    pub gates: Vec<u32>,
    pub pins: Vec<u32>,
    pub outputs: Vec<u32>,
    pub work_gates: Vec<u32>,
    pub work_pins: Vec<u32>,
    pub out: Vec<u8>,
}

impl Lent {
    pub fn new() -> Lent {
        Lent::of_width(GATE_CELLS)
    }

    // The same for records of so many cells.
    pub fn of_width(gate_cells: usize) -> Lent {
        let gates = vec![0; 1024 * gate_cells];
        Lent { gate_cells, work_gates: gates.clone(), gates, pins: vec![0; 16384], outputs: vec![0; 256], work_pins: vec![0; 16384], out: vec![0; 32768] }
    }

    // The same word in every cell.
    pub fn fill(&mut self, word: u32) {
        for cells in [&mut self.gates, &mut self.pins, &mut self.outputs, &mut self.work_gates, &mut self.work_pins] {
            cells.fill(word);
        }
    }

    pub fn read(&mut self, part: Part, text: &[u8]) -> NetworkAnswer {
        unsafe {
            (part.read)(
                text.as_ptr(), text.len(), self.gates.as_mut_ptr(), self.gates.len(), self.pins.as_mut_ptr(), self.pins.len(),
                self.outputs.as_mut_ptr(), self.outputs.len(), self.work_gates.as_mut_ptr(), self.work_gates.len(), self.work_pins.as_mut_ptr(), self.work_pins.len(),
            )
        }
    }

    pub fn write(&mut self, part: Part, n: NetworkAnswer) -> TextAnswer {
        unsafe {
            (part.write)(
                n.inputs, n.gates, n.pins, n.outputs, self.gates.as_ptr(), self.gates.len(), self.pins.as_ptr(), self.pins.len(),
                self.outputs.as_ptr(), self.outputs.len(), self.out.as_mut_ptr(), self.out.len(),
            )
        }
    }

    // Runs the network that is in the cells; the rows of outputs go into a slice of the caller's.
    pub fn run(&self, part: Part, n: NetworkAnswer, rows: &[u8], out: &mut [u8]) -> RowsAnswer {
        let run = part.run.expect("the library has no vumneath_run");
        unsafe {
            run(
                n.inputs, n.gates, n.pins, n.outputs, self.gates.as_ptr(), self.gates.len(), self.pins.as_ptr(), self.pins.len(),
                self.outputs.as_ptr(), self.outputs.len(), rows.as_ptr(), rows.len(), out.as_mut_ptr(), out.len(),
            )
        }
    }
}
