// The stack that each call takes: a thread makes it on a painted stack, and the deepest byte that was changed tells.
use crate::inputs;
use crate::networks;
use crate::part::{Lent, Part, RowsAnswer};
use std::ffi::{c_int, c_void};
use std::hint::black_box;
use std::ptr::null_mut;

// pthread_attr_t and pthread_t of x86-64 Linux.
type Attributes = [u64; 7];
type Thread = u64;
type Start = extern "C" fn(*mut c_void) -> *mut c_void;

extern "C" {
    fn pthread_attr_init(attributes: *mut Attributes) -> c_int;
    fn pthread_attr_setstack(attributes: *mut Attributes, stack: *mut c_void, bytes: usize) -> c_int;
    fn pthread_create(thread: *mut Thread, attributes: *const Attributes, start: Start, argument: *mut c_void) -> c_int;
    fn pthread_join(thread: Thread, answer: *mut *mut c_void) -> c_int;
}

const STACK: usize = 1 << 20;
const PAGE: usize = 4096;
const PAINT: u8 = 0x6b;

// The most that a call takes over all inputs, in bytes, and the first input that takes so much.
pub struct Deepest {
    pub call: &'static str,
    pub bytes: usize,
    pub input: String,
}

impl std::fmt::Display for Deepest {
    fn fmt(&self, f: &mut std::fmt::Formatter) -> std::fmt::Result {
        write!(f, "stack for {}: {} bytes at most, on {}", self.call, self.bytes, self.input)
    }
}

extern "C" fn start(call: *mut c_void) -> *mut c_void {
    let call = call as *mut &mut dyn FnMut();
    unsafe { (*call)() };
    null_mut()
}

// How many bytes of its stack a thread changes that does nothing but this.
fn changed(mut call: &mut dyn FnMut()) -> usize {
    let mut memory = vec![PAINT; STACK + PAGE];
    let from = memory.as_ptr().align_offset(PAGE);
    let stack = &mut memory[from..from + STACK];
    let (mut attributes, mut thread, argument) = (Attributes::default(), 0, (&raw mut call).cast());
    let ran = unsafe {
        pthread_attr_init(&mut attributes) == 0
            && pthread_attr_setstack(&mut attributes, stack.as_mut_ptr().cast(), STACK) == 0
            && pthread_create(&mut thread, &attributes, start, argument) == 0
            && pthread_join(thread, null_mut()) == 0
    };
    assert!(ran, "no thread ran on the painted stack");
    STACK - black_box(stack).iter().take_while(|b| **b == PAINT).count()
}

// The stack of reading and writing every text, and of running every network. What a thread takes by itself does not count; the frames of
// the functions here that make the call do.
pub fn measure(part: Part) -> Vec<Deepest> {
    let alone = changed(&mut || ());
    let mut lent = Lent::new();
    let mut all: Vec<Deepest> = ["reading", "writing", "running"].map(|call| Deepest { call, bytes: 0, input: String::new() }).into();
    let mut note = |call: usize, name: &str, f: &mut dyn FnMut()| {
        let bytes = changed(f) - alone;
        if bytes > all[call].bytes {
            (all[call].bytes, all[call].input) = (bytes, name.to_string());
        }
    };
    for input in inputs::inputs().iter().chain(&inputs::worst()) {
        let mut n = Default::default();
        note(0, &input.name, &mut || n = lent.read(part, &input.text));
        note(1, &input.name, &mut || drop(black_box(lent.write(part, n))));
    }
    let xor = networks::xor_of_inputs(12).lay(&mut lent);
    note(1, "xor-of-12", &mut || drop(black_box(lent.write(part, xor))));
    for input in networks::runs() {
        let n = input.lay(part, &mut lent);
        let rows = input.rows(n.inputs);
        let mut out = vec![0; input.clocks * (n.outputs as usize + 1)];
        let mut ran = RowsAnswer::default();
        note(2, &input.name, &mut || ran = lent.run(part, n, &rows, &mut out));
        assert!(ran.refused == 0, "{} is refused by {}", input.name, ran.refused);
    }
    all
}
