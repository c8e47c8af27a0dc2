//! A stack that is painted before a call is made on it, so that what the call
//! used of it shows afterwards.

use std::alloc::{alloc, dealloc, handle_alloc_error, Layout};
use std::ffi::{c_int, c_void};
use std::hint::black_box;
use std::ptr;

/// Far more than any call should need.
const SIZE: usize = 1 << 20;

/// No call is likely to leave this word behind.
const PAINT: u64 = 0xA53C_96F0_5AC3_690F;

/// A `pthread_attr_t`, which has 56 bytes on x86-64.
#[repr(C)]
struct Attributes([u64; 16]);

type Start = extern "C" fn(*mut c_void) -> *mut c_void;

// Rust's own threads cannot be handed a stack.
extern "C" {
    fn pthread_attr_init(attributes: *mut Attributes) -> c_int;
    fn pthread_attr_setstack(attributes: *mut Attributes, stack: *mut c_void, size: usize)
        -> c_int;
    fn pthread_attr_destroy(attributes: *mut Attributes) -> c_int;
    fn pthread_create(
        thread: *mut usize,
        attributes: *const Attributes,
        start: Start,
        argument: *mut c_void,
    ) -> c_int;
    fn pthread_join(thread: usize, answer: *mut *mut c_void) -> c_int;
}

/// What the thread is to do, and what it found.
struct Job<'a> {
    call: &'a mut dyn FnMut(),
    bottom: *const u64,
    depth: usize,
}

/// Makes the call, then looks from the bottom up for the first word that is
/// not paint. It looks here and not after the thread, as the thread's end
/// takes more stack than a small call does.
extern "C" fn start(argument: *mut c_void) -> *mut c_void {
    // SAFETY: `depth` hands over its job, and waits for this thread.
    let job = unsafe { &mut *(argument as *mut Job) };
    let here = 0u8;
    let top = black_box(&here) as *const u8 as usize;
    (job.call)();
    let mut word = job.bottom;
    // SAFETY: the words from the bottom to this frame are the stack's own, and
    // this frame holds other words than paint.
    while unsafe { word.read_volatile() } == PAINT {
        word = unsafe { word.add(1) };
    }
    job.depth = top - word as usize;
    ptr::null_mut()
}

pub struct Painted {
    bottom: *mut u64,
}

impl Painted {
    fn layout() -> Layout {
        Layout::from_size_align(SIZE, 4_096).expect("the size of a stack")
    }

    pub fn new() -> Painted {
        // SAFETY: the layout is not empty.
        let bottom = unsafe { alloc(Painted::layout()) } as *mut u64;
        if bottom.is_null() {
            handle_alloc_error(Painted::layout());
        }
        Painted { bottom }
    }

    /// How many bytes of stack a call uses, below the frame that makes it.
    pub fn depth(&mut self, call: &mut dyn FnMut()) -> usize {
        for index in 0..SIZE / 8 {
            // SAFETY: the words are the stack's, on which nothing runs now.
            unsafe { self.bottom.add(index).write(PAINT) };
        }
        let mut job = Job {
            call,
            bottom: self.bottom,
            depth: 0,
        };
        self.run(&mut job);
        assert!(job.depth < SIZE / 2, "a call came near the stack's end");
        job.depth
    }

    /// Runs a job on a thread with this stack, to its end.
    fn run(&mut self, job: &mut Job) {
        let mut attributes = Attributes([0; 16]);
        let (mut thread, mut answer) = (0, ptr::null_mut());
        let argument = job as *mut Job as *mut c_void;
        // SAFETY: stack and job outlive the thread, which is waited for, and
        // nobody else uses them before that.
        let results = unsafe {
            [
                pthread_attr_init(&mut attributes),
                pthread_attr_setstack(&mut attributes, self.bottom as *mut c_void, SIZE),
                pthread_create(&mut thread, &attributes, start, argument),
                pthread_join(thread, &mut answer),
                pthread_attr_destroy(&mut attributes),
            ]
        };
        assert_eq!(results, [0; 5], "a thread with a stack of its own");
    }
}

impl Drop for Painted {
    fn drop(&mut self) {
        // SAFETY: it was allocated with this layout, and no thread is left.
        unsafe { dealloc(self.bottom as *mut u8, Painted::layout()) };
    }
}
