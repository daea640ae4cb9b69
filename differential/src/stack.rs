//! How much stack a call uses. It is made on a thread whose stack is memory of our own, painted before: the lowest word that
//! changed tells how far down it came. Nothing is asked of the compiler that made the call's code.

use std::ffi::{c_int, c_ulong, c_void};
use std::ptr::null_mut;

/// A thread's attributes, by their size on x86-64 Linux; only the C library looks into them.
#[repr(C)]
struct Attributes([u64; 7]);

type Entry = extern "C" fn(*mut c_void) -> *mut c_void;

extern "C" {
    fn pthread_attr_init(own: *mut Attributes) -> c_int;
    fn pthread_attr_setstack(own: *mut Attributes, low: *mut c_void, bytes: usize) -> c_int;
    fn pthread_attr_destroy(own: *mut Attributes) -> c_int;
    fn pthread_create(
        thread: *mut c_ulong,
        attributes: *const Attributes,
        entry: Entry,
        given: *mut c_void,
    ) -> c_int;
    fn pthread_join(thread: c_ulong, result: *mut *mut c_void) -> c_int;
}

/// Words of the stack, 1 MiB: nothing catches a call that goes beyond it, so it is many times what one may need.
const WORDS: usize = 1 << 17;
const BYTES: usize = WORDS * size_of::<u64>();

/// What each word is painted with.
const PAINT: u64 = 0xD1C3_5AE7_9B42_86F5;

/// A stack to be painted.
pub struct Stack {
    words: Vec<u64>,
    /// Bytes that a thread uses which does nothing.
    idle: usize,
}

impl Stack {
    pub fn to_paint() -> Stack {
        let mut stack = Stack { words: vec![0; WORDS], idle: 0 };
        stack.idle = stack.bytes_used(|| ());
        stack
    }

    /// Makes a call on a thread with this stack, and gives the bytes that it used. The call may not panic.
    pub fn bytes_used(&mut self, mut call: impl FnMut()) -> usize {
        // All of it, since a thread that ends may come further down than its call did.
        self.words.fill(PAINT);
        let mut task = Task { call: &mut call, stack: self.words.as_mut_ptr(), painted: 0 };
        task.do_on_thread();
        assert!(task.painted > 0, "the painted stack is too small for this call");
        BYTES - task.painted * size_of::<u64>() - self.idle
    }
}

/// What a thread is to do, and what it finds.
struct Task<'a> {
    call: &'a mut dyn FnMut(),
    stack: *mut u64,
    /// Words that are still painted after the call, from the low end on.
    painted: usize,
}

impl Task<'_> {
    /// Has a thread do it, and waits for its end.
    fn do_on_thread(&mut self) {
        let (mut attributes, mut thread) = (Attributes([0; 7]), 0);
        let (own, this) = (&raw mut attributes, (&raw mut *self).cast());
        let done = |status| assert_eq!(status, 0, "a thread on a painted stack");
        // SAFETY: the stack is good for so many bytes; it and the task are left to the thread until that has ended.
        unsafe {
            done(pthread_attr_init(own));
            done(pthread_attr_setstack(own, self.stack.cast(), BYTES));
            done(pthread_create(&mut thread, own, begin, this));
            done(pthread_join(thread, null_mut()));
            done(pthread_attr_destroy(own));
        }
    }
}

/// Where the thread begins.
extern "C" fn begin(task: *mut c_void) -> *mut c_void {
    // SAFETY: a task is what the thread is given, and nobody else touches it now.
    let task = unsafe { &mut *task.cast::<Task>() };
    (task.call)();
    // Looked for now, since ending a thread takes more stack than a small call.
    let is_painted = |word: &usize| {
        // SAFETY: within the stack; volatile, since what was written there is nothing that this function knows of.
        unsafe { task.stack.add(*word).read_volatile() == PAINT }
    };
    task.painted = (0..WORDS).take_while(is_painted).count();
    null_mut()
}
