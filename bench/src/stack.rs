//! How much stack a call takes: it is made on a stack of its own, filled with a pattern before,
//! and the bytes that changed are counted.

use std::ffi::{c_int, c_void};
use std::ptr;

use crate::clock::Times;

const PATTERN: u8 = 0xa5;
const SIZE: usize = 4 << 20;
const PAGE: usize = 4096;

/// Room for glibc's pthread_attr_t on x86-64, which has 56 bytes.
type Attributes = [u64; 16];
type Start = extern "C" fn(*mut c_void) -> *mut c_void;

unsafe extern "C" {
    fn pthread_attr_init(attributes: *mut Attributes) -> c_int;
    fn pthread_attr_setstack(attributes: *mut Attributes, at: *mut c_void, size: usize) -> c_int;
    fn pthread_attr_destroy(attributes: *mut Attributes) -> c_int;
    fn pthread_create(
        thread: *mut usize,
        attributes: *const Attributes,
        start: Start,
        argument: *mut c_void,
    ) -> c_int;
    fn pthread_join(thread: usize, answer: *mut *mut c_void) -> c_int;
}

/// The bytes of stack that two ways to do the same work take, and the copying, beyond those of a
/// thread that does nothing.
pub fn taken(
    _calls: usize,
    ours: &mut dyn FnMut(),
    theirs: &mut dyn FnMut(),
    copy: &mut dyn FnMut(),
) -> Times {
    let nothing = touched(&mut || ());
    let taken = |work| touched(work).saturating_sub(nothing) as f64;
    Times { ours: taken(ours), theirs: taken(theirs), copy: taken(copy) }
}

/// Makes the call in a thread whose stack is a buffer, and answers how far down it was written.
fn touched(mut call: &mut dyn FnMut()) -> usize {
    extern "C" fn start(argument: *mut c_void) -> *mut c_void {
        // The argument is the address of `call` below, which lives until the thread is joined.
        let call = unsafe { &mut *argument.cast::<&mut dyn FnMut()>() };
        call();
        ptr::null_mut()
    }
    let mut memory = vec![PATTERN; SIZE + PAGE];
    let at = memory.as_ptr().align_offset(PAGE);
    let stack = &mut memory[at..at + SIZE];
    let (mut attributes, mut thread): (Attributes, usize) = ([0; 16], 0);
    // The thread alone uses the stack until it is joined.
    let answers = unsafe {
        [
            pthread_attr_init(&mut attributes),
            pthread_attr_setstack(&mut attributes, stack.as_mut_ptr().cast(), SIZE),
            pthread_create(&mut thread, &attributes, start, (&raw mut call).cast()),
            pthread_join(thread, ptr::null_mut()),
            pthread_attr_destroy(&mut attributes),
        ]
    };
    assert_eq!(answers, [0; 5], "a thread cannot be started");
    let untouched = stack.iter().position(|&byte| byte != PATTERN);
    SIZE - untouched.expect("a thread uses its stack")
}
