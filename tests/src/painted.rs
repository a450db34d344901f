//! How much stack a call takes: it runs in a thread whose stack is a block of
//! painted memory, and the deepest word that has lost its paint is looked for
//! (Linux, 64 bits).
//!
//! Room that a frame reserves and nobody writes counts only where something
//! deeper is written.

use std::alloc::{alloc, dealloc, handle_alloc_error, Layout};
use std::ffi::c_void;
use std::hint::black_box;
use std::ptr::null_mut;

/// The block, far more than any call that is measured takes.
const BLOCK: usize = 1 << 20;
const PAGE: usize = 4_096;
const WORD: usize = size_of::<u64>();

/// Room between the call and the top of the stack, more than a thread takes to
/// end, so that the deepest word is always the call's.
const ABOVE: usize = 4_096;

/// As large as the C library's record, which is 56 bytes.
#[repr(C)]
struct Attributes([u64; 7]);

extern "C" {
    fn pthread_attr_init(attributes: *mut Attributes) -> i32;
    fn pthread_attr_setstack(attributes: *mut Attributes, block: *mut c_void, size: usize) -> i32;
    fn pthread_attr_destroy(attributes: *mut Attributes) -> i32;
    fn pthread_create(
        thread: *mut usize,
        attributes: *const Attributes,
        start: extern "C" fn(*mut c_void) -> *mut c_void,
        argument: *mut c_void,
    ) -> i32;
    fn pthread_join(thread: usize, answer: *mut *mut c_void) -> i32;
}

type Call<'a> = &'a mut (dyn FnMut() + Send);

/// The paint of a word; no two words have the same.
fn paint(word: usize) -> u64 {
    (word as u64 + 1).wrapping_mul(0x9e37_79b9_7f4a_7c15)
}

extern "C" fn start(argument: *mut c_void) -> *mut c_void {
    // SAFETY: `mark` lends the call until the thread has ended.
    let call = unsafe { &mut *argument.cast::<Call>() };
    let mut above = [0u8; ABOVE];
    black_box(&mut above);
    call();
    black_box(&mut above);
    null_mut()
}

fn done(status: i32) {
    assert_eq!(status, 0, "the C library makes and ends a thread");
}

/// The bytes from the top of the block to the deepest word that was written.
fn mark(mut call: Call) -> usize {
    let layout = Layout::from_size_align(BLOCK, PAGE).expect("whole pages");
    // SAFETY: the block is painted, lent to one thread until that has ended, read
    // word by word and given back.
    unsafe {
        let block = alloc(layout).cast::<u64>();
        if block.is_null() {
            handle_alloc_error(layout);
        }
        for word in 0..BLOCK / WORD {
            block.add(word).write_volatile(paint(word));
        }
        let mut attributes = Attributes([0; 7]);
        let mut thread = 0;
        let argument: *mut Call = &mut call;
        done(pthread_attr_init(&mut attributes));
        done(pthread_attr_setstack(&mut attributes, block.cast(), BLOCK));
        done(pthread_create(
            &mut thread,
            &attributes,
            start,
            argument.cast(),
        ));
        done(pthread_join(thread, null_mut()));
        done(pthread_attr_destroy(&mut attributes));

        let painted = |word: &usize| block.add(*word).read_volatile() == paint(*word);
        let left = (0..BLOCK / WORD).take_while(painted).count();
        dealloc(block.cast(), layout);
        assert!(left > 0, "the block has room for the call");
        BLOCK - WORD * left
    }
}

/// The bytes of stack that a call takes, without those of a thread that calls
/// nothing.
pub fn stack_of(call: Call) -> usize {
    mark(call) - mark(&mut || ())
}
