//! The proved finish of one flow as C sees it, and a safe way to call it.

use crate::answer::FinishAnswer;
use crate::lent::Lent;

extern "C" {
    fn flowplan_finish(
        book: *const u8,
        book_len: usize,
        calendar: *const u8,
        calendar_len: usize,
        flow: u32,
        work: *mut u8,
        work_len: usize,
    ) -> FinishAnswer;
}

/// Calls the proved finish.
pub fn finish(book: &[u8], calendar: &[u8], flow: u32, work: &mut [u8]) -> FinishAnswer {
    // SAFETY: the three slices are whole and do not overlap.
    unsafe {
        flowplan_finish(
            book.as_ptr(),
            book.len(),
            calendar.as_ptr(),
            calendar.len(),
            flow,
            work.as_mut_ptr(),
            work.len(),
        )
    }
}

/// Calls the proved finish on lent buffers, so that afterwards it can be seen that
/// even book and calendar are as they were.
pub fn finish_lent(
    book: &mut Lent,
    calendar: &mut Lent,
    flow: u32,
    work: &mut Lent,
) -> FinishAnswer {
    // SAFETY: three buffers of their own, each as long as said.
    unsafe {
        flowplan_finish(
            book.pointer(),
            book.len(),
            calendar.pointer(),
            calendar.len(),
            flow,
            work.pointer(),
            work.len(),
        )
    }
}
