//! The proved table check as C sees it, and a safe way to call it.

use crate::answer::CheckAnswer;
use crate::lent::Lent;

extern "C" {
    fn flowplan_check(
        book: *const u8,
        book_len: usize,
        calendar: *const u8,
        calendar_len: usize,
        table: *const u8,
        table_len: usize,
        work: *mut u8,
        work_len: usize,
    ) -> CheckAnswer;
}

/// Calls the proved check.
pub fn check(book: &[u8], calendar: &[u8], table: &[u8], work: &mut [u8]) -> CheckAnswer {
    // SAFETY: the four slices are whole and do not overlap.
    unsafe {
        flowplan_check(
            book.as_ptr(),
            book.len(),
            calendar.as_ptr(),
            calendar.len(),
            table.as_ptr(),
            table.len(),
            work.as_mut_ptr(),
            work.len(),
        )
    }
}

/// Calls the proved check on lent buffers, so that afterwards it can be seen
/// that even book, calendar and table are as they were.
pub fn check_lent(
    book: &mut Lent,
    calendar: &mut Lent,
    table: &mut Lent,
    work: &mut Lent,
) -> CheckAnswer {
    // SAFETY: four buffers of their own, each as long as said.
    unsafe {
        flowplan_check(
            book.pointer(),
            book.len(),
            calendar.pointer(),
            calendar.len(),
            table.pointer(),
            table.len(),
            work.pointer(),
            work.len(),
        )
    }
}
