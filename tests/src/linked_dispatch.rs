//! The proved dispatch list as C sees it, and a safe way to call it.

use crate::answer::ListAnswer;
use crate::lent::Lent;

extern "C" {
    fn flowplan_dispatch(
        book: *const u8,
        book_len: usize,
        calendar: *const u8,
        calendar_len: usize,
        table: *const u8,
        table_len: usize,
        output: *mut u8,
        output_len: usize,
        work: *mut u8,
        work_len: usize,
    ) -> ListAnswer;
}

/// Calls the proved dispatch list.
pub fn dispatch(
    book: &[u8],
    calendar: &[u8],
    table: &[u8],
    output: &mut [u8],
    work: &mut [u8],
) -> ListAnswer {
    // SAFETY: the five slices are whole and do not overlap.
    unsafe {
        flowplan_dispatch(
            book.as_ptr(),
            book.len(),
            calendar.as_ptr(),
            calendar.len(),
            table.as_ptr(),
            table.len(),
            output.as_mut_ptr(),
            output.len(),
            work.as_mut_ptr(),
            work.len(),
        )
    }
}

/// Calls the proved dispatch list on lent buffers, so that afterwards it can be
/// seen that even book, calendar and table are as they were.
pub fn dispatch_lent(
    book: &mut Lent,
    calendar: &mut Lent,
    table: &mut Lent,
    output: &mut Lent,
    work: &mut Lent,
) -> ListAnswer {
    // SAFETY: five buffers of their own, each as long as said.
    unsafe {
        flowplan_dispatch(
            book.pointer(),
            book.len(),
            calendar.pointer(),
            calendar.len(),
            table.pointer(),
            table.len(),
            output.pointer(),
            output.len(),
            work.pointer(),
            work.len(),
        )
    }
}
