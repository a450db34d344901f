//! The proved planner as C sees it, and a safe way to call it.

use crate::answer::PlanAnswer;
use crate::lent::Lent;

extern "C" {
    fn flowplan_plan(
        book: *const u8,
        book_len: usize,
        calendar: *const u8,
        calendar_len: usize,
        output: *mut u8,
        output_len: usize,
        work: *mut u8,
        work_len: usize,
    ) -> PlanAnswer;
}

/// Calls the proved planner.
pub fn plan(book: &[u8], calendar: &[u8], output: &mut [u8], work: &mut [u8]) -> PlanAnswer {
    // SAFETY: the four slices are whole and do not overlap.
    unsafe {
        flowplan_plan(
            book.as_ptr(),
            book.len(),
            calendar.as_ptr(),
            calendar.len(),
            output.as_mut_ptr(),
            output.len(),
            work.as_mut_ptr(),
            work.len(),
        )
    }
}

/// Calls the proved planner on lent buffers, so that afterwards it can be seen
/// that even book and calendar are as they were.
pub fn plan_lent(
    book: &mut Lent,
    calendar: &mut Lent,
    output: &mut Lent,
    work: &mut Lent,
) -> PlanAnswer {
    // SAFETY: four buffers of their own, each as long as said.
    unsafe {
        flowplan_plan(
            book.pointer(),
            book.len(),
            calendar.pointer(),
            calendar.len(),
            output.pointer(),
            output.len(),
            work.pointer(),
            work.len(),
        )
    }
}
