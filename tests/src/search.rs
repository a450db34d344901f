//! Search over whole small books for a valid schedule that ends every flow by its own
//! deadline, and the books that are small enough for it.

use crate::books;
use crate::calendar::Calendar;
use crate::quote;
use crate::reader::{Book, Version};
use crate::rng::Rng;

/// A book that can be searched whole, and its calendar, of no window or two. Nothing
/// where the book that was drawn is too large.
pub fn small_case(rng: &mut Rng, version: Version, windows: bool) -> Option<(Book, Calendar)> {
    let book = books::tiny_book(rng);
    let mut book = books::with_caps(rng, book);
    for flow in &mut book.flows {
        flow.deadline = flow.deadline.min(rng.range(1, 6) as u32);
    }
    let book = books::in_version(rng, version, book);
    let work: u64 = book.flows.iter().map(quote::work).sum();
    let jobs: usize = book.flows.iter().map(|flow| flow.jobs.len()).sum();
    if work > 14 || jobs > 5 {
        return None;
    }
    let calendar = if windows {
        let shut = rng.below(6) as u32;
        let again = shut + 1 + rng.below(3) as u32;
        let second = again + 1 + rng.below(4) as u32;
        Calendar::of(&[[shut, again], [second, second + 1]])
    } else {
        Calendar::default()
    };
    Some((book, calendar))
}

/// Whether some valid schedule ends every flow by its own deadline.
pub fn in_time(book: &Book, calendar: &Calendar) -> bool {
    let left: Vec<(usize, usize, u32)> = book
        .flows
        .iter()
        .enumerate()
        .flat_map(|(f, flow)| {
            flow.jobs
                .iter()
                .enumerate()
                .map(move |(j, job)| (f, j, job.size))
        })
        .collect();
    search(book, calendar, 0, &left)
}

fn search(book: &Book, calendar: &Calendar, slot: u32, left: &[(usize, usize, u32)]) -> bool {
    if left.iter().all(|&(_, _, size)| size == 0) {
        return true;
    }
    let overdue = |&(flow, _, size): &(usize, usize, u32)| {
        size > 0 && {
            let from = slot.max(book.flows[flow].release);
            let slots = book.flows[flow].deadline.saturating_sub(from);
            size > slots * book.processors
        }
    };
    if left.iter().any(overdue) {
        return false;
    }
    let most: Vec<u32> = left
        .iter()
        .map(|&(flow, job, size)| {
            let record = &book.flows[flow].jobs[job];
            let open = left
                .iter()
                .any(|&(f, j, size)| f == flow && record.precedence >> j & 1 == 1 && size > 0);
            if open || slot < book.flows[flow].release || !calendar.is_open(slot) {
                0
            } else {
                size.min(record.cap_in_use(book.processors))
            }
        })
        .collect();
    let mut next = left.to_vec();
    give(book, calendar, slot, &most, 0, book.processors, &mut next)
}

fn give(
    book: &Book,
    calendar: &Calendar,
    slot: u32,
    most: &[u32],
    at: usize,
    free: u32,
    next: &mut Vec<(usize, usize, u32)>,
) -> bool {
    if at == most.len() {
        return search(book, calendar, slot + 1, &next.clone());
    }
    let size = next[at].2;
    for take in (0..=most[at].min(free)).rev() {
        next[at].2 = size - take;
        if give(book, calendar, slot, most, at + 1, free - take, next) {
            return true;
        }
    }
    next[at].2 = size;
    false
}
