//! The quote of a flow (02, Req 08), from the values of book and calendar alone: "three
//! numbers added: the open slots before its release, its path, and the work of all flows
//! up to and including it in service order divided by P, rounded down". Path and service
//! order are written here once more from document 01, without the second planner.

use crate::calendar::Calendar;
use crate::reader::{Book, Flow};

/// What a quote is made of.
#[derive(Clone, Copy, Debug, PartialEq, Eq)]
pub struct Quote {
    /// Open slots before the release.
    pub release: u64,
    pub path: u64,
    /// Of all flows up to and including this one, not yet divided by P.
    pub work: u64,
    pub processors: u64,
}

impl Quote {
    /// The quote of a flow of the book.
    pub fn of(book: &Book, calendar: &Calendar, flow: usize) -> Quote {
        let numbers = 0..book.flows.len();
        let up_to = numbers.filter(|&other| is_served_by(book, other, flow));
        Quote {
            release: u64::from(calendar.open_before(book.flows[flow].release)),
            path: path(&book.flows[flow], book.processors),
            work: up_to.map(|other| work(&book.flows[other])).sum(),
            processors: u64::from(book.processors),
        }
    }

    /// The quotes of all flows in book order.
    pub fn of_each(book: &Book, calendar: &Calendar) -> Vec<Quote> {
        let flows = 0..book.flows.len();
        flows.map(|flow| Quote::of(book, calendar, flow)).collect()
    }

    /// The number that is quoted: so many open slots stand before the finish at most.
    pub fn open_slots(&self) -> u64 {
        self.release + self.path + self.work / self.processors
    }
}

/// "Service order is by deadline, equal deadlines by place in the book": whether a flow is
/// among those up to and including another.
fn is_served_by(book: &Book, flow: usize, other: usize) -> bool {
    let [deadline, of_other] = [flow, other].map(|number| book.flows[number].deadline);
    deadline < of_other || deadline == of_other && flow <= other
}

/// The work of a flow: each unit of each job's size is in one pseudo-job.
pub fn work(flow: &Flow) -> u64 {
    flow.jobs.iter().map(|job| u64::from(job.size)).sum()
}

/// Rules 1 and 2: a job ends its size divided by its cap, rounded up, after the largest
/// end among its predecessors, or after 0; the path is the largest end. A cap above P
/// counts as P.
pub fn path(flow: &Flow, processors: u32) -> u64 {
    let mut ends: Vec<u64> = Vec::with_capacity(flow.jobs.len());
    for job in &flow.jobs {
        let before = ends.iter().enumerate();
        let before = before.filter(|&(number, _)| job.precedence >> number & 1 == 1);
        let start = before.map(|(_, &end)| end).max().unwrap_or(0);
        let lasts = job.size.div_ceil(job.cap_in_use(processors));
        ends.push(start + u64::from(lasts));
    }
    ends.into_iter().max().expect("a flow has a job")
}
