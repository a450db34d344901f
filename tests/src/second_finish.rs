//! The finish of one flow, written a second time from the request: the book is read
//! in full, and the literal planner's flows are placed in service order up to the one
//! named.

use crate::answer::{FinishAnswer, Refusal, NONE, SLOTS, WORK_BYTES};
use crate::calendar::{read_calendar, Calendar};
use crate::reader::{read_book, Book};
use crate::second_planner::{place, put_use};

/// What is owed to a flow number before the work area is looked at.
#[derive(Clone, Debug, PartialEq, Eq)]
pub enum Outcome {
    /// Refused by 1 to 10, 22, 23 or 24.
    Faulty(Refusal),
    /// Refused by 12 where the work area is long enough: the flow named, or one
    /// before it.
    Infeasible(u8),
    /// The finish, and the processors in use in each slot up to this flow.
    Finished(u16, Vec<u32>),
}

/// Reads a book and its calendar, and places the flows up to the one named.
pub fn outcome(book: &[u8], calendar: &[u8], flow: u32) -> Outcome {
    let book = match read_book(book) {
        Ok(book) => book,
        Err(refusal) => return Outcome::Faulty(refusal),
    };
    if flow as usize >= book.flows.len() {
        return Outcome::Faulty(Refusal::of_all(23));
    }
    let calendar = match read_calendar(calendar) {
        Ok(calendar) => calendar,
        Err(refusal) => return Outcome::Faulty(refusal),
    };
    let mut used = vec![0; SLOTS];
    for number in book.service_order() {
        match place(&book, &calendar, number, &mut used, &mut Vec::new()) {
            None => return Outcome::Infeasible(number as u8),
            Some(finish) if number == flow as usize => return Outcome::Finished(finish, used),
            Some(_) => {}
        }
    }
    unreachable!("every flow of the book is served");
}

/// What is owed to every flow of a book that passes its checks with a calendar, in
/// book order, with each flow placed once.
pub fn outcomes(book: &Book, calendar: &Calendar) -> Vec<Outcome> {
    let mut used = vec![0; SLOTS];
    let mut refused = None;
    let mut owed = vec![None; book.flows.len()];
    for number in book.service_order() {
        if refused.is_none() {
            match place(book, calendar, number, &mut used, &mut Vec::new()) {
                None => refused = Some(number as u8),
                Some(finish) => owed[number] = Some(Outcome::Finished(finish, used.clone())),
            }
        }
        if let Some(flow) = refused {
            owed[number] = Some(Outcome::Infeasible(flow));
        }
    }
    let served = owed.into_iter().map(|owed| owed.expect("a served flow"));
    served.collect()
}

/// Gives an outcome out into the lent work area.
pub fn deliver(outcome: &Outcome, work: &mut [u8]) -> FinishAnswer {
    if let Outcome::Faulty(refusal) = outcome {
        return FinishAnswer::refused(*refusal);
    }
    if work.len() < WORK_BYTES {
        return FinishAnswer::refused(Refusal::of_all(11));
    }
    work[..WORK_BYTES].fill(0);
    match outcome {
        Outcome::Finished(finish, used) => {
            put_use(used, work);
            FinishAnswer::accepted(*finish)
        }
        Outcome::Infeasible(flow) => FinishAnswer::refused(Refusal::new(12, *flow, NONE)),
        Outcome::Faulty(_) => unreachable!(),
    }
}

/// The finish as it is called.
pub fn finish(book: &[u8], calendar: &[u8], flow: u32, work: &mut [u8]) -> FinishAnswer {
    deliver(&outcome(book, calendar, flow), work)
}
