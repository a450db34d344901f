//! The second planner, check, dispatch list and finish as they were before there were
//! calendars (01 with 02, Req 01 to 06). With no windows every call must answer as they
//! do, and leave output and work area as they do.

use crate::answer::{CheckAnswer, FinishAnswer, ListAnswer, PlanAnswer, Refusal};
use crate::answer::{NONE, SLOTS, WORK_BYTES};
use crate::books::encode_table;
use crate::reader::{read_book, Book, MOST_FLOWS, MOST_JOBS};
use crate::second_check::{
    close, first_off, head_fits, index, open, Complete, Index, Ledger, Row, Rows, Tally, Use,
    BLANK, FINISH, ROW, TABLE_HEAD,
};
use crate::second_dispatch::list_of;
use crate::second_planner::{self, chain, put_use, Schedule, Units};

/// Rules 4 to 6 for one flow: its finish, or nothing where it is not finished
/// after slot 2 x deadline - 1. Slots before its release give it nothing.
fn place(book: &Book, number: usize, used: &mut [u32], rows: &mut Vec<Row>) -> Option<u16> {
    let flow = &book.flows[number];
    let chain = chain(flow, book.processors);
    let mut shares = vec![0u16; flow.jobs.len()];
    let mut slot = 0;
    for pseudo_job in &chain {
        let rate = pseudo_job.rate();
        let mut remaining = pseudo_job.work();
        let mut units = Units::of(pseudo_job);
        while remaining > 0 {
            if slot == 2 * flow.deadline as usize {
                return None;
            }
            let free = u64::from(book.processors - used[slot]);
            let gets = if slot < flow.release as usize {
                0
            } else {
                rate.min(remaining).min(free)
            };
            shares.fill(0);
            for _ in 0..gets {
                shares[units.next_job()] += 1;
            }
            for (job, &take) in shares.iter().enumerate() {
                if take > 0 {
                    rows.push(Row {
                        slot: slot as u16,
                        flow: number as u8,
                        job: job as u8,
                        take,
                    });
                }
            }
            used[slot] += gets as u32;
            remaining -= gets;
            slot += 1;
        }
    }
    Some(slot as u16)
}

/// Rules 4 to 7 for a whole book, or the flow that is infeasible.
fn schedule(book: &Book) -> Result<Schedule, u8> {
    let mut rows = Vec::new();
    let mut finishes = vec![0; book.flows.len()];
    let mut used = vec![0u32; SLOTS];
    for flow in book.service_order() {
        let finish = place(book, flow, &mut used, &mut rows).ok_or(flow as u8)?;
        finishes[flow] = finish;
    }
    let stated = finishes.iter().zip(&book.flows);
    let late = stated.filter(|(&finish, flow)| u32::from(finish) + 1 > flow.deadline);
    let late = late.count() as u8;
    Ok(Schedule {
        rows,
        finishes,
        used,
        late,
    })
}

/// The planner as it was called.
pub fn plan(book: &[u8], output: &mut [u8], work: &mut [u8]) -> PlanAnswer {
    let book = match read_book(book) {
        Ok(book) => book,
        Err(refusal) => return PlanAnswer::refused(refusal),
    };
    let outcome = match schedule(&book) {
        Err(flow) => second_planner::Outcome::Infeasible(flow),
        Ok(schedule) => {
            let table = encode_table(book.processors as u16, &schedule.finishes, &schedule.rows);
            second_planner::Outcome::Planned(second_planner::Plan { schedule, table })
        }
    };
    second_planner::deliver(&outcome, output, work)
}

/// The finish of one flow as it was called.
pub fn finish(book: &[u8], flow: u32, work: &mut [u8]) -> FinishAnswer {
    let book = match read_book(book) {
        Ok(book) => book,
        Err(refusal) => return FinishAnswer::refused(refusal),
    };
    if flow as usize >= book.flows.len() {
        return FinishAnswer::refused(Refusal::of_all(23));
    }
    if work.len() < WORK_BYTES {
        return FinishAnswer::refused(Refusal::of_all(11));
    }
    work[..WORK_BYTES].fill(0);
    let mut used = vec![0; SLOTS];
    for number in book.service_order() {
        match place(&book, number, &mut used, &mut Vec::new()) {
            None => return FinishAnswer::refused(Refusal::new(12, number as u8, NONE)),
            Some(finish) if number == flow as usize => {
                put_use(&used, work);
                return FinishAnswer::accepted(finish);
            }
            Some(_) => {}
        }
    }
    unreachable!("every flow of the book is served");
}

/// The check as it was called.
pub fn check(book: &[u8], table: &[u8], work: &mut [u8]) -> CheckAnswer {
    let book = match index(book) {
        Ok(book) => book,
        Err(refusal) => return CheckAnswer::refused(refusal),
    };
    let Some(work) = work.first_chunk_mut::<WORK_BYTES>() else {
        return CheckAnswer::refused(Refusal::of_all(11));
    };
    work.fill(0);
    match walk(&book, table, work) {
        Ok(late) => CheckAnswer::accepted(late),
        Err(refusal) => {
            work.fill(0);
            CheckAnswer::refused(refusal)
        }
    }
}

/// 14 to 21, and the late flows of a table that passes. Rows of a flow stand
/// together, so ledgers are kept of one flow at a time.
fn walk(book: &Index, table: &[u8], work: &mut [u8; WORK_BYTES]) -> Result<u8, Refusal> {
    if !head_fits(book.processors, book.flows, table) {
        return Err(Refusal::of_all(14));
    }
    let (used, _) = work.as_chunks_mut::<2>();
    let used: &mut Use = used.try_into().expect("two bytes to a slot");
    let (stated, rows) = table[TABLE_HEAD..].split_at(FINISH * book.flows);
    let (mut rows, _) = rows.as_chunks::<ROW>();
    let mut tally = Tally {
        finishes: [0; MOST_FLOWS],
        off: [Some(0); MOST_FLOWS],
    };
    let mut ledgers = [BLANK; MOST_JOBS];
    let mut before = None;

    while let Some(&[_, _, flow, ..]) = rows.first() {
        // A flow that is not in the book has no jobs: 15 at its first row.
        let at = flow as usize % MOST_FLOWS;
        let known = (flow as usize) < book.flows;
        let records = if known { book.records[at] } else { &[] };
        // A flow that is not after the one before it: 16 at its first row.
        let service = Some((book.deadlines[at], flow));
        let least = if service > before { 0 } else { u32::MAX };
        let release = book.releases[at];
        let ledgers = open(book.processors, records, &mut ledgers);
        let finish;
        (finish, rows) = walk_flow(flow, least, release, book.processors, ledgers, used, rows)?;
        tally.finishes[at] = finish;
        tally.off[at] = first_off(ledgers);
        before = service;
    }
    close(book, &tally, stated)
}

/// 15 to 19 for the rows of one flow, with which `rows` begins; the flow's finish
/// and the rows behind it. The next row's place, by slot and job, is at least
/// `least`.
fn walk_flow<'a>(
    flow: u8,
    mut least: u32,
    release: u16,
    processors: u32,
    ledgers: &mut [Ledger],
    used: &mut Use,
    rows: Rows<'a>,
) -> Result<(u16, Rows<'a>), Refusal> {
    let mut complete = Complete {
        slot: 0,
        earlier: 0,
        here: 0,
    };
    let mut finish = 0;
    let mut rows = rows.iter();
    while let Some(&[slot_high, slot_low, of, job, take_high, take_low]) = rows.as_slice().first() {
        if of != flow {
            break;
        }
        let refuse = |number| Err(Refusal::new(number, flow, job));
        let slot = u16::from_be_bytes([slot_high, slot_low]);
        let take = u16::from_be_bytes([take_high, take_low]);

        let Some(used) = used.get_mut(slot as usize) else {
            return refuse(15);
        };
        let Some(ledger) = ledgers.get_mut(job as usize) else {
            return refuse(15);
        };
        if take == 0 {
            return refuse(15);
        }
        let place = u32::from(slot) << 8 | u32::from(job);
        if place < least {
            return refuse(16);
        }
        least = place + 1;
        if take > ledger.cap {
            return refuse(17);
        }
        let in_use = u32::from(u16::from_be_bytes(*used)) + u32::from(take);
        if in_use > processors {
            return refuse(18);
        }
        *used = (in_use as u16).to_be_bytes();

        // Asked at a job's first row only: what is complete or released then
        // stays so.
        if ledger.total == 0 && (slot < release || ledger.precedence & !complete.before(slot) != 0)
        {
            return refuse(19);
        }
        let had = ledger.total;
        ledger.total += u32::from(take);
        if ledger.total >= ledger.size && had < ledger.size {
            complete.add(slot, job);
        }
        finish = slot + 1;
        rows.next();
    }
    Ok((finish, rows.as_slice()))
}

/// The dispatch list as it was called.
pub fn dispatch(book: &[u8], table: &[u8], output: &mut [u8], work: &mut [u8]) -> ListAnswer {
    let checked = check(book, table, work);
    if checked.number != 0 {
        let refusal = Refusal::new(checked.number, checked.flow, checked.job);
        return ListAnswer::refused(refusal);
    }
    let list = list_of(table);
    if list.len() > output.len() {
        work[..WORK_BYTES].fill(0);
        return ListAnswer::refused(Refusal::of_all(13));
    }
    output[..list.len()].copy_from_slice(&list);
    ListAnswer::accepted(list.len() as u32)
}
