//! The literal planner: the planning rules one after another, slot by slot and
//! unit by unit, with no closed formula. It is the measure of every plan that
//! is not proved by the joint theorem of the marked ones.

use crate::answer::{PlanAnswer, Refusal, NONE, SLOTS, WORK_BYTES};
use crate::books::encode_table;
use crate::calendar::{read_calendar, Calendar};
use crate::reader::{predecessors, read_book, Book, Flow, Job};
use crate::second_check::{Row, FINISH, ROW, TABLE_HEAD};

/// Up to this critical path the ideal time is cut slot by slot; a longer one is
/// cut at its change points.
pub const LITERAL_PATH: u64 = 10_000;

/// A maximal run of ideal slots in which every job's take is unchanged.
#[derive(Clone, Debug, PartialEq, Eq)]
pub struct PseudoJob {
    pub width: u64,
    /// The take of each job of the flow, 0 where it does not run.
    pub takes: Vec<u32>,
}

impl PseudoJob {
    pub fn rate(&self) -> u64 {
        self.takes.iter().map(|&take| u64::from(take)).sum()
    }

    pub fn work(&self) -> u64 {
        self.width * self.rate()
    }
}

/// Rule 1: slots that a job lasts with endless processors. Its cap is still lowered
/// to P, as everywhere below.
pub fn duration(job: &Job, processors: u32) -> u64 {
    u64::from(job.size.div_ceil(job.cap_in_use(processors)))
}

/// Rule 2: start of each job with endless processors.
pub fn ideal_starts(flow: &Flow, processors: u32) -> Vec<u64> {
    let mut starts: Vec<u64> = Vec::with_capacity(flow.jobs.len());
    for job in &flow.jobs {
        let end = |k: usize| starts[k] + duration(&flow.jobs[k], processors);
        let ends = predecessors(job.precedence).map(end);
        let start = ends.max().unwrap_or(0);
        starts.push(start);
    }
    starts
}

/// Rule 2: the critical path, the largest end.
pub fn critical_path(flow: &Flow, processors: u32) -> u64 {
    let ends = ideal_starts(flow, processors)
        .into_iter()
        .zip(&flow.jobs)
        .map(|(start, job)| start + duration(job, processors));
    ends.max().expect("a flow has a job")
}

/// Rule 1: what a job takes in one ideal slot.
fn ideal_take(job: &Job, processors: u32, start: u64, slot: u64) -> u32 {
    let lasts = duration(job, processors);
    let last = start + lasts - 1;
    if slot < start || slot > last {
        0
    } else if slot < last {
        job.cap_in_use(processors)
    } else {
        job.size - job.cap_in_use(processors) * (lasts as u32 - 1)
    }
}

fn ideal_takes(flow: &Flow, processors: u32, starts: &[u64], slot: u64, takes: &mut Vec<u32>) {
    takes.clear();
    let jobs = flow.jobs.iter().zip(starts);
    takes.extend(jobs.map(|(job, &start)| ideal_take(job, processors, start, slot)));
}

/// Rule 3, literally: looks at every slot of the ideal time.
pub fn chain_by_slots(flow: &Flow, processors: u32) -> Vec<PseudoJob> {
    let starts = ideal_starts(flow, processors);
    let mut chain: Vec<PseudoJob> = Vec::new();
    let mut takes = Vec::new();
    for slot in 0..critical_path(flow, processors) {
        ideal_takes(flow, processors, &starts, slot, &mut takes);
        match chain.last_mut() {
            Some(last) if last.takes == takes => last.width += 1,
            _ => chain.push(PseudoJob {
                width: 1,
                takes: takes.clone(),
            }),
        }
    }
    chain
}

/// Rule 3 for long paths: looks only at the slots where some job's take can
/// differ from the slot before, and joins runs that turn out alike.
pub fn chain_by_change_points(flow: &Flow, processors: u32) -> Vec<PseudoJob> {
    let starts = ideal_starts(flow, processors);
    let mut points = vec![0];
    for (job, &start) in flow.jobs.iter().zip(&starts) {
        let end = start + duration(job, processors);
        points.extend([start, end - 1, end]);
    }
    points.sort_unstable();
    points.dedup();
    let mut chain: Vec<PseudoJob> = Vec::new();
    let mut takes = Vec::new();
    for pair in points.windows(2) {
        let width = pair[1] - pair[0];
        ideal_takes(flow, processors, &starts, pair[0], &mut takes);
        match chain.last_mut() {
            Some(last) if last.takes == takes => last.width += width,
            _ => chain.push(PseudoJob {
                width,
                takes: takes.clone(),
            }),
        }
    }
    chain
}

/// Rule 3: the chain of pseudo-jobs of a flow.
pub fn chain(flow: &Flow, processors: u32) -> Vec<PseudoJob> {
    if critical_path(flow, processors) <= LITERAL_PATH {
        chain_by_slots(flow, processors)
    } else {
        chain_by_change_points(flow, processors)
    }
}

/// Rule 5: hands out the units of a pseudo-job one by one. All slots of its run
/// are alike, so after the last job's units come the first job's again.
pub(crate) struct Units<'a> {
    takes: &'a [u32],
    job: usize,
    given: u32,
}

impl Units<'_> {
    pub fn of(pseudo_job: &PseudoJob) -> Units<'_> {
        Units {
            takes: &pseudo_job.takes,
            job: 0,
            given: 0,
        }
    }

    pub fn next_job(&mut self) -> usize {
        while self.given == self.takes[self.job] {
            self.job = (self.job + 1) % self.takes.len();
            self.given = 0;
        }
        self.given += 1;
        self.job
    }
}

/// A plan of all flows.
#[derive(Clone, Debug, PartialEq, Eq)]
pub struct Schedule {
    /// Rows in the order of the table.
    pub rows: Vec<Row>,
    /// Finish of each flow in book order.
    pub finishes: Vec<u16>,
    /// Processors in use in each slot.
    pub used: Vec<u32>,
    pub late: u8,
}

/// Rules 4 to 7 for a whole book with its calendar, or the flow that is infeasible.
pub fn schedule(book: &Book, calendar: &Calendar) -> Result<Schedule, u8> {
    let mut rows = Vec::new();
    let mut finishes = vec![0; book.flows.len()];
    let mut used = vec![0u32; SLOTS];
    for flow in book.service_order() {
        let finish = place(book, calendar, flow, &mut used, &mut rows).ok_or(flow as u8)?;
        finishes[flow] = finish;
    }
    let stated = finishes.iter().zip(&book.flows);
    // Rule 7: "late when its finish plus 1 is greater than its deadline" (02, Req 06).
    let late = stated.filter(|(&finish, flow)| u32::from(finish) + 1 > flow.deadline);
    let late = late.count() as u8;
    Ok(Schedule {
        rows,
        finishes,
        used,
        late,
    })
}

/// Rules 4 to 6 for one flow: its finish, or nothing where it is "unfinished when that
/// many open slots from slot 0 have passed": twice as many as stand before its deadline
/// (02, Req 07). Shut slots are passed over; slots before its release give it nothing.
pub fn place(
    book: &Book,
    calendar: &Calendar,
    number: usize,
    used: &mut [u32],
    rows: &mut Vec<Row>,
) -> Option<u16> {
    let flow = &book.flows[number];
    let chain = chain(flow, book.processors);
    let twice = 2 * calendar.open_before(flow.deadline);
    let mut shares = vec![0u16; flow.jobs.len()];
    let mut slot = 0;
    let mut passed = 0;
    for pseudo_job in &chain {
        let rate = pseudo_job.rate();
        let mut remaining = pseudo_job.work();
        let mut units = Units::of(pseudo_job);
        while remaining > 0 {
            if passed == twice {
                return None;
            }
            if !calendar.is_open(slot as u32) {
                slot += 1;
                continue;
            }
            let free = u64::from(book.processors - used[slot]);
            let gets = if slot < flow.release as usize {
                0
            } else {
                rate.min(remaining).min(free)
            };
            shares.fill(0);
            for _ in 0..gets {
                shares[units.next_job()] += 1;
            }
            for (job, &take) in shares.iter().enumerate() {
                if take > 0 {
                    rows.push(Row {
                        slot: slot as u16,
                        flow: number as u8,
                        job: job as u8,
                        take,
                    });
                }
            }
            used[slot] += gets as u32;
            remaining -= gets;
            passed += 1;
            slot += 1;
        }
    }
    Some(slot as u16)
}

/// What the planner makes of a book before output and work area are looked at.
pub enum Outcome {
    /// Refused by 1 to 10, 22 or 24.
    Faulty(Refusal),
    /// Refused by 12 where the work area is long enough.
    Infeasible(u8),
    Planned(Plan),
}

/// A plan and its table.
pub struct Plan {
    pub schedule: Schedule,
    pub table: Vec<u8>,
}

/// Reads a book and its calendar, and plans the book.
pub fn outcome(book: &[u8], calendar: &[u8]) -> Outcome {
    let book = match read_book(book) {
        Ok(book) => book,
        Err(refusal) => return Outcome::Faulty(refusal),
    };
    let calendar = match read_calendar(calendar) {
        Ok(calendar) => calendar,
        Err(refusal) => return Outcome::Faulty(refusal),
    };
    match schedule(&book, &calendar) {
        Err(flow) => Outcome::Infeasible(flow),
        Ok(schedule) => {
            let table = encode_table(book.processors as u16, &schedule.finishes, &schedule.rows);
            let rows = ROW * schedule.rows.len();
            assert_eq!(table.len(), TABLE_HEAD + FINISH * book.flows.len() + rows);
            Outcome::Planned(Plan { schedule, table })
        }
    }
}

/// Writes the processors in use in each slot into the work area.
pub fn put_use(used: &[u32], work: &mut [u8]) {
    for (slot, &in_use) in used.iter().enumerate() {
        work[2 * slot..2 * slot + 2].copy_from_slice(&(in_use as u16).to_be_bytes());
    }
}

/// Gives an outcome out into the lent output and work area.
pub fn deliver(outcome: &Outcome, output: &mut [u8], work: &mut [u8]) -> PlanAnswer {
    if let Outcome::Faulty(refusal) = outcome {
        return PlanAnswer::refused(*refusal);
    }
    if work.len() < WORK_BYTES {
        return PlanAnswer::refused(Refusal::of_all(11));
    }
    work[..WORK_BYTES].fill(0);
    let plan = match outcome {
        Outcome::Infeasible(flow) => {
            return PlanAnswer::refused(Refusal::new(12, *flow, NONE));
        }
        Outcome::Planned(plan) => plan,
        Outcome::Faulty(_) => unreachable!(),
    };
    if plan.table.len() > output.len() {
        return PlanAnswer::refused(Refusal::of_all(13));
    }
    output[..plan.table.len()].copy_from_slice(&plan.table);
    put_use(&plan.schedule.used, work);
    PlanAnswer::accepted(plan.schedule.late, plan.table.len() as u32)
}

/// The planner as it is called.
pub fn plan(book: &[u8], calendar: &[u8], output: &mut [u8], work: &mut [u8]) -> PlanAnswer {
    deliver(&outcome(book, calendar), output, work)
}
