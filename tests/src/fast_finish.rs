//! Two straightforward optimised finishes of one flow, as baselines of speed. The
//! book is checked in one pass that keeps only where each flow stands; then the flows
//! up to the one named are placed alone, from one change of the rate to the next, with
//! the use of each slot counted in the lent work area, where a shut slot has all its
//! processors in use until the end. They make no rows, no shares and no copy of the book. One looks at every job at every change, as the proved
//! finish does; the other sorts the changes first.

use crate::answer::{FinishAnswer, Refusal, NONE, WORK_BYTES};
use crate::calendar::{limit_in, windows_in};
use crate::reader::{
    be16, be32, be64, cap_in_use, predecessors, Version, BOOK_HEAD, JOB_RECORD, MOST_DEADLINE,
    MOST_FLOWS, MOST_JOBS, MOST_PROCESSORS, MOST_SIZE,
};

/// A flow of a book that passes its checks; its job records stand in `from..to`.
#[derive(Clone, Copy, Default)]
struct Flow {
    deadline: u32,
    release: u32,
    from: usize,
    to: usize,
}

/// A book that passes its checks.
struct Index {
    processors: u32,
    flows: [Flow; MOST_FLOWS],
    count: usize,
}

fn index(bytes: &[u8]) -> Result<Index, Refusal> {
    if bytes.len() < BOOK_HEAD || be32(bytes, 0) as usize != bytes.len() {
        return Err(Refusal::of_all(1));
    }
    let version = Version::of_byte(bytes[4]).ok_or(Refusal::of_all(2))?;
    let processors = be16(bytes, 5);
    if !(1..=MOST_PROCESSORS).contains(&processors) {
        return Err(Refusal::of_all(3));
    }
    let count = bytes[7] as usize;
    if count > MOST_FLOWS {
        return Err(Refusal::of_all(4));
    }
    let mut flows = [Flow::default(); MOST_FLOWS];
    let mut at = BOOK_HEAD;
    for (number, flow) in flows[..count].iter_mut().enumerate() {
        let refused = |fault| Refusal::new(fault, number as u8, NONE);
        let from = at + version.flow_head();
        let head = bytes.get(at..from).ok_or(refused(5))?;
        let deadline = be16(head, 0);
        if !(1..=MOST_DEADLINE).contains(&deadline) {
            return Err(refused(6));
        }
        let release = version.release(head);
        if release >= deadline {
            return Err(refused(22));
        }
        let jobs = head[head.len() - 1] as usize;
        if !(1..=MOST_JOBS).contains(&jobs) {
            return Err(refused(7));
        }
        let mut whole = 0;
        for record in bytes[from..].chunks_exact(JOB_RECORD).take(jobs) {
            let refused = |fault| Refusal::new(fault, number as u8, whole);
            if !(1..=MOST_SIZE).contains(&be32(record, 0)) {
                return Err(refused(8));
            }
            if be16(record, 4) == 0 {
                return Err(refused(9));
            }
            if be64(record, 6) >> whole != 0 {
                return Err(refused(10));
            }
            whole += 1;
        }
        if (whole as usize) < jobs {
            return Err(Refusal::new(5, number as u8, whole));
        }
        at = from + JOB_RECORD * jobs;
        *flow = Flow {
            deadline,
            release,
            from,
            to: at,
        };
    }
    if at != bytes.len() {
        return Err(Refusal::of_all(5));
    }
    Ok(Index {
        processors,
        flows,
        count,
    })
}

/// A job with endless processors: its cap as used from `start` on, the rest from
/// `rest_from` on, nothing from `end` on.
#[derive(Clone, Copy, Default)]
struct Ideal {
    start: u32,
    rest_from: u32,
    end: u32,
    cap: u32,
    rest: u32,
}

/// The jobs of a flow with these records.
fn ideal(records: &[u8], processors: u32) -> ([Ideal; MOST_JOBS], usize) {
    let mut jobs = [Ideal::default(); MOST_JOBS];
    let mut count = 0;
    for record in records.chunks_exact(JOB_RECORD) {
        let size = be32(record, 0);
        let cap = cap_in_use(be16(record, 4), processors);
        let before = predecessors(be64(record, 6)).map(|k| jobs[k].end);
        let start = before.max().unwrap_or(0);
        let (whole, rest) = (size / cap, size % cap);
        jobs[count] = Ideal {
            start,
            rest_from: start + whole,
            end: start + whole + u32::from(rest > 0),
            cap,
            rest,
        };
        count += 1;
    }
    (jobs, count)
}

/// The slots that a flow may use.
type Slots<'a> = std::slice::ChunksExactMut<'a, u8>;

/// Gives the units of a run to the next slots; nothing where they end before.
#[inline]
fn give(slots: &mut Slots, rate: u32, width: u32, processors: u32) -> Option<()> {
    // All jobs together are 64,000,000 units at most.
    let mut left = width * rate;
    while left > 0 {
        let slot = slots.next()?;
        let used = be16(slot, 0);
        if used == processors {
            continue;
        }
        let gets = rate.min(processors - used).min(left);
        slot.copy_from_slice(&((used + gets) as u16).to_be_bytes());
        left -= gets;
    }
    Some(())
}

/// Gives all runs of a flow, each found by a look at every job.
fn by_looking(jobs: &[Ideal], slots: &mut Slots, processors: u32) -> Option<()> {
    let path = jobs.iter().map(|job| job.end).max().unwrap_or(0);
    let mut at = 0;
    while at < path {
        let mut rate = 0;
        let mut next = path;
        for job in jobs {
            if at < job.start {
                next = next.min(job.start);
            } else if at < job.rest_from {
                next = next.min(job.rest_from);
                rate += job.cap;
            } else if at < job.end {
                next = next.min(job.end);
                rate += job.rest;
            }
        }
        give(slots, rate, next - at, processors)?;
        at = next;
    }
    Some(())
}

/// By how much the rate of a flow changes from a slot on.
#[derive(Clone, Copy, Default)]
struct Change {
    slot: u32,
    by: i32,
}

/// Gives all runs of a flow, from one to the next of its changes in order. A job
/// changes its take at most three times: to its cap, to the rest, to nothing.
fn by_sorting(jobs: &[Ideal], slots: &mut Slots, processors: u32) -> Option<()> {
    let mut listed = [Change::default(); 3 * MOST_JOBS];
    let mut count = 0;
    let mut push = |slot: u32, by: i32| {
        listed[count] = Change { slot, by };
        count += 1;
    };
    for job in jobs {
        let (cap, rest) = (job.cap as i32, job.rest as i32);
        if job.start < job.rest_from {
            push(job.start, cap);
            push(job.rest_from, rest - cap);
        } else {
            push(job.start, rest);
        }
        if job.rest_from < job.end {
            push(job.end, -rest);
        }
    }
    let changes = &mut listed[..count];
    changes.sort_unstable_by_key(|change| change.slot);
    let mut rate = 0;
    for pair in changes.windows(2) {
        rate += pair[0].by;
        give(slots, rate as u32, pair[1].slot - pair[0].slot, processors)?;
    }
    Some(())
}

/// How the runs of a flow are given to its slots.
type Runs = fn(&[Ideal], &mut Slots, u32) -> Option<()>;

/// Places one flow before a slot; its finish, or nothing where it is infeasible.
#[inline(always)]
fn place(
    runs: Runs,
    book: &[u8],
    flow: &Flow,
    limit: usize,
    processors: u32,
    work: &mut [u8],
) -> Option<u16> {
    let (jobs, count) = ideal(&book[flow.from..flow.to], processors);
    let from = (flow.release as usize).min(limit);
    let mut slots = work[2 * from..2 * limit].chunks_exact_mut(2);
    runs(&jobs[..count], &mut slots, processors)?;
    Some((limit - slots.len()) as u16)
}

/// Places the flows up to the one named, in service order.
#[inline(always)]
fn place_upto(
    runs: Runs,
    book: &[u8],
    index: &Index,
    windows: impl Iterator<Item = [usize; 2]> + Clone,
    flow: usize,
    work: &mut [u8],
) -> Result<u16, Refusal> {
    let rank = |number: usize| index.flows[number].deadline << 8 | number as u32;
    let mut ranks = [0; MOST_FLOWS];
    let mut count = 0;
    for number in 0..index.count {
        if rank(number) <= rank(flow) {
            ranks[count] = rank(number);
            count += 1;
        }
    }
    ranks[..count].sort_unstable();
    let mut finish = 0;
    for rank in &ranks[..count] {
        let number = *rank as u8;
        let flow = &index.flows[number as usize];
        let limit = limit_in(windows.clone(), flow.deadline as usize);
        let placed = place(runs, book, flow, limit, index.processors, work);
        finish = placed.ok_or(Refusal::new(12, number, NONE))?;
    }
    Ok(finish)
}

/// Gives each shut slot so many used processors.
fn shut(windows: impl Iterator<Item = [usize; 2]>, with: u32, work: &mut [u8]) {
    let used = (with as u16).to_be_bytes();
    for [from, to] in windows {
        let (slots, _) = work[2 * from..2 * to].as_chunks_mut();
        slots.fill(used);
    }
}

#[inline(always)]
fn finish_by(runs: Runs, book: &[u8], calendar: &[u8], flow: u32, work: &mut [u8]) -> FinishAnswer {
    let index = match index(book) {
        Ok(index) => index,
        Err(refusal) => return FinishAnswer::refused(refusal),
    };
    if flow as usize >= index.count {
        return FinishAnswer::refused(Refusal::of_all(23));
    }
    let Some(windows) = windows_in(calendar) else {
        return FinishAnswer::refused(Refusal::of_all(24));
    };
    let Some(area) = work.get_mut(..WORK_BYTES) else {
        return FinishAnswer::refused(Refusal::of_all(11));
    };
    area.fill(0);
    shut(windows.clone(), index.processors, area);
    match place_upto(runs, book, &index, windows.clone(), flow as usize, area) {
        Ok(finish) => {
            shut(windows, 0, area);
            FinishAnswer::accepted(finish)
        }
        Err(refusal) => {
            area.fill(0);
            FinishAnswer::refused(refusal)
        }
    }
}

/// The finish as it is called, with a look at every job at every change.
pub fn finish(book: &[u8], calendar: &[u8], flow: u32, work: &mut [u8]) -> FinishAnswer {
    finish_by(by_looking, book, calendar, flow, work)
}

/// The same with sorted changes.
pub fn finish_sorted(book: &[u8], calendar: &[u8], flow: u32, work: &mut [u8]) -> FinishAnswer {
    finish_by(by_sorting, book, calendar, flow, work)
}
