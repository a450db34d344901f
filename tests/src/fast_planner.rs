//! A straightforward optimised planner of the same rules, as a baseline of
//! speed: chains cut at change points, the share of a job in a short slot by a
//! closed formula, and two walks, the first of which only counts rows so that
//! the output stays untouched by a refusal.

use crate::answer::{PlanAnswer, Refusal, NONE, SLOTS, WORK_BYTES};
use crate::calendar::{limit_in, windows_in};
use crate::reader::{predecessors, read_book, Book, Flow};
use crate::second_check::{FINISH, ROW, TABLE_HEAD};

/// A job that runs in a pseudo-job: the units from `offset` on, `take` of them,
/// are its own in each slot of the run.
#[derive(Clone, Copy)]
struct Part {
    job: u8,
    take: u32,
    offset: u32,
}

struct PseudoJob {
    rate: u32,
    work: u64,
    parts: Vec<Part>,
}

/// One job of the ideal schedule: its cap as used, its start, the slot from which
/// it takes the rest, and its end.
struct Ideal {
    cap: u32,
    start: u32,
    rest_from: u32,
    end: u32,
}

fn chain(flow: &Flow, processors: u32) -> Vec<PseudoJob> {
    let mut ideal: Vec<Ideal> = Vec::with_capacity(flow.jobs.len());
    let mut points: Vec<u32> = Vec::with_capacity(3 * flow.jobs.len());
    for job in &flow.jobs {
        let ends = predecessors(job.precedence).map(|k| ideal[k].end);
        let start = ends.max().unwrap_or(0);
        let cap = job.cap_in_use(processors);
        let rest_from = start + job.size / cap;
        let end = start + job.size.div_ceil(cap);
        points.extend([start, rest_from, end]);
        ideal.push(Ideal {
            cap,
            start,
            rest_from,
            end,
        });
    }
    points.sort_unstable();
    points.dedup();
    let mut chain = Vec::with_capacity(points.len());
    for pair in points.windows(2) {
        let (from, to) = (pair[0], pair[1]);
        let mut parts = Vec::new();
        let mut rate = 0;
        for (number, (job, ideal)) in flow.jobs.iter().zip(&ideal).enumerate() {
            if from < ideal.start || from >= ideal.end {
                continue;
            }
            let take = if from < ideal.rest_from {
                ideal.cap
            } else {
                job.size % ideal.cap
            };
            parts.push(Part {
                job: number as u8,
                take,
                offset: rate,
            });
            rate += take;
        }
        chain.push(PseudoJob {
            rate,
            work: u64::from(to - from) * u64::from(rate),
            parts,
        });
    }
    chain
}

/// How many of the units from `from` on, `units` of them and at most one whole
/// round, are those of a part. The units of a round number `rate`.
#[inline]
fn share(part: &Part, rate: u32, from: u32, units: u32) -> u32 {
    let low = part.offset;
    let high = part.offset + part.take;
    let within = |to: u32| to.clamp(low, high) - low;
    let to = from + units;
    if to <= rate {
        within(to) - within(from)
    } else {
        part.take - within(from) + within(to - rate)
    }
}

/// Takes the rows of a flow.
trait Rows {
    fn row(&mut self, slot: u16, flow: u8, job: u8, take: u16);
    /// A slot in which every part gets its whole take.
    fn full_slot(&mut self, slot: u16, flow: u8, parts: &[Part]);
}

struct Count(usize);

impl Rows for Count {
    #[inline]
    fn row(&mut self, _: u16, _: u8, _: u8, _: u16) {
        self.0 += 1;
    }

    #[inline]
    fn full_slot(&mut self, _: u16, _: u8, parts: &[Part]) {
        self.0 += parts.len();
    }
}

struct Write<'a> {
    rest: std::slice::ChunksExactMut<'a, u8>,
}

impl Rows for Write<'_> {
    #[inline]
    fn row(&mut self, slot: u16, flow: u8, job: u8, take: u16) {
        let row = self.rest.next().expect("counted beforehand");
        let [slot_high, slot_low] = slot.to_be_bytes();
        let [take_high, take_low] = take.to_be_bytes();
        row.copy_from_slice(&[slot_high, slot_low, flow, job, take_high, take_low]);
    }

    #[inline]
    fn full_slot(&mut self, slot: u16, flow: u8, parts: &[Part]) {
        for part in parts {
            self.row(slot, flow, part.job, part.take as u16);
        }
    }
}

/// A flow with the first slot that it may not use any more, and its chain.
struct Placed {
    number: usize,
    limit: usize,
    chain: Vec<PseudoJob>,
}

/// Places one flow from its release on; its finish, or nothing where it is
/// infeasible. Shut slots have no processors free.
fn place<R: Rows>(
    book: &Book,
    placed: &Placed,
    used: &mut [u16; SLOTS],
    rows: &mut R,
) -> Option<u16> {
    let processors = book.processors;
    let (number, limit) = (placed.number, placed.limit);
    let mut slot = book.flows[number].release as usize;
    for pseudo_job in &placed.chain {
        let rate = pseudo_job.rate;
        let mut remaining = pseudo_job.work;
        let mut position = 0;
        while remaining > 0 {
            if slot >= limit {
                return None;
            }
            let free = processors - u32::from(used[slot]);
            if free >= rate && remaining >= u64::from(rate) {
                used[slot] += rate as u16;
                remaining -= u64::from(rate);
                rows.full_slot(slot as u16, number as u8, &pseudo_job.parts);
            } else if free > 0 {
                let gets = u64::from(rate.min(free)).min(remaining) as u32;
                for part in &pseudo_job.parts {
                    let take = share(part, rate, position, gets);
                    if take > 0 {
                        rows.row(slot as u16, number as u8, part.job, take as u16);
                    }
                }
                position += gets;
                if position >= rate {
                    position -= rate;
                }
                used[slot] += gets as u16;
                remaining -= u64::from(gets);
            }
            slot += 1;
        }
    }
    Some(slot as u16)
}

/// Plans a book with its calendar into the lent output.
pub fn plan(book: &[u8], calendar: &[u8], output: &mut [u8], work: &mut [u8]) -> PlanAnswer {
    let book = match read_book(book) {
        Ok(book) => book,
        Err(refusal) => return PlanAnswer::refused(refusal),
    };
    let Some(windows) = windows_in(calendar) else {
        return PlanAnswer::refused(Refusal::of_all(24));
    };
    if work.len() < WORK_BYTES {
        return PlanAnswer::refused(Refusal::of_all(11));
    }
    let mut used = [0u16; SLOTS];
    match plan_read(&book, windows.clone(), output, &mut used) {
        Ok(answer) => {
            shut(windows, 0, &mut used);
            for (pair, &in_use) in work[..WORK_BYTES].chunks_exact_mut(2).zip(&used) {
                pair.copy_from_slice(&in_use.to_be_bytes());
            }
            answer
        }
        Err(refusal) => {
            work[..WORK_BYTES].fill(0);
            PlanAnswer::refused(refusal)
        }
    }
}

/// Gives each shut slot so many used processors.
fn shut(windows: impl Iterator<Item = [usize; 2]>, with: u16, used: &mut [u16; SLOTS]) {
    for [from, to] in windows {
        used[from..to].fill(with);
    }
}

/// Shut slots are left with all processors used.
fn plan_read(
    book: &Book,
    windows: impl Iterator<Item = [usize; 2]> + Clone,
    output: &mut [u8],
    used: &mut [u16; SLOTS],
) -> Result<PlanAnswer, Refusal> {
    let order = book.service_order();
    let mut finishes = [0u16; 64];
    let mut late = 0;
    let mut count = Count(0);
    let mut all_placed = Vec::with_capacity(order.len());
    shut(windows.clone(), book.processors as u16, used);
    for number in order {
        let flow = &book.flows[number];
        let placed = Placed {
            number,
            limit: limit_in(windows.clone(), flow.deadline as usize),
            chain: chain(flow, book.processors),
        };
        let finish = place(book, &placed, used, &mut count);
        let finish = finish.ok_or(Refusal::new(12, number as u8, NONE))?;
        // By the deadline also the slot after the finish must be over, else the flow is
        // late (02, Req 06).
        late += u8::from(u32::from(finish) >= flow.deadline);
        finishes[number] = finish;
        all_placed.push(placed);
    }
    let rows_from = TABLE_HEAD + FINISH * book.flows.len();
    let length = rows_from + ROW * count.0;
    if length > output.len() {
        return Err(Refusal::of_all(13));
    }

    output[..4].copy_from_slice(&(length as u32).to_be_bytes());
    output[4] = 1;
    output[5..7].copy_from_slice(&(book.processors as u16).to_be_bytes());
    output[7] = book.flows.len() as u8;
    let stated = output[TABLE_HEAD..rows_from].chunks_exact_mut(FINISH);
    for (field, finish) in stated.zip(finishes) {
        field.copy_from_slice(&finish.to_be_bytes());
    }
    used.fill(0);
    shut(windows, book.processors as u16, used);
    let mut rows = Write {
        rest: output[rows_from..length].chunks_exact_mut(ROW),
    };
    for placed in &all_placed {
        let finish = place(book, placed, used, &mut rows);
        debug_assert_eq!(finish, Some(finishes[placed.number]));
    }
    Ok(PlanAnswer::accepted(late, length as u32))
}
