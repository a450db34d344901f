//! Valid tables that the planner would not make, tables near a valid one, and
//! damage to tables such that every refusal of the check is met and several faults
//! stand together, also before and about a release, in and about a window, and at
//! jobs whose cap is above P.

use crate::answer::{CheckAnswer, NUMBERS, SLOTS};
use crate::books::{encode_table, fit_length};
use crate::calendar::Calendar;
use crate::reader::{Book, Flow, Job};
use crate::rng::Rng;
use crate::second_check::{row_at, Row, FINISH, ROW, TABLE_HEAD};
use crate::second_planner;

/// A table before it is encoded.
#[derive(Clone)]
pub struct Table {
    pub finishes: Vec<u16>,
    pub rows: Vec<Row>,
}

impl Table {
    pub fn encode(&self, book: &Book) -> Vec<u8> {
        encode_table(book.processors as u16, &self.finishes, &self.rows)
    }
}

/// The planner's own table.
pub fn planned_table(book: &Book, calendar: &Calendar) -> Option<Table> {
    let schedule = second_planner::schedule(book, calendar).ok()?;
    Some(Table {
        finishes: schedule.finishes,
        rows: schedule.rows,
    })
}

/// Puts rows into the order of the table.
pub fn sort_rows(book: &Book, rows: &mut [Row]) {
    let mut rank = vec![usize::MAX; 256];
    for (place, flow) in book.service_order().into_iter().enumerate() {
        rank[flow] = place;
    }
    rows.sort_by_key(|row| (rank[row.flow as usize], row.slot, row.job));
}

/// The finishes that the rows give.
pub fn finishes_of(book: &Book, rows: &[Row]) -> Vec<u16> {
    let mut finishes = vec![0u16; book.flows.len()];
    for row in rows {
        if let Some(finish) = finishes.get_mut(row.flow as usize) {
            *finish = (*finish).max(row.slot.saturating_add(1));
        }
    }
    finishes
}

/// A job that is not finished, and what the list scheduler asks of it.
struct Unfinished {
    flow: u8,
    job: u8,
    release: u32,
    cap: u32,
    precedence: u64,
    left: u32,
}

/// A valid schedule by a list scheduler that delays at random and uses open slots
/// only; it may end far beyond twice a deadline. Nothing where it passes slot 8,191.
pub fn delayed_table(rng: &mut Rng, book: &Book, calendar: &Calendar) -> Option<Table> {
    let mut jobs: Vec<Unfinished> = Vec::new();
    for (flow, record) in book.flows.iter().enumerate() {
        let of_flow = record.jobs.iter().enumerate();
        jobs.extend(of_flow.map(|(number, job)| Unfinished {
            flow: flow as u8,
            job: number as u8,
            release: record.release,
            cap: job.cap_in_use(book.processors),
            precedence: job.precedence,
            left: job.size,
        }));
    }
    // The finished jobs of each flow, as bits.
    let mut done = vec![0u64; book.flows.len()];
    let idle = rng.pick(&[0, 0, 1, 3, 6]);
    let skip = rng.pick(&[0, 1, 3, 6]);
    let greedy = rng.pick(&[0, 4, 7, 8]);
    let mut rows = Vec::new();
    let wait = rng.range(2, 500);
    let first = rng.pick(&[0, 0, 0, 1, wait]) as u32;
    for slot in first..SLOTS as u32 {
        if jobs.is_empty() {
            break;
        }
        if rng.chance(idle, 8) || !calendar.is_open(slot) {
            continue;
        }
        if rng.chance(1, 3) {
            rng.shuffle(&mut jobs);
        }
        let mut free = book.processors;
        let mut finishes = false;
        for job in &mut jobs {
            if free == 0 {
                break;
            }
            let before = done[job.flow as usize];
            let ready = slot >= job.release && job.precedence & !before == 0;
            if !ready || rng.chance(skip, 8) {
                continue;
            }
            let most = job.cap.min(job.left).min(free);
            let take = if rng.chance(greedy, 8) {
                most
            } else {
                rng.range(1, u64::from(most)) as u32
            };
            free -= take;
            job.left -= take;
            finishes |= job.left == 0;
            rows.push(Row {
                slot: slot as u16,
                flow: job.flow,
                job: job.job,
                take: take as u16,
            });
        }
        if finishes {
            for job in jobs.iter().filter(|job| job.left == 0) {
                done[job.flow as usize] |= 1 << job.job;
            }
            jobs.retain(|job| job.left > 0);
        }
    }
    if !jobs.is_empty() {
        return None;
    }
    if rng.chance(1, 16) {
        // The same schedule, moved so that it ends in the last slot, where that moves
        // no row into a window.
        let last = rows.iter().map(|row| row.slot).max().unwrap_or(0);
        let later = SLOTS as u16 - 1 - last;
        let mut moved = rows.iter().map(|row| u32::from(row.slot + later));
        if moved.all(|slot| calendar.is_open(slot)) {
            rows.iter_mut().for_each(|row| row.slot += later);
        }
    }
    sort_rows(book, &mut rows);
    Some(Table {
        finishes: finishes_of(book, &rows),
        rows,
    })
}

/// The planner's own table or another valid one, where there is.
pub fn either_table(rng: &mut Rng, book: &Book, calendar: &Calendar) -> Option<Table> {
    if rng.chance(1, 2) {
        planned_table(book, calendar)
    } else {
        delayed_table(rng, book, calendar)
    }
}

/// A table near a valid one, which may be valid too: rows later, units in another
/// row of the job, or two jobs or flows with each other's rows.
pub fn varied(rng: &mut Rng, book: &Book, table: &Table) -> Table {
    let mut rows = table.rows.clone();
    if !rows.is_empty() {
        vary(rng, book, &mut rows);
    }
    sort_rows(book, &mut rows);
    Table {
        finishes: finishes_of(book, &rows),
        rows,
    }
}

fn vary(rng: &mut Rng, book: &Book, rows: &mut Vec<Row>) {
    let at = rng.index(rows.len());
    let row = rows[at];
    match rng.below(6) {
        0 => {
            // All rows from a slot on come later.
            let wait = rng.skewed(1, 300) as u16;
            for later in rows.iter_mut().filter(|other| other.slot >= row.slot) {
                later.slot += wait;
            }
        }
        1 => rows[at].slot += rng.skewed(1, 8) as u16,
        2 => {
            // Some units of a row in a slot of their own.
            let units = rng.below(u64::from(row.take)) as u16;
            rows[at].take -= units;
            if units > 0 {
                rows.push(Row {
                    slot: row.slot + rng.skewed(1, 8) as u16,
                    take: units,
                    ..row
                });
            }
        }
        3 => {
            // A unit in another row of the job.
            let alike = |other: &Row| (other.flow, other.job) == (row.flow, row.job);
            let others: Vec<usize> = (0..rows.len()).filter(|&k| alike(&rows[k])).collect();
            rows[rng.pick(&others)].take += 1;
            rows[at].take -= 1;
            rows.retain(|row| row.take > 0);
        }
        4 => {
            let jobs = book.flows[row.flow as usize].jobs.len();
            let job = rng.index(jobs) as u8;
            for of_flow in rows.iter_mut().filter(|other| other.flow == row.flow) {
                of_flow.job = exchanged(of_flow.job, row.job, job);
            }
        }
        _ => {
            let flow = rng.index(book.flows.len()) as u8;
            for any in rows {
                any.flow = exchanged(any.flow, row.flow, flow);
            }
        }
    }
}

/// A number, with two of the numbers exchanged.
fn exchanged(number: u8, one: u8, other: u8) -> u8 {
    match number {
        _ if number == one => other,
        _ if number == other => one,
        _ => number,
    }
}

/// A book of two jobs, the second after the first, and a table that would be
/// valid but for `surplus` units too many of the first.
pub fn surplus_table(size: u32, surplus: u32) -> (Book, Table) {
    let job = |size, precedence| Job {
        size,
        cap: 4_096,
        precedence,
    };
    let flow = Flow::new(4_096, vec![job(size, 0), job(1, 1)]);
    let book = Book::new(4_096, vec![flow]);
    let mut rows = Vec::new();
    let mut left = size + surplus;
    while left > 0 {
        let take = left.min(4_096);
        left -= take;
        rows.push(Row {
            slot: rows.len() as u16,
            flow: 0,
            job: 0,
            take: take as u16,
        });
    }
    rows.push(Row {
        slot: rows.len() as u16,
        flow: 0,
        job: 1,
        take: 1,
    });
    let finishes = finishes_of(&book, &rows);
    (book, Table { finishes, rows })
}

fn nudge(rng: &mut Rng, value: u16) -> u16 {
    match rng.below(4) {
        0 => value.wrapping_add(1),
        1 => value.wrapping_sub(1),
        2 => value.wrapping_add(rng.range(2, 9) as u16),
        _ => value.wrapping_sub(rng.range(2, 9) as u16),
    }
}

/// The job that a row names.
fn job_of<'a>(book: &'a Book, row: &Row) -> Option<&'a Job> {
    let flow = book.flows.get(row.flow as usize)?;
    flow.jobs.get(row.job as usize)
}

/// The cap as used of the job that a row names.
fn cap_of(book: &Book, row: &Row) -> u16 {
    job_of(book, row).map_or(1, |job| job.cap_in_use(book.processors) as u16)
}

/// Whether a row is of a job whose cap is above P.
fn is_wide(book: &Book, row: &Row) -> bool {
    job_of(book, row).is_some_and(|job| job.cap > book.processors)
}

/// Moves the first row of some row's flow to the slot before the flow's release,
/// to that of the release, to the next, or to any before; its take stays, or is
/// more than its cap or than a slot that is in use has left.
fn near_release(rng: &mut Rng, book: &Book, rows: &mut [Row], at: usize) {
    let number = rows[at].flow;
    let Some(flow) = book.flows.get(number as usize) else {
        return;
    };
    let Some(row) = rows.iter_mut().find(|row| row.flow == number) else {
        return;
    };
    let release = flow.release as u16;
    let earlier = rng.range(0, u64::from(release)) as u16;
    row.slot = rng.pick(&[release.saturating_sub(1), release, release + 1, earlier]);
    if rng.chance(1, 2) {
        let cap = cap_of(book, row);
        row.take = rng.pick(&[cap, cap + 1]);
    }
}

/// Moves a row into a window, to the last slot before it or to the one that is open
/// again; at times with no processors, as of no flow, or in the place of another row.
fn near_window(rng: &mut Rng, calendar: &Calendar, rows: &mut [Row], at: usize) {
    if calendar.windows.is_empty() {
        return;
    }
    let window = rng.pick(&calendar.windows);
    let (first, last) = (window.shut as u16, window.again as u16 - 1);
    let before = first.saturating_sub(1);
    rows[at].slot = rng.pick(&[first, last, first, last, before, last + 1]);
    match rng.below(8) {
        0 => rows[at].take = 0,
        1 => rows[at].flow = 255,
        2 => {
            let other = rng.index(rows.len());
            rows.swap(at, other);
        }
        _ => {}
    }
}

/// Gives a row of a job whose cap is above P all processors, one more, or as many
/// as that cap says; the other rows of the slot stay or go.
fn near_processors(rng: &mut Rng, book: &Book, rows: &mut Vec<Row>) {
    let wide: Vec<usize> = (0..rows.len())
        .filter(|&k| is_wide(book, &rows[k]))
        .collect();
    if wide.is_empty() {
        return;
    }
    let at = rng.pick(&wide);
    let processors = book.processors as u16;
    let stands = job_of(book, &rows[at]).map_or(1, |job| job.cap as u16);
    rows[at].take = rng.pick(&[
        processors,
        processors,
        processors + 1,
        processors + 1,
        stands,
    ]);
    if rng.chance(1, 2) {
        let row = rows[at];
        let place = (row.flow, row.job);
        rows.retain(|other| other.slot != row.slot || (other.flow, other.job) == place);
    }
}

/// The rows of an encoded table of the book.
fn rows_of<'a>(book: &Book, table: &'a [u8]) -> impl Iterator<Item = Row> + 'a {
    let rows = table.get(TABLE_HEAD + FINISH * book.flows.len()..);
    rows.unwrap_or(&[]).chunks_exact(ROW).map(row_at)
}

/// Whether the first row of a flow stands before the flow's release.
pub fn begins_early(book: &Book, table: &[u8], flow: u8) -> bool {
    let first = rows_of(book, table).find(|row| row.flow == flow);
    let release = book.flows.get(flow as usize).map_or(0, |flow| flow.release);
    first.is_some_and(|row| u32::from(row.slot) < release)
}

/// How often a check met rows at the edge of what a cap above P allows.
#[derive(Default)]
pub struct WideRows {
    /// Accepted tables in which such a job is given P.
    whole: u64,
    /// Refusals at such a job that is given P in some row.
    whole_refused: [u64; NUMBERS],
    /// Refusals by 17 because such a job is given P + 1, or more than that.
    one_more: u64,
    more: u64,
}

impl WideRows {
    /// Counts what a check answered for a table of the book.
    pub fn count(&mut self, book: &Book, table: &[u8], answer: CheckAnswer) {
        let processors = book.processors as u16;
        let mut rows = rows_of(book, table).filter(|row| is_wide(book, row));
        if answer.number == 0 {
            self.whole += u64::from(rows.any(|row| row.take == processors));
            return;
        }
        let mut rows = rows.filter(|row| (row.flow, row.job) == (answer.flow, answer.job));
        if answer.number == 17 {
            // The first row above P is the one that was refused.
            match rows.find(|row| row.take > processors) {
                Some(row) if row.take == processors + 1 => self.one_more += 1,
                Some(_) => self.more += 1,
                None => {}
            }
        } else if rows.any(|row| row.take == processors) {
            self.whole_refused[answer.number as usize] += 1;
        }
    }

    /// Prints the counts; each kind must have been met.
    pub fn hold(&self) {
        println!(
            "tables with P for a job whose cap is above P: accepted {}, refused there {:?}",
            self.whole, self.whole_refused
        );
        println!(
            "17 for P + 1 processors to such a job: {}, for more: {}",
            self.one_more, self.more
        );
        assert!(self.whole > 0 && self.one_more > 0 && self.more > 0);
        for number in [16, 18, 19, 20] {
            let met = self.whole_refused[number];
            assert!(met > 0, "number {number} was never met with P processors");
        }
    }
}

/// Damages the rows or the finishes in one place.
fn damage_once(rng: &mut Rng, book: &Book, calendar: &Calendar, table: &mut Table) {
    let flows = book.flows.len() as u64;
    let rows = &mut table.rows;
    if rows.is_empty() || rng.chance(1, 16) {
        if !table.finishes.is_empty() {
            let at = rng.index(table.finishes.len());
            table.finishes[at] = match rng.below(3) {
                0 => rng.draw() as u16,
                1 => rng.pick(&[0, 8_192, 8_193, 65_535]),
                _ => nudge(rng, table.finishes[at]),
            };
        }
        return;
    }
    let at = rng.index(rows.len());
    let other = rng.index(rows.len());
    match rng.below(22) {
        0 => rows[at].slot = nudge(rng, rows[at].slot),
        1 => rows[at].slot = rows[other].slot,
        2 => {
            let any = rng.draw() as u16;
            rows[at].slot = rng.pick(&[0, 8_191, 8_192, 65_535, any]);
        }
        3 => {
            rows[at].flow = match rng.below(4) {
                0 => flows as u8,
                1 => 255,
                _ => rng.below(flows) as u8,
            }
        }
        4 => {
            let jobs = book.flows.get(rows[at].flow as usize);
            let jobs = jobs.map_or(1, |flow| flow.jobs.len() as u64);
            rows[at].job = match rng.below(4) {
                0 => jobs as u8,
                1 => 255,
                _ => rng.below(jobs) as u8,
            }
        }
        5 => rows[at].take = nudge(rng, rows[at].take),
        6 => {
            let cap = cap_of(book, &rows[at]);
            let processors = book.processors as u16;
            let next = rng.draw() as u16;
            rows[at].take = rng.pick(&[0, cap, cap + 1, processors, processors + 1, next]);
        }
        7 => rows.swap(at, other),
        8 => {
            let next = (at + 1) % rows.len();
            rows.swap(at, next);
        }
        9 => {
            rows.remove(at);
        }
        10 => {
            let row = rows[at];
            rows.insert(at, row);
        }
        11 => {
            // Moves units from one row of a job to another: its total stays.
            let alike: Vec<usize> = (0..rows.len())
                .filter(|&k| rows[k].flow == rows[at].flow && rows[k].job == rows[at].job)
                .collect();
            let to = rng.pick(&alike);
            let units = rng.range(1, u64::from(rows[at].take).max(1)) as u16;
            rows[at].take = rows[at].take.wrapping_sub(units);
            rows[to].take = rows[to].take.wrapping_add(units);
            rows.retain(|row| row.take > 0);
        }
        12 => {
            // Brings all rows of one job nearer or later by a slot.
            let (flow, job) = (rows[at].flow, rows[at].job);
            let later = rng.chance(1, 4);
            for row in rows.iter_mut() {
                if row.flow == flow && row.job == job {
                    let slot = row.slot;
                    row.slot = if later {
                        slot.saturating_add(1)
                    } else {
                        slot.saturating_sub(1)
                    };
                }
            }
        }
        13 => {
            // Another row of a job that has one, anywhere.
            let row = Row {
                slot: rows[other].slot,
                take: rng.range(1, 3) as u16,
                ..rows[at]
            };
            rows.push(row);
        }
        14 | 15 => near_release(rng, book, rows, at),
        16 => {
            // The same processors to another job of the flow.
            let take = rows[other].take;
            rows[at].job = rows[other].job;
            rows[at].take = take;
        }
        17 | 18 => near_processors(rng, book, rows),
        19 | 20 => near_window(rng, calendar, rows, at),
        _ => rows[at].take = rows[at].take.saturating_mul(2),
    }
}

/// Damages the bytes of a table.
fn damage_bytes(rng: &mut Rng, bytes: &mut Vec<u8>) {
    match rng.below(8) {
        0 => bytes[4] = rng.pick(&[0, 2, 255]),
        1 => bytes[5 + rng.index(2)] ^= 1 << rng.below(8),
        2 => bytes[7] = bytes[7].wrapping_add(rng.pick(&[1, 255, 64])),
        3 => {
            bytes.truncate(rng.index(bytes.len()));
            fit_length(bytes);
        }
        4 => {
            let extra = rng.range(1, 13);
            bytes.extend((0..extra).map(|_| rng.draw() as u8));
            fit_length(bytes);
        }
        5 => {
            let at = rng.index(4);
            bytes[at] ^= 1 << rng.below(8);
        }
        6 => bytes.truncate(rng.index(bytes.len())),
        _ => {
            for _ in 0..rng.range(1, 3) {
                let at = rng.index(bytes.len());
                bytes[at] ^= 1 << rng.below(8);
            }
        }
    }
}

/// A damaged copy of a table, encoded. Often the rows are sorted again, so that
/// a fault of order does not hide the later ones, and the finishes made to fit.
pub fn damaged(rng: &mut Rng, book: &Book, calendar: &Calendar, table: &Table) -> Vec<u8> {
    let mut table = table.clone();
    if !rng.chance(1, 8) {
        for _ in 0..rng.pick(&[1, 1, 1, 1, 2, 2, 3, 5]) {
            damage_once(rng, book, calendar, &mut table);
        }
        if rng.chance(1, 2) {
            sort_rows(book, &mut table.rows);
        }
        if rng.chance(1, 2) {
            table.finishes = finishes_of(book, &table.rows);
        }
    }
    let mut bytes = table.encode(book);
    if rng.chance(1, 8) {
        damage_bytes(rng, &mut bytes);
    }
    bytes
}
