//! The table check, written a second time from the rules. `check` walks the
//! rows once, allocates nothing and is the baseline of speed;
//! `check_by_definition` looks back over all earlier rows for each row and is
//! held against it in the tests.

use crate::answer::{CheckAnswer, Refusal, NONE, SLOTS, WORK_BYTES};
use crate::calendar::{read_calendar, windows_in, Calendar, LAST_REOPENING};
use crate::reader::{
    be16, be32, be64, cap_in_use, read_book, Book, Version, BOOK_HEAD, JOB_RECORD, MOST_DEADLINE,
    MOST_FLOWS, MOST_JOBS, MOST_PROCESSORS, MOST_SIZE,
};

/// Bytes of the table's head, of one finish and of one row.
pub const TABLE_HEAD: usize = 8;
pub const FINISH: usize = 2;
pub const ROW: usize = 6;

/// One row of a table.
#[derive(Clone, Copy, Debug, PartialEq, Eq)]
pub struct Row {
    pub slot: u16,
    pub flow: u8,
    pub job: u8,
    pub take: u16,
}

pub fn row_at(rows: &[u8]) -> Row {
    Row {
        slot: be16(rows, 0) as u16,
        flow: rows[2],
        job: rows[3],
        take: be16(rows, 4) as u16,
    }
}

pub(crate) type Records<'a> = &'a [[u8; JOB_RECORD]];
pub(crate) type Rows<'a> = &'a [[u8; ROW]];
pub(crate) type Use = [[u8; 2]; SLOTS];

/// A book that passed 1 to 10 and 22, read where it lies.
pub(crate) struct Index<'a> {
    pub processors: u32,
    pub flows: usize,
    pub deadlines: [u16; MOST_FLOWS],
    pub releases: [u16; MOST_FLOWS],
    pub records: [Records<'a>; MOST_FLOWS],
}

/// One job of the flow whose rows are walked, its cap as used, with the sum of its
/// rows so far.
#[derive(Clone, Copy)]
pub(crate) struct Ledger {
    pub size: u32,
    pub cap: u16,
    pub precedence: u64,
    pub total: u32,
}

pub(crate) const BLANK: Ledger = Ledger {
    size: 0,
    cap: 0,
    precedence: 0,
    total: 0,
};

/// The complete jobs of that flow, as bits: those that were so before `slot`, and
/// those that `slot` itself completed.
pub(crate) struct Complete {
    pub slot: u16,
    pub earlier: u64,
    pub here: u64,
}

impl Complete {
    /// The jobs that are complete before a slot. Slots never fall.
    pub fn before(&mut self, slot: u16) -> u64 {
        if slot != self.slot {
            self.earlier |= self.here;
            self.here = 0;
            self.slot = slot;
        }
        self.earlier
    }

    pub fn add(&mut self, slot: u16, job: u8) {
        self.before(slot);
        self.here |= 1 << job;
    }
}

/// What is kept of each flow: its finish, and the first job whose total is off.
/// A flow without rows is off at job 0.
pub(crate) struct Tally {
    pub finishes: [u16; MOST_FLOWS],
    pub off: [Option<u8>; MOST_FLOWS],
}

/// Which slots are shut, up to the last that a window can shut.
type Shut = [bool; LAST_REOPENING as usize];

/// Checks a table against a book and its calendar. On acceptance the work area
/// holds the use of each slot; a refusal after 11 zeroes it.
pub fn check(book: &[u8], calendar: &[u8], table: &[u8], work: &mut [u8]) -> CheckAnswer {
    let book = match index(book) {
        Ok(book) => book,
        Err(refusal) => return CheckAnswer::refused(refusal),
    };
    let Some(windows) = windows_in(calendar) else {
        return CheckAnswer::refused(Refusal::of_all(24));
    };
    let mut shut: Shut = [false; LAST_REOPENING as usize];
    for [from, to] in windows {
        shut[from..to].fill(true);
    }
    let Some(work) = work.first_chunk_mut::<WORK_BYTES>() else {
        return CheckAnswer::refused(Refusal::of_all(11));
    };
    work.fill(0);
    match walk(&book, &shut, table, work) {
        Ok(late) => CheckAnswer::accepted(late),
        Err(refusal) => {
            work.fill(0);
            CheckAnswer::refused(refusal)
        }
    }
}

/// 1 to 10 and 22, and the index of a book that passes.
pub(crate) fn index(bytes: &[u8]) -> Result<Index<'_>, Refusal> {
    let Some((head, mut rest)) = bytes.split_first_chunk::<BOOK_HEAD>() else {
        return Err(Refusal::of_all(1));
    };
    if be32(head, 0) as usize != bytes.len() {
        return Err(Refusal::of_all(1));
    }
    let Some(version) = Version::of_byte(head[4]) else {
        return Err(Refusal::of_all(2));
    };
    let processors = be16(head, 5);
    if !(1..=MOST_PROCESSORS).contains(&processors) {
        return Err(Refusal::of_all(3));
    }
    let flows = head[7] as usize;
    if flows > MOST_FLOWS {
        return Err(Refusal::of_all(4));
    }
    let mut book = Index {
        processors,
        flows,
        deadlines: [0; MOST_FLOWS],
        releases: [0; MOST_FLOWS],
        records: [&[]; MOST_FLOWS],
    };
    for flow in 0..flows {
        let Some((head, jobs)) = rest.split_at_checked(version.flow_head()) else {
            return Err(Refusal::new(5, flow as u8, NONE));
        };
        let deadline = be16(head, 0);
        if !(1..=MOST_DEADLINE).contains(&deadline) {
            return Err(Refusal::new(6, flow as u8, NONE));
        }
        let release = version.release(head);
        if release >= deadline {
            return Err(Refusal::new(22, flow as u8, NONE));
        }
        let count = head[head.len() - 1] as usize;
        if !(1..=MOST_JOBS).contains(&count) {
            return Err(Refusal::new(7, flow as u8, NONE));
        }
        let (records, _) = jobs.as_chunks::<JOB_RECORD>();
        let records = &records[..count.min(records.len())];
        records_fit(flow as u8, records)?;
        if records.len() < count {
            return Err(Refusal::new(5, flow as u8, records.len() as u8));
        }
        book.deadlines[flow] = deadline as u16;
        book.releases[flow] = release as u16;
        book.records[flow] = records;
        rest = &jobs[JOB_RECORD * count..];
    }
    if !rest.is_empty() {
        return Err(Refusal::of_all(5));
    }
    Ok(book)
}

/// 8, 9, 10 for each job record.
fn records_fit(flow: u8, records: Records) -> Result<(), Refusal> {
    for (job, record) in records.iter().enumerate() {
        let refuse = |number| Err(Refusal::new(number, flow, job as u8));
        if !(1..=MOST_SIZE).contains(&be32(record, 0)) {
            return refuse(8);
        }
        if be16(record, 4) == 0 {
            return refuse(9);
        }
        if be64(record, 6) >> job != 0 {
            return refuse(10);
        }
    }
    Ok(())
}

/// Refusal 14: the head, the finishes and the length of the rows.
pub(crate) fn head_fits(processors: u32, flows: usize, table: &[u8]) -> bool {
    let rows_from = TABLE_HEAD + FINISH * flows;
    table.len() >= rows_from
        && be32(table, 0) as usize == table.len()
        && table[4] == 1
        && be16(table, 5) == processors
        && table[7] as usize == flows
        && (table.len() - rows_from).is_multiple_of(ROW)
}

/// 14 to 21 and 25, and the late flows of a table that passes. Rows of a flow stand
/// together, so ledgers are kept of one flow at a time.
fn walk(
    book: &Index,
    shut: &Shut,
    table: &[u8],
    work: &mut [u8; WORK_BYTES],
) -> Result<u8, Refusal> {
    if !head_fits(book.processors, book.flows, table) {
        return Err(Refusal::of_all(14));
    }
    let (used, _) = work.as_chunks_mut::<2>();
    let used: &mut Use = used.try_into().expect("two bytes to a slot");
    let (stated, rows) = table[TABLE_HEAD..].split_at(FINISH * book.flows);
    let (mut rows, _) = rows.as_chunks::<ROW>();
    let mut tally = Tally {
        finishes: [0; MOST_FLOWS],
        off: [Some(0); MOST_FLOWS],
    };
    let mut ledgers = [BLANK; MOST_JOBS];
    let mut before = None;

    while let Some(&[_, _, flow, ..]) = rows.first() {
        // A flow that is not in the book has no jobs: 15 at its first row.
        let at = flow as usize % MOST_FLOWS;
        let known = (flow as usize) < book.flows;
        let records = if known { book.records[at] } else { &[] };
        // A flow that is not after the one before it: 16 at its first row.
        let service = Some((book.deadlines[at], flow));
        let least = if service > before { 0 } else { u32::MAX };
        let place = Place {
            flow,
            release: book.releases[at],
            processors: book.processors,
            shut,
        };
        let ledgers = open(book.processors, records, &mut ledgers);
        let finish;
        (finish, rows) = walk_flow(place, least, ledgers, used, rows)?;
        tally.finishes[at] = finish;
        tally.off[at] = first_off(ledgers);
        before = service;
    }
    close(book, &tally, stated)
}

/// Fresh ledgers for the jobs of a flow.
pub(crate) fn open<'a>(
    processors: u32,
    records: Records,
    ledgers: &'a mut [Ledger; MOST_JOBS],
) -> &'a mut [Ledger] {
    for (ledger, record) in ledgers.iter_mut().zip(records) {
        *ledger = Ledger {
            size: be32(record, 0),
            cap: cap_in_use(be16(record, 4), processors) as u16,
            precedence: be64(record, 6),
            total: 0,
        };
    }
    &mut ledgers[..records.len()]
}

/// The first job whose total is off.
pub(crate) fn first_off(ledgers: &[Ledger]) -> Option<u8> {
    let off = ledgers.iter().position(|job| job.total != job.size);
    off.map(|job| job as u8)
}

/// What the rows of one flow are held against besides its jobs.
struct Place<'a> {
    flow: u8,
    release: u16,
    processors: u32,
    shut: &'a Shut,
}

/// 15, 25 and 16 to 19 for the rows of one flow, with which `rows` begins; the flow's
/// finish and the rows behind it. The next row's place, by slot and job, is at least
/// `least`.
fn walk_flow<'a>(
    place: Place,
    mut least: u32,
    ledgers: &mut [Ledger],
    used: &mut Use,
    rows: Rows<'a>,
) -> Result<(u16, Rows<'a>), Refusal> {
    let Place {
        flow,
        release,
        processors,
        shut,
    } = place;
    let mut complete = Complete {
        slot: 0,
        earlier: 0,
        here: 0,
    };
    let mut finish = 0;
    let mut rows = rows.iter();
    while let Some(&[slot_high, slot_low, of, job, take_high, take_low]) = rows.as_slice().first() {
        if of != flow {
            break;
        }
        let refuse = |number| Err(Refusal::new(number, flow, job));
        let slot = u16::from_be_bytes([slot_high, slot_low]);
        let take = u16::from_be_bytes([take_high, take_low]);

        let Some(used) = used.get_mut(slot as usize) else {
            return refuse(15);
        };
        let Some(ledger) = ledgers.get_mut(job as usize) else {
            return refuse(15);
        };
        if take == 0 {
            return refuse(15);
        }
        if shut.get(slot as usize) == Some(&true) {
            return refuse(25);
        }
        let place = u32::from(slot) << 8 | u32::from(job);
        if place < least {
            return refuse(16);
        }
        least = place + 1;
        if take > ledger.cap {
            return refuse(17);
        }
        let in_use = u32::from(u16::from_be_bytes(*used)) + u32::from(take);
        if in_use > processors {
            return refuse(18);
        }
        *used = (in_use as u16).to_be_bytes();

        // Asked at a job's first row only: what is complete or released then
        // stays so.
        if ledger.total == 0 && (slot < release || ledger.precedence & !complete.before(slot) != 0)
        {
            return refuse(19);
        }
        let had = ledger.total;
        ledger.total += u32::from(take);
        if ledger.total >= ledger.size && had < ledger.size {
            complete.add(slot, job);
        }
        finish = slot + 1;
        rows.next();
    }
    Ok((finish, rows.as_slice()))
}

/// 20, 21 and the late flows.
pub(crate) fn close(book: &Index, tally: &Tally, stated: &[u8]) -> Result<u8, Refusal> {
    for (flow, off) in tally.off[..book.flows].iter().enumerate() {
        if let Some(job) = *off {
            return Err(Refusal::new(20, flow as u8, job));
        }
    }
    let mut late = 0;
    let (stated, _) = stated.as_chunks::<FINISH>();
    let flows = tally.finishes.iter().zip(&book.deadlines).zip(stated);
    for (flow, ((&finish, &deadline), stated)) in flows.enumerate() {
        if u16::from_be_bytes(*stated) != finish {
            return Err(Refusal::new(21, flow as u8, NONE));
        }
        // Results reach the stands one slot after the finish (02, Req 06). That is at
        // most 8,193.
        let at_the_stands = finish + 1;
        late += u8::from(at_the_stands > deadline);
    }
    Ok(late)
}

/// The same check with no memory between rows: every sum is taken anew over
/// the rows so far. Quadratic, for small tables.
pub fn check_by_definition(
    book: &[u8],
    calendar: &[u8],
    table: &[u8],
    work: &mut [u8],
) -> CheckAnswer {
    let book = match read_book(book) {
        Ok(book) => book,
        Err(refusal) => return CheckAnswer::refused(refusal),
    };
    let calendar = match read_calendar(calendar) {
        Ok(calendar) => calendar,
        Err(refusal) => return CheckAnswer::refused(refusal),
    };
    if work.len() < WORK_BYTES {
        return CheckAnswer::refused(Refusal::of_all(11));
    }
    work[..WORK_BYTES].fill(0);
    match judge(&book, &calendar, table) {
        Err(refusal) => CheckAnswer::refused(refusal),
        Ok((late, rows)) => {
            for slot in 0..SLOTS {
                let in_use = use_of(&rows, slot as u16) as u16;
                work[2 * slot..2 * slot + 2].copy_from_slice(&in_use.to_be_bytes());
            }
            CheckAnswer::accepted(late)
        }
    }
}

/// Processors in use in a slot.
fn use_of(rows: &[Row], slot: u16) -> u32 {
    let here = rows.iter().filter(|row| row.slot == slot);
    here.map(|row| u32::from(row.take)).sum()
}

/// What the rows of one job sum to in the slots before the given one.
fn done_before(rows: &[Row], flow: u8, job: u8, slot: u32) -> u32 {
    let of_job = rows.iter().filter(|row| row.flow == flow && row.job == job);
    let earlier = of_job.filter(|row| u32::from(row.slot) < slot);
    earlier.map(|row| u32::from(row.take)).sum()
}

fn judge(book: &Book, calendar: &Calendar, table: &[u8]) -> Result<(u8, Vec<Row>), Refusal> {
    if !head_fits(book.processors, book.flows.len(), table) {
        return Err(Refusal::of_all(14));
    }
    let order = book.service_order();
    let service = |row: &Row| order.iter().position(|&flow| flow == row.flow as usize);
    let rows_from = TABLE_HEAD + FINISH * book.flows.len();
    let rows: Vec<Row> = table[rows_from..].chunks_exact(ROW).map(row_at).collect();

    for (index, row) in rows.iter().enumerate() {
        let so_far = &rows[..=index];
        let refuse = |number| Err(Refusal::new(number, row.flow, row.job));
        let Some(flow) = book.flows.get(row.flow as usize) else {
            return refuse(15);
        };
        let Some(job) = flow.jobs.get(row.job as usize) else {
            return refuse(15);
        };
        if row.slot > 8_191 || row.take == 0 {
            return refuse(15);
        }
        // "25 when a row uses a shut slot, between 15 and 16" (02, Req 07).
        if !calendar.is_open(u32::from(row.slot)) {
            return refuse(25);
        }
        if index > 0 {
            let last = &rows[index - 1];
            let here = (service(row), row.slot, row.job);
            if here <= (service(last), last.slot, last.job) {
                return refuse(16);
            }
        }
        if u32::from(row.take) > job.cap_in_use(book.processors) {
            return refuse(17);
        }
        if use_of(so_far, row.slot) > book.processors {
            return refuse(18);
        }
        if u32::from(row.slot) < flow.release {
            return refuse(19);
        }
        for earlier in 0..64u8 {
            if job.precedence >> earlier & 1 == 1 {
                let done = done_before(so_far, row.flow, earlier, u32::from(row.slot));
                if done < flow.jobs[earlier as usize].size {
                    return refuse(19);
                }
            }
        }
    }
    for (flow, record) in book.flows.iter().enumerate() {
        for (job, record) in record.jobs.iter().enumerate() {
            if done_before(&rows, flow as u8, job as u8, SLOTS as u32) != record.size {
                return Err(Refusal::new(20, flow as u8, job as u8));
            }
        }
    }
    let mut late = 0;
    for (flow, record) in book.flows.iter().enumerate() {
        let of_flow = rows.iter().filter(|row| row.flow as usize == flow);
        let finish = of_flow.map(|row| u32::from(row.slot) + 1).max();
        let finish = finish.expect("a flow whose jobs are complete has rows");
        if be16(table, TABLE_HEAD + FINISH * flow) != finish {
            return Err(Refusal::new(21, flow as u8, NONE));
        }
        // In time is only a flow that leaves the write-back a slot before its deadline
        // (02, Req 06).
        let in_time = finish < record.deadline;
        if !in_time {
            late += 1;
        }
    }
    Ok((late, rows))
}
