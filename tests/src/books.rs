//! Encoders of books, tables and dispatch lists, seeded generators of order books
//! over every range, of caps and of releases, and damage to books of either
//! version.

use crate::quote::work;
use crate::reader::{
    be16, Book, Flow, Job, Version, BOOK_HEAD, JOB_RECORD, MOST_CAP, MOST_DEADLINE, MOST_FLOWS,
    MOST_JOBS, MOST_PROCESSORS, MOST_SIZE,
};
use crate::rng::Rng;
use crate::second_check::Row;
use crate::second_planner::critical_path;

/// The bytes of a book in its version. Version 1 has no field for the releases.
pub fn encode_book(book: &Book) -> Vec<u8> {
    let mut bytes = vec![0; 4];
    bytes.push(book.version.byte());
    bytes.extend((book.processors as u16).to_be_bytes());
    bytes.push(book.flows.len() as u8);
    for flow in &book.flows {
        bytes.extend((flow.deadline as u16).to_be_bytes());
        if book.version == Version::Two {
            bytes.extend((flow.release as u16).to_be_bytes());
        }
        bytes.push(flow.jobs.len() as u8);
        for job in &flow.jobs {
            bytes.extend(job.size.to_be_bytes());
            bytes.extend((job.cap as u16).to_be_bytes());
            bytes.extend(job.precedence.to_be_bytes());
        }
    }
    fit_length(&mut bytes);
    bytes
}

/// The bytes of a table.
pub fn encode_table(processors: u16, finishes: &[u16], rows: &[Row]) -> Vec<u8> {
    let mut bytes = Vec::with_capacity(8 + 2 * finishes.len() + 6 * rows.len());
    bytes.extend([0, 0, 0, 0, 1]);
    bytes.extend(processors.to_be_bytes());
    bytes.push(finishes.len() as u8);
    for finish in finishes {
        bytes.extend(finish.to_be_bytes());
    }
    put_rows(&mut bytes, rows);
    fit_length(&mut bytes);
    bytes
}

/// The bytes of a dispatch list.
pub fn encode_list(processors: u16, rows: &[Row]) -> Vec<u8> {
    let mut bytes = Vec::with_capacity(7 + 6 * rows.len());
    bytes.extend([0, 0, 0, 0, 1]);
    bytes.extend(processors.to_be_bytes());
    put_rows(&mut bytes, rows);
    fit_length(&mut bytes);
    bytes
}

fn put_rows(bytes: &mut Vec<u8>, rows: &[Row]) {
    for row in rows {
        bytes.extend(row.slot.to_be_bytes());
        bytes.extend([row.flow, row.job]);
        bytes.extend(row.take.to_be_bytes());
    }
}

/// Makes the length field say how many bytes there are.
pub fn fit_length(bytes: &mut [u8]) {
    let length = bytes.len() as u32;
    if let Some(field) = bytes.get_mut(..4) {
        field.copy_from_slice(&length.to_be_bytes());
    }
}

/// The numbers of the first `kept` flows in service order, in the order of the book.
pub fn kept_by_cut(book: &Book, kept: usize) -> Vec<usize> {
    let mut stay = book.service_order();
    stay.truncate(kept);
    stay.sort_unstable();
    stay
}

/// The book cut after its first `kept` flows in service order; the flows that
/// stay keep the order of the book.
pub fn cut(book: &Book, kept: usize) -> Book {
    let stay = kept_by_cut(book, kept);
    Book {
        flows: stay.into_iter().map(|k| book.flows[k].clone()).collect(),
        ..*book
    }
}

/// How the releases of a book are drawn.
#[derive(Clone, Copy)]
enum Releases {
    /// Each by itself, edges often.
    Any,
    /// The same slot for all that it is possible for.
    Together,
    /// As late as possible.
    Latest,
    /// All 0.
    AtOnce,
}

/// The flows of a book as version 2, with a release below the deadline of each.
pub fn with_releases(rng: &mut Rng, mut book: Book) -> Book {
    let how = match rng.below(8) {
        0 => Releases::Together,
        1 => Releases::Latest,
        2 => Releases::AtOnce,
        _ => Releases::Any,
    };
    let together = rng.skewed(0, u64::from(MOST_DEADLINE) - 1);
    book.version = Version::Two;
    for flow in &mut book.flows {
        let most = u64::from(flow.deadline - 1);
        let release = match how {
            Releases::Any => match rng.below(6) {
                0 => 0,
                1 => 1,
                2 => most,
                3 => rng.skewed(0, most),
                _ => rng.range(0, most),
            },
            Releases::Together => together,
            Releases::Latest => most,
            Releases::AtOnce => 0,
        };
        flow.release = release.min(most) as u32;
    }
    book
}

/// How the caps of a book are drawn anew. The families below draw none above P.
#[derive(Clone, Copy)]
enum Caps {
    /// As they were.
    AsDrawn,
    /// Those at P stand above it: a plan stays what it was.
    Widest,
    /// Each by itself, edges often.
    Any,
    /// All above P.
    AllAbove,
    /// As they were, in a book for fewer processors.
    FewerProcessors,
}

/// A cap above P: the least, the most, near the most or any.
fn cap_above(rng: &mut Rng, processors: u32) -> u32 {
    let (least, most) = (u64::from(processors) + 1, u64::from(MOST_CAP));
    let cap = match rng.below(8) {
        0..=2 => least,
        3 | 4 => most,
        5 => most - rng.range(1, 8),
        6 => rng.skewed(least, most),
        _ => rng.range(least, most),
    };
    cap as u32
}

/// The book with caps below, at and above P, and often with deadlines that are
/// near what it needs with them.
pub fn with_caps(rng: &mut Rng, mut book: Book) -> Book {
    let how = match rng.below(8) {
        0 | 1 => Caps::AsDrawn,
        2 | 3 => Caps::Widest,
        4 | 5 => Caps::Any,
        6 => Caps::AllAbove,
        _ => Caps::FewerProcessors,
    };
    if let Caps::FewerProcessors = how {
        book.processors = rng.range(1, u64::from(book.processors)) as u32;
    }
    let processors = book.processors;
    for job in book.flows.iter_mut().flat_map(|flow| &mut flow.jobs) {
        job.cap = match how {
            Caps::AsDrawn | Caps::FewerProcessors => job.cap,
            Caps::Widest if job.cap < processors => job.cap,
            Caps::Widest | Caps::AllAbove => cap_above(rng, processors),
            Caps::Any => match rng.below(6) {
                0 => job.cap,
                1 => (processors - 1).max(1),
                2 => processors,
                _ => cap_above(rng, processors),
            },
        };
    }
    if !matches!(how, Caps::AsDrawn | Caps::Widest) && rng.chance(1, 2) {
        let how = rng.pick(&[Deadlines::Fair, Deadlines::Tight]);
        draw_deadlines(rng, &mut book, how);
    }
    book
}

/// Whether some cap of the book is above P.
pub fn has_cap_above(book: &Book) -> bool {
    let mut jobs = book.flows.iter().flat_map(|flow| &flow.jobs);
    jobs.any(|job| job.cap > book.processors)
}

/// One of the ways below to draw a book.
pub type Family = fn(&mut Rng) -> Book;

/// A book of a family in a version, with caps of every kind.
pub fn drawn(rng: &mut Rng, version: Version, family: Family) -> Book {
    let book = family(rng);
    let book = with_caps(rng, book);
    in_version(rng, version, book)
}

/// A drawn book as one of the version: as it is, or with releases.
pub fn in_version(rng: &mut Rng, version: Version, book: Book) -> Book {
    match version {
        Version::One => book,
        Version::Two => with_releases(rng, book),
    }
}

/// How the jobs of a flow wait for each other.
#[derive(Clone, Copy)]
enum Shape {
    Free,
    Chain,
    ForkJoin,
    Dense,
    Sparse,
    Layers,
}

const SHAPES: [Shape; 6] = [
    Shape::Free,
    Shape::Chain,
    Shape::ForkJoin,
    Shape::Dense,
    Shape::Sparse,
    Shape::Layers,
];

fn precedence(rng: &mut Rng, shape: Shape, job: usize, jobs: usize) -> u64 {
    let lower = (1u64 << job) - 1;
    match shape {
        Shape::Free => 0,
        Shape::Chain if job == 0 => 0,
        Shape::Chain => 1 << (job - 1),
        Shape::ForkJoin if job == 0 => 0,
        Shape::ForkJoin if job + 1 == jobs => lower,
        Shape::ForkJoin => 1,
        Shape::Dense => (rng.draw() | rng.draw()) & lower,
        Shape::Sparse => rng.draw() & rng.draw() & rng.draw() & lower,
        Shape::Layers => {
            let layer = jobs / 4 + 1;
            (1u64 << (job - job % layer)) - 1
        }
    }
}

/// The ranges that a family of books draws from.
#[derive(Clone, Copy)]
struct Ranges {
    processors: u64,
    flows: u64,
    jobs: u64,
    size: u64,
}

/// How deadlines are drawn.
#[derive(Clone, Copy)]
enum Deadlines {
    /// Near what the flow needs behind those before it.
    Fair,
    /// About half the critical path, where rule 6 decides.
    Tight,
    /// Out of two values.
    Ties,
    /// Anything.
    Any,
}

fn draw_job(rng: &mut Rng, ranges: &Ranges, processors: u64) -> Job {
    let cap = match rng.below(6) {
        0 => 1,
        1 => processors,
        2 => rng.range(1, processors),
        _ => rng.skewed(1, processors),
    };
    let size = match rng.below(8) {
        0 => 1,
        1 => cap,
        2 => cap + 1,
        3 => cap * rng.skewed(1, ranges.size / cap + 1),
        4 => rng.range(1, ranges.size),
        5 => ranges.size,
        _ => rng.skewed(1, ranges.size),
    };
    Job {
        size: size.clamp(1, u64::from(MOST_SIZE)) as u32,
        cap: cap as u32,
        precedence: 0,
    }
}

fn draw_flow(rng: &mut Rng, ranges: &Ranges, processors: u64) -> Flow {
    let shape = rng.pick(&SHAPES);
    let jobs = match rng.below(4) {
        0 => 1,
        1 => ranges.jobs,
        _ => rng.range(1, ranges.jobs),
    } as usize;
    let alike = rng.chance(1, 4);
    let model = draw_job(rng, ranges, processors);
    let jobs = (0..jobs).map(|number| {
        let mut job = if alike {
            model
        } else {
            draw_job(rng, ranges, processors)
        };
        job.precedence = precedence(rng, shape, number, jobs);
        job
    });
    Flow::new(1, jobs.collect())
}

fn draw_deadlines(rng: &mut Rng, book: &mut Book, how: Deadlines) {
    let most = u64::from(MOST_DEADLINE);
    let pair = [rng.range(1, most), rng.skewed(1, most)];
    let mut work_before = 0;
    for flow in &mut book.flows {
        let path = critical_path(flow, book.processors);
        work_before += work(flow);
        let need = path + work_before / u64::from(book.processors);
        let deadline = match how {
            Deadlines::Fair => match rng.below(4) {
                0 => need,
                1 => need * 2,
                2 => path.max(need / 2),
                _ => rng.range(path, need + 4),
            },
            Deadlines::Tight => match rng.below(4) {
                0 => path.div_ceil(2),
                1 => path / 2,
                2 => path,
                _ => need.div_ceil(2) + rng.below(4),
            },
            Deadlines::Ties => rng.pick(&pair),
            Deadlines::Any => match rng.below(4) {
                0 => 1,
                1 => most,
                _ => rng.skewed(1, most),
            },
        };
        flow.deadline = deadline.clamp(1, most) as u32;
    }
}

/// Each flow gets a deadline of a window that the next one does not share, so
/// that the flows of a book mostly fit one behind the other.
fn spread_deadlines(rng: &mut Rng, book: &mut Book) {
    let order: Vec<usize> = {
        let mut order: Vec<usize> = (0..book.flows.len()).collect();
        rng.shuffle(&mut order);
        order
    };
    let mut end = 0;
    for flow in order {
        let flow = &mut book.flows[flow];
        let path = critical_path(flow, book.processors);
        let alone = path + work(flow) / u64::from(book.processors);
        end += rng.range(alone / 2, alone + 1);
        flow.deadline = end.clamp(1, u64::from(MOST_DEADLINE)) as u32;
    }
}

fn draw_book(rng: &mut Rng, ranges: Ranges) -> Book {
    let processors = match rng.below(4) {
        0 => ranges.processors,
        _ => rng.skewed(1, ranges.processors),
    };
    let flows = match rng.below(4) {
        0 => ranges.flows,
        _ => rng.range(0, ranges.flows),
    };
    let flows = (0..flows).map(|_| draw_flow(rng, &ranges, processors));
    let mut book = Book::new(processors as u32, flows.collect());
    match rng.below(8) {
        0 => draw_deadlines(rng, &mut book, Deadlines::Any),
        1 => draw_deadlines(rng, &mut book, Deadlines::Ties),
        2 => draw_deadlines(rng, &mut book, Deadlines::Tight),
        3 | 4 => draw_deadlines(rng, &mut book, Deadlines::Fair),
        _ => spread_deadlines(rng, &mut book),
    }
    book
}

/// Few flows with few small jobs: the corners of the rules stand close here.
pub fn tiny_book(rng: &mut Rng) -> Book {
    draw_book(
        rng,
        Ranges {
            processors: 6,
            flows: 4,
            jobs: 4,
            size: 14,
        },
    )
}

/// Books as a shift has them, up to some hundreds of rows.
pub fn usual_book(rng: &mut Rng) -> Book {
    draw_book(
        rng,
        Ranges {
            processors: 100,
            flows: 12,
            jobs: 10,
            size: 300,
        },
    )
}

/// Any number of flows and jobs with sizes that keep the plan short.
pub fn wide_book(rng: &mut Rng) -> Book {
    draw_book(
        rng,
        Ranges {
            processors: u64::from(MOST_PROCESSORS),
            flows: MOST_FLOWS as u64,
            jobs: MOST_JOBS as u64,
            size: 2_000,
        },
    )
}

/// Every field over its whole range, edges often.
pub fn edge_book(rng: &mut Rng) -> Book {
    draw_book(
        rng,
        Ranges {
            processors: u64::from(MOST_PROCESSORS),
            flows: 6,
            jobs: 12,
            size: u64::from(MOST_SIZE),
        },
    )
}

/// Critical paths of up to 64,000,000 slots beside flows that can be planned.
pub fn long_path_book(rng: &mut Rng) -> Book {
    let mut book = usual_book(rng);
    let jobs = rng.range(1, MOST_JOBS as u64) as usize;
    let size = rng.pick(&[MOST_SIZE, MOST_SIZE - 1, 100_000, 8_193, 8_192]);
    let cap = rng.pick(&[1, 1, 1, book.processors]);
    let deadline = rng.range(1, u64::from(MOST_DEADLINE)) as u32;
    let jobs = (0..jobs).map(|job| Job {
        size,
        cap,
        precedence: precedence(rng, Shape::Chain, job, jobs),
    });
    let long = Flow::new(deadline, jobs.collect());
    if book.flows.len() == MOST_FLOWS {
        book.flows.pop();
    }
    let at = rng.index(book.flows.len() + 1);
    book.flows.insert(at, long);
    book
}

/// Many wide free jobs, so that rates stand far above the processors.
pub fn crowded_book(rng: &mut Rng) -> Book {
    let processors = rng.range(1, 40);
    let flows = rng.range(1, 4);
    let mut book = Book::new(processors as u32, Vec::new());
    for _ in 0..flows {
        let jobs = rng.range(2, MOST_JOBS as u64) as usize;
        let shape = rng.pick(&[Shape::Free, Shape::Layers, Shape::Sparse, Shape::ForkJoin]);
        let jobs = (0..jobs).map(|job| {
            let cap = rng.range(processors.div_ceil(2), processors);
            Job {
                size: rng.range(1, 4 * cap) as u32,
                cap: cap as u32,
                precedence: precedence(rng, shape, job, jobs),
            }
        });
        book.flows.push(Flow::new(1, jobs.collect()));
    }
    if rng.chance(1, 2) {
        draw_deadlines(rng, &mut book, Deadlines::Fair);
    } else {
        spread_deadlines(rng, &mut book);
    }
    book
}

/// Much work on many processors: rates up to 64 x 4,096 and pseudo-jobs of up to
/// 64,000,000 units, about as much as 8,192 slots can hold.
pub fn heavy_book(rng: &mut Rng) -> Book {
    let processors = rng.pick(&[1_000, 4_095, 4_096]);
    let flows = rng.range(1, 3);
    let room = processors * 8_192 * rng.range(1, 5) / 4 / flows;
    let mut book = Book::new(processors as u32, Vec::new());
    for _ in 0..flows {
        let jobs = rng.range(8, MOST_JOBS as u64) as usize;
        let shape = rng.pick(&[Shape::Free, Shape::Free, Shape::Layers, Shape::ForkJoin]);
        let least_cap = rng.pick(&[100, processors / 2, processors]);
        let jobs = (0..jobs).map(|job| {
            let size = (room / jobs as u64).min(u64::from(MOST_SIZE) - 9) + rng.below(9);
            Job {
                size: size.max(1) as u32,
                cap: rng.range(least_cap, processors) as u32,
                precedence: precedence(rng, shape, job, jobs),
            }
        });
        let jobs = jobs.collect();
        let deadline = rng.range(3_000, u64::from(MOST_DEADLINE)) as u32;
        book.flows.push(Flow::new(deadline, jobs));
    }
    book
}

/// The most flows of the most jobs.
pub fn full_book(rng: &mut Rng) -> Book {
    let processors = rng.pick(&[64, 100, 500, 1_000, 4_096]);
    let mut book = Book::new(processors, Vec::new());
    for _ in 0..MOST_FLOWS {
        let shape = rng.pick(&SHAPES);
        let jobs = (0..MOST_JOBS).map(|job| {
            let cap = rng.skewed(1, u64::from(processors).min(64));
            Job {
                size: (cap * rng.range(1, 3) + rng.below(2)) as u32,
                cap: cap as u32,
                precedence: precedence(rng, shape, job, MOST_JOBS),
            }
        });
        book.flows.push(Flow::new(1, jobs.collect()));
    }
    spread_deadlines(rng, &mut book);
    if rng.chance(3, 4) {
        for flow in &mut book.flows {
            flow.deadline = (flow.deadline + 400).min(MOST_DEADLINE);
        }
    }
    book
}

/// A book with one flow that is infeasible, first or last in service order or
/// anywhere.
pub fn infeasible_book(rng: &mut Rng) -> Book {
    let mut book = if rng.chance(1, 2) {
        tiny_book(rng)
    } else {
        usual_book(rng)
    };
    if book.flows.is_empty() {
        let job = Job {
            size: 3,
            cap: 1,
            precedence: 0,
        };
        book.flows.push(Flow::new(1, vec![job]));
    }
    for flow in &mut book.flows {
        flow.deadline = (flow.deadline * 2).min(MOST_DEADLINE);
    }
    let order = book.service_order();
    let victim = match rng.below(3) {
        0 => order[0],
        1 => order[order.len() - 1],
        _ => rng.pick(&order),
    };
    let flow = &mut book.flows[victim];
    let size = (2 * flow.deadline + 1).min(MOST_SIZE);
    let job = rng.index(flow.jobs.len());
    flow.jobs[job].size = size;
    flow.jobs[job].cap = 1;
    book
}

/// The largest table that a plan can have: every flow uses every slot with
/// every job.
pub fn largest_book() -> Book {
    layered_book(MOST_FLOWS, MOST_JOBS, 8_192)
}

/// Free jobs of one processor, each running in every slot: `flows` x `jobs` x
/// `slots` rows. The slots must be even.
pub fn layered_book(flows: usize, jobs: usize, slots: u32) -> Book {
    let job = Job {
        size: slots,
        cap: 1,
        precedence: 0,
    };
    let flow = Flow::new(slots / 2, vec![job; jobs]);
    Book::new((flows * jobs) as u32, vec![flow; flows])
}

/// The same as version 2, each flow released in the slot before its deadline and
/// running in every slot from there on.
pub fn late_layered_book(flows: usize, jobs: usize, slots: u32) -> Book {
    let mut book = layered_book(flows, jobs, slots);
    book.version = Version::Two;
    for flow in &mut book.flows {
        flow.release = flow.deadline - 1;
        for job in &mut flow.jobs {
            job.size = slots - flow.release;
        }
    }
    book
}

/// The one or the other, by the version.
pub fn layered_in(version: Version, flows: usize, jobs: usize, slots: u32) -> Book {
    match version {
        Version::One => layered_book(flows, jobs, slots),
        Version::Two => late_layered_book(flows, jobs, slots),
    }
}

/// The most flows of the most jobs as version 2, each released in one of the last
/// slots before its deadline: the longest book there is.
pub fn late_full_book(rng: &mut Rng) -> Book {
    let mut book = full_book(rng);
    book.version = Version::Two;
    for flow in &mut book.flows {
        flow.release = flow.deadline.saturating_sub(rng.range(1, 8) as u32);
    }
    book
}

/// A version 2 book as a shift supervisor would send it: coils that arrive one behind the
/// other and load a small cluster to a half up to nine tenths, each with a few jobs of a
/// few slots and some slack before its deadline.
pub fn shift_book(rng: &mut Rng) -> Book {
    let processors = rng.range(8, 64);
    let load = rng.range(50, 90);
    let mut book = Book::new(processors as u32, Vec::new());
    book.version = Version::Two;
    let mut work_before = 0;
    for _ in 0..rng.range(5, 40) {
        let shape = rng.pick(&SHAPES);
        let jobs = rng.range(2, 8) as usize;
        let jobs = (0..jobs).map(|job| {
            let cap = rng.range(1, processors / 2);
            Job {
                size: (cap * rng.range(1, 6) - rng.below(cap)) as u32,
                cap: cap as u32,
                precedence: precedence(rng, shape, job, jobs),
            }
        });
        let mut flow = Flow::new(1, jobs.collect());
        let path = critical_path(&flow, book.processors);
        let release = 100 * work_before / (load * processors);
        let deadline = release + path + rng.range(path / 2, 2 * path) + 1;
        flow.deadline = deadline.min(u64::from(MOST_DEADLINE)) as u32;
        flow.release = release.min(u64::from(flow.deadline) - 1) as u32;
        work_before += work(&flow);
        book.flows.push(flow);
    }
    book
}

/// A book of any family that is quick to plan.
pub fn any_book(rng: &mut Rng) -> Book {
    match rng.below(32) {
        0..=13 => tiny_book(rng),
        14..=22 => usual_book(rng),
        23 => wide_book(rng),
        24 => edge_book(rng),
        25 => long_path_book(rng),
        26..=28 => crowded_book(rng),
        _ => infeasible_book(rng),
    }
}

/// The version that a book says it has; any other is taken as version 1.
fn version_of(bytes: &[u8]) -> Version {
    let version = bytes.get(4).and_then(|&byte| Version::of_byte(byte));
    version.unwrap_or(Version::One)
}

/// Where the heads and records of a book start, as its own version and counts
/// say.
pub fn marks(bytes: &[u8]) -> (Vec<usize>, Vec<usize>) {
    let flow_head = version_of(bytes).flow_head();
    let (mut heads, mut records) = (Vec::new(), Vec::new());
    let mut at = BOOK_HEAD;
    while at + flow_head <= bytes.len() {
        heads.push(at);
        at += flow_head;
        let jobs = bytes[at - 1] as usize;
        for _ in 0..jobs {
            if at + JOB_RECORD <= bytes.len() {
                records.push(at);
            }
            at += JOB_RECORD;
        }
    }
    (heads, records)
}

fn put(bytes: &mut [u8], at: usize, field: &[u8]) {
    if let Some(room) = bytes.get_mut(at..at + field.len()) {
        room.copy_from_slice(field);
    }
}

fn put16(bytes: &mut [u8], at: usize, value: u64) {
    put(bytes, at, &(value as u16).to_be_bytes());
}

fn put32(bytes: &mut [u8], at: usize, value: u64) {
    put(bytes, at, &(value as u32).to_be_bytes());
}

/// Damages the head of a flow in one field, in version 2 also in two, so that
/// 22 stands beside 6 and 7.
fn damage_head(rng: &mut Rng, version: Version, head: &mut [u8]) {
    let (in_deadline, in_release, in_jobs) = match version {
        Version::One => rng.pick(&[(true, false, false), (false, false, true)]),
        Version::Two => rng.pick(&[
            (true, false, false),
            (false, true, false),
            (false, true, false),
            (false, false, true),
            (true, true, false),
            (false, true, true),
        ]),
    };
    if in_deadline {
        put16(head, 0, rng.pick(&[0, 4_097, 65_535, 4_096, 1]));
    }
    if in_release {
        let deadline = u64::from(be16(head, 0));
        let near = [deadline.wrapping_sub(1), deadline, deadline + 1];
        let any = rng.below(65_536);
        let far = [0, 1, 4_096, 65_535, any];
        let value = if rng.chance(1, 2) {
            rng.pick(&near)
        } else {
            rng.pick(&far)
        };
        put16(head, 2, value);
    }
    if in_jobs {
        let at = head.len() - 1;
        let now = head[at];
        let value = rng.pick(&[0, 65, 255, 64, now.wrapping_add(1), now.wrapping_sub(1)]);
        put(head, at, &[value]);
    }
}

/// Damages a book in one place.
pub fn damage_book_once(rng: &mut Rng, bytes: &mut Vec<u8>) {
    let version = version_of(bytes);
    let (heads, records) = marks(bytes);
    match rng.below(17) {
        0 => put(bytes, 4, &[rng.pick(&[0, 1, 2, 3, 255])]),
        1 => {
            let value = rng.pick(&[0, 4_097, 65_535, 1, 2, 4_096, 256]);
            put16(bytes, 5, value);
        }
        2 => {
            let value = rng.pick(&[65, 255, 64, 0, 1, 128]);
            put(bytes, 7, &[value]);
        }
        3 if bytes.len() > 7 => bytes[7] = bytes[7].wrapping_add(rng.pick(&[1, 255])),
        4 | 5 if !heads.is_empty() => {
            let at = rng.pick(&heads);
            damage_head(rng, version, &mut bytes[at..at + version.flow_head()]);
        }
        6 | 7 if !records.is_empty() => {
            let at = rng.pick(&records);
            let value = rng.pick(&[0, 1_000_001, 0xffff_ffff, 1_000_000, 1, 0x0100_0000]);
            put32(bytes, at, value);
        }
        8 | 9 if !records.is_empty() => {
            let at = rng.pick(&records);
            // Only 0 is a fault; the others stand at the edges of what is used.
            let processors = u64::from(be16(bytes, 5));
            let below = processors.saturating_sub(1);
            let edges = [1, below, processors, processors + 1, 65_535];
            let value = if rng.chance(1, 2) {
                0
            } else {
                rng.pick(&edges)
            };
            put16(bytes, at + 4, value);
        }
        10 | 11 if !records.is_empty() => {
            let at = rng.pick(&records);
            let bit = rng.below(64);
            bytes[at + 6 + (7 - bit as usize / 8)] |= 1 << (bit % 8);
        }
        12 => {
            let length = rng.index(bytes.len() + 1);
            bytes.truncate(length);
        }
        13 => {
            let extra = rng.range(1, 20);
            for _ in 0..extra {
                bytes.push(rng.draw() as u8);
            }
        }
        14 => {
            // Cuts or lengthens by a few bytes at the end only.
            let length = bytes.len().saturating_sub(rng.range(1, 18) as usize);
            bytes.truncate(length);
        }
        15 if !heads.is_empty() => {
            // Cuts within a flow's head.
            let at = rng.pick(&heads);
            bytes.truncate(at + rng.index(version.flow_head()));
        }
        _ => {
            if !bytes.is_empty() {
                let at = rng.index(bytes.len());
                bytes[at] ^= 1 << rng.below(8);
            }
        }
    }
}

/// Damages a book in one to three places; the length field is mostly made to
/// fit again.
pub fn damage_book(rng: &mut Rng, bytes: &mut Vec<u8>) {
    for _ in 0..rng.pick(&[1, 1, 1, 2, 3]) {
        damage_book_once(rng, bytes);
    }
    if rng.chance(7, 8) {
        fit_length(bytes);
    }
}

/// Bytes that are no book, or hardly one.
pub fn random_bytes(rng: &mut Rng, most: usize) -> Vec<u8> {
    let mut bytes = vec![0; rng.range(0, most as u64) as usize];
    if rng.chance(1, 2) {
        rng.fill(&mut bytes);
    } else {
        for byte in &mut bytes {
            *byte = rng.pick(&[0, 0, 0, 1, 1, 2, 3, 64, 255]);
        }
    }
    if rng.chance(3, 4) {
        fit_length(&mut bytes);
    }
    if rng.chance(3, 4) {
        let version = rng.pick(&[1, 2]);
        put(&mut bytes, 4, &[version]);
    }
    if rng.chance(1, 2) {
        put(&mut bytes, 5, &[0, 4]);
    }
    bytes
}
