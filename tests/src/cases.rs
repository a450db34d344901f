//! What the benchmarks measure: books for the planner and for the finish of one flow,
//! and books whose plans are the tables of the check and of the dispatch list, each
//! with its calendar, mostly one without windows, and how often it is measured.

use crate::books::{full_book, largest_book, late_full_book, layered_book, usual_book, Family};
use crate::calendar::{Calendar, Window, MOST_WINDOWS};
use crate::calendars::stretched;
use crate::marked;
use crate::reader::{read_book, Book, Flow, Job};
use crate::rng::Rng;
use crate::tables;

/// One line of a benchmark.
pub struct Case {
    /// Printed before the line, where a group begins.
    pub heading: Option<&'static str>,
    pub name: String,
    pub book: Book,
    pub calendar: Calendar,
    pub rounds: usize,
    pub calls: u32,
}

fn case(name: impl Into<String>, book: Book, rounds: usize, calls: u32) -> Case {
    Case {
        heading: None,
        name: name.into(),
        book,
        calendar: Calendar::default(),
        rounds,
        calls,
    }
}

/// The same in the open slots of a calendar of 32 windows of five slots each, every
/// 25 slots.
fn in_windows(case: Case) -> Case {
    let shut = |k: u32| Window::new(25 * k + 20, 25 * k + 25);
    let calendar = Calendar {
        windows: (0..MOST_WINDOWS as u32).map(shut).collect(),
    };
    Case {
        name: format!("{}, 32 windows", case.name),
        book: stretched(&case.book, &calendar).expect("deadlines below 4,097"),
        calendar,
        ..case
    }
}

fn group(heading: &'static str, mut cases: Vec<Case>) -> Vec<Case> {
    cases[0].heading = Some(heading);
    cases
}

/// 20 flows of 10 jobs on 100 processors, as a shift has them.
fn shift_book() -> Book {
    let mut rng = Rng::new(20);
    let mut book = Book::new(100, Vec::new());
    for number in 0..20 {
        let jobs = (0..10).map(|job| Job {
            size: rng.range(20, 400) as u32,
            cap: rng.range(2, 30) as u32,
            precedence: rng.draw() & rng.draw() & ((1 << job) - 1),
        });
        let flow = Flow::new(60 + 25 * number, jobs.collect());
        book.flows.push(flow);
    }
    book
}

/// The first flow fills every processor for `slots` slots; the others wait
/// behind it with one row each.
fn queue_book(slots: u32) -> Book {
    let job = |size, cap| Job {
        size,
        cap,
        precedence: 0,
    };
    let mut flows = vec![Flow::new(slots, vec![job(slots * 100, 100)])];
    flows.resize(64, Flow::new(slots, vec![job(1, 1)]));
    Book::new(100, flows)
}

/// Jobs in `layers` layers of `width`, each after all jobs of the layer before,
/// `slots` slots to a layer.
fn waiting_book(flows: usize, layers: usize, width: usize, slots: u32) -> Book {
    let job = |number: usize| {
        let layer = number / width;
        let before = match layer {
            0 => 0,
            _ => ((1u64 << width) - 1) << ((layer - 1) * width),
        };
        Job {
            size: slots,
            cap: 1,
            precedence: before,
        }
    };
    let jobs = (0..layers * width).map(job).collect();
    let flow = Flow::new(slots * layers as u32, jobs);
    Book::new((flows * width) as u32, vec![flow; flows])
}

/// The most flows of the most jobs, each in eight lanes, on so few processors that
/// over half of the slots that a flow is given are given in part.
fn contended_book(rng: &mut Rng) -> Book {
    let mut book = Book::new(40, Vec::new());
    for _ in 0..64 {
        let deadline = 2_000 + rng.below(2_000) as u32;
        let jobs = (0..64u32).map(|job| Job {
            size: rng.range(6, 60) as u32,
            cap: rng.range(2, 40) as u32,
            precedence: job.checked_sub(8).map_or(0, |before| 1 << before),
        });
        book.flows.push(Flow::new(deadline, jobs.collect()));
    }
    book
}

/// A drawn book of several flows, with jobs that wait for others, whose table
/// has some hundred rows.
fn drawn_book(rng: &mut Rng) -> Book {
    loop {
        let book = usual_book(rng);
        let mut jobs = book.flows.iter().flat_map(|flow| &flow.jobs);
        let waits = jobs.any(|job| job.precedence != 0);
        let rows =
            tables::planned_table(&book, &Calendar::default()).map_or(0, |table| table.rows.len());
        if book.flows.len() > 3 && waits && (100..=500).contains(&rows) {
            return book;
        }
    }
}

/// The first book of a family that can be planned.
fn planned_book(rng: &mut Rng, family: Family) -> Book {
    loop {
        let book = family(rng);
        if tables::planned_table(&book, &Calendar::default()).is_some() {
            return book;
        }
    }
}

/// The planner's books.
pub fn plan_cases() -> Vec<Case> {
    let full = planned_book(&mut Rng::new(64), full_book);
    let late = planned_book(&mut Rng::new(64), late_full_book);
    let mut cases = vec![
        case("usual book, 20 flows of 10 jobs", shift_book(), 15, 200),
        in_windows(case("usual book", shift_book(), 15, 200)),
        case("full book, 64 flows of 64 jobs", full.clone(), 15, 5),
        in_windows(case("full book", full, 15, 5)),
        case("version 2, full book with late releases", late, 15, 5),
        case("largest table", largest_book(), 5, 1),
    ];
    let slots = |slots: &u32| format!("  {slots} slots");
    let growth = [64, 256, 1_024, 4_096].iter();
    cases.extend(group(
        "growth with rows, 64 flows of 64 jobs over more slots:",
        growth
            .map(|n| case(slots(n), layered_book(64, 64, *n), 7, 1))
            .collect(),
    ));
    let growth = [256, 1_024, 4_000].iter();
    cases.extend(group(
        "growth with slots, 63 flows waiting behind one:",
        growth
            .map(|n| case(slots(n), queue_book(*n), 15, 20))
            .collect(),
    ));
    cases
}

/// The books whose plans the check is given.
pub fn check_cases() -> Vec<Case> {
    let book_a = read_book(&marked::BOOK_A).expect("book A");
    let waiting = waiting_book(4, 4, 4, 6);
    let mut small = vec![
        case("  book A", book_a, 31, 1_000),
        case("  free jobs, 8 flows of 4", layered_book(8, 4, 12), 31, 500),
        case(
            "  free jobs, 30 flows of 3",
            layered_book(30, 3, 2),
            31,
            500,
        ),
        case("  4 predecessors each, 4 flows of 16", waiting, 31, 500),
    ];
    let mut rng = Rng::new(11);
    small.extend((0..3).map(|_| case("  usual book", drawn_book(&mut rng), 31, 500)));
    let mut cases = group("small tables:", small);
    let full = planned_book(&mut rng, full_book);
    let late = planned_book(&mut rng, late_full_book);
    // Another one, which has room for its windows.
    let windowed = planned_book(&mut Rng::new(64), full_book);
    let million = |layers, width| waiting_book(64, layers, width, 256);
    cases.extend(group(
        "large tables:",
        vec![
            case("  full book, 64 flows of 64 jobs", full, 31, 20),
            in_windows(case("  full book", windowed, 31, 20)),
            case("  version 2, full book with late releases", late, 31, 20),
            case(
                "  free jobs, a million rows",
                layered_book(64, 16, 1_024),
                15,
                1,
            ),
            case("  4 predecessors each", million(16, 4), 15, 1),
            case("  16 predecessors each", million(4, 16), 15, 1),
            case("  32 predecessors each", million(2, 32), 15, 1),
        ],
    ));
    let growth = [16, 64, 256, 1_024, 4_096].iter();
    cases.extend(group(
        "growth with rows, free jobs:",
        growth
            .map(|n| case("  64 flows of 16 jobs", layered_book(64, 16, *n), 7, 1))
            .collect(),
    ));
    cases
}

/// The books whose plans are listed.
pub fn dispatch_cases() -> Vec<Case> {
    let book_a = read_book(&marked::BOOK_A).expect("book A");
    let mut small = vec![
        case("  book A", book_a, 31, 1_000),
        case("  free jobs, 8 flows of 4", layered_book(8, 4, 12), 31, 500),
    ];
    let mut rng = Rng::new(11);
    small.extend((0..3).map(|_| case("  usual book", drawn_book(&mut rng), 31, 500)));
    let mut cases = group("small tables:", small);
    let full = planned_book(&mut rng, full_book);
    let late = planned_book(&mut rng, late_full_book);
    cases.extend(group(
        "usual, full and large tables:",
        vec![
            case("  usual book, 20 flows of 10 jobs", shift_book(), 31, 100),
            in_windows(case("  usual book", shift_book(), 31, 100)),
            case("  full book, 64 flows of 64 jobs", full, 31, 20),
            case("  version 2, full book with late releases", late, 31, 20),
            case(
                "  4 rows of a flow in a slot",
                waiting_book(64, 16, 4, 256),
                15,
                1,
            ),
            case(
                "  64 rows of a flow in a slot",
                layered_book(64, 64, 256),
                15,
                1,
            ),
            case("  largest table", largest_book(), 5, 1),
        ],
    ));
    let growth = [16, 256, 4_096].iter();
    cases.extend(group(
        "growth with rows, 64 flows of 16 free jobs over more slots:",
        growth
            .map(|n| case(format!("  {n} slots"), layered_book(64, 16, *n), 7, 1))
            .collect(),
    ));
    let growth = [256, 1_024, 4_000].iter();
    cases.extend(group(
        "growth with slots, 63 flows waiting behind one:",
        growth
            .map(|n| case(format!("  {n} slots"), queue_book(*n), 15, 20))
            .collect(),
    ));
    cases
}

/// The books whose flows are asked for.
pub fn finish_cases() -> Vec<Case> {
    let book_a = read_book(&marked::BOOK_A).expect("book A");
    let mut small = vec![
        case("book A", book_a, 31, 1_000),
        case("free jobs, 8 flows of 4", layered_book(8, 4, 12), 31, 500),
    ];
    let mut rng = Rng::new(11);
    small.extend((0..3).map(|_| case("drawn book", drawn_book(&mut rng), 31, 500)));
    let mut cases = group("small books:", small);
    let full = planned_book(&mut Rng::new(64), full_book);
    let late = planned_book(&mut Rng::new(64), late_full_book);
    let contended = planned_book(&mut Rng::new(64), contended_book);
    cases.extend(group(
        "usual, full and large books:",
        vec![
            case("usual book, 20 flows of 10 jobs", shift_book(), 31, 100),
            in_windows(case("usual book", shift_book(), 31, 100)),
            case("full book, 64 flows of 64 jobs", full.clone(), 31, 10),
            in_windows(case("full book", full, 31, 10)),
            case("version 2, full book with late releases", late, 31, 10),
            case("full book, slots given in part", contended, 31, 10),
            case("largest table", largest_book(), 5, 1),
        ],
    ));
    let growth = [256, 1_024, 4_000].iter();
    cases.extend(group(
        "growth with slots, 63 flows waiting behind one:",
        growth
            .map(|n| case(format!("{n} slots"), queue_book(*n), 15, 20))
            .collect(),
    ));
    cases
}
