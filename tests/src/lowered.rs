//! The lowered book: the same bytes with each cap above P made P. Any planner and
//! any check must answer alike for a book and its lowered book, faulty or not, and
//! leave output and work area alike.

use crate::answer::{NUMBERS, WORK_BYTES};
use crate::books::{self, encode_book};
use crate::calendars;
use crate::lent::{Junk, Lent};
use crate::marked::{Check, Planner};
use crate::reader::{be16, read_book, Version, BOOK_HEAD};
use crate::rng::Rng;
use crate::second_planner::{self, Outcome};
use crate::tables::{self, WideRows};

/// The lowered book of any bytes, made from the bytes alone.
pub fn lowered(book: &[u8]) -> Vec<u8> {
    let mut bytes = book.to_vec();
    if bytes.len() < BOOK_HEAD {
        return bytes;
    }
    let processors = be16(&bytes, 5);
    let (_, records) = books::marks(&bytes);
    for record in records {
        if be16(&bytes, record + 4) > processors {
            bytes[record + 4..record + 6].copy_from_slice(&(processors as u16).to_be_bytes());
        }
    }
    bytes
}

/// Where a book passes its checks: its lowered book has the same values but for
/// the caps above P, and is the book itself where there are none.
fn hold_values(book: &[u8], lowered: &[u8]) {
    let Ok(mut values) = read_book(book) else {
        return;
    };
    assert_eq!(lowered != book, books::has_cap_above(&values));
    for job in values.flows.iter_mut().flat_map(|flow| &mut flow.jobs) {
        if job.cap > values.processors {
            job.cap = values.processors;
        }
    }
    assert_eq!(read_book(lowered), Ok(values));
}

/// Lengths of a buffer of which a call uses `length` bytes: too short, exact and
/// longer.
fn lengths(rng: &mut Rng, length: usize) -> [usize; 4] {
    let short = rng.index(length);
    let longer = length + 1 + rng.index(300);
    [short, length - 1, length, longer]
}

/// Holds drawn books of a version and their lowered books against a planner and a
/// check.
pub fn hold(plan: Planner, check: Check, version: Version, seed: u64, cases: usize) {
    let mut rng = Rng::new(seed);
    let junk = Junk::new(!seed);
    // What was answered for books that are their own lowered books, and for the
    // others.
    let mut by_plan = [[0u64; NUMBERS]; 2];
    let mut by_check = [[0u64; NUMBERS]; 2];
    let mut wide_rows = WideRows::default();
    for _ in 0..cases {
        let family = match rng.below(4) {
            0 => books::any_book,
            _ => books::tiny_book,
        };
        let values = books::drawn(&mut rng, version, family);
        let (values, calendar) = calendars::with_calendar(&mut rng, values);
        let lent = calendars::lent(&mut rng, &calendar);
        let mut book = encode_book(&values);
        let damaged = rng.chance(1, 8);
        if damaged {
            books::damage_book(&mut rng, &mut book);
        }
        let pair = [&book, &lowered(&book)];
        hold_values(pair[0], pair[1]);
        let changed = usize::from(pair[0] != pair[1]);

        let room = match second_planner::outcome(&book, &lent) {
            Outcome::Planned(plan) => plan.table.len(),
            _ => 100,
        };
        let [short, less, exact, longer] = lengths(&mut rng, WORK_BYTES);
        let works = [short, less, exact, exact, longer, longer];
        for room in lengths(&mut rng, room) {
            let output = Lent::junk(&mut rng, &junk, room);
            let length = rng.pick(&works);
            let work = Lent::junk(&mut rng, &junk, length);
            let ends = pair.map(|book| {
                let (mut output, mut work) = (output.clone(), work.clone());
                let answer = plan(book, &lent, output.slice(), work.slice());
                (answer, output, work)
            });
            let answers = (ends[0].0, ends[1].0);
            assert!(ends[0] == ends[1], "{answers:?} of book {book:02x?}");
            by_plan[changed][answers.0.number as usize] += 1;
        }

        let Some(valid) = tables::either_table(&mut rng, &values, &calendar) else {
            continue;
        };
        for case in 0..4 {
            let table = match case {
                0 => valid.encode(&values),
                _ => tables::damaged(&mut rng, &values, &calendar, &valid),
            };
            let length = rng.pick(&works);
            let work = Lent::junk(&mut rng, &junk, length);
            let ends = pair.map(|book| {
                let mut work = work.clone();
                (check(book, &lent, &table, work.slice()), work)
            });
            let answer = ends[0].0;
            let answers = (answer, ends[1].0);
            assert!(
                ends[0] == ends[1],
                "{answers:?} of book {book:02x?}\ntable {table:02x?}"
            );
            by_check[changed][answer.number as usize] += 1;
            if !damaged {
                wide_rows.count(&values, &table, answer);
            }
        }
    }
    println!("{version:?}, numbers met without caps above P, and with some");
    println!("by the planner: {by_plan:?}");
    println!("by the check: {by_check:?}");
    wide_rows.hold();
    let faults = || version.faults().iter().copied().chain([0, 11, 24]);
    for number in faults().chain([12, 13]) {
        let met = by_plan.map(|met| met[number as usize]);
        assert!(met[0] > 0 && met[1] > 0, "{number} was never met");
    }
    for number in faults().chain(14..=21).chain([25]) {
        let met = by_check.map(|met| met[number as usize]);
        assert!(met[0] > 0 && met[1] > 0, "{number} was never met");
    }
}
