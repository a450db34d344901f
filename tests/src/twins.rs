//! Twins: the same values as a version 1 book and as a version 2 book with every
//! release 0, faulty or not. Any planner and any check must answer alike for
//! both, and leave output and work area alike.

use crate::answer::{NUMBERS, WORK_BYTES};
use crate::books::{self, encode_book, fit_length};
use crate::calendars;
use crate::marked::{Check, Planner};
use crate::reader::{Book, Version, BOOK_HEAD, JOB_RECORD, VERSIONS};
use crate::rng::Rng;
use crate::tables;

/// Puts one value of a book out of its range or to an edge of it.
fn damage_value(rng: &mut Rng, book: &mut Book) {
    if book.flows.is_empty() || rng.chance(1, 8) {
        book.processors = rng.pick(&[0, 4_097, 65_535, 1]);
        return;
    }
    let at = rng.index(book.flows.len());
    if rng.chance(1, 8) {
        let again = book.flows[at].clone();
        book.flows.resize(rng.range(64, 70) as usize, again);
        return;
    }
    let flow = &mut book.flows[at];
    let job = rng.index(flow.jobs.len());
    match rng.below(5) {
        0 => flow.deadline = rng.pick(&[0, 4_097, 65_535, 1, 4_096]),
        1 => {
            let again = flow.jobs[job];
            flow.jobs.resize(rng.pick(&[0, 64, 65, 255]), again);
        }
        2 => flow.jobs[job].size = rng.pick(&[0, 1_000_001, u32::MAX, 1, 1_000_000]),
        3 => {
            let processors = book.processors;
            flow.jobs[job].cap = rng.pick(&[0, 0, processors, processors + 1, 65_535]);
        }
        _ => flow.jobs[job].precedence |= 1 << rng.below(64),
    }
}

/// Where both books end when they are cut: in the head of a flow or in its jobs.
struct Cut {
    flow: usize,
    /// Bytes of its jobs that stay; nothing where the head is cut.
    of_jobs: Option<usize>,
}

impl Cut {
    fn drawn(rng: &mut Rng, book: &Book) -> Cut {
        let flow = rng.index(book.flows.len());
        let jobs = JOB_RECORD * book.flows[flow].jobs.len();
        let in_jobs = rng.chance(1, 2);
        Cut {
            flow,
            of_jobs: in_jobs.then(|| rng.index(jobs + 1)),
        }
    }

    fn length(&self, rng: &mut Rng, version: Version, book: &Book) -> usize {
        let before = book.flows[..self.flow].iter();
        let before = before.map(|flow| version.flow_head() + JOB_RECORD * flow.jobs.len());
        let head = BOOK_HEAD + before.sum::<usize>();
        match self.of_jobs {
            Some(kept) => head + version.flow_head() + kept,
            None => head + rng.index(version.flow_head()),
        }
    }
}

/// The twins of a book, whose releases must be 0: with its values as they are or
/// one of them damaged, whole or cut in the same place, with the same bytes
/// left over or a length field that is off alike.
pub fn twins(rng: &mut Rng, book: &Book) -> [Vec<u8>; 2] {
    let mut book = book.clone();
    if rng.chance(1, 3) {
        damage_value(rng, &mut book);
    }
    let mut twins = VERSIONS.map(|version| {
        book.version = version;
        encode_book(&book)
    });
    match rng.below(16) {
        0 | 1 if !book.flows.is_empty() => {
            let cut = Cut::drawn(rng, &book);
            for (bytes, version) in twins.iter_mut().zip(VERSIONS) {
                bytes.truncate(cut.length(rng, version, &book));
                fit_length(bytes);
            }
        }
        2 => {
            let mut extra = vec![0; rng.range(1, 20) as usize];
            rng.fill(&mut extra);
            for bytes in &mut twins {
                bytes.extend(&extra);
                fit_length(bytes);
            }
        }
        3 => {
            let off = rng.pick(&[1, u32::MAX, 1 << 24]);
            for bytes in &mut twins {
                let length = (bytes.len() as u32).wrapping_add(off);
                bytes[..4].copy_from_slice(&length.to_be_bytes());
            }
        }
        _ => {}
    }
    twins
}

/// Holds drawn twins against a planner and a check.
pub fn hold(plan: Planner, check: Check, seed: u64, cases: usize) {
    let mut rng = Rng::new(seed);
    let mut by_plan = [0u64; NUMBERS];
    let mut by_check = [0u64; NUMBERS];
    for _ in 0..cases {
        let book = match rng.below(8) {
            0 => books::any_book(&mut rng),
            _ => books::tiny_book(&mut rng),
        };
        let book = books::with_caps(&mut rng, book);
        let calendar = calendars::valid(&mut rng, &book);
        let lent = calendars::lent(&mut rng, &calendar);
        let of_twins = twins(&mut rng, &book);
        let room = rng.skewed(0, 1 << 14) as usize;
        let work_length = WORK_BYTES + 3 - rng.pick(&[0, 0, 0, 4]);

        let planned = of_twins.each_ref().map(|book| {
            let mut output = vec![0x3c; room];
            let mut work = vec![0x3c; work_length];
            (plan(book, &lent, &mut output, &mut work), output, work)
        });
        assert!(planned[0] == planned[1], "books {of_twins:02x?}");
        by_plan[planned[0].0.number as usize] += 1;

        let Some(table) = tables::either_table(&mut rng, &book, &calendar) else {
            continue;
        };
        let table = if rng.chance(1, 3) {
            table.encode(&book)
        } else {
            tables::damaged(&mut rng, &book, &calendar, &table)
        };
        let checked = of_twins.each_ref().map(|book| {
            let mut work = vec![0x3c; work_length];
            (check(book, &lent, &table, &mut work), work)
        });
        assert!(
            checked[0] == checked[1],
            "books {of_twins:02x?}\ntable {table:02x?}"
        );
        by_check[checked[0].0.number as usize] += 1;
    }
    println!("numbers met by the planner on twins: {by_plan:?}");
    println!("numbers met by the check on twins: {by_check:?}");
    // Both versions are known, so there is no 2, and no release, so no 22.
    for number in [0, 1].into_iter().chain(3..=13).chain([24]) {
        assert!(by_plan[number] > 0, "number {number} was never met");
    }
    for number in [0, 1]
        .into_iter()
        .chain(3..=11)
        .chain(14..=21)
        .chain([24, 25])
    {
        assert!(by_check[number] > 0, "number {number} was never met");
    }
}
