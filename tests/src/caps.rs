//! Caps of every kind about P, each with the whole outcome that is owed: plans of
//! one job and of two beside each other, and tables whose rows stand about the cap
//! as used and about P; held against any planner and any check.

use crate::answer::{Refusal, NONE};
use crate::books::{encode_book, encode_table};
use crate::marked::{checked, not_checked, not_planned, planned, Check, Planner};
use crate::reader::{Book, Flow, Job, Version, VERSIONS};
use crate::second_check::Row;

const PROCESSORS: [u16; 6] = [1, 2, 3, 100, 4_095, 4_096];

/// A cap as it stands, and as it is used.
#[derive(Clone, Copy)]
struct Cap {
    processors: u16,
    stands: u16,
    used: u16,
}

/// Each P with each cap but 0.
fn each(mut hold: impl FnMut(Cap)) {
    for processors in PROCESSORS {
        let near = [processors - 1, processors, processors + 1, processors + 2];
        let far = [1, 4_095, 4_096, 4_097, 32_768, 65_534, 65_535];
        for stands in near.into_iter().chain(far).filter(|&cap| cap > 0) {
            let used = if stands > processors {
                processors
            } else {
                stands
            };
            hold(Cap {
                processors,
                stands,
                used,
            });
        }
    }
}

fn job(size: u32, cap: u16, precedence: u64) -> Job {
    Job {
        size,
        cap: u32::from(cap),
        precedence,
    }
}

/// A book of one flow.
fn book(version: Version, processors: u16, [deadline, release]: [u16; 2], jobs: &[Job]) -> Vec<u8> {
    let mut flow = Flow::new(u32::from(deadline), jobs.to_vec());
    flow.release = u32::from(release);
    encode_book(&Book {
        version,
        ..Book::new(u32::from(processors), vec![flow])
    })
}

/// A table of one flow from slot, job and take of its rows.
fn table(processors: u16, finish: u16, listed: &[[u16; 3]]) -> Vec<u8> {
    let row = |&[slot, job, take]: &[u16; 3]| Row {
        slot,
        flow: 0,
        job: job as u8,
        take,
    };
    let rows: Vec<Row> = listed.iter().map(row).collect();
    encode_table(processors, &[finish], &rows)
}

/// One job of up to three slots: its cap as used in each, then the rest.
fn hold_lone_job(plan: Planner, version: Version, cap: Cap) {
    let Cap {
        processors,
        stands,
        used,
    } = cap;
    let sizes = [1, used, used + 1, 2 * used, 2 * used + 1, 3 * used];
    for size in sizes {
        for deadline in [1, 2, 3] {
            let releases = match version {
                Version::One => vec![0],
                Version::Two => vec![0, deadline - 1],
            };
            for release in releases {
                let jobs = [job(u32::from(size), stands, 0)];
                let book = book(version, processors, [deadline, release], &jobs);
                let mut uses = vec![0; release as usize];
                let mut left = size;
                while left > 0 {
                    let take = left.min(used);
                    uses.push(take);
                    left -= take;
                }
                let finish = uses.len() as u16;
                if finish > 2 * deadline {
                    not_planned(plan, &book, 100, Refusal::new(12, 0, NONE));
                    continue;
                }
                let rows: Vec<[u16; 3]> = (release..finish)
                    .map(|slot| [slot, 0, uses[slot as usize]])
                    .collect();
                let table = table(processors, finish, &rows);
                let late = u8::from(finish + 1 > deadline);
                planned(plan, &book, &table, late, &uses);
            }
        }
    }
}

/// Two free jobs that last two slots, job 1 at one processor. The units of their run
/// are dealt out one after another, at most P to a slot. Here a cap that is not
/// lowered gives other rows; for a job alone it would not.
fn hold_jobs_beside(plan: Planner, version: Version, cap: Cap) {
    let Cap {
        processors,
        stands,
        used,
    } = cap;
    let jobs = [job(2 * u32::from(used), stands, 0), job(2, 1, 0)];
    let book = book(version, processors, [3, 0], &jobs);
    let in_slot = [vec![0; used as usize], vec![1]].concat();
    let gets = in_slot.len().min(processors as usize);
    let (mut rows, mut uses) = (Vec::new(), Vec::new());
    for units in in_slot.repeat(2).chunks(gets) {
        for job in [0, 1] {
            let take = units.iter().filter(|&&unit| unit == job).count() as u16;
            if take > 0 {
                rows.push([uses.len() as u16, job, take]);
            }
        }
        uses.push(units.len() as u16);
    }
    let finish = uses.len() as u16;
    let table = table(processors, finish, &rows);
    planned(plan, &book, &table, u8::from(finish + 1 > 3), &uses);
}

/// Job 0 of one unit, then job 1 for two slots at its cap as used.
fn hold_tables(check: Check, version: Version, cap: Cap) {
    let Cap {
        processors,
        stands,
        used,
    } = cap;
    let (from, release) = match version {
        Version::One => (1, 0),
        Version::Two => (3, 3),
    };
    let jobs = [job(1, 1, 0), job(2 * u32::from(used), stands, 1)];
    let book = book(version, processors, [9, release], &jobs);
    let finish = from + 3;
    let whole = [[from, 0, 1], [from + 1, 1, used], [from + 2, 1, used]];
    let mut uses = vec![0; from as usize];
    uses.extend([1, used, used]);
    checked(check, &book, &table(processors, finish, &whole), 0, &uses);

    let refused = |rows: &[[u16; 3]], number| {
        let table = table(processors, finish, rows);
        not_checked(check, &book, &table, Refusal::new(number, 0, 1));
    };
    let below = [used - 1, processors - 1];
    let at = [0, 1, used, processors, stands, 65_535];
    let above = [used + 1, processors + 1, processors + 2];
    for take in below.into_iter().chain(at).chain(above) {
        // What comes before 18, and what is owed beside the unit of job 0.
        let in_row = match take {
            0 => Some(15),
            _ if take > used => Some(17),
            _ => None,
        };
        let beside = in_row.unwrap_or(if take == processors { 18 } else { 19 });
        let [first, second, third] = whole;
        // In its place, in the first and in the second of its slots.
        if take != used {
            let [slot, job, _] = second;
            refused(&[first, [slot, job, take], third], in_row.unwrap_or(20));
            let [slot, job, _] = third;
            refused(&[first, second, [slot, job, take]], in_row.unwrap_or(20));
        }
        // In the slot of job 0, and before it, which in version 2 is before the
        // release.
        refused(&[first, [from, 1, take], third], beside);
        refused(&[[from - 1, 1, take], first, third], in_row.unwrap_or(19));
        // The same row again.
        let again = if take == 0 { 15 } else { 16 };
        let [slot, job, _] = second;
        refused(&[first, second, [slot, job, take]], again);
    }
}

/// Faults of a record, with the refusal owed to job 1: 9 only for a cap of 0,
/// after 8 and before 10.
fn each_record(mut hold: impl FnMut(&[u8], Refusal)) {
    for version in VERSIONS {
        each(|cap| {
            let stands = cap.stands;
            let mut owed = |second: Job, number| {
                let jobs = [job(1, stands, 0), second];
                let book = book(version, cap.processors, [9, 0], &jobs);
                hold(&book, Refusal::new(number, 0, 1));
            };
            owed(job(1, 0, 1), 9);
            owed(job(0, 0, 1), 8);
            owed(job(1, 0, 2), 9);
            owed(job(1, stands, 2), 10);
            owed(job(0, stands, 1), 8);
        });
    }
}

/// Holds the caps against a planner.
pub fn hold_planner(plan: Planner) {
    each_record(|book, refusal| not_planned(plan, book, 100, refusal));
    for version in VERSIONS {
        each(|cap| {
            hold_lone_job(plan, version, cap);
            hold_jobs_beside(plan, version, cap);
        });
    }
}

/// Holds the caps against a check.
pub fn hold_check(check: Check) {
    let any = table(1, 1, &[[0, 0, 1]]);
    each_record(|book, refusal| not_checked(check, book, &any, refusal));
    for version in VERSIONS {
        each(|cap| hold_tables(check, version, cap));
    }
}
