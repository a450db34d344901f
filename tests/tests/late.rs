//! Late flows (02, Req 06): results reach the stands one slot after a flow's finish, so
//! a flow is late when its finish plus 1 is greater than its deadline. Books and tables
//! made here, about every edge of that, are held against every planner and every check;
//! drawn ones against the proved ones.

use flowplan_tests::answer::{Refusal, NONE, SLOTS, WORK_BYTES};
use flowplan_tests::books::{self, encode_book};
use flowplan_tests::calendars;
use flowplan_tests::edges::Edges;
use flowplan_tests::lent::{Junk, Lent};
use flowplan_tests::marked::{checked, not_planned, planned, Check, Planner};
use flowplan_tests::reader::{be16, Book, Flow, Job, Version, MOST_DEADLINE, VERSIONS};
use flowplan_tests::rng::Rng;
use flowplan_tests::second_check::{self, Row, FINISH, TABLE_HEAD};
use flowplan_tests::tables::{self, Table};
use flowplan_tests::{fast_planner, linked, linked_plan, second_planner};

const PLANNERS: [Planner; 3] = [linked_plan::plan, second_planner::plan, fast_planner::plan];
const CHECKS: [Check; 3] = [
    linked::check,
    second_check::check,
    second_check::check_by_definition,
];

/// A flow of one job with cap 1, which has its processor in each slot of `from..finish`.
struct Run {
    deadline: u32,
    release: u32,
    from: u32,
    finish: u32,
}

impl Run {
    fn flow(&self) -> Flow {
        let job = Job {
            size: self.finish - self.from,
            cap: 1,
            precedence: 0,
        };
        Flow {
            release: self.release,
            ..Flow::new(self.deadline, vec![job])
        }
    }

    fn is_late(&self) -> bool {
        self.finish + 1 > self.deadline
    }
}

/// Holds runs of one version against every planner and check, and counts the edges.
struct Trial {
    version: Version,
    planned: Edges,
    checked: Edges,
}

/// A book of runs with its table, its late flows and the use of each slot.
struct Made {
    values: Book,
    book: Vec<u8>,
    table: Vec<u8>,
    late: u8,
    used: Vec<u16>,
}

impl Trial {
    fn new(version: Version) -> Trial {
        Trial {
            version,
            planned: Edges::default(),
            checked: Edges::default(),
        }
    }

    fn made(&self, processors: u32, runs: &[Run]) -> Made {
        let values = Book {
            version: self.version,
            ..Book::new(processors, runs.iter().map(Run::flow).collect())
        };
        let mut rows = Vec::new();
        let last = runs.iter().map(|run| run.finish).max();
        let mut used = vec![0; last.unwrap_or(0) as usize];
        for (flow, run) in runs.iter().enumerate() {
            for slot in run.from..run.finish {
                used[slot as usize] += 1;
                rows.push(Row {
                    slot: slot as u16,
                    flow: flow as u8,
                    job: 0,
                    take: 1,
                });
            }
        }
        tables::sort_rows(&values, &mut rows);
        let finishes = runs.iter().map(|run| run.finish as u16).collect();
        Made {
            book: encode_book(&values),
            table: Table { finishes, rows }.encode(&values),
            values,
            late: runs.iter().filter(|run| run.is_late()).count() as u8,
            used,
        }
    }

    /// The planner gives these runs, or 12 where one passes twice its deadline.
    fn plan(&mut self, processors: u32, runs: &[Run]) {
        let made = self.made(processors, runs);
        let mut order = made.values.service_order().into_iter();
        let passes = |&flow: &usize| runs[flow].finish > 2 * runs[flow].deadline;
        let refused = order.find(passes);
        for plan in PLANNERS {
            match refused {
                Some(flow) => {
                    let refusal = Refusal::new(12, flow as u8, NONE);
                    not_planned(plan, &made.book, made.table.len(), refusal);
                }
                None => planned(plan, &made.book, &made.table, made.late, &made.used),
            }
        }
        if refused.is_none() {
            self.planned.count(&made.book, &made.table);
        }
    }

    /// The check accepts these runs, also beyond twice a deadline.
    fn check(&mut self, processors: u32, runs: &[Run]) {
        let made = self.made(processors, runs);
        for check in CHECKS {
            checked(check, &made.book, &made.table, made.late, &made.used);
        }
        self.checked.count(&made.book, &made.table);
    }

    /// One flow that ends at a finish: as it is planned, and in tables with all of its
    /// slots and with its last slot alone.
    fn end_at(&mut self, deadline: u32, release: u32, finish: u32) {
        let run = |from| Run {
            deadline,
            release,
            from,
            finish,
        };
        self.plan(1, &[run(release)]);
        if finish <= SLOTS as u32 {
            self.check(1, &[run(release)]);
            self.check(1, &[run(finish - 1)]);
        }
    }

    fn hold(&self, of: &str) {
        let version = self.version;
        self.planned.hold(&format!("{version:?}, {of}, planned"));
        self.checked.hold(&format!("{version:?}, {of}, checked"));
    }
}

/// Every finish of one flow up to twice its deadline, which is planned and late, and one
/// slot more, which is 12; in version 2 with every release.
#[test]
fn every_finish_about_small_deadlines() {
    for version in VERSIONS {
        let mut trial = Trial::new(version);
        for deadline in 1..=9 {
            let releases = match version {
                Version::One => 0..1,
                Version::Two => 0..deadline,
            };
            for release in releases {
                for finish in release + 1..=2 * deadline + 1 {
                    trial.end_at(deadline, release, finish);
                }
            }
        }
        trial.hold("small deadlines");
    }
}

/// The same about the greatest deadlines: up to finish 8,192, and 12 behind it.
#[test]
fn finishes_about_the_greatest_deadlines() {
    for version in VERSIONS {
        let mut trial = Trial::new(version);
        let release = match version {
            Version::One => 0,
            Version::Two => 4_000,
        };
        for deadline in [MOST_DEADLINE - 1, MOST_DEADLINE] {
            let about = deadline - 3..=deadline + 2;
            let about_twice = 2 * deadline - 1..=2 * deadline + 1;
            for finish in about.chain(about_twice) {
                trial.end_at(deadline, release, finish);
            }
        }
        trial.hold("greatest deadlines");
    }
}

/// A table whose only row stands in any slot. With deadline 1 the flow is late in each.
#[test]
fn one_row_in_every_slot() {
    for version in VERSIONS {
        let mut trial = Trial::new(version);
        for deadline in [1, 2, MOST_DEADLINE] {
            let release = match version {
                Version::One => 0,
                Version::Two => deadline / 2,
            };
            for finish in release + 1..=SLOTS as u32 {
                let run = Run {
                    deadline,
                    release,
                    from: finish - 1,
                    finish,
                };
                trial.check(1, &[run]);
            }
        }
        trial.checked.hold(&format!("{version:?}, one row"));
    }
}

/// Three flows, two with the same deadline, each at any of the four edges.
#[test]
fn several_flows_at_the_edges() {
    let deadlines = [6, 4, 6];
    for version in VERSIONS {
        let mut trial = Trial::new(version);
        let releases = match version {
            Version::One => [0, 0, 0],
            Version::Two => [3, 1, 2],
        };
        for edges in 0..4u32.pow(3) {
            let runs = [0, 1, 2].map(|flow| Run {
                deadline: deadlines[flow],
                release: releases[flow],
                from: releases[flow],
                finish: deadlines[flow] - 2 + (edges >> (2 * flow) & 3),
            });
            trial.plan(3, &runs);
            trial.check(3, &runs);
        }
        trial.hold("three flows");
    }
}

/// 64 flows in a queue for one processor: the first ones end at their deadlines and are
/// late, the others a slot before and are not. Every count from none to all.
#[test]
fn every_count_of_late_flows() {
    for version in VERSIONS {
        let mut trial = Trial::new(version);
        for late in 0..=64 {
            let runs: Vec<Run> = (0..64)
                .map(|place| Run {
                    deadline: place + 1 + u32::from(place >= late),
                    release: match version {
                        Version::One => 0,
                        Version::Two => place / 2,
                    },
                    from: place,
                    finish: place + 1,
                })
                .collect();
            assert_eq!(u32::from(trial.made(1, &runs).late), late);
            trial.plan(1, &runs);
            trial.check(1, &runs);
        }
    }
}

/// Drawn books, as the proved planner plans them and in tables of others: late are the
/// flows that end beyond their deadline, those that end at it, and no other. Deadlines
/// are slots, shut or open.
#[test]
fn late_is_beyond_the_deadline_or_at_it() {
    for version in VERSIONS {
        let mut rng = Rng::new(0x5eed_0061 + u64::from(version.byte()));
        let junk = Junk::new(0x5eed_0060);
        // Tables without and with flows beyond, each without and with flows at it.
        let mut met = [[0u64; 2]; 2];
        let mut hold = |book: &Book, table: &[u8], late: u8| {
            let (mut beyond, mut at) = (0, 0);
            for (number, flow) in book.flows.iter().enumerate() {
                let finish = be16(table, TABLE_HEAD + FINISH * number);
                beyond += u8::from(finish > flow.deadline);
                at += u8::from(finish == flow.deadline);
            }
            assert_eq!(late, beyond + at);
            met[usize::from(beyond > 0)][usize::from(at > 0)] += 1;
        };
        for case in 0..6_000 {
            let family = [books::tiny_book, books::usual_book][case % 2];
            let book = books::drawn(&mut rng, version, family);
            let (book, calendar) = calendars::with_calendar(&mut rng, book);
            let (bytes, lent) = (encode_book(&book), calendar.encode());
            let mut output = Lent::junk(&mut rng, &junk, 1 << 15);
            let mut work = Lent::junk(&mut rng, &junk, WORK_BYTES);
            let answer = linked_plan::plan(&bytes, &lent, output.slice(), work.slice());
            if answer.number == 0 {
                let table = &output.slice()[..answer.length as usize];
                hold(&book, table, answer.late);
            }
            let Some(table) = tables::delayed_table(&mut rng, &book, &calendar) else {
                continue;
            };
            let table = table.encode(&book);
            let mut work = Lent::junk(&mut rng, &junk, WORK_BYTES);
            let answer = linked::check(&bytes, &lent, &table, work.slice());
            assert_eq!(answer.number, 0);
            hold(&book, &table, answer.late);
        }
        let [[none, only_at], [only_beyond, both]] = met;
        println!(
            "{version:?}, tables with flows at their deadlines {only_at}, beyond {only_beyond}, \
             both {both}, neither {none}"
        );
        assert!(met.as_flattened().iter().all(|&met| met > 100));
    }
}
