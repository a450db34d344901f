//! Service windows (02, Req 07): a calendar shuts slots, which are passed over. Every
//! fault of a calendar, windows at every edge, the limit counted in open slots, rows in
//! shut slots, and the former results where there are no windows, held against every
//! planner, check, dispatch list and finish, proved and second.

use flowplan_tests::answer::{CheckAnswer, Refusal, NONE, NUMBERS, SLOTS, WORK_BYTES};
use flowplan_tests::books::{self, encode_book, encode_list, encode_table};
use flowplan_tests::calendar::{
    limit_in, read_calendar, windows_in, Calendar, Window, MOST_WINDOWS, NO_WINDOWS,
};
use flowplan_tests::calendars::{self, Kinds, NONE_OPEN};
use flowplan_tests::lent::{work_length, Junk, Lent};
use flowplan_tests::marked::{
    self, checked_in, finished_in, listed_in, not_checked_in, not_finished_in, not_listed_in,
    not_planned_in, planned_in, Check, Dispatch, Finish, Planner,
};
use flowplan_tests::reader::{be16, read_book, Book, Flow, Job, Version, MOST_DEADLINE, VERSIONS};
use flowplan_tests::rng::Rng;
use flowplan_tests::second_check::{row_at, Row, ROW};
use flowplan_tests::second_dispatch::rows_from;
use flowplan_tests::tables;
use flowplan_tests::{
    fast_dispatch, fast_finish, fast_planner, former, linked, linked_dispatch, linked_finish,
    linked_plan, lists, second_check, second_dispatch, second_finish, second_planner,
};

const PLANNERS: [Planner; 3] = [linked_plan::plan, second_planner::plan, fast_planner::plan];
const CHECKS: [Check; 3] = [
    linked::check,
    second_check::check,
    second_check::check_by_definition,
];
const DISPATCHES: [Dispatch; 3] = [
    linked_dispatch::dispatch,
    second_dispatch::dispatch,
    fast_dispatch::dispatch,
];
const FINISHES: [Finish; 4] = [
    linked_finish::finish,
    second_finish::finish,
    fast_finish::finish,
    fast_finish::finish_sorted,
];

/// Every call on a book, a calendar and a table must be refused alike; the finish is
/// asked for a flow.
fn refused_by_all(book: &[u8], calendar: &[u8], table: &[u8], flow: u32, refusal: Refusal) {
    for plan in PLANNERS {
        not_planned_in(plan, book, calendar, 100, refusal);
    }
    for check in CHECKS {
        not_checked_in(check, book, calendar, table, refusal);
    }
    for dispatch in DISPATCHES {
        not_listed_in(dispatch, book, calendar, table, 100, refusal);
    }
    for finish in FINISHES {
        not_finished_in(finish, book, calendar, flow, refusal);
    }
}

/// The work area is too short: every call must be refused alike and leave it.
fn refused_in_short_area(book: &[u8], calendar: &[u8], table: &[u8], refusal: Refusal) {
    let Refusal { number, flow, job } = refusal;
    for length in [WORK_BYTES - 1, 0] {
        let (mut output, mut work) = (vec![0x3c; 100], vec![0x3c; length]);
        for plan in PLANNERS {
            let answer = plan(book, calendar, &mut output, &mut work);
            assert_eq!(
                (answer.number, answer.flow, answer.job),
                (number, flow, job)
            );
        }
        for check in CHECKS {
            let answer = check(book, calendar, table, &mut work);
            assert_eq!(answer, CheckAnswer::refused(refusal));
        }
        for dispatch in DISPATCHES {
            let answer = dispatch(book, calendar, table, &mut output, &mut work);
            assert_eq!(
                (answer.number, answer.flow, answer.job),
                (number, flow, job)
            );
        }
        assert!(output.iter().chain(&work).all(|&byte| byte == 0x3c));
    }
}

/// Every fault of a calendar is 24 of every call, in a work area of any length, with
/// book A and with a book without flows.
#[test]
fn every_fault_is_24() {
    let faults = calendars::each_fault();
    let (table_a, book_d, table_d) = (marked::table_a(), marked::book_d(3), marked::table_d(3));
    let refusal = Refusal::of_all(24);
    let mut kinds: Vec<&str> = Vec::new();
    for (number, (what, calendar)) in faults.iter().enumerate() {
        assert_eq!(read_calendar(calendar), Err(refusal), "{what}");
        refused_by_all(&marked::BOOK_A, calendar, &table_a, 1, refusal);
        if number % 8 == 0 {
            refused_in_short_area(&marked::BOOK_A, calendar, &table_a, refusal);
            for plan in PLANNERS {
                not_planned_in(plan, &book_d, calendar, 8, refusal);
            }
            for check in CHECKS {
                not_checked_in(check, &book_d, calendar, &table_d, refusal);
            }
        }
        kinds.push(what);
    }
    kinds.sort_unstable();
    kinds.dedup();
    println!(
        "faults of a calendar: {}, of the kinds {kinds:?}",
        faults.len()
    );
    assert!(kinds.len() >= 16);
    // No bytes at all, and one of each too short.
    for length in 0..6 {
        refused_by_all(&marked::BOOK_A, &NO_WINDOWS[..length], &table_a, 0, refusal);
    }
}

/// 24 comes after every fault of the book, also after 23, and before 11; so also before
/// a table is looked at.
#[test]
fn faults_of_the_calendar_in_their_place() {
    let faults = calendars::each_fault();
    let mut rng = Rng::new(0x5eed_0071);
    let table = marked::table_a();
    let mut met = [0u64; NUMBERS];
    for case in 0..3_000 {
        let book = books::drawn(&mut rng, VERSIONS[case % 2], books::tiny_book);
        let mut bytes = encode_book(&book);
        books::damage_book(&mut rng, &mut bytes);
        let Err(refusal) = read_book(&bytes) else {
            continue;
        };
        let (_, calendar) = &faults[rng.index(faults.len())];
        let flow = rng.pick(&[0, 1, 64, 256]);
        refused_by_all(&bytes, calendar, &table, flow, refusal);
        refused_in_short_area(&bytes, calendar, &table, refusal);
        met[refusal.number as usize] += 1;
    }
    for (case, (_, calendar)) in faults.iter().enumerate() {
        for finish in FINISHES {
            for flow in [2, 64, 256, u32::MAX] {
                not_finished_in(finish, &marked::BOOK_A, calendar, flow, Refusal::of_all(23));
            }
            not_finished_in(finish, &marked::book_d(3), calendar, 0, Refusal::of_all(23));
        }
        // Tables that would be refused, and no output.
        if case % 8 == 0 {
            for dispatch in DISPATCHES {
                let (table, refusal) = (&marked::table_f(3), Refusal::of_all(24));
                not_listed_in(dispatch, &marked::BOOK_A, calendar, table, 0, refusal);
                not_listed_in(dispatch, &marked::BOOK_A, calendar, &[], 0, refusal);
            }
        }
    }
    println!("faults of a book beside those of a calendar: {met:?}");
    for number in (1..=10).chain([22]) {
        assert!(met[number] > 0, "number {number} was never met");
    }
}

/// Both readers of the second implementations take the same calendars and see the same
/// windows, and a calendar is read as it was written.
#[test]
fn calendars_are_read_as_written() {
    let mut rng = Rng::new(0x5eed_0072);
    let (mut taken, mut refused) = (0, 0);
    let mut hold = |bytes: &[u8]| match read_calendar(bytes) {
        Ok(calendar) => {
            let windows = windows_in(bytes).expect("both take it");
            let pair = |window: &Window| [window.shut as usize, window.again as usize];
            assert!(windows.eq(calendar.windows.iter().map(pair)));
            assert_eq!(calendar.encode(), bytes);
            taken += 1;
        }
        Err(refusal) => {
            assert_eq!(refusal, Refusal::of_all(24));
            assert!(windows_in(bytes).is_none());
            refused += 1;
        }
    };
    for (_, bytes) in calendars::each_fault() {
        hold(&bytes);
    }
    for _ in 0..20_000 {
        let book = books::tiny_book(&mut rng);
        let calendar = calendars::valid(&mut rng, &book);
        let bytes = calendar.encode();
        assert_eq!(read_calendar(&bytes), Ok(calendar.clone()));
        hold(&bytes);
        hold(&calendars::damaged(&mut rng, &calendar));
        // Small numbers, so that windows stand close.
        let mut any = vec![0, 0, 0, 0, 1, rng.below(5) as u8];
        for _ in 0..any[5] {
            any.extend([0, rng.below(12) as u8, 0, rng.below(12) as u8]);
        }
        books::fit_length(&mut any);
        hold(&any);
    }
    println!("calendars read alike: {taken} taken, {refused} refused");
    assert!(taken > 20_000 && refused > 20_000);
}

/// The limit by a walk over the windows is the first slot before which twice the open
/// slots before the deadline stand, and is at most 8,192 less the shut slots.
#[test]
fn limits_are_counted_in_open_slots() {
    let mut rng = Rng::new(0x5eed_0073);
    for _ in 0..1_500 {
        let book = books::usual_book(&mut rng);
        let calendar = calendars::valid(&mut rng, &book);
        let bytes = calendar.encode();
        let windows = windows_in(&bytes).expect("a valid calendar");
        let near = rng.range(1, u64::from(MOST_DEADLINE)) as u32;
        for deadline in [1, 2, near, MOST_DEADLINE] {
            let twice = 2 * calendar.open_before(deadline);
            let limit = limit_in(windows.clone(), deadline as usize) as u32;
            assert_eq!(limit, calendar.slot_after(twice));
            assert_eq!(calendar.open_before(limit), twice);
            assert!(limit == 0 || calendar.is_open(limit - 1));
            let shut = calendar.shut_slots().count() as u32;
            assert!(limit <= SLOTS as u32 - shut);
        }
    }
}

/// Calendars of up to two windows that stand in the slots before `last`.
fn small_calendars(last: u32) -> Vec<Calendar> {
    let mut calendars = vec![Calendar::default()];
    for shut in 0..last {
        for again in shut + 1..=last {
            calendars.push(Calendar::of(&[[shut, again]]));
            for second in again + 1..last {
                for end in second + 1..=last {
                    calendars.push(Calendar::of(&[[shut, again], [second, end]]));
                }
            }
        }
    }
    calendars
}

fn job(size: u32, cap: u32) -> Job {
    Job {
        size,
        cap,
        precedence: 0,
    }
}

/// A version 2 book of one processor with one job of each flow.
fn queue(flows: &[[u32; 3]]) -> Book {
    let flow = |&[deadline, release, size]: &[u32; 3]| Flow {
        release,
        ..Flow::new(deadline, vec![job(size, 1)])
    };
    Book {
        version: Version::Two,
        ..Book::new(1, flows.iter().map(flow).collect())
    }
}

/// One flow that takes one processor: its job has the open slots from its release on.
/// What it uses is said by a list of the open slots; it is 12 when its last slot is not
/// among as many open slots from slot 0 as twice those before its deadline.
fn hold_lone_flow(calendar: &Calendar, [deadline, release, size]: [u32; 3]) -> u8 {
    let open: Vec<u32> = (0..SLOTS as u32).filter(|&t| calendar.is_open(t)).collect();
    let first = open.iter().filter(|&&slot| slot < release).count();
    let before = open.iter().filter(|&&slot| slot < deadline).count();
    let book = encode_book(&queue(&[[deadline, release, size]]));
    let lent = calendar.encode();
    let end = first + size as usize;
    if end > 2 * before {
        let refusal = Refusal::new(12, 0, NONE);
        for plan in PLANNERS {
            not_planned_in(plan, &book, &lent, 200, refusal);
        }
        for finish in FINISHES {
            not_finished_in(finish, &book, &lent, 0, refusal);
        }
        return 12;
    }
    let row = |&slot: &u32| Row {
        slot: slot as u16,
        flow: 0,
        job: 0,
        take: 1,
    };
    let rows: Vec<Row> = open[first..end].iter().map(row).collect();
    let finish = open[end - 1] + 1;
    let mut used = vec![0; finish as usize];
    for row in &rows {
        used[row.slot as usize] = 1;
    }
    let table = encode_table(1, &[finish as u16], &rows);
    let list = encode_list(1, &rows);
    // By slots, shut or open.
    let late = u8::from(finish + 1 > deadline);
    for plan in PLANNERS {
        planned_in(plan, &book, &lent, &table, late, &used);
    }
    for check in CHECKS {
        checked_in(check, &book, &lent, &table, late, &used);
    }
    for dispatch in DISPATCHES {
        listed_in(dispatch, &book, &lent, &table, &list, &used);
    }
    for at in FINISHES {
        finished_in(at, &book, &lent, 0, finish as u16, &used);
    }
    0
}

/// Every small deadline, release and size, in every calendar of up to two windows before
/// slot 6: at slot 0, about the release, across the deadline, and with no open slot
/// before it.
#[test]
fn one_flow_in_small_calendars() {
    let mut kinds = Kinds::default();
    let mut met = [0u64; NUMBERS];
    for calendar in small_calendars(6) {
        for deadline in [1, 2, 3, 5] {
            for release in 0..deadline {
                let before = calendar.open_before(deadline);
                // Up to the last size that can be planned, and one more.
                for size in 1..=2 * before + 1 {
                    let number = hold_lone_flow(&calendar, [deadline, release, size]);
                    met[number as usize] += 1;
                }
                kinds.count(&queue(&[[deadline, release, 1]]), &calendar);
            }
        }
    }
    println!(
        "one flow in small calendars: planned {}, refused {}",
        met[0], met[12]
    );
    assert!(met[0] > 500 && met[12] > 500);
    // 32 windows, long ones and the last reopening stand below.
    kinds.hold(Version::Two, "one flow", &[6, 7, 8]);
}

/// Windows that reopen at 4,096, all 32, and long ones, with the greatest deadline: the
/// last finish is 8,192 less the shut slots, and one unit more is 12.
#[test]
fn windows_up_to_the_last_reopening() {
    let comb = |step: u32, shut: u32| Calendar {
        windows: (1..=MOST_WINDOWS as u32)
            .map(|k| Window::new(step * k - shut, step * k))
            .collect(),
    };
    let calendars = [
        Calendar::of(&[[4_095, 4_096]]),
        Calendar::of(&[[4_094, 4_096]]),
        Calendar::of(&[[0, 1], [4_000, 4_096]]),
        Calendar::of(&[[0, 4_095]]),
        Calendar::of(&[[1, 4_096]]),
        Calendar::of(&[[0, 2_048], [2_050, 4_096]]),
        comb(128, 1),
        comb(128, 100),
        comb(2, 1),
        comb(3, 2),
    ];
    for calendar in &calendars {
        assert!(read_calendar(&calendar.encode()).is_ok());
        let shut = calendar.shut_slots().count() as u32;
        let most = 2 * (MOST_DEADLINE - shut);
        let ends = calendar.slot_after(most);
        assert!(ends <= 8_192 - shut);
        if calendar
            .windows
            .last()
            .is_some_and(|last| last.again == 4_096)
        {
            assert_eq!(ends, 8_192 - shut);
        }
        for size in [1, most / 2, most / 2 + 1, most] {
            assert_eq!(hold_lone_flow(calendar, [MOST_DEADLINE, 0, size]), 0);
        }
        assert_eq!(hold_lone_flow(calendar, [MOST_DEADLINE, 0, most + 1]), 12);
        // From the last slot before the deadline on, which may be shut.
        let late = calendar.open_before(MOST_DEADLINE - 1);
        let sizes = [1, most - late, most - late + 1];
        let owed = [0, 0, 12];
        for (size, number) in sizes.into_iter().zip(owed) {
            let flow = [MOST_DEADLINE, MOST_DEADLINE - 1, size];
            assert_eq!(hold_lone_flow(calendar, flow), number);
        }
    }
    // Everything up to the last reopening: no open slot before any deadline.
    let all = Calendar::of(&[[0, 4_096]]);
    for deadline in [1, 2, 4_095, 4_096] {
        for release in [0, deadline - 1] {
            assert_eq!(hold_lone_flow(&all, [deadline, release, 1]), 12);
        }
    }
}

/// Flows without an open slot before their deadlines are 12 when their turn comes: the
/// one that is served first is named, however late its own number.
#[test]
fn no_open_slot_before_a_deadline() {
    let calendar = Calendar::of(&[[0, 5]]).encode();
    let book = encode_book(&queue(&[[9, 0, 1], [4, 0, 1], [5, 0, 1], [4, 3, 1]]));
    for plan in PLANNERS {
        not_planned_in(plan, &book, &calendar, 100, Refusal::new(12, 1, NONE));
    }
    for finish in FINISHES {
        for flow in [0, 1, 2, 3] {
            not_finished_in(finish, &book, &calendar, flow, Refusal::new(12, 1, NONE));
        }
    }
    // The check has no rule 6: the same flows in open slots are a valid table.
    let rows: Vec<Row> = [(1, 5), (3, 6), (2, 7), (0, 8)]
        .map(|(flow, slot)| Row {
            slot,
            flow,
            job: 0,
            take: 1,
        })
        .to_vec();
    let table = encode_table(1, &[9, 6, 8, 7], &rows);
    let used = [0, 0, 0, 0, 0, 1, 1, 1, 1];
    for check in CHECKS {
        checked_in(check, &book, &calendar, &table, 4, &used);
    }
    // Behind a flow that is planned, one more open slot before the deadline of each.
    let calendar = Calendar::of(&[[0, 3], [4, 8]]).encode();
    for finish in FINISHES {
        finished_in(finish, &book, &calendar, 1, 4, &[0, 0, 0, 1]);
        let used = [0, 0, 0, 1, 0, 0, 0, 0, 1];
        finished_in(finish, &book, &calendar, 3, 9, &used);
        // One open slot before deadline 5, so two before the limit, and both are taken.
        for flow in [2, 0] {
            not_finished_in(finish, &book, &calendar, flow, Refusal::new(12, 2, NONE));
        }
    }
    for plan in PLANNERS {
        not_planned_in(plan, &book, &calendar, 100, Refusal::new(12, 2, NONE));
    }
}

/// Book A with a window, worked out by hand: the rows of the plan as they stand without
/// it, with the slots from 2 on two later. Flow 1 has two open slots before its deadline
/// of 3, and so four before its limit; flow 0 three and six.
#[test]
fn book_a_in_a_window() {
    let calendar = Calendar::of(&[[2, 4]]).encode();
    let listed: [[u16; 4]; 9] = [
        [0, 1, 0, 2],
        [1, 1, 0, 2],
        [4, 1, 0, 1],
        [0, 0, 0, 1],
        [1, 0, 0, 1],
        [4, 0, 0, 2],
        [5, 0, 0, 1],
        [6, 0, 1, 3],
        [7, 0, 1, 1],
    ];
    let row = |[slot, flow, job, take]: [u16; 4]| Row {
        slot,
        flow: flow as u8,
        job: job as u8,
        take,
    };
    let mut rows: Vec<Row> = listed.into_iter().map(row).collect();
    let table = encode_table(3, &[8, 5], &rows);
    rows.sort_by_key(|row| (row.slot, row.flow, row.job));
    let list = encode_list(3, &rows);
    let used = [3, 3, 0, 0, 3, 1, 3, 1];
    for plan in PLANNERS {
        planned_in(plan, &marked::BOOK_A, &calendar, &table, 2, &used);
    }
    for check in CHECKS {
        checked_in(check, &marked::BOOK_A, &calendar, &table, 2, &used);
        // The plan without windows has rows in slots 2 and 3; the first of them is flow 1's.
        let refusal = Refusal::new(25, 1, 0);
        let without = marked::table_a();
        not_checked_in(check, &marked::BOOK_A, &calendar, &without, refusal);
    }
    for dispatch in DISPATCHES {
        listed_in(dispatch, &marked::BOOK_A, &calendar, &table, &list, &used);
    }
    for finish in FINISHES {
        finished_in(finish, &marked::BOOK_A, &calendar, 0, 8, &used);
        finished_in(finish, &marked::BOOK_A, &calendar, 1, 5, &[2, 2, 0, 0, 1]);
    }
    // One slot shut more before both deadlines leaves flow 0 four open slots before its
    // limit, and it needs six.
    let calendar = Calendar::of(&[[2, 5]]).encode();
    for plan in PLANNERS {
        not_planned_in(
            plan,
            &marked::BOOK_A,
            &calendar,
            100,
            Refusal::new(12, 0, NONE),
        );
    }
}

/// A table whose only row stands in any slot: 25 where the slot is shut and accepted
/// where it is open.
#[test]
fn one_row_in_every_slot() {
    let book = encode_book(&queue(&[[MOST_DEADLINE, 0, 1]]));
    let calendars = [
        Calendar::of(&[[0, 1], [2, 4], [4_090, 4_096]]),
        Calendar::of(&[[1, 4_096]]),
        Calendar {
            windows: (0..32)
                .map(|k| Window::new(100 * k, 100 * k + 50))
                .collect(),
        },
    ];
    for calendar in calendars {
        let lent = calendar.encode();
        for slot in 0..SLOTS as u16 {
            let row = Row {
                slot,
                flow: 0,
                job: 0,
                take: 1,
            };
            let table = encode_table(1, &[slot + 1], &[row]);
            for check in [linked::check, second_check::check] {
                if calendar.is_open(u32::from(slot)) {
                    let mut work = vec![0x3c; WORK_BYTES];
                    let answer = check(&book, &lent, &table, &mut work);
                    let late = u8::from(u32::from(slot) + 2 > MOST_DEADLINE);
                    assert_eq!(answer, CheckAnswer::accepted(late));
                } else {
                    not_checked_in(check, &book, &lent, &table, Refusal::new(25, 0, 0));
                }
            }
        }
    }
}

/// 25 is tested after 15 and before 16 to 21, row by row; the place is the row's.
#[test]
fn rows_in_shut_slots_in_their_place() {
    // Two processors; flow 0 has jobs of size 2 and 1, the second after the first, and a
    // release of 2; flow 1 is served first.
    let after = Job {
        precedence: 1,
        ..job(1, 1)
    };
    let flows = vec![
        Flow {
            release: 2,
            ..Flow::new(20, vec![job(2, 1), after])
        },
        Flow::new(10, vec![job(2, 2)]),
    ];
    let book = encode_book(&Book {
        version: Version::Two,
        ..Book::new(2, flows)
    });
    let windows = [[0, 2], [5, 7], [9, 10]];
    let calendar = Calendar::of(&windows).encode();
    let valid: [[u16; 4]; 4] = [[2, 1, 0, 2], [3, 0, 0, 1], [4, 0, 0, 1], [7, 0, 1, 1]];
    let row = |[slot, flow, job, take]: [u16; 4]| Row {
        slot,
        flow: flow as u8,
        job: job as u8,
        take,
    };
    let table = |rows: &[[u16; 4]], finishes: [u16; 2]| {
        let rows: Vec<Row> = rows.iter().copied().map(row).collect();
        encode_table(2, &finishes, &rows)
    };
    let used = [0, 0, 2, 1, 1, 0, 0, 1];
    for check in CHECKS {
        checked_in(check, &book, &calendar, &table(&valid, [8, 3]), 0, &used);
    }
    let mut met = [0u64; NUMBERS];
    let mut owed = |rows: &[[u16; 4]], number: u8, flow: u8, job: u8| {
        let table = table(rows, [8, 3]);
        let refusal = Refusal::new(number, flow, job);
        for check in CHECKS {
            not_checked_in(check, &book, &calendar, &table, refusal);
        }
        for dispatch in DISPATCHES {
            for room in [0, 100] {
                not_listed_in(dispatch, &book, &calendar, &table, room, refusal);
            }
        }
        met[number as usize] += 1;
    };
    let [first, second, third, last] = valid;
    for shut in [0, 1, 5, 6, 9] {
        // Alone with 15: no processors, a flow and a job that are not in the book.
        owed(&[first, second, [shut, 0, 0, 0]], 15, 0, 0);
        owed(&[first, second, [shut, 2, 0, 1]], 15, 2, 0);
        owed(&[first, second, [shut, 0, 2, 1]], 15, 0, 2);
        // Out of order: the slot before, the same row again, a flow that was served.
        owed(&[first, second, third, [shut, 0, 0, 1]], 25, 0, 0);
        owed(&[first, second, [shut, 1, 0, 1]], 25, 1, 0);
        owed(&[[shut, 0, 1, 1], [shut, 0, 1, 1]], 25, 0, 1);
        // More than the cap, than the slot has, and than the predecessor has done; before
        // the release.
        owed(&[first, second, [shut, 0, 0, 2]], 25, 0, 0);
        owed(&[[shut, 1, 0, 2], [shut, 0, 0, 1]], 25, 1, 0);
        owed(&[first, [shut, 0, 1, 1]], 25, 0, 1);
        // Beside a total and a finish that are off.
        owed(&[[shut, 1, 0, 1]], 25, 1, 0);
        // A fault of an earlier row comes first, whatever its number; so also the other
        // way round.
        owed(&[first, second, second, [shut, 0, 0, 1]], 16, 0, 0);
        owed(&[first, [3, 0, 0, 2], [shut, 0, 0, 1]], 17, 0, 0);
        owed(&[first, [3, 0, 1, 1], [shut, 0, 0, 1]], 19, 0, 1);
        owed(&[first, second, [shut, 0, 0, 1], [4, 0, 0, 9]], 25, 0, 0);
        owed(&[[shut, 1, 0, 1], [8_192, 0, 0, 0]], 25, 1, 0);
    }
    // In open slots beside the windows the same rows have the former faults.
    for open in [2, 4, 7, 8, 10] {
        owed(&[first, [4, 0, 0, 1], third, [open, 0, 0, 0]], 16, 0, 0);
        owed(&[first, second, [open, 1, 0, 1]], 16, 1, 0);
        owed(&[[open, 1, 0, 3]], 17, 1, 0);
        owed(
            &[first, [open, 0, 1, 1]],
            if open == 2 { 18 } else { 19 },
            0,
            1,
        );
    }
    owed(&[first, second, third, [8, 0, 1, 1]], 21, 0, NONE);
    owed(&[first, second, third], 20, 0, 1);
    owed(&[first, second, third, last, [8_192, 0, 1, 1]], 15, 0, 1);
    println!("rows in and beside shut slots: {met:?}");
    for number in (15..=21).chain([25]) {
        assert!(met[number] > 0, "number {number} was never met");
    }
}

/// The slots of rows and finishes as the open slots of their numbers.
fn in_open_slots(table: &[u8], open: &[u32]) -> Vec<u8> {
    let mut table = table.to_vec();
    let from = rows_from(&table);
    let (head, rows) = table.split_at_mut(from);
    for finish in head[8..].chunks_exact_mut(2) {
        let last = open[be16(finish, 0) as usize - 1];
        finish.copy_from_slice(&(last as u16 + 1).to_be_bytes());
    }
    for row in rows.chunks_exact_mut(ROW) {
        let slot = open[be16(row, 0) as usize];
        row[..2].copy_from_slice(&(slot as u16).to_be_bytes());
    }
    table
}

/// A book that is stretched by its calendar has the plan of the book without windows,
/// with each slot as the open slot of that number; it is refused where that one is.
#[test]
fn shut_slots_are_passed_over() {
    let mut rng = Rng::new(0x5eed_0074);
    let junk = Junk::new(0x5eed_0075);
    let mut met = [0u64; NUMBERS];
    let mut kinds = Kinds::default();
    for case in 0..5_000 {
        let family = match case % 50 {
            0 => books::wide_book,
            1 => books::heavy_book,
            _ => books::any_book,
        };
        let without = books::drawn(&mut rng, VERSIONS[case % 2], family);
        let calendar = calendars::valid(&mut rng, &without);
        let Some(book) = calendars::stretched(&without, &calendar) else {
            continue;
        };
        let open: Vec<u32> = (0..SLOTS as u32).filter(|&t| calendar.is_open(t)).collect();
        let mut output = Lent::junk(&mut rng, &junk, 1 << 18);
        let mut work = Lent::junk(&mut rng, &junk, WORK_BYTES);
        let (bytes, lent) = (encode_book(&without), calendar.encode());
        let former = linked_plan::plan(&bytes, &NO_WINDOWS, output.slice(), work.slice());
        let mut again = Lent::junk(&mut rng, &junk, 1 << 18);
        let mut area = Lent::junk(&mut rng, &junk, WORK_BYTES);
        let bytes = encode_book(&book);
        let answer = linked_plan::plan(&bytes, &lent, again.slice(), area.slice());
        assert_eq!((answer.number, answer.flow), (former.number, former.flow));
        met[answer.number as usize] += 1;
        if answer.number != 0 {
            continue;
        }
        assert_eq!(answer.length, former.length);
        let table = in_open_slots(&output.slice()[..former.length as usize], &open);
        assert!(again.slice()[..answer.length as usize] == table);
        let (by_number, _) = work.slice().as_chunks::<2>();
        let (by_slot, _) = area.slice().as_chunks::<2>();
        assert!(open
            .iter()
            .zip(by_number)
            .all(|(&slot, used)| by_slot[slot as usize] == *used));
        assert!(calendar
            .shut_slots()
            .all(|slot| by_slot[slot as usize] == [0, 0]));
        kinds.count(&book, &calendar);
        for flow in 0..book.flows.len().min(4) {
            let answer = linked_finish::finish(&bytes, &lent, flow as u32, area.slice());
            assert_eq!(u32::from(answer.finish), be16(&table, 8 + 2 * flow));
        }
    }
    println!(
        "plans in open slots: {}, refused by 12: {}",
        met[0], met[12]
    );
    assert!(met[0] > 2_000 && met[12] > 500);
    // A stretched deadline stands directly behind an open slot.
    kinds.hold(Version::Two, "stretched", &[5, NONE_OPEN]);
}

/// Answer, output and work area of a call.
type End<A> = (A, Vec<u8>, Vec<u8>);

/// Runs a call on junk.
fn end<A>(room: usize, area: usize, call: impl FnOnce(&mut [u8], &mut [u8]) -> A) -> End<A> {
    let mut output = vec![0x3c; room];
    let mut work = vec![0xc3; area];
    (call(&mut output, &mut work), output, work)
}

/// "With no windows every former result is met again": every call without windows ends
/// as the former second implementations do, for books and tables of every kind.
#[test]
fn former_results_are_met_again() {
    let mut rng = Rng::new(0x5eed_0076);
    let none = Calendar::default();
    let mut met = [[0u64; NUMBERS]; 4];
    for case in 0..12_000 {
        let family = match case % 8 {
            0..=2 => books::any_book,
            _ => books::tiny_book,
        };
        let book = books::drawn(&mut rng, VERSIONS[case % 2], family);
        let mut bytes = encode_book(&book);
        if rng.chance(1, 4) {
            books::damage_book(&mut rng, &mut bytes);
        }
        let area = work_length(&mut rng);
        let room = rng.skewed(0, 1 << 12) as usize;
        let owed = end(room, area, |to, work| former::plan(&bytes, to, work));
        for plan in PLANNERS {
            let ends = end(room, area, |to, work| plan(&bytes, &NO_WINDOWS, to, work));
            assert!(ends == owed, "{:?} and {:?}", ends.0, owed.0);
        }
        met[0][owed.0.number as usize] += 1;

        let flow = rng.pick(&[0, 0, 1, 2, 3, 64]);
        let owed = end(0, area, |_, work| former::finish(&bytes, flow, work));
        for finish in FINISHES {
            let ends = end(0, area, |_, work| finish(&bytes, &NO_WINDOWS, flow, work));
            assert!(ends == owed, "{:?} and {:?}", ends.0, owed.0);
        }
        met[1][owed.0.number as usize] += 1;

        let table = match case % 2 {
            0 => tables::planned_table(&book, &none),
            _ => tables::delayed_table(&mut rng, &book, &none),
        };
        let Some(table) = table else {
            continue;
        };
        let table = match rng.below(3) {
            0 => table.encode(&book),
            _ => tables::damaged(&mut rng, &book, &none, &table),
        };
        // The check by definition is for small tables.
        let small = if table.len() < 2_000 { 3 } else { 2 };
        let owed = end(0, area, |_, work| former::check(&bytes, &table, work));
        for check in &CHECKS[..small] {
            let ends = end(0, area, |_, work| check(&bytes, &NO_WINDOWS, &table, work));
            assert!(ends == owed, "{:?} and {:?}", ends.0, owed.0);
        }
        met[2][owed.0.number as usize] += 1;
        let exact = lists::length_for(&table);
        let room = rng.pick(&[0, exact - 1, exact, exact + 40]);
        let owed = end(room, area, |to, work| {
            former::dispatch(&bytes, &table, to, work)
        });
        for dispatch in DISPATCHES {
            let ends = end(room, area, |to, work| {
                dispatch(&bytes, &NO_WINDOWS, &table, to, work)
            });
            assert!(ends == owed, "{:?} and {:?}", ends.0, owed.0);
        }
        met[3][owed.0.number as usize] += 1;
    }
    let [plan, finish, check, dispatch] = met;
    println!("former results met again, by number: planner {plan:?}, finish {finish:?}");
    println!("check {check:?}, dispatch list {dispatch:?}");
    let common = || (0..=11).chain([22]);
    hold_met("planner", &plan, common().chain([12, 13]));
    hold_met("finish", &finish, common().chain([12, 23]));
    hold_met("check", &check, common().chain(14..=21));
    hold_met("dispatch list", &dispatch, common().chain(13..=21));
}

/// Each of the numbers must have been met, and no other.
fn hold_met(of: &str, met: &[u64], numbers: impl Iterator<Item = usize>) {
    let mut numbers: Vec<usize> = numbers.collect();
    numbers.sort_unstable();
    let seen: Vec<usize> = (0..met.len()).filter(|&number| met[number] > 0).collect();
    assert_eq!(seen, numbers, "numbers met by the {of}");
}

/// What stood beside a refusal.
#[derive(Default)]
struct Beside {
    /// A faulty calendar in a work area that is too short, beside a fault of the book,
    /// and beside a flow that is not in the book.
    calendar_and_area: u64,
    calendar_and_book: u64,
    calendar_and_flow: u64,
    /// A row in a shut slot that is refused by 15, and one refused by 25 that is also not
    /// after the row before it.
    shut_and_15: u64,
    shut_and_16: u64,
}

/// Where a table is refused by a row: whether that row stands in a shut slot, and whether
/// it is not after the one before it.
fn refused_row(book: &Book, calendar: &Calendar, table: &[u8], answer: CheckAnswer) -> [bool; 2] {
    let Some(rows) = table.get(8 + 2 * book.flows.len()..) else {
        return [false; 2];
    };
    let rows: Vec<Row> = rows.chunks_exact(ROW).map(row_at).collect();
    let order = book.service_order();
    let place = |row: &Row| {
        let rank = order.iter().position(|&flow| flow == row.flow as usize);
        (rank, row.slot, row.job)
    };
    // The first row of the place that is shut, which is the one refused by 25.
    let at = rows.iter().position(|row| {
        let named = (row.flow, row.job) == (answer.flow, answer.job);
        named && !calendar.is_open(u32::from(row.slot))
    });
    at.map_or([false; 2], |at| {
        [true, at > 0 && place(&rows[at]) <= place(&rows[at - 1])]
    })
}

/// Every number from 0 to 25 is met by drawn books, calendars and tables; the proved
/// calls answer as the second ones and leave every buffer as they do. No finish is above
/// 8,192, and a shut slot is not in use.
#[test]
fn every_number_is_met() {
    let mut rng = Rng::new(0x5eed_0077);
    let mut met = [[0u64; NUMBERS]; 4];
    let mut beside = Beside::default();
    let mut kinds = Kinds::default();
    for case in 0..25_000 {
        let book = books::drawn(&mut rng, VERSIONS[case % 2], books::tiny_book);
        let (book, calendar) = calendars::with_calendar(&mut rng, book);
        let mut bytes = encode_book(&book);
        if rng.chance(1, 8) {
            books::damage_book(&mut rng, &mut bytes);
        }
        let faulty = rng.chance(1, 8);
        let lent = match faulty {
            true => calendars::damaged(&mut rng, &calendar),
            false => calendar.encode(),
        };
        let faulty = read_calendar(&lent).is_err();
        let area = work_length(&mut rng);
        let room = rng.skewed(0, 1 << 12) as usize;
        let flow = rng.pick(&[0, 0, 0, 1, 2, 64]);

        let owed = end(room, area, |to, work| {
            fast_planner::plan(&bytes, &lent, to, work)
        });
        let ends = end(room, area, |to, work| {
            linked_plan::plan(&bytes, &lent, to, work)
        });
        assert!(ends == owed, "{:?} and {:?}", ends.0, owed.0);
        let (planned, output, work) = ends;
        met[0][planned.number as usize] += 1;
        beside.calendar_and_area += u64::from(planned.number == 24 && area < WORK_BYTES);
        let of_book = (1..=10).contains(&planned.number) || planned.number == 22;
        beside.calendar_and_book += u64::from(faulty && of_book);
        if planned.number == 0 {
            let calendar = read_calendar(&lent).expect("a planned book has a calendar");
            let book = read_book(&bytes).expect("and a book");
            let shut = calendar.shut_slots();
            let (used, _) = work.as_chunks::<2>();
            assert!({ shut }.all(|slot| used[slot as usize] == [0, 0]));
            for flow in 0..book.flows.len() {
                let finish = be16(&output, 8 + 2 * flow);
                assert!(finish as usize <= SLOTS - calendar.shut_slots().count());
            }
            kinds.count(&book, &calendar);
        }

        let owed = end(0, area, |_, work| {
            fast_finish::finish(&bytes, &lent, flow, work)
        });
        let ends = end(0, area, |_, work| {
            linked_finish::finish(&bytes, &lent, flow, work)
        });
        assert!(ends == owed, "{:?} and {:?}", ends.0, owed.0);
        met[1][owed.0.number as usize] += 1;
        beside.calendar_and_flow += u64::from(owed.0.number == 23 && faulty);

        let table = match case % 2 {
            0 => tables::planned_table(&book, &calendar),
            _ => tables::delayed_table(&mut rng, &book, &calendar),
        };
        let Some(table) = table else {
            continue;
        };
        let table = match rng.below(4) {
            0 => table.encode(&book),
            _ => tables::damaged(&mut rng, &book, &calendar, &table),
        };
        let owed = end(0, area, |_, work| {
            second_check::check(&bytes, &lent, &table, work)
        });
        let ends = end(0, area, |_, work| {
            linked::check(&bytes, &lent, &table, work)
        });
        assert!(ends == owed, "{:?} and {:?}", ends.0, owed.0);
        let checked = owed.0;
        met[2][checked.number as usize] += 1;
        if [15, 25].contains(&checked.number) {
            let [shut, before] = refused_row(&book, &calendar, &table, checked);
            beside.shut_and_15 += u64::from(checked.number == 15 && shut);
            beside.shut_and_16 += u64::from(checked.number == 25 && before);
        }
        let exact = lists::length_for(&table);
        let room = rng.pick(&[0, exact - 1, exact, exact + 40]);
        let owed = end(room, area, |to, work| {
            second_dispatch::dispatch(&bytes, &lent, &table, to, work)
        });
        let ends = end(room, area, |to, work| {
            linked_dispatch::dispatch(&bytes, &lent, &table, to, work)
        });
        assert!(ends == owed, "{:?} and {:?}", ends.0, owed.0);
        met[3][owed.0.number as usize] += 1;
    }
    let [plan, finish, check, dispatch] = met;
    println!("met by number: planner {plan:?}, finish {finish:?}");
    println!("check {check:?}, dispatch list {dispatch:?}");
    let common = || (0..=11).chain([22, 24]);
    hold_met("planner", &plan, common().chain([12, 13]));
    hold_met("finish", &finish, common().chain([12, 23]));
    hold_met("check", &check, common().chain(14..=21).chain([25]));
    hold_met(
        "dispatch list",
        &dispatch,
        common().chain(13..=21).chain([25]),
    );
    let all: Vec<u64> = (0..NUMBERS)
        .map(|k| met.iter().map(|of| of[k]).sum())
        .collect();
    hold_met("calls together", &all, 0..=25);
    let besides = [
        ("24 in a short area", beside.calendar_and_area),
        (
            "a fault of the book and of its calendar",
            beside.calendar_and_book,
        ),
        ("23 and a faulty calendar", beside.calendar_and_flow),
        ("15 in a shut slot", beside.shut_and_15),
        ("25 out of order", beside.shut_and_16),
    ];
    for (what, met) in besides {
        println!("{what}: {met}");
        assert!(met > 20, "{what} was hardly met");
    }
    kinds.hold(Version::Two, "planned", &[NONE_OPEN]);
}

/// A cut book keeps its calendar: it is planned or refused as the whole one is up to
/// there, and each flow has the finish that the whole table shows.
#[test]
fn a_cut_book_keeps_its_calendar() {
    let mut rng = Rng::new(0x5eed_0078);
    let (mut planned, mut refused) = (0, 0);
    for case in 0..2_500 {
        let book = books::drawn(&mut rng, VERSIONS[case % 2], books::any_book);
        let (book, calendar) = calendars::with_calendar(&mut rng, book);
        let lent = calendar.encode();
        let (whole, output, _) = end(1 << 18, WORK_BYTES, |to, work| {
            linked_plan::plan(&encode_book(&book), &lent, to, work)
        });
        let order = book.service_order();
        let named = |flow: usize| order.iter().position(|&k| k == flow);
        let refused_at = match whole.number {
            12 => named(whole.flow as usize).expect("a flow of the book"),
            _ => order.len(),
        };
        for kept in [
            0,
            order.len() / 2,
            refused_at,
            (refused_at + 1).min(order.len()),
        ] {
            let cut = books::cut(&book, kept);
            let numbers = books::kept_by_cut(&book, kept);
            let (answer, table, _) = end(1 << 18, WORK_BYTES, |to, work| {
                linked_plan::plan(&encode_book(&cut), &lent, to, work)
            });
            if kept <= refused_at {
                assert!([0, 13].contains(&answer.number));
                planned += 1;
                if whole.number == 0 {
                    for (at, &number) in numbers.iter().enumerate() {
                        assert_eq!(be16(&table, 8 + 2 * at), be16(&output, 8 + 2 * number));
                    }
                }
            } else {
                assert_eq!(answer.number, 12);
                assert_eq!(numbers[answer.flow as usize], order[refused_at]);
                refused += 1;
            }
        }
    }
    println!("cut books: planned {planned}, refused {refused}");
    assert!(planned > 2_000 && refused > 500);
}
