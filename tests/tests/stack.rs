//! How much stack one call takes: on full books of both versions, without windows and
//! with the most, on books A, E and G, and on each of them damaged so that each of the
//! numbers refuses it.

use flowplan_tests::answer::WORK_BYTES;
use flowplan_tests::books::{self, encode_book};
use flowplan_tests::calendar::{read_calendar, Calendar, Window, MOST_WINDOWS};
use flowplan_tests::calendars::{self, stretched};
use flowplan_tests::painted::stack_of;
use flowplan_tests::reader::{read_book, Book};
use flowplan_tests::rng::Rng;
use flowplan_tests::tables::{self, Table};
use flowplan_tests::{
    fast_dispatch, fast_finish, fast_planner, linked, linked_dispatch, linked_finish, linked_plan,
    lists, marked, second_check,
};
use std::hint::black_box;

/// The bytes that a call may take.
const CHECK_STACK: usize = 16 * 1024;
const PLAN_STACK: usize = 20 * 1024;
const DISPATCH_STACK: usize = 20 * 1024;
const FINISH_STACK: usize = 20 * 1024;

/// A book that can be planned with its calendar, and its table.
struct Case {
    name: &'static str,
    book: Book,
    calendar: Calendar,
    table: Table,
}

impl Case {
    fn of(name: &'static str, book: Book, calendar: Calendar) -> Option<Case> {
        let table = tables::planned_table(&book, &calendar)?;
        Some(Case {
            name,
            book,
            calendar,
            table,
        })
    }

    /// A book without windows, and in the open slots of 32 windows.
    fn both(names: [&'static str; 2], book: Book) -> Option<[Case; 2]> {
        let shut = |k: u32| Window::new(20 * k + 4, 20 * k + 9);
        let calendar = Calendar {
            windows: (0..MOST_WINDOWS as u32).map(shut).collect(),
        };
        let in_windows = Case::of(names[1], stretched(&book, &calendar)?, calendar)?;
        let without = Case::of(names[0], book, Calendar::default())?;
        Some([without, in_windows])
    }
}

/// A full book of each version, with jobs that wait for each other, without windows and
/// with the most, and books A, E and G, the last also with a window.
fn cases(rng: &mut Rng) -> Vec<Case> {
    let names = ["full book", "full book with windows"];
    let full = (0..100).find_map(|_| Case::both(names, books::full_book(rng)));
    let names = [
        "full book with releases",
        "full book with releases and windows",
    ];
    let late = (0..100).find_map(|_| Case::both(names, books::late_full_book(rng)));
    let marked = |name, book: &[u8], windows: &[[u32; 2]]| {
        let book = read_book(book).expect("a marked book");
        Case::of(name, book, Calendar::of(windows)).expect("feasible")
    };
    let mut cases: Vec<Case> = [full, late].into_iter().flatten().flatten().collect();
    assert_eq!(cases.len(), 4, "full books are feasible");
    cases.extend([
        marked("book A", &marked::BOOK_A, &[]),
        marked("book E", &marked::book_e(), &[]),
        marked("book G", &marked::BOOK_G, &[]),
        marked("book G with a window", &marked::BOOK_G, &[[3, 4]]),
    ]);
    cases
}

/// One drawn input for each of the numbers that it may be refused by.
fn one_of_each(
    numbers: &[u8],
    mut draw: impl FnMut() -> Vec<u8>,
    mut number_of: impl FnMut(&[u8]) -> u8,
) -> Vec<Vec<u8>> {
    let mut missing = numbers.to_vec();
    let mut inputs = Vec::new();
    for _ in 0..20_000 {
        let input = draw();
        let number = number_of(&input);
        if missing.contains(&number) {
            missing.retain(|&other| other != number);
            inputs.push(input);
        }
        if missing.is_empty() {
            return inputs;
        }
    }
    panic!("numbers {missing:?} were never met");
}

/// Damaged copies of the book, refused by 1 to 10 and in version 2 by 22.
fn damaged_books(rng: &mut Rng, case: &Case) -> Vec<Vec<u8>> {
    let intact = encode_book(&case.book);
    let draw = || {
        let mut bytes = intact.clone();
        books::damage_book(rng, &mut bytes);
        bytes
    };
    let number_of = |bytes: &[u8]| read_book(bytes).map_or_else(|refusal| refusal.number, |_| 0);
    one_of_each(case.book.version.faults(), draw, number_of)
}

/// A damaged copy of the calendar, refused by 24.
fn damaged_calendar(rng: &mut Rng, case: &Case) -> Vec<u8> {
    let draw = || calendars::damaged(rng, &case.calendar);
    let number_of =
        |bytes: &[u8]| read_calendar(bytes).map_or_else(|refusal| refusal.number, |_| 0);
    one_of_each(&[24], draw, number_of).remove(0)
}

/// The numbers that a table may be refused by: 14 to 21, and with windows 25.
fn table_faults(case: &Case) -> Vec<u8> {
    let shut = case.calendar.windows.first().map(|_| 25);
    (14..=21).chain(shut).collect()
}

/// Damaged copies of the table, refused by each of these.
fn damaged_tables(rng: &mut Rng, case: &Case) -> Vec<Vec<u8>> {
    let (book, calendar) = (encode_book(&case.book), case.calendar.encode());
    let mut work = vec![0; WORK_BYTES];
    let draw = || tables::damaged(rng, &case.book, &case.calendar, &case.table);
    let number_of = |table: &[u8]| second_check::check(&book, &calendar, table, &mut work).number;
    one_of_each(&table_faults(case), draw, number_of)
}

/// The book with a flow that is infeasible, the last in service order.
fn infeasible(case: &Case) -> Vec<u8> {
    let mut book = case.book.clone();
    let last = *book.service_order().last().expect("a flow");
    let flow = &mut book.flows[last];
    flow.jobs[0].size = 2 * flow.deadline + 1;
    flow.jobs[0].cap = 1;
    encode_book(&book)
}

/// A number that a call answered, and the stack that it took.
type Seen = (u8, usize);

/// One proved check, whose answer must be the second one's.
fn check(book: &[u8], calendar: &[u8], table: &[u8], work: usize) -> Seen {
    let mut work = vec![0x5a; work];
    let expected = second_check::check(book, calendar, table, &mut work);
    let mut answer = None;
    let stack = stack_of(&mut || answer = Some(linked::check(book, calendar, table, &mut work)));
    assert_eq!(answer, Some(expected));
    (expected.number, stack)
}

/// One proved plan, whose answer must be the fast planner's.
fn plan(book: &[u8], calendar: &[u8], output: usize, work: usize) -> Seen {
    let mut output = vec![0x5a; output];
    let mut work = vec![0x5a; work];
    let expected = fast_planner::plan(book, calendar, &mut output, &mut work);
    let mut answer = None;
    let stack = stack_of(&mut || {
        answer = Some(linked_plan::plan(book, calendar, &mut output, &mut work));
    });
    assert_eq!(answer, Some(expected));
    (expected.number, stack)
}

/// One proved dispatch list, whose answer must be that of the merge.
fn dispatch(book: &[u8], calendar: &[u8], table: &[u8], output: usize, work: usize) -> Seen {
    let mut output = vec![0x5a; output];
    let mut work = vec![0x5a; work];
    let expected = fast_dispatch::dispatch(book, calendar, table, &mut output, &mut work);
    let mut answer = None;
    let stack = stack_of(&mut || {
        answer = Some(linked_dispatch::dispatch(
            book,
            calendar,
            table,
            &mut output,
            &mut work,
        ));
    });
    assert_eq!(answer, Some(expected));
    (expected.number, stack)
}

/// One proved finish, whose answer must be the fast one's.
fn finish(book: &[u8], calendar: &[u8], flow: u32, work: usize) -> Seen {
    let mut work = vec![0x5a; work];
    let expected = fast_finish::finish(book, calendar, flow, &mut work);
    let mut answer = None;
    let stack = stack_of(&mut || {
        answer = Some(linked_finish::finish(book, calendar, flow, &mut work));
    });
    assert_eq!(answer, Some(expected));
    (expected.number, stack)
}

/// Prints what the calls on one book took and gives the most. Each number by
/// which the book or its calendar can be refused must have been answered once, and
/// so each of the others.
fn most_of(
    call: &str,
    case: &Case,
    mut seen: Vec<Seen>,
    others: impl Iterator<Item = u8>,
) -> usize {
    let mut numbers: Vec<u8> = others.collect();
    numbers.extend(case.book.version.faults());
    numbers.push(24);
    numbers.sort_unstable();
    seen.sort_unstable();
    assert!(seen.iter().map(|&(number, _)| number).eq(numbers));
    let listed: Vec<String> = seen
        .iter()
        .map(|(n, stack)| format!("{n}: {stack}"))
        .collect();
    let listed = listed.join(", ");
    println!(
        "{call} of {}, bytes of stack by number: {listed}",
        case.name
    );
    seen.iter().map(|&(_, stack)| stack).max().expect("calls")
}

#[test]
fn check_in_little_stack() {
    let mut rng = Rng::new(0x5eed_0004);
    let mut most = 0;
    for case in cases(&mut rng) {
        let book = encode_book(&case.book);
        let table = case.table.encode(&case.book);
        let calendar = case.calendar.encode();
        let faulty = damaged_calendar(&mut rng, &case);
        let mut seen = vec![
            check(&book, &calendar, &table, WORK_BYTES),
            check(&book, &calendar, &table, WORK_BYTES - 1),
            check(&book, &faulty, &table, WORK_BYTES),
        ];
        for damaged in damaged_books(&mut rng, &case) {
            seen.push(check(&damaged, &calendar, &table, WORK_BYTES));
        }
        for damaged in damaged_tables(&mut rng, &case) {
            seen.push(check(&book, &calendar, &damaged, WORK_BYTES));
        }
        let others = [0, 11].into_iter().chain(table_faults(&case));
        most = most.max(most_of("check", &case, seen, others));
    }
    println!("check: at most {most} bytes of stack");
    assert!(most <= CHECK_STACK, "{most} is above {CHECK_STACK}");
}

#[test]
fn planner_in_little_stack() {
    let mut rng = Rng::new(0x5eed_0005);
    let mut most = 0;
    for case in cases(&mut rng) {
        let book = encode_book(&case.book);
        let length = case.table.encode(&case.book).len();
        let calendar = case.calendar.encode();
        let faulty = damaged_calendar(&mut rng, &case);
        let mut seen = vec![
            plan(&book, &calendar, length, WORK_BYTES),
            plan(&book, &calendar, length, WORK_BYTES - 1),
            plan(&book, &calendar, length - 1, WORK_BYTES),
            plan(&book, &faulty, length, WORK_BYTES),
            plan(&infeasible(&case), &calendar, length, WORK_BYTES),
        ];
        for damaged in damaged_books(&mut rng, &case) {
            seen.push(plan(&damaged, &calendar, length, WORK_BYTES));
        }
        let others = [0, 11, 12, 13].into_iter();
        most = most.max(most_of("plan", &case, seen, others));
    }
    println!("plan: at most {most} bytes of stack");
    assert!(most <= PLAN_STACK, "{most} is above {PLAN_STACK}");
}

#[test]
fn dispatch_list_in_little_stack() {
    let mut rng = Rng::new(0x5eed_0006);
    let mut most = 0;
    for case in cases(&mut rng) {
        let book = encode_book(&case.book);
        let table = case.table.encode(&case.book);
        let length = lists::length_for(&table);
        let calendar = case.calendar.encode();
        let faulty = damaged_calendar(&mut rng, &case);
        let mut seen = vec![
            dispatch(&book, &calendar, &table, length, WORK_BYTES),
            dispatch(&book, &calendar, &table, length, WORK_BYTES - 1),
            dispatch(&book, &calendar, &table, length - 1, WORK_BYTES),
            dispatch(&book, &faulty, &table, length, WORK_BYTES),
        ];
        for damaged in damaged_books(&mut rng, &case) {
            seen.push(dispatch(&damaged, &calendar, &table, length, WORK_BYTES));
        }
        for damaged in damaged_tables(&mut rng, &case) {
            seen.push(dispatch(&book, &calendar, &damaged, length, WORK_BYTES));
        }
        let others = [0, 11, 13].into_iter().chain(table_faults(&case));
        most = most.max(most_of("dispatch list", &case, seen, others));
    }
    println!("dispatch list: at most {most} bytes of stack");
    assert!(most <= DISPATCH_STACK, "{most} is above {DISPATCH_STACK}");
}

/// Asked for the flow that is served last, and once for every other.
#[test]
fn finish_in_little_stack() {
    let mut rng = Rng::new(0x5eed_0007);
    let mut most = 0;
    for case in cases(&mut rng) {
        let book = encode_book(&case.book);
        let order = case.book.service_order();
        let (last, others) = order.split_last().expect("a flow");
        let last = *last as u32;
        let calendar = case.calendar.encode();
        let faulty = damaged_calendar(&mut rng, &case);
        let mut seen = vec![
            finish(&book, &calendar, last, WORK_BYTES),
            finish(&book, &calendar, last, WORK_BYTES - 1),
            finish(&infeasible(&case), &calendar, last, WORK_BYTES),
            finish(&book, &calendar, 256, WORK_BYTES),
            finish(&book, &faulty, last, WORK_BYTES),
        ];
        for damaged in damaged_books(&mut rng, &case) {
            seen.push(finish(&damaged, &calendar, last, WORK_BYTES));
        }
        for &flow in others {
            let (number, stack) = finish(&book, &calendar, flow as u32, WORK_BYTES);
            assert_eq!(number, 0);
            most = most.max(stack);
        }
        let numbers = [0, 11, 12, 23].into_iter();
        most = most.max(most_of("finish", &case, seen, numbers));
    }
    println!("finish: at most {most} bytes of stack");
    assert!(most <= FINISH_STACK, "{most} is above {FINISH_STACK}");
}

const KNOWN_STACK: usize = 64 * 1024;

#[inline(never)]
fn takes_known_stack() {
    let mut room = [0x5a_u8; KNOWN_STACK];
    black_box(&mut room);
}

/// The measuring itself: nothing is seen as nothing, and a known stack as at
/// least that, each time alike.
#[test]
fn known_stack_is_seen() {
    assert_eq!(stack_of(&mut || ()), 0);
    let seen = stack_of(&mut takes_known_stack);
    println!("{KNOWN_STACK} bytes of stack are seen as {seen}");
    assert!((KNOWN_STACK..2 * KNOWN_STACK).contains(&seen));
    for _ in 0..20 {
        assert_eq!(stack_of(&mut takes_known_stack), seen);
    }
}
