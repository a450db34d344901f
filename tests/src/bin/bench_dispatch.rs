//! Prints how long the proved dispatch list takes beside three plain ones in Rust, on
//! the same tables in the same run. It judges nothing.
//!
//! The library exports the whole call alone. What a list takes without the check is
//! therefore a difference, for the proved one and for the others alike: the proved
//! check runs in front of each, in the same loop, and its time by itself is
//! subtracted, round by round. So each list meets the caches and the branch
//! predictors as a check leaves them.
//!
//! Output and work area are not cleared between calls.

use flowplan_tests::answer::{CheckAnswer, ListAnswer, WORK_BYTES};
use flowplan_tests::books::encode_book;
use flowplan_tests::cases::{dispatch_cases, Case};
use flowplan_tests::fast_dispatch::{merge, merge_by_slots, sort};
use flowplan_tests::measure::Rounds;
use flowplan_tests::{fast_planner, linked, linked_dispatch, lists, second_check};
use std::cell::RefCell;
use std::hint::black_box;

/// Writes the list of an accepted table, with the work area that the check left; its
/// length.
type List = fn(table: &[u8], work: &[u8], output: &mut [u8]) -> usize;

const BY_SLOTS: List = merge_by_slots;
const WAKING: List = |table, _, output| merge(table, output);
const SORT: List = |table, _, output| sort(table, output);

/// A book and its plan, with what is lent to each call and what must be answered.
struct Calls {
    book: Vec<u8>,
    calendar: Vec<u8>,
    table: Vec<u8>,
    output: Vec<u8>,
    work: Vec<u8>,
    checked: CheckAnswer,
    listed: ListAnswer,
}

impl Calls {
    fn of(case: &Case) -> Calls {
        let book = encode_book(&case.book);
        let calendar = case.calendar.encode();
        let mut table = vec![0; 201_326_728];
        let planned = fast_planner::plan(&book, &calendar, &mut table, &mut [0; WORK_BYTES]);
        assert_eq!(planned.number, 0, "the book of a benchmark is planned");
        table.truncate(planned.length as usize);
        table.shrink_to_fit();
        let length = lists::length_for(&table);
        Calls {
            book,
            calendar,
            table,
            output: vec![0; length],
            work: vec![0x5a; WORK_BYTES],
            checked: CheckAnswer::accepted(planned.late),
            listed: ListAnswer::accepted(length as u32),
        }
    }

    fn check(&mut self) {
        let (book, table) = (black_box(&self.book), black_box(&self.table));
        let answer = linked::check(book, &self.calendar, table, &mut self.work);
        assert_eq!(answer, self.checked);
    }

    fn dispatch(&mut self) {
        let (book, table) = (black_box(&self.book), black_box(&self.table));
        let (output, work) = (&mut self.output, &mut self.work);
        let answer = linked_dispatch::dispatch(book, &self.calendar, table, output, work);
        assert_eq!(answer, self.listed);
    }

    fn list(&mut self, list: List) {
        let table = black_box(&self.table);
        let length = list(table, &self.work, &mut self.output);
        assert_eq!(length as u32, self.listed.length);
    }

    fn check_and_list(&mut self, list: List) {
        self.check();
        self.list(list);
    }

    fn second(&mut self) {
        let (book, table) = (black_box(&self.book), black_box(&self.table));
        let answer = second_check::check(book, &self.calendar, table, &mut self.work);
        assert_eq!(answer, self.checked);
        self.list(BY_SLOTS);
    }

    /// All must give equal lists.
    fn hold_alike(&mut self) {
        self.dispatch();
        let proved = self.output.clone();
        for list in [BY_SLOTS, WAKING, SORT] {
            self.output.fill(0);
            self.check_and_list(list);
            assert!(self.output == proved);
        }
    }
}

fn measure(case: &Case) {
    let mut calls = Calls::of(case);
    calls.hold_alike();
    let rows = (calls.output.len() - 7) / 6;
    let calls = RefCell::new(calls);
    let rounds = Rounds::run(
        case.rounds,
        case.calls,
        [
            &mut || calls.borrow_mut().check(),
            &mut || calls.borrow_mut().dispatch(),
            &mut || calls.borrow_mut().check_and_list(BY_SLOTS),
            &mut || calls.borrow_mut().check_and_list(WAKING),
            &mut || calls.borrow_mut().check_and_list(SORT),
            &mut || calls.borrow_mut().second(),
        ],
    );

    let whole = rounds.median(|[_, whole, ..]| whole);
    let second = rounds.median(|[.., second]| second);
    let beside_second = rounds.median(|[_, whole, .., second]| whole / second);
    // Of each after the check: its time, and how many times as long the proved takes.
    let alone = |way: usize| rounds.median(|times| times[way] - times[0]);
    let beside =
        |way: usize| rounds.median(|times| (times[1] - times[0]) / (times[way] - times[0]));
    let (unit, per_second) = match whole.max(alone(4)) {
        small if small < 1e-3 => ("us", 1e6),
        _ => ("ms", 1e3),
    };
    let shown = |seconds: f64| format!("{:.3}", seconds * per_second);
    println!(
        "{}: {rows} rows; after the check: proved {} {unit}; same merge {}, ratio {:.2}; waking {}, \
         ratio {:.2}; sort {}, ratio {:.2}; with it: proved {}, second {}, ratio {beside_second:.2}",
        case.name,
        shown(alone(1)),
        shown(alone(2)),
        beside(2),
        shown(alone(3)),
        beside(3),
        shown(alone(4)),
        beside(4),
        shown(whole),
        shown(second),
    );
}

fn main() {
    println!("dispatch list, proved beside plain Rust; ratio above 1: the proved one takes longer");
    println!("after the check: the proved check and then the list, less that check by itself:");
    println!("  proved      flowplan_dispatch, less flowplan_check");
    println!("  same merge  each flow is looked at in each used slot, as the proved one does");
    println!("  waking      a merge that looks only at the flows that are due in a slot");
    println!("  sort        a stable sort of the rows");
    println!("with it: flowplan_dispatch beside the second check and the same merge");
    println!("medians of calls in turn; output and work area are not cleared between calls");
    for case in dispatch_cases() {
        if let Some(heading) = case.heading {
            println!("{heading}");
        }
        measure(&case);
    }
}
