//! Prints how long the proved finish of one flow takes beside the proved planner,
//! beside the second finish and beside two straightforward optimised ones, on the same
//! books in the same run: for the flow that is served first, in the middle and last.
//! It judges nothing.
//!
//! Output and work area are not cleared between calls.

use flowplan_tests::answer::{FinishAnswer, PlanAnswer, WORK_BYTES};
use flowplan_tests::books::encode_book;
use flowplan_tests::cases::{finish_cases, Case};
use flowplan_tests::measure::Rounds;
use flowplan_tests::{fast_finish, fast_planner, linked_finish, linked_plan, second_finish};
use std::cell::RefCell;
use std::hint::black_box;

/// A book with what is lent to each call and what must be answered.
struct Calls<'a> {
    book: &'a [u8],
    calendar: &'a [u8],
    flow: u32,
    output: &'a mut [u8],
    work: Vec<u8>,
    planned: PlanAnswer,
    finished: FinishAnswer,
}

impl Calls<'_> {
    fn proved(&mut self) {
        let (book, calendar) = (black_box(self.book), self.calendar);
        let answer = linked_finish::finish(book, calendar, self.flow, &mut self.work);
        assert_eq!(answer, self.finished);
    }

    fn plain(&mut self) {
        let (book, calendar) = (black_box(self.book), self.calendar);
        let answer = fast_finish::finish(book, calendar, self.flow, &mut self.work);
        assert_eq!(answer, self.finished);
    }

    fn sorted(&mut self) {
        let (book, calendar) = (black_box(self.book), self.calendar);
        let answer = fast_finish::finish_sorted(book, calendar, self.flow, &mut self.work);
        assert_eq!(answer, self.finished);
    }

    fn second(&mut self) {
        let (book, calendar) = (black_box(self.book), self.calendar);
        let answer = second_finish::finish(book, calendar, self.flow, &mut self.work);
        assert_eq!(answer, self.finished);
    }

    fn plan(&mut self) {
        let (book, calendar) = (black_box(self.book), self.calendar);
        let answer = linked_plan::plan(book, calendar, self.output, &mut self.work);
        assert_eq!(answer, self.planned);
    }

    /// All finishes must leave equal work areas.
    fn hold_alike(&mut self) {
        self.proved();
        let proved = self.work.clone();
        for other in [Calls::plain, Calls::sorted, Calls::second] {
            self.work.fill(0x5a);
            other(self);
            assert!(self.work == proved);
        }
    }
}

fn measure(output: &mut [u8], case: &Case) {
    let book = encode_book(&case.book);
    let calendar = case.calendar.encode();
    let mut work = vec![0x5a; WORK_BYTES];
    let planned = fast_planner::plan(&book, &calendar, output, &mut work);
    assert_eq!(planned.number, 0, "the book of a benchmark is planned");
    let rows = (planned.length as usize - 8 - 2 * book[7] as usize) / 6;
    println!("  {}, {rows} rows:", case.name);
    let order = case.book.service_order();
    let places = [0, (order.len() - 1) / 2, order.len() - 1];
    for (name, place) in ["first", "middle", "last"].into_iter().zip(places) {
        let flow = order[place] as u32;
        let finished = fast_finish::finish(&book, &calendar, flow, &mut work);
        let mut calls = Calls {
            book: &book,
            calendar: &calendar,
            flow,
            output: &mut *output,
            work: work.clone(),
            planned,
            finished,
        };
        calls.hold_alike();
        let calls = RefCell::new(calls);
        let rounds = Rounds::run(
            case.rounds,
            case.calls,
            [
                &mut || calls.borrow_mut().proved(),
                &mut || calls.borrow_mut().plain(),
                &mut || calls.borrow_mut().sorted(),
                &mut || calls.borrow_mut().plan(),
            ],
        );
        let literal = Rounds::run(3, 1, [&mut || calls.borrow_mut().second()]);
        let micro = |way: usize| rounds.median(|times| times[way]) * 1e6;
        println!(
            "    {name:6} proved {:8.3} us; ratio to plain {:.2}, to sorted {:.2}, to second {:.4}, to planner {:.3}",
            micro(0),
            rounds.median(|[proved, plain, _, _]| proved / plain),
            rounds.median(|[proved, _, sorted, _]| proved / sorted),
            micro(0) / 1e6 / literal.median(|[second]| second),
            rounds.median(|[proved, _, _, plan]| proved / plan),
        );
    }
}

fn main() {
    println!("finish of one flow, proved; beside it:");
    println!("plain: Rust that looks at every job at every change of the rate");
    println!("sorted: Rust that sorts the changes of the rate first");
    println!("second: the second finish of the tests; planner: the proved planner's whole table");
    println!("ratio above 1: the proved finish takes longer");
    println!("first, middle, last: the flow's place in service order");
    println!("medians of calls in turn; output and work area are not cleared between calls");
    let mut output = vec![0; 201_326_728];
    for case in finish_cases() {
        if let Some(heading) = case.heading {
            println!("{heading}");
        }
        measure(&mut output, &case);
    }
}
