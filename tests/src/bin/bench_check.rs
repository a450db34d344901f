//! Prints how long the proved table check takes beside the second one, on the
//! same tables in the same run. It judges nothing.
//!
//! The work area is not cleared between calls: each call finds what the call
//! before left, as a dispatcher would lend it.

use flowplan_tests::answer::{CheckAnswer, WORK_BYTES};
use flowplan_tests::books::encode_book;
use flowplan_tests::cases::{check_cases, Case};
use flowplan_tests::measure::in_turn;
use flowplan_tests::{fast_planner, linked, second_check};
use std::hint::black_box;
use std::time::Duration;

fn measure(case: &Case) {
    let book = encode_book(&case.book);
    let calendar = case.calendar.encode();
    let mut table = vec![0; 210_000_000];
    let mut work = vec![0x5a; WORK_BYTES];
    let planned = fast_planner::plan(&book, &calendar, &mut table, &mut work);
    assert_eq!(planned.number, 0, "the book of a benchmark is planned");
    table.truncate(planned.length as usize);
    table.shrink_to_fit();
    let rows = (table.len() - 8 - 2 * book[7] as usize) / 6;
    let accepted = CheckAnswer::accepted(planned.late);

    let mut works = [vec![0x5a; WORK_BYTES], vec![0x5a; WORK_BYTES]];
    let [of_proved, of_second] = &mut works;
    let medians = in_turn(
        case.rounds,
        case.calls,
        &mut || {
            let (book, table) = (black_box(&book), black_box(&table));
            let answer = linked::check(book, black_box(&calendar), table, of_proved);
            assert_eq!(answer, accepted);
        },
        &mut || {
            let (book, table) = (black_box(&book), black_box(&table));
            let answer = second_check::check(book, black_box(&calendar), table, of_second);
            assert_eq!(answer, accepted);
        },
    );
    assert!(works[0] == works[1]);
    let (unit, per_second) = match medians.proved.max(medians.baseline) {
        small if small < Duration::from_millis(1) => ("us", 1e6),
        _ => ("ms", 1e3),
    };
    let shown = |time: Duration| {
        let (time, rows) = (time.as_secs_f64(), rows as f64);
        let million_rows = rows / time / 1e6;
        format!(
            "{:.3} {unit}, {million_rows:.1} million rows/s",
            time * per_second
        )
    };
    println!(
        "{}: {rows} rows; proved {}; second {}; ratio {:.2}",
        case.name,
        shown(medians.proved),
        shown(medians.baseline),
        medians.ratio
    );
}

fn main() {
    println!("table check, proved beside second; ratio above 1: the proved one takes longer");
    println!("medians of calls in turn; the work area is not cleared between calls");
    for case in check_cases() {
        if let Some(heading) = case.heading {
            println!("{heading}");
        }
        measure(&case);
    }
}
