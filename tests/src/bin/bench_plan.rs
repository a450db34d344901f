//! Prints how long the proved planner takes beside a straightforward optimised
//! one, on the same books in the same run. It judges nothing.
//!
//! Output and work area are not cleared between calls.

use flowplan_tests::answer::WORK_BYTES;
use flowplan_tests::books::encode_book;
use flowplan_tests::cases::{plan_cases, Case};
use flowplan_tests::measure::in_turn;
use flowplan_tests::{fast_planner, linked_plan};
use std::hint::black_box;

/// Two outputs that hold the largest table.
struct Outputs([Vec<u8>; 2]);

fn measure(outputs: &mut Outputs, case: &Case) {
    let book = encode_book(&case.book);
    let calendar = case.calendar.encode();
    let mut works = [vec![0x5a; WORK_BYTES], vec![0x5a; WORK_BYTES]];
    let [of_proved, of_fast] = &mut outputs.0;
    let expected = fast_planner::plan(&book, &calendar, of_fast, &mut works[1]);
    let length = expected.length as usize;
    let [work_proved, work_fast] = &mut works;
    let medians = in_turn(
        case.rounds,
        case.calls,
        &mut || {
            let (book, calendar) = (black_box(&book), black_box(&calendar));
            let answer = linked_plan::plan(book, calendar, of_proved, work_proved);
            assert_eq!(answer, expected);
        },
        &mut || {
            let (book, calendar) = (black_box(&book), black_box(&calendar));
            let answer = fast_planner::plan(book, calendar, of_fast, work_fast);
            assert_eq!(answer, expected);
        },
    );
    assert!(works[0] == works[1]);
    assert!(of_proved[..length] == of_fast[..length]);
    let rows = length.saturating_sub(8 + 2 * book[7] as usize) / 6;
    println!(
        "{}: answer {}, {rows} rows; proved {:.4} ms; fast {:.4} ms; ratio {:.2}",
        case.name,
        expected.number,
        medians.proved.as_secs_f64() * 1e3,
        medians.baseline.as_secs_f64() * 1e3,
        medians.ratio
    );
}

fn main() {
    println!("planner, proved beside fast; ratio above 1: the proved one takes longer");
    println!("medians of calls in turn; output and work area are not cleared between calls");
    let mut outputs = Outputs([vec![0; 201_326_728], vec![0; 201_326_728]]);
    for case in plan_cases() {
        if let Some(heading) = case.heading {
            println!("{heading}");
        }
        measure(&mut outputs, &case);
    }
}
