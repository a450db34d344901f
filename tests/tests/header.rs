//! The C header's text against the second implementation and the linked library: its
//! version, its limits and lengths, its list of numbers; and what it says of buffers that
//! coincide and of threads.

use std::thread;

use flowplan_tests::answer::{CheckAnswer, PlanAnswer, NONE, NUMBERS, SLOTS, WORK_BYTES};
use flowplan_tests::books::{self, encode_book};
use flowplan_tests::calendar::{CALENDAR_HEAD, LAST_REOPENING, MOST_WINDOWS, NO_WINDOWS, WINDOW};
use flowplan_tests::longest::most_bytes;
use flowplan_tests::reader::{
    Version, BOOK_HEAD, JOB_RECORD, MOST_CAP, MOST_DEADLINE, MOST_FLOWS, MOST_JOBS,
    MOST_PROCESSORS, MOST_SIZE,
};
use flowplan_tests::rng::Rng;
use flowplan_tests::second_check::{self, FINISH, ROW, TABLE_HEAD};
use flowplan_tests::second_dispatch::{self, LIST_HEAD};
use flowplan_tests::{
    linked, linked_dispatch, linked_plan, linked_version, marked, second_planner,
};

const HEADER: &str = include_str!("../../include/flowplan.h");

/// What stands behind the name of a macro, up to a comment.
fn text_of(name: &str) -> &'static str {
    let behind = |line: &'static str| line.strip_prefix("#define ")?.strip_prefix(name);
    let mut found = HEADER
        .lines()
        .filter_map(behind)
        .filter(|text| text.starts_with(' '));
    let text = found.next().unwrap_or_else(|| panic!("{name} is missing"));
    assert_eq!(found.next(), None, "{name} stands twice");
    text.split("/*").next().expect("a part").trim()
}

/// The number that a macro stands for.
fn number_of(name: &str) -> usize {
    let text = text_of(name);
    text.parse()
        .unwrap_or_else(|error| panic!("{name} {text}: {error}"))
}

#[test]
fn library_has_the_version_of_the_header() {
    let version = number_of("FLOWPLAN_HEADER_VERSION");
    assert_eq!(linked_version::version() as usize, version);
    // The history goes up to it.
    let entry = |line: &str| {
        let (number, _) = line.strip_prefix(" *   ")?.split_once("  ")?;
        number.parse().ok()
    };
    let top = HEADER.lines().take_while(|&line| line != " * Book");
    let history: Vec<usize> = top.filter_map(entry).collect();
    assert_eq!(history, Vec::from_iter(1..=version));
}

#[test]
fn limits_of_the_second_implementation() {
    let rows = ROW * SLOTS * MOST_FLOWS * MOST_JOBS;
    for (name, number) in [
        ("FLOWPLAN_MOST_PROCESSORS", MOST_PROCESSORS as usize),
        ("FLOWPLAN_MOST_FLOWS", MOST_FLOWS),
        ("FLOWPLAN_MOST_DEADLINE", MOST_DEADLINE as usize),
        ("FLOWPLAN_MOST_JOBS", MOST_JOBS),
        ("FLOWPLAN_MOST_SIZE", MOST_SIZE as usize),
        ("FLOWPLAN_MOST_CAP", MOST_CAP as usize),
        ("FLOWPLAN_MOST_WINDOWS", MOST_WINDOWS),
        ("FLOWPLAN_MOST_REOPENING", LAST_REOPENING as usize),
        ("FLOWPLAN_SLOTS", SLOTS),
        ("FLOWPLAN_WORK_BYTES", WORK_BYTES),
        ("FLOWPLAN_NONE", usize::from(NONE)),
        (
            "FLOWPLAN_LONGEST_BOOK",
            BOOK_HEAD + MOST_FLOWS * (Version::Two.flow_head() + MOST_JOBS * JOB_RECORD),
        ),
        (
            "FLOWPLAN_LONGEST_CALENDAR",
            CALENDAR_HEAD + MOST_WINDOWS * WINDOW,
        ),
        (
            "FLOWPLAN_LONGEST_TABLE",
            TABLE_HEAD + FINISH * MOST_FLOWS + rows,
        ),
        ("FLOWPLAN_LONGEST_LIST", LIST_HEAD + rows),
    ] {
        assert_eq!(number_of(name), number, "{name}");
    }
    let bytes = NO_WINDOWS.map(|byte| format!("0x{byte:02x}")).join(", ");
    assert_eq!(text_of("FLOWPLAN_NO_WINDOWS"), format!("{{ {bytes} }}"));
    let largest = most_bytes(&books::largest_book());
    assert_eq!(number_of("FLOWPLAN_LONGEST_TABLE") as u64, largest);
}

/// Each number once, in order, with a name and a sentence of its own; what turns
/// something down is named so.
#[test]
fn numbers_are_listed() {
    let (_, list) = HEADER
        .split_once("#define FLOWPLAN_NUMBERS(LINE)")
        .expect("the list");
    let (list, _) = list.split_once("\n\n").expect("its end");
    let (mut names, mut sentences) = (Vec::new(), Vec::new());
    for (number, line) in list.split("LINE(").skip(1).enumerate() {
        let (name, line) = line.split_once(", ").expect("a name");
        assert!(line.starts_with(&format!("{number}, /* ")), "{line}");
        let named = match number {
            0 => "FLOWPLAN_ACCEPTED",
            _ => "FLOWPLAN_REFUSED_",
        };
        assert!(name.starts_with(named), "{name} is number {number}");
        let sentence: String = line.split('"').skip(1).step_by(2).collect();
        assert!(!sentence.is_empty(), "{name} has no sentence");
        names.push(name);
        sentences.push(sentence);
    }
    assert_eq!(names.len(), NUMBERS);
    names.sort_unstable();
    names.dedup();
    sentences.sort_unstable();
    sentences.dedup();
    assert_eq!((names.len(), sentences.len()), (NUMBERS, NUMBERS));
}

/// One buffer in which book, calendar and table lie at any place, over each other.
#[test]
fn buffers_that_are_read_may_coincide() {
    let mut rng = Rng::new(0x5eed_0051);
    let mut met = [0; NUMBERS];
    for _ in 0..20_000 {
        let mut bytes = match rng.below(4) {
            0 => marked::BOOK_A.to_vec(),
            1 => encode_book(&books::tiny_book(&mut rng)),
            2 => NO_WINDOWS.to_vec(),
            // A book without flows is its own table.
            _ => marked::book_d(3),
        };
        let length = bytes.len();
        bytes.extend(NO_WINDOWS);
        let mut part = || {
            let from = rng.index(bytes.len());
            match rng.below(4) {
                0 => from..bytes.len(),
                1 => length..bytes.len(),
                _ => 0..length,
            }
        };
        let (book, calendar, table) = (&bytes[part()], &bytes[part()], &bytes[part()]);
        let (mut work, mut expected_work) = (vec![0x3c; WORK_BYTES], vec![0x3c; WORK_BYTES]);

        let expected = second_check::check(book, calendar, table, &mut expected_work);
        assert_eq!(linked::check(book, calendar, table, &mut work), expected);
        assert!(work == expected_work);
        met[usize::from(expected.number)] += 1;

        let (mut list, mut expected_list) = (vec![0x3c; 100], vec![0x3c; 100]);
        let expected = second_dispatch::dispatch(
            book,
            calendar,
            table,
            &mut expected_list,
            &mut expected_work,
        );
        let answer = linked_dispatch::dispatch(book, calendar, table, &mut list, &mut work);
        assert_eq!(answer, expected);
        assert!(list == expected_list && work == expected_work);
    }
    println!("numbers met: {met:?}");
    for number in [0, 1, 14, 24] {
        assert!(met[number] > 0, "number {number} was never met");
    }
}

/// Threads that plan and check at once, from one book, each with an output and a work area
/// of its own.
#[test]
fn threads_call_at_once() {
    let mut rng = Rng::new(0x5eed_0052);
    let books = Vec::from_iter((0..50).map(|_| encode_book(&books::usual_book(&mut rng))));
    let planned = Vec::from_iter(books.iter().map(|book| {
        let (mut output, mut work) = (vec![0x3c; 65_536], vec![0x3c; WORK_BYTES]);
        let answer = second_planner::plan(book, &NO_WINDOWS, &mut output, &mut work);
        (answer, output, work)
    }));
    let accepted = planned.iter().filter(|(answer, ..)| answer.number == 0);
    assert!(accepted.count() > 5);

    let hold = |book: &[u8], planned: &(PlanAnswer, Vec<u8>, Vec<u8>)| {
        let (answer, table, used) = planned;
        let (mut output, mut work) = (vec![0x3c; table.len()], vec![0x3c; WORK_BYTES]);
        let given = linked_plan::plan(book, &NO_WINDOWS, &mut output, &mut work);
        assert!(given == *answer && output == *table && work == *used);
        if answer.number == 0 {
            let table = &table[..answer.length as usize];
            let given = linked::check(book, &NO_WINDOWS, table, &mut work);
            assert_eq!(given, CheckAnswer::accepted(answer.late));
            assert!(work == *used);
        }
    };
    thread::scope(|scope| {
        for _ in 0..8 {
            scope.spawn(|| {
                for _ in 0..20 {
                    for (book, planned) in books.iter().zip(&planned) {
                        hold(book, planned);
                    }
                }
            });
        }
    });
}
