//! The program's text against the literal planner: what `plan` prints for a
//! book on its standard input, over plans of both versions, refusals, long
//! tables, and inputs around the 65,536 bytes that the program lends.

use std::fmt::Write as _;
use std::io::Write as _;
use std::path::Path;
use std::process::{Command, Stdio};

use flowplan_tests::answer::WORK_BYTES;
use flowplan_tests::books::{self, encode_book};
use flowplan_tests::calendar::NO_WINDOWS;
use flowplan_tests::marked;
use flowplan_tests::reader::{Version, VERSIONS};
use flowplan_tests::rng::Rng;
use flowplan_tests::second_planner;

const LENT: usize = 65_536;

/// What the program prints of plan A.
const TEXT_A: &str = include_str!("../../crates/plan/stdout");

/// What document 01 has the program print for an input; it plans without windows.
fn expected(input: &[u8]) -> String {
    if input.len() > LENT {
        return "refused 1 flow 255 job 255\n".to_string();
    }
    let mut table = vec![0; LENT];
    let mut work = vec![0; WORK_BYTES];
    let answer = second_planner::plan(input, &NO_WINDOWS, &mut table, &mut work);
    let mut text = String::new();
    if answer.number != 0 {
        let (number, flow, job) = (answer.number, answer.flow, answer.job);
        writeln!(text, "refused {number} flow {flow} job {job}").unwrap();
        return text;
    }
    let two = |at: usize| u16::from_be_bytes([table[at], table[at + 1]]);
    let length = answer.length as usize;
    let flows = usize::from(table[7]);
    writeln!(text, "table {} late {}", length, answer.late).unwrap();
    for flow in 0..flows {
        writeln!(text, "finish {} {}", flow, two(8 + 2 * flow)).unwrap();
    }
    for at in (8 + 2 * flows..length).step_by(6) {
        let (slot, take) = (two(at), two(at + 4));
        let (flow, job) = (table[at + 2], table[at + 3]);
        writeln!(text, "slot {slot} flow {flow} job {job} take {take}").unwrap();
    }
    text
}

/// What the program prints.
fn printed(input: &[u8]) -> String {
    let program = Path::new(env!("CARGO_MANIFEST_DIR")).join("../target/bin/plan");
    let mut child = Command::new(&program)
        .stdin(Stdio::piped())
        .stdout(Stdio::piped())
        .spawn()
        .unwrap_or_else(|error| {
            panic!("{}: {error}; run `make program` first", program.display())
        });
    // An input that is longer than the program reads closes the pipe early.
    let _ = child.stdin.take().unwrap().write_all(input);
    let output = child.wait_with_output().unwrap();
    assert!(output.status.success());
    String::from_utf8(output.stdout).unwrap()
}

/// Plans A, E and G as they are listed.
#[test]
fn program_prints_listed_plans() {
    for (book, text) in [
        (&marked::BOOK_A[..], TEXT_A),
        (&marked::book_e(), marked::TEXT_E),
        (&marked::BOOK_G, marked::TEXT_G),
    ] {
        assert_eq!(expected(book), text);
        assert_eq!(printed(book), text);
    }
}

#[test]
fn program_prints_plans_and_refusals() {
    let mut rng = Rng::new(0x7E87);
    let mut inputs: Vec<Vec<u8>> = vec![
        marked::BOOK_A.to_vec(),
        marked::BOOK_G.to_vec(),
        marked::book_g(Version::Two, 6),
        marked::book_b(),
        marked::book_c(2),
        marked::book_c(4),
        marked::book_c(5),
        marked::book_d(3),
        marked::book_e(),
        marked::book_e_capped(Version::Two, 65_535),
        marked::book_e_capped(Version::One, 0),
        Vec::new(),
    ];
    for version in VERSIONS {
        for _ in 0..4 {
            let mut draw = |family| encode_book(&books::drawn(&mut rng, version, family));
            inputs.push(draw(books::usual_book));
            inputs.push(draw(books::crowded_book));
            inputs.push(draw(books::full_book));
            inputs.push(draw(books::infeasible_book));
            let mut damaged = draw(books::usual_book);
            books::damage_book(&mut rng, &mut damaged);
            inputs.push(damaged);
        }
    }
    // A plan that fills much of the lent table, and one that is longer than it.
    inputs.push(encode_book(&books::layered_book(16, 8, 64)));
    inputs.push(encode_book(&books::layered_book(64, 64, 8)));
    // Book A with bytes behind it, up to the lent bytes and one more.
    for length in [57, LENT, LENT + 1, LENT + 100] {
        let mut long = marked::BOOK_A.to_vec();
        long.resize(length, 0);
        inputs.push(long);
    }
    // A whole book of 65,536 bytes cannot be; a length field that fits can.
    let mut fitted = marked::BOOK_A.to_vec();
    fitted.resize(LENT, 0);
    books::fit_length(&mut fitted);
    inputs.push(fitted);

    let mut plans = 0;
    for input in &inputs {
        let text = expected(input);
        assert_eq!(printed(input), text, "input of {} bytes", input.len());
        plans += usize::from(text.starts_with("table"));
    }
    assert!(plans >= 20, "only {plans} plans were printed");
}
