//! Differential test of the proved table check against the second one: the
//! answer and every byte of every buffer, over valid and damaged tables and
//! books of both versions with calendars of every kind, with work areas of every
//! length class and junk everywhere first.

use flowplan_tests::answer::{CheckAnswer, NUMBERS};
use flowplan_tests::books::{self, encode_book, Family};
use flowplan_tests::calendar::{read_calendar, NO_WINDOWS};
use flowplan_tests::calendars::{self, Kinds};
use flowplan_tests::edges::Edges;
use flowplan_tests::lent::{work_length, Junk, Lent};
use flowplan_tests::longest::Lengths;
use flowplan_tests::reader::{read_book, Version};
use flowplan_tests::rng::Rng;
use flowplan_tests::table_trial::{Of, TableTrial};
use flowplan_tests::tables::{self, Table, WideRows};
use flowplan_tests::{caps, heads, linked, marked, second_check};

#[test]
fn marked_plans() {
    marked::hold_check(linked::check);
}

#[test]
fn flow_heads() {
    heads::hold_check(linked::check);
}

#[test]
fn caps_about_the_processors() {
    caps::hold_check(linked::check);
}

/// Draws cases of one version, compares them and counts the numbers that were
/// met.
struct Trial {
    version: Version,
    rng: Rng,
    junk: Junk,
    met: [u64; NUMBERS],
    /// Those met at a flow whose first row stands before its release.
    early: [u64; NUMBERS],
    wide_rows: WideRows,
    beyond_twice: u64,
    /// Of the flows of accepted tables.
    edges: Edges,
    /// Of accepted tables.
    lengths: Lengths,
    /// Of the calendars of accepted tables.
    calendars: Kinds,
}

impl Trial {
    fn new(version: Version, seed: u64) -> Trial {
        Trial {
            version,
            rng: Rng::new(seed),
            junk: Junk::new(!seed),
            met: [0; NUMBERS],
            early: [0; NUMBERS],
            wide_rows: WideRows::default(),
            beyond_twice: 0,
            edges: Edges::default(),
            lengths: Lengths::default(),
            calendars: Kinds::default(),
        }
    }

    /// One call of each check on equal buffers; all must end equal.
    fn compare(&mut self, book: &[u8], calendar: &[u8], table: &[u8]) -> CheckAnswer {
        let length = work_length(&mut self.rng);
        let rng = &mut self.rng;
        let mut book = Lent::holding(rng, &self.junk, book);
        let mut calendar = Lent::holding(rng, &self.junk, calendar);
        let mut table = Lent::holding(rng, &self.junk, table);
        let mut work = Lent::junk(rng, &self.junk, length);
        let before = [book.clone(), calendar.clone(), table.clone()];

        let mut expected_work = work.clone();
        let expected = second_check::check(
            book.slice(),
            calendar.slice(),
            table.slice(),
            expected_work.slice(),
        );
        let answer = linked::check_lent(&mut book, &mut calendar, &mut table, &mut work);

        if answer != expected || work != expected_work {
            let differs = work.differs_at(&mut expected_work);
            panic!(
                "answer {answer:?}, expected {expected:?}; work area of {length} bytes differs \
                 first at {differs:?}\nbook {:02x?}\ncalendar {:02x?}\ntable {:02x?}",
                book.slice(),
                calendar.slice(),
                table.slice()
            );
        }
        let [of_book, of_calendar, of_table] = before;
        assert!(book == of_book, "the book was changed");
        assert!(calendar == of_calendar, "the calendar was changed");
        assert!(table == of_table, "the table was changed");
        self.met[expected.number as usize] += 1;
        if expected.number == 0 {
            self.edges.count(book.slice(), table.slice());
            self.lengths.count(book.slice(), table.slice());
            let book = read_book(book.slice()).expect("an accepted book");
            let calendar = read_calendar(calendar.slice()).expect("an accepted calendar");
            self.calendars.count(&book, &calendar);
        }
        expected
    }
}

impl TableTrial for Trial {
    fn rng(&mut self) -> &mut Rng {
        &mut self.rng
    }

    fn draw(&mut self, family: Family) -> Of {
        let book = books::drawn(&mut self.rng, self.version, family);
        Of::new(calendars::with_calendar(&mut self.rng, book))
    }

    fn compare_valid(&mut self, of: &Of, table: &Table) {
        let mut finishes = table.finishes.iter().zip(&of.book.flows);
        let twice = |deadline| 2 * of.calendar.open_before(deadline);
        let before = |finish: u16| of.calendar.open_before(u32::from(finish));
        if finishes.any(|(&finish, flow)| before(finish) > twice(flow.deadline)) {
            self.beyond_twice += 1;
        }
        let table = table.encode(&of.book);
        let answer = self.compare(&of.bytes, &of.lent, &table);
        self.wide_rows.count(&of.book, &table, answer);
    }

    fn compare_damaged(&mut self, of: &Of, table: &[u8]) {
        let answer = self.compare(&of.bytes, &of.lent, table);
        self.wide_rows.count(&of.book, table, answer);
        if tables::begins_early(&of.book, table, answer.flow) {
            self.early[answer.number as usize] += 1;
        }
    }

    fn compare_bytes(&mut self, book: &[u8], calendar: &[u8], table: &[u8]) {
        self.compare(book, calendar, table);
    }
}

#[test]
fn proved_check_is_the_second_one() {
    hold_trial(Version::One, 0x5eed_0001);
}

#[test]
fn proved_check_is_the_second_one_with_releases() {
    hold_trial(Version::Two, 0x5eed_0011);
}

fn hold_trial(version: Version, seed: u64) {
    let mut trial = Trial::new(version, seed);

    trial.compare_books(9_000, books::tiny_book, 9);
    trial.compare_books(2_500, books::any_book, 6);
    trial.compare_books(60, books::wide_book, 4);
    trial.compare_books(6, books::full_book, 2);
    trial.compare_layered(version, 3);
    // Totals far above the size, which must not be cut to fewer bits.
    for bits in 8..=24 {
        for size in [1, 4_097, 1_000_000] {
            let (book, table) = tables::surplus_table(size, 1 << bits);
            trial.compare(&encode_book(&book), &NO_WINDOWS, &table.encode(&book));
        }
    }
    trial.compare_crossed(20_000);
    trial.compare_random(150_000);

    println!("{version:?}, cases: {}", trial.met.iter().sum::<u64>());
    println!(
        "valid tables with a finish beyond twice the deadline: {}",
        trial.beyond_twice
    );
    for (number, (met, early)) in trial.met.iter().zip(&trial.early).enumerate() {
        println!("number {number:2}: {met}, before a release: {early}");
    }
    let faults = version.faults().iter().copied();
    for number in faults.chain([0, 11]).chain(14..=21).chain([24, 25]) {
        let met = trial.met[number as usize];
        assert!(met > 0, "number {number} was never met");
    }
    if version == Version::Two {
        for number in [17, 18, 19] {
            let met = trial.early[number];
            assert!(met > 0, "number {number} was never met before a release");
        }
    }
    trial.wide_rows.hold();
    assert!(trial.beyond_twice > 0);
    trial.edges.hold(&format!("{version:?}, checked"));
    trial.lengths.hold(&format!("{version:?}, checked"));
    trial.calendars.hold(version, "checked", &[]);
}
