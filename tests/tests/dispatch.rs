//! Differential test of the proved dispatch list against the second one: the
//! answer and every byte of every buffer, over valid and damaged tables and books
//! of both versions with calendars of every kind, with outputs and work areas of
//! every length class and junk everywhere first. Beside it what is owed of a list by itself.

use flowplan_tests::answer::{CheckAnswer, ListAnswer, Refusal, NUMBERS, WORK_BYTES};
use flowplan_tests::books::{self, encode_book, Family};
use flowplan_tests::calendar::{read_calendar, NO_WINDOWS};
use flowplan_tests::calendars::{self, Kinds};
use flowplan_tests::lent::{work_length, Junk, Lent};
use flowplan_tests::reader::{read_book, Book, Flow, Version, VERSIONS};
use flowplan_tests::rng::Rng;
use flowplan_tests::second_check::Row;
use flowplan_tests::table_trial::{Of, TableTrial};
use flowplan_tests::tables::{self, Table, WideRows};
use flowplan_tests::{
    caps, heads, linked, linked_dispatch, linked_plan, lists, marked, second_check, second_dispatch,
};
use std::collections::HashMap;

#[test]
fn marked_lists() {
    marked::hold_dispatch(linked_dispatch::dispatch);
}

/// The proved dispatch list as a check. It does not answer the late flows; they are
/// those of the second check.
fn as_check(book: &[u8], calendar: &[u8], table: &[u8], work: &mut [u8]) -> CheckAnswer {
    let mut output = vec![0x3c; table.len()];
    let answer = linked_dispatch::dispatch(book, calendar, table, &mut output, work);
    if answer.number == 0 {
        let list = second_dispatch::list_of(table);
        assert_eq!(answer, ListAnswer::accepted(list.len() as u32));
        assert_eq!(output[..list.len()], list);
        return second_check::check(book, calendar, table, &mut [0; WORK_BYTES]);
    }
    let refusal = Refusal::new(answer.number, answer.flow, answer.job);
    assert_eq!(answer, ListAnswer::refused(refusal));
    assert!(output.iter().all(|&byte| byte == 0x3c));
    CheckAnswer::refused(refusal)
}

/// It refuses what the check refuses, and leaves the work area as the check does.
#[test]
fn refusals_are_those_of_the_check() {
    marked::hold_check(as_check);
    heads::hold_check(as_check);
    caps::hold_check(as_check);
}

/// Draws cases of one version, compares them and counts what was met.
struct Trial {
    version: Version,
    rng: Rng,
    junk: Junk,
    met: [u64; NUMBERS],
    /// Those met where the output is shorter than a list of as many rows, and where
    /// it has no bytes.
    short: [u64; NUMBERS],
    no_room: [u64; NUMBERS],
    wide_rows: WideRows,
    lists: Lists,
    /// Of the calendars of accepted tables.
    calendars: Kinds,
}

/// How many lists of a kind were met.
#[derive(Default)]
struct Lists {
    all: u64,
    /// Another list by service order in place of the flow's number.
    orders_apart: u64,
    /// In outputs of their own length, and in longer ones.
    exact: u64,
    longer: u64,
    /// Of books with caps above P.
    caps_above: u64,
    /// Two bytes of P are needed, and three of the length.
    processors: u64,
    long: u64,
    /// Without rows, and with a row in the last slot.
    empty: u64,
    last_slot: u64,
}

impl Lists {
    fn count(&mut self, book: &Book, list: &[u8], room: usize) {
        let count = |of: &mut u64, met: bool| *of += u64::from(met);
        let last = lists::rows_of(list).last().map(|row| row.slot);
        self.all += 1;
        count(
            &mut self.orders_apart,
            lists::tells_orders_apart(book, list),
        );
        count(&mut self.exact, room == list.len());
        count(&mut self.longer, room > list.len());
        count(&mut self.caps_above, books::has_cap_above(book));
        count(&mut self.processors, book.processors > 255);
        count(&mut self.long, list.len() > 65_535);
        count(&mut self.empty, last.is_none());
        count(&mut self.last_slot, last == Some(8_191));
    }

    fn print(&self) {
        println!(
            "lists: {}; that tell service order from flow number: {}; in an output of their \
             length {}, in a longer one {}; with caps above P {}; P above 255 {}; longer than \
             65,535 bytes {}; without rows {}; with a row in slot 8,191 {}",
            self.all,
            self.orders_apart,
            self.exact,
            self.longer,
            self.caps_above,
            self.processors,
            self.long,
            self.empty,
            self.last_slot
        );
    }
}

impl Trial {
    fn new(version: Version, seed: u64) -> Trial {
        Trial {
            version,
            rng: Rng::new(seed),
            junk: Junk::new(!seed),
            met: [0; NUMBERS],
            short: [0; NUMBERS],
            no_room: [0; NUMBERS],
            wide_rows: WideRows::default(),
            lists: Lists::default(),
            calendars: Kinds::default(),
        }
    }

    /// Lengths of the output: exact for an accepted table, one short, longer, and
    /// any other.
    fn rooms(&mut self, table: &[u8]) -> [usize; 4] {
        let exact = lists::length_for(table);
        let any = self.rng.index(exact);
        let longer = exact + 1 + self.rng.index(300);
        let other = self.rng.pick(&[0, 6, 7, any, table.len()]);
        [exact, exact - 1, longer, other]
    }

    /// One call of each dispatch list on equal buffers; all must end equal.
    fn compare(&mut self, book: &[u8], calendar: &[u8], table: &[u8], room: usize) -> ListAnswer {
        let work_length = work_length(&mut self.rng);
        let rng = &mut self.rng;
        let mut book = Lent::holding(rng, &self.junk, book);
        let mut calendar = Lent::holding(rng, &self.junk, calendar);
        let mut table = Lent::holding(rng, &self.junk, table);
        let mut output = Lent::junk(rng, &self.junk, room);
        let mut work = Lent::junk(rng, &self.junk, work_length);
        let before = [book.clone(), calendar.clone(), table.clone()];

        let (mut expected_output, mut expected_work) = (output.clone(), work.clone());
        let expected = second_dispatch::dispatch(
            book.slice(),
            calendar.slice(),
            table.slice(),
            expected_output.slice(),
            expected_work.slice(),
        );
        let answer = linked_dispatch::dispatch_lent(
            &mut book,
            &mut calendar,
            &mut table,
            &mut output,
            &mut work,
        );

        if answer != expected || output != expected_output || work != expected_work {
            let out_at = output.differs_at(&mut expected_output);
            let work_at = work.differs_at(&mut expected_work);
            panic!(
                "answer {answer:?}, expected {expected:?}; output of {room} bytes differs first \
                 at {out_at:?}, work area of {work_length} bytes at {work_at:?}\nbook {:02x?}\n\
                 calendar {:02x?}\ntable {:02x?}",
                book.slice(),
                calendar.slice(),
                table.slice()
            );
        }
        let [of_book, of_calendar, of_table] = before;
        assert!(book == of_book, "the book was changed");
        assert!(calendar == of_calendar, "the calendar was changed");
        assert!(table == of_table, "the table was changed");
        let number = expected.number as usize;
        self.met[number] += 1;
        self.short[number] += u64::from(room < lists::length_for(table.slice()));
        self.no_room[number] += u64::from(room == 0);
        if answer.number == 0 {
            let values = read_book(book.slice()).expect("a list has a book");
            let list = &output.slice()[..answer.length as usize];
            lists::hold(&values, table.slice(), list, work.slice());
            self.lists.count(&values, list, room);
            let calendar = read_calendar(calendar.slice()).expect("a list has a calendar");
            self.calendars.count(&values, &calendar);
        }
        expected
    }

    /// With an output of one of the lengths.
    fn compare_in_one(&mut self, book: &[u8], calendar: &[u8], table: &[u8]) -> ListAnswer {
        let rooms = self.rooms(table);
        let room = self.rng.pick(&rooms);
        self.compare(book, calendar, table, room)
    }
}

impl TableTrial for Trial {
    fn rng(&mut self) -> &mut Rng {
        &mut self.rng
    }

    /// Mostly a book whose flows are not served in the order of their numbers.
    fn draw(&mut self, family: Family) -> Of {
        loop {
            let book = books::drawn(&mut self.rng, self.version, family);
            if !book.service_order().is_sorted() || self.rng.chance(1, 4) {
                return Of::new(calendars::with_calendar(&mut self.rng, book));
            }
        }
    }

    /// In outputs of each length.
    fn compare_valid(&mut self, of: &Of, table: &Table) {
        let table = table.encode(&of.book);
        for room in self.rooms(&table) {
            self.compare(&of.bytes, &of.lent, &table, room);
        }
    }

    fn compare_damaged(&mut self, of: &Of, table: &[u8]) {
        let ListAnswer {
            number, flow, job, ..
        } = self.compare_in_one(&of.bytes, &of.lent, table);
        // 13 says that the check accepts.
        let checked = match number {
            0 | 13 => CheckAnswer::accepted(0),
            _ => CheckAnswer::refused(Refusal::new(number, flow, job)),
        };
        self.wide_rows.count(&of.book, table, checked);
    }

    fn compare_bytes(&mut self, book: &[u8], calendar: &[u8], table: &[u8]) {
        self.compare_in_one(book, calendar, table);
    }
}

#[test]
fn proved_list_is_the_second_one() {
    hold_trial(Version::One, 0x5eed_0031);
}

#[test]
fn proved_list_is_the_second_one_with_releases() {
    hold_trial(Version::Two, 0x5eed_0032);
}

fn hold_trial(version: Version, seed: u64) {
    let mut trial = Trial::new(version, seed);

    trial.compare_books(6_000, books::tiny_book, 9);
    trial.compare_books(2_000, books::any_book, 6);
    trial.compare_books(60, books::wide_book, 4);
    trial.compare_books(6, books::full_book, 2);
    trial.compare_layered(version, 1);
    trial.compare_crossed(10_000);
    trial.compare_random(100_000);

    println!("{version:?}, calls: {}", trial.met.iter().sum::<u64>());
    for number in 0..NUMBERS {
        println!(
            "number {number:2}: {}, in an output too short for the rows {}, of no bytes {}",
            trial.met[number], trial.short[number], trial.no_room[number]
        );
    }
    trial.lists.print();
    let faults = version.faults().iter().copied();
    for number in faults.chain([11]).chain(14..=21).chain([24, 25]) {
        let (met, short) = (trial.met[number as usize], trial.short[number as usize]);
        assert!(short > 0 && met > short, "number {number} was never met");
    }
    assert!(trial.met[13] > 1_000 && trial.no_room[13] > 1_000);
    assert_eq!(trial.short[13], trial.met[13]);
    assert_eq!(trial.short[0], 0);
    trial.wide_rows.hold();
    trial.calendars.hold(version, "listed", &[]);
    let lists = &trial.lists;
    assert_eq!(lists.all, trial.met[0]);
    assert!(lists.orders_apart > lists.all / 4);
    for met in [lists.exact, lists.longer, lists.caps_above] {
        assert!(met > 1_000);
    }
    for met in [lists.processors, lists.long, lists.empty, lists.last_slot] {
        assert!(met > 0);
    }
}

/// Every length of the output, with work areas of every class, on the marked plans.
#[test]
fn outputs_of_every_length() {
    let cases = [
        (marked::BOOK_A.to_vec(), marked::table_a()),
        (marked::book_b(), marked::table_b()),
        (marked::book_d(3), marked::table_d(3)),
        (marked::book_e(), marked::TABLE_E.to_vec()),
        (marked::BOOK_G.to_vec(), marked::table_g()),
        (marked::BOOK_A.to_vec(), marked::table_f(3)),
        (marked::BOOK_A.to_vec(), marked::table_f(2)),
    ];
    let mut trial = Trial::new(Version::One, 0x5eed_0033);
    for (book, table) in cases {
        for room in 0..table.len() + 9 {
            for _ in 0..8 {
                trial.compare(&book, &NO_WINDOWS, &table, room);
            }
        }
    }
    println!("numbers met with outputs of every length: {:?}", trial.met);
    for number in [0, 11, 13, 18, 19] {
        assert!(trial.met[number] > 100);
    }
}

/// The lists of what the proved planner makes: every row of the plan, under the
/// planner's own work area.
#[test]
fn lists_of_plans() {
    let mut rng = Rng::new(0x5eed_0034);
    let mut listed = 0;
    for case in 0..6_000 {
        let book = books::drawn(&mut rng, VERSIONS[case % 2], books::any_book);
        let (book, calendar) = calendars::with_calendar(&mut rng, book);
        let (bytes, lent) = (encode_book(&book), calendar.encode());
        let mut table = vec![0; 1 << 16];
        let mut planned = vec![0x3c; WORK_BYTES];
        let answer = linked_plan::plan(&bytes, &lent, &mut table, &mut planned);
        if answer.number != 0 {
            continue;
        }
        table.truncate(answer.length as usize);
        let mut list = vec![0x3c; table.len()];
        let mut work = vec![0xc3; WORK_BYTES];
        let answer = linked_dispatch::dispatch(&bytes, &lent, &table, &mut list, &mut work);
        let length = table.len() - 1 - 2 * book.flows.len();
        assert_eq!(answer, ListAnswer::accepted(length as u32));
        lists::hold(&book, &table, &list[..length], &work);
        assert!(work == planned);
        listed += 1;
    }
    println!("lists of plans: {listed}");
    assert!(listed > 3_000);
}

/// Which fields of a row tell two lists apart.
#[derive(Default)]
struct Apart {
    slots: u64,
    flows: u64,
    jobs: u64,
    takes: u64,
    several: u64,
    rows: u64,
}

impl Apart {
    /// Counts a pair of different lists.
    fn count(&mut self, lists: [&[u8]; 2]) {
        let [one, other] = lists.map(lists::rows_of);
        if one.len() != other.len() {
            self.rows += 1;
            return;
        }
        let differ = |field: fn(&Row) -> u16| !one.iter().map(field).eq(other.iter().map(field));
        let slots = differ(|row| row.slot);
        let flows = differ(|row| row.flow.into());
        let jobs = differ(|row| row.job.into());
        let takes = differ(|row| row.take);
        match (slots, flows, jobs, takes) {
            (true, false, false, false) => self.slots += 1,
            (false, true, false, false) => self.flows += 1,
            (false, false, true, false) => self.jobs += 1,
            (false, false, false, true) => self.takes += 1,
            _ => self.several += 1,
        }
    }
}

/// A book with flows of which some are alike but for the deadline.
fn book_with_alike(rng: &mut Rng, version: Version) -> Book {
    let mut book = books::drawn(rng, version, books::tiny_book);
    if book.flows.len() > 1 && rng.chance(1, 2) {
        let model = book.flows[0].clone();
        let like = &mut book.flows[1];
        *like = Flow {
            deadline: like.deadline.max(model.deadline),
            ..model
        };
    }
    book
}

/// The list of a table, where it is accepted.
fn accepted_list(book: &[u8], calendar: &[u8], table: &[u8]) -> Option<Vec<u8>> {
    let mut list = vec![0; table.len()];
    let mut work = vec![0; WORK_BYTES];
    let answer = linked_dispatch::dispatch(book, calendar, table, &mut list, &mut work);
    list.truncate(answer.length as usize);
    (answer.number == 0).then_some(list)
}

/// Two different accepted tables of one book never give equal lists.
#[test]
fn different_tables_have_different_lists() {
    for version in VERSIONS {
        hold_nothing_lost(version, 0x5eed_0035);
    }
}

fn hold_nothing_lost(version: Version, seed: u64) {
    let mut rng = Rng::new(seed);
    let (mut pairs, mut apart) = (0, Apart::default());
    for _ in 0..4_000 {
        let book = book_with_alike(&mut rng, version);
        let (book, calendar) = calendars::with_calendar(&mut rng, book);
        let (bytes, lent) = (encode_book(&book), calendar.encode());
        let mut valid = Vec::new();
        valid.extend(tables::planned_table(&book, &calendar));
        valid.extend((0..2).filter_map(|_| tables::delayed_table(&mut rng, &book, &calendar)));
        // The table of each list.
        let mut known: HashMap<Vec<u8>, Vec<u8>> = HashMap::new();
        for table in &valid {
            let intact = table.encode(&book);
            let list = accepted_list(&bytes, &lent, &intact).expect("a valid table");
            for _ in 0..8 {
                let near = tables::varied(&mut rng, &book, table).encode(&book);
                let Some(near_list) = accepted_list(&bytes, &lent, &near) else {
                    continue;
                };
                if near != intact {
                    apart.count([&list, &near_list]);
                }
                let other = known.insert(near_list, near.clone());
                assert!(other.is_none_or(|other| other == near));
            }
            let other = known.insert(list, intact.clone());
            assert!(other.is_none_or(|other| other == intact));
        }
        pairs += known.len() * known.len().saturating_sub(1) / 2;
    }
    println!(
        "{version:?}, pairs of different tables of a book with different lists: {pairs}; of near \
         ones that differ in slots alone {}, flows {}, jobs {}, takes {}, in several {}, in the \
         number of rows {}",
        apart.slots, apart.flows, apart.jobs, apart.takes, apart.several, apart.rows
    );
    assert!(pairs > 50_000);
    for met in [apart.slots, apart.flows, apart.jobs, apart.takes] {
        assert!(met > 100);
    }
    assert!(apart.several > 100 && apart.rows > 100);
}

/// The longest list of all, of 64 flows of 64 jobs in 8,192 slots.
#[test]
fn longest_list() {
    const LONGEST: usize = 201_326_599;
    let book = encode_book(&books::largest_book());
    let mut table = vec![0; 201_326_728];
    let mut planned = vec![0; WORK_BYTES];
    let answer = linked_plan::plan(&book, &NO_WINDOWS, &mut table, &mut planned);
    assert_eq!(answer.length as usize, table.len());
    let mut output = vec![0x3c; LONGEST + 1];
    let mut work = vec![0x3c; WORK_BYTES];

    let short = &mut output[..LONGEST - 1];
    let answer = linked_dispatch::dispatch(&book, &NO_WINDOWS, &table, short, &mut work);
    assert_eq!(answer, ListAnswer::refused(Refusal::of_all(13)));
    assert!(output.iter().all(|&byte| byte == 0x3c));
    assert!(work.iter().all(|&byte| byte == 0));

    let answer = linked_dispatch::dispatch(&book, &NO_WINDOWS, &table, &mut output, &mut work);
    assert_eq!(answer, ListAnswer::accepted(LONGEST as u32));
    assert_eq!(output[LONGEST], 0x3c);
    assert!(work == planned);
    assert_eq!(output[..7], [0x0c, 0x00, 0x00, 0x07, 0x01, 0x10, 0x00]);
    let mut rows = output[7..LONGEST].chunks_exact(6);
    for slot in 0..8_192u16 {
        let [high, low] = slot.to_be_bytes();
        for flow in 0..64 {
            for job in 0..64 {
                assert_eq!(rows.next(), Some(&[high, low, flow, job, 0, 1][..]));
            }
        }
    }
    assert!(rows.next().is_none());

    let verdict = linked::check(&book, &NO_WINDOWS, &table, &mut planned);
    assert_eq!(verdict, CheckAnswer::accepted(64));
}
