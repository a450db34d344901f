//! Differential test of the proved planner against the literal one: the answer
//! and every byte of output and work area, over books of every family in both
//! versions and damaged ones with calendars of every kind, with outputs and work
//! areas of every length class and junk everywhere first. The planner's own tables go through the proved
//! check.

use flowplan_tests::answer::{CheckAnswer, PlanAnswer, Refusal, NUMBERS, WORK_BYTES};
use flowplan_tests::books::{self, encode_book, Family};
use flowplan_tests::calendar::{read_calendar, Calendar, NO_WINDOWS};
use flowplan_tests::calendars::{self, Kinds, NONE_OPEN};
use flowplan_tests::edges::Edges;
use flowplan_tests::lent::{work_length, Junk, Lent};
use flowplan_tests::longest::Lengths;
use flowplan_tests::reader::{read_book, Book, Flow, Job, Version, VERSIONS};
use flowplan_tests::rng::Rng;
use flowplan_tests::second_planner::{self, Outcome, PseudoJob};
use flowplan_tests::{caps, heads, linked, linked_plan, lowered, marked, twins};

#[test]
fn marked_plans() {
    marked::hold_planner(linked_plan::plan);
    marked::hold_check(linked::check);
}

#[test]
fn flow_heads() {
    heads::hold_planner(linked_plan::plan);
}

#[test]
fn caps_about_the_processors() {
    caps::hold_planner(linked_plan::plan);
}

/// Planner and check; the answer, the output and the work area.
#[test]
fn a_book_is_served_as_its_lowered_book() {
    let (plan, check) = (linked_plan::plan, linked::check);
    lowered::hold(plan, check, Version::One, 0x5eed_0021, 20_000);
    lowered::hold(plan, check, Version::Two, 0x5eed_0022, 20_000);
}

/// Planner and check; the answer, the output and the work area.
#[test]
fn both_versions_without_releases_are_alike() {
    twins::hold(linked_plan::plan, linked::check, 0x5eed_0013, 40_000);
}

/// Draws cases, compares them and counts the numbers that were met.
struct Trial {
    rng: Rng,
    junk: Junk,
    met: [u64; NUMBERS],
    /// Those met by books that pass their checks and have caps above P.
    above: [u64; NUMBERS],
    books: u64,
    late: u64,
    /// Of the flows of accepted calls.
    edges: Edges,
    /// Of the tables of accepted calls.
    lengths: Lengths,
    /// Of the calendars of accepted calls, and of those that were refused by 12.
    calendars: Kinds,
    infeasible: Kinds,
}

impl Trial {
    fn new(seed: u64) -> Trial {
        Trial {
            rng: Rng::new(seed),
            junk: Junk::new(!seed),
            met: [0; NUMBERS],
            above: [0; NUMBERS],
            books: 0,
            late: 0,
            edges: Edges::default(),
            lengths: Lengths::default(),
            calendars: Kinds::default(),
            infeasible: Kinds::default(),
        }
    }

    /// One call of each planner on equal buffers; all must end equal.
    fn compare(
        &mut self,
        book: &[u8],
        calendar: &[u8],
        outcome: &Outcome,
        room: usize,
        work_length: usize,
    ) {
        let above = read_book(book).is_ok_and(|book| books::has_cap_above(&book));
        let rng = &mut self.rng;
        let mut book = Lent::holding(rng, &self.junk, book);
        let mut calendar = Lent::holding(rng, &self.junk, calendar);
        let mut output = Lent::junk(rng, &self.junk, room);
        let mut work = Lent::junk(rng, &self.junk, work_length);
        let (book_before, calendar_before) = (book.clone(), calendar.clone());

        let (mut expected_output, mut expected_work) = (output.clone(), work.clone());
        let expected =
            second_planner::deliver(outcome, expected_output.slice(), expected_work.slice());
        let answer = linked_plan::plan_lent(&mut book, &mut calendar, &mut output, &mut work);

        if answer != expected || output != expected_output || work != expected_work {
            let out_at = output.differs_at(&mut expected_output);
            let work_at = work.differs_at(&mut expected_work);
            panic!(
                "answer {answer:?}, expected {expected:?}; output of {room} bytes differs first \
                 at {out_at:?}, work area of {work_length} bytes at {work_at:?}\nbook {:02x?}\n\
                 calendar {:02x?}",
                book.slice(),
                calendar.slice()
            );
        }
        assert!(book == book_before, "the book was changed");
        assert!(calendar == calendar_before, "the calendar was changed");
        self.met[expected.number as usize] += 1;
        self.above[expected.number as usize] += u64::from(above);

        if [0, 12].contains(&answer.number) {
            let book = read_book(book.slice()).expect("a book that passes its checks");
            let calendar = read_calendar(calendar.slice()).expect("and its calendar");
            match answer.number {
                0 => self.calendars.count(&book, &calendar),
                _ => self.infeasible.count(&book, &calendar),
            }
        }
        if answer.number == 0 {
            self.late += u64::from(answer.late > 0);
            let table = &output.slice()[..answer.length as usize];
            self.edges.count(book.slice(), table);
            self.lengths.count(book.slice(), table);
            let mut checked = Lent::junk(&mut self.rng, &self.junk, work_length);
            let verdict = linked::check(book.slice(), calendar.slice(), table, checked.slice());
            assert_eq!(verdict, CheckAnswer::accepted(answer.late));
            let planned = &work.slice()[..WORK_BYTES];
            assert!(&checked.slice()[..WORK_BYTES] == planned);
        }
    }

    /// A book with outputs of every length class.
    fn compare_bytes(&mut self, book: &[u8], calendar: &[u8]) {
        let outcome = second_planner::outcome(book, calendar);
        self.books += 1;
        let rooms = match &outcome {
            Outcome::Planned(plan) => {
                let exact = plan.table.len();
                let any = self.rng.index(exact);
                let longer = exact + 1 + self.rng.index(300);
                vec![exact, exact - 1, longer, self.rng.pick(&[0, 7, 8, any])]
            }
            _ => vec![self.rng.skewed(0, 2_000) as usize],
        };
        for room in rooms {
            let work_length = work_length(&mut self.rng);
            self.compare(book, calendar, &outcome, room, work_length);
        }
    }

    /// Without windows.
    fn compare_book(&mut self, book: &Book) {
        self.compare_bytes(&encode_book(book), &NO_WINDOWS);
    }

    /// A book of a family and a calendar.
    fn draw(&mut self, version: Version, family: Family) -> (Book, Calendar) {
        let book = books::drawn(&mut self.rng, version, family);
        calendars::with_calendar(&mut self.rng, book)
    }

    fn compare_drawn(&mut self, version: Version, family: Family) {
        let (book, calendar) = self.draw(version, family);
        let lent = calendars::lent(&mut self.rng, &calendar);
        self.compare_bytes(&encode_book(&book), &lent);
    }

    fn print(&self) {
        let cases: u64 = self.met.iter().sum();
        println!("books: {}, calls: {cases}", self.books);
        println!("accepted calls with late flows: {}", self.late);
        for (number, (met, above)) in self.met.iter().zip(&self.above).enumerate() {
            println!("number {number:2}: {met}, with caps above P: {above}");
        }
    }
}

#[test]
fn proved_planner_is_the_literal_one() {
    hold_trial(Version::One, 0x5eed_0002);
}

#[test]
fn proved_planner_is_the_literal_one_with_releases() {
    hold_trial(Version::Two, 0x5eed_0012);
}

fn hold_trial(version: Version, seed: u64) {
    let mut trial = Trial::new(seed);

    for _ in 0..20_000 {
        trial.compare_drawn(version, books::tiny_book);
    }
    for _ in 0..12_000 {
        trial.compare_drawn(version, books::any_book);
    }
    for _ in 0..1_500 {
        trial.compare_drawn(version, books::crowded_book);
        trial.compare_drawn(version, books::infeasible_book);
    }
    for _ in 0..100 {
        trial.compare_drawn(version, books::wide_book);
        trial.compare_drawn(version, books::edge_book);
        trial.compare_drawn(version, books::long_path_book);
    }
    for _ in 0..12 {
        trial.compare_drawn(version, books::full_book);
    }
    for _ in 0..40 {
        trial.compare_drawn(version, books::heavy_book);
    }
    // Every slot in use from the release on, by every flow or by one.
    for (flows, jobs, slots) in [(64, 1, 8_192), (1, 64, 8_192), (64, 64, 128)] {
        trial.compare_book(&books::layered_in(version, flows, jobs, slots));
    }

    // Books cut at any point of the service order, which keep their calendar.
    for _ in 0..1_500 {
        let (book, calendar) = trial.draw(version, books::any_book);
        let kept = trial.rng.index(book.flows.len() + 1);
        let cut = encode_book(&books::cut(&book, kept));
        trial.compare_bytes(&cut, &calendar.encode());
    }

    // Damaged books of every family.
    for _ in 0..20_000 {
        let (book, calendar) = trial.draw(version, books::any_book);
        let mut bytes = encode_book(&book);
        books::damage_book(&mut trial.rng, &mut bytes);
        let lent = calendars::lent(&mut trial.rng, &calendar);
        trial.compare_bytes(&bytes, &lent);
    }

    println!("version {version:?}");
    trial.print();
    let faults = version.faults().iter().copied();
    for number in faults.chain([0, 11, 12, 13, 24]) {
        let met = trial.met[number as usize];
        assert!(met > 0, "number {number} was never met");
    }
    for number in [0, 11, 12, 13] {
        let met = trial.above[number];
        assert!(met > 0, "number {number} was never met with caps above P");
    }
    assert!(trial.late > 0);
    trial.edges.hold(&format!("{version:?}, planned"));
    trial.lengths.hold(&format!("{version:?}, planned"));
    // With no open slot before a deadline a flow is infeasible.
    trial.calendars.hold(version, "planned", &[NONE_OPEN]);
    trial.infeasible.hold(version, "infeasible", &[]);
}

fn job(size: u32, cap: u32, precedence: u64) -> Job {
    Job {
        size,
        cap,
        precedence,
    }
}

/// Three flows whose chains are told here by hand: 2 × n pseudo-jobs, the longest
/// path there is, and takes that change while the rate does not. The second planner
/// cuts them so, and the proved one has its rows, or refuses the path that is too long.
#[test]
fn marked_chains() {
    let mut trial = Trial::new(0x5eed_0015);
    let in_a_row =
        |jobs: u32, size, cap| Vec::from_iter((0..jobs).map(|i| job(size, cap, (1 << i) >> 1)));
    let run = |width, takes| PseudoJob { width, takes };
    let alone =
        |jobs, job, take| Vec::from_iter((0..jobs).map(|k| if k == job { take } else { 0 }));

    let twice = Vec::from_iter((0..10).map(|u| run(1, alone(5, u / 2, 2 - u % 2))));
    let longest = Vec::from_iter((0..64).map(|i| run(1_000_000, alone(64, i, 1))));
    let equal_rates = [[1, 3, 0], [0, 2, 2], [0, 0, 2]];
    let marked = [
        (in_a_row(5, 3, 2), twice, 0),
        (in_a_row(64, 1_000_000, 1), longest, 12),
        (
            vec![job(1, 1, 0), job(5, 3, 0), job(4, 2, 1)],
            Vec::from_iter(equal_rates.map(|takes| run(1, takes.to_vec()))),
            0,
        ),
    ];
    for (jobs, chain, number) in marked {
        let book = Book::new(4, vec![Flow::new(4_096, jobs)]);
        assert_eq!(second_planner::chain(&book.flows[0], 4), chain);
        let bytes = encode_book(&book);
        let outcome = second_planner::outcome(&bytes, &NO_WINDOWS);
        let before = trial.met[number];
        trial.compare(&bytes, &NO_WINDOWS, &outcome, 1_000, WORK_BYTES);
        assert_eq!(trial.met[number], before + 1);
    }
}

/// Jobs without a rest, with a rest of one and with the largest rest, up to the
/// largest size; another job beside, and one behind.
#[test]
fn sizes_about_multiples_of_the_cap() {
    let mut trial = Trial::new(0x5eed_0041);
    for cap in [1, 2, 3, 5, 64, 1_000, 4_095, 4_096] {
        for whole in [1, 2, 3, 100, 243, 4_095, 8_191, 8_192, 1_000_000 / cap] {
            for size in whole * cap - 1..=whole * cap + 1 {
                if (1..=1_000_000).contains(&size) {
                    let jobs = vec![job(size, cap, 0), job(7, 3, 0), job(1, 1, 1)];
                    trial.compare_book(&Book::new(4_096, vec![Flow::new(4_096, jobs)]));
                }
            }
        }
    }
    trial.print();
    assert!(trial.met[0] > 0 && trial.met[12] > 0 && trial.met[13] > 0);
}

/// The longest book of each version, planned and checked.
#[test]
fn longest_books() {
    let mut trial = Trial::new(0x5eed_0014);
    let families = [books::full_book, books::late_full_book];
    for (length, family) in [57_544, 57_672].into_iter().zip(families) {
        trial.met[0] = 0;
        for _ in 0..10 {
            let book = encode_book(&family(&mut trial.rng));
            assert_eq!(book.len(), length);
            let outcome = second_planner::outcome(&book, &NO_WINDOWS);
            if let Outcome::Planned(plan) = &outcome {
                let room = plan.table.len();
                trial.compare(&book, &NO_WINDOWS, &outcome, room, WORK_BYTES);
            }
        }
        println!("planned and checked with {length} bytes: {}", trial.met[0]);
        assert!(trial.met[0] > 2);
    }
}

/// The longest table of all, 64 flows of 64 jobs in 8,192 slots.
#[test]
fn largest_table() {
    let book = encode_book(&books::largest_book());
    let Outcome::Planned(plan) = second_planner::outcome(&book, &NO_WINDOWS) else {
        panic!("the book is feasible");
    };
    let length = plan.table.len();
    assert_eq!(length, 201_326_728);
    let mut output = vec![0x3c; length];
    let mut work = vec![0x3c; WORK_BYTES];

    let answer = linked_plan::plan(&book, &NO_WINDOWS, &mut output[1..], &mut work);
    assert_eq!(answer, PlanAnswer::refused(Refusal::of_all(13)));
    assert!(output.iter().all(|&byte| byte == 0x3c));
    assert!(work.iter().all(|&byte| byte == 0));

    let answer = linked_plan::plan(&book, &NO_WINDOWS, &mut output, &mut work);
    assert_eq!(answer, PlanAnswer::accepted(64, length as u32));
    assert!(output == plan.table);
    assert!(work.chunks_exact(2).all(|pair| pair == [0x10, 0x00]));

    let mut checked = vec![0x3c; WORK_BYTES];
    let verdict = linked::check(&book, &NO_WINDOWS, &output, &mut checked);
    assert_eq!(verdict, CheckAnswer::accepted(64));
    assert!(checked == work);
}

/// Two million short inputs: damaged small books of both versions and bytes that
/// are hardly one, with calendars of no window or one.
#[test]
fn short_and_damaged_inputs() {
    let mut trial = Trial::new(0x5eed_0003);
    let mut pool: Vec<Vec<u8>> = Vec::new();
    while pool.len() < 4_000 {
        let version = VERSIONS[pool.len() % 2];
        let bytes = encode_book(&books::drawn(&mut trial.rng, version, books::tiny_book));
        if bytes.len() <= 130 {
            pool.push(bytes);
        }
    }
    pool.push(marked::BOOK_A.to_vec());
    pool.push(marked::BOOK_G.to_vec());
    pool.push(marked::book_e());
    for case in 0..2_000_000 {
        let calendar = match trial.rng.below(4) {
            0 => Calendar::of(&[[1, 2 + trial.rng.below(4) as u32]]),
            _ => Calendar::default(),
        };
        let bytes = if case % 2 == 0 {
            books::random_bytes(&mut trial.rng, 60)
        } else {
            let from = trial.rng.index(pool.len());
            let mut bytes = pool[from].clone();
            books::damage_book(&mut trial.rng, &mut bytes);
            bytes
        };
        let calendar = calendars::lent(&mut trial.rng, &calendar);
        let outcome = second_planner::outcome(&bytes, &calendar);
        trial.books += 1;
        let room = match &outcome {
            Outcome::Planned(plan) => plan.table.len() + trial.rng.index(3) - 1,
            _ => trial.rng.index(40),
        };
        let work_length = match trial.rng.below(4) {
            0 => work_length(&mut trial.rng),
            1 => WORK_BYTES,
            _ => trial.rng.index(100),
        };
        trial.compare(&bytes, &calendar, &outcome, room, work_length);
    }
    trial.print();
}
