//! A closer finish to quote (02, Req 08): the open slots before the finish of every flow
//! that the proved planner and the proved finish place are within the flow's quote, over
//! books of every family in both versions with calendars of every kind; how near the quote
//! is, beside twice the deadline; and flows appended at the end of a book, later in service
//! order, which alter nothing of the flows before them.

use flowplan_tests::answer::{PlanAnswer, WORK_BYTES};
use flowplan_tests::books::{self, encode_book, Family};
use flowplan_tests::calendar::{read_calendar, Calendar, NO_WINDOWS};
use flowplan_tests::calendars::{self, Kinds, NONE_OPEN};
use flowplan_tests::lent::{Junk, Lent};
use flowplan_tests::quote::{self, Quote};
use flowplan_tests::reader::{
    be16, read_book, Book, Version, MOST_CAP, MOST_DEADLINE, MOST_FLOWS, VERSIONS,
};
use flowplan_tests::rng::Rng;
use flowplan_tests::search::{in_time, small_case};
use flowplan_tests::second_check::{FINISH, ROW, TABLE_HEAD};
use flowplan_tests::second_dispatch::rows_from;
use flowplan_tests::second_planner::{self, chain, Outcome};
use flowplan_tests::tables::finishes_of;
use flowplan_tests::{linked_finish, linked_plan, marked};
use std::cmp::Ordering;
use std::iter::Sum;

/// The families by name, with a measure of how many books of each are drawn, and the
/// output that is lent for most of them.
const FAMILIES: [(&str, Family, usize, usize); 9] = [
    ("tiny", books::tiny_book, 30_000, 1 << 15),
    ("usual", books::usual_book, 8_000, 1 << 16),
    ("crowded", books::crowded_book, 4_000, 1 << 16),
    ("infeasible", books::infeasible_book, 4_000, 1 << 16),
    ("wide", books::wide_book, 400, 1 << 21),
    ("edge", books::edge_book, 2_000, 1 << 21),
    ("long path", books::long_path_book, 2_000, 1 << 21),
    ("full", books::full_book, 40, 1 << 23),
    ("heavy", books::heavy_book, 40, 1 << 23),
];

/// A book with its calendar, the bytes of both, and the quote of each flow.
struct Case {
    book: Book,
    calendar: Calendar,
    bytes: Vec<u8>,
    lent: Vec<u8>,
    quotes: Vec<Quote>,
}

impl Case {
    fn new(book: Book, calendar: Calendar) -> Case {
        Case {
            bytes: encode_book(&book),
            lent: calendar.encode(),
            quotes: Quote::of_each(&book, &calendar),
            book,
            calendar,
        }
    }

    /// Open slots before a slot.
    fn open(&self, slot: u32) -> u64 {
        u64::from(self.calendar.open_before(slot))
    }

    /// The open slots before a flow's finish, which must be within its quote.
    fn open_within(&self, flow: usize, finish: u32) -> u64 {
        let open = self.open(finish);
        let quote = self.quotes[flow];
        assert!(
            open <= quote.open_slots(),
            "{open} open slots before finish {finish} of flow {flow}, {quote:?}\nbook {:02x?}\n\
             calendar {:02x?}",
            self.bytes,
            self.lent
        );
        open
    }

    /// Demand 3's figure: twice the open slots before a flow's deadline.
    fn twice(&self, flow: usize) -> u64 {
        2 * self.open(self.book.flows[flow].deadline)
    }
}

/// A call of the planner that has ended.
struct Planned {
    answer: PlanAnswer,
    output: Lent,
}

impl Planned {
    fn table(&mut self) -> &[u8] {
        &self.output.slice()[..self.answer.length as usize]
    }
}

/// The finish of a flow in a table.
fn stated(table: &[u8], flow: usize) -> u32 {
    be16(table, TABLE_HEAD + FINISH * flow)
}

/// Draws buffers of junk for the proved calls.
struct Calls {
    rng: Rng,
    junk: Junk,
    /// The memory of outputs that are done with.
    spare: Vec<Vec<u8>>,
}

impl Calls {
    fn new(seed: u64) -> Calls {
        Calls {
            rng: Rng::new(seed),
            junk: Junk::new(!seed),
            spare: Vec::new(),
        }
    }

    fn work(&mut self) -> Lent {
        let length = WORK_BYTES + self.rng.index(64);
        Lent::junk(&mut self.rng, &self.junk, length)
    }

    fn plan(&mut self, case: &Case, room: usize) -> Planned {
        let memory = self.spare.pop().unwrap_or_default();
        let mut output = Lent::junk_in(memory, &mut self.rng, &self.junk, room);
        let mut work = self.work();
        let answer = linked_plan::plan(&case.bytes, &case.lent, output.slice(), work.slice());
        Planned { answer, output }
    }

    /// Outputs that are done with.
    fn take_back<const N: usize>(&mut self, planned: [Planned; N]) {
        self.spare
            .extend(planned.map(|planned| planned.output.memory()));
    }

    /// An output that is mostly as long as said, and at times short.
    fn room(&mut self, usual: usize) -> usize {
        match self.rng.below(8) {
            0 => self.rng.skewed(0, 400) as usize,
            _ => usual,
        }
    }
}

/// The quotes of marked plans by hand. In plan K both are met exactly, and plan L leaves
/// them as they are.
#[test]
fn marked_quotes() {
    // Of each flow: the open slots before its release, its path, the work up to it, the
    // quote, and the open slots before its finish.
    let hold = |bytes: &[u8], lent: &[u8], flows: &[[u64; 5]]| {
        let book = read_book(bytes).expect("a marked book");
        let case = Case::new(book, read_calendar(lent).expect("and its calendar"));
        assert_eq!(case.quotes.len(), flows.len());
        for (flow, &[release, path, work, quote, open]) in flows.iter().enumerate() {
            let quoted = case.quotes[flow];
            assert_eq!(
                [quoted.release, quoted.path, quoted.work],
                [release, path, work]
            );
            assert_eq!(quoted.open_slots(), quote);
            let mut work = vec![0; WORK_BYTES];
            let answer = linked_finish::finish(bytes, lent, flow as u32, &mut work);
            assert_eq!(answer.number, 0);
            assert_eq!(case.open_within(flow, u32::from(answer.finish)), open);
        }
    };
    let (none, book_l) = (&NO_WINDOWS, marked::book_l());
    hold(&marked::BOOK_A, none, &[[0, 5, 14, 9, 6], [0, 3, 5, 4, 3]]);
    hold(
        &marked::book_e(),
        none,
        &[[0, 5, 14, 12, 8], [0, 3, 5, 5, 3]],
    );
    hold(&marked::BOOK_G, none, &[[2, 3, 11, 8, 6], [0, 3, 6, 5, 3]]);
    let of_j = [[0, 5, 11, 10, 6], [0, 2, 2, 3, 2]];
    hold(&marked::BOOK_J, &marked::CALENDAR_J, &of_j);
    let [first, second, third] = [[1, 2, 7, 4, 4], [1, 1, 3, 2, 2], [0, 3, 16, 7, 5]];
    hold(&marked::BOOK_K, &marked::CALENDAR_K, &[first, second]);
    hold(&book_l, &marked::CALENDAR_K, &[first, second, third]);
    assert_eq!(book_l.len(), 65);
    assert_eq!([marked::table_k().len(), marked::table_l().len()], [36, 62]);
}

/// The work of a flow is that of its pseudo-jobs, w x r of each, and its path is as long
/// as they are wide.
#[test]
fn a_chain_has_the_work_and_the_path_of_its_flow() {
    let mut rng = Rng::new(0x5eed_0081);
    let (mut flows, mut pseudo_jobs) = (0, 0);
    for (_, family, count, _) in FAMILIES {
        for case in 0..count / 8 {
            let book = books::drawn(&mut rng, VERSIONS[case % 2], family);
            for flow in &book.flows {
                let chain = chain(flow, book.processors);
                let work: u64 = chain.iter().map(|pseudo_job| pseudo_job.work()).sum();
                let width: u64 = chain.iter().map(|pseudo_job| pseudo_job.width).sum();
                assert_eq!(quote::work(flow), work);
                assert_eq!(quote::path(flow, book.processors), width);
                flows += 1;
                pseudo_jobs += chain.len();
            }
        }
    }
    println!("chains summed: {flows}, of {pseudo_jobs} pseudo-jobs");
    assert!(flows > 5_000 && pseudo_jobs > 2 * flows);
}

/// How many flows of accepted plans have a figure exact, within 1, within a tenth, and
/// neither of these, first of the quote and then of twice the deadline; then how many have
/// a quote lower than, equal to and higher than twice the deadline.
#[derive(Clone, Copy, Default)]
struct Tally {
    flows: u64,
    met: [u64; 11],
    /// The open slots before the finishes, the quotes and twice the deadlines, added.
    sums: [u64; 3],
}

impl Tally {
    fn count(&mut self, open: u64, quote: u64, twice: u64) {
        let near = |figure: u64| {
            let [one, tenth] = [figure <= open + 1, 10 * figure <= 11 * open];
            [figure == open, one, tenth, !one && !tenth]
        };
        let beside = [quote < twice, quote == twice, quote > twice];
        let is = [&near(quote)[..], &near(twice), &beside].concat();
        self.add(&Tally {
            flows: 1,
            met: std::array::from_fn(|kind| u64::from(is[kind])),
            sums: [open, quote, twice],
        });
    }

    fn add(&mut self, more: &Tally) {
        self.flows += more.flows;
        let counts = self.met.iter_mut().chain(&mut self.sums);
        for (count, more) in counts.zip(more.met.iter().chain(&more.sums)) {
            *count += more;
        }
    }

    /// The shares in percent, and how many times the open slots a figure is on the whole.
    fn line(&self, of: &str) -> String {
        let share = |met: &u64| format!("{:7.1}", 100.0 * *met as f64 / self.flows as f64);
        let shares = |met: &[u64]| met.iter().map(share).collect::<String>();
        let (quote, rest) = self.met.split_at(4);
        let (twice, beside) = rest.split_at(4);
        let [quote, twice, beside] = [quote, twice, beside].map(shares);
        let [open, of_quote, of_twice] = self.sums.map(|sum| sum as f64);
        let [by_quote, by_twice] = [of_quote / open, of_twice / open];
        let flows = self.flows;
        format!("{of:<24}{flows:7} |{quote}{by_quote:7.2} |{twice}{by_twice:7.2} |{beside}")
    }
}

impl<'a> Sum<&'a Tally> for Tally {
    fn sum<I: Iterator<Item = &'a Tally>>(tallies: I) -> Tally {
        let mut sum = Tally::default();
        tallies.for_each(|tally| sum.add(tally));
        sum
    }
}

const HEAD: &str = "\
Flows of accepted plans: of 100, those with a figure that is exact, within 1 and within 10 % of
the open slots before the finish (exact ones counted in each) or more than both; how many times
as large as these it is, all flows added; and those with a quote below, at and above twice the
deadline.
                                |               quote                |         twice the deadline         |   quote beside it
                          flows |  exact   in 1   10 %   more  times |  exact   in 1   10 %   more  times |  below     at  above";

/// Quotes that are wrong by one thing.
const WRONG: [&str; 5] = [
    "the work without the flow's own",
    "no path",
    "no open slots before the release",
    "a path with caps as they stand",
    "release and finish in slots, shut ones too",
];

/// Holds the plans of one version and counts what was met.
struct Trial {
    calls: Calls,
    /// Flows of accepted plans that a wrong quote is too low for.
    wrong: [u64; WRONG.len()],
    /// Whose quote is exact and would be higher if it was rounded up.
    rounded: u64,
    /// That end by their deadlines, with all those before them; whose quote is twice the
    /// deadline then.
    on_time: u64,
    on_time_at_twice: u64,
    /// Flows held by the second planner's rows where the output was too short.
    in_rows: u64,
    /// Held by the finish of one flow, in books that are planned, and before the flow that
    /// is infeasible.
    by_finish: u64,
    before_infeasible: u64,
    calendars: Kinds,
}

impl Trial {
    fn new(seed: u64) -> Trial {
        Trial {
            calls: Calls::new(seed),
            wrong: [0; WRONG.len()],
            rounded: 0,
            on_time: 0,
            on_time_at_twice: 0,
            in_rows: 0,
            by_finish: 0,
            before_infeasible: 0,
            calendars: Kinds::default(),
        }
    }

    /// Every flow of a book that is placed, in one way or another.
    fn hold(&mut self, tally: &mut Tally, case: &Case, room: usize) {
        let room = self.calls.room(room);
        let mut planned = self.calls.plan(case, room);
        match planned.answer.number {
            0 => {
                self.calendars.count(&case.book, &case.calendar);
                self.hold_table(tally, case, planned.table());
            }
            13 => self.hold_rows(case),
            number => assert_eq!(number, 12),
        }
        self.hold_finishes(case, planned.answer);
        self.calls.take_back([planned]);
    }

    /// The finishes that stand in a written table.
    fn hold_table(&mut self, tally: &mut Tally, case: &Case, table: &[u8]) {
        let mut on_time = true;
        for flow in case.book.service_order() {
            let finish = stated(table, flow);
            let open = case.open_within(flow, finish);
            let quote = case.quotes[flow].open_slots();
            let twice = case.twice(flow);
            tally.count(open, quote, twice);
            on_time &= finish <= case.book.flows[flow].deadline;
            if on_time {
                assert!(quote <= twice, "book {:02x?}", case.bytes);
                self.on_time += 1;
                self.on_time_at_twice += u64::from(quote == twice);
            }
            self.count_wrong(case, flow, finish, open);
        }
    }

    fn count_wrong(&mut self, case: &Case, flow: usize, finish: u32, open: u64) {
        let right = case.quotes[flow];
        let flow = &case.book.flows[flow];
        let others = right.work - quote::work(flow);
        let path = quote::path(flow, MOST_CAP);
        let release = u64::from(flow.release);
        let quoted = |wrong: Quote| wrong.open_slots();
        let too_low = [
            quoted(Quote {
                work: others,
                ..right
            }) < open,
            quoted(Quote { path: 0, ..right }) < open,
            quoted(Quote {
                release: 0,
                ..right
            }) < open,
            quoted(Quote { path, ..right }) < open,
            quoted(Quote { release, ..right }) < u64::from(finish),
        ];
        for (wrong, too_low) in self.wrong.iter_mut().zip(too_low) {
            *wrong += u64::from(too_low);
        }
        let rest = right.work % right.processors;
        self.rounded += u64::from(quoted(right) == open && rest > 0);
    }

    /// The rows that are not written because the output is too short.
    fn hold_rows(&mut self, case: &Case) {
        let Outcome::Planned(plan) = second_planner::outcome(&case.bytes, &case.lent) else {
            panic!("a plan that is too long is a plan");
        };
        let finishes = finishes_of(&case.book, &plan.schedule.rows);
        for (flow, finish) in finishes.into_iter().enumerate() {
            case.open_within(flow, u32::from(finish));
            self.in_rows += 1;
        }
    }

    /// The finish of one flow, of those before the first that is infeasible.
    fn hold_finishes(&mut self, case: &Case, plan: PlanAnswer) {
        for flow in case.book.service_order() {
            let mut work = self.calls.work();
            let number = flow as u32;
            let answer = linked_finish::finish(&case.bytes, &case.lent, number, work.slice());
            if answer.number != 0 {
                assert_eq!((answer.number, answer.flow), (12, plan.flow));
                break;
            }
            case.open_within(flow, u32::from(answer.finish));
            match plan.number {
                12 => self.before_infeasible += 1,
                _ => self.by_finish += 1,
            }
        }
    }

    /// Books with every slot in use from the release on, and the longest book.
    fn extremes(&mut self, version: Version) -> Vec<Book> {
        let longest = match version {
            Version::One => books::full_book(&mut self.calls.rng),
            Version::Two => books::late_full_book(&mut self.calls.rng),
        };
        let layers = [(64, 1, 8_192), (1, 64, 8_192), (64, 64, 128)];
        let layered =
            layers.map(|(flows, jobs, slots)| books::layered_in(version, flows, jobs, slots));
        layered.into_iter().chain([longest]).collect()
    }

    /// Prints what was met beside the tally, which must be much.
    fn hold_met(&self, version: Version) {
        println!(
            "{version:?}: flows on time with all those before them {}, with a quote of twice the \
             deadline {}; by rows after 13 {}; by the finish of one flow {}, before an infeasible \
             flow {}; exact and higher if rounded up {}",
            self.on_time,
            self.on_time_at_twice,
            self.in_rows,
            self.by_finish,
            self.before_infeasible,
            self.rounded
        );
        for (what, met) in WRONG.iter().zip(self.wrong) {
            println!("{version:?}: too low with {what}: {met}");
            // In version 1 every release is 0.
            assert!(met > 100 || version == Version::One && *what == WRONG[2]);
        }
        assert!(self.on_time > 10_000 && self.on_time_at_twice > 100);
        assert!(self.in_rows > 1_000 && self.by_finish > 10_000);
        assert!(self.before_infeasible > 1_000 && self.rounded > 1_000);
        self.calendars.hold(version, "quoted", &[NONE_OPEN]);
    }
}

/// The families and the extremes in a version, each with its tally.
fn hold_families(version: Version) -> Vec<(&'static str, Tally)> {
    let mut trial = Trial::new(0x5eed_0082 + u64::from(version.byte()));
    let mut tallies = Vec::new();
    for (name, family, count, room) in FAMILIES {
        let mut tally = Tally::default();
        for _ in 0..count {
            let rng = &mut trial.calls.rng;
            let book = books::drawn(rng, version, family);
            let (book, calendar) = calendars::with_calendar(rng, book);
            trial.hold(&mut tally, &Case::new(book, calendar), room);
        }
        tallies.push((name, tally));
    }
    let mut tally = Tally::default();
    for book in trial.extremes(version) {
        let case = Case::new(book, Calendar::default());
        trial.hold(&mut tally, &case, 1 << 23);
    }
    tallies.push(("extremes", tally));
    trial.hold_met(version);
    tallies
}

/// Books of a shift, released one behind the other or all at once, with windows or none.
fn hold_shifts(released: bool, windows: bool) -> (String, Tally) {
    let mut trial = Trial::new(0x5eed_0085);
    let mut tally = Tally::default();
    for _ in 0..4_000 {
        let rng = &mut trial.calls.rng;
        let mut book = books::shift_book(rng);
        if !released {
            book.version = Version::One;
            book.flows.iter_mut().for_each(|flow| flow.release = 0);
        }
        let calendar = match windows {
            true => calendars::maintenance(rng, &book),
            false => Calendar::default(),
        };
        trial.hold(&mut tally, &Case::new(book, calendar), 1 << 16);
    }
    let released = ["at once", "in turn"][usize::from(released)];
    let windows = ["", ", windows"][usize::from(windows)];
    (format!("shift, {released}{windows}"), tally)
}

/// Every flow of every plan, and how near its quote is beside twice its deadline.
#[test]
fn every_plan_is_within_its_quotes() {
    let of_versions = VERSIONS.map(hold_families);
    let [one, two] = &of_versions;
    let mut lines = vec![HEAD.to_string()];
    for ((name, one), (_, two)) in one.iter().zip(two) {
        lines.push([one, two].into_iter().sum::<Tally>().line(name));
    }
    let of_versions = of_versions.map(|tallies| tallies.iter().map(|(_, tally)| tally).sum());
    let [one, two]: [Tally; 2] = of_versions;
    lines.push(one.line("version 1"));
    lines.push(two.line("version 2"));
    lines.push([one, two].iter().sum::<Tally>().line("all of these"));
    for (released, windows) in [(false, false), (false, true), (true, false), (true, true)] {
        let (name, tally) = hold_shifts(released, windows);
        lines.push(tally.line(&name));
        assert!(tally.flows > 20_000);
    }
    println!("{}", lines.join("\n"));
}

/// Small books searched whole: where some schedule ends a flow and all those before it by
/// their deadlines, whoever made it, the quote is at most twice the deadline.
#[test]
fn a_schedule_in_time_has_its_quotes_within_twice_the_deadline() {
    let mut rng = Rng::new(0x5eed_0086);
    // Flows without and with a schedule in time, by their quote below, at and above twice
    // the deadline; and those with one that the plan ends late.
    let (mut met, mut late) = ([[0u64; 3]; 2], 0);
    for number in 0..200_000 {
        let (version, windows) = (VERSIONS[number % 2], number / 2 % 2 == 0);
        let Some((book, calendar)) = small_case(&mut rng, version, windows) else {
            continue;
        };
        let case = Case::new(book, calendar);
        let mut found = true;
        for (place, flow) in case.book.service_order().into_iter().enumerate() {
            found = found && in_time(&books::cut(&case.book, place + 1), &case.calendar);
            let beside = case.quotes[flow].open_slots().cmp(&case.twice(flow));
            met[usize::from(found)][(beside as i8 + 1) as usize] += 1;
            if found {
                assert_ne!(beside, Ordering::Greater, "book {:02x?}", case.bytes);
                let mut work = [0; WORK_BYTES];
                let number = flow as u32;
                let answer = linked_finish::finish(&case.bytes, &case.lent, number, &mut work);
                assert_eq!(answer.number, 0);
                late += u64::from(u32::from(answer.finish) > case.book.flows[flow].deadline);
            }
        }
    }
    let [without, with] = met;
    println!(
        "quote below, at and above twice the deadline: of flows with a schedule in time {with:?}, \
         without one {without:?}; with one, and planned late {late}"
    );
    assert!(with[0] > 10_000 && with[1] > 1_000 && without[2] > 10_000 && late > 100);
}

/// A book, and one that has more flows at its end. Both have the same calendar.
struct Pair {
    shorter: Case,
    longer: Case,
}

/// The version of the shorter book and of the longer one.
const VERSION_PAIRS: [[Version; 2]; 3] = [
    [Version::One, Version::One],
    [Version::Two, Version::Two],
    [Version::One, Version::Two],
];

fn largest_deadline(book: &Book) -> Option<u32> {
    book.flows.iter().map(|flow| flow.deadline).max()
}

/// The deadline of an appended flow, from the largest before it and the one that it had.
type Deadline = fn(&mut Rng, u32, u32) -> u32;

/// As late as the flow that was served last, often no later.
fn later(rng: &mut Rng, largest: u32, own: u32) -> u32 {
    let deadline = match rng.below(4) {
        0 | 1 => largest,
        2 => largest + rng.skewed(0, 20) as u32,
        _ => largest + own,
    };
    deadline.min(MOST_DEADLINE)
}

/// Before the flow that was served last, where that can be.
fn earlier(rng: &mut Rng, largest: u32, _: u32) -> u32 {
    rng.range(1, u64::from(largest - 1).max(1)) as u32
}

impl Pair {
    fn drawn(rng: &mut Rng, versions: [Version; 2], family: Family, deadline: Deadline) -> Pair {
        let count = rng.range(1, 5) as usize;
        let mut shorter = books::drawn(rng, versions[0], family);
        shorter.flows.truncate(MOST_FLOWS - count);
        let (shorter, calendar) = calendars::with_calendar(rng, shorter);
        let largest = largest_deadline(&shorter).unwrap_or(1);
        let mut more = Vec::new();
        while more.len() < count {
            more.extend(books::drawn(rng, versions[1], family).flows);
        }
        more.truncate(count);
        for flow in &mut more {
            flow.deadline = deadline(rng, largest, flow.deadline);
            flow.release = flow.release.min(flow.deadline - 1);
        }
        let longer = Book {
            version: versions[1],
            processors: shorter.processors,
            flows: [&shorter.flows[..], &more].concat(),
        };
        Pair {
            shorter: Case::new(shorter, calendar.clone()),
            longer: Case::new(longer, calendar),
        }
    }

    /// The flows of the shorter book.
    fn flows(&self) -> usize {
        self.shorter.book.flows.len()
    }

    /// Both in turn.
    fn each<T>(&self, call: impl FnMut(&Case) -> T) -> [T; 2] {
        [&self.shorter, &self.longer].map(call)
    }

    /// Whether an appended flow has the largest deadline before it.
    fn has_tie(&self) -> bool {
        let largest = largest_deadline(&self.shorter.book);
        let mut appended = self.longer.book.flows[self.flows()..].iter();
        appended.any(|flow| Some(flow.deadline) == largest)
    }

    /// The rows in a table of the flows of the shorter book.
    fn rows<'a>(&self, table: &'a [u8]) -> Vec<&'a [u8]> {
        let rows = table[rows_from(table)..].chunks_exact(ROW);
        rows.filter(|row| usize::from(row[2]) < self.flows())
            .collect()
    }

    /// The finishes in a table of the flows of the shorter book.
    fn finishes<'a>(&self, table: &'a [u8]) -> &'a [u8] {
        &table[TABLE_HEAD..][..FINISH * self.flows()]
    }
}

/// What was met by pairs of books.
#[derive(Default)]
struct Appended {
    /// Both accepted, by their versions; those where an appended flow has the largest
    /// deadline before it.
    accepted: [u64; VERSION_PAIRS.len()],
    tie: u64,
    /// Infeasible by a flow of the shorter book, and by an appended one.
    infeasible: u64,
    by_appended: u64,
    /// Only the longer table is longer than the output, and both.
    longer_too_long: u64,
    both_too_long: u64,
    /// Finishes asked in both books; where the longer is infeasible by an appended flow.
    finishes: u64,
    finishes_by_appended: u64,
}

impl Appended {
    /// Both books beside each other, planned and asked for each finish.
    fn hold(&mut self, calls: &mut Calls, pair: &Pair, versions: usize, room: usize) {
        let flows = pair.flows();
        let [mut shorter, mut longer] = pair.each(|case| calls.plan(case, room));
        let by_appended = longer.answer.number == 12 && usize::from(longer.answer.flow) >= flows;
        match (shorter.answer.number, longer.answer.number) {
            (0, 0) => {
                assert!(shorter.answer.late <= longer.answer.late);
                let [shorter, longer] = [shorter.table(), longer.table()];
                let rows = &shorter[rows_from(shorter)..];
                assert!(longer[rows_from(longer)..].starts_with(rows));
                assert_eq!(pair.finishes(shorter), pair.finishes(longer));
                self.accepted[versions] += 1;
                self.tie += u64::from(pair.has_tie());
            }
            (12, _) => {
                assert_eq!(shorter.answer, longer.answer);
                self.infeasible += 1;
            }
            (0 | 13, 12) => {
                assert!(by_appended);
                self.by_appended += 1;
            }
            (0, 13) => self.longer_too_long += 1,
            (13, 13) => self.both_too_long += 1,
            answers => panic!("{answers:?} of book {:02x?}", pair.longer.bytes),
        }
        assert_eq!(pair.shorter.quotes, pair.longer.quotes[..flows]);
        for flow in 0..flows {
            let work = calls.work();
            let [shorter, longer] = pair.each(|case| {
                let mut work = work.clone();
                let answer =
                    linked_finish::finish(&case.bytes, &case.lent, flow as u32, work.slice());
                (answer, work)
            });
            assert!(
                shorter == longer,
                "{:?} and {:?} of flow {flow} of book {:02x?}",
                shorter.0,
                longer.0,
                pair.longer.bytes
            );
            self.finishes += 1;
            self.finishes_by_appended += u64::from(by_appended && shorter.0.number == 0);
        }
        calls.take_back([shorter, longer]);
    }
}

/// Flows at the end of the book, all later in service order than those before them, alter
/// no earlier row and no earlier finish while the longer book is accepted. Whatever becomes
/// of it, they alter no earlier quote and nothing that the finish of one flow answers.
#[test]
fn appended_flows_alter_nothing_before_them() {
    let mut calls = Calls::new(0x5eed_0087);
    let mut met = Appended::default();
    let mut calendars = Kinds::default();
    for (_, family, count, room) in FAMILIES {
        for number in 0..count {
            let versions = number % VERSION_PAIRS.len();
            let pair = Pair::drawn(&mut calls.rng, VERSION_PAIRS[versions], family, later);
            let room = calls.room(room);
            met.hold(&mut calls, &pair, versions, room);
            calendars.count(&pair.shorter.book, &pair.shorter.calendar);
        }
    }
    println!(
        "appended flows: accepted in versions 1 and 1, 2 and 2, 1 and 2 {:?}, with a tie {}; \
         infeasible {}, by an appended flow {}; too long {}, both {}; finishes {}, where an \
         appended flow is infeasible {}",
        met.accepted,
        met.tie,
        met.infeasible,
        met.by_appended,
        met.longer_too_long,
        met.both_too_long,
        met.finishes,
        met.finishes_by_appended
    );
    assert!(met.accepted.iter().all(|&met| met > 2_500) && met.tie > 5_000);
    assert!(met.infeasible > 5_000 && met.by_appended > 5_000);
    assert!(met.longer_too_long > 50 && met.both_too_long > 1_000);
    assert!(met.finishes > 50_000 && met.finishes_by_appended > 5_000);
    calendars.hold(Version::Two, "appended", &[]);
}

/// With an earlier deadline appended flows do alter rows, finishes and quotes before them.
#[test]
fn flows_appended_out_of_order_alter_plans() {
    let mut calls = Calls::new(0x5eed_0088);
    let mut met = [0u64; 4];
    for (_, family, count, room) in FAMILIES {
        for number in 0..count / 4 {
            let versions = VERSION_PAIRS[number % VERSION_PAIRS.len()];
            let pair = Pair::drawn(&mut calls.rng, versions, family, earlier);
            let [mut shorter, mut longer] = pair.each(|case| calls.plan(case, room));
            if longer.answer.number == 0 && shorter.answer.number == 0 {
                let tables = [shorter.table(), longer.table()];
                let [rows, others] = tables.map(|table| pair.rows(table));
                let [finishes, other_finishes] = tables.map(|table| pair.finishes(table));
                let quotes = &pair.longer.quotes[..pair.flows()];
                let altered = [
                    true,
                    rows != others,
                    finishes != other_finishes,
                    pair.shorter.quotes != quotes,
                ];
                for (met, altered) in met.iter_mut().zip(altered) {
                    *met += u64::from(altered);
                }
            }
            calls.take_back([shorter, longer]);
        }
    }
    let [pairs, rows, finishes, quotes] = met;
    println!(
        "appended out of order: accepted {pairs}; with other rows {rows}, other finishes \
         {finishes}, other quotes {quotes}"
    );
    assert!(met.iter().all(|&met| met > 100));
}
