//! Differential test of the proved finish of one flow against the second one: the
//! answer and every byte of book and work area, over every flow of drawn books of
//! both versions with calendars of every kind, numbers that are no flow's, and damaged
//! books and calendars, with work areas of every length class and junk everywhere first. Beside it the proved planner: the
//! finish is that of its table, and all is as for the book cut after the flow.

use flowplan_tests::answer::{FinishAnswer, PlanAnswer, Refusal, NONE, NUMBERS, WORK_BYTES};
use flowplan_tests::books::{self, encode_book, Family};
use flowplan_tests::calendar::{read_calendar, Calendar, NO_WINDOWS};
use flowplan_tests::calendars;
use flowplan_tests::lent::{work_length, Junk, Lent};
use flowplan_tests::reader::{be16, read_book, Book, Flow, Job, Version, VERSIONS};
use flowplan_tests::rng::Rng;
use flowplan_tests::second_check::{FINISH, TABLE_HEAD};
use flowplan_tests::second_finish::{self, Outcome};
use flowplan_tests::second_planner::{self, critical_path};
use flowplan_tests::{caps, heads, linked, linked_finish, linked_plan, lowered, marked, twins};
use std::cmp::Ordering;

#[test]
fn marked_finishes() {
    marked::hold_finish(linked_finish::finish);
}

/// The proved finish as a planner: it is asked for the flow that is served last, so
/// that every flow is placed. It makes no table; that, the late flows and 13 are the
/// second planner's, whose finish and work area must be the same.
fn as_planner(book: &[u8], calendar: &[u8], output: &mut [u8], work: &mut [u8]) -> PlanAnswer {
    let order = read_book(book).map_or(Vec::new(), |book| book.service_order());
    let last = order.last().copied().unwrap_or(0);
    let mut planned = work.to_vec();
    let answer = linked_finish::finish(book, calendar, last as u32, work);
    let refusal = Refusal::new(answer.number, answer.flow, answer.job);
    if answer.number == 23 {
        assert!(order.is_empty());
        assert!(planned == work);
        return second_planner::plan(book, calendar, output, work);
    }
    if answer.number != 0 {
        assert_eq!(answer, FinishAnswer::refused(refusal));
        return PlanAnswer::refused(refusal);
    }
    let plan = second_planner::plan(book, calendar, output, &mut planned);
    if plan.number == 13 {
        work.copy_from_slice(&planned);
        return plan;
    }
    assert_eq!(plan.number, 0);
    assert_eq!(answer, FinishAnswer::accepted(stated(output, last)));
    assert!(planned == work);
    plan
}

/// The finish of a flow in a table.
fn stated(table: &[u8], flow: usize) -> u16 {
    be16(table, TABLE_HEAD + FINISH * flow) as u16
}

/// It refuses what the planner refuses, 13 left out, and leaves the work area as the
/// planner does.
#[test]
fn the_last_flow_is_served_as_by_the_planner() {
    marked::hold_planner(as_planner);
    heads::hold_planner(as_planner);
    caps::hold_planner(as_planner);
}

#[test]
fn a_book_is_served_as_its_lowered_book() {
    for version in VERSIONS {
        lowered::hold(as_planner, linked::check, version, 0x5eed_0055, 3_000);
    }
}

#[test]
fn both_versions_without_releases_are_alike() {
    twins::hold(as_planner, linked::check, 0x5eed_0056, 5_000);
}

/// How many calls of a kind were met.
#[derive(Default)]
struct Kinds {
    /// Where the planner refuses the book by 12: its flow is served before the one
    /// named, is that one, or is served after it.
    infeasible_before: u64,
    infeasible_named: u64,
    infeasible_after: u64,
    /// 12 whose flow has another number in the cut book.
    renumbered: u64,
    /// Accepted: of a late flow (02, Req 06), at twice the deadline, in a book with caps
    /// above P, of a flow with a release.
    late: u64,
    at_twice: u64,
    caps_above: u64,
    released: u64,
    /// Accepted: a flow with the same deadline is served before it, or after it.
    tie_before: u64,
    tie_after: u64,
    /// Accepted: another use of some slot than the whole book has.
    less_used: u64,
    /// Work areas: no bytes, short by one, exact, longer.
    areas: [u64; 4],
    /// 23 in a work area that is too short, and where the lowest byte, or the two
    /// lowest, are the number of a flow.
    no_flow_short: u64,
    no_flow_by_byte: u64,
    no_flow_by_two: u64,
    /// A fault of the book where the number is no flow's, where the work area is too
    /// short, and at a flow behind the one named.
    fault_and_no_flow: u64,
    fault_and_short: u64,
    fault_behind: u64,
    /// A fault of the book beside one of the calendar; 23 beside one; 24, also in a work
    /// area that is too short.
    fault_and_calendar: u64,
    no_flow_and_calendar: u64,
    calendar: u64,
    calendar_short: u64,
    /// Accepted: with windows, and in a book whose calendar shuts a slot before the
    /// finish.
    windows: u64,
    shut_before: u64,
    /// 12 of a flow with no open slot before its deadline.
    none_open: u64,
    /// Books whose planner's table has every finish: in an output that was long
    /// enough, and after 13 in a longer one.
    in_table: u64,
    in_longer_table: u64,
}

impl Kinds {
    /// Every kind with what it is called.
    fn all(&self) -> Vec<(&'static str, u64)> {
        let [none, short, exact, longer] = self.areas;
        vec![
            ("infeasible before", self.infeasible_before),
            ("infeasible named", self.infeasible_named),
            ("infeasible after", self.infeasible_after),
            ("12 renumbered by the cut", self.renumbered),
            ("late", self.late),
            ("at twice the deadline", self.at_twice),
            ("caps above P", self.caps_above),
            ("tie served before", self.tie_before),
            ("tie served after", self.tie_after),
            ("less used than by all", self.less_used),
            ("area of no bytes", none),
            ("area short by one", short),
            ("exact area", exact),
            ("longer area", longer),
            ("23 and short area", self.no_flow_short),
            ("23, a flow by its lowest byte", self.no_flow_by_byte),
            ("23, a flow by its two lowest bytes", self.no_flow_by_two),
            ("fault and no flow", self.fault_and_no_flow),
            ("fault and short area", self.fault_and_short),
            ("fault behind the flow", self.fault_behind),
            ("fault and faulty calendar", self.fault_and_calendar),
            ("23 and faulty calendar", self.no_flow_and_calendar),
            ("24", self.calendar),
            ("24 and short area", self.calendar_short),
            ("with windows", self.windows),
            ("with a shut slot before the finish", self.shut_before),
            ("12, no open slot before the deadline", self.none_open),
            ("books with a table", self.in_table),
            ("books with a longer table", self.in_longer_table),
        ]
    }
}

fn count(of: &mut u64, met: bool) {
    *of += u64::from(met);
}

/// The bytes of a book and of its calendar.
#[derive(Clone, Copy)]
struct Of<'a> {
    book: &'a [u8],
    calendar: &'a [u8],
}

/// Draws cases, compares them and counts what was met.
struct Trial {
    rng: Rng,
    junk: Junk,
    books: u64,
    met: [u64; NUMBERS],
    kinds: Kinds,
    /// Lent to the planner, and longer after each 13.
    output: Vec<u8>,
}

impl Trial {
    fn new(seed: u64) -> Trial {
        Trial {
            rng: Rng::new(seed),
            junk: Junk::new(!seed),
            books: 0,
            met: [0; NUMBERS],
            kinds: Kinds::default(),
            output: vec![0; 1 << 12],
        }
    }

    /// One call of each finish on equal buffers; all must end equal.
    fn compare(&mut self, of: Of, flow: u32, outcome: &Outcome, length: usize) {
        let rng = &mut self.rng;
        let mut book = Lent::holding(rng, &self.junk, of.book);
        let mut calendar = Lent::holding(rng, &self.junk, of.calendar);
        let mut work = Lent::junk(rng, &self.junk, length);
        let (book_before, calendar_before) = (book.clone(), calendar.clone());

        let mut expected_work = work.clone();
        let expected = second_finish::deliver(outcome, expected_work.slice());
        let answer = linked_finish::finish_lent(&mut book, &mut calendar, flow, &mut work);

        if answer != expected || work != expected_work {
            let differs = work.differs_at(&mut expected_work);
            panic!(
                "answer {answer:?}, expected {expected:?}, to flow {flow}; work area of {length} \
                 bytes differs first at {differs:?}\nbook {:02x?}\ncalendar {:02x?}",
                book.slice(),
                calendar.slice()
            );
        }
        assert!(book == book_before, "the book was changed");
        assert!(calendar == calendar_before, "the calendar was changed");
        self.met[expected.number as usize] += 1;
        match length {
            0 => self.kinds.areas[0] += 1,
            _ if length == WORK_BYTES - 1 => self.kinds.areas[1] += 1,
            _ if length == WORK_BYTES => self.kinds.areas[2] += 1,
            _ => count(&mut self.kinds.areas[3], length > WORK_BYTES),
        }
    }

    /// In a work area of each length class.
    fn compare_in_each(&mut self, of: Of, flow: u32, outcome: &Outcome) {
        let longer = WORK_BYTES + 1 + self.rng.index(64);
        for length in [0, WORK_BYTES - 1, WORK_BYTES, longer] {
            self.compare(of, flow, outcome, length);
        }
    }

    /// In a work area of one of the length classes.
    fn compare_in_one(&mut self, of: Of, flow: u32, outcome: &Outcome) -> usize {
        let length = work_length(&mut self.rng);
        self.compare(of, flow, outcome, length);
        length
    }

    /// A number that is no flow's in a book of so many: the edges, and numbers whose
    /// lowest bytes are a flow's.
    fn no_flow(&mut self, count: usize) -> u32 {
        let count = count as u32;
        let near = self.rng.below(u64::from(count) + 1) as u32;
        let any = self.rng.draw() as u32;
        let edges = [count, 64, 255, 256, 1 << 16, u32::MAX];
        let by_bytes = [256 | near, 1 << 16 | near, 1 << 31 | near];
        let numbers = [&edges[..], &by_bytes, &[any.max(count)]].concat();
        self.rng.pick(&numbers)
    }

    /// 23 for a number that is no flow's, also where the calendar is faulty.
    fn compare_no_flow(&mut self, of: Of, count: usize, flow: u32) {
        let outcome = Outcome::Faulty(Refusal::of_all(23));
        assert_eq!(second_finish::outcome(of.book, of.calendar, flow), outcome);
        let length = self.compare_in_one(of, flow, &outcome);
        let kinds = &mut self.kinds;
        kinds.no_flow_and_calendar += u64::from(read_calendar(of.calendar).is_err());
        kinds.no_flow_short += u64::from(length < WORK_BYTES);
        kinds.no_flow_by_byte += u64::from(((flow & 0xff) as usize) < count);
        kinds.no_flow_by_two += u64::from(((flow & 0xffff) as usize) < count);
    }

    /// 24 for a flow of the book, and 23 for a number that is no flow's, where the
    /// calendar is faulty.
    fn compare_faulty_calendar(&mut self, book: &Book, calendar: &Calendar) {
        let bytes = encode_book(book);
        let lent = calendars::damaged(&mut self.rng, calendar);
        let of = Of {
            book: &bytes,
            calendar: &lent,
        };
        if read_calendar(&lent).is_ok() {
            return;
        }
        let flow = self.no_flow(book.flows.len());
        self.compare_no_flow(of, book.flows.len(), flow);
        if !book.flows.is_empty() {
            let flow = self.rng.index(book.flows.len()) as u32;
            let outcome = Outcome::Faulty(Refusal::of_all(24));
            assert_eq!(second_finish::outcome(of.book, of.calendar, flow), outcome);
            let length = self.compare_in_one(of, flow, &outcome);
            self.kinds.calendar += 1;
            self.kinds.calendar_short += u64::from(length < WORK_BYTES);
        }
    }

    /// Every flow of a book without windows.
    fn compare_without(&mut self, book: &Book) {
        self.compare_book(book, &Calendar::default());
    }

    /// Every flow of a book, and numbers that are no flow's.
    fn compare_book(&mut self, book: &Book, calendar: &Calendar) {
        let (bytes, lent) = (encode_book(book), calendar.encode());
        let of = Of {
            book: &bytes,
            calendar: &lent,
        };
        let flows = book.flows.len();
        self.books += 1;
        for flow in [flows as u32, 64, 255, 256, u32::MAX] {
            self.compare_no_flow(of, flows, flow);
        }
        let flow = self.no_flow(flows);
        self.compare_no_flow(of, flows, flow);
        self.compare_faulty_calendar(book, calendar);

        let owed = second_finish::outcomes(book, calendar);
        let order = book.service_order();
        let stops = order
            .iter()
            .position(|&flow| matches!(owed[flow], Outcome::Infeasible(_)));
        for (place, &flow) in order.iter().enumerate() {
            let outcome = &owed[flow];
            if flows <= 12 {
                self.compare_in_each(of, flow as u32, outcome);
            } else {
                self.compare_in_one(of, flow as u32, outcome);
                self.compare(of, flow as u32, outcome, WORK_BYTES);
            }
            self.hold_cut(book, calendar, of, &order, place);
            match stops.map(|stops| stops.cmp(&place)) {
                None => {}
                Some(Ordering::Less) => self.kinds.infeasible_before += 1,
                Some(Ordering::Equal) => {
                    let none_open = calendar.open_before(book.flows[flow].deadline) == 0;
                    self.kinds.infeasible_named += 1;
                    count(&mut self.kinds.none_open, none_open);
                }
                Some(Ordering::Greater) => self.kinds.infeasible_after += 1,
            }
            if let Outcome::Finished(finish, used) = outcome {
                self.count_finished(book, calendar, &order, place, *finish);
                assert!(calendar.shut_slots().all(|slot| used[slot as usize] == 0));
                if let Some(Outcome::Finished(_, by_all)) = order.last().map(|&last| &owed[last]) {
                    count(&mut self.kinds.less_used, used != by_all);
                }
            }
        }
        self.hold_table(of, &owed);
    }

    fn count_finished(
        &mut self,
        book: &Book,
        calendar: &Calendar,
        order: &[usize],
        place: usize,
        finish: u16,
    ) {
        let flow = &book.flows[order[place]];
        let finish = u32::from(finish);
        let like = |&number: &usize| book.flows[number].deadline == flow.deadline;
        let kinds = &mut self.kinds;
        count(&mut kinds.late, finish + 1 > flow.deadline);
        let open = [finish, flow.deadline].map(|slot| calendar.open_before(slot));
        count(&mut kinds.at_twice, open[0] == 2 * open[1]);
        count(&mut kinds.windows, *calendar != Calendar::default());
        count(&mut kinds.shut_before, open[0] < finish);
        count(&mut kinds.caps_above, books::has_cap_above(book));
        count(&mut kinds.released, flow.release > 0);
        count(&mut kinds.tie_before, order[..place].iter().any(like));
        count(&mut kinds.tie_after, order[place + 1..].iter().any(like));
    }

    /// The proved planner with an output that is long enough.
    fn plan(&mut self, of: Of, work: &mut [u8]) -> PlanAnswer {
        loop {
            let answer = linked_plan::plan(of.book, of.calendar, &mut self.output, work);
            if answer.number != 13 {
                return answer;
            }
            self.output.resize(2 * self.output.len(), 0);
        }
    }

    /// One flow beside the proved planner on the book cut after it: the same number,
    /// finish and work area, and a refused flow's number carried back. A finish is
    /// at most twice the deadline, and leaves room for the path after the release, both
    /// in open slots.
    fn hold_cut(
        &mut self,
        book: &Book,
        calendar: &Calendar,
        of: Of,
        order: &[usize],
        place: usize,
    ) {
        let flow = order[place];
        let mut work = vec![0x3c; WORK_BYTES + 3];
        let mut planned = work.clone();
        let answer = linked_finish::finish(of.book, of.calendar, flow as u32, &mut work);
        let cut = encode_book(&books::cut(book, place + 1));
        let plan = self.plan(Of { book: &cut, ..of }, &mut planned);
        let kept = books::kept_by_cut(book, place + 1);
        assert!(work == planned);
        if plan.number == 12 {
            let refused = kept[plan.flow as usize];
            let refusal = Refusal::new(12, refused as u8, NONE);
            assert_eq!(answer, FinishAnswer::refused(refusal));
            count(&mut self.kinds.renumbered, refused != plan.flow as usize);
            return;
        }
        assert_eq!(plan.number, 0);
        let number = kept.iter().position(|&number| number == flow);
        let finish = stated(&self.output, number.expect("the flow is kept"));
        assert_eq!(answer, FinishAnswer::accepted(finish));
        let Flow {
            deadline, release, ..
        } = book.flows[flow];
        let path = critical_path(&book.flows[flow], book.processors);
        let [finish, deadline, release] =
            [finish.into(), deadline, release].map(|slot| calendar.open_before(slot));
        assert!(finish <= 2 * deadline);
        assert!(u64::from(finish) >= u64::from(release) + path);
    }

    /// Every flow beside the proved planner on the book as it is, in an output of any
    /// length and after 13 in a longer one.
    fn hold_table(&mut self, of: Of, owed: &[Outcome]) {
        let mut work = vec![0x3c; WORK_BYTES];
        let room = self.rng.skewed(8, 1 << 12) as usize;
        let output = &mut self.output[..room];
        let first = linked_plan::plan(of.book, of.calendar, output, &mut work);
        let plan = match first.number {
            13 => self.plan(of, &mut work),
            _ => first,
        };
        if plan.number == 12 {
            let named = Outcome::Infeasible(plan.flow);
            assert!(owed.contains(&named));
            return;
        }
        assert_eq!(plan.number, 0);
        for flow in 0..owed.len() {
            let answer = linked_finish::finish(of.book, of.calendar, flow as u32, &mut work);
            let finish = stated(&self.output, flow);
            assert_eq!(answer, FinishAnswer::accepted(finish));
        }
        match first.number {
            13 => self.kinds.in_longer_table += 1,
            _ => self.kinds.in_table += 1,
        }
    }

    /// Bytes that may be no book: some flow, and a number that is none's. What is
    /// wrong with the book is the planner's number and place.
    fn compare_bytes(&mut self, of: Of, count: usize) {
        let any = self.rng.index(count + 1) as u32;
        for flow in [any, self.no_flow(count)] {
            let outcome = second_finish::outcome(of.book, of.calendar, flow);
            let length = self.compare_in_one(of, flow, &outcome);
            if let Err(refusal) = read_book(of.book) {
                let plan = linked_plan::plan(of.book, of.calendar, &mut [], &mut []);
                assert_eq!(plan, PlanAnswer::refused(refusal));
                assert_eq!(outcome, Outcome::Faulty(refusal));
                let Refusal { flow: named, .. } = refusal;
                let kinds = &mut self.kinds;
                kinds.fault_and_no_flow += u64::from(flow as usize >= count);
                kinds.fault_and_short += u64::from(length < WORK_BYTES);
                let behind = named != NONE && u32::from(named) > flow;
                kinds.fault_behind += u64::from(behind);
                kinds.fault_and_calendar += u64::from(read_calendar(of.calendar).is_err());
            }
        }
    }

    fn compare_drawn(&mut self, version: Version, family: Family) {
        let book = books::drawn(&mut self.rng, version, family);
        let (book, calendar) = calendars::with_calendar(&mut self.rng, book);
        self.compare_book(&book, &calendar);
    }

    /// Prints what was met; each kind must have been met, and each of the numbers.
    fn hold_met(&self, numbers: impl Iterator<Item = u8>) {
        let calls: u64 = self.met.iter().sum();
        println!(
            "books {}, calls {calls}, numbers {:?}",
            self.books, self.met
        );
        for (kind, met) in self.kinds.all() {
            println!("{kind}: {met}");
            assert!(met > 20, "{kind} was hardly met");
        }
        println!("of a flow with a release: {}", self.kinds.released);
        for number in numbers {
            let met = self.met[number as usize];
            assert!(met > 20, "number {number} was hardly met");
        }
    }
}

#[test]
fn proved_finish_is_the_second_one() {
    hold_trial(Version::One, 0x5eed_0051);
}

#[test]
fn proved_finish_is_the_second_one_with_releases() {
    hold_trial(Version::Two, 0x5eed_0052);
}

fn hold_trial(version: Version, seed: u64) {
    let mut trial = Trial::new(seed);

    for _ in 0..6_000 {
        trial.compare_drawn(version, books::tiny_book);
    }
    for _ in 0..2_500 {
        trial.compare_drawn(version, books::any_book);
    }
    for _ in 0..500 {
        trial.compare_drawn(version, books::crowded_book);
        trial.compare_drawn(version, books::infeasible_book);
    }
    for _ in 0..20 {
        trial.compare_drawn(version, books::wide_book);
        trial.compare_drawn(version, books::edge_book);
        trial.compare_drawn(version, books::long_path_book);
    }
    for _ in 0..4 {
        trial.compare_drawn(version, books::full_book);
        trial.compare_drawn(version, books::heavy_book);
    }
    // Every slot in use from the release on, by every flow or by one; every deadline
    // the same.
    for (flows, jobs, slots) in [(64, 1, 8_192), (1, 64, 8_192), (64, 64, 32)] {
        trial.compare_without(&books::layered_in(version, flows, jobs, slots));
    }

    // Damaged books of every family, and bytes that are hardly a book.
    for _ in 0..20_000 {
        let book = books::drawn(&mut trial.rng, version, books::any_book);
        let (book, calendar) = calendars::with_calendar(&mut trial.rng, book);
        let mut bytes = encode_book(&book);
        books::damage_book(&mut trial.rng, &mut bytes);
        let of = Of {
            book: &bytes,
            calendar: &calendars::lent(&mut trial.rng, &calendar),
        };
        trial.compare_bytes(of, book.flows.len());
    }
    for _ in 0..50_000 {
        let bytes = books::random_bytes(&mut trial.rng, 80);
        let of = Of {
            book: &bytes,
            calendar: &calendars::lent(&mut trial.rng, &Calendar::default()),
        };
        trial.compare_bytes(of, 2);
    }

    println!("version {version:?}");
    let faults = version.faults().iter().copied();
    trial.hold_met(faults.chain([0, 11, 12, 23, 24]));
    match version {
        Version::One => assert_eq!(trial.kinds.released, 0),
        Version::Two => assert!(trial.kinds.released > 1_000),
    }
}

/// Every flow of books with the same deadline, or one of two, in every order of the
/// book, with one flow that is infeasible or none: only the place in the book tells
/// which flows count.
#[test]
fn ties_are_served_by_place_in_the_book() {
    let mut trial = Trial::new(0x5eed_0053);
    let job = |size| Job {
        size,
        cap: 1,
        precedence: 0,
    };
    for deadlines in 0..8u32 {
        for infeasible in 0..4 {
            for processors in [1, 2] {
                let flow = |number: u32| {
                    let deadline = 6 + (deadlines >> number & 1);
                    let size = if number == infeasible { 15 } else { 2 + number };
                    Flow::new(deadline, vec![job(size)])
                };
                let flows = (0..3).map(flow).collect();
                trial.compare_without(&Book::new(processors, flows));
            }
        }
    }
    let kinds = &trial.kinds;
    println!(
        "books {}; tie served before {}, after {}; infeasible before {}, named {}, after {}",
        trial.books,
        kinds.tie_before,
        kinds.tie_after,
        kinds.infeasible_before,
        kinds.infeasible_named,
        kinds.infeasible_after
    );
    for met in [
        kinds.tie_before,
        kinds.tie_after,
        kinds.infeasible_before,
        kinds.infeasible_named,
        kinds.infeasible_after,
    ] {
        assert!(met > 20);
    }
}

/// Every 32-bit number about the edges of a byte and of two bytes, in books of no
/// flow, of some and of the most.
#[test]
fn all_bits_of_a_flow_number_count() {
    let mut trial = Trial::new(0x5eed_0054);
    for flows in [0, 1, 3, 63, 64] {
        let book = books::layered_book(flows.max(1), 1, 2);
        let book = books::cut(&book, flows);
        let of = Of {
            book: &encode_book(&book),
            calendar: &NO_WINDOWS,
        };
        let owed = second_finish::outcomes(&book, &Calendar::default());
        let edges = [0, 1 << 8, 1 << 16, 1 << 24, 1 << 31, u32::MAX - 300];
        for flow in edges.into_iter().flat_map(|edge| edge..edge + 300) {
            match owed.get(flow as usize) {
                Some(outcome) => trial.compare_in_each(of, flow, outcome),
                None => trial.compare_no_flow(of, flows, flow),
            }
        }
        trial.compare_no_flow(of, flows, u32::MAX);
    }
    println!("numbers met: {:?}", trial.met);
    assert_eq!(trial.met[11] + trial.met[0], 4 * (1 + 3 + 63 + 64));
}

/// The largest book: 64 flows of 64 jobs in 8,192 slots, each with the same finish.
#[test]
fn largest_book() {
    let book = encode_book(&books::largest_book());
    for flow in 0..64 {
        let mut work = vec![0x3c; WORK_BYTES + 1];
        let answer = linked_finish::finish(&book, &NO_WINDOWS, flow, &mut work);
        assert_eq!(answer, FinishAnswer::accepted(8_192));
        let used = (64 * (flow as u16 + 1)).to_be_bytes();
        assert!(work[..WORK_BYTES].chunks_exact(2).all(|pair| pair == used));
        assert_eq!(work[WORK_BYTES], 0x3c);
    }
}
