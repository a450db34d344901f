//! The second implementations held against the marked plans and against each
//! other, before they are held against the proved library.

use flowplan_tests::answer::{
    CheckAnswer, FinishAnswer, ListAnswer, PlanAnswer, Refusal, NUMBERS, WORK_BYTES,
};
use flowplan_tests::books::{self, encode_book};
use flowplan_tests::calendar::{read_calendar, Calendar};
use flowplan_tests::calendars::{self, Kinds, NONE_OPEN};
use flowplan_tests::edges::Edges;
use flowplan_tests::reader::{read_book, Version, MOST_CAP, MOST_DEADLINE, VERSIONS};
use flowplan_tests::rng::Rng;
use flowplan_tests::search::{in_time, small_case};
use flowplan_tests::second_check::Row;
use flowplan_tests::second_planner::{
    chain, chain_by_change_points, chain_by_slots, critical_path, schedule, Outcome, PseudoJob,
};
use flowplan_tests::tables::{self, Table, WideRows};
use flowplan_tests::{
    caps, fast_dispatch, fast_finish, fast_planner, heads, lists, lowered, marked, second_check,
    second_dispatch, second_finish, second_planner, twins,
};

#[test]
fn marked_plans() {
    marked::hold_planner(second_planner::plan);
    marked::hold_planner(fast_planner::plan);
    marked::hold_check(second_check::check);
    marked::hold_check(second_check::check_by_definition);
    marked::hold_dispatch(second_dispatch::dispatch);
    marked::hold_dispatch(fast_dispatch::dispatch);
    marked::hold_finish(second_finish::finish);
    marked::hold_finish(fast_finish::finish);
    marked::hold_finish(fast_finish::finish_sorted);
}

#[test]
fn flow_heads() {
    heads::hold_planner(second_planner::plan);
    heads::hold_planner(fast_planner::plan);
    heads::hold_check(second_check::check);
    heads::hold_check(second_check::check_by_definition);
}

#[test]
fn caps_about_the_processors() {
    caps::hold_planner(second_planner::plan);
    caps::hold_planner(fast_planner::plan);
    caps::hold_check(second_check::check);
    caps::hold_check(second_check::check_by_definition);
}

#[test]
fn a_book_is_served_as_its_lowered_book() {
    for version in VERSIONS {
        let check = second_check::check;
        lowered::hold(second_planner::plan, check, version, 13, 5_000);
        lowered::hold(fast_planner::plan, check, version, 14, 5_000);
    }
}

#[test]
fn both_versions_without_releases_are_alike() {
    twins::hold(second_planner::plan, second_check::check, 9, 5_000);
    twins::hold(fast_planner::plan, second_check::check, 10, 5_000);
}

#[test]
fn books_are_read_as_written() {
    let mut rng = Rng::new(1);
    for version in VERSIONS {
        for _ in 0..5_000 {
            let book = books::drawn(&mut rng, version, books::any_book);
            let bytes = encode_book(&book);
            assert_eq!(bytes[4], version.byte());
            assert_eq!(read_book(&bytes), Ok(book));
        }
    }
    for book in [&marked::BOOK_A[..], &marked::BOOK_G] {
        assert_eq!(encode_book(&read_book(book).unwrap()), book);
    }
    let largest = encode_book(&books::full_book(&mut rng));
    assert_eq!(largest.len(), 57_544);
    let largest = encode_book(&books::late_full_book(&mut rng));
    assert_eq!(largest.len(), 57_672);
}

/// What caps are drawn in each version: about P, the most, others, and by damage 0,
/// which alone is 9.
#[test]
fn caps_of_every_kind_are_drawn() {
    for version in VERSIONS {
        let mut rng = Rng::new(15);
        let (mut one_less, mut equal, mut one_more, mut most, mut near_most) = (0, 0, 0, 0, 0);
        let (mut below, mut above, mut zero, mut lone) = (0, 0, 0, 0);
        let (mut with, mut without) = (0, 0);
        for _ in 0..2_000 {
            let book = books::drawn(&mut rng, version, books::any_book);
            let processors = book.processors;
            for job in book.flows.iter().flat_map(|flow| &flow.jobs) {
                assert!((1..=MOST_CAP).contains(&job.cap));
                match job.cap {
                    cap if cap + 1 == processors => one_less += 1,
                    cap if cap == processors => equal += 1,
                    cap if cap == processors + 1 => one_more += 1,
                    MOST_CAP => most += 1,
                    cap if cap > MOST_CAP - 10 => near_most += 1,
                    cap if cap < processors => below += 1,
                    _ => above += 1,
                }
                lone += usize::from(processors == 1 && job.cap > 1);
            }
            if books::has_cap_above(&book) {
                with += 1;
            } else {
                without += 1;
            }
            let mut bytes = encode_book(&book);
            books::damage_book(&mut rng, &mut bytes);
            if let Err(refusal) = read_book(&bytes) {
                zero += usize::from(refusal.number == 9);
            }
        }
        println!(
            "{version:?}, caps drawn: P - 1 {one_less}, P {equal}, P + 1 {one_more}, 65,535 {most}, \
             near it {near_most}, others below P {below} and above {above}, above where P is 1 \
             {lone}; damaged books refused by 9 {zero}; books with caps above P {with}, without \
             {without}"
        );
        for drawn in [
            one_less, equal, one_more, most, near_most, below, above, lone,
        ] {
            assert!(drawn > 500);
        }
        assert!(zero > 50 && with > 500 && without > 500);
    }
}

/// The reader keeps a cap as it stands, and refuses none but 0.
#[test]
fn caps_are_read_as_they_stand() {
    for version in VERSIONS {
        for cap in 0..=MOST_CAP {
            let bytes = marked::book_e_capped(version, cap);
            match read_book(&bytes) {
                Ok(book) => {
                    assert_eq!(book.flows[0].jobs[1].cap, cap);
                    assert_eq!(encode_book(&book), bytes);
                }
                Err(refusal) => {
                    assert_eq!(cap, 0);
                    assert_eq!(refusal, Refusal::new(9, 0, 1));
                }
            }
        }
    }
}

/// What releases are drawn: the edges, others, and none in version 1.
#[test]
fn releases_of_every_kind_are_drawn() {
    let mut rng = Rng::new(11);
    let (mut none, mut one, mut latest, mut between, mut alike) = (0, 0, 0, 0, 0);
    for _ in 0..2_000 {
        let book = books::any_book(&mut rng);
        assert!(book.version == Version::One);
        assert!(book.flows.iter().all(|flow| flow.release == 0));
        let book = books::with_releases(&mut rng, book);
        assert!(book.version == Version::Two);
        for flow in &book.flows {
            match flow.release {
                0 => none += 1,
                1 => one += 1,
                release if release + 1 == flow.deadline => latest += 1,
                release => {
                    assert!(release < flow.deadline);
                    between += 1;
                }
            }
        }
        let mut pairs = book.flows.windows(2);
        alike += usize::from(pairs.any(|pair| pair[0].release == pair[1].release));
    }
    for drawn in [none, one, latest, between, alike] {
        assert!(drawn > 500);
    }
}

#[test]
fn both_cuts_give_the_same_chain() {
    let mut rng = Rng::new(2);
    let mut longest = 0;
    for case in 0..6_000 {
        let book = match case % 3 {
            0 => books::tiny_book(&mut rng),
            1 => books::usual_book(&mut rng),
            _ => books::edge_book(&mut rng),
        };
        let book = books::with_caps(&mut rng, book);
        for flow in &book.flows {
            let path = critical_path(flow, book.processors);
            if path > 40_000 && !(path < 2_000_000 && rng.chance(1, 50)) {
                continue;
            }
            longest = longest.max(path);
            let by_slots = chain_by_slots(flow, book.processors);
            assert_eq!(by_slots, chain_by_change_points(flow, book.processors));
            assert!(by_slots.len() <= 2 * flow.jobs.len());
            assert!(by_slots.iter().all(|pseudo_job| pseudo_job.rate() > 0));
            let work: u64 = by_slots.iter().map(PseudoJob::work).sum();
            let sizes: u64 = flow.jobs.iter().map(|job| u64::from(job.size)).sum();
            assert_eq!(work, sizes);
        }
    }
    assert!(longest > second_planner::LITERAL_PATH);
}

/// Rule 5 with a list of all units of a pseudo-job, for small ones.
fn numbered_units(pseudo_job: &PseudoJob) -> Vec<u8> {
    let mut units = Vec::new();
    for _ in 0..pseudo_job.width {
        for (job, &take) in pseudo_job.takes.iter().enumerate() {
            units.extend((0..take).map(|_| job as u8));
        }
    }
    units
}

#[test]
fn units_are_used_in_their_order() {
    let mut rng = Rng::new(3);
    let mut planned = 0;
    for case in 0..40_000 {
        let book = books::drawn(&mut rng, VERSIONS[case % 2], books::tiny_book);
        let (book, calendar) = calendars::with_calendar(&mut rng, book);
        let Ok(schedule) = schedule(&book, &calendar) else {
            continue;
        };
        planned += 1;
        for (number, flow) in book.flows.iter().enumerate() {
            let mut rows = schedule.rows.iter().filter(|row| row.flow == number as u8);
            let mut pending = rows.next();
            for pseudo_job in chain(flow, book.processors) {
                let units = numbered_units(&pseudo_job);
                let mut from = 0;
                while from < units.len() {
                    let slot = pending.expect("work is left").slot;
                    let mut shares = vec![0u16; flow.jobs.len()];
                    let mut gets = 0;
                    while let Some(row) = pending.filter(|row| row.slot == slot) {
                        shares[row.job as usize] = row.take;
                        gets += row.take as usize;
                        pending = rows.next();
                    }
                    for (job, &share) in shares.iter().enumerate() {
                        let next = &units[from..from + gets];
                        let mine = next.iter().filter(|&&unit| unit == job as u8);
                        assert_eq!(mine.count(), share as usize);
                    }
                    from += gets;
                }
                assert_eq!(from, units.len());
            }
            assert!(pending.is_none());
        }
    }
    assert!(planned > 10_000);
}

/// Without other flows there is nothing but the release that a flow waits for.
#[test]
fn a_lone_flow_is_moved_by_its_release() {
    let mut rng = Rng::new(12);
    for _ in 0..5_000 {
        let mut book = books::usual_book(&mut rng);
        book.flows.truncate(1);
        let mut book = books::with_caps(&mut rng, book);
        for flow in &mut book.flows {
            flow.deadline = MOST_DEADLINE;
        }
        let none = Calendar::default();
        let Ok(at_once) = schedule(&book, &none) else {
            continue;
        };
        let mut later = books::with_releases(&mut rng, book);
        later.flows.iter_mut().for_each(|flow| flow.release /= 2);
        let release = later.flows.first().map_or(0, |flow| flow.release as u16);
        let moved = schedule(&later, &none).expect("it has half its slots left");
        let rows = at_once.rows.iter().map(|&row| Row {
            slot: row.slot + release,
            ..row
        });
        assert!(moved.rows.iter().copied().eq(rows));
    }
}

#[test]
fn fast_planner_is_the_literal_one() {
    let mut rng = Rng::new(4);
    let mut met = [0u32; NUMBERS];
    let mut edges = Edges::default();
    let mut kinds = Kinds::default();
    let mut output = vec![0; 1 << 20];
    let mut one = |book: &[u8], calendar: &[u8], room: usize, work: usize| {
        let mut work = [vec![7; work], vec![7; work]];
        output[..room].fill(9);
        let literal = second_planner::plan(book, calendar, &mut output[..room], &mut work[0]);
        let written = output[..room].to_vec();
        output[..room].fill(9);
        let fast = fast_planner::plan(book, calendar, &mut output[..room], &mut work[1]);
        assert_eq!(literal, fast);
        assert!(written == output[..room]);
        assert!(work[0] == work[1]);
        met[literal.number as usize] += 1;
        if literal.number == 0 {
            edges.count(book, &output[..literal.length as usize]);
        }
        literal
    };
    for case in 0..24_000 {
        let family = match case % 2_000 {
            0 | 1 => books::full_book,
            2 | 3 => books::heavy_book,
            _ => books::any_book,
        };
        let book = books::drawn(&mut rng, VERSIONS[case % 2], family);
        let (book, calendar) = calendars::with_calendar(&mut rng, book);
        let lent = calendars::lent(&mut rng, &calendar);
        let mut bytes = encode_book(&book);
        if rng.chance(1, 8) {
            books::damage_book(&mut rng, &mut bytes);
        }
        let work = WORK_BYTES + rng.index(3) - 1;
        let room = rng.skewed(0, 1 << 14) as usize;
        let answer = one(&bytes, &lent, room, work);
        if answer.number == 0 {
            kinds.count(&book, &calendar);
        }
        if case % 2_000 <= 3 {
            one(&bytes, &lent, 1 << 20, work);
        }
    }
    println!("numbers met by the planners: {met:?}");
    for number in [0, 12, 13] {
        assert!(met[number] > 2_000, "number {number} was rarely met");
    }
    for number in (1..=11).chain([22, 24]) {
        assert!(met[number] > 0, "number {number} was never met");
    }
    edges.hold("both planners");
    kinds.hold(Version::Two, "both planners", &[NONE_OPEN]);
}

/// Every accepted plan is a valid schedule and ends within twice the deadline, both in
/// open slots; cut before a flow that is refused, the book can be planned.
#[test]
fn plans_are_valid_and_cuts_agree() {
    let mut rng = Rng::new(5);
    let mut work = vec![0; WORK_BYTES];
    // Of each also those with caps above P.
    let (mut planned, mut refused) = ([0; 2], [0; 2]);
    for case in 0..16_000 {
        let book = books::drawn(&mut rng, VERSIONS[case % 2], books::any_book);
        let (book, calendar) = calendars::with_calendar(&mut rng, book);
        let order = book.service_order();
        let above = usize::from(books::has_cap_above(&book));
        match schedule(&book, &calendar) {
            Ok(schedule) => {
                planned[above] += 1;
                let (bytes, lent) = (encode_book(&book), calendar.encode());
                let finishes = schedule.finishes.clone();
                let rows = schedule.rows;
                let table = Table { finishes, rows }.encode(&book);
                let answer = second_check::check(&bytes, &lent, &table, &mut work);
                assert_eq!(answer, CheckAnswer::accepted(schedule.late));
                let shut = calendar.shut_slots().count() as u32;
                for (flow, &finish) in book.flows.iter().zip(&schedule.finishes) {
                    let open = [finish.into(), flow.deadline].map(|at| calendar.open_before(at));
                    assert!(open[0] <= 2 * open[1]);
                    assert!(u32::from(finish) <= 8_192 - shut);
                }
            }
            Err(flow) => {
                refused[above] += 1;
                let before = order.iter().position(|&k| k == flow as usize).unwrap();
                assert!(schedule(&books::cut(&book, before), &calendar).is_ok());
                let upto = books::cut(&book, before + 1);
                let named = schedule(&upto, &calendar).unwrap_err() as usize;
                assert_eq!(Some(&named), upto.service_order().last());
                assert_eq!(upto.flows[named], book.flows[flow as usize]);
            }
        }
    }
    println!("without caps above P, and with: planned {planned:?}, refused {refused:?}");
    assert!(planned.into_iter().chain(refused).all(|met| met > 1_000));
}

#[test]
fn one_pass_check_is_the_one_by_definition() {
    let mut rng = Rng::new(6);
    let mut met = [0u32; NUMBERS];
    let mut early = [0u32; NUMBERS];
    let mut wide_rows = WideRows::default();
    let mut edges = Edges::default();
    let mut kinds = Kinds::default();
    for case in 0..8_000 {
        let book = books::drawn(&mut rng, VERSIONS[case % 2], books::tiny_book);
        let (book, calendar) = calendars::with_calendar(&mut rng, book);
        let Some(table) = tables::either_table(&mut rng, &book, &calendar) else {
            continue;
        };
        if table.rows.len() > 100 {
            continue;
        }
        let mut bytes = encode_book(&book);
        let damaged = rng.chance(1, 16);
        if damaged {
            books::damage_book(&mut rng, &mut bytes);
        }
        let intact = table.encode(&book);
        for case in 0..6 {
            let table = match case {
                0 => intact.clone(),
                _ => tables::damaged(&mut rng, &book, &calendar, &table),
            };
            let lent = calendars::lent(&mut rng, &calendar);
            let room = WORK_BYTES + rng.index(9) - usize::from(rng.chance(1, 32));
            let answer = answer_of_both(&bytes, &lent, &table, room);
            met[answer.number as usize] += 1;
            if answer.number == 0 {
                edges.count(&bytes, &table);
                kinds.count(&book, &calendar);
            }
            if tables::begins_early(&book, &table, answer.flow) {
                early[answer.number as usize] += 1;
            }
            if !damaged {
                wide_rows.count(&book, &table, answer);
            }
        }
    }
    println!("numbers met by the checks: {met:?}");
    println!("of them at a flow that begins before its release: {early:?}");
    for number in (0..=11).chain(14..=22).chain([24, 25]) {
        assert!(met[number] > 0, "number {number} was never met");
    }
    for number in [17, 18, 19] {
        assert!(early[number] > 0, "number {number} was never met early");
    }
    wide_rows.hold();
    edges.hold("both checks");
    kinds.hold(Version::Two, "both checks", &[]);
}

/// Every row of a table moved to every place, taken out together with every
/// other, and put in every place once more, faulty or as it is: flows come back
/// after others, and several have a job whose total is off.
#[test]
fn one_pass_check_of_rows_out_of_place() {
    let mut rng = Rng::new(8);
    let mut met = [0u32; NUMBERS];
    let mut tables = 0;
    while tables < 80 {
        let book = books::drawn(&mut rng, VERSIONS[tables % 2], books::tiny_book);
        let calendar = match tables % 4 {
            0 | 1 => Calendar::default(),
            _ => calendars::valid(&mut rng, &book),
        };
        let Some(table) = tables::delayed_table(&mut rng, &book, &calendar) else {
            continue;
        };
        if book.flows.len() < 2 || table.rows.len() > 24 {
            continue;
        }
        tables += 1;
        let (bytes, lent) = (encode_book(&book), calendar.encode());
        let shut = calendar.windows.first().map_or(8_192, |first| first.shut);
        let mut hold = |rows: Vec<Row>| {
            let finishes = table.finishes.clone();
            let table = Table { finishes, rows }.encode(&book);
            met[answer_of_both(&bytes, &lent, &table, WORK_BYTES).number as usize] += 1;
        };
        for (from, &row) in table.rows.iter().enumerate() {
            let mut others = table.rows.clone();
            others.remove(from);
            for to in 0..others.len() {
                let mut moved = others.clone();
                moved.insert(to, row);
                hold(moved);
                let mut fewer = others.clone();
                fewer.remove(to);
                hold(fewer);
            }
            let jobs = &book.flows[row.flow as usize].jobs;
            for fault in 0..7 {
                let mut again = row;
                match fault {
                    0 => again.slot = 8_192,
                    5 => again.slot = shut as u16,
                    1 => again.flow = book.flows.len() as u8,
                    2 => again.job = jobs.len() as u8,
                    3 => again.take = 0,
                    4 => {
                        let cap = jobs[row.job as usize].cap_in_use(book.processors);
                        again.take = cap as u16 + 1;
                    }
                    _ => {}
                }
                for to in 0..=table.rows.len() {
                    let mut more = table.rows.clone();
                    more.insert(to, again);
                    hold(more);
                }
            }
        }
    }
    println!("numbers met by rows out of place: {met:?}");
    for number in [0, 15, 16, 17, 19, 20, 25] {
        assert!(met[number] > 0, "number {number} was never met");
    }
}

/// What both checks answer; the work areas must be equal too.
fn answer_of_both(book: &[u8], calendar: &[u8], table: &[u8], room: usize) -> CheckAnswer {
    let mut work = [vec![5; room], vec![5; room]];
    let one_pass = second_check::check(book, calendar, table, &mut work[0]);
    let literal = second_check::check_by_definition(book, calendar, table, &mut work[1]);
    assert_eq!(one_pass, literal);
    assert!(work[0] == work[1]);
    one_pass
}

/// What both dispatch lists answer, with output and work area, which must be equal
/// too.
fn list_of_both(book: &[u8], calendar: &[u8], table: &[u8], room: usize, area: usize) -> Listed {
    let mut outputs = [vec![9; room], vec![9; room]];
    let mut works = [vec![5; area], vec![5; area]];
    let [to, work] = [&mut outputs[0], &mut works[0]];
    let sorted = second_dispatch::dispatch(book, calendar, table, to, work);
    let [to, work] = [&mut outputs[1], &mut works[1]];
    let merged = fast_dispatch::dispatch(book, calendar, table, to, work);
    assert_eq!(sorted, merged);
    assert!(outputs[0] == outputs[1]);
    assert!(works[0] == works[1]);
    let ([output, _], [work, _]) = (outputs, works);
    (sorted, output, work)
}

type Listed = (ListAnswer, Vec<u8>, Vec<u8>);

/// Both merges beside both sorts, on accepted and damaged tables, with outputs of every
/// length class.
#[test]
fn merged_list_is_the_sorted_one() {
    let mut rng = Rng::new(16);
    let mut met = [0u32; NUMBERS];
    let (mut orders_apart, mut blocks) = (0, 0);
    for case in 0..18_000 {
        let family = match case % 2_000 {
            0..=2 => books::full_book,
            3 => books::heavy_book,
            _ => books::any_book,
        };
        let book = books::drawn(&mut rng, VERSIONS[case % 2], family);
        let (book, calendar) = calendars::with_calendar(&mut rng, book);
        let lent = calendars::lent(&mut rng, &calendar);
        let table = match case % 4 {
            0 => tables::delayed_table(&mut rng, &book, &calendar),
            _ => tables::planned_table(&book, &calendar),
        };
        let Some(table) = table else {
            continue;
        };
        let mut bytes = encode_book(&book);
        if rng.chance(1, 8) {
            books::damage_book(&mut rng, &mut bytes);
        }
        let table = match rng.below(4) {
            0 => tables::damaged(&mut rng, &book, &calendar, &table),
            _ => table.encode(&book),
        };
        let exact = lists::length_for(&table);
        let room = rng.pick(&[0, exact - 1, exact, exact, exact, exact + 50]);
        let area = WORK_BYTES + rng.index(9) - usize::from(rng.chance(1, 16));
        let (answer, output, work) = list_of_both(&bytes, &lent, &table, room, area);
        met[answer.number as usize] += 1;
        if answer.number != 0 {
            continue;
        }
        let mut again = vec![9; room];
        assert_eq!(fast_dispatch::sort(&table, &mut again), exact);
        assert!(again == output);
        again.fill(9);
        let length = fast_dispatch::merge_by_slots(&table, &work, &mut again);
        assert_eq!(length, exact);
        assert!(again == output);
        let book = read_book(&bytes).expect("a list has a book");
        let list = &output[..exact];
        lists::hold(&book, &table, list, &work);
        orders_apart += usize::from(lists::tells_orders_apart(&book, list));
        let rows = lists::rows_of(list);
        let place = |row: &Row| (row.slot, row.flow);
        let mut eights = rows.windows(8);
        blocks += usize::from(eights.any(|eight| place(&eight[0]) == place(&eight[7])));
    }
    println!("numbers met by the dispatch lists: {met:?}");
    println!(
        "lists that tell service order from flow number: {orders_apart}; with eight rows of a \
         flow in a slot: {blocks}"
    );
    for number in (1..=11).chain(13..=22).chain([24, 25]) {
        assert!(met[number] > 0, "number {number} was never met");
    }
    assert!(met[0] > 2_000 && orders_apart > 500 && blocks > 100);
}

/// What all finishes answer; the work areas must be equal too.
fn finish_of_all(book: &[u8], calendar: &[u8], flow: u32, area: usize) -> (FinishAnswer, Vec<u8>) {
    let mut work = vec![5; area];
    let literal = second_finish::finish(book, calendar, flow, &mut work);
    for fast in [fast_finish::finish, fast_finish::finish_sorted] {
        let mut other = vec![5; area];
        let answer = fast(book, calendar, flow, &mut other);
        assert_eq!(literal, answer, "flow {flow} of book {book:02x?}");
        assert!(work == other);
    }
    (literal, work)
}

/// All finishes on every flow and on numbers of none, and beside the literal planner:
/// on the book as it is, and cut after the flow.
#[test]
fn fast_finishes_are_the_literal_one() {
    let mut rng = Rng::new(17);
    let mut met = [0u32; NUMBERS];
    let (mut in_table, mut behind) = (0, 0);
    let mut output = vec![0; 1 << 24];
    for case in 0..3_000 {
        let family = match case % 1_000 {
            0 => books::full_book,
            1 => books::heavy_book,
            _ => books::any_book,
        };
        let book = books::drawn(&mut rng, VERSIONS[case % 2], family);
        let (book, calendar) = calendars::with_calendar(&mut rng, book);
        let lent = calendars::lent(&mut rng, &calendar);
        let mut bytes = encode_book(&book);
        if rng.chance(1, 4) {
            books::damage_book(&mut rng, &mut bytes);
        }
        let area = WORK_BYTES + rng.index(9) - usize::from(rng.chance(1, 16));
        for flow in marked::no_flows(book.flows.len() as u32) {
            let (answer, _) = finish_of_all(&bytes, &lent, flow, area);
            met[answer.number as usize] += 1;
        }
        let Ok(book) = read_book(&bytes) else {
            continue;
        };
        let Ok(calendar) = read_calendar(&lent) else {
            for flow in 0..book.flows.len() as u32 {
                let (answer, _) = finish_of_all(&bytes, &lent, flow, area);
                met[answer.number as usize] += 1;
            }
            continue;
        };
        let whole = schedule(&book, &calendar);
        let owed = second_finish::outcomes(&book, &calendar);
        let order = book.service_order();
        for (place, &flow) in order.iter().enumerate() {
            if order.len() > 12 && place % 8 != case % 8 {
                continue;
            }
            let (answer, work) = finish_of_all(&bytes, &lent, flow as u32, area);
            met[answer.number as usize] += 1;
            let again = second_finish::outcome(&bytes, &lent, flow as u32);
            assert_eq!(owed[flow], again);
            if answer.number == 11 {
                continue;
            }
            match &whole {
                Ok(whole) => {
                    assert_eq!(answer, FinishAnswer::accepted(whole.finishes[flow]));
                    in_table += 1;
                }
                Err(_) => behind += usize::from(answer.number == 0),
            }
            let kept = books::kept_by_cut(&book, place + 1);
            let mut planned = vec![5; area];
            let cut = encode_book(&books::cut(&book, place + 1));
            let cut = second_planner::outcome(&cut, &lent);
            let plan = second_planner::deliver(&cut, &mut output, &mut planned);
            assert!(planned == work);
            assert_eq!(plan.number, answer.number);
            match cut {
                Outcome::Planned(plan) => {
                    let at = kept.iter().position(|&number| number == flow);
                    let finish = plan.schedule.finishes[at.expect("the flow is kept")];
                    assert_eq!(finish, answer.finish);
                }
                _ => assert_eq!(kept[plan.flow as usize], answer.flow as usize),
            }
        }
    }
    println!("numbers met by the finishes: {met:?}");
    println!("finishes as in the table: {in_table}; before an infeasible flow: {behind}");
    for number in (0..=12).chain([22, 23, 24]) {
        assert!(met[number] > 0, "number {number} was never met");
    }
    assert!(in_table > 1_000 && behind > 500 && met[12] > 500);
}

/// On tiny books every valid schedule that ends each flow by its deadline is
/// searched for, in open slots only; where the planner refuses there must be none up to
/// the flow that it names.
#[test]
fn a_refused_book_has_no_schedule_in_time() {
    for version in VERSIONS {
        hold_refusals(version, false);
        hold_refusals(version, true);
    }
}

fn hold_refusals(version: Version, windows: bool) {
    let mut rng = Rng::new(7);
    // Of each also those with caps above P.
    let (mut none, mut some) = ([0; 2], [0; 2]);
    for _ in 0..60_000 {
        let Some((book, calendar)) = small_case(&mut rng, version, windows) else {
            continue;
        };
        let above = usize::from(books::has_cap_above(&book));
        if let Err(flow) = schedule(&book, &calendar) {
            let order = book.service_order();
            let place = order.iter().position(|&k| k == flow as usize).unwrap();
            assert!(!in_time(&books::cut(&book, place + 1), &calendar));
            none[above] += 1;
        } else if in_time(&book, &calendar) {
            some[above] += 1;
        }
    }
    println!(
        "{version:?}, windows {windows}, without caps above P and with: refused without a \
         schedule in time {none:?}, planned with one {some:?}"
    );
    assert!(none.into_iter().chain(some).all(|met| met > 500));
}

#[test]
fn answers_are_laid_out_as_in_c() {
    assert_eq!(std::mem::size_of::<CheckAnswer>(), 4);
    assert_eq!(std::mem::size_of::<PlanAnswer>(), 8);
    assert_eq!(std::mem::align_of::<PlanAnswer>(), 4);
    assert_eq!(std::mem::size_of::<ListAnswer>(), 8);
    assert_eq!(std::mem::align_of::<ListAnswer>(), 4);
    assert_eq!(std::mem::offset_of!(ListAnswer, length), 4);
    assert_eq!(std::mem::size_of::<FinishAnswer>(), 6);
    assert_eq!(std::mem::align_of::<FinishAnswer>(), 2);
    assert_eq!(std::mem::offset_of!(FinishAnswer, finish), 4);
}
