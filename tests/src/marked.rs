//! The marked plans A to G without windows, and J to L with some, held against any
//! planner, any check, any dispatch list and any finish of one flow; K and L, which are
//! there for their quotes, against all but the dispatch lists.

use crate::answer::{CheckAnswer, FinishAnswer, ListAnswer, PlanAnswer, Refusal, WORK_BYTES};
use crate::books::{encode_book, encode_list, encode_table, fit_length};
use crate::calendar::NO_WINDOWS;
use crate::reader::{Book, Flow, Job, Version, VERSIONS};
use crate::second_check::Row;

/// Each takes a book, its calendar, and what else the call takes.
pub type Planner = fn(&[u8], &[u8], &mut [u8], &mut [u8]) -> PlanAnswer;
pub type Check = fn(&[u8], &[u8], &[u8], &mut [u8]) -> CheckAnswer;
pub type Dispatch = fn(&[u8], &[u8], &[u8], &mut [u8], &mut [u8]) -> ListAnswer;
pub type Finish = fn(&[u8], &[u8], u32, &mut [u8]) -> FinishAnswer;

const JUNK: u8 = 0xa5;

/// Book A, byte for byte as listed.
pub const BOOK_A: [u8; 56] = [
    0x00, 0x00, 0x00, 0x38, 0x01, 0x00, 0x03, 0x02, // 56 bytes, version 1, P 3, 2 flows
    0x00, 0x05, 0x02, // flow 0: deadline 5, 2 jobs
    0x00, 0x00, 0x00, 0x05, 0x00, 0x02, // size 5, cap 2
    0x00, 0x00, 0x00, 0x00, 0x00, 0x00, 0x00, 0x00, // free
    0x00, 0x00, 0x00, 0x04, 0x00, 0x03, // size 4, cap 3
    0x00, 0x00, 0x00, 0x00, 0x00, 0x00, 0x00, 0x01, // after job 0
    0x00, 0x03, 0x01, // flow 1: deadline 3, 1 job
    0x00, 0x00, 0x00, 0x05, 0x00, 0x02, // size 5, cap 2
    0x00, 0x00, 0x00, 0x00, 0x00, 0x00, 0x00, 0x00, // free
];

/// Slot, flow, job and take of the rows of plan A.
const ROWS_A: [[u16; 4]; 9] = [
    [0, 1, 0, 2],
    [1, 1, 0, 2],
    [2, 1, 0, 1],
    [0, 0, 0, 1],
    [1, 0, 0, 1],
    [2, 0, 0, 2],
    [3, 0, 0, 1],
    [4, 0, 1, 3],
    [5, 0, 1, 1],
];

/// The dispatch list of plan A, byte for byte.
pub const LIST_A: [u8; 61] = [
    0x00, 0x00, 0x00, 0x3d, 0x01, 0x00, 0x03, // 61 bytes, version 1, P 3
    0x00, 0x00, 0x00, 0x00, 0x00, 0x01, // slot, flow, job, take
    0x00, 0x00, 0x01, 0x00, 0x00, 0x02, //
    0x00, 0x01, 0x00, 0x00, 0x00, 0x01, //
    0x00, 0x01, 0x01, 0x00, 0x00, 0x02, //
    0x00, 0x02, 0x00, 0x00, 0x00, 0x02, //
    0x00, 0x02, 0x01, 0x00, 0x00, 0x01, //
    0x00, 0x03, 0x00, 0x00, 0x00, 0x01, //
    0x00, 0x04, 0x00, 0x01, 0x00, 0x03, //
    0x00, 0x05, 0x00, 0x01, 0x00, 0x01, //
];

/// Slot, flow, job and take of the rows of plan B.
const ROWS_B: [[u16; 4]; 8] = [
    [0, 0, 0, 1],
    [1, 0, 0, 1],
    [2, 0, 0, 1],
    [0, 1, 0, 2],
    [1, 1, 0, 1],
    [1, 1, 1, 1],
    [2, 1, 0, 1],
    [2, 1, 1, 1],
];

/// The rows of the dispatch list of plan B.
const LISTED_B: [[u16; 4]; 8] = [
    [0, 0, 0, 1],
    [0, 1, 0, 2],
    [1, 0, 0, 1],
    [1, 1, 0, 1],
    [1, 1, 1, 1],
    [2, 0, 0, 1],
    [2, 1, 0, 1],
    [2, 1, 1, 1],
];

/// Slot, flow, job and take of the rows of plan E. Flow 1 leaves one processor of
/// slot 2. The chain of flow 0 is twice 2 and then 1 for job 0, and twice 2 for
/// job 1, whose cap of 3 counts as 2; its first pseudo-job gets 1, 2 and 1.
const ROWS_E: [[u16; 4]; 9] = [
    [0, 1, 0, 2],
    [1, 1, 0, 2],
    [2, 1, 0, 1],
    [2, 0, 0, 1],
    [3, 0, 0, 2],
    [4, 0, 0, 1],
    [5, 0, 0, 1],
    [6, 0, 1, 2],
    [7, 0, 1, 2],
];

/// The rows of the dispatch list of plan E.
const LISTED_E: [[u16; 4]; 9] = [
    [0, 1, 0, 2],
    [1, 1, 0, 2],
    [2, 0, 0, 1],
    [2, 1, 0, 1],
    [3, 0, 0, 2],
    [4, 0, 0, 1],
    [5, 0, 0, 1],
    [6, 0, 1, 2],
    [7, 0, 1, 2],
];

/// The use of each slot in plan E.
const USED_E: [u16; 8] = [2, 2, 2, 2, 1, 1, 2, 2];

/// Table E, byte for byte.
pub const TABLE_E: [u8; 66] = [
    0x00, 0x00, 0x00, 0x42, 0x01, 0x00, 0x02, 0x02, // 66 bytes, version 1, P 2, 2 flows
    0x00, 0x08, 0x00, 0x03, // finishes 8 and 3
    0x00, 0x00, 0x01, 0x00, 0x00, 0x02, // slot, flow, job, take
    0x00, 0x01, 0x01, 0x00, 0x00, 0x02, //
    0x00, 0x02, 0x01, 0x00, 0x00, 0x01, //
    0x00, 0x02, 0x00, 0x00, 0x00, 0x01, //
    0x00, 0x03, 0x00, 0x00, 0x00, 0x02, //
    0x00, 0x04, 0x00, 0x00, 0x00, 0x01, //
    0x00, 0x05, 0x00, 0x00, 0x00, 0x01, //
    0x00, 0x06, 0x00, 0x01, 0x00, 0x02, //
    0x00, 0x07, 0x00, 0x01, 0x00, 0x02, //
];

/// What the program prints of plan E.
pub const TEXT_E: &str = "\
table 66 late 2
finish 0 8
finish 1 3
slot 0 flow 1 job 0 take 2
slot 1 flow 1 job 0 take 2
slot 2 flow 1 job 0 take 1
slot 2 flow 0 job 0 take 1
slot 3 flow 0 job 0 take 2
slot 4 flow 0 job 0 take 1
slot 5 flow 0 job 0 take 1
slot 6 flow 0 job 1 take 2
slot 7 flow 0 job 1 take 2
";

/// Book G, of version 2.
pub const BOOK_G: [u8; 46] = [
    0x00, 0x00, 0x00, 0x2e, 0x02, 0x00, 0x03, 0x02, // 46 bytes, version 2, P 3, 2 flows
    0x00, 0x06, 0x00, 0x02, 0x01, // flow 0: deadline 6, release 2, 1 job
    0x00, 0x00, 0x00, 0x05, 0x00, 0x02, // size 5, cap 2
    0x00, 0x00, 0x00, 0x00, 0x00, 0x00, 0x00, 0x00, // free
    0x00, 0x04, 0x00, 0x00, 0x01, // flow 1: deadline 4, release 0, 1 job
    0x00, 0x00, 0x00, 0x06, 0x00, 0x02, // size 6, cap 2
    0x00, 0x00, 0x00, 0x00, 0x00, 0x00, 0x00, 0x00, // free
];

/// Slot, flow, job and take of the rows of plan G. Flow 0 waits for its release
/// though slots 0 and 1 have a processor free; its chain is 2, 2 and then 1.
const ROWS_G: [[u16; 4]; 7] = [
    [0, 1, 0, 2],
    [1, 1, 0, 2],
    [2, 1, 0, 2],
    [2, 0, 0, 1],
    [3, 0, 0, 2],
    [4, 0, 0, 1],
    [5, 0, 0, 1],
];

/// The rows of the dispatch list of plan G.
const LISTED_G: [[u16; 4]; 7] = [
    [0, 1, 0, 2],
    [1, 1, 0, 2],
    [2, 0, 0, 1],
    [2, 1, 0, 2],
    [3, 0, 0, 2],
    [4, 0, 0, 1],
    [5, 0, 0, 1],
];

/// What the program prints of plan G.
pub const TEXT_G: &str = "\
table 54 late 1
finish 0 6
finish 1 3
slot 0 flow 1 job 0 take 2
slot 1 flow 1 job 0 take 2
slot 2 flow 1 job 0 take 2
slot 2 flow 0 job 0 take 1
slot 3 flow 0 job 0 take 2
slot 4 flow 0 job 0 take 1
slot 5 flow 0 job 0 take 1
";

/// Book J, of version 2.
pub const BOOK_J: [u8; 46] = [
    0x00, 0x00, 0x00, 0x2e, 0x02, 0x00, 0x02, 0x02, // 46 bytes, version 2, P 2, 2 flows
    0x00, 0x09, 0x00, 0x00, 0x01, // flow 0: deadline 9, release 0, 1 job
    0x00, 0x00, 0x00, 0x09, 0x00, 0x02, // size 9, cap 2
    0x00, 0x00, 0x00, 0x00, 0x00, 0x00, 0x00, 0x00, // free
    0x00, 0x04, 0x00, 0x00, 0x01, // flow 1: deadline 4, release 0, 1 job
    0x00, 0x00, 0x00, 0x02, 0x00, 0x01, // size 2, cap 1
    0x00, 0x00, 0x00, 0x00, 0x00, 0x00, 0x00, 0x00, // free
];

/// Calendar J: slots 0, 3, 4 and 8 to 10 are shut.
pub const CALENDAR_J: [u8; 18] = [
    0x00, 0x00, 0x00, 0x12, 0x01, 0x03, // 18 bytes, version 1, 3 windows
    0x00, 0x00, 0x00, 0x01, // first slot shut, first slot open again
    0x00, 0x03, 0x00, 0x05, //
    0x00, 0x08, 0x00, 0x0b, //
];

/// A calendar whose second window begins in the slot in which the first reopened.
pub const TOUCHING: [u8; 14] = [
    0x00, 0x00, 0x00, 0x0e, 0x01, 0x02, // 14 bytes, version 1, 2 windows
    0x00, 0x03, 0x00, 0x05, //
    0x00, 0x05, 0x00, 0x08, //
];

/// Slot, flow, job and take of the rows of plan J. The open slots are 1, 2, 5, 6, 7 and
/// those from 11 on. Flow 0 shares the first two with flow 1; its chain is four times 2
/// and then 1, which waits for slot 11.
const ROWS_J: [[u16; 4]; 8] = [
    [1, 1, 0, 1],
    [2, 1, 0, 1],
    [1, 0, 0, 1],
    [2, 0, 0, 1],
    [5, 0, 0, 2],
    [6, 0, 0, 2],
    [7, 0, 0, 2],
    [11, 0, 0, 1],
];

/// The rows of the dispatch list of plan J.
const LISTED_J: [[u16; 4]; 8] = [
    [1, 0, 0, 1],
    [1, 1, 0, 1],
    [2, 0, 0, 1],
    [2, 1, 0, 1],
    [5, 0, 0, 2],
    [6, 0, 0, 2],
    [7, 0, 0, 2],
    [11, 0, 0, 1],
];

/// The use of each slot in plan J.
const USED_J: [u16; 12] = [0, 2, 2, 0, 0, 2, 2, 2, 0, 0, 0, 1];

/// Book K, of version 2.
pub const BOOK_K: [u8; 46] = [
    0x00, 0x00, 0x00, 0x2e, 0x02, 0x00, 0x04, 0x02, // 46 bytes, version 2, P 4, 2 flows
    0x00, 0x08, 0x00, 0x02, 0x01, // flow 0: deadline 8, release 2, 1 job
    0x00, 0x00, 0x00, 0x04, 0x00, 0x02, // size 4, cap 2
    0x00, 0x00, 0x00, 0x00, 0x00, 0x00, 0x00, 0x00, // free
    0x00, 0x03, 0x00, 0x02, 0x01, // flow 1: deadline 3, release 2, 1 job
    0x00, 0x00, 0x00, 0x03, 0x00, 0x03, // size 3, cap 3
    0x00, 0x00, 0x00, 0x00, 0x00, 0x00, 0x00, 0x00, // free
];

/// What book L has behind the flows of book K.
const FLOW_L: [u8; 19] = [
    0x00, 0x08, 0x00, 0x00, 0x01, // flow 2: deadline 8, release 0, 1 job
    0x00, 0x00, 0x00, 0x09, 0x00, 0x04, // size 9, cap 4
    0x00, 0x00, 0x00, 0x00, 0x00, 0x00, 0x00, 0x00, // free
];

/// Calendar K: slots 1, 3 and 4 are shut.
pub const CALENDAR_K: [u8; 14] = [
    0x00, 0x00, 0x00, 0x0e, 0x01, 0x02, // 14 bytes, version 1, 2 windows
    0x00, 0x01, 0x00, 0x02, // first slot shut, first slot open again
    0x00, 0x03, 0x00, 0x05, //
];

/// Slot, flow, job and take of the rows of plan K. Flow 1 fills slot 2 but for one
/// processor; flow 0, whose chain is twice 2, goes on in slots 5 and 6.
const ROWS_K: [[u16; 4]; 4] = [[2, 1, 0, 3], [2, 0, 0, 1], [5, 0, 0, 2], [6, 0, 0, 1]];

/// The rows of plan L behind those of plan K. The chain of flow 2 is twice 4 and then 1;
/// it is served behind flow 0, which has the same deadline, and has what is left.
const ROWS_OF_L: [[u16; 4]; 4] = [[0, 2, 0, 4], [5, 2, 0, 2], [6, 2, 0, 2], [7, 2, 0, 1]];

/// The use of each slot in plans K and L.
const USED_K: [u16; 7] = [0, 0, 4, 0, 0, 2, 1];
const USED_L: [u16; 8] = [4, 0, 4, 0, 0, 4, 3, 1];

fn rows(listed: &[[u16; 4]]) -> Vec<Row> {
    let row = |&[slot, flow, job, take]: &[u16; 4]| Row {
        slot,
        flow: flow as u8,
        job: job as u8,
        take,
    };
    listed.iter().map(row).collect()
}

fn free(size: u32, cap: u32) -> Job {
    Job {
        size,
        cap,
        precedence: 0,
    }
}

pub fn table_a() -> Vec<u8> {
    encode_table(3, &[6, 3], &rows(&ROWS_A))
}

pub fn book_b() -> Vec<u8> {
    let first = Flow::new(3, vec![free(3, 1)]);
    let second = Flow::new(4, vec![free(4, 2), free(2, 1)]);
    encode_book(&Book::new(3, vec![first, second]))
}

pub fn table_b() -> Vec<u8> {
    encode_table(3, &[3, 3], &rows(&ROWS_B))
}

pub fn book_c(size: u32) -> Vec<u8> {
    encode_book(&Book::new(2, vec![Flow::new(2, vec![free(size, 1)])]))
}

/// The table of plan C for a size that can be planned.
pub fn table_c(size: u16) -> Vec<u8> {
    let listed: Vec<[u16; 4]> = (0..size).map(|slot| [slot, 0, 0, 1]).collect();
    encode_table(2, &[size], &rows(&listed))
}

pub fn book_d(processors: u32) -> Vec<u8> {
    encode_book(&Book::new(processors, Vec::new()))
}

pub fn table_d(processors: u16) -> Vec<u8> {
    encode_table(processors, &[], &[])
}

/// The dispatch list of plan D: its head alone.
pub fn list_d(processors: u16) -> Vec<u8> {
    let [high, low] = processors.to_be_bytes();
    vec![0x00, 0x00, 0x00, 0x07, 0x01, high, low]
}

/// Book A with P 2.
pub fn book_e() -> Vec<u8> {
    let mut book = BOOK_A.to_vec();
    book[6] = 2;
    book
}

/// The values of book E in a version, with a cap for job 1 of flow 0. At 3 they
/// are those of the book itself.
pub fn book_e_capped(version: Version, cap: u32) -> Vec<u8> {
    let second = Job {
        precedence: 1,
        ..free(4, cap)
    };
    let flows = vec![
        Flow::new(5, vec![free(5, 2), second]),
        Flow::new(3, vec![free(5, 2)]),
    ];
    encode_book(&Book {
        version,
        ..Book::new(2, flows)
    })
}

/// Table E with another take in a row.
fn table_e(row: usize, take: u16) -> Vec<u8> {
    let mut listed = ROWS_E;
    listed[row][3] = take;
    encode_table(2, &[8, 3], &rows(&listed))
}

/// Table A with its eighth row moved to slot 3, with the take as it was or 2.
pub fn table_f(take: u16) -> Vec<u8> {
    let mut listed = ROWS_A;
    listed[7][0] = 3;
    listed[7][3] = take;
    encode_table(3, &[6, 3], &rows(&listed))
}

/// Book A with a third flow, deadline 4, one job of a size at cap 1. With a size of 9
/// it is not finished after slot 7.
pub fn book_a_between(size: u32) -> Vec<u8> {
    let second = Job {
        precedence: 1,
        ..free(4, 3)
    };
    let flows = vec![
        Flow::new(5, vec![free(5, 2), second]),
        Flow::new(3, vec![free(5, 2)]),
        Flow::new(4, vec![free(size, 1)]),
    ];
    encode_book(&Book::new(3, flows))
}

/// Flow numbers that are in no book of so many flows, among them those whose lowest
/// bytes are the number of a flow.
pub fn no_flows(count: u32) -> Vec<u32> {
    let mut numbers = vec![64, 65, 255, 256, 257, 1 << 16, 1 << 24, 1 << 31, u32::MAX];
    numbers.extend((count..64).take(2));
    numbers
}

/// The values of book G with a release for flow 0, in a version.
pub fn book_g(version: Version, release: u32) -> Vec<u8> {
    let mut later = Flow::new(6, vec![free(5, 2)]);
    later.release = release;
    let flows = vec![later, Flow::new(4, vec![free(6, 2)])];
    encode_book(&Book {
        version,
        ..Book::new(3, flows)
    })
}

pub fn table_g() -> Vec<u8> {
    encode_table(3, &[6, 3], &rows(&ROWS_G))
}

/// Table G with the first row of flow 0 in another slot and with another take.
fn moved_g(slot: u16, take: u16) -> Vec<u8> {
    let mut listed = ROWS_G;
    listed[3][0] = slot;
    listed[3][3] = take;
    encode_table(3, &[6, 3], &rows(&listed))
}

/// The rows of flow 1 in plan G, and then these of flow 0.
fn with_g(finish: u16, of_flow_0: &[[u16; 4]]) -> Vec<u8> {
    let listed = [&ROWS_G[..3], of_flow_0].concat();
    encode_table(3, &[finish, 3], &rows(&listed))
}

/// Table J with the third row of flow 0 in a slot; in the plan it is 5.
pub fn table_j(slot: u16) -> Vec<u8> {
    let mut listed = ROWS_J;
    listed[4][0] = slot;
    encode_table(2, &[12, 3], &rows(&listed))
}

pub fn table_k() -> Vec<u8> {
    encode_table(4, &[7, 3], &rows(&ROWS_K))
}

/// Book K with a third flow at its end.
pub fn book_l() -> Vec<u8> {
    let mut book = [&BOOK_K[..], &FLOW_L].concat();
    book[7] = 3;
    fit_length(&mut book);
    book
}

pub fn table_l() -> Vec<u8> {
    let listed = [ROWS_K, ROWS_OF_L].concat();
    encode_table(4, &[7, 3, 8], &rows(&listed))
}

/// What is owed of calls without windows.
pub fn planned(plan: Planner, book: &[u8], table: &[u8], late: u8, used: &[u16]) {
    planned_in(plan, book, &NO_WINDOWS, table, late, used);
}

pub fn not_planned(plan: Planner, book: &[u8], room: usize, refusal: Refusal) {
    not_planned_in(plan, book, &NO_WINDOWS, room, refusal);
}

pub fn checked(check: Check, book: &[u8], table: &[u8], late: u8, used: &[u16]) {
    checked_in(check, book, &NO_WINDOWS, table, late, used);
}

pub fn not_checked(check: Check, book: &[u8], table: &[u8], refusal: Refusal) {
    not_checked_in(check, book, &NO_WINDOWS, table, refusal);
}

pub fn listed(dispatch: Dispatch, book: &[u8], table: &[u8], list: &[u8], used: &[u16]) {
    listed_in(dispatch, book, &NO_WINDOWS, table, list, used);
}

pub fn not_listed(dispatch: Dispatch, book: &[u8], table: &[u8], room: usize, refusal: Refusal) {
    not_listed_in(dispatch, book, &NO_WINDOWS, table, room, refusal);
}

pub fn finished(finish: Finish, book: &[u8], flow: u32, at: u16, used: &[u16]) {
    finished_in(finish, book, &NO_WINDOWS, flow, at, used);
}

pub fn not_finished(finish: Finish, book: &[u8], flow: u32, refusal: Refusal) {
    not_finished_in(finish, book, &NO_WINDOWS, flow, refusal);
}

/// The same with a calendar.
pub fn planned_in(
    plan: Planner,
    book: &[u8],
    calendar: &[u8],
    table: &[u8],
    late: u8,
    used: &[u16],
) {
    for room in [table.len(), table.len() + 1, table.len() + 100] {
        let mut output = vec![JUNK; room];
        let mut work = vec![JUNK; WORK_BYTES + 3];
        let answer = plan(book, calendar, &mut output, &mut work);
        assert_eq!(answer, PlanAnswer::accepted(late, table.len() as u32));
        assert_eq!(&output[..table.len()], table);
        assert!(output[table.len()..].iter().all(|&byte| byte == JUNK));
        holds_use(&work, used);
    }
    for room in [table.len() - 1, 0] {
        not_planned_in(plan, book, calendar, room, Refusal::of_all(13));
    }
}

pub fn not_planned_in(plan: Planner, book: &[u8], calendar: &[u8], room: usize, refusal: Refusal) {
    let mut output = vec![JUNK; room];
    let mut work = vec![JUNK; WORK_BYTES + 3];
    let answer = plan(book, calendar, &mut output, &mut work);
    assert_eq!(answer, PlanAnswer::refused(refusal));
    assert!(output.iter().all(|&byte| byte == JUNK));
    left_by(refusal, &work);
}

pub fn checked_in(
    check: Check,
    book: &[u8],
    calendar: &[u8],
    table: &[u8],
    late: u8,
    used: &[u16],
) {
    let mut work = vec![JUNK; WORK_BYTES + 3];
    let answer = check(book, calendar, table, &mut work);
    assert_eq!(answer, CheckAnswer::accepted(late));
    holds_use(&work, used);
}

pub fn not_checked_in(check: Check, book: &[u8], calendar: &[u8], table: &[u8], refusal: Refusal) {
    let mut work = vec![JUNK; WORK_BYTES + 3];
    let answer = check(book, calendar, table, &mut work);
    assert_eq!(answer, CheckAnswer::refused(refusal));
    left_by(refusal, &work);
}

pub fn listed_in(
    dispatch: Dispatch,
    book: &[u8],
    calendar: &[u8],
    table: &[u8],
    list: &[u8],
    used: &[u16],
) {
    for room in [list.len(), list.len() + 1, list.len() + 100] {
        let mut output = vec![JUNK; room];
        let mut work = vec![JUNK; WORK_BYTES + 3];
        let answer = dispatch(book, calendar, table, &mut output, &mut work);
        assert_eq!(answer, ListAnswer::accepted(list.len() as u32));
        assert_eq!(&output[..list.len()], list);
        assert!(output[list.len()..].iter().all(|&byte| byte == JUNK));
        holds_use(&work, used);
    }
    for room in [list.len() - 1, 0] {
        not_listed_in(dispatch, book, calendar, table, room, Refusal::of_all(13));
    }
}

pub fn not_listed_in(
    dispatch: Dispatch,
    book: &[u8],
    calendar: &[u8],
    table: &[u8],
    room: usize,
    refusal: Refusal,
) {
    let mut output = vec![JUNK; room];
    let mut work = vec![JUNK; WORK_BYTES + 3];
    let answer = dispatch(book, calendar, table, &mut output, &mut work);
    assert_eq!(answer, ListAnswer::refused(refusal));
    assert!(output.iter().all(|&byte| byte == JUNK));
    left_by(refusal, &work);
}

pub fn finished_in(finish: Finish, book: &[u8], calendar: &[u8], flow: u32, at: u16, used: &[u16]) {
    let mut work = vec![JUNK; WORK_BYTES + 3];
    let answer = finish(book, calendar, flow, &mut work);
    assert_eq!(answer, FinishAnswer::accepted(at));
    holds_use(&work, used);
    in_short_area(finish, book, calendar, flow, Refusal::of_all(11));
}

pub fn not_finished_in(finish: Finish, book: &[u8], calendar: &[u8], flow: u32, refusal: Refusal) {
    let mut work = vec![JUNK; WORK_BYTES + 3];
    let answer = finish(book, calendar, flow, &mut work);
    assert_eq!(answer, FinishAnswer::refused(refusal));
    left_by(refusal, &work);
    // All but 12 come before 11.
    let first = match refusal.number {
        12 => Refusal::of_all(11),
        _ => refusal,
    };
    in_short_area(finish, book, calendar, flow, first);
}

/// In a work area of one byte less than it needs, and of none.
fn in_short_area(finish: Finish, book: &[u8], calendar: &[u8], flow: u32, refusal: Refusal) {
    for length in [WORK_BYTES - 1, 0] {
        let mut work = vec![JUNK; length];
        let answer = finish(book, calendar, flow, &mut work);
        assert_eq!(answer, FinishAnswer::refused(refusal));
        assert!(work.iter().all(|&byte| byte == JUNK));
    }
}

fn holds_use(work: &[u8], used: &[u16]) {
    for (slot, pair) in work[..WORK_BYTES].chunks_exact(2).enumerate() {
        let in_use = used.get(slot).copied().unwrap_or(0);
        assert_eq!(pair, in_use.to_be_bytes(), "use of slot {slot}");
    }
    assert!(work[WORK_BYTES..].iter().all(|&byte| byte == JUNK));
}

fn left_by(refusal: Refusal, work: &[u8]) {
    let zeroed = match refusal.number {
        ..=11 | 22 | 23 | 24 => 0,
        _ => WORK_BYTES,
    };
    assert!(work[..zeroed].iter().all(|&byte| byte == 0));
    assert!(work[zeroed..].iter().all(|&byte| byte == JUNK));
}

/// Holds the marked plans against a planner.
pub fn hold_planner(plan: Planner) {
    planned(plan, &BOOK_A, &table_a(), 2, &[3, 3, 3, 1, 3, 1]);
    planned(plan, &book_b(), &table_b(), 1, &[3, 3, 3]);
    planned(plan, &book_c(2), &table_c(2), 1, &[1, 1]);
    planned(plan, &book_c(4), &table_c(4), 1, &[1, 1, 1, 1]);
    not_planned(plan, &book_c(5), 100, Refusal::new(12, 0, 255));
    for processors in [1, 3, 4_096] {
        let table = table_d(processors);
        assert_eq!(table.len(), 8);
        planned(plan, &book_d(u32::from(processors)), &table, 0, &[]);
        let book = book_d(u32::from(processors));
        not_planned(plan, &book, 7, Refusal::of_all(13));
    }
    assert_eq!(book_e_capped(Version::One, 3), book_e());
    planned(plan, &book_e(), &TABLE_E, 2, &USED_E);
    for version in VERSIONS {
        for cap in [2, 3, 65_535] {
            planned(plan, &book_e_capped(version, cap), &TABLE_E, 2, &USED_E);
        }
        let book = book_e_capped(version, 0);
        not_planned(plan, &book, 100, Refusal::new(9, 0, 1));
    }
    planned(plan, &BOOK_G, &table_g(), 1, &[2, 2, 3, 2, 1, 1]);
    // In version 1 the release is 0.
    for book in [book_g(Version::One, 0), book_g(Version::Two, 0)] {
        let at_once = [0, 1, 2, 3, 4].map(|slot| [slot, 0, 0, 1]);
        planned(plan, &book, &with_g(5, &at_once), 0, &[3, 3, 3, 1, 1]);
    }
    // The latest release.
    let latest = with_g(8, &[[5, 0, 0, 2], [6, 0, 0, 2], [7, 0, 0, 1]]);
    let used = [2, 2, 2, 0, 0, 2, 2, 1];
    planned(plan, &book_g(Version::Two, 5), &latest, 1, &used);
    for release in [6, 7, 4_096, 65_535] {
        let book = book_g(Version::Two, release);
        not_planned(plan, &book, 100, Refusal::new(22, 0, 255));
    }
    planned_in(plan, &BOOK_J, &CALENDAR_J, &table_j(5), 1, &USED_J);
    for calendar in [&TOUCHING[..], &[]] {
        not_planned_in(plan, &BOOK_J, calendar, 60, Refusal::of_all(24));
    }
    // One open slot before the deadline of C, so two before its limit.
    let rows_c = rows(&[[1, 0, 0, 1], [2, 0, 0, 1]]);
    let table = encode_table(2, &[3], &rows_c);
    planned_in(plan, &book_c(2), &CALENDAR_J, &table, 1, &[0, 1, 1]);
    let infeasible = Refusal::new(12, 0, 255);
    not_planned_in(plan, &book_c(3), &CALENDAR_J, 40, infeasible);
    planned_in(plan, &BOOK_K, &CALENDAR_K, &table_k(), 1, &USED_K);
    planned_in(plan, &book_l(), &CALENDAR_K, &table_l(), 2, &USED_L);
}

/// Holds the marked plans and tables against a check.
pub fn hold_check(check: Check) {
    checked(check, &BOOK_A, &table_a(), 2, &[3, 3, 3, 1, 3, 1]);
    checked(check, &book_b(), &table_b(), 1, &[3, 3, 3]);
    checked(check, &book_c(2), &table_c(2), 1, &[1, 1]);
    checked(check, &book_c(4), &table_c(4), 1, &[1, 1, 1, 1]);
    // Beyond twice the deadline a valid table is still accepted by the check.
    checked(check, &book_c(5), &table_c(5), 1, &[1, 1, 1, 1, 1]);
    for processors in [1, 3, 4_096] {
        let book = book_d(u32::from(processors));
        checked(check, &book, &table_d(processors), 0, &[]);
    }
    assert_eq!(table_e(7, 2), TABLE_E);
    checked(check, &book_e(), &TABLE_E, 2, &USED_E);
    not_checked(check, &book_e(), &table_a(), Refusal::of_all(14));
    for version in VERSIONS {
        for cap in [2, 3, 65_535] {
            let book = book_e_capped(version, cap);
            checked(check, &book, &TABLE_E, 2, &USED_E);
            // One more than P to job 1 is more than its cap.
            for row in [7, 8] {
                not_checked(check, &book, &table_e(row, 3), Refusal::new(17, 0, 1));
            }
        }
        let book = book_e_capped(version, 0);
        not_checked(check, &book, &TABLE_E, Refusal::new(9, 0, 1));
    }
    not_checked(check, &BOOK_A, &table_f(3), Refusal::new(18, 0, 1));
    not_checked(check, &BOOK_A, &table_f(2), Refusal::new(19, 0, 1));
    let mut short = table_a();
    short.truncate(60);
    not_checked(check, &BOOK_A, &short, Refusal::of_all(14));
    fit_length(&mut short);
    not_checked(check, &BOOK_A, &short, Refusal::new(20, 0, 1));
    checked(check, &BOOK_G, &table_g(), 1, &[2, 2, 3, 2, 1, 1]);
    let later = with_g(6, &[[3, 0, 0, 2], [4, 0, 0, 2], [5, 0, 0, 1]]);
    checked(check, &BOOK_G, &later, 1, &[2, 2, 2, 2, 2, 1]);
    // Before the release: 17 and 18 are tested first.
    for slot in [0, 1] {
        let fault = |take, number| {
            let refusal = Refusal::new(number, 0, 0);
            not_checked(check, &BOOK_G, &moved_g(slot, take), refusal);
        };
        fault(1, 19);
        fault(2, 18);
        fault(3, 17);
        fault(0, 15);
    }
    // Without a release the same row may stand there.
    for book in [book_g(Version::One, 0), book_g(Version::Two, 0)] {
        checked(check, &book, &moved_g(1, 1), 1, &[2, 3, 2, 2, 1, 1]);
        checked(check, &book, &moved_g(0, 1), 1, &[3, 2, 2, 2, 1, 1]);
    }
    for release in [6, 7, 4_096, 65_535] {
        let book = book_g(Version::Two, release);
        not_checked(check, &book, &table_g(), Refusal::new(22, 0, 255));
    }
    checked_in(check, &BOOK_J, &CALENDAR_J, &table_j(5), 1, &USED_J);
    // In a shut slot, which without windows is one like the others.
    let shut = table_j(4);
    not_checked_in(check, &BOOK_J, &CALENDAR_J, &shut, Refusal::new(25, 0, 0));
    let used = [0, 2, 2, 0, 2, 0, 2, 2, 0, 0, 0, 1];
    checked(check, &BOOK_J, &shut, 1, &used);
    for calendar in [&TOUCHING[..], &[]] {
        not_checked_in(check, &BOOK_J, calendar, &table_j(5), Refusal::of_all(24));
    }
    checked_in(check, &BOOK_K, &CALENDAR_K, &table_k(), 1, &USED_K);
    checked_in(check, &book_l(), &CALENDAR_K, &table_l(), 2, &USED_L);
}

/// Holds the marked plans and tables against a dispatch list.
pub fn hold_dispatch(dispatch: Dispatch) {
    let listed = |book: &[u8], table: &[u8], list: &[u8], used: &[u16]| {
        listed(dispatch, book, table, list, used);
    };
    // Refused whether a list of as many rows would have room or not.
    let refused = |book: &[u8], table: &[u8], refusal| {
        for room in [0, 6, 7, 60, 61, 100] {
            not_listed(dispatch, book, table, room, refusal);
        }
    };
    listed(&BOOK_A, &table_a(), &LIST_A, &[3, 3, 3, 1, 3, 1]);
    let list_b = encode_list(3, &rows(&LISTED_B));
    listed(&book_b(), &table_b(), &list_b, &[3, 3, 3]);
    // One flow of one job: the rows of the table as they stand, also beyond twice
    // the deadline.
    for size in [2, 4, 5] {
        let table = table_c(size);
        let mut list = vec![0x00, 0x00, 0x00, 7 + 6 * size as u8, 0x01, 0x00, 0x02];
        list.extend(&table[10..]);
        let book = book_c(u32::from(size));
        listed(&book, &table, &list, &vec![1; size as usize]);
    }
    for processors in [1, 3, 256, 4_096] {
        let book = book_d(u32::from(processors));
        listed(&book, &table_d(processors), &list_d(processors), &[]);
        for room in 0..7 {
            let table = table_d(processors);
            not_listed(dispatch, &book, &table, room, Refusal::of_all(13));
        }
    }
    let list_e = encode_list(2, &rows(&LISTED_E));
    for version in VERSIONS {
        for cap in [2, 3, 65_535] {
            let book = book_e_capped(version, cap);
            listed(&book, &TABLE_E, &list_e, &USED_E);
            refused(&book, &table_e(7, 3), Refusal::new(17, 0, 1));
        }
        let book = book_e_capped(version, 0);
        refused(&book, &TABLE_E, Refusal::new(9, 0, 1));
    }
    refused(&book_e(), &table_a(), Refusal::of_all(14));
    refused(&BOOK_A, &table_f(3), Refusal::new(18, 0, 1));
    refused(&BOOK_A, &table_f(2), Refusal::new(19, 0, 1));
    let list_g = encode_list(3, &rows(&LISTED_G));
    listed(&BOOK_G, &table_g(), &list_g, &[2, 2, 3, 2, 1, 1]);
    refused(&BOOK_G, &moved_g(1, 1), Refusal::new(19, 0, 0));
    let book = book_g(Version::Two, 6);
    refused(&book, &table_g(), Refusal::new(22, 0, 255));
    let (table, shut) = (table_j(5), table_j(4));
    let list_j = encode_list(2, &rows(&LISTED_J));
    listed_in(dispatch, &BOOK_J, &CALENDAR_J, &table, &list_j, &USED_J);
    for room in [0, 100] {
        let refusal = Refusal::new(25, 0, 0);
        not_listed_in(dispatch, &BOOK_J, &CALENDAR_J, &shut, room, refusal);
        let refusal = Refusal::of_all(24);
        not_listed_in(dispatch, &BOOK_J, &TOUCHING, &table, room, refusal);
    }
}

/// Holds the marked plans against a finish of one flow.
pub fn hold_finish(finish: Finish) {
    let finished = |book: &[u8], flow, at, used: &[u16]| finished(finish, book, flow, at, used);
    let refused = |book: &[u8], flow, number, named| {
        not_finished(finish, book, flow, Refusal::new(number, named, 255));
    };
    // In every book: flow numbers that are not in it.
    let none = |book: &[u8]| {
        for flow in no_flows(u32::from(book[7])) {
            not_finished(finish, book, flow, Refusal::of_all(23));
        }
    };
    finished(&BOOK_A, 0, 6, &[3, 3, 3, 1, 3, 1]);
    finished(&BOOK_A, 1, 3, &[2, 2, 1]);
    none(&BOOK_A);
    finished(&book_b(), 0, 3, &[1, 1, 1]);
    finished(&book_b(), 1, 3, &[3, 3, 3]);
    finished(&book_c(2), 0, 2, &[1, 1]);
    finished(&book_c(4), 0, 4, &[1, 1, 1, 1]);
    refused(&book_c(5), 0, 12, 0);
    none(&book_c(5));
    for processors in [1, 3, 4_096] {
        not_finished(finish, &book_d(processors), 0, Refusal::of_all(23));
        none(&book_d(processors));
    }
    for version in VERSIONS {
        for cap in [2, 3, 65_535] {
            let book = book_e_capped(version, cap);
            finished(&book, 0, 8, &USED_E);
            finished(&book, 1, 3, &[2, 2, 1]);
            none(&book);
        }
        // A fault of a flow that is served later, or of no flow that was named.
        let book = book_e_capped(version, 0);
        for flow in [0, 1].into_iter().chain(no_flows(2)) {
            not_finished(finish, &book, flow, Refusal::new(9, 0, 1));
        }
    }
    finished(&BOOK_G, 0, 6, &[2, 2, 3, 2, 1, 1]);
    finished(&BOOK_G, 1, 3, &[2, 2, 2]);
    none(&BOOK_G);
    finished(&book_g(Version::Two, 5), 0, 8, &[2, 2, 2, 0, 0, 2, 2, 1]);
    for flow in [0, 1].into_iter().chain(no_flows(2)) {
        refused(&book_g(Version::Two, 6), flow, 22, 0);
    }
    // The third flow is served second: flow 1 has its finish though flow 2 is
    // infeasible, and flow 0, which is served last, has not.
    let book = book_a_between(9);
    finished(&book, 1, 3, &[2, 2, 1]);
    refused(&book, 2, 12, 2);
    refused(&book, 0, 12, 2);
    none(&book);
    let book = book_a_between(8);
    finished(&book, 1, 3, &[2, 2, 1]);
    finished(&book, 2, 8, &[3, 3, 2, 1, 1, 1, 1, 1]);
    finished(&book, 0, 9, &[3, 3, 3, 3, 2, 2, 3, 2, 1]);
    finished_in(finish, &BOOK_J, &CALENDAR_J, 0, 12, &USED_J);
    finished_in(finish, &BOOK_J, &CALENDAR_J, 1, 3, &[0, 1, 1]);
    for flow in no_flows(2) {
        for calendar in [&CALENDAR_J[..], &TOUCHING, &[]] {
            not_finished_in(finish, &BOOK_J, calendar, flow, Refusal::of_all(23));
        }
    }
    for calendar in [&TOUCHING[..], &[]] {
        not_finished_in(finish, &BOOK_J, calendar, 1, Refusal::of_all(24));
    }
    for book in [&BOOK_K[..], &book_l()] {
        finished_in(finish, book, &CALENDAR_K, 0, 7, &USED_K);
        finished_in(finish, book, &CALENDAR_K, 1, 3, &[0, 0, 3]);
    }
    finished_in(finish, &book_l(), &CALENDAR_K, 2, 8, &USED_L);
}
