//! The dispatch list, written a second time from the request: the second check,
//! and the rows of an accepted table in the stated order by a sort.

use crate::answer::{ListAnswer, Refusal, WORK_BYTES};
use crate::books::encode_list;
use crate::reader::be16;
use crate::second_check::{self, row_at, Row, FINISH, ROW, TABLE_HEAD};

/// Bytes of the list's head.
pub const LIST_HEAD: usize = 7;

/// Where the rows of an accepted table begin. Its flows are those of the book.
pub fn rows_from(table: &[u8]) -> usize {
    TABLE_HEAD + FINISH * table[7] as usize
}

/// The list of an accepted table.
pub fn list_of(table: &[u8]) -> Vec<u8> {
    let rows = table[rows_from(table)..].chunks_exact(ROW);
    let mut rows: Vec<Row> = rows.map(row_at).collect();
    rows.sort_by_key(|row| (row.slot, row.flow, row.job));
    let list = encode_list(be16(table, 5) as u16, &rows);
    assert_eq!(list.len(), LIST_HEAD + ROW * rows.len());
    list
}

/// The dispatch list as it is called.
pub fn dispatch(
    book: &[u8],
    calendar: &[u8],
    table: &[u8],
    output: &mut [u8],
    work: &mut [u8],
) -> ListAnswer {
    let checked = second_check::check(book, calendar, table, work);
    if checked.number != 0 {
        let refusal = Refusal::new(checked.number, checked.flow, checked.job);
        return ListAnswer::refused(refusal);
    }
    let list = list_of(table);
    if list.len() > output.len() {
        work[..WORK_BYTES].fill(0);
        return ListAnswer::refused(Refusal::of_all(13));
    }
    output[..list.len()].copy_from_slice(&list);
    ListAnswer::accepted(list.len() as u32)
}
