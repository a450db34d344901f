//! What is owed of a dispatch list, said without the way in which it was made: its
//! head, its order, that it is a rearrangement of the table's rows, that slot by
//! slot they sum to the work area, and that the book gives the table back from it.

use crate::answer::{SLOTS, WORK_BYTES};
use crate::reader::{be16, be32, Book};
use crate::second_check::{row_at, Row, ROW, TABLE_HEAD};
use crate::second_dispatch::{rows_from, LIST_HEAD};
use crate::tables::{finishes_of, sort_rows, Table};
use std::collections::HashMap;

/// The length of the list of an accepted table. Of any other bytes, that of a list
/// with as many rows as would stand behind head and finishes.
pub fn length_for(table: &[u8]) -> usize {
    if table.len() < TABLE_HEAD {
        return LIST_HEAD;
    }
    LIST_HEAD + table.len().saturating_sub(rows_from(table)) / ROW * ROW
}

/// The rows of a list.
pub fn rows_of(list: &[u8]) -> Vec<Row> {
    list[LIST_HEAD..].chunks_exact(ROW).map(row_at).collect()
}

/// The table of the book that has the rows of a list.
pub fn table_of(book: &Book, list: &[u8]) -> Vec<u8> {
    let mut rows = rows_of(list);
    sort_rows(book, &mut rows);
    let finishes = finishes_of(book, &rows);
    Table { finishes, rows }.encode(book)
}

/// Whether the list would be another one by service order in place of the flow's
/// number.
pub fn tells_orders_apart(book: &Book, list: &[u8]) -> bool {
    let mut by_service = rows_of(list);
    sort_rows(book, &mut by_service);
    by_service.sort_by_key(|row| row.slot);
    by_service != rows_of(list)
}

/// How often each row stands in bytes that are rows alone.
fn times(rows: &[u8]) -> HashMap<&[u8], usize> {
    let mut times = HashMap::with_capacity(rows.len() / ROW);
    for row in rows.chunks(ROW) {
        *times.entry(row).or_insert(0) += 1;
    }
    times
}

/// Processors in each slot by the rows of a list.
fn use_by(rows: &[Row]) -> Vec<u8> {
    let mut used = vec![0u16; SLOTS];
    for row in rows {
        used[row.slot as usize] += row.take;
    }
    used.into_iter().flat_map(u16::to_be_bytes).collect()
}

/// Holds a list against the book and the table that it was made of, and against
/// the work area that was left.
pub fn hold(book: &Book, table: &[u8], list: &[u8], work: &[u8]) {
    assert_eq!(be32(list, 0) as usize, list.len());
    assert_eq!(list[4], 1, "version");
    assert_eq!(be16(list, 5), book.processors);

    let of_list = times(&list[LIST_HEAD..]);
    assert!(of_list == times(&table[rows_from(table)..]));
    assert!(of_list.values().all(|&times| times == 1));

    let rows = rows_of(list);
    let place = |row: &Row| (row.slot, row.flow, row.job);
    assert!(rows.is_sorted_by(|row, next| place(row) < place(next)));
    assert!(work[..WORK_BYTES] == use_by(&rows));
    assert!(table_of(book, list) == table);
}
