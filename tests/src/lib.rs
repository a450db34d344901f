//! A second planner, a second table check, a second dispatch list, a second finish of
//! one flow and the quote of one, made apart from the code of the proved ones,
//! with generators of books, calendars and tables, for differential tests and as
//! a baseline of speed.

pub mod answer;
pub mod books;
pub mod calendar;
pub mod calendars;
pub mod caps;
pub mod cases;
pub mod edges;
pub mod fast_dispatch;
pub mod fast_finish;
pub mod fast_planner;
pub mod former;
pub mod heads;
pub mod lent;
pub mod linked;
pub mod linked_dispatch;
pub mod linked_finish;
pub mod linked_plan;
pub mod linked_version;
pub mod lists;
pub mod longest;
pub mod lowered;
pub mod marked;
pub mod measure;
pub mod painted;
pub mod quote;
pub mod reader;
pub mod rng;
pub mod search;
pub mod second_check;
pub mod second_dispatch;
pub mod second_finish;
pub mod second_planner;
pub mod table_trial;
pub mod tables;
pub mod twins;
