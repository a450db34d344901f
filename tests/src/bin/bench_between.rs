//! Prints how long the calls of one library take beside those of another, on the
//! books of the benchmarks, called in turn in one process with the same buffers.
//! It judges nothing.
//!
//! usage: bench_between BEFORE.so AFTER.so [RUNS] [--before-calendars]
//!
//! With the flag the first library is one from before Req 07, whose calls take no
//! calendar. Cases with windows are left out.

use flowplan_tests::answer::{CheckAnswer, PlanAnswer, WORK_BYTES};
use flowplan_tests::books::encode_book;
use flowplan_tests::calendar::{Calendar, NO_WINDOWS};
use flowplan_tests::cases::{check_cases, plan_cases, Case};
use flowplan_tests::fast_planner;
use flowplan_tests::measure::Rounds;
use std::cell::RefCell;
use std::ffi::{c_char, c_int, c_void, CString};
use std::hint::black_box;
use std::mem::transmute;

extern "C" {
    fn dlopen(file: *const c_char, flags: c_int) -> *mut c_void;
    fn dlsym(library: *mut c_void, name: *const c_char) -> *mut c_void;
}

/// Every name is bound as the library is opened.
const NOW: c_int = 2;

type PlanCall = unsafe extern "C" fn(
    *const u8,
    usize,
    *const u8,
    usize,
    *mut u8,
    usize,
    *mut u8,
    usize,
) -> PlanAnswer;
type CheckCall = unsafe extern "C" fn(
    *const u8,
    usize,
    *const u8,
    usize,
    *const u8,
    usize,
    *mut u8,
    usize,
) -> CheckAnswer;

/// The calls as they were before Req 07.
type FormerPlan =
    unsafe extern "C" fn(*const u8, usize, *mut u8, usize, *mut u8, usize) -> PlanAnswer;
type FormerCheck =
    unsafe extern "C" fn(*const u8, usize, *const u8, usize, *mut u8, usize) -> CheckAnswer;

/// The calls of a library.
enum Library {
    Former {
        plan: FormerPlan,
        check: FormerCheck,
    },
    Now {
        plan: PlanCall,
        check: CheckCall,
    },
}

impl Library {
    fn open(file: &str, former: bool) -> Library {
        let path = CString::new(file).expect("a path without a zero byte");
        // SAFETY: the library runs nothing as it is opened.
        let library = unsafe { dlopen(path.as_ptr(), NOW) };
        assert!(!library.is_null(), "{file} can be opened");
        let find = |name: &str| {
            let symbol = CString::new(name).expect("a name without a zero byte");
            // SAFETY: the library is open, and stays so.
            let found = unsafe { dlsym(library, symbol.as_ptr()) };
            assert!(!found.is_null(), "{file} has {name}");
            found
        };
        let (plan, check) = (find("flowplan_plan"), find("flowplan_check"));
        // SAFETY: the calls as include/flowplan.h of the library declares them.
        unsafe {
            if former {
                Library::Former {
                    plan: transmute::<*mut c_void, FormerPlan>(plan),
                    check: transmute::<*mut c_void, FormerCheck>(check),
                }
            } else {
                Library::Now {
                    plan: transmute::<*mut c_void, PlanCall>(plan),
                    check: transmute::<*mut c_void, CheckCall>(check),
                }
            }
        }
    }

    /// Without windows.
    fn plan(&self, book: &[u8], output: &mut [u8], work: &mut [u8]) -> PlanAnswer {
        let (from, length) = (book.as_ptr(), book.len());
        let (bytes, room) = (output.as_mut_ptr(), output.len());
        let (area, size) = (work.as_mut_ptr(), work.len());
        let (calendar, of) = (NO_WINDOWS.as_ptr(), NO_WINDOWS.len());
        // SAFETY: slices that do not overlap.
        unsafe {
            match self {
                Library::Former { plan, .. } => plan(from, length, bytes, room, area, size),
                Library::Now { plan, .. } => {
                    plan(from, length, calendar, of, bytes, room, area, size)
                }
            }
        }
    }

    /// Without windows.
    fn check(&self, book: &[u8], table: &[u8], work: &mut [u8]) -> CheckAnswer {
        let (from, length) = (book.as_ptr(), book.len());
        let (bytes, room) = (table.as_ptr(), table.len());
        let (area, size) = (work.as_mut_ptr(), work.len());
        let (calendar, of) = (NO_WINDOWS.as_ptr(), NO_WINDOWS.len());
        // SAFETY: slices that do not overlap.
        unsafe {
            match self {
                Library::Former { check, .. } => check(from, length, bytes, room, area, size),
                Library::Now { check, .. } => {
                    check(from, length, calendar, of, bytes, room, area, size)
                }
            }
        }
    }
}

/// What one run measured: the seconds of a call, and after over before.
struct Run {
    before: f64,
    after: f64,
    ratio: f64,
}

/// One case in each run; every other run begins with `before`. None where the two
/// answer differently. The late flows are not compared: libraries of both sides of
/// Req 06 count them by different rules.
fn measured<A: PartialEq>(
    case: &Case,
    runs: usize,
    before: &mut dyn FnMut() -> A,
    after: &mut dyn FnMut() -> A,
) -> Option<Vec<Run>> {
    if before() != after() {
        return None;
    }
    let (mut before, mut after) = (|| drop(before()), || drop(after()));
    let run = |k| {
        let (ways, [b, a]): ([&mut dyn FnMut(); 2], [usize; 2]) = match k % 2 {
            0 => ([&mut after, &mut before], [1, 0]),
            _ => ([&mut before, &mut after], [0, 1]),
        };
        let rounds = Rounds::run(case.rounds, case.calls, ways);
        Run {
            before: rounds.median(|times| times[b]),
            after: rounds.median(|times| times[a]),
            ratio: rounds.median(|times| times[a] / times[b]),
        }
    };
    Some((0..runs).map(run).collect())
}

/// The least, the median and the most of the runs.
fn spread(runs: &[Run], of: impl Fn(&Run) -> f64) -> [f64; 3] {
    let mut values: Vec<f64> = runs.iter().map(of).collect();
    values.sort_unstable_by(f64::total_cmp);
    [0, values.len() / 2, values.len() - 1].map(|k| values[k])
}

fn show(case: &Case, runs: Option<Vec<Run>>) {
    if let Some(heading) = case.heading {
        println!("{heading}");
    }
    match runs {
        None => println!("{}: the two answer differently", case.name),
        Some(runs) => {
            let [_, before, _] = spread(&runs, |run| run.before * 1e6);
            let [_, after, _] = spread(&runs, |run| run.after * 1e6);
            let [least, middle, most] = spread(&runs, |run| run.ratio);
            println!(
                "{}: before {before:.2} us; after {after:.2} us; ratio {middle:.3} ({least:.3} to {most:.3})",
                case.name
            );
        }
    }
}

fn main() {
    let mut arguments: Vec<String> = std::env::args().collect();
    let given = arguments.len();
    arguments.retain(|argument| argument != "--before-calendars");
    let before = Library::open(&arguments[1], arguments.len() < given);
    let after = Library::open(&arguments[2], false);
    let runs = arguments
        .get(3)
        .map_or(6, |runs| runs.parse().expect("a number of runs"));
    println!("ratio: after over before; above 1: the one after takes longer");
    println!("median of {runs} runs, least and most; buffers are not cleared between calls");
    let work = RefCell::new(vec![0x5a; WORK_BYTES]);
    let output = RefCell::new(vec![0; 201_326_728]);
    let without = |case: &Case| case.calendar == Calendar::default();
    println!("planner:");
    for case in plan_cases().into_iter().filter(without) {
        let book = encode_book(&case.book);
        let plan = |library: &Library| {
            let answer = library.plan(
                black_box(&book),
                &mut output.borrow_mut(),
                &mut work.borrow_mut(),
            );
            PlanAnswer { late: 0, ..answer }
        };
        let found = measured(&case, runs, &mut || plan(&before), &mut || plan(&after));
        show(&case, found);
    }
    println!("check:");
    for case in check_cases().into_iter().filter(without) {
        let book = encode_book(&case.book);
        let planned = {
            let (mut output, mut work) = (output.borrow_mut(), work.borrow_mut());
            fast_planner::plan(&book, &NO_WINDOWS, &mut output, &mut work)
        };
        let table = output.borrow()[..planned.length as usize].to_vec();
        let check = |library: &Library| {
            let work = &mut work.borrow_mut();
            let answer = library.check(black_box(&book), black_box(&table), work);
            CheckAnswer { late: 0, ..answer }
        };
        let found = measured(&case, runs, &mut || check(&before), &mut || check(&after));
        show(&case, found);
    }
}
