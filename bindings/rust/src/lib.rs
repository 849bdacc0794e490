//! Transactions over named variables: what the library proved in Rattle does, for Rust.
//!
//! A [`Service`] is called from any thread: a call runs a transaction as one atomic step, and waits while it retries.
//! What it is made of can be had too. A [`Program`] declares variables, standing conditions, transactions and tasks. A
//! [`Store`] has its tasks, its journal and its present values; threads share it by a reference. A [`Worker`] is
//! what one thread has: it evaluates a task without a lock, and brings the end to the store. [`Store::call`] runs
//! a transaction at once, and answers how it ended.
//!
//! ```
//! use stm::{set, var, Declare};
//!
//! let mut declare = Declare::new();
//! let x = declare.var("x", 5);
//! let inc = declare.tx("inc", set(&x, var(&x) + 1), var(&x));
//! declare.run(inc, 1000);
//! let program = declare.program()?;
//!
//! let report = stm::run(&program, 2)?;
//! assert_eq!(stm::present(&report, "x"), Some(1005));
//! assert_eq!(stm::check(program.text(), &report)?, stm::Verdict::Good);
//! # Ok::<(), stm::Error>(())
//! ```

#![deny(unsafe_code)]
#![warn(missing_docs)]

mod answers;
mod call;
mod declare;
mod declared;
mod error;
mod raw;
mod service;
mod store;
mod transaction;

pub use answers::{Answer, Arguments, End, Entered, Job, Outcome, Receipt, Standing, Ticket, Way};
pub use call::Call;
pub use declare::{
    and, div, eq, int, le, lt, not, or, or_else, param, rem, repeat, retry, seq, set, skip, sum, throw, var,
    when, Cond, Declare, Expr, Param, Stmt, Table, Var,
};
pub use declared::Declared;
pub use error::{Error, Fault, FileFault, NotKept, ScheduleFault};
pub use raw::{Counts, Part, ServiceCounts, Verdict};
pub use service::{Receipts, Service, ServiceOptions};
pub use store::{run, run_with, Program, RunOptions, Store, Worker};
pub use transaction::{Callable, CallableByRows, Transaction};

/// All tasks of a file, one after another on this thread: its report. A journal of `checkpoint`
/// entries is followed by a checkpoint; 0: never.
///
/// ```
/// let report = stm::run_one("(var x 1) (tx two (set x (add x x)) x) (run two 3)", 0)?;
/// assert!(report.ends_with("now 3\nx 8 3\nend\n"));
/// # Ok::<(), stm::Error>(())
/// ```
///
/// # Errors
///
/// The file is refused: [`Error::Refused`], which says where and why. [`Error::Memory`].
pub fn run_one(file: &str, checkpoint: u32) -> Result<String, Error> {
    raw::run_one(file.as_bytes(), checkpoint)
}

/// Whether a file is read; or where and why it is refused (`Error::Refused`), as each call tells that reads one.
///
/// ```
/// assert_eq!(stm::explain("(var x 1)"), Ok(()));
/// let Err(error) = stm::explain("(var x)") else { panic!("it is refused") };
/// let told = "line 1, column 7: F3 Shape: the initial value is wanted, an INT; here stands )";
/// assert_eq!(error.to_string(), told);
/// ```
///
/// # Errors
///
/// The file is refused: [`Error::Refused`], which says where and why. [`Error::Memory`].
pub fn explain(file: &str) -> Result<(), Error> {
    raw::explain(file.as_bytes())
}

/// Whether a report is lawful for a file.
///
/// ```
/// let file = "(var x 1) (tx two (set x (add x x)) x) (run two 3)";
/// assert_eq!(stm::check(file, &stm::run_one(file, 0)?)?, stm::Verdict::Good);
/// assert_eq!(stm::check(file, "base 0")?, stm::Verdict::Bad(stm::Part::Text));
/// # Ok::<(), stm::Error>(())
/// ```
///
/// # Errors
///
/// The file is refused: [`Error::Refused`], which says where and why. [`Error::Memory`].
pub fn check(file: &str, report: &str) -> Result<Verdict, Error> {
    raw::check(file.as_bytes(), report.as_bytes())
}

/// What is seen of a schedule of single loads and stores, on the stepped world of a file.
///
/// # Errors
///
/// The file is refused: [`Error::Refused`]; or the schedule: [`Error::Schedule`]. [`Error::Memory`].
pub fn world(file: &str, schedule: &str) -> Result<String, Error> {
    raw::world(file.as_bytes(), schedule.as_bytes())
}

/// What is found when every order of a file's tasks is seen, of at most so many states:
/// `MoreStates` where more are reached.
///
/// ```
/// let found = stm::explore("(var x 1) (tx two (set x (add x x)) x) (run two 2)", 100)?;
/// assert_eq!(found, "states 3\ntx two returned\nends 1\n1 x 4\nend\n");
/// # Ok::<(), stm::Error>(())
/// ```
///
/// # Errors
///
/// The file is refused: [`Error::Refused`]. [`Error::States`], [`Error::MoreStates`], [`Error::Memory`].
pub fn explore(file: &str, states: u32) -> Result<String, Error> {
    raw::explore(file.as_bytes(), states)
}

/// The report of a run that comes to the end of this number, counted from 1 as `explore` lists
/// them, by as few turns as any order has to it.
///
/// # Errors
///
/// The file is refused: [`Error::Refused`]. [`Error::States`], [`Error::MoreStates`], [`Error::NoEnd`],
/// [`Error::Memory`].
pub fn explore_to(file: &str, states: u32, end: usize) -> Result<String, Error> {
    raw::explore_to(file.as_bytes(), states, end)
}

/// The value of a variable in the last lines of a report, which are the present ones.
pub fn present(report: &str, name: &str) -> Option<i64> {
    report.lines().rev().find_map(|line| {
        let mut words = line.split(' ');
        let named = words.next() == Some(name);
        let value = words.next()?.parse().ok()?;
        let version: Option<u64> = words.next()?.parse().ok();
        (named && version.is_some() && words.next().is_none()).then_some(value)
    })
}
