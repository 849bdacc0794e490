//! Why a call answered nothing, or a transaction returned nothing.

use std::fmt;

/// Why a call answered nothing. Nothing changed then, unless the call says more.
#[derive(Clone, Debug, PartialEq, Eq)]
pub enum Error {
    /// The file is refused. Its first fault stands at this line and column, both from 1, and columns in bytes; of a
    /// declared program in what `Declare::text` spells. The text is the line that `stm explain` prints.
    ///
    /// ```
    /// use stm::{Error, FileFault, Program};
    ///
    /// let Err(error) = Program::read("(var x 1)\n(tx t (set y 1) x)") else { panic!("it is refused") };
    /// assert!(matches!(error, Error::Refused { fault: FileFault::Name, line: 2, column: 12, .. }));
    /// let told = "line 2, column 12: F4 Name: no variable of this name is declared; here stands y; did you mean x?";
    /// assert_eq!(error.to_string(), told);
    /// ```
    Refused {
        /// What it is.
        fault: FileFault,
        /// Its line.
        line: usize,
        /// Its column there.
        column: usize,
        /// What `stm explain` prints of it.
        text: String,
    },
    /// This word was to be declared, and is no name.
    WrongName(String),
    /// The file as it has become has more bytes than a file may have.
    TooLong,
    /// A growth was refused; also where a file was refused, and it could not be said why.
    Memory,
    /// The program has no transaction of this number.
    UnknownTransaction(u32),
    /// The program has no transaction of this name with so many parameters.
    NoTransaction {
        /// The name that was looked up.
        name: String,
        /// How many parameters it was to have.
        parameters: usize,
    },
    /// The transaction has another number of parameters than it was given arguments.
    WrongArguments {
        /// Its number.
        transaction: u32,
        /// How many parameters it has.
        parameters: usize,
        /// How many arguments it was given.
        given: usize,
    },
    /// The store has no such task in its present chapter: no task has this ticket, or not any more, for it was over when its
    /// chapter ended; the job was taken in another chapter, or the task makes another call; of `give_up`: it is over.
    Gone,
    /// No task is ready, or the one with the ticket is not.
    NotReady,
    /// The task is not running.
    NotRunning,
    /// The worker has no ended attempt to bring.
    NotEnded,
    /// What was read is no longer so: try again.
    Stale,
    /// The transaction retries, and the call only tries, or observes.
    Retries,
    /// A store is opened for at most 32 workers.
    TooManyWorkers,
    /// A store has as many workers as it was opened for; and its program has to have a transaction.
    NoWorker,
    /// The chapter has no room for another task, or it would have more than 65,536 tasks.
    NoRoom,
    /// A task is ready or running, and the report could not account for it.
    WorkLeft,
    /// The number of states to look at is not from 1 to 16,777,216.
    States,
    /// More states are reached than were asked for.
    MoreStates,
    /// There is no end of that number.
    NoEnd,
    /// The schedule is refused. The fault is what a file would have been refused for.
    Schedule(ScheduleFault),
    /// A worker was brought to the store of a program that says otherwise of the transaction, of the standing
    /// conditions, or of how many variables there are.
    OtherProgram,
}

/// Why a file is refused: what its first fault is.
#[derive(Clone, Copy, Debug, PartialEq, Eq)]
pub enum FileFault {
    /// The file has more than 1,048,576 bytes, or begins with `(stm 3)` and has more than 67,108,864.
    TooLong,
    /// A byte is not one of those that a file may have.
    BadByte,
    /// The file is not of the grammar, or has more than 32 parentheses open at a time: a declared one may nest
    /// too deep. `sum` of many parts nests as little as can be.
    Shape,
    /// A name is declared twice, or not at all; or a run has a wrong number of arguments.
    Name,
    /// One of the limits of a file is passed.
    Limit,
    /// A standing condition is not true of the initial values.
    Broken,
}

/// Why a schedule is refused.
#[derive(Clone, Copy, Debug, PartialEq, Eq)]
pub enum ScheduleFault {
    /// The schedule has more bytes than a file may have.
    TooLong,
    /// A byte is not one of those that a schedule may have.
    BadByte,
    /// The schedule is not of the grammar.
    Shape,
    /// A name in it is none of the file's.
    Name,
    /// One of the limits of a schedule is passed.
    Limit,
}

fn wrong_arguments(
    out: &mut fmt::Formatter<'_>,
    transaction: u32,
    parameters: usize,
    given: usize,
) -> fmt::Result {
    write!(out, "arguments of transaction {transaction}: {parameters} wanted, {given} given")
}

impl fmt::Display for Error {
    fn fmt(&self, out: &mut fmt::Formatter<'_>) -> fmt::Result {
        let text = match self {
            Error::UnknownTransaction(number) => return write!(out, "there is no transaction {number}"),
            Error::NoTransaction { name, parameters } => {
                return write!(out, "there is no transaction {name} with {parameters} parameters")
            }
            Error::WrongArguments { transaction, parameters, given } => {
                return wrong_arguments(out, *transaction, *parameters, *given)
            }
            Error::Refused { text, .. } => text,
            Error::WrongName(word) => return write!(out, "{word:?} is no name"),
            Error::TooLong => "the file is too long",
            Error::Memory => "out of memory",
            Error::Gone => "there is no such task",
            Error::NotReady => "no such task is ready",
            Error::NotRunning => "the task is not running",
            Error::NotEnded => "the worker has no ended attempt",
            Error::Stale => "what was read is no longer so",
            Error::Retries => "the transaction retries",
            Error::TooManyWorkers => "a store has at most 32 workers",
            Error::NoWorker => "the store has no worker left",
            Error::NoRoom => "there is no room for another task",
            Error::WorkLeft => "a task is ready or running",
            Error::States => "the number of states is out of range",
            Error::MoreStates => "more states are reached",
            Error::NoEnd => "there is no such end",
            Error::Schedule(ScheduleFault::TooLong) => "the schedule is too long",
            Error::Schedule(ScheduleFault::BadByte) => "the schedule has a byte that is not allowed",
            Error::Schedule(ScheduleFault::Shape) => "the schedule is not of the grammar",
            Error::Schedule(ScheduleFault::Name) => "a name of the schedule is wrong",
            Error::Schedule(ScheduleFault::Limit) => "the schedule passes a limit",
            Error::OtherProgram => "the worker is of another program",
        };
        out.write_str(text)
    }
}

impl std::error::Error for Error {}

/// Why a call on a service returned nothing. With the first five a call was entered, but that of `observe`, and had no
/// effect on the variables; with the others it was not entered, and never will be.
#[derive(Clone, Copy, Debug, PartialEq, Eq)]
pub enum Fault {
    /// It threw this value.
    Thrown(i64),
    /// A result was outside 64 bits.
    Overflow,
    /// It divided by 0.
    DivideByZero,
    /// It would have broken the standing condition of this number.
    Broken(u32),
    /// It named a cell outside its table.
    Outside,
    /// It retries: of `try_atomically` and `observe`.
    Retries,
    /// It still waited when its time was up.
    TimedOut,
    /// The service was closed.
    Closed,
    /// All room is taken by calls that wait; or a chapter was not kept and the next one is full too:
    /// `Service::not_kept` says why.
    NoRoom,
    /// A growth was refused.
    Memory,
    /// The program has no transaction of this number.
    UnknownTransaction(u32),
    /// The transaction has another number of parameters than it was given arguments.
    WrongArguments {
        /// Its number.
        transaction: u32,
        /// How many parameters it has.
        parameters: usize,
        /// How many arguments it was given.
        given: usize,
    },
}

impl fmt::Display for Fault {
    fn fmt(&self, out: &mut fmt::Formatter<'_>) -> fmt::Result {
        let text = match self {
            Fault::Thrown(value) => return write!(out, "the transaction threw {value}"),
            Fault::Broken(number) => {
                return write!(out, "it would have broken the standing condition {number}")
            }
            Fault::UnknownTransaction(number) => return write!(out, "there is no transaction {number}"),
            Fault::WrongArguments { transaction, parameters, given } => {
                return wrong_arguments(out, *transaction, *parameters, *given)
            }
            Fault::Overflow => "a result is outside 64 bits",
            Fault::DivideByZero => "a division by 0",
            Fault::Outside => "a cell outside its table",
            Fault::Retries => "the transaction retries",
            Fault::TimedOut => "the time is up",
            Fault::Closed => "the service is closed",
            Fault::NoRoom => "there is no room for another call",
            Fault::Memory => "out of memory",
        };
        out.write_str(text)
    }
}

impl std::error::Error for Fault {}

/// Why the closure of `ServiceOptions::on_chapter` did not keep a chapter.
#[derive(Clone, Debug, PartialEq, Eq)]
pub enum NotKept {
    /// It answered an error, which `Debug` spells so.
    Failed(String),
    /// It panicked with this message, which is empty where it is no text.
    Panicked(String),
}

impl fmt::Display for NotKept {
    fn fmt(&self, out: &mut fmt::Formatter<'_>) -> fmt::Result {
        match self {
            NotKept::Failed(error) => write!(out, "the chapter was not kept: {error}"),
            NotKept::Panicked(message) => write!(out, "who keeps the chapter panicked: {message}"),
        }
    }
}

impl std::error::Error for NotKept {}
