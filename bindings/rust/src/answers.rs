//! What the calls answer.

use crate::error::Fault;

/// The number of a task that stays its own through all chapters of a store. The tasks of the program have 0, 1, ..
/// in the order of the runs, and each task that is submitted or called has the next one.
#[derive(Clone, Copy, Debug, PartialEq, Eq, PartialOrd, Ord, Hash)]
pub struct Ticket(pub u64);

/// The arguments of a call, of which there are at most 8: a slice of them, which is copied with its owner.
///
/// ```
/// use stm::Arguments;
///
/// let given = Arguments::new(&[3, 5, 20]).expect("they are few");
/// assert_eq!((given.len(), given[2]), (3, 20));
/// assert_eq!(Arguments::new(&[0; 9]), None);
/// ```
#[derive(Clone, Copy, Debug, Default, PartialEq, Eq)]
pub struct Arguments {
    // 0 behind the last.
    places: [i64; 8],
    count: usize,
}

impl Arguments {
    /// These numbers; `None` where they are more than 8.
    pub fn new(numbers: &[i64]) -> Option<Arguments> {
        let mut places = [0; 8];
        places.get_mut(..numbers.len())?.copy_from_slice(numbers);
        Some(Arguments { places, count: numbers.len() })
    }

    pub(crate) fn in_places(&self) -> (usize, [i64; 8]) {
        (self.count, self.places)
    }
}

impl std::ops::Deref for Arguments {
    type Target = [i64];

    fn deref(&self) -> &[i64] {
        &self.places[..self.count]
    }
}

/// A task that was taken, and the call that it makes.
#[derive(Clone, Copy, Debug, PartialEq, Eq)]
pub struct Job {
    /// Which task it is, through all chapters.
    pub ticket: Ticket,
    /// The chapter in which it was taken: in no other can it be brought.
    pub chapter: u64,
    /// The task's number in that chapter.
    pub task: u32,
    /// The number of the transaction that it calls.
    pub transaction: u32,
    /// What the call gives it.
    pub arguments: Arguments,
}

/// How a transaction ended.
#[derive(Clone, Copy, Debug, PartialEq, Eq)]
pub enum Outcome {
    /// It returned this value.
    Returned(i64),
    /// It threw this value.
    Thrown(i64),
    /// A result was outside 64 bits.
    Overflow,
    /// It divided by 0.
    DivideByZero,
    /// It would have broken the standing condition of this number.
    Broken(u32),
    /// It named a cell outside its table.
    Outside,
}

impl Outcome {
    /// What was returned; else the fault that says how it ended.
    ///
    /// # Errors
    ///
    /// It did not return: [`Fault::Thrown`], [`Fault::Overflow`], [`Fault::DivideByZero`], [`Fault::Broken`],
    /// [`Fault::Outside`].
    pub fn returned(self) -> Result<i64, Fault> {
        match self {
            Outcome::Returned(value) => Ok(value),
            Outcome::Thrown(value) => Err(Fault::Thrown(value)),
            Outcome::Overflow => Err(Fault::Overflow),
            Outcome::DivideByZero => Err(Fault::DivideByZero),
            Outcome::Broken(condition) => Err(Fault::Broken(condition)),
            Outcome::Outside => Err(Fault::Outside),
        }
    }
}

/// The entry of a task: its number in the chapter, and how the transaction ended.
#[derive(Clone, Copy, Debug, PartialEq, Eq)]
pub struct Entered {
    /// From 1 on.
    pub number: u64,
    /// How the transaction ended.
    pub outcome: Outcome,
}

/// A call of a service that was entered.
#[derive(Clone, Copy, Debug, PartialEq, Eq)]
pub struct Receipt {
    /// The number of its task, which no other call has.
    pub ticket: Ticket,
    /// The chapter in which it was entered, from 0 on.
    pub chapter: u64,
    /// The number of its entry there, from 1 on, by which it is found in the reports.
    pub entry: u64,
    /// The place of the entry in the history of all that became of calls, from 0 on, by which calls are put in order.
    pub place: u64,
    /// How the transaction ended.
    pub outcome: Outcome,
}

impl Receipt {
    /// What was returned; else the fault that says how it ended.
    ///
    /// # Errors
    ///
    /// As of [`Outcome::returned`].
    pub fn returned(self) -> Result<i64, Fault> {
        self.outcome.returned()
    }
}

/// How a turn ended.
#[derive(Clone, Copy, Debug, PartialEq, Eq)]
pub enum End {
    /// The task is done.
    Entered(Entered),
    /// Its program retries: it waits for a change of what it read.
    Parked,
    /// Out of memory: it was given up.
    Abandoned,
}

/// What became of a task.
#[derive(Clone, Copy, Debug, PartialEq, Eq)]
pub struct Answer {
    /// Which task it is, through all chapters.
    pub ticket: Ticket,
    /// The chapter in which it had its turn, from 0 on.
    pub chapter: u64,
    /// How its turn ended.
    pub end: End,
}

/// What a call does where the transaction retries.
#[derive(Clone, Copy, Debug, PartialEq, Eq)]
pub enum Way {
    /// Its task is parked: it waits for a change of what it read.
    Waits,
    /// There is no task, and nothing changes.
    Tries,
}

/// How a task stands.
#[derive(Clone, Copy, Debug, PartialEq, Eq)]
pub enum Standing {
    /// It can be taken.
    Ready,
    /// It was taken, and is neither done nor parked nor given up since.
    Running,
    /// It waits for a change of what it read.
    Parked,
    /// It is done, with the entry of this number.
    Done(u64),
    /// It was given up, as memory ran out or by its host.
    GivenUp,
}
