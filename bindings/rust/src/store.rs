//! Programs, stores and workers, safe to use.

use crate::answers::{Answer, Entered, Job, Outcome, Standing, Ticket, Way};
use crate::declared::Declared;
use crate::error::Error;
use crate::raw::{Counts, RawProgram, RawStore, RawWorker};
use crate::transaction::{Callable, Transaction};
use std::sync::{Mutex, MutexGuard, PoisonError};

/// What a file declares. Threads share it by a reference, and read it at once. What it says stays in memory until
/// the process ends: read it once.
pub struct Program {
    raw: RawProgram,
    text: String,
}

impl Program {
    /// The program that the text spells.
    ///
    /// # Errors
    ///
    /// The file is refused: [`Error::Refused`], which says where and why. [`Error::Memory`].
    pub fn read(text: &str) -> Result<Program, Error> {
        Ok(Program { raw: RawProgram::read(text.as_bytes())?, text: text.to_string() })
    }

    /// The text that it was read from.
    pub fn text(&self) -> &str {
        &self.text
    }

    /// What it declares.
    pub fn declared(&self) -> Declared {
        self.raw.declared()
    }

    /// How many tasks it has, numbered from 0 in the order of the runs.
    pub fn tasks(&self) -> usize {
        self.raw.tasks()
    }

    /// The number of a variable.
    pub fn variable(&self, name: &str) -> Option<u32> {
        self.raw.variable(name)
    }

    /// How many tables it has, numbered from 0 as declared.
    pub fn tables(&self) -> usize {
        self.raw.tables()
    }

    /// The number of a table.
    pub fn table(&self, name: &str) -> Option<u32> {
        self.raw.table(name)
    }

    /// How many cells a table has, numbered from 0.
    pub fn cells(&self, table: u32) -> Option<u32> {
        self.raw.cells(table)
    }

    /// The number of a transaction, for calls with a slice of arguments.
    pub fn transaction(&self, name: &str) -> Option<u32> {
        self.raw.transaction(name)
    }

    /// As `Service::transaction_of`.
    ///
    /// # Errors
    ///
    /// [`Error::NoTransaction`]: there is none of this name, or it has another number of parameters.
    pub fn transaction_of<const N: usize>(&self, name: &str) -> Result<Transaction<N>, Error> {
        let number = self.transaction(name);
        Transaction::of(name, number.and_then(|number| Some((number, self.parameters(number)?))))
    }

    /// How many parameters a transaction has, at most 8.
    pub fn parameters(&self, transaction: u32) -> Option<usize> {
        self.raw.parameters(transaction)
    }
}

/// The tasks of a program, their journal and the present values. Threads share it by a reference:
/// it has its lock inside.
pub struct Store {
    raw: Mutex<RawStore>,
}

/// What one thread has. It may outlive its store: what both share goes with the last of a store and its workers.
pub struct Worker {
    raw: RawWorker,
}

/// A handle stays good whatever a thread that held it did.
fn held<T>(lock: &Mutex<T>) -> MutexGuard<'_, T> {
    lock.lock().unwrap_or_else(PoisonError::into_inner)
}

impl Store {
    /// All tasks ready, the initial values, an empty journal, and room for so many workers, at most
    /// 32 (`TooManyWorkers`). A journal of `checkpoint` entries is followed by a checkpoint; 0: never.
    ///
    /// # Errors
    ///
    /// [`Error::TooManyWorkers`], [`Error::Memory`].
    pub fn open(program: &Program, workers: usize, checkpoint: u32) -> Result<Store, Error> {
        Store::open_with_room(program, workers, checkpoint, 0)
    }

    /// As `open`, with room for so many tasks more, which can be submitted.
    ///
    /// ```
    /// use stm::{Program, Store, Verdict};
    ///
    /// let program = Program::read("(var x 1) (tx two (set x (add x x)) x)")?;
    /// let store = Store::open_with_room(&program, 0, 0, 1)?;
    /// assert_eq!(store.submit(0, &[]), Ok(stm::Ticket(0)));
    /// let report = store.report()?;
    /// assert_eq!(store.value("x"), Some((2, 1)));
    /// assert_eq!(stm::check(&store.file()?, &report)?, Verdict::Good);
    /// # Ok::<(), stm::Error>(())
    /// ```
    ///
    /// # Errors
    ///
    /// [`Error::TooManyWorkers`]. There can't be room for so many tasks: [`Error::NoRoom`]. [`Error::Memory`].
    pub fn open_with_room(
        program: &Program,
        workers: usize,
        checkpoint: u32,
        spare: usize,
    ) -> Result<Store, Error> {
        let raw = program.raw.open(workers, checkpoint, spare)?;
        Ok(Store { raw: Mutex::new(raw) })
    }

    /// A ready task more of the transaction, which is given an argument for each of its parameters, in their order:
    /// its ticket. It takes no memory.
    ///
    /// # Errors
    ///
    /// [`Error::NoRoom`], [`Error::UnknownTransaction`], [`Error::WrongArguments`].
    pub fn submit<T: Callable>(&self, transaction: T, arguments: T::Arguments<'_>) -> Result<Ticket, Error> {
        held(&self.raw).submit(transaction.number(), arguments.as_ref())
    }

    /// Runs the transaction with these arguments as a task more, which has its turn at once, whatever else is ready:
    /// how it ended. What it woke is ready. Where it retries, its task waits; one that only tries leaves nothing behind
    /// then: `Retries`. `NoRoom` where the chapter has no room for a task more.
    ///
    /// ```
    /// use stm::{End, Entered, Outcome, Program, Store, Way};
    ///
    /// let program = Program::read("(var x 1) (tx two (set x (add x x)) x) (tx no (throw 7) x)")?;
    /// let store = Store::open_with_room(&program, 0, 0, 3)?;
    /// let ended = |number, outcome| End::Entered(Entered { number, outcome });
    /// assert_eq!(store.call(0, &[], Way::Waits)?.end, ended(1, Outcome::Returned(2)));
    /// assert_eq!(store.call(1, &[], Way::Waits)?.end, ended(2, Outcome::Thrown(7)));
    /// assert_eq!(store.call(2, &[], Way::Waits), Err(stm::Error::UnknownTransaction(2)));
    /// assert_eq!(store.call(0, &[], Way::Waits)?.end, ended(3, Outcome::Returned(4)));
    /// assert_eq!(store.call(0, &[], Way::Waits), Err(stm::Error::NoRoom));
    /// store.begin_chapter();
    /// let next = store.call(0, &[], Way::Waits)?;
    /// assert_eq!((next.chapter, next.end), (1, ended(1, Outcome::Returned(8))));
    /// # Ok::<(), stm::Error>(())
    /// ```
    ///
    /// ```
    /// use stm::{End, Error, Program, Store, Way};
    ///
    /// let program = Program::read("(var n 0) (tx get (if (lt n 1) (retry) (set n (sub n 1))) n)")?;
    /// let store = Store::open_with_room(&program, 0, 0, 1)?;
    /// assert_eq!(store.call(0, &[], Way::Tries), Err(Error::Retries));
    /// assert_eq!(store.call(0, &[], Way::Waits)?.end, End::Parked);
    /// # Ok::<(), stm::Error>(())
    /// ```
    ///
    /// # Errors
    ///
    /// [`Error::NoRoom`], [`Error::UnknownTransaction`], [`Error::WrongArguments`]; where it only tries
    /// [`Error::Retries`], [`Error::Memory`].
    pub fn call<T: Callable>(
        &self,
        transaction: T,
        arguments: T::Arguments<'_>,
        way: Way,
    ) -> Result<Answer, Error> {
        held(&self.raw).call(transaction.number(), arguments.as_ref(), way)
    }

    /// Gives the task of a job that was taken a turn on the present values: how it ended. `NotRunning` where it had one
    /// already, `Gone` where the store has no such job in its present chapter.
    ///
    /// ```
    /// use stm::{Error, Program, Store, Ticket};
    ///
    /// let program = Program::read("(var x 5) (tx inc (set x (add x 1)) x) (run inc 1)")?;
    /// let store = Store::open(&program, 0, 0)?;
    /// let job = store.take()?;
    /// assert_eq!(store.turn(job)?.ticket, Ticket(0));
    /// assert_eq!(store.turn(job), Err(Error::NotRunning));
    /// assert_eq!(store.take(), Err(Error::NotReady));
    /// # Ok::<(), stm::Error>(())
    /// ```
    ///
    /// # Errors
    ///
    /// [`Error::NotRunning`], [`Error::Gone`].
    pub fn turn(&self, job: Job) -> Result<Answer, Error> {
        held(&self.raw).turn(job)
    }

    /// How many tasks more the chapter has room for.
    pub fn spare(&self) -> usize {
        held(&self.raw).spare()
    }

    /// How many tasks the chapter has: those with which it began, and those that were submitted.
    pub fn tasks(&self) -> usize {
        held(&self.raw).tasks()
    }

    /// How many tasks of the chapter stand how.
    pub fn counts(&self) -> Counts {
        held(&self.raw).counts()
    }

    /// The present value of the variable of this name, or of the cell that is written so, as `acct[5]`, and the
    /// number of the last entry that changed it, 0 where none did.
    pub fn value(&self, name: &str) -> Option<(i64, u64)> {
        held(&self.raw).value(name)
    }

    /// As `value`, of a cell by the number of its table and its own.
    pub fn cell(&self, table: u32, index: u32) -> Option<(i64, u64)> {
        held(&self.raw).cell(table, index)
    }

    /// Copies the present values of a table's cells, from the one of this number on, to the begin of the slice: as
    /// many as there are and it has room for. How many; `None` where there is no such table.
    pub fn cells(&self, table: u32, from: u32, values: &mut [i64]) -> Option<usize> {
        held(&self.raw).cells(table, from, values)
    }

    /// The file as it has become, with a run for each task that was submitted. With the report of the
    /// same moment it is a pair that `check` finds good.
    ///
    /// # Errors
    ///
    /// [`Error::TooLong`]: the file as it has become is too long. [`Error::Memory`].
    pub fn file(&self) -> Result<String, Error> {
        held(&self.raw).file()
    }

    /// As `report`, with no turn given: `WorkLeft` exactly where a task is ready or running.
    ///
    /// # Errors
    ///
    /// [`Error::WorkLeft`], [`Error::Memory`].
    pub fn report_now(&self) -> Result<String, Error> {
        held(&self.raw).report_now()
    }

    /// `report` and `file` of one moment.
    ///
    /// # Errors
    ///
    /// As of [`Store::report`] and [`Store::file`].
    pub fn report_and_file(&self) -> Result<(String, String), Error> {
        let mut raw = held(&self.raw);
        let report = raw.report()?;
        Ok((report, raw.file()?))
    }

    /// A worker, for one thread.
    ///
    /// # Errors
    ///
    /// [`Error::NoWorker`], [`Error::Memory`].
    pub fn worker(&self) -> Result<Worker, Error> {
        Ok(Worker { raw: held(&self.raw).worker()? })
    }

    /// The lowest ready task, which is then running, with all that a worker has to be told of it: its arguments too.
    /// `NotReady` where none is.
    ///
    /// # Errors
    ///
    /// [`Error::NotReady`].
    pub fn take(&self) -> Result<Job, Error> {
        held(&self.raw).take()
    }

    /// As `take`, the task with the ticket: `NotReady` where it is not, `Gone` where no task has the ticket.
    ///
    /// ```
    /// use stm::{Error, Program, Store, Ticket};
    ///
    /// let program = Program::read("(var x 5) (tx inc (set x (add x 1)) x) (run inc 2)")?;
    /// let store = Store::open(&program, 0, 0)?;
    /// assert_eq!(store.claim(Ticket(1))?.task, 1);
    /// assert_eq!(store.claim(Ticket(1)), Err(Error::NotReady));
    /// assert_eq!(store.claim(Ticket(2)), Err(Error::Gone));
    /// # Ok::<(), stm::Error>(())
    /// ```
    ///
    /// # Errors
    ///
    /// [`Error::NotReady`], [`Error::Gone`].
    pub fn claim(&self, ticket: Ticket) -> Result<Job, Error> {
        held(&self.raw).claim(ticket)
    }

    /// Brings the worker's ended attempt to the store: what became of its task. Nothing changed: `Stale`, where what it
    /// read is no longer so; `NotRunning`; `NotEnded`; `Gone`; `OtherProgram`, where the worker's program says otherwise
    /// of the transaction.
    ///
    /// # Errors
    ///
    /// [`Error::Stale`], [`Error::NotRunning`], [`Error::NotEnded`], [`Error::Gone`], [`Error::OtherProgram`].
    pub fn bring(&self, worker: &mut Worker) -> Result<Answer, Error> {
        held(&self.raw).bring(&mut worker.raw)
    }

    /// How the task with the ticket stands.
    ///
    /// ```
    /// let program = stm::Program::read("(var x 5) (tx inc (set x (add x 1)) x) (run inc 1)")?;
    /// let store = stm::Store::open(&program, 0, 0)?;
    /// assert_eq!(store.standing(stm::Ticket(0)), Ok(stm::Standing::Ready));
    /// store.turn(store.take()?)?;
    /// assert_eq!(store.standing(stm::Ticket(0)), Ok(stm::Standing::Done(1)));
    /// # Ok::<(), stm::Error>(())
    /// ```
    ///
    /// # Errors
    ///
    /// [`Error::Gone`]: no task of the chapter has the ticket.
    pub fn standing(&self, ticket: Ticket) -> Result<Standing, Error> {
        held(&self.raw).standing(ticket)
    }

    /// What the task's entry records. `None` where it is not done, or a checkpoint was made since: who wants an
    /// outcome asks before.
    ///
    /// ```
    /// use stm::{Entered, Outcome, Program, Store, Way};
    ///
    /// let program = Program::read("(var x 5) (tx inc (set x (add x 1)) x)")?;
    /// let store = Store::open_with_room(&program, 0, 0, 1)?;
    /// let ticket = store.call(0, &[], Way::Waits)?.ticket;
    /// assert_eq!(store.outcome(ticket), Ok(Some(Entered { number: 1, outcome: Outcome::Returned(6) })));
    /// store.checkpoint();
    /// assert_eq!(store.outcome(ticket), Ok(None));
    /// # Ok::<(), stm::Error>(())
    /// ```
    ///
    /// # Errors
    ///
    /// [`Error::Gone`]: no task of the chapter has the ticket.
    pub fn outcome(&self, ticket: Ticket) -> Result<Option<Entered>, Error> {
        held(&self.raw).outcome(ticket)
    }

    /// Gives the lowest ready task a turn, and then the next one, until so many turns were given or
    /// none is ready: how many turns were given. The lock is held meanwhile, so it is for short tasks,
    /// which cost less so than where each is taken, tried and brought. What runs out of memory is given up.
    ///
    /// ```
    /// let program = stm::Program::read("(var x 0) (tx inc (set x (add x 1)) x) (run inc 5)")?;
    /// let store = stm::Store::open(&program, 0, 0)?;
    /// assert_eq!(store.turns(3), 3);
    /// assert_eq!(store.turns(3), 2);
    /// assert_eq!(store.value("x"), Some((5, 5)));
    /// # Ok::<(), stm::Error>(())
    /// ```
    pub fn turns(&self, most: u32) -> u32 {
        held(&self.raw).turns(most)
    }

    /// A task that is ready, running or parked is given up. `Gone` where it is over, or no task has the ticket.
    ///
    /// ```
    /// use stm::{End, Error, Program, Store, Ticket};
    ///
    /// let program = Program::read("(tx wait (retry) 0) (run wait 1)")?;
    /// let store = Store::open(&program, 0, 0)?;
    /// assert_eq!(store.turn(store.take()?)?.end, End::Parked);
    /// assert_eq!(store.give_up(Ticket(0)), Ok(()));
    /// assert_eq!(store.give_up(Ticket(0)), Err(Error::Gone));
    /// # Ok::<(), stm::Error>(())
    /// ```
    ///
    /// # Errors
    ///
    /// [`Error::Gone`].
    pub fn give_up(&self, ticket: Ticket) -> Result<(), Error> {
        held(&self.raw).give_up(ticket)
    }

    /// A new chapter begins where the present one is: the tasks that are ready, running or parked come over with
    /// their tickets, and are numbered anew. One that was running is ready, and a job of it that was taken before
    /// is refused (`Gone`); one that was parked waits as it did. The journal is empty, and each task that
    /// is over has left its room. The file and the reports are of the chapter. It takes no memory.
    ///
    /// ```
    /// let program = stm::Program::read("(var n 0) (tx get (if (lt n 1) (retry) (set n (sub n 1))) n) (tx put (set n (add n 1)) n)")?;
    /// let store = stm::Store::open_with_room(&program, 0, 0, 2)?;
    /// let waits = store.call(0, &[], stm::Way::Waits)?.ticket;
    /// store.begin_chapter();
    /// store.call(1, &[], stm::Way::Waits)?;
    /// assert_eq!(store.turn(store.take()?)?.ticket, waits);
    /// assert_eq!((store.chapter(), store.entered()), (1, 2));
    /// # Ok::<(), stm::Error>(())
    /// ```
    pub fn begin_chapter(&self) {
        held(&self.raw).begin_chapter()
    }

    /// The number of the chapter, from 0 on.
    pub fn chapter(&self) -> u64 {
        held(&self.raw).chapter()
    }

    /// How many entries there were in all chapters.
    pub fn entered(&self) -> u64 {
        held(&self.raw).entered()
    }

    /// The base becomes the present, and the journal is empty.
    pub fn checkpoint(&self) {
        held(&self.raw).checkpoint()
    }

    /// Gives each task that is ready or running a turn, and reports.
    ///
    /// # Errors
    ///
    /// [`Error::Memory`].
    pub fn report(&self) -> Result<String, Error> {
        held(&self.raw).report()
    }
}

impl Worker {
    /// Evaluates a job that was taken on one state, without a lock: where it ended, bring it to the store. `Stale` where
    /// what was read is no longer so: try again. `Memory` where a growth was refused: give the task up, or try again.
    ///
    /// # Errors
    ///
    /// [`Error::Stale`], [`Error::Memory`]. The job is none of a store: [`Error::Gone`],
    /// [`Error::UnknownTransaction`], [`Error::WrongArguments`].
    pub fn try_job(&mut self, job: Job) -> Result<(), Error> {
        self.raw.try_job(job)
    }

    /// How the transaction would end with these arguments on one state, without a lock: `Retries` where it retries,
    /// `Stale` and `Memory` as of `try_job`.
    ///
    /// # Errors
    ///
    /// [`Error::Retries`], [`Error::Stale`], [`Error::Memory`], [`Error::UnknownTransaction`],
    /// [`Error::WrongArguments`].
    pub fn observe<T: Callable>(
        &mut self,
        transaction: T,
        arguments: T::Arguments<'_>,
    ) -> Result<Outcome, Error> {
        self.raw.observe(transaction.number(), arguments.as_ref())
    }
}

/// When a task that was stale is given a turn under the lock, and when a checkpoint is made.
#[derive(Clone, Copy, Debug)]
pub struct RunOptions {
    /// After so many stale tries.
    pub tries: u32,
    /// After so many entries; 0: never.
    pub checkpoint: u32,
}

impl Default for RunOptions {
    fn default() -> RunOptions {
        RunOptions { tries: 8, checkpoint: 0 }
    }
}

/// Runs all tasks by so many workers, each a thread, and reports.
///
/// # Errors
///
/// [`Error::TooManyWorkers`], [`Error::Memory`].
pub fn run(program: &Program, workers: usize) -> Result<String, Error> {
    run_with(program, workers, RunOptions::default())
}

/// As `run`, by a policy of one's own.
///
/// # Errors
///
/// [`Error::TooManyWorkers`], [`Error::Memory`].
pub fn run_with(program: &Program, workers: usize, retry: RunOptions) -> Result<String, Error> {
    let store = Store::open(program, workers, retry.checkpoint)?;
    let mut crew = Vec::new();
    for _ in 0..workers {
        match store.worker() {
            Ok(worker) => crew.push(worker),
            // A program without a transaction has no task.
            Err(Error::NoWorker) => break,
            Err(error) => return Err(error),
        }
    }
    std::thread::scope(|scope| {
        for mut worker in crew {
            let store = &store;
            scope.spawn(move || work(store, &mut worker, retry.tries));
        }
    });
    store.report()
}

/// The life of a worker: it gives the lowest ready task its tries until none is ready.
fn work(store: &Store, worker: &mut Worker, tries: u32) {
    while let Ok(job) = store.take() {
        if !tried(store, worker, job, tries) {
            // It was taken just now, and nobody else has it.
            let _ = store.turn(job);
        }
    }
}

/// Whether the task is over after at most so many tries.
fn tried(store: &Store, worker: &mut Worker, job: Job, tries: u32) -> bool {
    for stale in 0..tries {
        match worker.try_job(job) {
            Ok(()) if store.bring(worker) == Err(Error::Stale) => {}
            Ok(()) => return true,
            Err(Error::Stale) => {}
            Err(_) => {
                let _ = store.give_up(job.ticket);
                return true;
            }
        }
        for _ in 0..(1u32 << stale.min(6)) {
            std::hint::spin_loop();
        }
    }
    false
}
