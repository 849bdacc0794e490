//! Calls from any thread.

use crate::answers::Receipt;
use crate::call::Call;
use crate::declared::Declared;
use crate::error::{Error, Fault, NotKept};
use crate::raw::{Keep, RawService, ServiceCounts};
use crate::transaction::{Callable, CallableByRows, Transaction};
use std::fmt::Debug;
use std::time::Duration;

/// A store with its lock and its waiting threads, which threads share by a reference. A call runs a transaction as one
/// atomic step, and answers how it ended; where the transaction retries, the thread waits. Chapters begin by themselves
/// where the room is used up, so it goes on in memory that does not grow.
///
/// ```
/// use stm::{Fault, Service};
///
/// let bank = Service::open(
///     "(var here 100) (var there 0)
///      (tx pay (if (lt here 60) (throw here) (seq (set here (sub here 60)) (set there (add there 60)))) here)",
/// )?;
/// let pay = bank.transaction("pay").expect("it is declared");
/// assert_eq!(bank.atomically(pay, &[]), Ok(40));
/// assert_eq!(bank.atomically(pay, &[]), Err(Fault::Thrown(40)));
/// assert_eq!(bank.value("there"), Some((60, 1)));
/// # Ok::<(), stm::Error>(())
/// ```
pub struct Service {
    raw: RawService,
}

/// How a service is opened.
#[derive(Default)]
pub struct ServiceOptions {
    room: usize,
    checkpoint: u32,
    observers: u32,
    keep: Option<Keep>,
}

impl ServiceOptions {
    /// What `Service::open` takes.
    pub fn new() -> ServiceOptions {
        ServiceOptions::default()
    }

    /// How many tasks a chapter has room for beside those of the file; 0: as many as there can be. Where there can't be
    /// so many, `open_with` answers `NoRoom`.
    pub fn room(self, room: usize) -> ServiceOptions {
        ServiceOptions { room, ..self }
    }

    /// A journal of so many entries is followed by a checkpoint; 0: never.
    pub fn checkpoint(self, checkpoint: u32) -> ServiceOptions {
        ServiceOptions { checkpoint, ..self }
    }

    /// How many workers there are, at most 32 (`TooManyWorkers`); 0: 4 where a transaction is long, else none. A thread
    /// takes one while it observes, or evaluates a long transaction, beside what others commit; where none is left it
    /// does so under the lock. Where there are workers each commit costs more.
    pub fn observers(self, observers: u32) -> ServiceOptions {
        ServiceOptions { observers, ..self }
    }

    /// The closure is told the file and the report of each chapter that ends: a pair that `check` finds good. It is
    /// called for one after another, by a thread whose call found the chapter full, and with no lock held: others go on
    /// in the next chapter, and wait for the closure only where that is full too. It may make calls of the service; one
    /// that would have to wait for the closure itself answers `NoRoom`. Where it fails or panics it is told the chapter
    /// again: when the next one is full, by each call that finds it so, which answers `NoRoom` where it fails then, and
    /// whenever the service is closed. `Service::not_kept` says why it failed. The last chapter does not end: ask for
    /// its file and report once the service is closed.
    ///
    /// ```
    /// use std::sync::{Arc, Mutex};
    /// use stm::{Service, ServiceOptions, Verdict};
    ///
    /// let good = Arc::new(Mutex::new(0));
    /// let judged = good.clone();
    /// let options = ServiceOptions::new().room(10).on_chapter(move |file, report| {
    ///     *judged.lock().unwrap() += u32::from(stm::check(file, report)? == Verdict::Good);
    ///     Ok::<(), stm::Error>(())
    /// });
    /// let service = Service::open_with("(var x 5) (tx inc (set x (add x 1)) x)", options)?;
    /// for _ in 0..25 {
    ///     service.atomically(0, &[]).expect("it returns");
    /// }
    /// assert_eq!((service.chapter(), *good.lock().unwrap()), (2, 2));
    /// # Ok::<(), stm::Error>(())
    /// ```
    pub fn on_chapter<E: Debug>(
        self,
        mut keep: impl FnMut(&str, &str) -> Result<(), E> + Send + 'static,
    ) -> ServiceOptions {
        let spelled =
            move |file: &str, report: &str| keep(file, report).map_err(|error| format!("{error:?}"));
        ServiceOptions { keep: Some(Box::new(spelled)), ..self }
    }
}

impl Service {
    /// The service of the program that the text spells. The tasks of its runs have their turns first. What it says
    /// stays in memory until the process ends.
    ///
    /// # Errors
    ///
    /// The file is refused: [`Error::Refused`], which says where and why. [`Error::Memory`].
    pub fn open(text: &str) -> Result<Service, Error> {
        Service::open_with(text, ServiceOptions::new())
    }

    /// As `open`, by options of one's own.
    ///
    /// # Errors
    ///
    /// The file is refused: [`Error::Refused`]. A chapter can't have room for so many tasks: [`Error::NoRoom`].
    /// There are to be more than 32 workers: [`Error::TooManyWorkers`]. [`Error::Memory`].
    pub fn open_with(text: &str, options: ServiceOptions) -> Result<Service, Error> {
        let ServiceOptions { room, checkpoint, observers, keep } = options;
        Ok(Service { raw: RawService::open(text.as_bytes(), room, checkpoint, observers, keep)? })
    }

    /// How many entries, calls that wait and tasks with room there are, all of one moment.
    ///
    /// ```
    /// let service = stm::Service::open_with("(tx nothing (skip) 0)", stm::ServiceOptions::new().room(3))?;
    /// service.atomically(0, &[]).expect("it returns");
    /// let counts = service.counts();
    /// assert_eq!((counts.entered, counts.chapter, counts.waiting, counts.room), (1, 0, 0, 2));
    /// # Ok::<(), stm::Error>(())
    /// ```
    pub fn counts(&self) -> ServiceCounts {
        self.raw.counts()
    }

    /// What its program declares.
    pub fn declared(&self) -> Declared {
        self.raw.declared()
    }

    /// The number of a transaction, for calls with a slice of arguments.
    pub fn transaction(&self, name: &str) -> Option<u32> {
        self.raw.transaction(name)
    }

    /// The transaction of this name, which has so many parameters: `NoTransaction` where there is no such one.
    ///
    /// ```
    /// use stm::{Error, Service, Transaction};
    ///
    /// let bank = Service::open("(stm 3) (var here 9) (tx pay (k) (set here (sub here k)) here)")?;
    /// let pay: Transaction<1> = bank.transaction_of("pay")?;
    /// assert_eq!(bank.atomically(pay, [2]), Ok(7));
    /// let error = bank.transaction_of::<2>("pay").expect_err("it has one");
    /// assert_eq!(error, Error::NoTransaction { name: "pay".to_string(), parameters: 2 });
    /// assert_eq!(error.to_string(), "there is no transaction pay with 2 parameters");
    /// # Ok::<(), stm::Error>(())
    /// ```
    ///
    /// # Errors
    ///
    /// [`Error::NoTransaction`]: there is none of this name, or it has another number of parameters.
    pub fn transaction_of<const N: usize>(&self, name: &str) -> Result<Transaction<N>, Error> {
        let number = self.transaction(name);
        Transaction::of(name, number.and_then(|number| Some((number, self.parameters(number)?))))
    }

    /// How many parameters a transaction has, at most 8.
    pub fn parameters(&self, transaction: u32) -> Option<usize> {
        self.raw.parameters(transaction)
    }

    /// Runs the transaction as one atomic step: what it returned. It is given an argument for each of its parameters,
    /// in their order: `&[]` where it has none. Where it retries the thread waits until a commit changed what it read,
    /// and it was entered.
    ///
    /// # Errors
    ///
    /// The transaction was entered, and did not return: [`Fault::Thrown`], [`Fault::Overflow`],
    /// [`Fault::DivideByZero`], [`Fault::Broken`], [`Fault::Outside`].
    ///
    /// It was not entered: [`Fault::Closed`], [`Fault::NoRoom`], [`Fault::Memory`], [`Fault::UnknownTransaction`],
    /// [`Fault::WrongArguments`].
    pub fn atomically<T: Callable>(&self, transaction: T, arguments: T::Arguments<'_>) -> Result<i64, Fault> {
        self.raw.atomically(transaction.number(), arguments.as_ref())?.returned()
    }

    /// As `atomically`; `Retries`, and nothing was entered, where the transaction retries on the present values.
    ///
    /// # Errors
    ///
    /// The transaction was entered, and did not return: [`Fault::Thrown`], [`Fault::Overflow`],
    /// [`Fault::DivideByZero`], [`Fault::Broken`], [`Fault::Outside`].
    ///
    /// It was not entered: [`Fault::Retries`], [`Fault::Closed`], [`Fault::NoRoom`], [`Fault::Memory`],
    /// [`Fault::UnknownTransaction`], [`Fault::WrongArguments`].
    pub fn try_atomically<T: Callable>(
        &self,
        transaction: T,
        arguments: T::Arguments<'_>,
    ) -> Result<i64, Fault> {
        self.raw.try_atomically(transaction.number(), arguments.as_ref())?.returned()
    }

    /// As `atomically`; `TimedOut` after the time, also where a long transaction is evaluated until then. It had no
    /// effect, and never will. The time is for how long the call waits, for a commit or for `on_chapter` in another
    /// thread: that the thread calls the closure itself is not cut short. A time of 0 is a try.
    ///
    /// ```
    /// use std::time::Duration;
    ///
    /// let service = stm::Service::open("(tx wait (retry) 0)")?;
    /// assert_eq!(service.atomically_within(0, &[], Duration::from_millis(1)), Err(stm::Fault::TimedOut));
    /// # Ok::<(), stm::Error>(())
    /// ```
    ///
    /// # Errors
    ///
    /// The transaction was entered, and did not return: [`Fault::Thrown`], [`Fault::Overflow`],
    /// [`Fault::DivideByZero`], [`Fault::Broken`], [`Fault::Outside`].
    ///
    /// It was not entered: [`Fault::TimedOut`], [`Fault::Closed`], [`Fault::NoRoom`], [`Fault::Memory`],
    /// [`Fault::UnknownTransaction`], [`Fault::WrongArguments`].
    pub fn atomically_within<T: Callable>(
        &self,
        transaction: T,
        arguments: T::Arguments<'_>,
        time: Duration,
    ) -> Result<i64, Fault> {
        self.receipts().atomically_within(transaction, arguments, time)?.returned()
    }

    /// Makes a call for each row, in their order, each a step of its own, as `try_atomically` does: for who makes many.
    /// What each returned, or why it did not: those behind it are made all the same. From the first one on that is answered
    /// `NoRoom` or `Closed` none is made, and each is answered so.
    ///
    /// ```
    /// use stm::Fault;
    ///
    /// let bank = stm::Service::open(
    ///     "(stm 3) (table acct 9 100) (tx pay (from to k) (seq (if (lt (at acct from) k) (throw k) (skip))
    ///      (put acct from (sub (at acct from) k)) (put acct to (add (at acct to) k))) (at acct from))",
    /// )?;
    /// let pay = bank.transaction_of::<3>("pay")?;
    /// let paid = bank.each(pay, &[[3, 5, 60], [3, 5, 60], [5, 3, 10]]);
    /// assert_eq!(paid, [Ok(40), Err(Fault::Thrown(60)), Ok(150)]);
    /// assert_eq!(bank.each(pay.number(), &[[3, 5]]).len(), 1);
    /// # Ok::<(), stm::Error>(())
    /// ```
    ///
    /// With rows of another length:
    ///
    /// ```compile_fail,E0277
    /// let bank = stm::Service::open("(stm 3) (var x 1) (tx put (k) (set x k) x)")?;
    /// let put = bank.transaction_of::<1>("put")?;
    /// assert_eq!(bank.each(put, &[[3, 5]]).len(), 1);
    /// # Ok::<(), stm::Error>(())
    /// ```
    ///
    /// # Errors
    ///
    /// Of each row: as of [`Service::try_atomically`].
    pub fn each<const N: usize>(
        &self,
        transaction: impl CallableByRows<N>,
        rows: &[[i64; N]],
    ) -> Vec<Result<i64, Fault>> {
        self.raw.each(transaction.number(), rows).map(|made| made?.returned()).collect()
    }

    /// The call as a future of what `atomically` answers, over any executor: no thread waits for it. It is made when it
    /// is polled first, and given up where it is dropped before it has ended.
    ///
    /// ```
    /// use std::future::Future;
    /// use std::pin::pin;
    /// use std::task::{Context, Poll, Waker};
    ///
    /// let bank = stm::Service::open(
    ///     "(stm 3) (var here 100) (tx pay (k) (if (lt here k) (retry) (set here (sub here k))) here)
    ///      (tx get (k) (set here (add here k)) here)",
    /// )?;
    /// let mut context = Context::from_waker(Waker::noop());
    /// let mut pays = pin!(bank.call(0, &[160]));
    /// assert_eq!(pays.as_mut().poll(&mut context), Poll::Pending);
    /// assert_eq!(bank.atomically(1, &[100]), Ok(200));
    /// assert_eq!(pays.as_mut().poll(&mut context), Poll::Ready(Ok(40)));
    /// # Ok::<(), stm::Error>(())
    /// ```
    ///
    /// # Errors
    ///
    /// The future has those of [`Service::atomically`].
    pub fn call<T: Callable>(&self, transaction: T, arguments: T::Arguments<'_>) -> Call<'_> {
        Call::new(&self.raw, transaction.number(), arguments.as_ref(), Receipt::returned)
    }

    /// The same calls, with all that is answered: also the ticket, the chapter, the number of the entry and its place.
    ///
    /// ```
    /// use stm::{Outcome, Receipt, Ticket};
    ///
    /// let bank = stm::Service::open("(stm 3) (var here 9) (tx pay (k) (set here (sub here k)) here)")?;
    /// assert_eq!(bank.atomically(0, &[2]), Ok(7));
    /// let outcome = Outcome::Returned(4);
    /// let receipt = Receipt { ticket: Ticket(1), chapter: 0, entry: 2, place: 1, outcome };
    /// assert_eq!(bank.receipts().atomically(0, &[3]), Ok(receipt));
    /// assert_eq!(receipt.returned(), Ok(4));
    /// # Ok::<(), stm::Error>(())
    /// ```
    pub fn receipts(&self) -> Receipts<'_> {
        Receipts { raw: &self.raw }
    }

    /// How the transaction would end with these arguments on one state; nothing is entered.
    ///
    /// ```
    /// let service = stm::Service::open("(var x 5) (tx inc (set x (add x 1)) x)")?;
    /// assert_eq!(service.observe(0, &[]), Ok(6));
    /// assert_eq!(service.observe(0, &[]), Ok(6));
    /// assert_eq!(service.entered(), 0);
    /// # Ok::<(), stm::Error>(())
    /// ```
    ///
    /// # Errors
    ///
    /// The transaction would not return: [`Fault::Thrown`], [`Fault::Overflow`], [`Fault::DivideByZero`],
    /// [`Fault::Broken`], [`Fault::Outside`].
    ///
    /// It is not known how it would end: [`Fault::Retries`], [`Fault::Closed`], [`Fault::Memory`],
    /// [`Fault::UnknownTransaction`], [`Fault::WrongArguments`].
    pub fn observe<T: Callable>(&self, transaction: T, arguments: T::Arguments<'_>) -> Result<i64, Fault> {
        self.raw.observe(transaction.number(), arguments.as_ref())
    }

    /// The present value of the variable of this name, or of the cell that is written so, as `acct[5]`, and the
    /// number of the last entry of the chapter that changed it, 0 where none did.
    pub fn value(&self, name: &str) -> Option<(i64, u64)> {
        self.raw.value(name)
    }

    /// The number of a table.
    pub fn table(&self, name: &str) -> Option<u32> {
        self.raw.table(name)
    }

    /// How many cells a table has, numbered from 0.
    pub fn table_length(&self, table: u32) -> Option<u32> {
        self.raw.table_length(table)
    }

    /// As `value`, of a cell by the number of its table and its own.
    pub fn cell(&self, table: u32, index: u32) -> Option<(i64, u64)> {
        self.raw.cell(table, index)
    }

    /// Copies the present values of a table's cells, from the one of this number on, to the begin of the slice: as
    /// many as there are and it has room for, all of one state. How many; `None` where there is no such table.
    pub fn cells(&self, table: u32, from: u32, values: &mut [i64]) -> Option<usize> {
        self.raw.cells(table, from, values)
    }

    /// The number of the chapter, from 0 on.
    pub fn chapter(&self) -> u64 {
        self.raw.chapter()
    }

    /// How many entries there were in all chapters.
    pub fn entered(&self) -> u64 {
        self.raw.entered()
    }

    /// Why the closure of `ServiceOptions::on_chapter` did not keep the chapter that it was told last; `None` where it
    /// did, or was told none.
    ///
    /// ```
    /// use stm::{Fault, NotKept, Service, ServiceOptions};
    ///
    /// let options = ServiceOptions::new().room(1).on_chapter(|_, _| Err("no disk"));
    /// let service = Service::open_with("(var x 5) (tx inc (set x (add x 1)) x)", options)?;
    /// assert_eq!((service.atomically(0, &[]), service.not_kept()), (Ok(6), None));
    /// assert_eq!(service.atomically(0, &[]), Ok(7));
    /// assert_eq!(service.not_kept(), Some(NotKept::Failed("\"no disk\"".to_string())));
    /// assert_eq!(service.atomically(0, &[]), Err(Fault::NoRoom));
    /// # Ok::<(), stm::Error>(())
    /// ```
    pub fn not_kept(&self) -> Option<NotKept> {
        self.raw.not_kept()
    }

    /// The report of the present chapter.
    ///
    /// # Errors
    ///
    /// [`Error::Memory`].
    pub fn report(&self) -> Result<String, Error> {
        self.raw.report()
    }

    /// The file of the present chapter as it has become. Once the service is closed, file and report are a pair that
    /// `check` finds good.
    ///
    /// # Errors
    ///
    /// [`Error::TooLong`]: the file as it has become is too long. [`Error::Memory`].
    pub fn file(&self) -> Result<String, Error> {
        self.raw.file()
    }

    /// Every call that waits and every later one answers `Closed`. What was entered stays. It waits until the closure
    /// of `ServiceOptions::on_chapter` has returned, and calls it once more for a chapter that was not kept. A service
    /// that is dropped is closed too; but in a child of the process that has opened it nothing is closed or dropped.
    ///
    /// ```
    /// let service = stm::Service::open("(tx wait (retry) 0)")?;
    /// std::thread::scope(|scope| {
    ///     let waits = scope.spawn(|| service.atomically(0, &[]));
    ///     service.close();
    ///     assert_eq!(waits.join().unwrap(), Err(stm::Fault::Closed));
    /// });
    /// # Ok::<(), stm::Error>(())
    /// ```
    pub fn close(&self) {
        self.raw.close()
    }
}

/// The calls of a service that are answered by a receipt: `Service::receipts`. It is `Ok` where the call was entered,
/// also where the transaction did not return; a fault is that it was not, and never will be.
#[derive(Clone, Copy)]
pub struct Receipts<'a> {
    raw: &'a RawService,
}

impl<'a> Receipts<'a> {
    /// As [`Service::atomically`].
    ///
    /// # Errors
    ///
    /// It was not entered: [`Fault::Closed`], [`Fault::NoRoom`], [`Fault::Memory`], [`Fault::UnknownTransaction`],
    /// [`Fault::WrongArguments`].
    pub fn atomically<T: Callable>(
        self,
        transaction: T,
        arguments: T::Arguments<'_>,
    ) -> Result<Receipt, Fault> {
        self.raw.atomically(transaction.number(), arguments.as_ref())
    }

    /// As [`Service::try_atomically`].
    ///
    /// # Errors
    ///
    /// It was not entered: [`Fault::Retries`], [`Fault::Closed`], [`Fault::NoRoom`], [`Fault::Memory`],
    /// [`Fault::UnknownTransaction`], [`Fault::WrongArguments`].
    pub fn try_atomically<T: Callable>(
        self,
        transaction: T,
        arguments: T::Arguments<'_>,
    ) -> Result<Receipt, Fault> {
        self.raw.try_atomically(transaction.number(), arguments.as_ref())
    }

    /// As [`Service::atomically_within`].
    ///
    /// # Errors
    ///
    /// It was not entered: [`Fault::TimedOut`], [`Fault::Closed`], [`Fault::NoRoom`], [`Fault::Memory`],
    /// [`Fault::UnknownTransaction`], [`Fault::WrongArguments`].
    pub fn atomically_within<T: Callable>(
        self,
        transaction: T,
        arguments: T::Arguments<'_>,
        time: Duration,
    ) -> Result<Receipt, Fault> {
        let nanoseconds = u64::try_from(time.as_nanos()).unwrap_or(u64::MAX);
        self.raw.atomically_within(transaction.number(), arguments.as_ref(), nanoseconds)
    }

    /// As [`Service::each`].
    ///
    /// # Errors
    ///
    /// Of each row: as of [`Receipts::try_atomically`].
    pub fn each<const N: usize>(
        self,
        transaction: impl CallableByRows<N>,
        rows: &[[i64; N]],
    ) -> Vec<Result<Receipt, Fault>> {
        self.raw.each(transaction.number(), rows).collect()
    }

    /// As [`Service::call`].
    ///
    /// # Errors
    ///
    /// The future has those of [`Receipts::atomically`].
    pub fn call<T: Callable>(self, transaction: T, arguments: T::Arguments<'_>) -> Call<'a, Receipt> {
        Call::new(self.raw, transaction.number(), arguments.as_ref(), Ok)
    }
}
