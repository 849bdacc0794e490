//! The calls of the static library. This module is the one with `unsafe`: what a call owes is said where it is
//! made. `bindings/declarations` compares codes, structs and calls with those of the headers in `bindings/c`.

#![allow(unsafe_code)]

mod calls;
mod code;
mod each;
mod explaining;
mod names;
mod service;

pub use calls::RawCall;
pub use explaining::explain;
pub use service::{Keep, RawService, ServiceCounts};

use crate::answers::{Answer, Arguments, End, Entered, Job, Outcome, Standing, Ticket, Way};
use crate::declared::Declared;
use crate::error::{Error, ScheduleFault};
use explaining::refused;
use std::ffi::c_void;
use std::sync::Arc;

#[repr(C)]
struct Handle {
    at: *mut c_void,
}

#[repr(C)]
struct Told {
    ticket: i64,
    code: i32,
    value: i64,
    chapter: u64,
    entry: u64,
    place: u64,
}

#[repr(C)]
struct Taken {
    ticket: i64,
    chapter: u64,
    task: u32,
    transaction: u32,
    count: usize,
    arguments: [i64; 8],
}

/// How many tasks stand how. Together they are all tasks.
#[repr(C)]
#[derive(Clone, Copy, Debug, Default, PartialEq, Eq)]
pub struct Counts {
    /// They can be taken.
    pub ready: usize,
    /// They were taken, and are neither done nor parked nor given up since.
    pub running: usize,
    /// They wait for a change of what they read.
    pub parked: usize,
    /// They committed.
    pub done: usize,
    /// They were given up, as memory ran out or by its host.
    pub given_up: usize,
}

extern "C" {
    fn stm_run_one(
        file: *const u8,
        file_length: usize,
        checkpoint: u32,
        room: *mut u8,
        room_length: usize,
        wanted: *mut usize,
    ) -> i32;
    fn stm_check(file: *const u8, file_length: usize, report: *const u8, report_length: usize) -> i32;
    fn stm_world(
        file: *const u8,
        file_length: usize,
        schedule: *const u8,
        schedule_length: usize,
        room: *mut u8,
        room_length: usize,
        wanted: *mut usize,
    ) -> i32;
    fn stm_explore(
        file: *const u8,
        file_length: usize,
        states: u32,
        room: *mut u8,
        room_length: usize,
        wanted: *mut usize,
    ) -> i32;
    fn stm_explore_to(
        file: *const u8,
        file_length: usize,
        states: u32,
        end: usize,
        room: *mut u8,
        room_length: usize,
        wanted: *mut usize,
    ) -> i32;
    fn stm_read(file: *const u8, file_length: usize, out: *mut Handle) -> i32;
    fn stm_program_free(program: *mut Handle);
    fn stm_program_tasks(program: *const Handle) -> usize;
    fn stm_program_transactions(program: *const Handle) -> usize;
    fn stm_program_variable(program: *const Handle, name: *const u8, name_length: usize) -> i64;
    fn stm_program_tables(program: *const Handle) -> usize;
    fn stm_program_table(program: *const Handle, name: *const u8, name_length: usize) -> i64;
    fn stm_program_cells(program: *const Handle, table: u32) -> i64;
    fn stm_program_transaction(program: *const Handle, name: *const u8, name_length: usize) -> i64;
    fn stm_program_parameters(program: *const Handle, transaction: u32) -> i64;
    fn stm_open_with_room(
        program: *const Handle,
        workers: usize,
        checkpoint: u32,
        spare: usize,
        out: *mut Handle,
    ) -> i32;
    fn stm_store_free(store: *mut Handle);
    fn stm_open_worker(store: *mut Handle, out: *mut Handle) -> i32;
    fn stm_take(store: *mut Handle) -> Taken;
    fn stm_submit(store: *mut Handle, transaction: u32, arguments: *const i64, count: usize) -> i64;
    fn stm_store_spare(store: *mut Handle) -> usize;
    fn stm_store_tasks(store: *mut Handle) -> usize;
    fn stm_get_counts(store: *mut Handle, out: *mut Counts) -> i32;
    fn stm_value(
        store: *mut Handle,
        name: *const u8,
        name_length: usize,
        value: *mut i64,
        version: *mut u64,
    ) -> i32;
    fn stm_cell(store: *mut Handle, table: u32, index: u32, value: *mut i64, version: *mut u64) -> i32;
    fn stm_cells(store: *mut Handle, table: u32, from: u32, values: *mut i64, count: usize) -> i64;
    fn stm_bring(store: *mut Handle, worker: *mut Handle) -> Told;
    fn stm_claim(store: *mut Handle, ticket: i64) -> Taken;
    fn stm_open_lender(store: *mut Handle, out: *mut Handle) -> i32;
    fn stm_lender_free(lender: *mut Handle);
    fn stm_call(
        store: *mut Handle,
        lender: *mut Handle,
        transaction: u32,
        arguments: *const i64,
        count: usize,
        way: u32,
    ) -> Told;
    fn stm_turn(store: *mut Handle, lender: *mut Handle, job: Taken) -> Told;
    fn stm_turns(store: *mut Handle, lender: *mut Handle, most: u32) -> i64;
    fn stm_give_up(store: *mut Handle, ticket: i64) -> i32;
    fn stm_standing(store: *mut Handle, ticket: i64) -> Told;
    fn stm_outcome(store: *mut Handle, ticket: i64) -> Told;
    fn stm_begin_chapter(store: *mut Handle) -> i32;
    fn stm_chapter(store: *mut Handle) -> u64;
    fn stm_entered(store: *mut Handle) -> u64;
    fn stm_checkpoint(store: *mut Handle) -> i32;
    fn stm_report(store: *mut Handle, room: *mut u8, room_length: usize, wanted: *mut usize) -> i32;
    fn stm_report_now(store: *mut Handle, room: *mut u8, room_length: usize, wanted: *mut usize) -> i32;
    fn stm_file(store: *mut Handle, room: *mut u8, room_length: usize, wanted: *mut usize) -> i32;
    fn stm_try_job(worker: *mut Handle, job: Taken) -> i32;
    fn stm_observe(worker: *mut Handle, transaction: u32, arguments: *const i64, count: usize) -> Told;
    fn stm_worker_free(worker: *mut Handle);
}

/// Whether a report is lawful.
#[derive(Clone, Copy, Debug, PartialEq, Eq)]
pub enum Verdict {
    /// It is.
    Good,
    /// The first part that does not hold.
    Bad(Part),
}

/// A part of a report.
#[derive(Clone, Copy, Debug, PartialEq, Eq)]
pub enum Part {
    /// It is not the text of a report of the file.
    Text,
    /// What it begins with.
    Base,
    /// The entries, each on the state that those before it left.
    Entries,
    /// The values and versions that the entries lead to.
    Present,
    /// Each task is accounted for once.
    Tasks,
    /// A parked task retries on the present values.
    Parked,
}

/// Why a call answers this code, that has read no file: it may have made one that is too long.
fn error_of(code: i32) -> Error {
    match code {
        code::FILE_TOO_LONG => Error::TooLong,
        code::MEMORY => Error::Memory,
        code::NO_WORKER => Error::NoWorker,
        code::NO_ROOM => Error::NoRoom,
        code::GONE => Error::Gone,
        code::NOT_READY => Error::NotReady,
        code::NOT_RUNNING => Error::NotRunning,
        code::NOT_ENDED => Error::NotEnded,
        code::OTHER_PROGRAM => Error::OtherProgram,
        code::STALE => Error::Stale,
        code::RETRIES => Error::Retries,
        code::WORK_LEFT => Error::WorkLeft,
        code::STATES => Error::States,
        code::MORE => Error::MoreStates,
        code::NO_END => Error::NoEnd,
        code::SCHEDULE_TOO_LONG => Error::Schedule(ScheduleFault::TooLong),
        code::SCHEDULE_BAD_BYTE => Error::Schedule(ScheduleFault::BadByte),
        code::SCHEDULE_SHAPE => Error::Schedule(ScheduleFault::Shape),
        code::SCHEDULE_NAME => Error::Schedule(ScheduleFault::Name),
        code::SCHEDULE_LIMIT => Error::Schedule(ScheduleFault::Limit),
        other => unreachable!("the library answers {other}"),
    }
}

/// Calls with a room, and again with one that is long enough where the first was not.
fn text(call: impl FnMut(&mut [u8], &mut usize) -> i32) -> Result<String, Error> {
    text_or_code(call).map_err(error_of)
}

/// As `text`, by a call that reads the file.
fn text_of(file: &[u8], call: impl FnMut(&mut [u8], &mut usize) -> i32) -> Result<String, Error> {
    text_or_code(call).map_err(|code| refused(file, code))
}

fn text_or_code(mut call: impl FnMut(&mut [u8], &mut usize) -> i32) -> Result<String, i32> {
    let mut room = vec![0u8; 4096];
    loop {
        let mut wanted = 0;
        match call(&mut room, &mut wanted) {
            code::DONE => {
                room.truncate(wanted);
                return Ok(String::from_utf8(room).expect("the library's texts are ASCII"));
            }
            code::SHORT => room.resize(wanted, 0),
            code => return Err(code),
        }
    }
}

pub fn run_one(file: &[u8], checkpoint: u32) -> Result<String, Error> {
    text_of(file, |room, wanted| {
        // SAFETY: pointers and lengths of slices that are borrowed for the call; it requires nothing.
        unsafe { stm_run_one(file.as_ptr(), file.len(), checkpoint, room.as_mut_ptr(), room.len(), wanted) }
    })
}

pub fn check(file: &[u8], report: &[u8]) -> Result<Verdict, Error> {
    // SAFETY: as `run_one`.
    match unsafe { stm_check(file.as_ptr(), file.len(), report.as_ptr(), report.len()) } {
        code::DONE => Ok(Verdict::Good),
        code::BAD_TEXT => Ok(Verdict::Bad(Part::Text)),
        code::BAD_BASE => Ok(Verdict::Bad(Part::Base)),
        code::BAD_ENTRIES => Ok(Verdict::Bad(Part::Entries)),
        code::BAD_PRESENT => Ok(Verdict::Bad(Part::Present)),
        code::BAD_TASKS => Ok(Verdict::Bad(Part::Tasks)),
        code::BAD_PARKED => Ok(Verdict::Bad(Part::Parked)),
        code => Err(refused(file, code)),
    }
}

pub fn world(file: &[u8], schedule: &[u8]) -> Result<String, Error> {
    text_of(file, |room, wanted| {
        // SAFETY: as `run_one`.
        unsafe {
            stm_world(
                file.as_ptr(),
                file.len(),
                schedule.as_ptr(),
                schedule.len(),
                room.as_mut_ptr(),
                room.len(),
                wanted,
            )
        }
    })
}

pub fn explore(file: &[u8], states: u32) -> Result<String, Error> {
    text_of(file, |room, wanted| {
        // SAFETY: as `run_one`.
        unsafe { stm_explore(file.as_ptr(), file.len(), states, room.as_mut_ptr(), room.len(), wanted) }
    })
}

pub fn explore_to(file: &[u8], states: u32, end: usize) -> Result<String, Error> {
    text_of(file, |room, wanted| {
        // SAFETY: as `run_one`.
        unsafe {
            stm_explore_to(file.as_ptr(), file.len(), states, end, room.as_mut_ptr(), room.len(), wanted)
        }
    })
}

/// How a transaction ended, where the code says that it did.
fn outcome(told: &Told) -> Option<Outcome> {
    match told.code {
        code::DONE => Some(Outcome::Returned(told.value)),
        code::THROWN => Some(Outcome::Thrown(told.value)),
        code::OVERFLOW => Some(Outcome::Overflow),
        code::DIVIDE_BY_ZERO => Some(Outcome::DivideByZero),
        code::BROKEN => Some(Outcome::Broken(told.value as u32)),
        code::OUTSIDE => Some(Outcome::Outside),
        _ => None,
    }
}

fn entered(told: &Told) -> Option<Entered> {
    Some(Entered { number: told.entry, outcome: outcome(told)? })
}

/// What became of a task, where the answer is about one; else the code.
fn answer(told: Told) -> Result<Answer, i32> {
    let ticket = Ticket(u64::try_from(told.ticket).map_err(|_| told.code)?);
    let end = match told.code {
        code::RETRIES => End::Parked,
        code::GIVEN_UP => End::Abandoned,
        _ => End::Entered(entered(&told).expect("a turn ends, parks or is given up")),
    };
    Ok(Answer { ticket, chapter: told.chapter, end })
}

/// A job, where there is one.
fn job(taken: Taken) -> Result<Job, Error> {
    let ticket = Ticket(u64::try_from(taken.ticket).map_err(|_| error_of(taken.ticket as i32))?);
    let Taken { chapter, task, transaction, count, arguments, .. } = taken;
    let arguments =
        Arguments::new(&arguments[..count]).expect("the library tells as many as there are places for");
    Ok(Job { ticket, chapter, task, transaction, arguments })
}

/// A job as the library takes it.
fn taken(job: Job) -> Taken {
    let Job { ticket, chapter, task, transaction, arguments } = job;
    let (count, arguments) = arguments.in_places();
    Taken { ticket: number(ticket), chapter, task, transaction, count, arguments }
}

/// How many parameters each transaction has.
#[derive(Clone)]
struct Parameters(Arc<[usize]>);

impl Parameters {
    /// Why the library makes no such call.
    fn refusal(&self, transaction: u32, arguments: &[i64]) -> Error {
        match self.0.get(transaction as usize) {
            Some(&parameters) => Error::WrongArguments { transaction, parameters, given: arguments.len() },
            None => Error::UnknownTransaction(transaction),
        }
    }
}

/// A ticket as the library takes it. One that no store gives is negative, which is none's.
fn number(ticket: Ticket) -> i64 {
    i64::try_from(ticket.0).unwrap_or(-1)
}

/// A program's handle. Never empty.
pub struct RawProgram(Handle);
/// A store's handle, never empty; what is lent to its turns: none where there is no transaction; and what the program
/// says of the transactions.
pub struct RawStore(Handle, Option<RawLender>, Parameters);
/// A worker's handle, never empty, and what its program says of the transactions.
pub struct RawWorker(Handle, Parameters);
/// A lender's handle. Never empty.
struct RawLender(Handle);

// SAFETY: what they hold is proved to be `Send` in the library.
unsafe impl Send for RawStore {}
// SAFETY: as for the store.
unsafe impl Send for RawWorker {}
// SAFETY: as for the store.
unsafe impl Send for RawLender {}
// SAFETY: as for the store.
unsafe impl Send for RawProgram {}
// SAFETY: a program's handle is proved to be `Sync`: the calls that take it by `&` only read it.
unsafe impl Sync for RawProgram {}

fn empty() -> Handle {
    Handle { at: std::ptr::null_mut() }
}

impl RawProgram {
    pub fn read(file: &[u8]) -> Result<RawProgram, Error> {
        let mut out = empty();
        // SAFETY: a slice as above; `out` is an empty handle, and holds a program where the answer is 0.
        match unsafe { stm_read(file.as_ptr(), file.len(), &mut out) } {
            code::DONE => Ok(RawProgram(out)),
            code => Err(refused(file, code)),
        }
    }

    pub fn declared(&self) -> Declared {
        names::declared(&self.0)
    }

    pub fn tasks(&self) -> usize {
        // SAFETY: it is only read.
        unsafe { stm_program_tasks(&self.0) }
    }

    pub fn variable(&self, name: &str) -> Option<u32> {
        // SAFETY: as `tasks`; a slice that is borrowed for the call.
        u32::try_from(unsafe { stm_program_variable(&self.0, name.as_ptr(), name.len()) }).ok()
    }

    pub fn tables(&self) -> usize {
        // SAFETY: as `tasks`.
        unsafe { stm_program_tables(&self.0) }
    }

    pub fn table(&self, name: &str) -> Option<u32> {
        // SAFETY: as `variable`.
        u32::try_from(unsafe { stm_program_table(&self.0, name.as_ptr(), name.len()) }).ok()
    }

    pub fn cells(&self, table: u32) -> Option<u32> {
        // SAFETY: as `tasks`. The library tests the number.
        u32::try_from(unsafe { stm_program_cells(&self.0, table) }).ok()
    }

    pub fn transaction(&self, name: &str) -> Option<u32> {
        // SAFETY: as `variable`.
        u32::try_from(unsafe { stm_program_transaction(&self.0, name.as_ptr(), name.len()) }).ok()
    }

    pub fn parameters(&self, transaction: u32) -> Option<usize> {
        // SAFETY: as `tasks`. The library tests the number.
        usize::try_from(unsafe { stm_program_parameters(&self.0, transaction) }).ok()
    }

    fn all_parameters(&self) -> Parameters {
        // SAFETY: as `tasks`.
        let count = unsafe { stm_program_transactions(&self.0) };
        Parameters((0..count as u32).map_while(|transaction| self.parameters(transaction)).collect())
    }

    pub fn open(&self, workers: usize, checkpoint: u32, spare: usize) -> Result<RawStore, Error> {
        let mut out = empty();
        // SAFETY: as `tasks`; `out` is an empty handle, and holds a store where the answer is 0.
        match unsafe { stm_open_with_room(&self.0, workers, checkpoint, spare, &mut out) } {
            code::DONE => RawStore(out, None, self.all_parameters()).with_lender(),
            code::NO_WORKER => Err(Error::TooManyWorkers),
            code => Err(error_of(code)),
        }
    }
}

impl RawStore {
    pub fn worker(&mut self) -> Result<RawWorker, Error> {
        let mut out = empty();
        // SAFETY: `&mut self`; `out` is an empty handle, and holds a worker where the answer is 0.
        match unsafe { stm_open_worker(&mut self.0, &mut out) } {
            code::DONE => Ok(RawWorker(out, self.2.clone())),
            code => Err(error_of(code)),
        }
    }

    fn with_lender(mut self) -> Result<RawStore, Error> {
        let mut out = empty();
        // SAFETY: as `worker`.
        match unsafe { stm_open_lender(&mut self.0, &mut out) } {
            code::DONE => self.1 = Some(RawLender(out)),
            code::NO_WORKER => {}
            code => return Err(error_of(code)),
        }
        Ok(self)
    }

    pub fn take(&mut self) -> Result<Job, Error> {
        // SAFETY: `&mut self`.
        job(unsafe { stm_take(&mut self.0) })
    }

    pub fn claim(&mut self, ticket: Ticket) -> Result<Job, Error> {
        // SAFETY: `&mut self`. The library tests the ticket.
        job(unsafe { stm_claim(&mut self.0, number(ticket)) })
    }

    pub fn submit(&mut self, transaction: u32, arguments: &[i64]) -> Result<Ticket, Error> {
        // SAFETY: `&mut self`; a slice that is borrowed for the call. The library tests the number, and how many
        // arguments there are.
        let ticket = unsafe { stm_submit(&mut self.0, transaction, arguments.as_ptr(), arguments.len()) };
        u64::try_from(ticket).map(Ticket).map_err(|_| match ticket as i32 {
            code::UNKNOWN => self.2.refusal(transaction, arguments),
            code => error_of(code),
        })
    }

    pub fn call(&mut self, transaction: u32, arguments: &[i64], way: Way) -> Result<Answer, Error> {
        let RawStore(store, lender, parameters) = self;
        let lender = lender.as_mut().ok_or(Error::UnknownTransaction(transaction))?;
        let (at, count) = (arguments.as_ptr(), arguments.len());
        let way = match way {
            Way::Waits => code::WAITS,
            Way::Tries => code::TRIES,
        };
        // SAFETY: two `&mut`; the rest as `submit`.
        let told = unsafe { stm_call(store, &mut lender.0, transaction, at, count, way) };
        answer(told).map_err(|code| match code {
            code::UNKNOWN => parameters.refusal(transaction, arguments),
            code => error_of(code),
        })
    }

    pub fn turn(&mut self, job: Job) -> Result<Answer, Error> {
        let RawStore(store, lender, _) = self;
        // Where there is no transaction, there is no task.
        let lender = lender.as_mut().ok_or(Error::Gone)?;
        // SAFETY: two `&mut`. The library tests the job.
        answer(unsafe { stm_turn(store, &mut lender.0, taken(job)) }).map_err(error_of)
    }

    pub fn spare(&mut self) -> usize {
        // SAFETY: `&mut self`.
        unsafe { stm_store_spare(&mut self.0) }
    }

    pub fn tasks(&mut self) -> usize {
        // SAFETY: `&mut self`.
        unsafe { stm_store_tasks(&mut self.0) }
    }

    pub fn counts(&mut self) -> Counts {
        let mut out = Counts::default();
        // SAFETY: `&mut self`; `out` is only written.
        unsafe { stm_get_counts(&mut self.0, &mut out) };
        out
    }

    pub fn value(&mut self, name: &str) -> Option<(i64, u64)> {
        let (mut value, mut version) = (0, 0);
        // SAFETY: `&mut self`; a slice that is borrowed for the call; both numbers are only written.
        match unsafe { stm_value(&mut self.0, name.as_ptr(), name.len(), &mut value, &mut version) } {
            code::DONE => Some((value, version)),
            _ => None,
        }
    }

    pub fn cell(&mut self, table: u32, index: u32) -> Option<(i64, u64)> {
        let (mut value, mut version) = (0, 0);
        // SAFETY: `&mut self`; both numbers are only written.
        match unsafe { stm_cell(&mut self.0, table, index, &mut value, &mut version) } {
            code::DONE => Some((value, version)),
            _ => None,
        }
    }

    pub fn cells(&mut self, table: u32, from: u32, values: &mut [i64]) -> Option<usize> {
        // SAFETY: `&mut self`; the slice is borrowed for the call, and only written.
        let told = unsafe { stm_cells(&mut self.0, table, from, values.as_mut_ptr(), values.len()) };
        usize::try_from(told).ok()
    }

    pub fn report_now(&mut self) -> Result<String, Error> {
        text(|room, wanted| {
            // SAFETY: `&mut self`; room and length are borrowed for the call.
            unsafe { stm_report_now(&mut self.0, room.as_mut_ptr(), room.len(), wanted) }
        })
    }

    pub fn file(&mut self) -> Result<String, Error> {
        text(|room, wanted| {
            // SAFETY: as `report_now`.
            unsafe { stm_file(&mut self.0, room.as_mut_ptr(), room.len(), wanted) }
        })
    }

    pub fn bring(&mut self, worker: &mut RawWorker) -> Result<Answer, Error> {
        // SAFETY: two `&mut`; the worker may be of any store.
        answer(unsafe { stm_bring(&mut self.0, &mut worker.0) }).map_err(error_of)
    }

    pub fn standing(&mut self, ticket: Ticket) -> Result<Standing, Error> {
        // SAFETY: as `claim`.
        let told = unsafe { stm_standing(&mut self.0, number(ticket)) };
        match told.code {
            code::READY => Ok(Standing::Ready),
            code::RUNNING => Ok(Standing::Running),
            code::RETRIES => Ok(Standing::Parked),
            code::DONE => Ok(Standing::Done(told.entry)),
            code::GIVEN_UP => Ok(Standing::GivenUp),
            code => Err(error_of(code)),
        }
    }

    pub fn outcome(&mut self, ticket: Ticket) -> Result<Option<Entered>, Error> {
        // SAFETY: as `claim`.
        let told = unsafe { stm_outcome(&mut self.0, number(ticket)) };
        match told.code {
            code::NO_ENTRY => Ok(None),
            code => entered(&told).map(Some).ok_or_else(|| error_of(code)),
        }
    }

    pub fn turns(&mut self, most: u32) -> u32 {
        let RawStore(store, Some(lender), _) = self else { return 0 };
        // SAFETY: two `&mut`.
        let given = unsafe { stm_turns(store, &mut lender.0, most) };
        u32::try_from(given).expect("no handle is empty, and no more turns are given than were asked for")
    }

    pub fn give_up(&mut self, ticket: Ticket) -> Result<(), Error> {
        // SAFETY: as `claim`.
        match unsafe { stm_give_up(&mut self.0, number(ticket)) } {
            code::DONE => Ok(()),
            code => Err(error_of(code)),
        }
    }

    pub fn begin_chapter(&mut self) {
        // SAFETY: `&mut self`.
        unsafe { stm_begin_chapter(&mut self.0) };
    }

    pub fn chapter(&mut self) -> u64 {
        // SAFETY: `&mut self`.
        unsafe { stm_chapter(&mut self.0) }
    }

    pub fn entered(&mut self) -> u64 {
        // SAFETY: `&mut self`.
        unsafe { stm_entered(&mut self.0) }
    }

    pub fn checkpoint(&mut self) {
        // SAFETY: `&mut self`.
        unsafe { stm_checkpoint(&mut self.0) };
    }

    pub fn report(&mut self) -> Result<String, Error> {
        text(|room, wanted| {
            // SAFETY: `&mut self`; room and length are borrowed for the call.
            unsafe { stm_report(&mut self.0, room.as_mut_ptr(), room.len(), wanted) }
        })
    }
}

impl RawWorker {
    pub fn try_job(&mut self, job: Job) -> Result<(), Error> {
        let taken = taken(job);
        if taken.ticket < 0 {
            return Err(Error::Gone);
        }
        // SAFETY: `&mut self`. The library tests the call, and the store whether the job is one of its tasks.
        match unsafe { stm_try_job(&mut self.0, taken) } {
            code::DONE => Ok(()),
            code::UNKNOWN => Err(self.1.refusal(job.transaction, &job.arguments)),
            code => Err(error_of(code)),
        }
    }

    pub fn observe(&mut self, transaction: u32, arguments: &[i64]) -> Result<Outcome, Error> {
        // SAFETY: `&mut self`; a slice that is borrowed for the call. The library tests the number, and how many
        // arguments there are.
        let told = unsafe { stm_observe(&mut self.0, transaction, arguments.as_ptr(), arguments.len()) };
        outcome(&told).ok_or_else(|| match told.code {
            code::UNKNOWN => self.1.refusal(transaction, arguments),
            code => error_of(code),
        })
    }
}

impl Drop for RawProgram {
    fn drop(&mut self) {
        // SAFETY: the handle is emptied, and used no more; its stores hold nothing of it.
        unsafe { stm_program_free(&mut self.0) }
    }
}

impl Drop for RawStore {
    fn drop(&mut self) {
        // SAFETY: the handle is emptied, and used no more; its workers hold nothing of it.
        unsafe { stm_store_free(&mut self.0) }
    }
}

impl Drop for RawWorker {
    fn drop(&mut self) {
        // SAFETY: the handle is emptied, and used no more.
        unsafe { stm_worker_free(&mut self.0) }
    }
}

impl Drop for RawLender {
    fn drop(&mut self) {
        // SAFETY: the handle is emptied, and used no more.
        unsafe { stm_lender_free(&mut self.0) }
    }
}
