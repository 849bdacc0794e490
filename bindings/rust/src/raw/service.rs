//! The calls of a service, which is the part of the library that is in C (`bindings/c/service.h`).

use super::explaining::refused;
use super::{code, names, outcome, text, Handle, Told};
use crate::answers::{Receipt, Ticket};
use crate::declared::Declared;
use crate::error::{Error, Fault, NotKept};
use std::any::Any;
use std::ffi::c_void;
use std::panic::{catch_unwind, AssertUnwindSafe};
use std::sync::{Mutex, MutexGuard, PoisonError};

/// What is told of a chapter that ends: its file and its report. Or how its error is spelled.
pub type Keep = Box<dyn FnMut(&str, &str) -> Result<(), String> + Send>;

/// A closure that keeps chapters, and why it has not kept the last one.
struct Keeper {
    keep: Mutex<Keep>,
    not_kept: Mutex<Option<NotKept>>,
}

type Ended = extern "C" fn(*mut c_void, *const u8, usize, *const u8, usize) -> i32;

#[repr(C)]
struct Options {
    room: usize,
    checkpoint: u32,
    observers: u32,
    ended: Option<Ended>,
    own: *mut c_void,
}

/// Counts of a service, of one moment.
#[repr(C)]
#[derive(Clone, Copy, Debug, Default, PartialEq, Eq)]
pub struct ServiceCounts {
    /// The entries in all chapters.
    pub entered: u64,
    /// The number of the chapter, from 0 on.
    pub chapter: u64,
    /// The calls that wait for what others commit, or whose long transaction is evaluated.
    pub waiting: u64,
    /// How often one that waited was entered.
    pub woken: u64,
    /// How often what a long transaction had read was changed meanwhile, so that it was evaluated once more.
    pub stale: u64,
    /// How many tasks more the chapter has room for.
    pub room: u64,
}

extern "C" {
    fn stm_service_get_counts(service: *mut c_void, out: *mut ServiceCounts);
    fn stm_service_open(
        file: *const u8,
        file_length: usize,
        options: *const Options,
        out: *mut *mut c_void,
    ) -> i32;
    fn stm_service_program(service: *const c_void) -> *const Handle;
    fn stm_service_transaction(service: *const c_void, name: *const u8, name_length: usize) -> i64;
    fn stm_service_parameters(service: *const c_void, transaction: u32) -> i64;
    fn stm_atomically(service: *mut c_void, transaction: u32, arguments: *const i64, count: usize) -> Told;
    fn stm_try_atomically(
        service: *mut c_void,
        transaction: u32,
        arguments: *const i64,
        count: usize,
    ) -> Told;
    fn stm_atomically_within(
        service: *mut c_void,
        transaction: u32,
        arguments: *const i64,
        count: usize,
        nanoseconds: u64,
    ) -> Told;
    fn stm_service_observe(
        service: *mut c_void,
        transaction: u32,
        arguments: *const i64,
        count: usize,
    ) -> Told;
    fn stm_service_value(
        service: *mut c_void,
        name: *const u8,
        name_length: usize,
        value: *mut i64,
        version: *mut u64,
    ) -> i32;
    fn stm_service_table(service: *const c_void, name: *const u8, name_length: usize) -> i64;
    fn stm_service_table_length(service: *const c_void, table: u32) -> i64;
    fn stm_service_cell(
        service: *mut c_void,
        table: u32,
        index: u32,
        value: *mut i64,
        version: *mut u64,
    ) -> i32;
    fn stm_service_cells(service: *mut c_void, table: u32, from: u32, values: *mut i64, count: usize) -> i64;
    fn stm_service_entered(service: *mut c_void) -> u64;
    fn stm_service_chapter(service: *mut c_void) -> u64;
    fn stm_service_report(service: *mut c_void, room: *mut u8, room_length: usize, wanted: *mut usize)
        -> i32;
    fn stm_service_file(service: *mut c_void, room: *mut u8, room_length: usize, wanted: *mut usize) -> i32;
    fn stm_service_close(service: *mut c_void);
    fn stm_service_free(service: *mut c_void);
}

/// No panic is known to leave a lock poisoned: each is caught before.
pub(super) fn locked<T>(mutex: &Mutex<T>) -> MutexGuard<'_, T> {
    mutex.lock().unwrap_or_else(PoisonError::into_inner)
}

/// What a panic says, and nothing more of it is left: where its payload panics when it is dropped, that one stays.
pub(super) fn message_of(payload: Box<dyn Any + Send>) -> String {
    let text = payload.downcast_ref::<String>().cloned();
    let text = text.or_else(|| payload.downcast_ref::<&str>().map(|text| text.to_string()));
    if let Err(another) = catch_unwind(AssertUnwindSafe(|| drop(payload))) {
        std::mem::forget(another);
    }
    text.unwrap_or_default()
}

/// Hands a chapter that ends to the keeper behind `own`: 0 where it was kept. No panic goes on into C.
extern "C" fn ended(
    own: *mut c_void,
    file: *const u8,
    file_length: usize,
    report: *const u8,
    report_length: usize,
) -> i32 {
    // SAFETY: `own` is the box of `RawService::open`, which stays until the service is let go, and is only shared. The
    // texts are the service's, and stay for the call.
    let (keeper, file, report) = unsafe {
        (
            &*own.cast::<Keeper>(),
            std::slice::from_raw_parts(file, file_length),
            std::slice::from_raw_parts(report, report_length),
        )
    };
    let spelled = |text| std::str::from_utf8(text).expect("the library's texts are ASCII");
    let kept = catch_unwind(AssertUnwindSafe(|| locked(&keeper.keep)(spelled(file), spelled(report))));
    let not_kept = match kept {
        Ok(kept) => kept.err().map(NotKept::Failed),
        Err(payload) => Some(NotKept::Panicked(message_of(payload))),
    };
    let answer = i32::from(not_kept.is_some());
    *locked(&keeper.not_kept) = not_kept;
    answer
}

/// A service's handle, never null, the keeper that it calls, and the process that opened it.
pub struct RawService {
    at: *mut c_void,
    keeper: Option<*mut Keeper>,
    process: u32,
}

// SAFETY: the library takes the calls from any thread at once, and what is shared of the keeper is behind locks.
unsafe impl Send for RawService {}
// SAFETY: as for `Send`.
unsafe impl Sync for RawService {}

/// Why a call was not entered; where the library makes no such call, this is why.
fn fault(told: &Told, unknown: impl FnOnce() -> Fault) -> Fault {
    match told.code {
        code::RETRIES => Fault::Retries,
        code::TIMED_OUT => Fault::TimedOut,
        code::CLOSED => Fault::Closed,
        code::NO_ROOM => Fault::NoRoom,
        code::MEMORY | code::GIVEN_UP => Fault::Memory,
        code::UNKNOWN => unknown(),
        other => unreachable!("the library answers {other}"),
    }
}

/// How a call was entered, or why it was not.
pub(super) fn receipt(told: &Told, unknown: impl FnOnce() -> Fault) -> Result<Receipt, Fault> {
    let Told { ticket, chapter, entry, place, .. } = *told;
    let ticket = Ticket(ticket as u64);
    let outcome = outcome(told).ok_or_else(|| fault(told, unknown))?;
    Ok(Receipt { ticket, chapter, entry, place, outcome })
}

impl RawService {
    pub fn open(
        file: &[u8],
        room: usize,
        checkpoint: u32,
        observers: u32,
        keep: Option<Keep>,
    ) -> Result<RawService, Error> {
        let keeper = keep.map(|keep| {
            Box::into_raw(Box::new(Keeper { keep: Mutex::new(keep), not_kept: Mutex::new(None) }))
        });
        let own = keeper.map_or(std::ptr::null_mut(), |keeper| keeper.cast());
        let options = Options { room, checkpoint, observers, ended: keeper.map(|_| ended as Ended), own };
        let mut made = RawService { at: std::ptr::null_mut(), keeper, process: std::process::id() };
        // SAFETY: a slice that is borrowed for the call, as the options are; `out` is null, and holds a service where
        // the answer is 0.
        match unsafe { stm_service_open(file.as_ptr(), file.len(), &options, &mut made.at) } {
            code::DONE => Ok(made),
            code::NO_WORKER => Err(Error::TooManyWorkers),
            code => Err(refused(file, code)),
        }
    }

    pub(super) fn at(&self) -> *mut c_void {
        self.at
    }

    /// Whether this process is a child of the one that has opened it.
    pub(super) fn is_of_another_process(&self) -> bool {
        self.process != std::process::id()
    }

    pub fn counts(&self) -> ServiceCounts {
        let mut out = ServiceCounts::default();
        // SAFETY: `out` is written.
        unsafe { stm_service_get_counts(self.at, &mut out) };
        out
    }

    pub fn declared(&self) -> Declared {
        // SAFETY: the program is there for as long as the service, which is borrowed, and is only read.
        names::declared(unsafe { &*stm_service_program(self.at) })
    }

    pub fn transaction(&self, name: &str) -> Option<u32> {
        // SAFETY: a slice that is borrowed for the call.
        u32::try_from(unsafe { stm_service_transaction(self.at, name.as_ptr(), name.len()) }).ok()
    }

    pub fn parameters(&self, transaction: u32) -> Option<usize> {
        // SAFETY: the library tests the number.
        usize::try_from(unsafe { stm_service_parameters(self.at, transaction) }).ok()
    }

    /// Why the library makes no such call.
    pub fn refusal(&self, transaction: u32, given: usize) -> Fault {
        match self.parameters(transaction) {
            Some(parameters) => Fault::WrongArguments { transaction, parameters, given },
            None => Fault::UnknownTransaction(transaction),
        }
    }

    pub fn atomically(&self, transaction: u32, arguments: &[i64]) -> Result<Receipt, Fault> {
        // SAFETY: from any thread; a slice that is borrowed for the call. The library tests the number, and how many
        // arguments there are.
        let told = unsafe { stm_atomically(self.at, transaction, arguments.as_ptr(), arguments.len()) };
        receipt(&told, || self.refusal(transaction, arguments.len()))
    }

    pub fn try_atomically(&self, transaction: u32, arguments: &[i64]) -> Result<Receipt, Fault> {
        // SAFETY: as `atomically`.
        let told = unsafe { stm_try_atomically(self.at, transaction, arguments.as_ptr(), arguments.len()) };
        receipt(&told, || self.refusal(transaction, arguments.len()))
    }

    pub fn atomically_within(
        &self,
        transaction: u32,
        arguments: &[i64],
        nanoseconds: u64,
    ) -> Result<Receipt, Fault> {
        let (at, count) = (arguments.as_ptr(), arguments.len());
        // SAFETY: as `atomically`.
        let told = unsafe { stm_atomically_within(self.at, transaction, at, count, nanoseconds) };
        receipt(&told, || self.refusal(transaction, arguments.len()))
    }

    pub fn observe(&self, transaction: u32, arguments: &[i64]) -> Result<i64, Fault> {
        // SAFETY: as `atomically`.
        let told = unsafe { stm_service_observe(self.at, transaction, arguments.as_ptr(), arguments.len()) };
        let unknown = || self.refusal(transaction, arguments.len());
        outcome(&told).ok_or_else(|| fault(&told, unknown))?.returned()
    }

    pub fn value(&self, name: &str) -> Option<(i64, u64)> {
        let (mut value, mut version) = (0, 0);
        // SAFETY: from any thread; a slice that is borrowed for the call; both numbers are only written.
        let code = unsafe { stm_service_value(self.at, name.as_ptr(), name.len(), &mut value, &mut version) };
        (code == code::DONE).then_some((value, version))
    }

    pub fn table(&self, name: &str) -> Option<u32> {
        // SAFETY: a slice that is borrowed for the call.
        u32::try_from(unsafe { stm_service_table(self.at, name.as_ptr(), name.len()) }).ok()
    }

    pub fn table_length(&self, table: u32) -> Option<u32> {
        // SAFETY: the library tests the number.
        u32::try_from(unsafe { stm_service_table_length(self.at, table) }).ok()
    }

    pub fn cell(&self, table: u32, index: u32) -> Option<(i64, u64)> {
        let (mut value, mut version) = (0, 0);
        // SAFETY: from any thread; the library tests both numbers; what is told is only written.
        let code = unsafe { stm_service_cell(self.at, table, index, &mut value, &mut version) };
        (code == code::DONE).then_some((value, version))
    }

    pub fn cells(&self, table: u32, from: u32, values: &mut [i64]) -> Option<usize> {
        // SAFETY: from any thread; the library tests both numbers; a slice that is borrowed for the call.
        let told = unsafe { stm_service_cells(self.at, table, from, values.as_mut_ptr(), values.len()) };
        usize::try_from(told).ok()
    }

    pub fn entered(&self) -> u64 {
        // SAFETY: from any thread.
        unsafe { stm_service_entered(self.at) }
    }

    pub fn chapter(&self) -> u64 {
        // SAFETY: from any thread.
        unsafe { stm_service_chapter(self.at) }
    }

    pub fn report(&self) -> Result<String, Error> {
        text(|room, wanted| {
            // SAFETY: from any thread; room and length are borrowed for the call.
            unsafe { stm_service_report(self.at, room.as_mut_ptr(), room.len(), wanted) }
        })
    }

    pub fn file(&self) -> Result<String, Error> {
        text(|room, wanted| {
            // SAFETY: as `report`.
            unsafe { stm_service_file(self.at, room.as_mut_ptr(), room.len(), wanted) }
        })
    }

    pub fn not_kept(&self) -> Option<NotKept> {
        // SAFETY: the box stays for as long as this, and is only shared.
        let keeper = unsafe { &*self.keeper? };
        locked(&keeper.not_kept).clone()
    }

    pub fn close(&self) {
        // SAFETY: from any thread.
        unsafe { stm_service_close(self.at) }
    }
}

impl Drop for RawService {
    fn drop(&mut self) {
        // In a child of the process another thread of the parent may have been in the closure: both stay as they are.
        if self.is_of_another_process() {
            return;
        }
        // SAFETY: nobody borrows it, so no thread is in a call. After it the closure is called no more.
        unsafe {
            if !self.at.is_null() {
                stm_service_free(self.at);
            }
            if let Some(keeper) = self.keeper {
                drop(Box::from_raw(keeper));
            }
        }
    }
}
