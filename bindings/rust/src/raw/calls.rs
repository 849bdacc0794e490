//! Calls without a thread, of a service (`bindings/c/service.h`).

use super::service::{locked, message_of, receipt, RawService};
use super::{code, Told};
use crate::answers::Receipt;
use crate::error::Fault;
use std::ffi::c_void;
use std::panic::{catch_unwind, AssertUnwindSafe};
use std::sync::{Arc, Mutex};
use std::task::Waker;

type Done = extern "C" fn(*mut c_void, Told);

extern "C" {
    fn stm_start(
        service: *mut c_void,
        transaction: u32,
        arguments: *const i64,
        count: usize,
        done: Done,
        own: *mut c_void,
    ) -> i64;
    fn stm_cancel(service: *mut c_void, ticket: i64) -> i32;
}

/// What was told of a call, and who is woken then.
struct Heard {
    answer: Option<Told>,
    waker: Option<Waker>,
}

/// Is called once, with no lock held. No panic of a waker goes on into C.
extern "C" fn done(own: *mut c_void, answer: Told) {
    // SAFETY: the count that `start` gave away, which is taken back once: here, or where the call is given up.
    let heard = unsafe { Arc::from_raw(own.cast::<Mutex<Heard>>().cast_const()) };
    let waker = {
        let mut heard = locked(&heard);
        heard.answer = Some(answer);
        heard.waker.take()
    };
    let woken = catch_unwind(AssertUnwindSafe(|| {
        drop(heard);
        waker.map(Waker::wake)
    }));
    if let Err(payload) = woken {
        message_of(payload);
    }
}

/// A call that was started. Where it is dropped before it was told, it is given up.
pub struct RawCall<'a> {
    service: &'a RawService,
    transaction: u32,
    given: usize,
    ticket: i64,
    heard: Arc<Mutex<Heard>>,
}

impl RawService {
    pub fn start(&self, transaction: u32, arguments: &[i64], waker: &Waker) -> Result<RawCall<'_>, Fault> {
        let heard = Arc::new(Mutex::new(Heard { answer: None, waker: Some(waker.clone()) }));
        let own = Arc::into_raw(heard.clone());
        let (at, count) = (arguments.as_ptr(), arguments.len());
        // SAFETY: from any thread; a slice that is borrowed for the call. `own` is counted for `done`, which any thread
        // may call.
        let ticket = unsafe { stm_start(self.at(), transaction, at, count, done, own.cast_mut().cast()) };
        if ticket >= 0 {
            return Ok(RawCall { service: self, transaction, given: count, ticket, heard });
        }
        // SAFETY: nothing follows, so it is not called.
        drop(unsafe { Arc::from_raw(own) });
        let code = i32::try_from(ticket).expect("a fault is a code");
        let told = Told { ticket: -1, code, value: 0, chapter: 0, entry: 0, place: 0 };
        Err(receipt(&told, || self.refusal(transaction, count)).expect_err("nothing was started"))
    }
}

impl RawCall<'_> {
    /// How the call was entered, or why it was not, if it was told; else the waker is woken then.
    pub fn answer(&self, waker: &Waker) -> Option<Result<Receipt, Fault>> {
        let mut heard = locked(&self.heard);
        if let Some(told) = &heard.answer {
            return Some(receipt(told, || self.service.refusal(self.transaction, self.given)));
        }
        let is_known = heard.waker.as_ref().is_some_and(|known| known.will_wake(waker));
        let before = if is_known { None } else { heard.waker.replace(waker.clone()) };
        drop(heard);
        // It may be the last of a task with other calls, which are given up.
        drop(before);
        None
    }
}

impl Drop for RawCall<'_> {
    fn drop(&mut self) {
        // In a child of the process another thread of the parent may have had the lock.
        if locked(&self.heard).answer.is_some() || self.service.is_of_another_process() {
            return;
        }
        // SAFETY: from any thread, of a service that is borrowed.
        if unsafe { stm_cancel(self.service.at(), self.ticket) } == code::DONE {
            // SAFETY: nothing is told of it, so `done` is not called.
            drop(unsafe { Arc::from_raw(Arc::as_ptr(&self.heard)) });
        }
    }
}
