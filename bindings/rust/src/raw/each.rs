//! Many calls at once, of a service (`bindings/c/service.h`).

use super::service::{receipt, RawService};
use super::Told;
use crate::answers::Receipt;
use crate::error::Fault;
use std::ffi::c_void;

extern "C" {
    fn stm_each(
        service: *mut c_void,
        transaction: u32,
        arguments: *const i64,
        count: usize,
        calls: usize,
        answers: *mut Told,
    ) -> usize;
}

impl RawService {
    /// How the call of each row was entered, or why it was not, in their order.
    pub fn each<'a, const N: usize>(
        &'a self,
        transaction: u32,
        rows: &[[i64; N]],
    ) -> impl Iterator<Item = Result<Receipt, Fault>> + 'a {
        let (arguments, calls) = (rows.as_ptr().cast(), rows.len());
        let mut answers: Vec<Told> = Vec::with_capacity(calls);
        // SAFETY: from any thread; rows of `N` numbers, one behind the other, which are borrowed for the call. It
        // writes as many answers as there are rows, for which there is room. The library tests the number, and how many
        // arguments there are.
        unsafe {
            stm_each(self.at(), transaction, arguments, N, calls, answers.as_mut_ptr());
            answers.set_len(calls);
        }
        answers.into_iter().map(move |told| receipt(&told, || self.refusal(transaction, N)))
    }
}
