//! Calls that no thread waits for.

use crate::answers::{Arguments, Receipt};
use crate::error::Fault;
use crate::raw::{RawCall, RawService};
use std::future::Future;
use std::pin::Pin;
use std::task::{Context, Poll};

/// A call of a service that no thread waits for, made by `Service::call` or `Receipts::call`: a future of what the
/// transaction returned, or of the receipt, over any executor or none. It is started when it is polled first, and what
/// it is told is the same as of `atomically`. Where it waits it is woken by a thread that is in a call of the service,
/// and takes no thread. To drop it is to give it up: what was not entered until then never will be.
#[must_use = "a call is made when it is awaited"]
pub struct Call<'a, T = i64> {
    service: &'a RawService,
    stands: Stands<'a>,
    reads: fn(Receipt) -> Result<T, Fault>,
}

enum Stands<'a> {
    Begins(u32, Arguments),
    IsRefused(Fault),
    Waits(RawCall<'a>),
    IsOver,
}

impl<'a, T> Call<'a, T> {
    /// `reads` is what is told of the receipt.
    pub(crate) fn new(
        service: &'a RawService,
        transaction: u32,
        arguments: &[i64],
        reads: fn(Receipt) -> Result<T, Fault>,
    ) -> Call<'a, T> {
        let refusal = || Stands::IsRefused(service.refusal(transaction, arguments.len()));
        let given = Arguments::new(arguments);
        let stands = given.map_or_else(refusal, |given| Stands::Begins(transaction, given));
        Call { service, stands, reads }
    }
}

impl<T> Future for Call<'_, T> {
    type Output = Result<T, Fault>;

    fn poll(mut self: Pin<&mut Self>, context: &mut Context<'_>) -> Poll<Result<T, Fault>> {
        let call = &mut *self;
        if let Stands::Begins(transaction, given) = call.stands {
            call.stands = match call.service.start(transaction, &given, context.waker()) {
                Ok(started) => Stands::Waits(started),
                Err(fault) => Stands::IsRefused(fault),
            };
        }
        let answer = match &call.stands {
            Stands::Waits(started) => started.answer(context.waker()),
            Stands::IsRefused(fault) => Some(Err(*fault)),
            Stands::Begins(..) | Stands::IsOver => panic!("a call is polled that is over"),
        };
        let Some(answer) = answer else { return Poll::Pending };
        call.stands = Stands::IsOver;
        Poll::Ready(answer.and_then(call.reads))
    }
}
