//! The whole of what calls of a service are answered: by a thread, and without one.

use std::future::Future;
use std::pin::pin;
use std::task::{Context, Poll, Waker};
use std::time::Duration;
use stm::{Fault, Outcome, Receipt, Receipts, Service, ServiceOptions, Ticket};

const TEXT: &str = "(stm 3) (var box 0) (var most 9223372036854775807) (table t 2 0) (always low (le box 50))
    (tx put (k) (set box (add box k)) box)
    (tx get (k) (if (lt box k) (retry) (set box (sub box k))) k)
    (tx fail (k) (throw k) 0)
    (tx big () (set most (add most 1)) 0)
    (tx cut () (set box (div box 0)) 0)
    (tx out (i) (skip) (at t i))";
const PUT: u32 = 0;
const GET: u32 = 1;
const MOMENT: Duration = Duration::from_millis(1);

fn receipt(ticket: u64, chapter: u64, entry: u64, place: u64, outcome: Outcome) -> Receipt {
    Receipt { ticket: Ticket(ticket), chapter, entry, place, outcome }
}

#[test]
fn each_way_to_end() {
    fn is_shared<T: Send + Sync + Copy>(_: T) {}
    let service = Service::open(TEXT).unwrap();
    let calls = service.receipts();
    is_shared(calls);
    let ends = [
        (PUT, vec![7], Outcome::Returned(7), Ok(7)),
        (2, vec![-3], Outcome::Thrown(-3), Err(Fault::Thrown(-3))),
        (3, vec![], Outcome::Overflow, Err(Fault::Overflow)),
        (4, vec![], Outcome::DivideByZero, Err(Fault::DivideByZero)),
        (5, vec![2], Outcome::Outside, Err(Fault::Outside)),
        (PUT, vec![44], Outcome::Broken(0), Err(Fault::Broken(0))),
    ];
    for (at, (transaction, given, outcome, returned)) in (0..).zip(ends) {
        let wanted = receipt(at, 0, at + 1, at, outcome);
        assert_eq!(calls.atomically(transaction, &given), Ok(wanted));
        assert_eq!(wanted.returned(), returned);
        assert_eq!(outcome.returned(), returned);
    }
    assert_eq!(calls.try_atomically(GET, &[4]), Ok(receipt(6, 0, 7, 6, Outcome::Returned(4))));
    assert_eq!(calls.atomically_within(GET, &[3], MOMENT), Ok(receipt(7, 0, 8, 7, Outcome::Returned(3))));
}

/// What is not entered has none.
#[test]
fn each_fault() {
    let service = Service::open(TEXT).unwrap();
    let calls = service.receipts();
    let wrong = Fault::WrongArguments { transaction: GET, parameters: 1, given: 0 };
    assert_eq!(calls.try_atomically(GET, &[1]), Err(Fault::Retries));
    assert_eq!(calls.atomically_within(GET, &[1], MOMENT), Err(Fault::TimedOut));
    assert_eq!(calls.atomically_within(GET, &[1], Duration::ZERO), Err(Fault::TimedOut));
    assert_eq!(calls.atomically(GET, &[]), Err(wrong));
    assert_eq!(calls.atomically(9, &[]), Err(Fault::UnknownTransaction(9)));
    service.close();
    assert_eq!(calls.atomically(PUT, &[1]), Err(Fault::Closed));
    assert_eq!(service.entered(), 0);
}

fn polled(
    call: std::pin::Pin<&mut impl Future<Output = Result<Receipt, Fault>>>,
) -> Poll<Result<Receipt, Fault>> {
    call.poll(&mut Context::from_waker(Waker::noop()))
}

/// One that waits is entered later than what it waits for, in the next chapter.
#[test]
fn one_without_a_thread() {
    let options = ServiceOptions::new().room(2);
    let service = Service::open_with(TEXT, options).unwrap();
    let calls: Receipts<'_> = service.receipts();
    let mut waits = pin!(calls.call(GET, &[5]));
    assert_eq!(polled(waits.as_mut()), Poll::Pending);
    let puts = pin!(calls.call(PUT, &[2]));
    assert_eq!(polled(puts), Poll::Ready(Ok(receipt(1, 0, 1, 0, Outcome::Returned(2)))));
    assert_eq!(calls.atomically(PUT, &[4]), Ok(receipt(2, 1, 1, 1, Outcome::Returned(6))));
    assert_eq!(polled(waits), Poll::Ready(Ok(receipt(0, 1, 2, 2, Outcome::Returned(5)))));
    let mut late = pin!(calls.call(GET, &[9]));
    assert_eq!(polled(late.as_mut()), Poll::Pending);
    service.close();
    assert_eq!(polled(late), Poll::Ready(Err(Fault::Closed)));
}
