//! Calls that are given up: nothing is entered of them when what they waited for comes. And tries take no room.

use std::future::Future;
use std::pin::Pin;
use std::task::{Context, Poll, Waker};
use std::time::Duration;
use stm::{Call, Fault, Service, ServiceOptions, Verdict};

// `long_get` is evaluated outside the lock, and retries at once.
const TEXT: &str = "(stm 3) (var box 0) (var d 0)
    (tx put (k) (set box (add box k)) box)
    (tx get (k) (if (lt box k) (retry) (set box (sub box k))) k)
    (tx long_get (k) (seq (if (lt box k) (retry) (set box (sub box k))) (repeat 10 (repeat 100 (set d (add d 1))))) k)";
const PUT: u32 = 0;
const GET: u32 = 1;
const LONG_GET: u32 = 2;
const NAMES: [(u32, &str); 2] = [(GET, "get"), (LONG_GET, "long_get")];

/// What it waited for comes.
fn nothing_is_entered_of_it(service: &Service, name: &str) {
    assert_eq!(service.atomically(PUT, &[5]), Ok(5));
    assert_eq!((service.value("box"), service.entered()), (Some((5, 1)), 1));
    let (file, report) = (service.file().unwrap(), service.report().unwrap());
    assert!(report.contains(&format!("\nmemory 0 {name}\n")) && !report.contains("\nparked "), "{report}");
    assert_eq!(stm::check(&file, &report), Ok(Verdict::Good));
}

#[test]
fn one_whose_time_is_up() {
    for (transaction, name) in NAMES {
        let service = Service::open(TEXT).unwrap();
        let late = service.atomically_within(transaction, &[5], Duration::from_millis(1));
        assert_eq!(late, Err(Fault::TimedOut));
        nothing_is_entered_of_it(&service, name);
    }
}

fn is_pending<T>(call: &mut Pin<Box<Call<'_, T>>>) -> bool {
    matches!(call.as_mut().poll(&mut Context::from_waker(Waker::noop())), Poll::Pending)
}

#[test]
fn one_whose_future_is_dropped() {
    for (transaction, name) in NAMES {
        let service = Service::open(TEXT).unwrap();
        let mut call = Box::pin(service.call(transaction, &[5]));
        assert!(is_pending(&mut call));
        drop(call);
        nothing_is_entered_of_it(&service, name);
    }
}

#[test]
fn tries_take_no_room() {
    let service = Service::open_with(TEXT, ServiceOptions::new().room(10)).unwrap();
    for _ in 0..70_000 {
        assert_eq!(service.try_atomically(LONG_GET, &[1]), Err(Fault::Retries));
    }
    for _ in 0..100 {
        assert_eq!(service.atomically_within(LONG_GET, &[1], Duration::ZERO), Err(Fault::TimedOut));
    }
    assert_eq!((service.chapter(), service.entered()), (0, 0));
    (1..=10).for_each(|sum| assert_eq!(service.atomically(PUT, &[1]), Ok(sum)));
    assert_eq!(service.chapter(), 0);
    assert_eq!((service.try_atomically(LONG_GET, &[10]), service.chapter()), (Ok(10), 1));
}
