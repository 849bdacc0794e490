//! Many calls at once: each is answered as by a try of its own, also where chapters end in between; and beside others.

use std::sync::atomic::{AtomicBool, AtomicU32, Ordering};
use std::sync::Arc;
use std::time::Duration;
use stm::{check, Error, Fault, Outcome, Service, ServiceOptions, Verdict};

const TEXT: &str = "(stm 3) (var far 0) (table acct 10 100) (always some (le 0 (at acct 0)))
    (tx pay (from to n) (seq (if (lt (at acct from) n) (throw n) (skip))
        (put acct from (sub (at acct from) n)) (put acct to (add (at acct to) n))) (at acct from))
    (tx take (to n) (seq (if (lt (at acct 3) n) (retry) (skip))
        (put acct 3 (sub (at acct 3) n)) (put acct to (add (at acct to) n))) (at acct 3))
    (tx audit () (skip) (sum acct))
    (tx set (i n) (put acct i n) 0)
    (tx wait (n) (if (lt (at acct 5) n) (retry) (skip)) (at acct 5))
    (tx long (n) (seq (repeat 10 (repeat 100 (set far (add far 1))))
        (if (lt (at acct 3) n) (retry) (put acct 3 (sub (at acct 3) n)))) (at acct 3))";
const PAY: u32 = 0;
const TAKE: u32 = 1;
const AUDIT: u32 = 2;
const SET: u32 = 3;
const WAIT: u32 = 4;
const LONG: u32 = 5;

fn opened(room: usize) -> Service {
    Service::open_with(TEXT, ServiceOptions::new().room(room)).unwrap()
}

/// So many payments of 1.
fn ones(count: usize) -> Vec<[i64; 3]> {
    vec![[3, 5, 1]; count]
}

/// Each end, and those behind one that does not return are made.
#[test]
fn each_way_to_end() {
    let bank = opened(0);
    let paid = bank.each(PAY, &[[3, 5, 60], [3, 5, 60], [3, 10, 1], [5, 3, 10]]);
    assert_eq!(paid, [Ok(40), Err(Fault::Thrown(60)), Err(Fault::Outside), Ok(150)]);
    let taken = bank.each(TAKE, &[[5, 20], [5, 40], [5, 30]]);
    assert_eq!(taken, [Ok(30), Err(Fault::Retries), Ok(0)]);
    assert_eq!(bank.each(SET, &[[0, -1], [0, i64::MAX], [1, 1]]), [Err(Fault::Broken(0)), Ok(0), Ok(0)]);
    assert_eq!(bank.each(AUDIT, &[[]; 2]), [Err(Fault::Overflow), Err(Fault::Overflow)]);
    assert_eq!(bank.each(LONG, &[[0], [1]]), [Ok(0), Err(Fault::Retries)]);
    assert_eq!(bank.each::<3>(PAY, &[]), []);
    assert_eq!(bank.entered(), 12);
    bank.close();
    assert_eq!(check(&bank.file().unwrap(), &bank.report().unwrap()), Ok(Verdict::Good));
}

#[test]
fn what_is_refused() {
    let bank = opened(0);
    let wrong = Fault::WrongArguments { transaction: PAY, parameters: 3, given: 2 };
    assert_eq!(bank.each(PAY, &[[3, 5]; 70]), vec![Err(wrong); 70]);
    let none = Fault::WrongArguments { transaction: PAY, parameters: 3, given: 0 };
    assert_eq!(bank.each(PAY, &[[]; 2]), [Err(none); 2]);
    assert_eq!(bank.each(9, &[[1]; 2]), [Err(Fault::UnknownTransaction(9)); 2]);
    assert_eq!(bank.entered(), 0);
    bank.close();
    assert_eq!(bank.each(PAY, &ones(70)), vec![Err(Fault::Closed); 70]);
}

/// Where each was entered, through chapters.
#[test]
fn receipts() {
    let bank = opened(30);
    let made = bank.receipts().each(PAY, &ones(100));
    for (i, receipt) in (0..).zip(made) {
        let receipt = receipt.unwrap();
        assert_eq!((receipt.ticket.0, receipt.place), (i, i));
        assert_eq!((receipt.chapter, receipt.entry), (i / 30, i % 30 + 1));
        assert_eq!(receipt.outcome, Outcome::Returned(99 - i as i64));
    }
    assert_eq!(bank.receipts().each(TAKE, &[[5, 1]]), [Err(Fault::Retries)]);
    assert_eq!(bank.chapter(), 3);
}

/// A keeper that fails so many times is told a chapter once for all calls that find the next one full.
#[test]
fn a_keeper() {
    for failures in [0, 2] {
        let told = Arc::new(AtomicU32::new(0));
        let own = told.clone();
        let options = ServiceOptions::new().room(10).on_chapter(move |file, report| {
            assert_eq!(check(file, report)?, Verdict::Good);
            let is_kept = own.fetch_add(1, Ordering::Relaxed) >= failures;
            is_kept.then_some(()).ok_or(Error::Memory)
        });
        let bank = Service::open_with(TEXT, options).unwrap();
        let paid = bank.each(PAY, &ones(100));
        let returned = if failures == 0 { 100 } else { 20 };
        assert!(paid[..returned].iter().all(Result::is_ok));
        assert_eq!(paid[returned..], vec![Err(Fault::NoRoom); 100 - returned]);
        assert_eq!(told.load(Ordering::Relaxed), if failures == 0 { 9 } else { 2 });
        assert_eq!((bank.entered(), bank.not_kept().is_some()), (returned as u64, failures > 0));
    }
}

/// One of the calls ends a wait of another thread.
#[test]
fn a_sleeper() {
    let bank = opened(0);
    std::thread::scope(|scope| {
        let waits = scope.spawn(|| bank.receipts().atomically(WAIT, &[150]).unwrap());
        while bank.counts().waiting == 0 {
            std::thread::sleep(Duration::from_millis(1));
        }
        let made = bank.receipts().each(PAY, &ones(90));
        let wakes = made[49].unwrap();
        let woken = waits.join().unwrap();
        assert_eq!((woken.place, woken.outcome), (wakes.place + 1, Outcome::Returned(150)));
        assert_eq!(made[50].unwrap().place, wakes.place + 2);
    });
}

/// Beside threads that call one by one: the sum stays, and theirs come in between.
#[test]
fn beside_others() {
    let bank = opened(5000);
    let is_over = AtomicBool::new(false);
    std::thread::scope(|scope| {
        for _ in 0..2 {
            scope.spawn(|| {
                while !is_over.load(Ordering::Relaxed) {
                    assert_eq!(bank.atomically(AUDIT, &[]), Ok(1000));
                }
            });
        }
        let rows: Vec<[i64; 3]> = (0..30000).map(|i| [i * 7 % 10, i * 3 % 10, i % 130]).collect();
        let made = bank.receipts().each(PAY, &rows);
        is_over.store(true, Ordering::Relaxed);
        let places: Vec<u64> = made.into_iter().map(|made| made.unwrap().place).collect();
        assert!(places.windows(2).all(|pair| pair[0] < pair[1]));
        assert!(places.windows(2).filter(|pair| pair[0] + 1 < pair[1]).count() > 5);
    });
    assert_eq!(bank.atomically(AUDIT, &[]), Ok(1000));
}
