//! Transactions by values whose types say how many arguments they take: in each call, and looked up by their names.

use std::future::Future;
use std::pin::pin;
use std::task::{Context, Poll, Waker};
use std::time::Duration;
use stm::*;

/// `digits` returns its arguments as the digits of a number; `pay` takes so much from what is here.
const TEXT: &str = "(stm 3) (var here 100)
    (tx none () (skip) here)
    (tx pay (n) (if (lt here n) (throw n) (set here (sub here n))) here)
    (tx digits (a b c d e f g h) (skip) (add (mul
        (add (mul (add (mul (add (mul (add (mul (add (mul (add (mul a 10) b) 10) c) 10) d) 10) e) 10) f) 10) g) 10) h))
    (tx wait () (retry) 0)";
const TIME: Duration = Duration::from_millis(1);

fn is_shared<T: Copy + Send + Sync + 'static>(_: T) {}

/// What the call answers, which is over as it is polled first.
fn over<T>(call: Call<'_, T>) -> Result<T, Fault> {
    match pin!(call).poll(&mut Context::from_waker(Waker::noop())) {
        Poll::Ready(answer) => answer,
        Poll::Pending => panic!("it waits"),
    }
}

#[test]
fn calls_of_a_service() {
    let bank = Service::open(TEXT).unwrap();
    let (none, pay) = (bank.transaction_of::<0>("none").unwrap(), bank.transaction_of::<1>("pay").unwrap());
    let digits = bank.transaction_of::<8>("digits").unwrap();
    is_shared(digits);
    assert_eq!((none.number(), pay.number(), digits.number()), (0, 1, 2));
    assert_eq!((bank.atomically(none, []), bank.atomically(pay, [60])), (Ok(100), Ok(40)));
    assert_eq!(bank.atomically(&pay, [60]), Err(Fault::Thrown(60)));
    assert_eq!(bank.atomically(digits, [1, 2, 3, 4, 5, 6, 7, 8]), Ok(12345678));
    assert_eq!((bank.try_atomically(pay, [1]), bank.atomically_within(pay, [2], TIME)), (Ok(39), Ok(37)));
    assert_eq!((bank.observe(pay, [7]), over(bank.call(pay, [3]))), (Ok(30), Ok(34)));
    let wait: Transaction<0> = bank.transaction_of("wait").unwrap();
    assert_eq!(bank.try_atomically(wait, []), Err(Fault::Retries));
    assert_eq!(bank.atomically_within(&wait, [], TIME), Err(Fault::TimedOut));
    let receipts = bank.receipts();
    let told = [
        receipts.atomically(pay, [1]),
        receipts.try_atomically(pay, [1]),
        receipts.atomically_within(pay, [1], TIME),
        over(receipts.call(pay, [1])),
    ];
    assert_eq!(told.map(|receipt| receipt.unwrap().returned()), [Ok(33), Ok(32), Ok(31), Ok(30)]);
}

#[test]
fn calls_of_a_store() {
    let program = Program::read(TEXT).unwrap();
    let (none, pay) = (program.transaction_of::<0>("none").unwrap(), program.transaction_of("pay").unwrap());
    let store = Store::open_with_room(&program, 1, 0, 2).unwrap();
    let mut worker = store.worker().unwrap();
    let ended = |number, value| End::Entered(Entered { number, outcome: Outcome::Returned(value) });
    assert_eq!(store.call(pay, [60], Way::Waits).map(|answer| answer.end), Ok(ended(1, 40)));
    let ticket = store.submit(none, []).unwrap();
    let job = store.claim(ticket).unwrap();
    assert_eq!((job.transaction, store.turn(job).unwrap().end), (none.number(), ended(2, 40)));
    assert_eq!(worker.observe(pay, [41]), Ok(Outcome::Thrown(41)));
    assert_eq!(store.submit(&pay, [1]), Err(Error::NoRoom));
    assert_eq!(store.call(&none, [], Way::Tries), Err(Error::NoRoom));
}

/// By name, and by how many parameters it has.
#[test]
fn what_is_looked_up() {
    fn found<const N: usize>(bank: &Service, program: &Program, name: &str) -> bool {
        let (one, other) = (bank.transaction_of::<N>(name), program.transaction_of::<N>(name));
        assert_eq!(one, other);
        let is_there = one.is_ok();
        assert_eq!(
            one.err(),
            (!is_there).then(|| Error::NoTransaction { name: name.to_string(), parameters: N })
        );
        is_there
    }
    let (bank, program) = (Service::open(TEXT).unwrap(), Program::read(TEXT).unwrap());
    let with = |name| {
        let [none, one] = [found::<0>(&bank, &program, name), found::<1>(&bank, &program, name)];
        let [seven, eight] = [found::<7>(&bank, &program, name), found::<8>(&bank, &program, name)];
        [none, one, seven, eight, found::<9>(&bank, &program, name)]
    };
    assert_eq!(with("none"), [true, false, false, false, false]);
    assert_eq!(with("pay"), [false, true, false, false, false]);
    assert_eq!(with("digits"), [false, false, false, true, false]);
    for name in ["", "here", "Pay", "pay "] {
        assert_eq!(with(name), [false; 5]);
    }
    let told = bank.transaction_of::<3>("pay").unwrap_err().to_string();
    assert_eq!(told, "there is no transaction pay with 3 parameters");
}

/// What `tx` and `tx_with` answer is good in all that is made of the declarations, also as they become later.
#[test]
fn what_was_declared() {
    let mut bank = Declare::new();
    let here = bank.var("here", 100);
    let pay = bank.tx_with("pay", ["n"], |[n]| (set(&here, var(&here) - &n), &here));
    bank.run_with(pay, 2, [10]);
    let before = bank.service().unwrap();
    let look = bank.tx("look", skip(), &here);
    let twice = bank.tx_with("twice", ["a", "b"], |[a, b]| (set(&here, var(&here) - &a - &b), &here));
    bank.run(look, 1);
    bank.run_with(&twice, 1, [1, 2]);
    assert_eq!((pay.number(), look.number(), twice.number()), (0, 1, 2));
    let (after, program) = (bank.service().unwrap(), bank.program().unwrap());
    assert_eq!((before.atomically(pay, [5]), before.entered()), (Ok(75), 3));
    assert_eq!((after.atomically(look, []), after.atomically(twice, [3, 4])), (Ok(77), Ok(70)));
    assert_eq!(program.transaction_of::<2>("twice"), Ok(twice));
    assert_eq!(Service::open(program.text()).unwrap().observe(twice, [1, 1]), Ok(75));
}

const OTHER: &str = "(stm 3) (tx same (n) (skip) n) (tx half (n) (skip) (div n 2)) (tx none () (skip) 5)";

/// Of another program it is what has its number there.
#[test]
fn transactions_of_another_program() {
    let bank = Service::open(TEXT).unwrap();
    let other = Service::open(OTHER).unwrap();
    let (pay, digits) =
        (bank.transaction_of::<1>("pay").unwrap(), bank.transaction_of::<8>("digits").unwrap());
    let wait: Transaction<0> = bank.transaction_of("wait").unwrap();
    assert_eq!(other.atomically(pay, [60]), Ok(30));
    let refused = Fault::WrongArguments { transaction: 2, parameters: 0, given: 8 };
    assert_eq!(
        (other.atomically(digits, [1; 8]), over(other.call(digits, [1; 8]))),
        (Err(refused), Err(refused))
    );
    assert_eq!(other.atomically(wait, []), Err(Fault::UnknownTransaction(3)));
    let mut declare = Declare::new();
    declare.tx_with("a", ["n"], |[n]| (skip(), param(&n)));
    for (run, told) in [(0, Ok(())), (1, Err(Error::UnknownTransaction(1)))] {
        let mut runs = declare.clone();
        runs.run_with(run, 1, &[4]);
        assert_eq!((runs.text().map(|_| ()), runs.program().map(|_| ())), (told.clone(), told));
    }
    declare.run_with(digits, 1, [1; 8]);
    assert_eq!(declare.service().map(|_| ()), Err(Error::UnknownTransaction(2)));
}
