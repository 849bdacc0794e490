//! Calls that give arguments: each gets its own, as many as its transaction has parameters, or is refused.

use std::time::Duration;
use stm::*;

/// `pay` moves so much from `alice` to `bob`, or throws it; `take` waits until `bob` has so much; `digits` returns its
/// arguments as the digits of a number.
fn declared() -> Declare {
    let mut bank = Declare::new();
    let (alice, bob) = (bank.var("alice", 100), bank.var("bob", 20));
    let pay = bank.tx_with("pay", ["n"], |[n]| {
        let short = when(lt(&alice, &n), throw(&n), skip());
        (seq([short, set(&alice, var(&alice) - &n), set(&bob, var(&bob) + &n)]), &alice)
    });
    bank.tx_with("take", ["n"], |[n]| {
        (seq([when(lt(&bob, &n), retry(), skip()), set(&bob, var(&bob) - &n)]), param(&n))
    });
    bank.tx("sum", skip(), sum([&alice, &bob]));
    bank.tx_with("same", ["n"], |[n]| (skip(), param(&n)));
    bank.tx_with("digits", ["a", "b", "c", "d", "e", "f", "g", "h"], |[a, rest @ ..]| {
        (skip(), rest.iter().fold(param(&a), |number, digit| number * 10 + digit))
    });
    bank.run_with(pay, 2, [10]);
    bank
}

const NAMES: [&str; 5] = ["pay", "take", "sum", "same", "digits"];
const WANTED: [usize; 5] = [1, 1, 0, 1, 8];
const NINE: [i64; 9] = [1, 2, 3, 4, 5, 6, 7, 8, 9];
const PAY: u32 = 0;
const TAKE: u32 = 1;
const SUM: u32 = 2;
const SAME: u32 = 3;
const DIGITS: u32 = 4;

#[test]
fn the_text_is_of_form_3_where_there_are_parameters() {
    let text = declared().text().unwrap();
    assert!(text.starts_with("(stm 3)\n(var alice 100)\n"));
    assert!(
        text.contains("(tx sum () (skip) (add alice bob))\n") && text.contains("(tx same (n) (skip) n)\n")
    );
    assert!(
        text.contains("(tx digits (a b c d e f g h) (skip) (add (mul (add ")
            && text.ends_with("(run pay 2 10)\n")
    );
    let mut none = Declare::new();
    let tx = none.tx_with("t", [], |[]| (skip(), 0));
    none.run_with(tx, 3, []);
    assert_eq!(none.text().unwrap(), "(stm 2)\n(tx t (skip) 0)\n(run t 3)\n");
    assert_eq!(none.program().map(|program| program.parameters(0)), Ok(Some(0)));
}

/// Why a file is refused.
fn fault(error: Error) -> FileFault {
    match error {
        Error::Refused { fault, .. } => fault,
        other => panic!("{other}"),
    }
}

#[test]
fn what_is_refused() {
    let declares = |parameters: [&str; 2]| {
        let mut declare = Declare::new();
        declare.var("x", 0);
        declare.tx_with("t", parameters, |[a, _]| (skip(), param(&a)));
        declare.program().map(|_| ())
    };
    assert_eq!(declares(["a", "b"]), Ok(()));
    for twice in [declares(["a", "a"]), declares(["x", "b"])] {
        assert_eq!(twice.map_err(fault), Err(FileFault::Name));
    }
    assert_eq!(declares(["a b", "c"]), Err(Error::WrongName("a b".to_string())));
    for given in [&[][..], &[1, 2]] {
        let mut bank = declared();
        let pay = bank.tx_with("again", ["n"], |[n]| (skip(), param(&n)));
        bank.run_with(pay.number(), 1, given);
        // It is told where the run stands.
        let text = bank.text().unwrap();
        let last = text.lines().last().unwrap();
        assert!(last.starts_with("(run again 1"));
        let told = bank.program().map(|_| ());
        assert!(matches!(told, Err(Error::Refused { fault: FileFault::Name, column: 6, .. })));
        let Err(Error::Refused { line, .. }) = told else { unreachable!() };
        assert_eq!(line, text.lines().count());
    }
    // Also where no transaction has parameters.
    let mut none = Declare::new();
    let tx = none.tx("t", skip(), 0);
    none.run_with(tx.number(), 1, &[7]);
    assert_eq!(none.text().as_deref(), Ok("(stm 3)\n(tx t () (skip) 0)\n(run t 1 7)\n"));
    let told = none.program().map(|_| ());
    assert!(matches!(told, Err(Error::Refused { fault: FileFault::Name, line: 3, column: 6, .. })));
    let mut nine = Declare::new();
    nine.tx_with("t", ["a", "b", "c", "d", "e", "f", "g", "h", "i"], |[a, ..]| (skip(), param(&a)));
    assert_eq!(nine.program().map(|_| ()).map_err(fault), Err(FileFault::Limit));
    let mut other = Declare::new();
    let mut kept = None;
    other.tx_with("t", ["a"], |[a]| (skip(), param(kept.insert(a))));
    other.tx("u", skip(), param(&kept.unwrap()));
    assert_eq!(other.program().map(|_| ()).map_err(fault), Err(FileFault::Name));
}

#[test]
fn jobs_have_their_arguments() {
    let program = declared().program().unwrap();
    let store = Store::open_with_room(&program, 1, 0, 2).unwrap();
    let mut worker = store.worker().unwrap();
    let job = store.take().unwrap();
    assert_eq!((job.transaction, &job.arguments[..]), (PAY, &[10][..]));
    let changed = Job { arguments: Arguments::new(&[11]).unwrap(), ..job };
    assert_eq!((worker.try_job(changed), store.bring(&mut worker)), (Ok(()), Err(Error::Gone)));
    assert_eq!(store.turn(changed), Err(Error::Gone));
    let wrong = Job { arguments: Arguments::default(), ..job };
    assert_eq!(
        worker.try_job(wrong),
        Err(Error::WrongArguments { transaction: PAY, parameters: 1, given: 0 })
    );
    assert_eq!((store.turn(wrong), worker.try_job(job)), (Err(Error::Gone), Ok(())));
    let end = End::Entered(Entered { number: 1, outcome: Outcome::Returned(90) });
    assert_eq!(store.bring(&mut worker), Ok(Answer { ticket: Ticket(0), chapter: 0, end }));
    assert_eq!(store.submit(DIGITS, &NINE[..8]), Ok(Ticket(2)));
    let job = store.claim(Ticket(2)).unwrap();
    assert_eq!(&job.arguments[..], &NINE[..8]);
    assert_eq!((worker.try_job(job), store.bring(&mut worker).is_ok()), (Ok(()), true));
    let report = store.report().unwrap();
    assert!(report.contains("digits returned 12345678\n"));
    let file = store.file().unwrap();
    assert!(
        file.starts_with("(stm 3)\n") && file.ends_with("(run pay 2 10)\n(run digits 1 1 2 3 4 5 6 7 8)\n")
    );
    assert_eq!(stm::check(&file, &report), Ok(Verdict::Good));
    assert_eq!(stm::run(&program, 2).map(|report| report.contains("entry 2 1 pay returned 80")), Ok(true));
}

#[test]
fn calls_of_a_store() {
    let program = declared().program().unwrap();
    let store = Store::open_with_room(&program, 1, 0, 9).unwrap();
    let mut worker = store.worker().unwrap();
    let returned = |told: Result<Answer, Error>| match told.unwrap().end {
        End::Entered(Entered { outcome: Outcome::Returned(value), .. }) => value,
        end => panic!("it ends with {end:?}"),
    };
    for (transaction, parameters) in (0..).zip(WANTED) {
        assert_eq!(program.parameters(transaction), Some(parameters));
        for given in (0..=9).filter(|given| *given != parameters) {
            let (refused, arguments) =
                (Error::WrongArguments { transaction, parameters, given }, &NINE[..given]);
            assert_eq!(store.submit(transaction, arguments), Err(refused.clone()));
            assert_eq!(store.call(transaction, arguments, Way::Waits), Err(refused.clone()));
            assert_eq!(store.call(transaction, arguments, Way::Tries), Err(refused.clone()));
            assert_eq!(worker.observe(transaction, arguments), Err(refused));
        }
    }
    assert_eq!((program.parameters(5), store.spare()), (None, 9));
    assert_eq!((store.turns(9), store.take()), (2, Err(Error::NotReady)));
    let call = |transaction, arguments: &[i64]| store.call(transaction, arguments, Way::Waits);
    assert_eq!((returned(call(PAY, &[60])), returned(call(SUM, &[]))), (20, 120));
    assert_eq!(returned(call(DIGITS, &NINE[1..])), 23456789);
    assert_eq!([i64::MIN, i64::MAX].map(|n| returned(call(SAME, &[n]))), [i64::MIN, i64::MAX]);
    assert_eq!(worker.observe(PAY, &[21]), Ok(Outcome::Thrown(21)));
    assert_eq!(store.call(TAKE, &[101], Way::Tries), Err(Error::Retries));
    assert_eq!(worker.observe(TAKE, &[101]), Err(Error::Retries));
    let waits = call(TAKE, &[101]).unwrap();
    assert_eq!(waits.end, End::Parked);
    store.begin_chapter();
    assert!(store.file().unwrap().ends_with("(run take 1 101)\n"));
    assert_eq!(returned(call(PAY, &[1])), 19);
    let woken = store.turn(store.take().unwrap()).unwrap();
    let end = End::Entered(Entered { number: 2, outcome: Outcome::Returned(101) });
    assert_eq!(woken, Answer { ticket: waits.ticket, chapter: 1, end });
}

#[test]
fn calls_of_a_service() {
    let bank = declared().service().unwrap();
    for (transaction, parameters) in (0..).zip(WANTED) {
        assert_eq!(bank.transaction(NAMES[transaction as usize]), Some(transaction));
        assert_eq!(bank.parameters(transaction), Some(parameters));
        for given in (0..=9).filter(|given| *given != parameters) {
            let refused = Err(Fault::WrongArguments { transaction, parameters, given });
            let (arguments, time) = (&NINE[..given], Duration::from_millis(1));
            assert_eq!(bank.atomically(transaction, arguments), refused);
            assert_eq!(bank.try_atomically(transaction, arguments), refused);
            assert_eq!(bank.atomically_within(transaction, arguments, time), refused);
            assert_eq!(bank.observe(transaction, arguments), refused);
        }
    }
    assert_eq!((bank.entered(), bank.parameters(5)), (2, None));
    std::thread::scope(|scope| {
        for n in 21..25 {
            let bank = &bank;
            scope.spawn(move || assert_eq!(bank.atomically(TAKE, &[n]), Ok(n)));
        }
        (0..50).for_each(|_| assert!(bank.atomically(PAY, &[1]).is_ok()));
    });
    assert_eq!(bank.atomically(DIGITS, &NINE[..8]), Ok(12345678));
    bank.close();
    assert_eq!(stm::check(&bank.file().unwrap(), &bank.report().unwrap()), Ok(Verdict::Good));
    let told = Fault::WrongArguments { transaction: PAY, parameters: 1, given: 0 }.to_string();
    assert_eq!(told, "arguments of transaction 0: 1 wanted, 0 given");
}
