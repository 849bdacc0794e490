//! How transactions end, as calls and turns tell it, tasks by their tickets, and chapters.

use stm::{Answer, End, Entered, Error, Outcome, Program, Standing, Store, Ticket, Verdict, Way};

fn ended(ticket: u64, chapter: u64, number: u64, outcome: Outcome) -> Result<Answer, Error> {
    Ok(Answer { ticket: Ticket(ticket), chapter, end: End::Entered(Entered { number, outcome }) })
}

/// The lowest ready task has its turn.
fn turn(store: &Store) -> Result<Answer, Error> {
    store.turn(store.take()?)
}

#[test]
fn a_call_has_its_turn_before_all_that_is_ready() {
    let program = Program::read("(var x 5)(tx inc (set x (add x 1)) x)(run inc 2)").unwrap();
    let store = Store::open_with_room(&program, 0, 0, 3).unwrap();
    assert_eq!(store.call(0, &[], Way::Waits), ended(2, 0, 1, Outcome::Returned(6)));
    assert_eq!(store.counts().ready, 2);
    assert_eq!(turn(&store), ended(0, 0, 2, Outcome::Returned(7)));
    let entry = Entered { number: 1, outcome: Outcome::Returned(6) };
    assert_eq!((store.outcome(Ticket(2)), store.outcome(Ticket(1))), (Ok(Some(entry)), Ok(None)));
    store.checkpoint();
    assert_eq!((store.outcome(Ticket(2)), store.standing(Ticket(2))), (Ok(None), Ok(Standing::Done(1))));
    let job = store.claim(Ticket(1)).unwrap();
    assert_eq!((job.ticket, job.chapter, job.task), (Ticket(1), 0, 1));
    assert_eq!((store.claim(Ticket(1)), store.take()), (Err(Error::NotReady), Err(Error::NotReady)));
    assert_eq!((store.standing(Ticket(1)), turn(&store)), (Ok(Standing::Running), Err(Error::NotReady)));
    assert_eq!(store.turn(job), ended(1, 0, 3, Outcome::Returned(8)));
    assert_eq!((store.turn(job), store.give_up(Ticket(1))), (Err(Error::NotRunning), Err(Error::Gone)));
}

#[test]
fn a_parked_task_is_given_up() {
    let file = "(tx t (retry) 0)(run t 1)";
    let store = Store::open_with_room(&Program::read(file).unwrap(), 0, 0, 1).unwrap();
    let turned = turn(&store).unwrap();
    assert_eq!((turned.end, store.standing(Ticket(0))), (End::Parked, Ok(Standing::Parked)));
    assert_eq!(store.claim(Ticket(0)), Err(Error::NotReady));
    assert_eq!((store.give_up(Ticket(0)), store.give_up(Ticket(0))), (Ok(()), Err(Error::Gone)));
    assert_eq!(store.standing(Ticket(0)), Ok(Standing::GivenUp));
    assert_eq!((store.call(0, &[], Way::Tries), store.spare()), (Err(Error::Retries), 1));
    let report = store.report_now().unwrap();
    assert_eq!(report, "base 0\nnow 0\nmemory 0 t\nend\n");
    assert_eq!(stm::check(file, &report), Ok(Verdict::Good));
    assert_eq!(store.call(0, &[], Way::Waits).map(|turned| turned.end), Ok(End::Parked));
}

#[test]
fn each_way_to_end_is_told() {
    let file = "(stm 2)(var x 1)(always one (eq x 1))(tx back (skip) 9)(tx user (throw -7) x)(tx high (skip) (add 9223372036854775807 x))(tx zero (skip) (div x 0))(tx two (set x 2) x)";
    let program = Program::read(file).unwrap();
    let ends = [
        Outcome::Returned(9),
        Outcome::Thrown(-7),
        Outcome::Overflow,
        Outcome::DivideByZero,
        Outcome::Broken(0),
    ];
    let store = Store::open_with_room(&program, 1, 1, 3 * ends.len()).unwrap();
    let mut worker = store.worker().unwrap();
    let mut number = 0;
    for (transaction, outcome) in (0..).zip(ends) {
        let mut entered = || {
            number += 1;
            Entered { number, outcome }
        };
        let mut is_entered = |told: Result<Answer, Error>| {
            assert_eq!(told.map(|told| (told.chapter, told.end)), Ok((0, End::Entered(entered()))))
        };
        is_entered(store.call(transaction, &[], Way::Waits));
        let ticket = store.submit(transaction, &[]).unwrap();
        assert_eq!(worker.try_job(store.claim(ticket).unwrap()), Ok(()));
        is_entered(store.bring(&mut worker));
        is_entered(store.call(transaction, &[], Way::Tries));
    }
    assert_eq!(store.entered(), number);
}

#[test]
fn a_task_waits_across_chapters() {
    let program = Program::read(
        "(var n 0)(tx get (if (lt n 3) (retry) (set n 0)) n)(tx put (set n (add n 1)) n)(run get 1)(run put 1)",
    )
    .unwrap();
    let store = Store::open_with_room(&program, 1, 0, 0).unwrap();
    let mut worker = store.worker().unwrap();
    assert_eq!(turn(&store), Ok(Answer { ticket: Ticket(0), chapter: 0, end: End::Parked }));
    let job = store.take().unwrap();
    assert_eq!(worker.try_job(job), Ok(()));
    store.begin_chapter();
    assert_eq!((store.bring(&mut worker), store.turn(job)), (Err(Error::Gone), Err(Error::Gone)));
    assert_eq!((store.chapter(), store.standing(Ticket(1))), (1, Ok(Standing::Ready)));
    assert_eq!(worker.try_job(store.take().unwrap()), Ok(()));
    assert_eq!(store.bring(&mut worker), ended(1, 1, 1, Outcome::Returned(1)));
    assert_eq!(turn(&store), Ok(Answer { ticket: Ticket(0), chapter: 1, end: End::Parked }));
    store.begin_chapter();
    assert_eq!((store.standing(Ticket(1)), store.claim(Ticket(1))), (Err(Error::Gone), Err(Error::Gone)));
    assert_eq!((store.outcome(Ticket(1)), store.give_up(Ticket(1))), (Err(Error::Gone), Err(Error::Gone)));
    assert_eq!(store.call(1, &[], Way::Waits), ended(2, 2, 1, Outcome::Returned(2)));
    assert_eq!(store.call(1, &[], Way::Waits), Err(Error::NoRoom));
    store.begin_chapter();
    assert_eq!(store.call(1, &[], Way::Tries), ended(3, 3, 1, Outcome::Returned(3)));
    assert_eq!(turn(&store), ended(0, 3, 2, Outcome::Returned(0)));
    assert_eq!((store.chapter(), store.entered()), (3, 4));
    let (report, file) = store.report_and_file().unwrap();
    assert_eq!(stm::check(&file, &report), Ok(Verdict::Good));
}

#[test]
fn a_program_without_transactions_has_no_calls() {
    let store = Store::open_with_room(&Program::read("(var x 1)").unwrap(), 0, 0, 1).unwrap();
    let unknown = Err(Error::UnknownTransaction(0));
    assert_eq!((store.call(0, &[], Way::Waits), store.call(0, &[], Way::Tries)), (unknown.clone(), unknown));
    assert_eq!((store.take(), store.turns(9)), (Err(Error::NotReady), 0));
    let other = Store::open(&Program::read("(tx t (skip) 0)(run t 1)").unwrap(), 0, 0).unwrap();
    assert_eq!(store.turn(other.take().unwrap()), Err(Error::Gone));
}

#[test]
fn threads_call_one_store() {
    let program = Program::read("(var x 0)(tx inc (set x (add x 1)) x)").unwrap();
    let store = Store::open_with_room(&program, 0, 0, 100).unwrap();
    let call = || loop {
        match store.call(0, &[], Way::Waits).map(|turned| turned.end) {
            Ok(End::Entered(Entered { outcome: Outcome::Returned(value), .. })) => return value,
            Err(Error::NoRoom) => store.begin_chapter(),
            other => panic!("an increment answers {other:?}"),
        }
    };
    let calls = || (0..1000).map(|_| call()).collect::<Vec<i64>>();
    let answers: Vec<i64> = std::thread::scope(|scope| {
        let crew: Vec<_> = (0..4).map(|_| scope.spawn(calls)).collect();
        crew.into_iter().flat_map(|one| one.join().unwrap()).collect()
    });
    let mut sorted = answers;
    sorted.sort_unstable();
    assert_eq!(sorted, (1..=4000).collect::<Vec<_>>());
    assert_eq!(store.entered(), 4000);
    // Two threads may find no room at once, and then two chapters begin.
    assert!(store.chapter() >= 39);
}
