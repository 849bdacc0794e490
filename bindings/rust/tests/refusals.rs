//! Each reason why a call answers nothing, each verdict, and what becomes of a task.

use stm::{
    Answer, Declare, End, Entered, Error, FileFault, Job, Outcome, Part, Program, ScheduleFault, Service,
    Store, Ticket, Verdict, Way, Worker,
};

fn read(text: &str) -> Result<(), Error> {
    Program::read(text).map(|_| ())
}

/// Each call that reads the text tells this fault at this place, in the same words.
fn is_refused(text: &str, wanted: FileFault, place: (usize, usize)) -> String {
    let Err(Error::Refused { fault, line, column, text: words }) = stm::explain(text) else {
        panic!("it is refused: {text:.40}")
    };
    assert_eq!((fault, (line, column)), (wanted, place), "{text:.40}");
    assert!(words.starts_with(&format!("line {line}, column {column}: ")) && !words.ends_with('\n'));
    let told = Err(Error::Refused { fault, line, column, text: words.clone() });
    assert_eq!(read(text), told);
    assert_eq!(Service::open(text).map(|_| ()), told);
    assert_eq!(stm::run_one(text, 0).map(|_| ()), told);
    assert_eq!(stm::check(text, "").map(|_| ()), told);
    assert_eq!(stm::world(text, "").map(|_| ()), told);
    assert_eq!(stm::explore(text, 9).map(|_| ()), told);
    assert_eq!(stm::explore_to(text, 9, 1).map(|_| ()), told);
    words
}

#[test]
fn files() {
    is_refused(&" ".repeat(1_048_577), FileFault::TooLong, (1, 1_048_577));
    is_refused("(var x 1)\u{7f}", FileFault::BadByte, (1, 10));
    // Columns are in bytes.
    is_refused("; one\n; \u{e9}", FileFault::BadByte, (2, 3));
    is_refused("(var x", FileFault::Shape, (1, 7));
    is_refused("\n(tx t (skip)\n  x)", FileFault::Name, (3, 3));
    is_refused("(tx t (repeat 1001 (skip)) 0)", FileFault::Limit, (1, 15));
    is_refused("(stm 2)(var x 1)(always low (lt x 1))", FileFault::Broken, (1, 25));
    let words = is_refused("(var x 1)\n(tx t (set x (plus x 1)) x)", FileFault::Shape, (2, 15));
    assert!(words.starts_with("line 2, column 15: F3 Shape: ") && words.ends_with("here stands plus"));
    assert_eq!((read(""), stm::explain("")), (Ok(()), Ok(())));
}

/// What is told of a declared program is told of the text that it spells.
#[test]
fn declared_programs() {
    let mut declare = Declare::new();
    declare.var("x", 1);
    declare.var("x", 2);
    let text = declare.text().unwrap();
    is_refused(&text, FileFault::Name, (3, 6));
    let told = stm::explain(&text);
    assert_eq!(text.lines().nth(2), Some("(var x 2)"));
    assert_eq!((declare.program().map(|_| ()), declare.service().map(|_| ())), (told.clone(), told));
}

#[test]
fn schedules() {
    let file = "(var x 1)(tx t (set x 2) x)(run t 1)";
    let refused = |schedule: &str, fault| {
        assert_eq!(stm::world(file, schedule), Err(Error::Schedule(fault)), "{schedule:.20}")
    };
    refused(&"word\n".repeat(209_716), ScheduleFault::TooLong);
    refused("begin \u{7f}\n", ScheduleFault::BadByte);
    refused("commit\n", ScheduleFault::Shape);
    refused("begin 0\nread 0 y\n", ScheduleFault::Name);
    refused("begin 1\n", ScheduleFault::Limit);
    assert_eq!(stm::world("(var x", "commit\n"), stm::explain("(var x").map(|()| String::new()));
    assert!(stm::world(file, "begin 0\n").is_ok());
}

#[test]
fn verdicts() {
    let file = "(var x 5)(tx inc (set x (add x 1)) x)(tx wait (retry) x)(run inc 1)(run wait 1)";
    let good = "base 0\nx 5 0\nentry 1 0 inc returned 6\nnow 1\nx 6 1\nparked 1 wait\nend\n";
    assert_eq!(stm::run_one(file, 0).as_deref(), Ok(good));
    let judged = |old: &str, new: &str| stm::check(file, &good.replace(old, new)).unwrap();
    assert_eq!(judged("", ""), Verdict::Good);
    assert_eq!(judged("end\n", "end"), Verdict::Bad(Part::Text));
    assert_eq!(judged("base 0\nx 5 0", "base 0\nx 4 0"), Verdict::Bad(Part::Base));
    assert_eq!(judged("returned 6", "returned 7"), Verdict::Bad(Part::Entries));
    assert_eq!(judged("x 6 1", "x 7 1"), Verdict::Bad(Part::Present));
    assert_eq!(judged("parked 1 wait\n", ""), Verdict::Bad(Part::Tasks));
    let two = "(var x 5)(tx inc (set x (add x 1)) x)(tx wait (if (eq x 5) (retry) (skip)) x)(run inc 1)(run wait 1)";
    assert_eq!(stm::check(two, good), Ok(Verdict::Bad(Part::Parked)));
}

#[test]
fn stores() {
    let program =
        Program::read("(var x 1)(tx t (set x (add x 1)) x)(tx wait (retry) x)(run t 3)(run wait 1)").unwrap();
    assert!(matches!(Store::open(&program, 33, 0), Err(Error::TooManyWorkers)));
    assert!(matches!(Store::open_with_room(&program, 1, 0, 65_533), Err(Error::NoRoom)));
    assert!(Store::open_with_room(&program, 32, 0, 65_532).is_ok());
    let store = Store::open_with_room(&program, 1, 0, 1).unwrap();
    let mut worker = store.worker().unwrap();
    assert!(matches!(store.worker(), Err(Error::NoWorker)));
    assert_eq!(
        (store.submit(2, &[]), store.submit(0, &[]), store.submit(0, &[])),
        (Err(Error::UnknownTransaction(2)), Ok(Ticket(4)), Err(Error::NoRoom))
    );
    assert_eq!(store.report_now(), Err(Error::WorkLeft));
    for ticket in [Ticket(9), Ticket(u64::MAX)] {
        assert_eq!((store.claim(ticket), store.give_up(ticket)), (Err(Error::Gone), Err(Error::Gone)));
        assert_eq!((store.standing(ticket), store.outcome(ticket)), (Err(Error::Gone), Err(Error::Gone)));
    }
    assert_eq!(worker.observe(2, &[]), Err(Error::UnknownTransaction(2)));
    for way in [Way::Waits, Way::Tries] {
        assert_eq!(store.call(2, &[], way), Err(Error::UnknownTransaction(2)));
        assert_eq!(store.call(0, &[], way), Err(Error::NoRoom));
    }
    jobs(store, worker);
}

/// Strange jobs, tasks that are not running, and what becomes of three tasks and of one that waits.
fn jobs(store: Store, mut worker: Worker) {
    let job = store.take().unwrap();
    let stranger = Job { ticket: Ticket(u64::MAX), ..job };
    assert_eq!((worker.try_job(stranger), store.turn(stranger)), (Err(Error::Gone), Err(Error::Gone)));
    for strange in [
        Job { task: 65_536, ..job },
        Job { task: 1, ..job },
        Job { ticket: Ticket(1), ..job },
        Job { chapter: 1, ..job },
    ] {
        assert_eq!(worker.try_job(strange), Ok(()));
        assert_eq!((store.bring(&mut worker), store.turn(strange)), (Err(Error::Gone), Err(Error::Gone)));
    }
    // A job of a ready task is no job that was taken.
    let ready = Job { ticket: Ticket(1), task: 1, ..job };
    assert_eq!((store.turn(ready), worker.try_job(ready)), (Err(Error::NotRunning), Ok(())));
    assert_eq!(store.bring(&mut worker), Err(Error::NotRunning));
    assert_eq!((worker.try_job(job), store.give_up(Ticket(0))), (Ok(()), Ok(())));
    assert_eq!(store.bring(&mut worker), Err(Error::NotRunning));
    assert_eq!(store.bring(&mut worker), Err(Error::NotEnded));

    let (job, next) = (store.take().unwrap(), store.claim(Ticket(2)).unwrap());
    assert_eq!(worker.try_job(job), Ok(()));
    let is = |ticket, end| Ok(Answer { ticket: Ticket(ticket), chapter: 0, end });
    let done = |ticket, number, value| {
        is(ticket, End::Entered(Entered { number, outcome: Outcome::Returned(value) }))
    };
    assert_eq!(store.turn(next), done(2, 1, 2));
    assert_eq!(store.bring(&mut worker), Err(Error::Stale));
    assert_eq!(store.turn(job), done(1, 2, 3));
    assert_eq!(store.turn(store.take().unwrap()), is(3, End::Parked));
    let counts = store.counts();
    assert_eq!((counts.ready, counts.running, counts.parked, counts.done, counts.given_up), (1, 0, 1, 2, 1));
    assert_eq!(counts.ready + store.spare(), 1);
}
