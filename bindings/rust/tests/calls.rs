//! Each call once where it does what it is for, and at its limits.

use stm::{
    Answer, Arguments, Counts, Declare, End, Entered, Error, FileFault, Job, Outcome, Part, Program,
    RunOptions, Store, Ticket, Verdict,
};

const FILE: &str = "(var x 5)\n(tx inc (set x (add x 1)) x)\n(tx wait (if (lt x 100) (retry) (skip)) x)\n(run inc 2)\n(run wait 1)\n";

/// What becomes of a task of the first chapter.
fn is(ticket: u64, end: End) -> Result<Answer, Error> {
    Ok(Answer { ticket: Ticket(ticket), chapter: 0, end })
}

fn returned(ticket: u64, number: u64, value: i64) -> Result<Answer, Error> {
    is(ticket, End::Entered(Entered { number, outcome: Outcome::Returned(value) }))
}

/// Why a file is refused.
fn fault(error: Error) -> FileFault {
    match error {
        Error::Refused { fault, .. } => fault,
        other => panic!("{other}"),
    }
}

#[test]
fn whole_files() {
    let report = stm::run_one(FILE, 0).unwrap();
    assert_eq!(report, "base 0\nx 5 0\nentry 1 0 inc returned 6\nentry 2 1 inc returned 7\nnow 2\nx 7 2\nparked 2 wait\nend\n");
    assert_eq!(stm::check(FILE, &report), Ok(Verdict::Good));
    assert_eq!(stm::check(FILE, &report.replace("x 7 2", "x 8 2")), Ok(Verdict::Bad(Part::Present)));
    assert_eq!(stm::check("(", &report).map_err(fault), Err(FileFault::Shape));
    assert_eq!(stm::run_one("(var x 1)(var x 2)", 0).map_err(fault), Err(FileFault::Name));
    let broken = stm::run_one("(stm 2)(var x 1)(always low (lt x 1))", 0);
    assert_eq!(broken.map_err(fault), Err(FileFault::Broken));
    assert!(stm::world(FILE, "begin 0\n").is_ok());
    assert!(matches!(stm::world(FILE, "nothing\n"), Err(Error::Schedule(_))));
}

#[test]
fn every_order() {
    let found = stm::explore(FILE, 1000).unwrap();
    assert_eq!(found, "states 3\ntx inc returned\ntx wait parks\nends 1\n1 x 7 parked wait 1\nend\n");
    let report = stm::explore_to(FILE, 1000, 1).unwrap();
    assert_eq!(stm::check(FILE, &report), Ok(Verdict::Good));
    assert_eq!(report, stm::run_one(FILE, 0).unwrap());
    assert_eq!(stm::explore(FILE, 2), Err(Error::MoreStates));
    assert_eq!(stm::explore_to(FILE, 2, 1), Err(Error::MoreStates));
    assert_eq!(
        (stm::explore_to(FILE, 3, 0), stm::explore_to(FILE, 3, 2)),
        (Err(Error::NoEnd), Err(Error::NoEnd))
    );
    assert_eq!(
        (stm::explore(FILE, 0), stm::explore(FILE, 16_777_217)),
        (Err(Error::States), Err(Error::States))
    );
    assert_eq!(stm::explore("(", 10).map_err(fault), Err(FileFault::Shape));
}

#[test]
fn a_store_turn_by_turn() {
    let program = Program::read(FILE).unwrap();
    assert_eq!((program.tasks(), program.variable("x"), program.variable("y")), (3, Some(0), None));
    let (inc, wait) = (program.transaction("inc").unwrap(), program.transaction("wait").unwrap());
    let store = Store::open(&program, 2, 0).unwrap();
    let mut worker = store.worker().unwrap();
    let mut other = store.worker().unwrap();
    assert!(matches!(store.worker(), Err(Error::NoWorker)));
    assert_eq!(store.bring(&mut worker), Err(Error::NotEnded));
    assert_eq!(worker.observe(2, &[]), Err(Error::UnknownTransaction(2)));

    let (first, second) = (store.take().unwrap(), store.take().unwrap());
    assert_eq!((first.ticket, second.ticket), (Ticket(0), Ticket(1)));
    assert_eq!((worker.try_job(first), other.try_job(second)), (Ok(()), Ok(())));
    assert_eq!(store.bring(&mut worker), returned(0, 1, 6));
    assert_eq!(store.bring(&mut other), Err(Error::Stale));
    assert_eq!(store.turn(second), returned(1, 2, 7));
    assert_eq!(store.turn(second), Err(Error::NotRunning));
    assert_eq!(store.turn(Job { ticket: Ticket(3), ..second }), Err(Error::Gone));
    assert_eq!(other.observe(inc, &[]), Ok(Outcome::Returned(8)));
    assert_eq!(other.observe(wait, &[]), Err(Error::Retries));

    let waits = store.take().unwrap();
    assert_eq!((waits.ticket, worker.try_job(waits)), (Ticket(2), Ok(())));
    assert_eq!(store.bring(&mut worker), is(2, End::Parked));
    assert_eq!(store.take(), Err(Error::NotReady));
    assert_eq!(store.claim(Ticket(2)), Err(Error::NotReady));
    assert_eq!(store.give_up(Ticket(3)), Err(Error::Gone));
    store.checkpoint();
    let report = store.report().unwrap();
    assert_eq!(report, "base 2\nx 7 2\nnow 2\nx 7 2\nparked 2 wait\nend\n");
    assert_eq!(stm::check(FILE, &report), Ok(Verdict::Good));
    drop(store);
    assert_eq!(other.observe(inc, &[]), Ok(Outcome::Returned(8)));
}

#[test]
fn what_is_given_up_is_reported() {
    let program = Program::read(FILE).unwrap();
    let store = Store::open(&program, 0, 0).unwrap();
    let job = store.take().unwrap();
    assert_eq!((store.give_up(Ticket(0)), store.give_up(Ticket(0))), (Ok(()), Err(Error::Gone)));
    assert_eq!((job.ticket, store.turn(job)), (Ticket(0), Err(Error::NotRunning)));
    let report = store.report().unwrap();
    assert!(report.ends_with("memory 0 inc\nend\n"));
    assert_eq!(stm::check(FILE, &report), Ok(Verdict::Good));
    assert!(matches!(Store::open(&program, 33, 0), Err(Error::TooManyWorkers)));
}

#[test]
fn what_an_observer_sees_of_faults() {
    let file = "(stm 2)(var x 1)(always one (eq x 1))(tx user (throw 7) x)(tx high (skip) (add 9223372036854775807 x))(tx zero (skip) (div x 0))(tx two (set x 2) x)(run user 1)";
    let program = Program::read(file).unwrap();
    let store = Store::open(&program, 1, 0).unwrap();
    let mut worker = store.worker().unwrap();
    assert_eq!(worker.observe(0, &[]), Ok(Outcome::Thrown(7)));
    assert_eq!(worker.observe(1, &[]), Ok(Outcome::Overflow));
    assert_eq!(worker.observe(2, &[]), Ok(Outcome::DivideByZero));
    assert_eq!(worker.observe(3, &[]), Ok(Outcome::Broken(0)));
}

#[test]
fn threads_share_a_store() {
    let file = "(var x 5)\n(tx inc (set x (add x 1)) x)\n(run inc 20000)\n";
    for workers in [0, 1, 2, 4, 8] {
        for checkpoint in [0, 7] {
            let program = Program::read(file).unwrap();
            let report = stm::run_with(&program, workers, RunOptions { tries: 8, checkpoint }).unwrap();
            assert_eq!(stm::present(&report, "x"), Some(20005));
            assert_eq!(stm::check(file, &report), Ok(Verdict::Good));
        }
    }
}

#[test]
fn an_observer_sees_one_state() {
    let program =
        Program::read("(var x 0)\n(tx inc (set x (add x 1)) x)\n(tx get (skip) x)\n(run inc 20000)\n")
            .unwrap();
    let get = program.transaction("get").unwrap();
    let store = Store::open(&program, 2, 0).unwrap();
    let (mut worker, mut watcher) = (store.worker().unwrap(), store.worker().unwrap());
    std::thread::scope(|scope| {
        let store = &store;
        scope.spawn(move || {
            while let Ok(job) = store.take() {
                assert_eq!(worker.try_job(job), Ok(()));
                assert!(matches!(store.bring(&mut worker), Ok(Answer { end: End::Entered(_), .. })));
            }
        });
        let mut last = 0;
        for _ in 0..10_000 {
            match watcher.observe(get, &[]) {
                Ok(Outcome::Returned(value)) => {
                    assert!(value >= last);
                    last = value;
                }
                other => assert_eq!(other, Err(Error::Stale)),
            }
        }
    });
    assert_eq!(watcher.observe(get, &[]), Ok(Outcome::Returned(20000)));
}

#[test]
fn a_worker_of_another_program_is_refused() {
    let same = Program::read(FILE).unwrap();
    let other = Program::read(&FILE.replace("(add x 1)", "(add x 2)")).unwrap();
    let program = Program::read(FILE).unwrap();
    let store = Store::open(&program, 1, 0).unwrap();
    let job = store.take().unwrap();
    let second = Store::open(&other, 1, 0).unwrap();
    let mut worker = second.worker().unwrap();
    assert_eq!(worker.try_job(job), Ok(()));
    assert_eq!(store.bring(&mut worker), Err(Error::OtherProgram));
    assert_eq!(store.bring(&mut worker), Err(Error::NotEnded));
    // One that says the same is as good as the store's own.
    let third = Store::open(&same, 1, 0).unwrap();
    let mut worker = third.worker().unwrap();
    assert_eq!(worker.try_job(job), Ok(()));
    assert_eq!(store.bring(&mut worker), returned(0, 1, 6));
}

#[test]
fn a_program_without_tasks_is_observed() {
    let mut declare = Declare::new();
    let x = declare.var("x", 3);
    declare.tx("get", stm::skip(), &x);
    let program = declare.program().unwrap();
    let store = Store::open(&program, 1, 0).unwrap();
    assert_eq!(store.worker().unwrap().observe(0, &[]), Ok(Outcome::Returned(3)));
    assert_eq!(store.take(), Err(Error::NotReady));
    assert!(matches!(Declare::new().program().map(|p| p.tasks()), Ok(0)));
    assert!(stm::run(&Declare::new().program().unwrap(), 2).is_ok());
}

const WAITING: &str = "(var full 0)\n(tx get (if (eq full 0) (retry) (set full 0)) full)\n(tx put (set full 1) full)\n(run get 1)\n";

#[test]
fn tasks_are_submitted_while_all_wait() {
    let program = Program::read(WAITING).unwrap();
    let store = Store::open_with_room(&program, 1, 0, 2).unwrap();
    let mut worker = store.worker().unwrap();
    assert!(matches!(Store::open_with_room(&program, 1, 0, 65536), Err(Error::NoRoom)));
    let get = store.take().unwrap();
    let arguments = Arguments::default();
    assert_eq!(get, Job { ticket: Ticket(0), chapter: 0, task: 0, transaction: 0, arguments });
    assert_eq!(store.report_now(), Err(Error::WorkLeft));
    assert_eq!(worker.try_job(get), Ok(()));
    assert_eq!(store.bring(&mut worker), is(0, End::Parked));
    assert!(store.report_now().unwrap().ends_with("parked 0 get\nend\n"));

    let put = program.transaction("put").unwrap();
    assert_eq!(store.submit(2, &[]), Err(Error::UnknownTransaction(2)));
    assert_eq!((store.submit(put, &[]), store.submit(put, &[])), (Ok(Ticket(1)), Ok(Ticket(2))));
    assert_eq!((store.submit(put, &[]), store.spare(), store.tasks()), (Err(Error::NoRoom), 0, 3));
    let job = store.take().unwrap();
    assert_eq!(worker.try_job(Job { transaction: 0, ..job }), Ok(()));
    assert_eq!(store.bring(&mut worker), Err(Error::Gone));
    assert_eq!(worker.try_job(Job { transaction: 2, ..job }), Err(Error::UnknownTransaction(2)));
    assert_eq!(worker.try_job(job), Ok(()));
    assert_eq!(store.bring(&mut worker), returned(1, 1, 1));
    assert_eq!((store.value("full"), store.value("empty")), (Some((1, 1)), None));
    assert_eq!(store.counts(), Counts { ready: 2, done: 1, ..Counts::default() });
    let (report, file) = store.report_and_file().unwrap();
    assert!(file.ends_with("(run get 1)\n(run put 1)\n(run put 1)\n"));
    assert_eq!(stm::check(&file, &report), Ok(Verdict::Good));
    assert_eq!(store.report_now(), Ok(report));
}

#[test]
fn tasks_are_submitted_while_threads_run() {
    let program = Program::read("(var x 0)\n(tx inc (set x (add x 1)) x)\n").unwrap();
    let store = Store::open_with_room(&program, 2, 0, 2000).unwrap();
    let crew = [store.worker().unwrap(), store.worker().unwrap()];
    std::thread::scope(|scope| {
        let store = &store;
        for mut worker in crew {
            scope.spawn(move || {
                while store.counts().done < 2000 {
                    let Ok(job) = store.take() else {
                        std::thread::yield_now();
                        continue;
                    };
                    while worker.try_job(job).is_err() || store.bring(&mut worker).is_err() {}
                }
            });
        }
        for task in 0..2000 {
            assert_eq!(store.submit(0, &[]), Ok(Ticket(task)));
        }
    });
    let (report, file) = store.report_and_file().unwrap();
    assert_eq!(stm::present(&report, "x"), Some(2000));
    assert_eq!(stm::check(&file, &report), Ok(Verdict::Good));
}
