//! Memory of the test's own behind the library: what is let go gives its blocks back, and running out of memory is told.
//!
//! It has one test, since what it counts is the whole process's.

use std::ffi::c_void;
use std::sync::atomic::{AtomicI64, Ordering};
use stm::{
    run_with, Answer, End, Entered, Error, Fault, Outcome, Program, RunOptions, Service, ServiceOptions,
    Store, Ticket, Verdict, Way,
};

#[repr(C)]
pub struct Block {
    got: bool,
    at: *mut c_void,
}

extern "C" {
    fn malloc(size: usize) -> *mut c_void;
    fn realloc(old: *mut c_void, size: usize) -> *mut c_void;
    fn free(old: *mut c_void);
}

static BLOCKS: AtomicI64 = AtomicI64::new(0);
static REQUESTS: AtomicI64 = AtomicI64::new(0);
static REFUSED: AtomicI64 = AtomicI64::new(0);

/// In place of a number: each request is refused.
const EACH: i64 = -1;

fn is_refused() -> bool {
    let (number, refused) = (REQUESTS.fetch_add(1, Ordering::SeqCst) + 1, REFUSED.load(Ordering::SeqCst));
    number == refused || refused == EACH
}

fn told(at: *mut c_void) -> Block {
    let got = !at.is_null();
    Block { got, at: if got { at } else { std::ptr::NonNull::dangling().as_ptr() } }
}

#[no_mangle]
pub extern "C" fn rattle_alloc(size: usize, align: usize) -> Block {
    if is_refused() {
        return told(std::ptr::null_mut());
    }
    BLOCKS.fetch_add(1, Ordering::SeqCst);
    // SAFETY: it may be called with any size.
    told(unsafe { malloc(if size == 0 { align } else { size }) })
}

/// # Safety
/// The library calls it with a block that `rattle_alloc` or it gave.
#[no_mangle]
pub unsafe extern "C" fn rattle_realloc(
    old: *mut c_void,
    _old_size: usize,
    size: usize,
    align: usize,
) -> Block {
    if is_refused() {
        return told(std::ptr::null_mut());
    }
    // SAFETY: as said above.
    told(unsafe { realloc(old, if size == 0 { align } else { size }) })
}

/// # Safety
/// As for `rattle_realloc`.
#[no_mangle]
pub unsafe extern "C" fn rattle_dealloc(old: *mut c_void) {
    BLOCKS.fetch_sub(1, Ordering::SeqCst);
    // SAFETY: as said above.
    unsafe { free(old) }
}

fn blocks() -> i64 {
    BLOCKS.load(Ordering::SeqCst)
}

/// How many requests this makes, where the one of this number is refused, or `EACH`; 0: none.
fn refusing(number: i64, work: impl FnOnce()) -> i64 {
    REQUESTS.store(0, Ordering::SeqCst);
    REFUSED.store(number, Ordering::SeqCst);
    work();
    REFUSED.store(0, Ordering::SeqCst);
    REQUESTS.load(Ordering::SeqCst)
}

/// Its attempts take memory: a first branch is left, and what it wrote. So does its first turn, which writes often.
const FILE: &str =
    "(var x 0)\n(tx t (orelse (seq (repeat 99 (set x 9)) (retry)) (set x (add x 1))) x)\n(run t 3)\n";

#[test]
fn memory() {
    what_is_let_go();
    texts_leave_nothing();
    reads_are_refused();
    explanations_are_refused();
    let program = Program::read(FILE).unwrap();
    calls_are_refused(&program);
    runs_are_refused(&program);
    services_are_let_go();
    services_are_refused();
}

/// What is let go gives back what it alone had.
fn what_is_let_go() {
    let program = Program::read(FILE).unwrap();
    let store = Store::open(&program, 1, 0).unwrap();
    let worker = store.worker().unwrap();
    let all = blocks();
    drop(worker);
    let without_worker = blocks();
    assert!(without_worker < all, "a worker is let go");
    drop(store);
    assert!(blocks() < without_worker, "a store is let go");
}

/// Texts and refused files leave nothing.
fn texts_leave_nothing() {
    let before = blocks();
    assert!(
        stm::run_one(FILE, 0).is_ok()
            && stm::explore(FILE, 100).is_ok()
            && stm::world(FILE, "begin 0\n").is_ok()
    );
    assert!(matches!(Program::read("(var x"), Err(Error::Refused { line: 1, column: 7, .. })));
    assert_eq!(blocks(), before);
}

/// Each request of a read is refused in turn, and it says so.
fn reads_are_refused() {
    let all = refusing(0, || assert!(Program::read(FILE).is_ok()));
    // What is refused in a first reading is read again, so that not each refusal is told.
    let mut told = 0;
    for number in 1..=all {
        refusing(number, || match Program::read(FILE) {
            Ok(_) => {}
            Err(error) => {
                assert_eq!(error, Error::Memory, "request {number}");
                told += 1;
            }
        });
    }
    assert!(told > 0, "{told} reads of {all} were refused");
}

/// Each request is refused in turn of a read that is refused: it says why and where, or that memory ran out, and leaves
/// nothing.
fn explanations_are_refused() {
    let read = || Program::read("(var x").map(|_| ());
    let whole = read();
    let all = refusing(0, || assert_eq!(read(), whole));
    let mut told = 0;
    for number in 1..=all {
        let left = left_of(|| {
            refusing(number, || match read() {
                Err(Error::Memory) => told += 1,
                other => assert_eq!(other, whole, "request {number}"),
            });
        });
        assert_eq!(left, 0, "request {number}");
    }
    assert!(told > 0, "{told} reads of {all} were refused memory");
}

/// A request of each call is refused: the call says so, or a task is given up.
fn calls_are_refused(program: &Program) {
    let store = Store::open(program, 2, 0).unwrap();
    let (mut worker, mut watcher) = (store.worker().unwrap(), store.worker().unwrap());
    let (first, second) = (store.take().unwrap(), store.take().unwrap());
    let is = |ticket, end| Ok(Answer { ticket: Ticket(ticket), chapter: 0, end });
    refusing(1, || assert_eq!(worker.try_job(first), Err(Error::Memory)));
    refusing(1, || assert_eq!(watcher.observe(0, &[]), Err(Error::Memory)));
    refusing(EACH, || assert_eq!(store.turn(second), is(1, End::Abandoned)));
    refusing(1, || assert_eq!(store.file(), Err(Error::Memory)));
    let done = End::Entered(Entered { number: 1, outcome: Outcome::Returned(1) });
    assert_eq!((store.counts().given_up, store.turn(first)), (1, is(0, done)));
    // What is lent has the memory of the turns before, and wants no more.
    let done = End::Entered(Entered { number: 2, outcome: Outcome::Returned(2) });
    assert_eq!(refusing(1, || assert_eq!(store.turn(store.take().unwrap()), is(2, done))), 0);
    let taken = refusing(0, || {
        store.begin_chapter();
        assert_eq!((store.standing(Ticket(0)), store.entered()), (Err(Error::Gone), 2));
    });
    assert_eq!(taken, 0, "a chapter begins in no memory");
    for way in [Way::Waits, Way::Tries] {
        let store = Store::open_with_room(program, 0, 0, 1).unwrap();
        refusing(EACH, || assert_eq!(store.call(0, &[], way), is(3, End::Abandoned)));
    }
}

/// Each request of a run is refused in turn: it says so, or its report is good and tasks are given up.
fn runs_are_refused(program: &Program) {
    let run = || run_with(program, 1, RunOptions::default());
    let all = refusing(0, || assert!(run().is_ok()));
    let (mut refused, mut given_up) = (0, 0);
    for number in 1..=all {
        refusing(number, || match run() {
            Ok(report) => {
                REFUSED.store(0, Ordering::SeqCst);
                assert_eq!(stm::check(FILE, &report), Ok(Verdict::Good));
                given_up += report.lines().filter(|line| line.starts_with("memory ")).count();
            }
            Err(error) => {
                assert_eq!(error, Error::Memory);
                refused += 1;
            }
        });
    }
    assert!(refused > 0 && given_up > 0, "{refused} runs were refused, {given_up} tasks given up");
}

/// A service with room for some calls, whose chapters are told.
fn service() -> Result<Service, Error> {
    Service::open_with(FILE, ServiceOptions::new().room(10).on_chapter(|_, _| Ok::<(), Error>(())))
}

/// How many blocks stay of it.
fn left_of(work: impl FnOnce()) -> i64 {
    let before = blocks();
    work();
    blocks() - before
}

/// A service gives back all but what its file says, whether it could be opened or not.
fn services_are_let_go() {
    let of_a_program = left_of(|| drop(Program::read(FILE).unwrap()));
    let of_a_service = left_of(|| {
        let service = service().unwrap();
        (0..50).for_each(|_| assert!(service.atomically(0, &[]).is_ok()));
        assert!(service.observe(0, &[]).is_ok() && service.chapter() > 3 && service.file().is_ok());
    });
    assert_eq!(of_a_service, of_a_program);
    let all = refusing(0, || drop(service().unwrap()));
    let mut told = 0;
    for number in 1..=all {
        let left = left_of(|| {
            refusing(number, || match service() {
                Ok(_) => {}
                Err(error) => {
                    assert_eq!(error, Error::Memory, "request {number}");
                    told += 1;
                }
            });
        });
        assert!(left <= of_a_program, "request {number}");
    }
    assert!(told > 0, "{told} openings of {all} were refused");
}

/// A call of a service is refused memory: it says so, and was not entered.
fn services_are_refused() {
    let service = Service::open(FILE.trim_end().trim_end_matches("(run t 3)")).unwrap();
    refusing(EACH, || assert_eq!(service.atomically(0, &[]), Err(Fault::Memory)));
    refusing(1, || assert_eq!(service.observe(0, &[]), Err(Fault::Memory)));
    refusing(1, || assert_eq!(service.file(), Err(Error::Memory)));
    assert_eq!((service.value("x"), service.entered()), (Some((0, 0)), 0));
    assert_eq!((service.atomically(0, &[]), service.observe(0, &[])), (Ok(1), Ok(2)));
}
