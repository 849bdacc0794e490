//! Calls from any thread, their answers, and the chapters that they leave.

use std::panic::panic_any;
use std::sync::atomic::{AtomicBool, AtomicU32, Ordering};
use std::sync::{Arc, Mutex, Weak};
use std::time::{Duration, Instant};
use stm::{check, Error, Fault, NotKept, Service, ServiceOptions, Verdict};

const TEXT: &str = "(stm 2) (var n 0) (var out 0) (var most 9223372036854775807)
    (always low (le out 2))
    (tx inc (set n (add n 1)) n)
    (tx put (if (le 2 out) (retry) (set out (add out 1))) out)
    (tx get (if (eq out 0) (retry) (set out (sub out 1))) out)
    (tx bad (throw -7) 0)
    (tx big (set most (add most 1)) 0)
    (tx cut (set n (div n 0)) 0)
    (tx over (set out 3) 0)
    (tx wait (if (lt n 10) (retry) (skip)) n)";

const MOMENT: Duration = Duration::from_millis(5);
const LONG: Duration = Duration::from_secs(60);

fn number(service: &Service, name: &str) -> u32 {
    service.transaction(name).expect("it is declared")
}

/// The service, and the files and reports of the chapters that it ended.
type Pairs = Arc<Mutex<Vec<(String, String)>>>;

fn kept(text: &str, options: ServiceOptions) -> (Service, Pairs) {
    let pairs = Pairs::default();
    let own = pairs.clone();
    let options = options.on_chapter(move |file, report| {
        own.lock().unwrap().push((file.to_string(), report.to_string()));
        Ok::<(), Error>(())
    });
    (Service::open_with(text, options).unwrap(), pairs)
}

/// How many entries the chapters and the present one have, each with a good report.
fn entries(service: &Service, pairs: &Pairs) -> u64 {
    let mut pairs = pairs.lock().unwrap().clone();
    pairs.push((service.file().unwrap(), service.report().unwrap()));
    let mut entries = 0;
    for (file, report) in &pairs {
        assert_eq!(check(file, report), Ok(Verdict::Good));
        entries += report.lines().filter(|line| line.starts_with("entry ")).count() as u64;
    }
    entries
}

/// Waits until the chapter has a parked task.
fn until_parked(service: &Service) {
    let began = Instant::now();
    while !service.report().unwrap().contains("\nparked ") {
        assert!(began.elapsed() < LONG);
        std::thread::yield_now();
    }
}

#[test]
fn threads_share_it() {
    fn is_shared<T: Send + Sync>() {}
    is_shared::<Service>();
    let (service, pairs) = kept(TEXT, ServiceOptions::new().room(1000));
    let inc = number(&service, "inc");
    std::thread::scope(|scope| {
        for _ in 0..4 {
            scope.spawn(|| (0..2000).for_each(|_| assert!(service.atomically(inc, &[]).is_ok())));
        }
    });
    assert_eq!(service.atomically(inc, &[]), Ok(8001));
    assert_eq!(service.entered(), 8001);
    assert_eq!(service.chapter(), pairs.lock().unwrap().len() as u64);
    assert!(service.chapter() >= 8);
    assert_eq!(entries(&service, &pairs), 8001);
}

#[test]
fn each_way_to_end() {
    let service = Service::open(TEXT).unwrap();
    let call = |name| service.atomically(number(&service, name), &[]);
    assert_eq!(call("inc"), Ok(1));
    assert_eq!(call("bad"), Err(Fault::Thrown(-7)));
    assert_eq!(call("big"), Err(Fault::Overflow));
    assert_eq!(call("cut"), Err(Fault::DivideByZero));
    assert_eq!(call("over"), Err(Fault::Broken(0)));
    assert_eq!(service.entered(), 5);
    let get = number(&service, "get");
    assert_eq!(service.try_atomically(get, &[]), Err(Fault::Retries));
    assert_eq!(service.observe(get, &[]), Err(Fault::Retries));
    assert_eq!(service.atomically_within(get, &[], MOMENT), Err(Fault::TimedOut));
    assert_eq!(service.atomically(99, &[]), Err(Fault::UnknownTransaction(99)));
    assert_eq!(service.try_atomically(99, &[]), Err(Fault::UnknownTransaction(99)));
    assert_eq!(service.atomically_within(99, &[], MOMENT), Err(Fault::UnknownTransaction(99)));
    assert_eq!(service.observe(99, &[]), Err(Fault::UnknownTransaction(99)));
    assert_eq!(service.transaction("none"), None);
    assert_eq!(service.value("none"), None);
    assert_eq!(service.entered(), 5);
    assert_eq!((service.value("n"), service.value("out")), (Some((1, 1)), Some((0, 0))));
    // A call that timed out is never entered.
    assert_eq!(call("put"), Ok(1));
    assert_eq!(service.atomically_within(get, &[], LONG), Ok(0));
    assert_eq!(service.entered(), 7);
    let report = service.report().unwrap();
    assert!(report.contains("entry 5 4 over broke low\n"), "{report}");
    assert_eq!(check(&service.file().unwrap(), &report), Ok(Verdict::Good));
}

#[test]
fn observed_is_not_entered() {
    let service = Service::open(TEXT).unwrap();
    let look = |name| service.observe(number(&service, name), &[]);
    assert_eq!(look("inc"), Ok(1));
    assert_eq!(look("bad"), Err(Fault::Thrown(-7)));
    assert_eq!(look("big"), Err(Fault::Overflow));
    assert_eq!(look("cut"), Err(Fault::DivideByZero));
    assert_eq!(look("over"), Err(Fault::Broken(0)));
    assert_eq!(service.entered(), 0);
}

#[test]
fn producers_and_consumers_wait_for_one_another() {
    let (service, pairs) = kept(TEXT, ServiceOptions::new().room(100));
    let (put, get) = (number(&service, "put"), number(&service, "get"));
    std::thread::scope(|scope| {
        for _ in 0..2 {
            scope.spawn(|| (0..500).for_each(|_| assert!(service.atomically(put, &[]).is_ok())));
            scope.spawn(|| (0..500).for_each(|_| assert!(service.atomically(get, &[]).is_ok())));
        }
    });
    assert_eq!(service.value("out").map(|(value, _)| value), Some(0));
    assert_eq!(entries(&service, &pairs), 2000);
}

#[test]
fn audits_beside_the_commits() {
    let text = "(var a 50) (var b 50) (tx pay (seq (set a (sub a 1)) (set b (add b 1))) a)
        (tx back (seq (set a (add a 1)) (set b (sub b 1))) b) (tx audit (skip) (add a b))";
    let service = Service::open_with(text, ServiceOptions::new().observers(2)).unwrap();
    let is_open = AtomicBool::new(true);
    std::thread::scope(|scope| {
        for _ in 0..3 {
            scope.spawn(|| {
                while is_open.load(Ordering::SeqCst) {
                    assert_eq!(service.observe(2, &[]), Ok(100));
                }
            });
        }
        for turn in 0..2000 {
            assert!(service.atomically(turn % 2, &[]).is_ok());
        }
        is_open.store(false, Ordering::SeqCst);
    });
    assert_eq!(service.entered(), 2000);
}

#[test]
fn a_call_waits_across_chapters() {
    let (service, pairs) = kept(TEXT, ServiceOptions::new().room(4));
    let (inc, wait) = (number(&service, "inc"), number(&service, "wait"));
    std::thread::scope(|scope| {
        let waits = scope.spawn(|| service.atomically_within(wait, &[], LONG));
        until_parked(&service);
        (0..10).for_each(|_| assert!(service.atomically(inc, &[]).is_ok()));
        assert_eq!(waits.join().unwrap(), Ok(10));
    });
    assert!(service.chapter() >= 2);
    assert_eq!(entries(&service, &pairs), 11);
}

#[test]
fn close_ends_all_that_waits() {
    let service = Service::open(TEXT).unwrap();
    let (inc, get) = (number(&service, "inc"), number(&service, "get"));
    assert_eq!(service.atomically(inc, &[]), Ok(1));
    std::thread::scope(|scope| {
        let waiting: Vec<_> = (0..3).map(|_| scope.spawn(|| service.atomically(get, &[]))).collect();
        let timed = scope.spawn(|| service.atomically_within(get, &[], LONG));
        until_parked(&service);
        service.close();
        for call in waiting {
            assert_eq!(call.join().unwrap(), Err(Fault::Closed));
        }
        assert_eq!(timed.join().unwrap(), Err(Fault::Closed));
    });
    assert_eq!(service.atomically(inc, &[]), Err(Fault::Closed));
    assert_eq!(service.try_atomically(inc, &[]), Err(Fault::Closed));
    assert_eq!(service.atomically_within(inc, &[], MOMENT), Err(Fault::Closed));
    service.close();
    assert_eq!((service.value("n"), service.entered()), (Some((1, 1)), 1));
    assert_eq!(check(&service.file().unwrap(), &service.report().unwrap()), Ok(Verdict::Good));
}

/// Calls until there is no room: how many there were.
fn fill(service: &Service, inc: u32) -> u32 {
    (0..100).find(|_| service.atomically(inc, &[]) == Err(Fault::NoRoom)).expect("it ends")
}

/// What a panic may throw, which panics again when it is dropped.
struct Again;

impl Drop for Again {
    fn drop(&mut self) {
        panic!("again")
    }
}

#[test]
fn a_chapter_that_is_not_kept_is_told_again_when_the_next_one_is_full() {
    let options = ServiceOptions::new().room(3).on_chapter(|_, _| Err("no disk"));
    let service = Service::open_with(TEXT, options).unwrap();
    assert_eq!(fill(&service, number(&service, "inc")), 6);
    assert_eq!((service.chapter(), service.entered()), (1, 6));
    assert_eq!(service.not_kept(), Some(NotKept::Failed(format!("{:?}", "no disk"))));
    let quiet = std::panic::take_hook();
    std::panic::set_hook(Box::new(|_| {}));
    let panics = ServiceOptions::new().room(3).on_chapter(|_, _| -> Result<(), Error> { panic!("no disk") });
    let service = Service::open_with(TEXT, panics).unwrap();
    assert_eq!(fill(&service, number(&service, "inc")), 6);
    assert_eq!((service.chapter(), service.entered()), (1, 6));
    assert_eq!(service.not_kept(), Some(NotKept::Panicked("no disk".to_string())));
    let panics = ServiceOptions::new().room(3).on_chapter(|_, _| -> Result<(), Error> { panic_any(Again) });
    let service = Service::open_with(TEXT, panics).unwrap();
    assert_eq!(fill(&service, number(&service, "inc")), 6);
    assert_eq!((service.chapter(), service.entered()), (1, 6));
    assert_eq!(service.not_kept(), Some(NotKept::Panicked(String::new())));
    drop(service);
    std::panic::set_hook(quiet);
}

/// A service whose closure keeps nothing so many times, and how often it was called.
fn failing(times: u32, room: usize) -> (Service, Arc<AtomicU32>) {
    let tries = Arc::new(AtomicU32::new(0));
    let own = tries.clone();
    let keep = move |_: &str, _: &str| if own.fetch_add(1, Ordering::SeqCst) < times { Err(()) } else { Ok(()) };
    (Service::open_with(TEXT, ServiceOptions::new().room(room).on_chapter(keep)).unwrap(), tries)
}

#[test]
fn once_the_chapter_is_kept_it_goes_on() {
    let (service, tries) = failing(2, 3);
    let inc = number(&service, "inc");
    assert_eq!((service.not_kept(), fill(&service, inc), tries.load(Ordering::SeqCst)), (None, 6, 2));
    assert_eq!(service.not_kept(), Some(NotKept::Failed("()".to_string())));
    assert_eq!((service.atomically(inc, &[]), service.not_kept()), (Ok(7), None));
    assert_eq!((service.chapter(), service.entered(), tries.load(Ordering::SeqCst)), (2, 7, 4));
}

#[test]
fn close_tells_once_more_what_was_not_kept() {
    let (service, tries) = failing(2, 1);
    let inc = number(&service, "inc");
    assert_eq!((service.atomically(inc, &[]), service.atomically(inc, &[])), (Ok(1), Ok(2)));
    for (times, kept) in [(2, false), (3, true), (3, true)] {
        service.close();
        assert_eq!((tries.load(Ordering::SeqCst), service.not_kept().is_none()), (times, kept));
    }
    drop(service);
    assert_eq!(tries.load(Ordering::SeqCst), 3);
}

/// The closure is called with no lock held: so it may call. What would have to wait for it has no room.
#[test]
fn the_closure_may_call() {
    let (shared, told) = (Arc::new(Mutex::new(Weak::<Service>::new())), Arc::new(Mutex::new(Vec::new())));
    let (own, tell) = (shared.clone(), told.clone());
    let options = ServiceOptions::new().room(1).on_chapter(move |_, _| {
        let service = own.lock().unwrap().upgrade().unwrap();
        let is_first = tell.lock().unwrap().is_empty();
        if is_first {
            let answers = [service.atomically(0, &[]), service.atomically(0, &[]), service.try_atomically(0, &[])];
            tell.lock().unwrap().push((answers, service.chapter()));
        }
        Ok::<(), ()>(())
    });
    let service = Arc::new(Service::open_with("(var n 0) (tx inc (set n (add n 1)) n)", options).unwrap());
    *shared.lock().unwrap() = Arc::downgrade(&service);
    assert_eq!((service.atomically(0, &[]), service.atomically(0, &[])), (Ok(1), Ok(3)));
    assert_eq!(*told.lock().unwrap(), [([Ok(2), Err(Fault::NoRoom), Err(Fault::NoRoom)], 1)]);
    assert_eq!((service.chapter(), service.entered()), (2, 3));
}

/// Others go on in the next chapter while the closure is called, and wait for it only when that is full too.
#[test]
fn others_go_on_while_the_closure_is_called() {
    let (is_in, goes_on) = (Arc::new(AtomicBool::new(false)), Arc::new(AtomicBool::new(false)));
    let (told, may) = (is_in.clone(), goes_on.clone());
    let options = ServiceOptions::new().room(2).on_chapter(move |_, _| {
        told.store(true, Ordering::SeqCst);
        while !may.load(Ordering::SeqCst) {
            std::thread::yield_now();
        }
        Ok::<(), ()>(())
    });
    let service = Service::open_with(TEXT, options).unwrap();
    let inc = number(&service, "inc");
    assert_eq!((service.atomically(inc, &[]), service.atomically(inc, &[])), (Ok(1), Ok(2)));
    std::thread::scope(|scope| {
        let tells = scope.spawn(|| service.atomically(inc, &[]));
        while !is_in.load(Ordering::SeqCst) {
            std::thread::yield_now();
        }
        assert_eq!((service.atomically(inc, &[]), service.atomically(inc, &[])), (Ok(3), Ok(4)));
        assert_eq!(service.atomically_within(inc, &[], MOMENT), Err(Fault::TimedOut));
        assert_eq!((service.chapter(), service.entered()), (1, 4));
        goes_on.store(true, Ordering::SeqCst);
        assert_eq!(tells.join().unwrap(), Ok(5));
    });
}

#[test]
fn all_room_is_taken_by_calls_that_wait() {
    let service = Service::open_with(TEXT, ServiceOptions::new().room(1)).unwrap();
    let (inc, get) = (number(&service, "inc"), number(&service, "get"));
    std::thread::scope(|scope| {
        let waits = scope.spawn(|| service.atomically(get, &[]));
        until_parked(&service);
        assert_eq!(service.atomically(inc, &[]), Err(Fault::NoRoom));
        service.close();
        assert_eq!(waits.join().unwrap(), Err(Fault::Closed));
    });
}

#[test]
fn files_that_are_refused() {
    for text in ["(var x", "(var x 1) (var x 2)", "(stm 2) (var x 1) (always no (eq x 2))"] {
        let told = Service::open(text).map(|_| ());
        assert!(matches!(told, Err(Error::Refused { line: 1, .. })) && told == stm::explain(text), "{text}");
    }
    let code = |options| Service::open_with(TEXT, options).err();
    assert_eq!(code(ServiceOptions::new().room(70_000)), Some(Error::NoRoom));
    assert_eq!(code(ServiceOptions::new().observers(33)), Some(Error::TooManyWorkers));
    assert_eq!(code(ServiceOptions::new().observers(32).room(65_536)), None);
}

#[test]
fn the_tasks_of_the_file_have_their_turns_first() {
    let service = Service::open(&format!("{TEXT} (run inc 3) (run wait 1)")).unwrap();
    assert_eq!(service.value("n"), Some((3, 3)));
    assert_eq!(service.atomically(number(&service, "inc"), &[]), Ok(4));
}

#[test]
fn what_the_closure_has_goes_with_the_service() {
    let held = Arc::new(());
    let own = held.clone();
    let options = ServiceOptions::new().on_chapter(move |_, _| {
        let _ = &own;
        Ok::<(), ()>(())
    });
    let service = Service::open_with(TEXT, options).unwrap();
    assert_eq!(Arc::strong_count(&held), 2);
    drop(service);
    assert_eq!(Arc::strong_count(&held), 1);
    let own = held.clone();
    let options = ServiceOptions::new().on_chapter(move |_, _| Err(own.clone()));
    assert!(Service::open_with("(var", options).is_err());
    assert_eq!(Arc::strong_count(&held), 1);
}

#[cfg(unix)]
mod child {
    use super::*;

    extern "C" {
        fn fork() -> i32;
        fn _exit(status: i32) -> !;
        fn kill(process: i32, signal: i32) -> i32;
        fn waitpid(process: i32, status: *mut i32, options: i32) -> i32;
    }

    const NO_HANG: i32 = 1;
    const KILLED: i32 = 9;

    /// A child lets go what it has of its parent's service: how it ended, or nothing where it hangs.
    fn ended(service: &Service) -> Option<i32> {
        // SAFETY: the child does no more than to let go its service, of which it has the only copy there.
        let child = unsafe { fork() };
        if child == 0 {
            unsafe {
                drop(std::ptr::read(service));
                _exit(7)
            }
        }
        let (began, mut status) = (Instant::now(), 0);
        while began.elapsed() < Duration::from_secs(10) {
            // SAFETY: the status is borrowed for the call.
            if unsafe { waitpid(child, &mut status, NO_HANG) } == child {
                return Some(status >> 8);
            }
            std::thread::sleep(MOMENT);
        }
        // SAFETY: it is this process's child.
        unsafe {
            kill(child, KILLED);
            waitpid(child, &mut status, 0);
        }
        None
    }

    #[test]
    fn a_child_lets_nothing_go() {
        let held = Arc::new(());
        let own = held.clone();
        let keep = move |_: &str, _: &str| {
            let _ = &own;
            Ok::<(), ()>(())
        };
        let service = Service::open_with(TEXT, ServiceOptions::new().on_chapter(keep)).unwrap();
        let (inc, get) = (number(&service, "inc"), number(&service, "get"));
        std::thread::scope(|scope| {
            let waits = scope.spawn(|| service.atomically(get, &[]));
            until_parked(&service);
            let told = (ended(&service), service.atomically(inc, &[]));
            service.close();
            assert_eq!(waits.join().unwrap(), Err(Fault::Closed));
            assert_eq!(told, (Some(7), Ok(1)));
        });
        drop(service);
        assert_eq!(Arc::strong_count(&held), 1);
    }
}
