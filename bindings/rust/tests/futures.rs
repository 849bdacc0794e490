//! Calls without a thread: futures of a service, over executors of the standard library alone.

use std::collections::VecDeque;
use std::future::Future;
use std::pin::{pin, Pin};
use std::sync::atomic::{AtomicUsize, Ordering};
use std::sync::{Arc, Condvar, Mutex};
use std::task::{Context, Poll, Wake, Waker};
use std::thread::{self, Thread};
use std::time::Duration;
use stm::{Call, Fault, Service, ServiceOptions};

const TEXT: &str = "(stm 3) (var box 0) (var d 0)
    (tx put (k) (set box (add box k)) box)
    (tx get (k) (if (lt box k) (retry) (set box (sub box k))) k)
    (tx fail (k) (throw k) 0)
    (tx long (k) (seq (repeat 10 (repeat 100 (set d (add d 1)))) (if (lt box k) (retry) (set box (sub box k)))) k)
    (tx wait (k) (if (eq box 0) (retry) (skip)) k)";
const PUT: u32 = 0;
const GET: u32 = 1;
const FAIL: u32 = 2;
const LONG: u32 = 3;
const WAIT: u32 = 4;

/// Wakes a thread that parks.
struct Unpark(Thread);

impl Wake for Unpark {
    fn wake(self: Arc<Self>) {
        self.0.unpark();
    }
}

/// Runs a future on this thread.
fn block_on<T>(future: impl Future<Output = T>) -> T {
    let waker = Waker::from(Arc::new(Unpark(thread::current())));
    let mut context = Context::from_waker(&waker);
    let mut future = pin!(future);
    loop {
        match future.as_mut().poll(&mut context) {
            Poll::Ready(answer) => return answer,
            Poll::Pending => thread::park(),
        }
    }
}

/// Counts how often it is woken.
#[derive(Default)]
struct Count(AtomicUsize);

impl Wake for Count {
    fn wake(self: Arc<Self>) {
        self.0.fetch_add(1, Ordering::Relaxed);
    }
}

fn polled(call: &mut Pin<&mut Call<'_>>, count: &Arc<Count>) -> Poll<Result<i64, Fault>> {
    let waker = Waker::from(count.clone());
    call.as_mut().poll(&mut Context::from_waker(&waker))
}

/// A thread of tasks, which are polled when they were woken: each task by its number.
struct Executor<'a> {
    tasks: Vec<Option<Pin<Box<dyn Future<Output = ()> + Send + 'a>>>>,
    ready: Arc<Ready>,
}

#[derive(Default)]
struct Ready {
    numbers: Mutex<VecDeque<usize>>,
    changed: Condvar,
}

struct Task(usize, Arc<Ready>);

impl Wake for Task {
    fn wake(self: Arc<Self>) {
        self.1.numbers.lock().unwrap().push_back(self.0);
        self.1.changed.notify_one();
    }
}

impl<'a> Executor<'a> {
    fn new() -> Executor<'a> {
        Executor { tasks: Vec::new(), ready: Arc::default() }
    }

    fn spawn(&mut self, task: impl Future<Output = ()> + Send + 'a) {
        self.ready.numbers.lock().unwrap().push_back(self.tasks.len());
        self.tasks.push(Some(Box::pin(task)));
    }

    /// Polls what is ready, until so many are over.
    fn run_until(&mut self, over: usize) {
        while self.tasks.iter().filter(|task| task.is_none()).count() < over {
            let mut numbers = self.ready.numbers.lock().unwrap();
            while numbers.is_empty() {
                numbers = self.ready.changed.wait(numbers).unwrap();
            }
            let batch = std::mem::take(&mut *numbers);
            drop(numbers);
            batch.into_iter().for_each(|number| self.poll(number));
        }
    }

    fn poll(&mut self, number: usize) {
        let waker = Waker::from(Arc::new(Task(number, self.ready.clone())));
        let Some(task) = &mut self.tasks[number] else { return };
        if task.as_mut().poll(&mut Context::from_waker(&waker)).is_ready() {
            self.tasks[number] = None;
        }
    }
}

#[test]
fn each_answers_as_a_thread_is_answered() {
    let service = Service::open(TEXT).unwrap();
    assert_eq!(block_on(service.call(PUT, &[5])), Ok(5));
    assert_eq!(block_on(service.call(GET, &[2])), Ok(2));
    assert_eq!(block_on(service.call(LONG, &[3])), Ok(3));
    assert_eq!(block_on(service.call(FAIL, &[7])), Err(Fault::Thrown(7)));
    assert_eq!(block_on(service.call(9, &[])), Err(Fault::UnknownTransaction(9)));
    for given in [vec![], vec![1; 2], vec![1; 9]] {
        let wrong = Fault::WrongArguments { transaction: PUT, parameters: 1, given: given.len() };
        assert_eq!(block_on(service.call(PUT, &given)), Err(wrong));
    }
    assert_eq!(service.entered(), 4);
    service.close();
    assert_eq!(block_on(service.call(PUT, &[5])), Err(Fault::Closed));
}

#[test]
fn nothing_is_made_before_it_is_polled() {
    let service = Service::open(TEXT).unwrap();
    drop(service.call(PUT, &[5]));
    assert_eq!(service.entered(), 0);
}

#[test]
fn one_that_waits_is_woken_once() {
    let service = Service::open(TEXT).unwrap();
    let (first, second) = (Arc::new(Count::default()), Arc::new(Count::default()));
    let mut call = pin!(service.call(GET, &[5]));
    assert_eq!(polled(&mut call, &first), Poll::Pending);
    assert_eq!(polled(&mut call, &first), Poll::Pending);
    assert_eq!(polled(&mut call, &second), Poll::Pending);
    assert_eq!(service.atomically(PUT, &[4]), Ok(4));
    assert_eq!(polled(&mut call, &second), Poll::Pending);
    assert_eq!(service.atomically(PUT, &[4]), Ok(3 + 5));
    assert_eq!((first.0.load(Ordering::Relaxed), second.0.load(Ordering::Relaxed)), (0, 1));
    assert_eq!(polled(&mut call, &first), Poll::Ready(Ok(5)));
    assert_eq!(service.value("box"), Some((3, 3)));
}

#[test]
#[should_panic(expected = "a call is polled that is over")]
fn one_that_is_over_is_not_polled() {
    let service = Service::open(TEXT).unwrap();
    let count = Arc::new(Count::default());
    let mut call = pin!(service.call(PUT, &[5]));
    assert_eq!(polled(&mut call, &count), Poll::Ready(Ok(5)));
    let _ = polled(&mut call, &count);
}

/// What it waits for comes when it was dropped: nothing is entered of it.
#[test]
fn one_that_is_dropped_is_given_up() {
    let service = Service::open(TEXT).unwrap();
    let count = Arc::new(Count::default());
    for transaction in [GET, LONG] {
        let mut call = Box::pin(service.call(transaction, &[5]));
        assert_eq!(polled(&mut call.as_mut(), &count), Poll::Pending);
        drop(call);
        assert_eq!(service.atomically(PUT, &[5]), Ok(5));
        assert_eq!(service.atomically(GET, &[5]), Ok(5));
    }
    assert_eq!((service.entered(), count.0.load(Ordering::Relaxed)), (4, 0));
    assert_eq!(Arc::strong_count(&count), 1);
}

/// It was entered before it was dropped.
#[test]
fn one_that_was_entered_stays_entered() {
    let service = Service::open(TEXT).unwrap();
    let count = Arc::new(Count::default());
    let mut call = Box::pin(service.call(GET, &[5]));
    assert_eq!(polled(&mut call.as_mut(), &count), Poll::Pending);
    assert_eq!(service.atomically(PUT, &[5]), Ok(5));
    drop(call);
    assert_eq!((service.entered(), service.value("box")), (2, Some((0, 2))));
    assert_eq!(Arc::strong_count(&count), 1);
}

#[test]
fn a_service_that_is_closed_tells_all() {
    let service = Service::open(TEXT).unwrap();
    let count = Arc::new(Count::default());
    let mut calls: Vec<_> = (0..10).map(|_| Box::pin(service.call(GET, &[1]))).collect();
    for call in &mut calls {
        assert_eq!(polled(&mut call.as_mut(), &count), Poll::Pending);
    }
    service.close();
    assert_eq!(count.0.load(Ordering::Relaxed), 10);
    for call in &mut calls {
        assert_eq!(polled(&mut call.as_mut(), &count), Poll::Ready(Err(Fault::Closed)));
    }
}

/// Nobody drops it, and its service goes all the same.
#[test]
fn one_that_is_forgotten() {
    let service = Service::open(TEXT).unwrap();
    let count = Arc::new(Count::default());
    let mut call = Box::pin(service.call(GET, &[1]));
    assert_eq!(polled(&mut call.as_mut(), &count), Poll::Pending);
    std::mem::forget(call);
    drop(service);
    assert_eq!(count.0.load(Ordering::Relaxed), 1);
}

struct Panics;

impl Wake for Panics {
    fn wake(self: Arc<Self>) {
        panic!("nobody is woken");
    }
}

/// Who commits goes on.
#[test]
fn a_waker_that_panics() {
    let service = Service::open(TEXT).unwrap();
    let waker = Waker::from(Arc::new(Panics));
    let mut call = pin!(service.call(GET, &[1]));
    assert_eq!(call.as_mut().poll(&mut Context::from_waker(&waker)), Poll::Pending);
    assert_eq!(service.atomically(PUT, &[1]), Ok(1));
    assert_eq!(block_on(call), Ok(1));
}

#[test]
fn many_wait_in_one_thread() {
    const COUNT: usize = 60_000;
    let service = Service::open(TEXT).unwrap();
    let sum = AtomicUsize::new(0);
    let mut executor = Executor::new();
    for number in 0..COUNT {
        let (service, sum) = (&service, &sum);
        executor.spawn(async move {
            let told = service.call(WAIT, &[number as i64]).await.unwrap();
            sum.fetch_add(usize::try_from(told).unwrap(), Ordering::Relaxed);
        });
    }
    executor.spawn(async { assert_eq!(service.call(PUT, &[1]).await, Ok(1)) });
    executor.run_until(COUNT + 1);
    assert_eq!(sum.load(Ordering::Relaxed), COUNT * (COUNT - 1) / 2);
    assert_eq!(service.entered(), COUNT as u64 + 1);
}

/// Tasks on several threads hand on what they have, while chapters end; some are dropped in between.
#[test]
fn threads_of_tasks() {
    const THREADS: usize = 4;
    const TASKS: usize = 200;
    let options = ServiceOptions::new().room(2 * THREADS * TASKS).on_chapter(|_, _| Ok::<(), ()>(()));
    let service = Service::open_with(TEXT, options).unwrap();
    let given_up = AtomicUsize::new(0);
    thread::scope(|scope| {
        for _ in 0..THREADS {
            scope.spawn(|| {
                let mut executor = Executor::new();
                for task in 0..TASKS {
                    executor.spawn(hands_on(&service, task, &given_up));
                }
                executor.run_until(TASKS);
            });
        }
    });
    assert_eq!(given_up.into_inner(), THREADS * TASKS / 4);
    assert_eq!(service.value("box").unwrap().0, 0);
}

/// A pair of a task that puts and one that gets; each fourth gives up a call that waits for what never comes.
async fn hands_on(service: &Service, task: usize, given_up: &AtomicUsize) {
    for _ in 0..5 {
        if task % 2 == 0 {
            service.call(PUT, &[1]).await.unwrap();
        } else {
            let kind = if task % 4 == 1 { GET } else { LONG };
            assert_eq!(service.call(kind, &[1]).await, Ok(1));
        }
    }
    if task % 4 == 0 {
        let mut call = Box::pin(service.call(GET, &[1_000_000]));
        let first =
            std::future::poll_fn(|context| Poll::Ready(call.as_mut().poll(context).is_pending())).await;
        given_up.fetch_add(usize::from(first), Ordering::Relaxed);
    }
}

/// It is sent to another thread while it waits, and dropped there beside the commit that wakes it.
#[test]
fn dropped_beside_the_wake() {
    fn is_sent<T: Send>(value: T) -> T {
        value
    }
    let service = Service::open(TEXT).unwrap();
    let mut entered = 0;
    for round in 0..500 {
        let count = Arc::new(Count::default());
        let mut call = Box::pin(is_sent(service.call(GET, &[1])));
        assert_eq!(polled(&mut call.as_mut(), &count), Poll::Pending);
        thread::scope(|scope| {
            scope.spawn(move || {
                thread::sleep(Duration::from_micros(round % 50));
                drop(call);
            });
            service.atomically(PUT, &[1]).unwrap();
        });
        let left = service.value("box").unwrap().0;
        entered += 1 - left;
        assert_eq!((count.0.load(Ordering::Relaxed) as i64, Arc::strong_count(&count)), (1 - left, 1));
        if left == 1 {
            assert_eq!(service.try_atomically(GET, &[1]), Ok(1));
        }
    }
    assert!((0..=500).contains(&entered));
}
