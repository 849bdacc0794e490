//! A job scheduler: 10,000 jobs wait for others, and none of them takes a thread while it waits. Four threads do those
//! that can be done. In the end the places of the calls say that each job began when those that it needs were done.

use std::collections::VecDeque;
use std::future::Future;
use std::pin::Pin;
use std::sync::{Arc, Condvar, Mutex};
use std::task::{Context, Poll, Wake, Waker};
use std::thread;
use stm::{Error, Fault, Service, Transaction};

const JOBS: usize = 10_000;
const THREADS: usize = 4;
// A job needs two others, where it is -1 none; 0 is done when the doors open.
const PROGRAM: &str = "(stm 3)
    (var left 10000) (table done 10001 0)
    (tx begin (first second) (if (and (eq (at done first) 1) (eq (at done second) 1)) (skip) (retry)) 0)
    (tx end (job) (seq (put done job 1) (set left (sub left 1))) left)
    (tx open () (put done 0 1) 0)
    (tx all () (if (lt 0 left) (retry) (skip)) left)";

/// The service, and what each job calls there.
struct Scheduler {
    service: Service,
    begin: Transaction<2>,
    end: Transaction<1>,
}

impl Scheduler {
    fn open() -> Result<Scheduler, Error> {
        let service = Service::open(PROGRAM)?;
        let (begin, end) = (service.transaction_of("begin")?, service.transaction_of("end")?);
        Ok(Scheduler { service, begin, end })
    }
}

/// Which jobs one of 1 .. 10,000 needs; 0 is no job, but that the doors are open.
fn needs(job: usize) -> [usize; 2] {
    [job / 2, job.saturating_sub(100) / 3]
}

type Task<'a> = Pin<Box<dyn Future<Output = Result<(), Fault>> + Send + 'a>>;

/// The jobs that threads can go on with, by their numbers; nothing more comes once it is over.
#[derive(Default)]
struct Ready {
    jobs: Mutex<(VecDeque<usize>, bool)>,
    changed: Condvar,
}

impl Ready {
    fn add(&self, job: usize) {
        self.jobs.lock().unwrap().0.push_back(job);
        self.changed.notify_one();
    }

    fn next(&self) -> Option<usize> {
        let mut jobs = self.jobs.lock().unwrap();
        while jobs.0.is_empty() && !jobs.1 {
            jobs = self.changed.wait(jobs).unwrap();
        }
        jobs.0.pop_front()
    }

    fn ends(&self) {
        self.jobs.lock().unwrap().1 = true;
        self.changed.notify_all();
    }
}

struct Job {
    number: usize,
    ready: Arc<Ready>,
}

impl Wake for Job {
    fn wake(self: Arc<Self>) {
        self.ready.add(self.number);
    }
}

/// A thread: it goes on with jobs that are ready.
fn works(jobs: &[Mutex<Option<Task<'_>>>], ready: &Arc<Ready>) {
    while let Some(number) = ready.next() {
        let waker = Waker::from(Arc::new(Job { number, ready: ready.clone() }));
        let mut job = jobs[number].lock().unwrap();
        let polled = job.as_mut().map(|job| job.as_mut().poll(&mut Context::from_waker(&waker)));
        if let Some(Poll::Ready(done)) = polled {
            done.expect("a job is done");
            *job = None;
        }
    }
}

/// The places in the history at which a job began and ended.
type Places = Mutex<[u64; 2]>;

async fn job(scheduler: &Scheduler, number: usize, places: &Places) -> Result<(), Fault> {
    let calls = scheduler.service.receipts();
    let begun = calls.call(scheduler.begin, needs(number).map(|job| job as i64)).await?;
    // Here is the work.
    let ended = calls.call(scheduler.end, [number as i64]).await?;
    *places.lock().unwrap() = [begun.place, ended.place];
    Ok(())
}

fn main() -> Result<(), Error> {
    let scheduler = Scheduler::open()?;
    let service = &scheduler.service;
    let (open, all) = (service.transaction_of::<0>("open")?, service.transaction_of::<0>("all")?);
    let places: Vec<Places> = (0..=JOBS).map(|_| Mutex::default()).collect();
    let ready = Arc::new(Ready::default());
    let jobs: Vec<Mutex<Option<Task<'_>>>> = (1..=JOBS)
        .map(|number| Mutex::new(Some(Box::pin(job(&scheduler, number, &places[number])) as Task<'_>)))
        .collect();
    (0..JOBS).for_each(|number| ready.add(number));
    thread::scope(|scope| {
        (0..THREADS).for_each(|_| drop(scope.spawn(|| works(&jobs, &ready))));
        while service.report().map_or(0, |report| report.matches("\nparked ").count()) < JOBS {
            thread::yield_now();
        }
        println!("{JOBS} jobs wait");
        service.atomically(open, []).expect("it returns");
        service.atomically(all, []).expect("it returns");
        ready.ends();
    });
    drop(jobs);
    let places: Vec<[u64; 2]> = places.into_iter().map(|places| places.into_inner().unwrap()).collect();
    let is_in_order =
        |job: usize| needs(job).iter().all(|&other| other == 0 || places[other][1] < places[job][0]);
    assert!((1..=JOBS).all(is_in_order));
    println!("{JOBS} jobs are done, each after those that it needs");
    service.close();
    println!("{:?}", stm::check(&service.file()?, &service.report()?)?);
    Ok(())
}
