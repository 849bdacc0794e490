//! A simulation: customers come into a shop, wait on one of five chairs or go away, and are served; for millions of
//! minutes. Chapters begin by themselves, each journal is judged and let go, and memory does not grow.

use std::error::Error;
use stm::{
    and, eq, le, lt, rem, seq, set, skip, var, when, Declare, Fault, Service, ServiceOptions, Transaction, Verdict,
};

const MINUTES: u64 = 10_000_000;
/// In so many parts of the time memory is looked at. A thread that judges its first journal takes room of its own, so
/// some parts may see it grow, but not all.
const PARTS: u64 = 5;

/// The shop, and a minute of it.
fn declared() -> (Declare, Transaction<0>) {
    let mut shop = Declare::new();
    let (seed, came) = (shop.var("seed", 42), shop.var("came", 0));
    let (waiting, served, lost) = (shop.var("waiting", 0), shop.var("served", 0), shop.var("lost", 0));
    let more = |name| set(name, var(name) + 1);
    shop.always("counted", eq(&came, var(&waiting) + &served + &lost));
    shop.always("chairs", and(le(0, &waiting), le(&waiting, 5)));
    let draw = || set(&seed, rem(var(&seed) * 1_103_515_245 + 12_345, 2_147_483_648));
    let sits = when(lt(&waiting, 5), more(&waiting), more(&lost));
    let comes = when(lt(rem(&seed, 3000), 2000), seq([more(&came), sits]), skip());
    let is_served = seq([set(&waiting, var(&waiting) - 1), more(&served)]);
    let goes = when(and(lt(0, &waiting), lt(rem(&seed, 4000), 2500)), is_served, skip());
    let minute = shop.tx("minute", seq([draw(), comes, draw(), goes]), &waiting);
    (shop, minute)
}

/// The same in plain Rust: how many are served, and how many go away.
fn plainly(minutes: u64) -> (i64, i64) {
    let (mut seed, mut waiting, mut served, mut lost) = (42_i64, 0, 0, 0);
    let draw = |seed: i64| (seed * 1_103_515_245 + 12_345) % 2_147_483_648;
    for _ in 0..minutes {
        seed = draw(seed);
        if seed % 3000 < 2000 && waiting < 5 {
            waiting += 1;
        } else if seed % 3000 < 2000 {
            lost += 1;
        }
        seed = draw(seed);
        if seed % 4000 < 2500 && waiting > 0 {
            (waiting, served) = (waiting - 1, served + 1);
        }
    }
    (served, lost)
}

/// So many minutes, by two threads: a minute is a minute, whoever has it done.
fn run(shop: &Service, minute: Transaction<0>, minutes: u64) -> Result<(), Fault> {
    let half = || (0..minutes / 2).try_for_each(|_| shop.atomically(minute, []).map(drop));
    std::thread::scope(|scope| {
        let other = scope.spawn(half);
        half().and(other.join().expect("a thread ends"))
    })
}

/// How many KB of memory the process has; 0 where the system does not say.
fn resident() -> i64 {
    let status = std::fs::read_to_string("/proc/self/status").unwrap_or_default();
    let told = status.lines().find_map(|line| line.strip_prefix("VmRSS:")?.split_whitespace().next());
    told.and_then(|size| size.parse().ok()).unwrap_or(0)
}

fn main() -> Result<(), Box<dyn Error>> {
    let minutes = std::env::args().nth(1).map_or(Ok(MINUTES), |word| word.parse())?;
    // A chapter whose journal is not good is not left: then a call finds no room, and the simulation ends.
    let options = ServiceOptions::new().on_chapter(|file, report| match stm::check(file, report) {
        Ok(Verdict::Good) => Ok(()),
        other => Err(other),
    });
    let (declare, minute) = declared();
    let shop = declare.service_with(options)?;
    let mut grown = i64::MAX;
    for _ in 0..PARTS {
        let before = resident();
        run(&shop, minute, minutes / PARTS)?;
        grown = grown.min(resident() - before);
    }
    let value = |name| shop.value(name).expect("it is declared").0;
    assert_eq!((value("served"), value("lost")), plainly(shop.entered()));
    shop.close();
    assert_eq!(stm::check(&shop.file()?, &shop.report()?)?, Verdict::Good);
    println!("{} minutes, all journals are good", shop.entered());
    assert!(grown < 4096, "memory does not grow");
    println!("memory did not grow");
    Ok(())
}
