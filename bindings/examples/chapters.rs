//! A simulation in chapters: a queue before a counter, minute by minute, in one store that goes on for as long as it is
//! wanted. Each chapter has a file and a report of its own, which a check judges, and begins where the one before ended.

use stm::{and, le, lt, rem, seq, set, skip, var, when, Declare, Error, Program, Store, Transaction, Verdict, Way};

const CHAPTERS: u32 = 5;
const MINUTES: u32 = 200;

/// What the simulation knows at the end of a minute.
#[derive(Clone, Copy, Debug, PartialEq, Eq)]
struct State {
    seed: i64,
    waiting: i64,
    served: i64,
    longest: i64,
}

/// The queue, and a minute of it: somebody comes in two minutes of three, by a generator of numbers, and somebody is
/// served in three of four.
fn queue(from: State) -> Result<(Program, Transaction<0>), Error> {
    let mut queue = Declare::new();
    let seed = queue.var("seed", from.seed);
    let waiting = queue.var("waiting", from.waiting);
    let served = queue.var("served", from.served);
    let longest = queue.var("longest", from.longest);
    queue.always("counted", and(le(0, &waiting), le(&waiting, &longest)));
    let draw = || set(&seed, rem(var(&seed) * 1_103_515_245 + 12_345, 2_147_483_648));
    let grown = when(lt(&longest, &waiting), set(&longest, &waiting), skip());
    let comes = when(lt(rem(&seed, 3000), 2000), seq([set(&waiting, var(&waiting) + 1), grown]), skip());
    let goes = when(
        and(lt(rem(&seed, 4000), 3000), lt(0, &waiting)),
        seq([set(&waiting, var(&waiting) - 1), set(&served, var(&served) + 1)]),
        skip(),
    );
    let minute = queue.tx("minute", seq([draw(), comes, draw(), goes]), &waiting);
    Ok((queue.program()?, minute))
}

/// The same minutes, in plain Rust.
fn plainly(mut state: State) -> State {
    let draw = |seed: i64| (seed * 1_103_515_245 + 12_345) % 2_147_483_648;
    for _ in 0..MINUTES {
        state.seed = draw(state.seed);
        if state.seed % 3000 < 2000 {
            state.waiting += 1;
            state.longest = state.longest.max(state.waiting);
        }
        state.seed = draw(state.seed);
        if state.seed % 4000 < 3000 && state.waiting > 0 {
            state.waiting -= 1;
            state.served += 1;
        }
    }
    state
}

/// What the store knows now.
fn present(store: &Store) -> State {
    let value = |name| store.value(name).expect("it is declared").0;
    State {
        seed: value("seed"),
        waiting: value("waiting"),
        served: value("served"),
        longest: value("longest"),
    }
}

fn main() -> Result<(), Error> {
    let mut state = State { seed: 42, waiting: 0, served: 0, longest: 0 };
    let (program, minute) = queue(state)?;
    let store = Store::open_with_room(&program, 0, 0, MINUTES as usize)?;
    let mut good = 0;
    for _ in 0..CHAPTERS {
        for _ in 0..MINUTES {
            store.call(minute, [], Way::Waits)?;
        }
        state = plainly(state);
        assert_eq!(present(&store), state);
        let (report, file) = store.report_and_file()?;
        good += u32::from(stm::check(&file, &report)? == Verdict::Good);
        store.begin_chapter();
    }
    println!("{} minutes", store.entered());
    println!("{good} good");
    Ok(())
}
