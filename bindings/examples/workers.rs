//! An in-memory store: accounts, transfers by several threads, and audits meanwhile.
//!
//! Two standing conditions hold in every state: no account is below zero, and the sum stays. An
//! audit is read beside the commits, without a lock, and is of one state: it never sees half of a
//! transfer. A transfer that its payer cannot pay throws the amount, and the tellers count what they are
//! answered. In the end the report is judged, and says the same.

use std::sync::atomic::{AtomicBool, Ordering};
use stm::{
    and, eq, le, lt, seq, set, skip, sum, throw, var, when, Declare, End, Error, Job, Outcome, Program,
    Store, Transaction, Var, Worker,
};

const ACCOUNTS: usize = 8;
const EACH: i64 = 100;
const TRANSFERS: u32 = 500;
const THREADS: usize = 4;

/// The bank, and an audit of it.
fn bank() -> Result<(Program, Transaction<0>), Error> {
    let mut bank = Declare::new();
    let accounts: Vec<Var> = (0..ACCOUNTS).map(|i| bank.var(&format!("account{i}"), EACH)).collect();
    let total = ACCOUNTS as i64 * EACH;
    bank.always("total", eq(sum(&accounts), total));
    let solvent = accounts[1..].iter().fold(le(0, &accounts[0]), |all, one| and(all, le(0, one)));
    bank.always("solvent", solvent);
    let mut transfers = Vec::new();
    for from in 0..ACCOUNTS {
        let (payer, payee) = (&accounts[from], &accounts[(from + 3) % ACCOUNTS]);
        let amount = 7 + from as i64;
        let move_money = seq([set(payer, var(payer) - amount), set(payee, var(payee) + amount)]);
        let body = when(lt(var(payer), amount), throw(amount), move_money);
        transfers.push(bank.tx(&format!("transfer{from}"), body, var(payer)));
    }
    let audit = bank.tx("audit", skip(), sum(&accounts));
    for transfer in transfers {
        bank.run(transfer, TRANSFERS);
    }
    Ok((bank.program()?, audit))
}

/// While this is there the bank is open. It closes where a teller fails, too: else the auditor would never end.
struct Opened<'a>(&'a AtomicBool);

impl Drop for Opened<'_> {
    fn drop(&mut self) {
        self.0.store(false, Ordering::SeqCst);
    }
}

/// How many transfers were paid, and how many refused.
#[derive(Clone, Copy, Debug, Default, PartialEq, Eq)]
struct Answered {
    paid: u32,
    refused: u32,
}

/// The life of a teller: the lowest transfer that is ready, until none is. What it was answered.
fn serve(store: &Store, teller: &mut Worker) -> Result<Answered, Error> {
    let mut answered = Answered::default();
    while let Ok(job) = store.take() {
        match transfer(store, teller, job)? {
            Outcome::Returned(_) => answered.paid += 1,
            Outcome::Thrown(_) => answered.refused += 1,
            other => panic!("a transfer answers {other:?}"),
        }
    }
    Ok(answered)
}

/// All tries of a transfer: how it ended.
fn transfer(store: &Store, teller: &mut Worker, job: Job) -> Result<Outcome, Error> {
    loop {
        match teller.try_job(job).and_then(|()| store.bring(teller)) {
            Ok(answer) => match answer.end {
                End::Entered(entered) => return Ok(entered.outcome),
                other => panic!("a transfer is {other:?}"),
            },
            Err(Error::Stale) => continue,
            Err(error) => return Err(error),
        }
    }
}

/// The life of the auditor: audits while the bank is open, and one at least. How many there were.
fn watch(auditor: &mut Worker, audit: Transaction<0>, is_open: &AtomicBool) -> Result<u32, Error> {
    let mut audits = 0;
    while is_open.load(Ordering::SeqCst) || audits == 0 {
        match auditor.observe(audit, []) {
            Ok(outcome) => assert_eq!(outcome, Outcome::Returned(ACCOUNTS as i64 * EACH)),
            Err(Error::Stale) => continue,
            Err(error) => return Err(error),
        }
        audits += 1;
    }
    Ok(audits)
}

fn main() -> Result<(), Error> {
    let (program, audit) = bank()?;
    let store = Store::open(&program, THREADS + 1, 0)?;
    let mut auditor = store.worker()?;
    let mut tellers = Vec::new();
    for _ in 0..THREADS {
        tellers.push(store.worker()?);
    }
    let is_open = AtomicBool::new(true);
    let (audits, answered) = std::thread::scope(|scope| {
        let watching = scope.spawn(|| watch(&mut auditor, audit, &is_open));
        let opened = Opened(&is_open);
        let working: Vec<_> =
            tellers.iter_mut().map(|teller| scope.spawn(|| serve(&store, teller))).collect();
        let mut answered = Answered::default();
        for teller in working {
            let Answered { paid, refused } = teller.join().expect("a teller ends")?;
            answered = Answered { paid: answered.paid + paid, refused: answered.refused + refused };
        }
        drop(opened);
        Ok::<_, Error>((watching.join().expect("the auditor ends")?, answered))
    })?;
    let report = store.report()?;
    assert!(audits > 0);
    let told = |word| report.lines().filter(|line| line.split(' ').nth(4) == Some(word)).count() as u32;
    assert_eq!(answered, Answered { paid: told("returned"), refused: told("threw") });
    println!("{} transfers, each paid or refused", answered.paid + answered.refused);
    println!("{:?}", stm::check(program.text(), &report)?);
    Ok(())
}
