//! A bank of 1,000 accounts in a table: four threads transfer money through one service, and an auditor looks on beside
//! them. In the end the journals of all chapters are judged, and say what the threads were answered.

use std::error::Error;
use std::sync::atomic::{AtomicBool, Ordering};
use std::sync::mpsc;
use stm::{lt, param, seq, skip, throw, when, Declare, Fault, Service, ServiceOptions, Transaction, Verdict};

const ACCOUNTS: usize = 1000;
const EACH: i64 = 100;
const THREADS: usize = 4;
const TRANSFERS: usize = 1000;

/// The bank, to pay, and to audit. A payer has the amount, or the transfer throws what is missing.
fn declared() -> (Declare, Transaction<3>, Transaction<0>) {
    let mut bank = Declare::new();
    let acct = bank.table("acct", ACCOUNTS, EACH);
    let pay = bank.tx_with("pay", ["from", "to", "n"], |[from, to, n]| {
        let missing = throw(param(&n) - acct.at(&from));
        let paid = seq([acct.put(&from, acct.at(&from) - &n), acct.put(&to, acct.at(&to) + &n)]);
        (when(lt(acct.at(&from), &n), missing, paid), acct.at(&from))
    });
    let audit = bank.tx("audit", skip(), acct.sum());
    (bank, pay, audit)
}

/// Transfers between all accounts: how many were paid.
fn teller(bank: &Service, pay: Transaction<3>, first: usize) -> Result<usize, Fault> {
    let mut paid = 0;
    for turn in first..first + TRANSFERS {
        let [from, to, n] = [turn * 7 % ACCOUNTS, turn * 13 % ACCOUNTS, turn % 150].map(|one| one as i64);
        match bank.atomically(pay, [from, to, n]) {
            Ok(_left) => paid += 1,
            Err(Fault::Thrown(missing)) => assert!(missing > 0),
            Err(fault) => return Err(fault),
        }
    }
    Ok(paid)
}

fn main() -> Result<(), Box<dyn Error>> {
    let (keep, kept) = mpsc::channel();
    let options = ServiceOptions::new()
        .room(1500)
        .on_chapter(move |file, report| keep.send((file.to_string(), report.to_string())));
    let (declare, pay, audit) = declared();
    let bank = declare.service_with(options)?;
    let is_open = AtomicBool::new(true);
    let paid: Result<Vec<usize>, Fault> = std::thread::scope(|scope| {
        let bank = &bank;
        let begin = |i| i * ACCOUNTS / THREADS;
        let tellers: Vec<_> =
            (0..THREADS).map(|i| scope.spawn(move || teller(bank, pay, begin(i)))).collect();
        scope.spawn(|| {
            while is_open.load(Ordering::SeqCst) {
                assert_eq!(bank.observe(audit, []), Ok(ACCOUNTS as i64 * EACH));
            }
        });
        let ended: Vec<_> = tellers.into_iter().map(|teller| teller.join()).collect();
        is_open.store(false, Ordering::SeqCst);
        ended.into_iter().map(|paid| paid.expect("a teller ends")).collect()
    });
    bank.close();
    let last = (bank.file()?, bank.report()?);
    let mut told = [0, 0];
    for (file, report) in kept.try_iter().chain([last]) {
        assert_eq!(stm::check(&file, &report)?, Verdict::Good);
        told[0] += report.matches(" returned ").count();
        told[1] += report.matches(" threw ").count();
    }
    assert_eq!(told[0], paid?.iter().sum());
    println!("{} transfers, each paid or refused", told[0] + told[1]);
    println!("the journals of {} chapters are good", bank.chapter() + 1);
    Ok(())
}
