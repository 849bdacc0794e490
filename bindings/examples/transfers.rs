//! A bank of 1,000 accounts in a table: four tellers pay amounts from account to account, and meanwhile audits look at
//! all accounts of one moment. In the end the journal is judged.
use stm::{lt, param, seq, skip, throw, when, Declare, Error, Fault, Service, Transaction, Verdict};

const ACCOUNTS: usize = 1000;
const EACH: i64 = 100;
const TELLERS: usize = 4;
const TRANSFERS: usize = 1000;

/// The bank, to pay, and to audit. A payer has the amount, or the transfer throws what is missing.
fn declared() -> (Declare, Transaction<3>, Transaction<0>) {
    let mut bank = Declare::new();
    let acct = bank.table("acct", ACCOUNTS, EACH);
    let pay = bank.tx_with("pay", ["from", "to", "n"], |[from, to, n]| {
        let missing = throw(param(&n) - acct.at(&from));
        let paid = seq([acct.put(&from, acct.at(&from) - &n), acct.put(&to, acct.at(&to) + &n)]);
        (when(lt(acct.at(&from), &n), missing, paid), acct.at(&from))
    });
    let audit = bank.tx("audit", skip(), acct.sum());
    (bank, pay, audit)
}

/// Each transfer is paid, or throws what is missing.
fn teller(bank: &Service, pay: Transaction<3>, first: usize) {
    for turn in first..first + TRANSFERS {
        let arguments = [turn * 7 % ACCOUNTS, turn * 13 % ACCOUNTS, turn % 150].map(|number| number as i64);
        match bank.atomically(pay, arguments) {
            Ok(_left) => {}
            Err(Fault::Thrown(missing)) => assert!(missing > 0),
            Err(fault) => panic!("{fault}"),
        }
    }
}

fn main() -> Result<(), Error> {
    let (declare, pay, audit) = declared();
    let bank = declare.service()?;
    std::thread::scope(|scope| {
        let (bank, begin) = (&bank, |i| i * ACCOUNTS / TELLERS);
        let tellers: Vec<_> = (0..TELLERS).map(|i| scope.spawn(move || teller(bank, pay, begin(i)))).collect();
        while !tellers.iter().all(|one| one.is_finished()) {
            assert_eq!(bank.observe(audit, []), Ok(ACCOUNTS as i64 * EACH));
        }
    });
    println!("{} transfers, each paid or refused", bank.entered());
    println!("all accounts have {}", bank.observe(audit, []).expect("it returns"));
    let mut balances = [0; ACCOUNTS];
    assert_eq!(bank.cells(0, 0, &mut balances), Some(ACCOUNTS));
    assert!(balances.iter().all(|balance| *balance >= 0));
    bank.close();
    assert_eq!(stm::check(&bank.file()?, &bank.report()?)?, Verdict::Good);
    println!("the journal is good");
    Ok(())
}
