//! A bank of 1,000 accounts in a table, built from values: one account pays to another while it has enough.

use stm::{lt, seq, skip, throw, when, Declare};

fn main() -> Result<(), stm::Error> {
    let mut declare = Declare::new();
    let acct = declare.table("acct", 1000, 100);
    let pay = declare.tx_with("pay", ["from", "to", "n"], |[from, to, n]| {
        let refuse = when(lt(acct.at(&from), &n), throw(&n), skip());
        let take = acct.put(&from, acct.at(&from) - &n);
        (seq([refuse, take, acct.put(&to, acct.at(&to) + &n)]), acct.at(&from))
    });
    let bank = declare.service()?;
    for n in [20, 90] {
        println!("{:?}", bank.atomically(pay, [3, 5, n]));
    }
    Ok(())
}
