//! A thousand wages are paid in one call, each as a step of its own: the last one finds too little.

use stm::Service;

const BANK: &str = "(stm 3)
(var cash 99950)
(table acct 1000 0)
(tx wage (to n)
    (seq
        (if (lt cash n) (throw (sub n cash)) (skip))
        (set cash (sub cash n))
        (put acct to (add (at acct to) n)))
    cash)";

fn main() -> Result<(), stm::Error> {
    let bank = Service::open(BANK)?;
    let wages: Vec<[i64; 2]> = (0..1000).map(|to| [to, 100]).collect();
    let paid = bank.each(bank.transaction_of::<2>("wage")?, &wages);
    let returned = paid.iter().filter(|one| one.is_ok()).count();
    println!("{returned} of {} wages are paid", paid.len());
    for (i, one) in paid.iter().enumerate() {
        if let Err(fault) = one {
            println!("{i}: {fault:?}");
        }
    }
    Ok(())
}
