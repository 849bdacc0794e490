//! A bank of 1,000 accounts, by the module that `stm-bind` makes of examples/tellers.stm: one pays 100 to another, and
//! then has too little to pay that again.

mod tellers;

use stm::Fault;

fn main() -> Result<(), stm::Error> {
    let bank = tellers::Tellers::open()?;
    for _ in 0..2 {
        match bank.pay(3, 5, 100) {
            Ok(left) => println!("done {left}"),
            Err(Fault::Thrown(amount)) => println!("thrown {amount}"),
            Err(fault) => println!("{fault}"),
        }
    }
    println!("account 3 has {}", bank.acct(3).expect("it is there"));
    Ok(())
}
