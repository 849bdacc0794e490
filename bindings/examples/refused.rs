//! What a host tells whoever wrote a file that is refused: where and why, and the line with its fault.

use stm::{Error, Service};

const BANK: &str = "(var here 100) (var there 0)
(tx pay (seq (set heer (sub here 60)) (set there (add there 60))) here)
";

fn main() {
    match Service::open(BANK) {
        Ok(_bank) => println!("good"),
        Err(Error::Refused { line, column, text, .. }) => {
            println!("{text}\n{}\n{:>column$}", BANK.lines().nth(line - 1).unwrap_or(""), "^");
        }
        Err(error) => println!("{error}"),
    }
}
