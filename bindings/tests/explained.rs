//! Where and why each file is refused, in a line of its own: line, column and words; or `good`.
//!
//!     explained FILE ..

use stm::{Error, Program};

fn main() {
    for path in std::env::args().skip(1) {
        let file = std::fs::read_to_string(path).expect("it is a text");
        let read = Program::read(&file).map(|_| ());
        assert_eq!(read, stm::explain(&file));
        match read {
            Ok(()) => println!("good"),
            Err(Error::Refused { line, column, text, .. }) => println!("{line} {column} {text}"),
            Err(other) => panic!("{other}"),
        }
    }
}
