//! Calls of a service from Rust, by the crate: `calls.c` makes its calls by these where it is built with -DRUST.
//!
//!     rustc -O --crate-type rlib --crate-name stm ../rust/src/lib.rs
//!     rustc -O -C panic=abort --crate-type staticlib --extern stm=libstm.rlib calls.rs

use std::sync::OnceLock;
use stm::{Fault, Service};

struct Bank {
    service: Service,
    pay: u32,
    audit: u32,
    put: u32,
    get: u32,
}

static BANK: OnceLock<Bank> = OnceLock::new();

fn bank() -> &'static Bank {
    BANK.get().expect("it was opened")
}

/// # Safety
/// The text is so many bytes.
#[no_mangle]
pub unsafe extern "C" fn rust_opens(text: *const u8, length: usize) {
    // SAFETY: as the caller says.
    let text = std::str::from_utf8(unsafe { std::slice::from_raw_parts(text, length) }).expect("it is ASCII");
    let service = Service::open(text).expect("the file is good");
    let named = |name| service.transaction(name).unwrap_or(0);
    let (pay, audit, put, get) = (named("pay"), named("audit"), named("put"), named("get"));
    BANK.set(Bank { service, pay, audit, put, get }).ok().expect("it is opened once");
}

#[no_mangle]
pub extern "C" fn rust_pays(from: i64, to: i64, amount: i64) -> i64 {
    let bank = bank();
    match bank.service.atomically(bank.pay, &[from, to, amount]) {
        Ok(left) => left,
        Err(Fault::Thrown(amount)) => !amount,
        Err(_) => i64::MIN,
    }
}

#[no_mangle]
pub extern "C" fn rust_audits() -> i64 {
    let bank = bank();
    bank.service.atomically(bank.audit, &[]).unwrap_or(-1)
}

#[no_mangle]
pub extern "C" fn rust_puts(buffer: i64, value: i64) {
    let bank = bank();
    bank.service.atomically(bank.put, &[buffer, value]).expect("it returns");
}

#[no_mangle]
pub extern "C" fn rust_gets(buffer: i64) -> i64 {
    let bank = bank();
    bank.service.atomically(bank.get, &[buffer]).expect("it returns")
}

#[no_mangle]
pub extern "C" fn rust_value(index: i64) -> i64 {
    bank().service.value(&format!("acct[{index}]")).map_or(-1, |(value, _)| value)
}
