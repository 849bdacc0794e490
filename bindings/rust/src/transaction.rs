//! Which transaction a call makes, and how many arguments it is given.

use crate::error::Error;

mod sealed {
    pub trait Sealed {}
}

/// A transaction that has `N` parameters: its number, and in its type how many arguments a call gives it. `Declare::tx`
/// and `tx_with` answer one, and `Service::transaction_of` looks one up by its name, once. A call by it looks up
/// nothing, and one with another number of arguments does not compile.
///
/// ```
/// let bank = stm::Service::open("(stm 3) (var here 100) (tx pay (n fee) (set here (sub here (add n fee))) here)")?;
/// let pay = bank.transaction_of::<2>("pay")?;
/// assert_eq!(bank.atomically(pay, [60, 1]), Ok(39));
/// # Ok::<(), stm::Error>(())
/// ```
///
/// With an argument less, or with one more:
///
/// ```compile_fail,E0308
/// let bank = stm::Service::open("(stm 3) (var here 100) (tx pay (n fee) (set here (sub here (add n fee))) here)")?;
/// let pay = bank.transaction_of::<2>("pay")?;
/// assert_eq!(bank.atomically(pay, [60]), Ok(39));
/// # Ok::<(), stm::Error>(())
/// ```
///
/// ```compile_fail,E0308
/// let bank = stm::Service::open("(stm 3) (var here 100) (tx pay (n fee) (set here (sub here (add n fee))) here)")?;
/// let pay = bank.transaction_of::<2>("pay")?;
/// assert_eq!(bank.atomically(pay, [60, 1, 1]), Ok(39));
/// # Ok::<(), stm::Error>(())
/// ```
///
/// It holds nothing of the program in which it was declared or looked up. So it may be used in each service, store and
/// worker of the same program, however that was opened. In those of another program it is what has its number there:
/// with another number of parameters the call is refused (`WrongArguments`, `UnknownTransaction`), with as many it is
/// made.
#[derive(Clone, Copy, Debug, PartialEq, Eq, Hash)]
pub struct Transaction<const N: usize> {
    number: u32,
}

impl<const N: usize> Transaction<N> {
    /// Its number, for a call with a slice of arguments.
    pub fn number(self) -> u32 {
        self.number
    }

    pub(crate) fn numbered(number: u32) -> Transaction<N> {
        Transaction { number }
    }

    /// The transaction of this name, by its number and how many parameters it has, where there is one.
    pub(crate) fn of(name: &str, found: Option<(u32, usize)>) -> Result<Transaction<N>, Error> {
        match found {
            Some((number, parameters)) if parameters == N => Ok(Transaction { number }),
            _ => Err(Error::NoTransaction { name: name.to_string(), parameters: N }),
        }
    }
}

/// What a call may name its transaction by: a [`Transaction`], with an array of as many arguments as it has parameters;
/// or its number, with a slice, whose length is looked at as the call is made. No other type is.
///
/// ```
/// use stm::{Callable, Fault, Service};
///
/// fn twice<T: Callable + Copy>(bank: &Service, call: T, arguments: [T::Arguments<'_>; 2]) -> Result<i64, Fault> {
///     let [first, second] = arguments;
///     Ok(bank.atomically(call, first)? + bank.atomically(call, second)?)
/// }
///
/// let bank = Service::open("(stm 3) (var here 0) (tx put (k) (set here (add here k)) here)")?;
/// let put = bank.transaction_of::<1>("put")?;
/// assert_eq!(twice(&bank, put, [[1], [2]]), Ok(4));
/// assert_eq!(twice(&bank, put.number(), [&[1], &[2]]), Ok(10));
/// assert_eq!(bank.atomically(0, &[]), Err(Fault::WrongArguments { transaction: 0, parameters: 1, given: 0 }));
/// # Ok::<(), stm::Error>(())
/// ```
pub trait Callable: sealed::Sealed {
    /// The arguments of a call, in the order of the parameters.
    type Arguments<'a>: AsRef<[i64]>;

    /// The number of the transaction.
    fn number(&self) -> u32;
}

impl<const N: usize> sealed::Sealed for Transaction<N> {}
impl sealed::Sealed for u32 {}
impl<T: sealed::Sealed> sealed::Sealed for &T {}

impl<const N: usize> Callable for Transaction<N> {
    type Arguments<'a> = [i64; N];

    fn number(&self) -> u32 {
        self.number
    }
}

impl Callable for u32 {
    type Arguments<'a> = &'a [i64];

    fn number(&self) -> u32 {
        *self
    }
}

impl<T: Callable> Callable for &T {
    type Arguments<'a> = T::Arguments<'a>;

    fn number(&self) -> u32 {
        T::number(self)
    }
}

/// What many calls may name their transaction by, with `N` arguments for each: a [`Transaction`] of as many parameters;
/// or a number, whose parameters are counted as the calls are made.
pub trait CallableByRows<const N: usize>: Callable {}

impl<const N: usize> CallableByRows<N> for Transaction<N> {}
impl<const N: usize> CallableByRows<N> for u32 {}
impl<const N: usize, T: CallableByRows<N>> CallableByRows<N> for &T {}
