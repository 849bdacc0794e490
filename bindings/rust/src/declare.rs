//! A program declared in Rust: its parts make the text of a file, which the library reads.

use crate::error::Error;
use crate::service::{Service, ServiceOptions};
use crate::store::Program;
use crate::transaction::{Callable, Transaction};
use std::fmt::Write;
use std::ops::{Add, Div, Mul, Rem, Sub};

/// A declared variable.
#[derive(Clone, Debug)]
pub struct Var(String);

/// A declared table: cells, which are numbered from 0. A transaction with a number of no cell ends `Outside`.
#[derive(Clone, Debug)]
pub struct Table(String);

impl Table {
    /// The value of the cell of this number.
    pub fn at(&self, index: impl Into<Expr>) -> Expr {
        Expr(format!("(at {} {})", self.0, index.into().0))
    }

    /// Gives the cell of this number the value.
    pub fn put(&self, index: impl Into<Expr>, value: impl Into<Expr>) -> Stmt {
        Stmt(format!("(put {} {} {})", self.0, index.into().0, value.into().0))
    }

    /// The sum of the values of all cells.
    pub fn sum(&self) -> Expr {
        Expr(format!("(sum {})", self.0))
    }

    /// The least value of a cell.
    pub fn min(&self) -> Expr {
        Expr(format!("(min {})", self.0))
    }

    /// The greatest value of a cell.
    pub fn max(&self) -> Expr {
        Expr(format!("(max {})", self.0))
    }
}

/// A parameter of a transaction.
#[derive(Clone, Debug)]
pub struct Param(String);

/// An expression: a number of 64 signed bits, or a fault.
#[derive(Clone, Debug)]
pub struct Expr(String);

/// A condition.
#[derive(Clone, Debug)]
pub struct Cond(String);

/// A statement.
#[derive(Clone, Debug)]
pub struct Stmt(String);

/// The value of a variable.
pub fn var(var: &Var) -> Expr {
    Expr(var.0.clone())
}

/// The argument that a call gives for a parameter.
pub fn param(param: &Param) -> Expr {
    Expr(param.0.clone())
}

/// A number.
pub fn int(value: i64) -> Expr {
    Expr(value.to_string())
}

impl From<i64> for Expr {
    fn from(value: i64) -> Expr {
        int(value)
    }
}

impl From<&Var> for Expr {
    fn from(name: &Var) -> Expr {
        var(name)
    }
}

impl From<&Param> for Expr {
    fn from(name: &Param) -> Expr {
        param(name)
    }
}

fn two(word: &str, left: Expr, right: Expr) -> String {
    format!("({word} {} {})", left.0, right.0)
}

macro_rules! operator {
    ($trait:ident, $method:ident, $word:literal) => {
        impl<R: Into<Expr>> $trait<R> for Expr {
            type Output = Expr;
            fn $method(self, right: R) -> Expr {
                Expr(two($word, self, right.into()))
            }
        }
    };
}

operator!(Add, add, "add");
operator!(Sub, sub, "sub");
operator!(Mul, mul, "mul");
operator!(Div, div, "div");
operator!(Rem, rem, "rem");

/// The quotient, cut towards zero.
pub fn div(left: impl Into<Expr>, right: impl Into<Expr>) -> Expr {
    left.into() / right.into()
}

/// The remainder, with the sign of the left one.
pub fn rem(left: impl Into<Expr>, right: impl Into<Expr>) -> Expr {
    left.into() % right.into()
}

/// The sum of all, and 0 of none. `a + b + c ..` opens a parenthesis more for each part, of which a file has at
/// most 32 open at a time; this one opens as few as can be: neighbours are added, and then their sums.
///
/// ```
/// use stm::{skip, sum, Declare};
///
/// let mut bank = Declare::new();
/// let accounts: Vec<_> = (0..200).map(|i| bank.var(&format!("account{i}"), i)).collect();
/// let audit = bank.tx("audit", skip(), sum(&accounts));
/// let store = stm::Store::open(&bank.program()?, 1, 0)?;
/// assert_eq!(store.worker()?.observe(audit, []), Ok(stm::Outcome::Returned(19_900)));
/// # Ok::<(), stm::Error>(())
/// ```
pub fn sum<E: Into<Expr>>(parts: impl IntoIterator<Item = E>) -> Expr {
    let mut row: Vec<Expr> = parts.into_iter().map(Into::into).collect();
    while row.len() > 1 {
        let mut parts = row.into_iter();
        row = Vec::new();
        while let Some(left) = parts.next() {
            row.push(match parts.next() {
                Some(right) => left + right,
                None => left,
            });
        }
    }
    row.pop().unwrap_or(int(0))
}

/// Whether they are equal.
pub fn eq(left: impl Into<Expr>, right: impl Into<Expr>) -> Cond {
    Cond(two("eq", left.into(), right.into()))
}

/// Whether the left one is less.
pub fn lt(left: impl Into<Expr>, right: impl Into<Expr>) -> Cond {
    Cond(two("lt", left.into(), right.into()))
}

/// Whether the left one is at most the right one.
pub fn le(left: impl Into<Expr>, right: impl Into<Expr>) -> Cond {
    Cond(two("le", left.into(), right.into()))
}

/// Whether it is not so.
pub fn not(cond: Cond) -> Cond {
    Cond(format!("(not {})", cond.0))
}

/// Whether both are so.
pub fn and(left: Cond, right: Cond) -> Cond {
    Cond(format!("(and {} {})", left.0, right.0))
}

/// Whether one of them is so.
pub fn or(left: Cond, right: Cond) -> Cond {
    Cond(format!("(or {} {})", left.0, right.0))
}

/// Does nothing.
pub fn skip() -> Stmt {
    Stmt("(skip)".to_string())
}

/// Gives the variable the value.
pub fn set(var: &Var, value: impl Into<Expr>) -> Stmt {
    Stmt(format!("(set {} {})", var.0, value.into().0))
}

/// Its parts in turn.
pub fn seq(parts: impl IntoIterator<Item = Stmt>) -> Stmt {
    let mut text = "(seq".to_string();
    for part in parts {
        text.push(' ');
        text.push_str(&part.0);
    }
    text.push(')');
    Stmt(text)
}

/// The first where the condition is so, else the second.
pub fn when(cond: Cond, yes: Stmt, no: Stmt) -> Stmt {
    Stmt(format!("(if {} {} {})", cond.0, yes.0, no.0))
}

/// So many times, at most 1000.
pub fn repeat(times: u32, body: Stmt) -> Stmt {
    Stmt(format!("(repeat {times} {})", body.0))
}

/// Gives this state up: the task waits for a change of what it read.
pub fn retry() -> Stmt {
    Stmt("(retry)".to_string())
}

/// The first, unless that retries; then the second.
pub fn or_else(first: Stmt, second: Stmt) -> Stmt {
    Stmt(format!("(orelse {} {})", first.0, second.0))
}

/// Throws the value.
pub fn throw(value: impl Into<Expr>) -> Stmt {
    Stmt(format!("(throw {})", value.into().0))
}

/// The declarations of a program.
///
/// A name is a letter, and then letters, digits and `_`. Where another word was to be declared, `text` and `program`
/// answer `WrongName`. Of what else is wrong `program` and `service` tell the line and the column in `text`.
///
/// ```
/// use stm::{le, lt, seq, set, var, when, retry, skip, Declare};
///
/// let mut bank = Declare::new();
/// let alice = bank.var("alice", 100);
/// let bob = bank.var("bob", 20);
/// bank.always("solvent", le(0, var(&alice)));
/// let pay = bank.tx(
///     "pay",
///     seq([
///         when(lt(var(&alice), 60), retry(), skip()),
///         set(&alice, var(&alice) - 60),
///         set(&bob, var(&bob) + 60),
///     ]),
///     var(&bob),
/// );
/// bank.run(pay, 2);
/// let report = stm::run(&bank.program()?, 1)?;
/// assert_eq!(stm::present(&report, "bob"), Some(80));
/// assert!(report.contains("parked 1 pay\n"));
/// # Ok::<(), stm::Error>(())
/// ```
#[derive(Clone, Debug, Default)]
pub struct Declare {
    vars: String,
    tables: String,
    always: String,
    txs: Vec<Declared>,
    runs: Vec<Run>,
    // The first word that is none.
    wrong_name: Option<String>,
}

/// A transaction's name and parameters; and its body and result, as they are spelled.
#[derive(Clone, Debug)]
struct Declared {
    name: String,
    parameters: Vec<String>,
    program: String,
}

/// So many tasks of the transaction with this number.
#[derive(Clone, Debug)]
struct Run {
    transaction: u32,
    times: u32,
    arguments: Vec<i64>,
}

/// A letter, and then letters, digits and `_`.
fn is_name(word: &str) -> bool {
    word.starts_with(|first: char| first.is_ascii_alphabetic())
        && word.bytes().all(|byte| byte.is_ascii_alphanumeric() || byte == b'_')
}

impl Declare {
    /// Nothing declared yet.
    pub fn new() -> Declare {
        Declare::default()
    }

    /// The word where it is a name; else none, with which nothing is declared here nor anywhere else.
    fn named(&mut self, word: &str) -> String {
        if is_name(word) {
            return word.to_string();
        }
        self.wrong_name.get_or_insert_with(|| word.to_string());
        String::new()
    }

    /// A variable with its initial value.
    pub fn var(&mut self, name: &str, value: i64) -> Var {
        let name = self.named(name);
        let _ = writeln!(self.vars, "(var {name} {value})");
        Var(name)
    }

    /// A table of so many cells, each with this initial value.
    pub fn table(&mut self, name: &str, length: usize, value: i64) -> Table {
        let name = self.named(name);
        let _ = writeln!(self.tables, "(table {name} {length} {value})");
        Table(name)
    }

    /// A table with a cell for each of these initial values, in their order.
    pub fn table_of(&mut self, name: &str, values: &[i64]) -> Table {
        let name = self.named(name);
        let given: String = values.iter().map(|value| format!(" {value}")).collect();
        let _ = writeln!(self.tables, "(table {name} {}{given})", values.len());
        Table(name)
    }

    /// A standing condition, which each state keeps.
    pub fn always(&mut self, name: &str, cond: Cond) {
        let name = self.named(name);
        let _ = writeln!(self.always, "(always {name} {})", cond.0);
    }

    /// A transaction: a body, and a result that sees what the body wrote. It may be called in each service and store of
    /// the declarations, and of what they become later.
    pub fn tx(&mut self, name: &str, body: Stmt, result: impl Into<Expr>) -> Transaction<0> {
        self.tx_with(name, [], |[]| (body, result))
    }

    /// A transaction with parameters, at most 8, of these names: its body and its result, in which they are as
    /// numbers. A call gives an argument for each.
    ///
    /// ```
    /// use stm::{lt, seq, set, skip, throw, var, when, Declare, Fault};
    ///
    /// let mut bank = Declare::new();
    /// let (alice, bob) = (bank.var("alice", 100), bank.var("bob", 20));
    /// let pay = bank.tx_with("pay", ["n", "fee"], |[n, fee]| {
    ///     let price = stm::param(&n) + &fee;
    ///     let short = when(lt(&alice, price.clone()), throw(&alice), skip());
    ///     (seq([short, set(&alice, var(&alice) - price), set(&bob, var(&bob) + &n)]), &alice)
    /// });
    /// bank.run_with(pay, 1, [60, 1]);
    /// let bank = bank.service()?;
    /// assert_eq!(bank.value("alice"), Some((39, 1)));
    /// assert_eq!(bank.atomically(pay, [20, 1]), Ok(18));
    /// assert_eq!(bank.atomically(pay, [20, 1]), Err(Fault::Thrown(18)));
    /// # Ok::<(), stm::Error>(())
    /// ```
    pub fn tx_with<const N: usize, R: Into<Expr>>(
        &mut self,
        name: &str,
        parameters: [&str; N],
        make: impl FnOnce([Param; N]) -> (Stmt, R),
    ) -> Transaction<N> {
        let name = self.named(name);
        let parameters = parameters.map(|parameter| self.named(parameter));
        let (body, result) = make(parameters.clone().map(Param));
        let program = format!("{} {}", body.0, result.into().0);
        let transaction = Transaction::numbered(self.txs.len() as u32);
        self.txs.push(Declared { name, parameters: parameters.to_vec(), program });
        transaction
    }

    /// So many tasks that run the transaction, which has no parameters.
    ///
    /// ```compile_fail,E0271
    /// let mut bank = stm::Declare::new();
    /// let same = bank.tx_with("same", ["n"], |[n]| (stm::skip(), stm::param(&n)));
    /// bank.run(same, 1);
    /// ```
    pub fn run<T>(&mut self, transaction: T, times: u32)
    where
        T: for<'a> Callable<Arguments<'a> = [i64; 0]>,
    {
        self.run_with(transaction, times, []);
    }

    /// So many tasks that run the transaction, each with these arguments. By its number, with another number of
    /// arguments than it has parameters, the program is refused (`FileFault::Name`).
    ///
    /// ```
    /// let mut bank = stm::Declare::new();
    /// let same = bank.tx_with("same", ["n"], |[n]| (stm::skip(), stm::param(&n)));
    /// bank.run_with(same, 1, [7]);
    /// ```
    ///
    /// ```compile_fail,E0308
    /// let mut bank = stm::Declare::new();
    /// let same = bank.tx_with("same", ["n"], |[n]| (stm::skip(), stm::param(&n)));
    /// bank.run_with(same, 1, [7, 8]);
    /// ```
    pub fn run_with<T: Callable>(&mut self, transaction: T, times: u32, arguments: T::Arguments<'_>) {
        let arguments = arguments.as_ref().to_vec();
        self.runs.push(Run { transaction: transaction.number(), times, arguments });
    }

    /// The text of a file, of form 3 where there is a table, a parameter or an argument, else of form 2; `WrongName`
    /// where a word was to be declared that is no name, `UnknownTransaction` where a run's transaction is not declared
    /// here.
    ///
    /// # Errors
    ///
    /// [`Error::WrongName`]: a word was to be declared that is no name. [`Error::UnknownTransaction`]: a run's
    /// transaction is not declared here.
    pub fn text(&self) -> Result<String, Error> {
        if let Some(word) = &self.wrong_name {
            return Err(Error::WrongName(word.clone()));
        }
        let has_parameters = self.txs.iter().any(|tx| !tx.parameters.is_empty());
        let has_arguments = self.runs.iter().any(|run| !run.arguments.is_empty());
        let lists = has_parameters || has_arguments || !self.tables.is_empty();
        let mut txs = String::new();
        for Declared { name, parameters, program } in &self.txs {
            let list = if lists { format!("({}) ", parameters.join(" ")) } else { String::new() };
            let _ = writeln!(txs, "(tx {name} {list}{program})");
        }
        let form = if lists { 3 } else { 2 };
        let runs = self.spelled_runs()?;
        Ok(format!("(stm {form})\n{}{}{}{txs}{runs}", self.vars, self.tables, self.always))
    }

    fn spelled_runs(&self) -> Result<String, Error> {
        let mut runs = String::new();
        for Run { transaction, times, arguments } in &self.runs {
            let declared = self.txs.get(*transaction as usize);
            let Declared { name, .. } = declared.ok_or(Error::UnknownTransaction(*transaction))?;
            let given: String = arguments.iter().map(|argument| format!(" {argument}")).collect();
            let _ = writeln!(runs, "(run {name} {times}{given})");
        }
        Ok(runs)
    }

    /// The program, or where and why its text is refused.
    ///
    /// ```
    /// use stm::{set, var, Declare, Error, FileFault};
    ///
    /// let (mut one, mut other) = (Declare::new(), Declare::new());
    /// let (x, y) = (one.var("x", 0), other.var("y", 0));
    /// one.tx("copy", set(&x, var(&y)), &x);
    /// let refused = one.program().map(|_| ());
    /// assert!(matches!(refused, Err(Error::Refused { fault: FileFault::Name, line: 3, column: 17, .. })));
    /// assert_eq!(one.text()?.lines().nth(2), Some("(tx copy (set x y) x)"));
    /// # Ok::<(), stm::Error>(())
    /// ```
    ///
    /// # Errors
    ///
    /// As of [`Declare::text`], and of [`Program::read`].
    pub fn program(&self) -> Result<Program, Error> {
        Program::read(&self.text()?)
    }

    /// A service of the program, or where and why its text is refused.
    ///
    /// ```
    /// use stm::{retry, set, var, when, Declare};
    ///
    /// let mut queue = Declare::new();
    /// let length = queue.var("length", 0);
    /// let put = queue.tx("put", set(&length, var(&length) + 1), &length);
    /// let taken = when(stm::lt(&length, 1), retry(), set(&length, var(&length) - 1));
    /// let get = queue.tx("get", taken, &length);
    /// let queue = queue.service()?;
    /// std::thread::scope(|scope| {
    ///     let waits = scope.spawn(|| queue.atomically(get, []));
    ///     assert!(queue.atomically(put, []).is_ok());
    ///     assert_eq!(waits.join().unwrap(), Ok(0));
    /// });
    /// # Ok::<(), stm::Error>(())
    /// ```
    ///
    /// # Errors
    ///
    /// As of [`Declare::text`], and of [`Service::open`].
    pub fn service(&self) -> Result<Service, Error> {
        Service::open(&self.text()?)
    }

    /// As `service`, by options of one's own.
    ///
    /// ```
    /// use stm::{set, var, Declare, ServiceOptions};
    ///
    /// let mut declare = Declare::new();
    /// let n = declare.var("n", 0);
    /// let inc = declare.tx("inc", set(&n, var(&n) + 1), var(&n));
    /// let service = declare.service_with(ServiceOptions::new().room(2))?;
    /// for _ in 0..5 {
    ///     service.atomically(inc, []).expect("it returns");
    /// }
    /// assert_eq!((service.chapter(), service.entered()), (2, 5));
    /// # Ok::<(), stm::Error>(())
    /// ```
    ///
    /// # Errors
    ///
    /// As of [`Declare::text`], and of [`Service::open_with`].
    pub fn service_with(&self, options: ServiceOptions) -> Result<Service, Error> {
        Service::open_with(&self.text()?, options)
    }
}
