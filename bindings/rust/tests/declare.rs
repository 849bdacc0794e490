//! Each way to declare: the text that it makes, and what it does where it is run.

use stm::*;

/// How a transaction of this body and result ends, over `x` = 7 and `y` = -2.
fn ends(make: impl Fn(&Var, &Var) -> (Stmt, Expr)) -> Result<Outcome, Error> {
    let mut declare = Declare::new();
    let (x, y) = (declare.var("x", 7), declare.var("y", -2));
    let (body, result) = make(&x, &y);
    declare.tx("t", body, result);
    let store = Store::open(&declare.program().unwrap(), 1, 0).unwrap();
    let mut worker = store.worker().unwrap();
    worker.observe(0, &[])
}

fn value(make: impl Fn(&Var, &Var) -> Expr) -> Outcome {
    ends(|x, y| (skip(), make(x, y))).unwrap()
}

/// Whether the condition is so.
fn holds(make: impl Fn(&Var, &Var) -> Cond) -> bool {
    match ends(|x, y| (when(make(x, y), skip(), throw(99)), int(1))) {
        Ok(Outcome::Returned(1)) => true,
        Ok(Outcome::Thrown(99)) => false,
        other => panic!("a condition ends with {other:?}"),
    }
}

#[test]
fn expressions() {
    use Outcome::Returned;
    assert_eq!(value(|x, _| x.into()), Returned(7));
    assert_eq!(value(|x, y| var(x) + y), Returned(5));
    assert_eq!(value(|x, y| var(x) - y), Returned(9));
    assert_eq!(value(|x, y| var(x) * y), Returned(-14));
    assert_eq!((value(|x, y| var(x) / y), value(|x, y| var(x) % y)), (Returned(-3), Returned(1)));
    assert_eq!((value(|x, y| div(x, y)), value(|x, y| rem(x, y))), (Returned(-3), Returned(1)));
    assert_eq!((value(|x, y| div(y, x)), value(|x, y| rem(y, x))), (Returned(0), Returned(-2)));
    assert_eq!((value(|_, _| int(-5)), value(|_, _| 4.into())), (Returned(-5), Returned(4)));
    assert_eq!(value(|x, _| sum([x, x, x])), Returned(21));
    assert_eq!((value(|_, _| sum::<Expr>([])), value(|_, y| sum([y]))), (Returned(0), Returned(-2)));
    assert_eq!(value(|_, _| sum(0..256)), Returned(32640));
}

#[test]
fn conditions() {
    assert_eq!([holds(|x, _| eq(x, 7)), holds(|x, _| eq(x, 8))], [true, false]);
    assert_eq!([holds(|x, _| lt(x, 8)), holds(|x, _| lt(x, 7)), holds(|x, _| lt(6, x))], [true, false, true]);
    assert_eq!([holds(|x, _| le(x, 7)), holds(|x, _| le(x, 6)), holds(|x, _| le(7, x))], [true, false, true]);
    let (yes, no) = (|| eq(0, 0), || eq(0, 1));
    let both = [(yes(), yes()), (yes(), no()), (no(), yes()), (no(), no())];
    let anded = both.clone().map(|(a, b)| holds(|_, _| and(a.clone(), b.clone())));
    let ored = both.map(|(a, b)| holds(|_, _| or(a.clone(), b.clone())));
    assert_eq!((anded, ored), ([true, false, false, false], [true, true, true, false]));
    assert_eq!([holds(|_, _| not(no())), holds(|_, _| not(yes()))], [true, false]);
}

#[test]
fn statements() {
    use Outcome::{Returned, Thrown};
    assert_eq!(ends(|x, _| (set(x, 3), x.into())), Ok(Returned(3)));
    assert_eq!(ends(|x, y| (seq([set(x, y), set(y, var(x) * 10)]), var(x) + y)), Ok(Returned(-22)));
    assert_eq!(ends(|x, _| (seq([]), x.into())), Ok(Returned(7)));
    assert_eq!(ends(|x, _| (when(lt(x, 0), set(x, 1), set(x, 2)), x.into())), Ok(Returned(2)));
    assert_eq!(ends(|x, _| (when(lt(0, x), set(x, 1), set(x, 2)), x.into())), Ok(Returned(1)));
    assert_eq!(ends(|x, _| (repeat(5, set(x, var(x) + 2)), x.into())), Ok(Returned(17)));
    assert_eq!(ends(|x, _| (retry(), x.into())), Err(Error::Retries));
    assert_eq!(ends(|x, _| (throw(var(x) + 1), x.into())), Ok(Thrown(8)));
    let first = |x: &Var| seq([set(x, 1), retry()]);
    assert_eq!(ends(|x, y| (or_else(first(x), set(y, 4)), var(x) + y)), Ok(Returned(11)));
    assert_eq!(ends(|x, y| (or_else(set(x, 1), set(y, 4)), var(x) + y)), Ok(Returned(-1)));
    assert_eq!(ends(|x, _| (or_else(retry(), retry()), x.into())), Err(Error::Retries));
}

#[test]
fn faults() {
    assert_eq!(value(|_, _| int(i64::MAX) + 1), Outcome::Overflow);
    assert_eq!(value(|x, _| div(x, 0)), Outcome::DivideByZero);
    assert_eq!(value(|x, _| rem(x, 0)), Outcome::DivideByZero);
}

#[test]
fn a_whole_text() {
    let mut all = Declare::new();
    let (x, y) = (all.var("x", 7), all.var("Y_2", i64::MIN));
    all.always("low", and(lt(&x, 9), or(le(&y, 0), not(eq(&x, &y)))));
    let body = seq([
        set(&x, var(&x) + 1 - 2),
        when(eq(&x, 6), skip(), retry()),
        or_else(repeat(3, set(&y, var(&y) * 1)), throw(div(&x, rem(&y, 5)))),
    ]);
    let tx = all.tx("t", body, sum([&x, &x, &y]));
    all.run(tx, 3);
    let text = "(stm 2)\n(var x 7)\n(var Y_2 -9223372036854775808)\n\
        (always low (and (lt x 9) (or (le Y_2 0) (not (eq x Y_2)))))\n\
        (tx t (seq (set x (sub (add x 1) 2)) (if (eq x 6) (skip) (retry)) \
        (orelse (repeat 3 (set Y_2 (mul Y_2 1))) (throw (div x (rem Y_2 5))))) (add (add x x) Y_2))\n\
        (run t 3)\n";
    assert_eq!(all.text().as_deref(), Ok(text));
    assert_eq!(all.program().unwrap().text(), text);
}

/// Tables stand between variables and conditions, and each transaction has its list of parameters.
#[test]
fn tables() {
    let mut bank = Declare::new();
    let (acct, rate) = (bank.table("acct", 4, 100), bank.table_of("rate", &[5, -6, 7]));
    let spare = bank.var("spare", 0);
    bank.always("solvent", le(0, acct.min()));
    bank.tx("audit", skip(), acct.sum() + rate.max());
    let pay = bank.tx_with("pay", ["from", "to", "n"], |[from, to, n]| {
        let paid = [acct.put(&from, acct.at(&from) - &n), acct.put(&to, acct.at(&to) + &n)];
        (seq(paid), acct.at(var(&spare) + 1))
    });
    bank.run_with(pay, 1, [0, 1, 60]);
    let text = "(stm 3)\n(var spare 0)\n(table acct 4 100)\n(table rate 3 5 -6 7)\n\
        (always solvent (le 0 (min acct)))\n(tx audit () (skip) (add (sum acct) (max rate)))\n\
        (tx pay (from to n) (seq (put acct from (sub (at acct from) n)) (put acct to (add (at acct to) n))) \
        (at acct (add spare 1)))\n(run pay 1 0 1 60)\n";
    assert_eq!(bank.text().as_deref(), Ok(text));
    bank.table("a[0]", 1, 0);
    assert_eq!(bank.text(), Err(Error::WrongName("a[0]".to_string())));
}

/// Why a file is refused.
fn fault(error: Error) -> FileFault {
    match error {
        Error::Refused { fault, .. } => fault,
        other => panic!("{other}"),
    }
}

/// A word that is no name declares nothing, and is spliced in nowhere.
#[test]
fn names_are_judged() {
    for word in ["", "x 1) (var y", "1x", "_x", "x-", "x\n", "é", "x)", "(", " x"] {
        let told = Err(Error::WrongName(word.to_string()));
        let mut vars = Declare::new();
        let wrong = vars.var(word, 2);
        assert_eq!((vars.text(), vars.program().map(|_| String::new())), (told.clone(), told.clone()));
        // The first one is told.
        vars.var("2", 2);
        let mut always = Declare::new();
        always.always(word, eq(0, 0));
        let mut txs = Declare::new();
        txs.tx(word, skip(), 0);
        assert_eq!([vars.text(), always.text(), txs.text()], [told.clone(), told.clone(), told]);
        // Nor is it in another program.
        let mut other = Declare::new();
        other.tx("t", set(&wrong, 1), 0);
        assert_eq!(other.program().map(|_| ()).map_err(fault), Err(FileFault::Shape), "{word}");
    }
    let mut long = Declare::new();
    long.var(&"a".repeat(32), 0);
    assert!(long.program().is_ok());
    long.var(&"b".repeat(33), 0);
    assert_eq!(long.program().map(|_| ()).map_err(fault), Err(FileFault::Limit));
    let mut twice = Declare::new();
    twice.var("x", 0);
    twice.var("x", 0);
    assert_eq!(twice.program().map(|_| ()).map_err(fault), Err(FileFault::Name));
}

/// 31 additions open 31 parentheses, and the transaction one; the sum of so many parts opens few.
#[test]
fn depth() {
    let chain = |parts: i64| {
        let mut deep = Declare::new();
        let x = deep.var("x", 1);
        deep.tx("t", skip(), (1..parts).fold(var(&x), |all, one| all + one));
        deep.program().map(|_| ()).map_err(fault)
    };
    assert_eq!((chain(32), chain(33)), (Ok(()), Err(FileFault::Shape)));
    let mut flat = Declare::new();
    flat.tx("t", skip(), sum(0..10_000));
    assert!(flat.program().is_ok());
}
