//! Tables: declared, worked on, and looked at by the numbers of cells and by their names.

use stm::*;

/// `pay` moves so much between two accounts, or throws what is missing; `audit` returns what they have together.
fn declared() -> Declare {
    let mut bank = Declare::new();
    let (acct, rate) = (bank.table("acct", 4, 100), bank.table_of("rate", &[5, -6, 7]));
    bank.always("solvent", le(0, acct.min()));
    bank.tx_with("pay", ["from", "to", "n"], |[from, to, n]| {
        let short = when(lt(acct.at(&from), &n), throw(param(&n) - acct.at(&from)), skip());
        let paid = [acct.put(&from, acct.at(&from) - &n), acct.put(&to, acct.at(&to) + &n)];
        (seq([short, paid[0].clone(), paid[1].clone()]), acct.at(&from))
    });
    bank.tx("audit", skip(), acct.sum());
    bank.tx("rates", skip(), rate.min() * 100 + rate.max());
    bank.tx_with("owe", ["n"], |[n]| (acct.put(&n, -1), 0));
    bank
}

const PAY: u32 = 0;
const AUDIT: u32 = 1;
const RATES: u32 = 2;
const OWE: u32 = 3;

#[test]
fn what_is_declared() {
    let program = declared().program().unwrap();
    let found = program.declared();
    let names = |names: &[&str]| names.iter().map(|name| name.to_string()).collect::<Vec<_>>();
    assert_eq!(found.variables, names(&[]));
    assert_eq!(found.tables, [("acct".to_string(), 4), ("rate".to_string(), 3)]);
    assert_eq!(found.conditions, names(&["solvent"]));
    let transactions: Vec<_> = found.transactions.iter().map(|(name, _)| name.clone()).collect();
    assert_eq!(transactions, names(&["pay", "audit", "rates", "owe"]));
    assert_eq!(found.transactions[0].1, names(&["from", "to", "n"]));
    assert_eq!((found.transactions[1].1.len(), &found.transactions[3].1), (0, &names(&["n"])));
    assert_eq!(Service::open(program.text()).unwrap().declared(), found);
}

#[test]
fn cells_of_a_store() {
    let program = declared().program().unwrap();
    assert_eq!((program.tables(), program.table("acct"), program.table("rate")), (2, Some(0), Some(1)));
    assert_eq!((program.table("pay"), program.table("acct[0]")), (None, None));
    assert_eq!((program.cells(0), program.cells(1), program.cells(2)), (Some(4), Some(3), None));
    let store = Store::open_with_room(&program, 0, 0, 2).unwrap();
    let ended = |number, value| End::Entered(Entered { number, outcome: Outcome::Returned(value) });
    assert_eq!(store.call(PAY, &[0, 3, 60], Way::Waits).unwrap().end, ended(1, 40));
    assert_eq!(
        (store.cell(0, 0), store.cell(0, 3), store.cell(0, 1)),
        (Some((40, 1)), Some((160, 1)), Some((100, 0)))
    );
    assert_eq!((store.cell(0, 4), store.cell(1, 3), store.cell(2, 0)), (None, None, None));
    assert_eq!((store.value("acct[3]"), store.value("rate[1]")), (Some((160, 1)), Some((-6, 0))));
    for word in ["acct", "acct[4]", "acct[03]", "acct[-0]", "acct[3", "acct[]", "rates[0]"] {
        assert_eq!(store.value(word), None, "{word}");
    }
    let mut values = [0; 3];
    assert_eq!((store.cells(0, 2, &mut values), values), (Some(2), [100, 160, 0]));
    assert_eq!((store.cells(0, 0, &mut values), values), (Some(3), [40, 100, 100]));
    assert_eq!((store.cells(1, 0, &mut values), values), (Some(3), [5, -6, 7]));
    assert_eq!((store.cells(0, 4, &mut values), store.cells(0, u32::MAX, &mut values)), (Some(0), Some(0)));
    assert_eq!(
        (store.cells(0, 0, &mut []), store.cells(2, 0, &mut values), values),
        (Some(0), None, [5, -6, 7])
    );
    let report = store.report().unwrap();
    assert!(report.ends_with("now 1\nacct[0] 40 1\nacct[3] 160 1\nend\n"));
    assert_eq!(check(&store.file().unwrap(), &report), Ok(Verdict::Good));
}

#[test]
fn calls_on_cells() {
    let bank = declared().service().unwrap();
    assert_eq!(
        (bank.atomically(PAY, &[0, 3, 60]), bank.atomically(PAY, &[0, 3, 60])),
        (Ok(40), Err(Fault::Thrown(20)))
    );
    assert_eq!((bank.atomically(AUDIT, &[]), bank.atomically(RATES, &[])), (Ok(400), Ok(-593)));
    assert_eq!(bank.atomically(PAY, &[0, 4, 1]), Err(Fault::Outside));
    assert_eq!(bank.atomically(PAY, &[-1, 0, 1]), Err(Fault::Outside));
    assert_eq!(bank.atomically(OWE, &[2]), Err(Fault::Broken(0)));
    assert_eq!((bank.value("acct[3]"), bank.value("acct[4]")), (Some((160, 1)), None));
}

#[test]
fn cells_of_a_service() {
    let bank = declared().service().unwrap();
    assert_eq!(bank.atomically(PAY, &[0, 3, 60]), Ok(40));
    for _closed in [false, true] {
        assert_eq!((bank.table("acct"), bank.table("rate"), bank.table("acct[0]")), (Some(0), Some(1), None));
        assert_eq!(
            (bank.table_length(0), bank.table_length(1), bank.table_length(2)),
            (Some(4), Some(3), None)
        );
        assert_eq!((bank.cell(0, 3), bank.cell(1, 1)), (Some((160, 1)), Some((-6, 0))));
        assert_eq!((bank.cell(0, 4), bank.cell(2, 0)), (None, None));
        let mut values = [0; 3];
        assert_eq!((bank.cells(0, 2, &mut values), values), (Some(2), [100, 160, 0]));
        assert_eq!((bank.cells(0, 0, &mut values), values), (Some(3), [40, 100, 100]));
        assert_eq!((bank.cells(0, 4, &mut values), bank.cells(2, 0, &mut values)), (Some(0), None));
        bank.close();
    }
}

/// Why a file is refused.
fn fault(error: Error) -> FileFault {
    match error {
        Error::Refused { fault, .. } => fault,
        other => panic!("{other}"),
    }
}

#[test]
fn limits() {
    let refused = |make: &dyn Fn(&mut Declare)| {
        let mut declare = Declare::new();
        make(&mut declare);
        declare.program().map(|_| ()).map_err(fault)
    };
    assert_eq!(refused(&|all| drop(all.table("t", 1, 0))), Ok(()));
    assert_eq!(refused(&|all| drop(all.table("t", 0, 0))), Err(FileFault::Limit));
    assert_eq!(refused(&|all| drop(all.table_of("t", &[]))), Err(FileFault::Shape));
    assert_eq!(refused(&|all| drop(all.table("t", 1_048_576, 0))), Ok(()));
    assert_eq!(refused(&|all| drop(all.table("t", 1_048_577, 0))), Err(FileFault::Limit));
    assert_eq!(refused(&|all| (0..64).for_each(|i| drop(all.table(&format!("t{i}"), 1, 0)))), Ok(()));
    assert_eq!(
        refused(&|all| (0..65).for_each(|i| drop(all.table(&format!("t{i}"), 1, 0)))),
        Err(FileFault::Limit)
    );
    assert_eq!(refused(&|all| (0..2).for_each(|_| drop(all.table("t", 1, 0)))), Err(FileFault::Name));
}
