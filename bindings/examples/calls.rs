//! Each way in which a call can end, what a commit wakes, and a chapter. docs/EMBEDDING.md shows what it prints.
use stm::{lt, retry, set, throw, var, when, Answer, Declare, End, Error, Outcome, Store, Way};

/// Each way in which a call can end.
fn tell(what: &str, answer: Result<Answer, Error>) {
    match answer.map(|told| (told.ticket, told.end)) {
        Ok((_, End::Entered(entered))) => match entered.outcome {
            Outcome::Returned(value) => println!("{what}: returned {value}, entry {}", entered.number),
            Outcome::Thrown(value) => println!("{what}: threw {value}, entry {}", entered.number),
            Outcome::Overflow | Outcome::DivideByZero | Outcome::Broken(_) | Outcome::Outside => {
                println!("{what}: {:?}, entry {}", entered.outcome, entered.number)
            }
        },
        Ok((ticket, End::Parked)) => println!("{what}: waits with ticket {}", ticket.0),
        Ok((_, End::Abandoned)) => println!("{what}: no memory"),
        Err(error) => println!("{what}: {error}"),
    }
}

fn main() -> Result<(), Error> {
    let mut declare = Declare::new();
    let (here, out) = (declare.var("here", 100), declare.var("out", 0));
    let pay = when(lt(&here, 60), throw(60), set(&here, var(&here) - 60));
    let pay = declare.tx("pay", pay, &here);
    let put = declare.tx("put", set(&out, var(&out) + 1), &out);
    let get = declare.tx("get", when(lt(&out, 1), retry(), set(&out, var(&out) - 1)), &out);

    let store = Store::open_with_room(&declare.program()?, 0, 0, 5)?;
    tell("pay", store.call(pay, [], Way::Waits));
    tell("pay", store.call(pay, [], Way::Waits));
    tell("get", store.call(get, [], Way::Waits));
    std::thread::scope(|scope| {
        scope.spawn(|| tell("put", store.call(put, [], Way::Waits)));
    });
    while let Ok(woken) = store.take() {
        println!("ticket {} was woken", woken.ticket.0);
        tell("get", store.turn(woken));
    }
    tell("get", store.call(get, [], Way::Tries));
    let (report, file) = store.report_and_file()?;
    println!("{:?}", stm::check(&file, &report)?);
    store.begin_chapter();
    tell("put", store.call(put, [], Way::Waits));
    Ok(())
}
