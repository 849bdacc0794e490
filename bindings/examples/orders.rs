//! Orders that wait for stock, all in one thread: each is a future, and who delivers serves those that can be served.
//! One that is dropped is taken back. The executor is the shortest: it polls all that were woken, one after another.

use std::future::Future;
use std::pin::Pin;
use std::sync::atomic::{AtomicBool, Ordering};
use std::sync::Arc;
use std::task::{Context, Poll, Wake, Waker};
use stm::{Error, Fault, Service, Transaction};

const ORDERS: i64 = 10_000;
const TEXT: &str = "(stm 3) (var stock 0)
    (tx order (k) (if (lt stock k) (retry) (set stock (sub stock k))) k)
    (tx deliver (k) (set stock (add stock k)) stock)";

/// What can be called in the shop.
struct Shop {
    service: Service,
    order: Transaction<1>,
    deliver: Transaction<1>,
}

impl Shop {
    fn open() -> Result<Shop, Error> {
        let service = Service::open(TEXT)?;
        let (order, deliver) = (service.transaction_of("order")?, service.transaction_of("deliver")?);
        Ok(Shop { service, order, deliver })
    }
}

/// An order, and whether it was woken.
struct Order<'a> {
    future: Pin<Box<dyn Future<Output = Result<i64, Fault>> + 'a>>,
    woken: Arc<Woken>,
}

impl<'a> Order<'a> {
    fn new(future: impl Future<Output = Result<i64, Fault>> + 'a) -> Order<'a> {
        Order { future: Box::pin(future), woken: Arc::new(Woken(AtomicBool::new(true))) }
    }
}

struct Woken(AtomicBool);

impl Wake for Woken {
    fn wake(self: Arc<Self>) {
        self.0.store(true, Ordering::Release);
    }
}

/// It is paid once it was served.
async fn order(shop: &Shop, pieces: i64) -> Result<i64, Fault> {
    let served = shop.service.call(shop.order, [pieces]).await?;
    Ok(served * 3)
}

/// Polls the orders that were woken: what those paid that were served. They are gone then.
fn poll(orders: &mut Vec<Order<'_>>) -> Result<i64, Fault> {
    let mut paid = Ok(0);
    orders.retain_mut(|order| {
        if !order.woken.0.swap(false, Ordering::Acquire) {
            return true;
        }
        let waker = Waker::from(order.woken.clone());
        match order.future.as_mut().poll(&mut Context::from_waker(&waker)) {
            Poll::Pending => true,
            Poll::Ready(answer) => {
                paid = paid.and_then(|sum| Ok(sum + answer?));
                false
            }
        }
    });
    paid
}

fn main() -> Result<(), Box<dyn std::error::Error>> {
    let shop = Shop::open()?;
    let mut orders: Vec<_> = (0..ORDERS).map(|i| Order::new(order(&shop, i % 5 + 1))).collect();
    let mut paid = poll(&mut orders)?;
    println!("{} orders wait", orders.len());
    while !orders.is_empty() {
        shop.service.atomically(shop.deliver, [5_000])?;
        paid += poll(&mut orders)?;
    }
    println!("all are served, and paid {paid}");
    orders.push(Order::new(order(&shop, 1_000_000)));
    poll(&mut orders)?;
    orders.clear();
    let none_left = shop.service.try_atomically(shop.order, [1]) == Err(Fault::Retries);
    println!("one is taken back: {none_left}");
    Ok(())
}
