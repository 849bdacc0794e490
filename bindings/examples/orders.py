"""Orders that wait for stock, all in one thread: each is awaited, and who delivers serves those that can be served. One
that is cancelled is taken back."""

import asyncio

import stm

ORDERS = 10_000
SHOP = """(stm 3) (var stock 0)
    (tx order (k) (if (lt stock k) (retry) (set stock (sub stock k))) k)
    (tx deliver (k) (set stock (add stock k)) stock)"""


async def order(shop, pieces):
    served = await shop.call("order", [pieces])
    return served * 3


async def main():
    with stm.Service(SHOP) as shop:
        orders = [asyncio.ensure_future(order(shop, i % 5 + 1)) for i in range(ORDERS)]
        await asyncio.sleep(0)
        print(sum(not order.done() for order in orders), "orders wait")
        for _ in range(6):
            await shop.call("deliver", [5_000])
        print("all are served, and paid", sum(await asyncio.gather(*orders)))
        try:
            await asyncio.wait_for(order(shop, 1_000_000), 0.01)
        except asyncio.TimeoutError:
            print("one is taken back")


asyncio.run(main())
