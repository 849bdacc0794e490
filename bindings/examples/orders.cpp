/// Orders that wait for stock, all in one thread: a future is what becomes of each, and who delivers serves those that
/// can be served. One that is taken back has no effect.
#include "stm.hpp"

#include <iostream>

constexpr std::size_t ORDERS = 10000;
constexpr std::int64_t DELIVERED = 5000;
constexpr const char *SHOP = R"((stm 3) (var stock 0)
(tx order (k) (if (lt stock k) (retry) (set stock (sub stock k))) k)
(tx deliver (k) (set stock (add stock k)) stock))";

int main() {
    std::size_t served = 0;
    std::int64_t pieces = 0;
    stm::service shop = stm::service::open(SHOP).value();
    for (std::size_t i = 0; i < ORDERS; i++) {
        auto order = shop.start("order", {static_cast<std::int64_t>(i) % 5 + 1}, [&](stm::outcome how) {
            served += bool(how);
            pieces += *how;
        });
        order.value();
    }
    std::future<stm::outcome> large = shop.future("order", {1000000});
    std::cout << ORDERS << " orders wait\n";
    while (served < ORDERS) shop.atomically("deliver", {DELIVERED}).value();
    std::cout << served << " are served: " << pieces << " pieces\n";
    stm::started largest = shop.start("order", {2000000}, [](stm::outcome) {}).value();
    std::cout << (largest.cancel() ? "taken back\n" : "told\n");
    shop.close();
    std::cout << large.get().word() << "\n";
}
