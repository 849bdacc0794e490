/// What stm.hpp gives a transaction: as many arguments as it has parameters, in their order; else the call is refused.
#include "stm.hpp"
#include "wants.h"

#include <array>
#include <cstddef>
#include <cstdint>
#include <limits>
#include <thread>
#include <vector>

using namespace std::chrono_literals;

/// `digits` returns its arguments as the digits of a number.
static const char TEXT[] = R"((stm 3) (var alice 100) (var bob 20)
(tx pay (n) (seq (if (lt alice n) (throw n) (skip)) (set alice (sub alice n)) (set bob (add bob n))) alice)
(tx take (n) (seq (if (lt bob n) (retry) (skip)) (set bob (sub bob n))) n)
(tx sum () (skip) (add alice bob))
(tx same (n) (skip) n)
(tx digits (a b c d e f g h) (skip) (add (mul
    (add (mul (add (mul (add (mul (add (mul (add (mul (add (mul a 10) b) 10) c) 10) d) 10) e) 10) f) 10) g) 10) h)))";

static void each_way_to_give_them() {
    stm::service bank = stm::service::open(TEXT).value();
    wants(bank.atomically("pay", {60}).value() == 40 && bank.atomically("pay", {60}).thrown() == 60);
    wants(bank.atomically("sum").value() == 120 && bank.atomically("sum", {}).value() == 120);
    auto digits = bank.transaction("digits").value();
    wants(bank.atomically(digits, {1, 2, 3, 4, 5, 6, 7, 8}).value() == 12345678);
    std::vector<std::int64_t> numbers = {8, 7, 6, 5, 4, 3, 2, 1};
    std::array<std::int64_t, 8> ones = {1, 1, 1, 1, 1, 1, 1, 1};
    wants(bank.observe(digits, numbers).value() == 87654321 && bank.try_atomically(digits, ones).value() == 11111111);
    wants(bank.atomically_within(1s, digits, {numbers.data(), 8}).value() == 87654321);
    constexpr auto least = std::numeric_limits<std::int64_t>::min(), most = std::numeric_limits<std::int64_t>::max();
    wants(bank.atomically("same", {least}).value() == least && bank.atomically("same", {most}).value() == most);
    stm::arguments kept = {5};
    for (int i = 1; i <= 4; i++) wants(bank.atomically("pay", kept).value() == 40 - 5 * i);
    wants(kept.size() == 1 && *kept.data() == 5 && bank.value("alice")->value == 20);
}

static void more_or_fewer() {
    stm::service bank = stm::service::open(TEXT).value();
    const std::size_t wanted[] = {1, 1, 0, 1, 8};
    for (std::uint32_t transaction = 0; transaction < 5; transaction++) {
        wants(bank.parameters(transaction) == wanted[transaction]);
        for (std::size_t count = 0; count < 20; count++) {
            if (count == wanted[transaction]) continue;
            std::vector<std::int64_t> given(count, 1);
            wants(bank.atomically(transaction, given).code() == STM_UNKNOWN);
            wants(bank.try_atomically(transaction, given).code() == STM_UNKNOWN);
            wants(bank.atomically_within(1ms, transaction, given).code() == STM_UNKNOWN);
            wants(bank.observe(transaction, given).code() == STM_UNKNOWN);
        }
    }
    wants(bank.entered() == 0 && !bank.parameters(5) && bank.atomically("pay").code() == STM_UNKNOWN);
    stm::service moved = std::move(bank);
    wants(!bank.parameters(0) && bank.atomically("pay", {1}).code() == STM_EMPTY && moved.parameters(0) == 1u);
}

static void each_waits_with_its_own() {
    stm::service bank = stm::service::open(TEXT).value();
    std::vector<std::thread> waiting;
    for (std::int64_t n = 21; n <= 24; n++) {
        waiting.emplace_back([&bank, n] { wants(bank.atomically("take", {n}).value() == n); });
    }
    for (int i = 0; i < 70; i++) wants(bool(bank.atomically("pay", {1})));
    for (auto &thread : waiting) thread.join();
    wants(bank.value("bob")->value == 0);
    bank.close();
    wants(bool(stm::check(bank.file().value(), bank.report().value())));
}

int main() {
    each_way_to_give_them();
    more_or_fewer();
    each_waits_with_its_own();
    puts("good");
    return 0;
}
