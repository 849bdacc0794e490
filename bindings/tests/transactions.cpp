/// Transactions of which stm.hpp knows how many arguments they take: in each call, and looked up by their names. That a
/// call with another number of them does not compile is tried by bindings/languages.py.
#include "stm.hpp"
#include "wants.h"

#include <array>
#include <cstdint>
#include <utility>
#include <vector>

using namespace std::chrono_literals;

/// `digits` returns its arguments as the digits of a number; `pay` takes so much from what is here.
static const char TEXT[] = R"((stm 3) (var here 100)
(tx none () (skip) here)
(tx pay (n) (if (lt here n) (throw n) (set here (sub here n))) here)
(tx digits (a b c d e f g h) (skip) (add (mul
    (add (mul (add (mul (add (mul (add (mul (add (mul (add (mul a 10) b) 10) c) 10) d) 10) e) 10) f) 10) g) 10) h))
(tx three (a b c) (skip) (add (mul (add (mul a 10) b) 10) c))
(tx wait () (retry) 0))";

static void each_call() {
    stm::service bank = stm::service::open(TEXT).value();
    auto none = bank.transaction<0>("none").value();
    auto pay = bank.transaction<1>("pay").value();
    auto wait = bank.transaction<0>("wait").value();
    wants(bank.atomically(none).value() == 100 && bank.atomically(none, {}).value() == 100);
    wants(bank.atomically(pay, 60).value() == 40 && bank.atomically(pay, 60).thrown() == 60);
    wants(bank.atomically(pay, {1}).value() == 39);
    wants(bank.try_atomically(pay, 1).value() == 38 && bank.try_atomically(pay, {1}).value() == 37);
    wants(bank.atomically_within(1ms, pay, 1).value() == 36 && bank.atomically_within(1ms, pay, {1}).value() == 35);
    wants(bank.observe(pay, 5).value() == 30 && bank.observe(pay, {6}).value() == 29);
    wants(bank.observe(none).value() == 35 && bank.observe(none, {}).value() == 35);
    wants(bank.future(pay, 1).get().value() == 34 && bank.future(pay, {1}).get().value() == 33);
    std::int64_t told = 0;
    auto tells = [&](stm::outcome how) { told += how.value(); };
    wants(bool(bank.start(pay, {1}, tells)) && told == 32 && bool(bank.start(none, {}, tells)) && told == 64);
    wants(bank.try_atomically(wait).code() == STM_RETRIES && bank.observe(wait).code() == STM_RETRIES);
    wants(bank.atomically_within(1ms, wait).code() == STM_TIMED_OUT);
    std::future<stm::outcome> waits = bank.future(wait);
    wants(waits.wait_for(0s) == std::future_status::timeout);
    bank.close();
    wants(waits.get().code() == STM_CLOSED && bank.atomically(pay, 1).code() == STM_CLOSED);
}

/// As many integers of any type that fits, or an array.
static void each_way_to_give_them() {
    stm::service bank = stm::service::open(TEXT).value();
    auto digits = bank.transaction<8>("digits").value();
    auto three = bank.transaction<3>("three").value();
    wants(bank.atomically(digits, 1, 2, 3, 4, 5, 6, 7, 8).value() == 12345678);
    enum { FOUR = 4 };
    const std::int64_t five = 5;
    short six = 6;
    wants(bank.atomically(three, FOUR, five, six).value() == 456);
    wants(bank.atomically(three, {FOUR, five, six}).value() == 456);
    const std::int64_t numbers[] = {7, 8, 9};
    std::array<std::int64_t, 3> others = {9, 8, 7};
    wants(bank.atomically(three, numbers).value() == 789 && bank.atomically(three, others).value() == 987);
    std::int64_t told = 0;
    auto tells = [&](stm::outcome how) { told += how.value(); };
    wants(bool(bank.start(three, numbers, tells)) && told == 789);
    wants(bool(bank.start(three, others, tells)) && told == 789 + 987);
    std::int64_t one[] = {2};
    wants(bank.atomically(bank.transaction<1>("pay").value(), one).value() == 98);
    const std::vector<std::array<std::int64_t, 3>> rows = {{7, 8, 9}, {1, 2, 3}};
    auto each = bank.each(three, rows);
    wants(each.size() == 2 && each[0].value() == 789 && each[1].value() == 123);
    wants(bank.atomically(three.number(), {1, 2, 3}).value() == 123);
    wants(bank.atomically(three.number(), {1, 2}).code() == STM_UNKNOWN);
}

template <std::size_t Parameters> static bool has(const stm::service &bank, const char *name) {
    auto found = bank.transaction<Parameters>(name);
    wants(found.code() == (found ? STM_DONE : STM_UNKNOWN));
    return bool(found);
}

static void what_is_looked_up() {
    stm::service bank = stm::service::open(TEXT).value();
    wants(has<0>(bank, "none") && !has<1>(bank, "none") && !has<8>(bank, "none"));
    wants(!has<0>(bank, "pay") && has<1>(bank, "pay") && !has<2>(bank, "pay"));
    wants(!has<7>(bank, "digits") && has<8>(bank, "digits") && !has<9>(bank, "digits"));
    wants(!has<0>(bank, "here") && !has<0>(bank, "") && !has<1>(bank, "Pay"));
    wants(bank.transaction<3>("three")->number() == bank.transaction("three").value());
    auto pay = bank.transaction<1>("pay").value();
    stm::service moved = std::move(bank);
    wants(bank.transaction<1>("pay").code() == STM_EMPTY && bank.atomically(pay, 1).code() == STM_EMPTY);
    wants(bank.start(pay, {1}, [](stm::outcome) {}).code() == STM_EMPTY);
    wants(bank.future(pay, 1).get().code() == STM_EMPTY);
    wants(moved.atomically(pay, 1).value() == 99);
}

static const char OTHER[] = R"((stm 3)
(tx same (n) (skip) n)
(tx half (n) (skip) (div n 2))
(tx none () (skip) 5))";

/// It is good in each service of the same program. In one of another program it is what has its number there.
static void of_another_service() {
    stm::service bank = stm::service::open(TEXT).value(), same = stm::service::open(TEXT).value();
    stm::service other = stm::service::open(OTHER).value();
    auto pay = bank.transaction<1>("pay").value();
    wants(same.atomically(pay, 60).value() == 40 && bank.atomically(pay, 60).value() == 40);
    wants(other.atomically(pay, 60).value() == 30);
    auto digits = bank.transaction<8>("digits").value();
    wants(other.atomically(digits, 1, 2, 3, 4, 5, 6, 7, 8).code() == STM_UNKNOWN);
    wants(other.atomically(bank.transaction<0>("wait").value()).code() == STM_UNKNOWN && other.entered() == 1);
}

int main() {
    each_call();
    each_way_to_give_them();
    what_is_looked_up();
    of_another_service();
    puts("good");
    return 0;
}
