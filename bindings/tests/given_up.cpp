/// Calls that are given up, by stm.hpp: nothing is entered of them when what they waited for comes. And tries take no
/// room.
#include "stm.hpp"
#include "wants.h"

#include <chrono>
#include <string>

using namespace std::chrono_literals;

// `long_get` is evaluated outside the lock, and retries at once.
static const char TEXT[] = R"((stm 3) (var box 0) (var d 0)
(tx put (k) (set box (add box k)) box)
(tx get (k) (if (lt box k) (retry) (set box (sub box k))) k)
(tx long_get (k) (seq (if (lt box k) (retry) (set box (sub box k))) (repeat 10 (repeat 100 (set d (add d 1))))) k))";

static stm::service opened(std::size_t room = 0) {
    stm::options how;
    how.room = room;
    return stm::service::open(TEXT, std::move(how)).value();
}

static void wants_nothing_of_it(stm::service &bank, std::string_view name) {
    wants(*bank.atomically("put", {5}) == 5 && bank.value("box")->value == 5 && bank.entered() == 1);
    std::string report = bank.report().value();
    wants(report.find("\nmemory 0 " + std::string(name) + "\n") != report.npos);
    wants(report.find("\nparked ") == report.npos && bool(stm::check(bank.file().value(), report)));
}

static void one_whose_time_is_up(std::string_view name) {
    stm::service bank = opened();
    stm::outcome late = bank.atomically_within(1ms, name, {5});
    wants(late.code() == STM_TIMED_OUT && late.entry() == 0 && !late.ticket() && !late.place());
    wants_nothing_of_it(bank, name);
}

static void one_that_is_cancelled(std::string_view name) {
    stm::service bank = opened();
    int told = 0;
    auto waits = bank.start(name, {5}, [&](stm::outcome) { told++; });
    wants(waits && waits->cancel());
    wants_nothing_of_it(bank, name);
    wants(told == 0 && !waits->cancel());
}

/// Whoever started a call and lets its future go has not given it up: C++ has no such word. `start` has.
static void one_whose_future_is_let_go() {
    stm::service bank = opened();
    { auto waits = bank.future("get", {5}); }
    wants(*bank.atomically("put", {5}) == 5 && bank.value("box")->value == 0 && bank.entered() == 2);
}

static void tries_take_no_room() {
    stm::service bank = opened(10);
    auto number = bank.transaction("long_get").value();
    for (int i = 0; i < 70000; i++) wants(bank.try_atomically(number, {1}).code() == STM_RETRIES);
    for (int i = 0; i < 100; i++) wants(bank.atomically_within(0s, number, {1}).code() == STM_TIMED_OUT);
    wants(bank.chapter() == 0 && bank.entered() == 0);
    for (int i = 0; i < 10; i++) wants(bool(bank.atomically("put", {1})));
    wants(bank.chapter() == 0 && *bank.try_atomically(number, {10}) == 10 && bank.chapter() == 1);
}

int main() {
    for (auto name : {"get", "long_get"}) {
        one_whose_time_is_up(name);
        one_that_is_cancelled(name);
    }
    one_whose_future_is_let_go();
    tries_take_no_room();
    std::puts("good");
}
