/// Many calls at once, by stm.hpp: each is answered as by a try of its own, and rows of each kind are taken.
#include "stm.hpp"
#include "wants.h"

#include <algorithm>
#include <array>
#include <atomic>
#include <cstdint>
#include <string>
#include <thread>
#include <utility>
#include <vector>

static const char TEXT[] = R"((stm 3) (table acct 10 100)
(tx pay (from to n) (seq (if (lt (at acct from) n) (throw n) (skip))
    (put acct from (sub (at acct from) n)) (put acct to (add (at acct to) n))) (at acct from))
(tx take (to n) (seq (if (lt (at acct 3) n) (retry) (skip))
    (put acct 3 (sub (at acct 3) n)) (put acct to (add (at acct to) n))) (at acct 3))
(tx audit () (skip) (sum acct)))";

using payment = std::array<std::int64_t, 3>;
using codes = std::vector<std::int32_t>;

static codes codes_of(const std::vector<stm::outcome> &all) {
    codes found;
    for (const auto &one : all) found.push_back(one.code());
    return found;
}

static void each_way_to_end() {
    stm::service bank = stm::service::open(TEXT).value();
    std::vector<payment> payments = {{3, 5, 60}, {3, 5, 60}, {3, 10, 1}, {5, 3, 10}};
    auto paid = bank.each("pay", payments);
    wants((codes_of(paid) == codes{STM_DONE, STM_THROWN, STM_OUTSIDE, STM_DONE}));
    wants(*paid[0] == 40 && paid[1].thrown() == 60 && *paid[3] == 150 && paid[3].entry() == 4 && paid[3].place() == 3u);
    const std::array<std::int64_t, 2> takings[] = {{5, 20}, {5, 40}, {5, 30}};
    auto taken = bank.each("take", takings);
    wants((codes_of(taken) == codes{STM_DONE, STM_RETRIES, STM_DONE}) && !taken[1].ticket() && *taken[2] == 0);
    std::array<std::array<std::int64_t, 0>, 5> nothing{};
    auto sums = bank.each(*bank.transaction("audit"), nothing);
    wants(sums.size() == 5 && std::all_of(sums.begin(), sums.end(), [](const auto &one) { return *one == 1000; }));
    const std::int64_t numbers[] = {5, 3, 1, 5, 3, 2};
    auto more = bank.each("pay", {numbers, 3, 2});
    wants(more.size() == 2 && *more[0] == 199 && *more[1] == 197 && bank.entered() == 13);
    wants(bank.each("pay", std::vector<payment>()).empty());
    bank.close();
    wants(bool(stm::check(bank.file().value(), bank.report().value())));
}

static void what_is_refused() {
    stm::service bank = stm::service::open(TEXT).value();
    const std::vector<payment> payments(70, payment{3, 5, 1});
    const std::int64_t numbers[] = {3, 5};
    wants(codes_of(bank.each("pay", {numbers, 2, 1})) == codes{STM_UNKNOWN});
    wants(codes_of(bank.each("take", payments)) == codes(70, STM_UNKNOWN));
    wants(codes_of(bank.each("none", payments)) == codes(70, STM_UNKNOWN));
    wants(codes_of(bank.each(99, payments)) == codes(70, STM_UNKNOWN) && bank.entered() == 0);
    stm::service moved = std::move(bank);
    wants(codes_of(bank.each("pay", payments)) == codes(70, STM_EMPTY));
    wants(codes_of(bank.each(0, payments)) == codes(70, STM_EMPTY));
    moved.close();
    wants(codes_of(moved.each("pay", payments)) == codes(70, STM_CLOSED));
}

/// A keeper that keeps, and one that does not: it is told once of each chapter that is full.
static void chapters(bool keeps) {
    int told = 0;
    stm::options how;
    how.room = 10;
    how.on_chapter = [&](std::string_view file, std::string_view report) {
        wants(bool(stm::check(file, report)));
        return told++, keeps;
    };
    stm::service bank = stm::service::open(TEXT, std::move(how)).value();
    auto paid = codes_of(bank.each("pay", std::vector<payment>(50, payment{3, 5, 1})));
    codes wanted(50, STM_DONE);
    if (!keeps) std::fill(wanted.begin() + 20, wanted.end(), STM_NO_ROOM);
    wants(paid == wanted && told == (keeps ? 4 : 2) && bank.chapter() == (keeps ? 4u : 1u));
}

/// Each thread makes many, and others one by one: the sum stays.
static void beside_others() {
    stm::options how;
    how.room = 3000;
    stm::service bank = stm::service::open(TEXT, std::move(how)).value();
    std::atomic<bool> is_over{false};
    std::thread audits([&] {
        while (!is_over) wants(*bank.atomically("audit") == 1000);
    });
    std::vector<std::thread> threads;
    for (std::int64_t thread = 0; thread < 3; thread++) {
        threads.emplace_back([&bank, thread] {
            std::vector<payment> payments;
            for (std::int64_t i = 0; i < 5000; i++) payments.push_back({i * 7 % 10, (i + thread) % 10, i % 130});
            for (const auto &one : bank.each("pay", payments)) wants(one || one.thrown());
        });
    }
    for (auto &thread : threads) thread.join();
    is_over = true;
    audits.join();
    wants(*bank.atomically("audit") == 1000 && bank.entered() > 15000);
}

int main() {
    each_way_to_end();
    what_is_refused();
    chapters(true);
    chapters(false);
    beside_others();
    puts("good");
    return 0;
}
