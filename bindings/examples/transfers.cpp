// A bank of 1,000 accounts in a table: four tellers pay amounts from account to account, and meanwhile audits look at all
// accounts of one moment. In the end the journal is judged.
#include <cstdint>
#include <cstdio>
#include <cstdlib>
#include <thread>
#include <vector>

#include "stm.hpp"

static const char BANK[] = R"((stm 3)
(table acct 1000 100)
(tx pay (from to n)
    (if (lt (at acct from) n)
        (throw (sub n (at acct from)))
        (seq (put acct from (sub (at acct from) n)) (put acct to (add (at acct to) n))))
    (at acct from))
(tx audit () (skip) (sum acct)))";

enum { ACCOUNTS = 1000, EACH = 100, TELLERS = 4, TRANSFERS = 1000 };

static void holds(bool so, const char *what) {
    if (so) return;
    std::fprintf(stderr, "not so: %s\n", what);
    std::exit(1);
}

/// Each transfer is paid, or throws what is missing.
static void teller(stm::service &bank, std::int64_t first) {
    const auto pay = bank.transaction<3>("pay").value();
    for (std::int64_t turn = first; turn < first + TRANSFERS; turn++) {
        stm::outcome left = bank.atomically(pay, turn * 7 % ACCOUNTS, turn * 13 % ACCOUNTS, turn % 150);
        holds(left || left.thrown() > 0, "paid or refused");
    }
}

int main() {
    stm::service bank = stm::service::open(BANK).value();
    std::vector<std::thread> tellers;
    for (int i = 0; i < TELLERS; i++) tellers.emplace_back([&bank, i] { teller(bank, i * ACCOUNTS / TELLERS); });
    while (bank.entered() < TELLERS * TRANSFERS) {
        holds(bank.observe("audit").value() == ACCOUNTS * EACH, "no money is lost");
    }
    for (auto &teller : tellers) teller.join();
    std::printf("%llu transfers, each paid or refused\n", static_cast<unsigned long long>(bank.entered()));
    std::printf("all accounts have %lld\n", static_cast<long long>(bank.observe("audit").value()));
    for (std::int64_t balance : bank.cells(bank.table("acct").value()).value()) holds(balance >= 0, "none owes");
    bank.close();
    holds(bool(stm::check(bank.file().value(), bank.report().value())), "the journal is good");
    std::printf("the journal is good\n");
    return 0;
}
