/// Tables, as stm.hpp has them: cells by their names and by their numbers, and many at once.
#include "stm.hpp"
#include "wants.h"

#include <cstdint>
#include <limits>
#include <string>
#include <thread>
#include <utility>
#include <vector>

static const char TEXT[] = R"((stm 3) (var spare 9) (table acct 4 100) (table rate 2 5 6)
(always solvent (le 0 (min acct)))
(tx pay (from to n) (seq (put acct from (sub (at acct from) n)) (put acct to (add (at acct to) n))) (at acct from))
(tx audit () (skip) (sum acct))
(tx ends () (skip) (add (mul 1000 (max acct)) (min acct))))";

using numbers = std::vector<std::int64_t>;

static void is(std::optional<stm::present> found, std::int64_t value, std::uint64_t version) {
    wants(found && found->value == value && found->version == version);
}

static void are(const stm::answer<numbers> &found, const numbers &wanted) { wants(found && *found == wanted); }

static void calls_on_cells() {
    stm::service bank = stm::service::open(TEXT).value();
    wants(bank.atomically("pay", {0, 3, 60}).value() == 40 && bank.atomically("audit").value() == 400);
    wants(bank.observe("ends").value() == 160040);
    wants(bank.atomically("pay", {0, 4, 1}).code() == STM_OUTSIDE);
    wants(bank.atomically("pay", {-1, 0, 1}).word() == stm_word(STM_OUTSIDE));
    wants(bank.atomically("pay", {0, 1, 41}).broken() == 0 && bank.atomically("pay", {2, 2, 30}).value() == 100);
}

static void cells_that_are_told() {
    stm::service bank = stm::service::open(TEXT).value();
    wants(bool(bank.atomically("pay", {0, 3, 60})));
    for (bool closed : {false, true}) {
        is(bank.value("acct[3]"), 160, 1), is(bank.value("rate[1]"), 6, 0), is(bank.value("spare"), 9, 0);
        for (auto name : {"acct", "acct[4]", "acct[03]", "acct[-0]", "acct[3", "acct[]", "spare[0]"}) {
            wants(!bank.value(name));
        }
        wants(bank.table("acct") == 0u && bank.table("rate") == 1u && !bank.table("spare") && !bank.table("acct[0]"));
        wants(bank.table_length(0) == 4u && bank.table_length(1) == 2u && !bank.table_length(2));
        is(bank.cell(0, 0), 40, 1), is(bank.cell(0, 3), 160, 1), is(bank.cell(1, 0), 5, 0);
        wants(!bank.cell(0, 4) && !bank.cell(1, 2) && !bank.cell(2, 0));
        constexpr auto most = std::numeric_limits<std::uint32_t>::max();
        wants(!bank.cell(0, most) && !bank.cell(most, 0));
        wants(bank.cells(2).code() == STM_UNKNOWN && bank.cells(most, most, 0).code() == STM_UNKNOWN);
        are(bank.cells(0), {40, 100, 100, 160}), are(bank.cells(1), {5, 6});
        are(bank.cells(0, 1, 2), {100, 100}), are(bank.cells(0, 3), {160}), are(bank.cells(0, 2, 100), {100, 160});
        are(bank.cells(0, 0, 0), {}), are(bank.cells(0, 4), {}), are(bank.cells(0, most, 1), {});
        if (!closed) bank.close();
    }
}

static void what_is_declared() {
    const auto declared = stm::service::open(TEXT).value().declared();
    wants(declared.variables == std::vector<std::string>{"spare"} && declared.conditions == std::vector<std::string>{"solvent"});
    wants(declared.tables.size() == 2 && declared.tables[0].name == "acct" && declared.tables[0].cells == 4);
    wants(declared.tables[1].name == "rate" && declared.tables[1].cells == 2);
    const auto &calls = declared.transactions;
    wants(calls.size() == 3 && calls[0].name == "pay" && calls[1].name == "audit" && calls[2].name == "ends");
    const std::vector<std::string> of_pay = {"from", "to", "n"};
    wants(calls[0].parameters == of_pay && calls[1].parameters.empty());
    stm::service bank = stm::service::open("").value(), moved = std::move(bank);
    wants(moved.declared().transactions.empty() && bank.declared().variables.empty());
}

static void of_an_empty_service() {
    stm::service bank = stm::service::open(TEXT).value(), moved = std::move(bank);
    wants(!bank.table("acct") && !bank.table_length(0) && !bank.cell(0, 0));
    wants(bank.cells(0).code() == STM_EMPTY);
    wants(moved.table("acct") == 0u);
    are(moved.cells(1), {5, 6});
}

/// Each copy is of one state: what is paid is on one account, and never on none or two.
static void one_state() {
    stm::service bank = stm::service::open(TEXT).value();
    std::thread pays([&] {
        for (std::int64_t i = 0; i < 3000; i++) wants(bool(bank.atomically("pay", {i % 4, (i + 1) % 4, 50})));
    });
    for (int i = 0; i < 300; i++) {
        std::int64_t sum = 0;
        for (std::int64_t one : bank.cells(0).value()) sum += one;
        wants(sum == 400);
    }
    pays.join();
    bank.close();
    wants(bool(stm::check(bank.file().value(), bank.report().value())));
}

int main() {
    calls_on_cells();
    cells_that_are_told();
    what_is_declared();
    of_an_empty_service();
    one_state();
    puts("good");
    return 0;
}
