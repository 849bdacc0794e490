/// Calls without a thread by stm.hpp: who is told, futures, and what is given up; and all that was kept for them is let
/// go.
#include "stm.hpp"
#include "wants.h"

#include <atomic>
#include <chrono>
#include <functional>
#include <memory>
#include <thread>
#include <type_traits>
#include <vector>

using namespace std::chrono_literals;

static const char TEXT[] = R"((stm 3) (var box 0)
(tx put (k) (set box (add box k)) box)
(tx get (k) (if (lt box k) (retry) (set box (sub box k))) k)
(tx fail (k) (throw k) 0)
(tx open () (set box 1) box) (tx wait (k) (if (eq box 0) (retry) (skip)) k))";

static stm::service opened() { return stm::service::open(TEXT).value(); }

/// Who is told, and how many of them there are.
struct hears {
    static std::atomic<int> there;
    std::vector<stm::outcome> *told;

    explicit hears(std::vector<stm::outcome> *all) : told(all) { there++; }
    hears(hears &&other) noexcept : told(other.told) { there++; }
    ~hears() { there--; }
    void operator()(stm::outcome how) { told->push_back(how); }
};
std::atomic<int> hears::there{0};

static void each_is_told() {
    std::vector<stm::outcome> told;
    stm::service bank = opened();
    auto put = bank.start("put", {5}, hears(&told));
    wants(put && put->ticket() == 0 && told.size() == 1 && told[0] && *told[0] == 5 && told[0].ticket() == 0u);
    wants(!put->cancel() && hears::there == 0);
    auto bad = bank.start("fail", {7}, hears(&told));
    wants(bad && told.size() == 2 && told[1].thrown() == 7 && told[1].entry() == 2);
    auto waits = bank.start("get", {10}, hears(&told)), too = bank.start(1, {20}, hears(&told));
    wants(waits && too && told.size() == 2 && hears::there == 2);
    wants(too->cancel() && !too->cancel() && hears::there == 1);
    wants(*bank.atomically("put", {5}) == 10 && told.size() == 3 && *told[2] == 10 && hears::there == 0);
    wants(!bank.start("put", {}, hears(&told)) && bank.start("none", {}, hears(&told)).code() == STM_UNKNOWN);
    auto last = bank.start("get", {1}, hears(&told));
    wants(last && hears::there == 1);
    bank.close();
    wants(told.size() == 4 && told[3].code() == STM_CLOSED && told[3].entry() == 0 && hears::there == 0);
    wants(bank.start("put", {1}, hears(&told)).code() == STM_CLOSED && told.size() == 4);
    wants(hears::there == 0);
    stm::service moved = std::move(bank);
    wants(bank.start("put", {1}, hears(&told)).code() == STM_EMPTY);
    wants(hears::there == 0);
}

/// Those that wait are told, and let go, before the service is gone.
static void goes_out_of_scope() {
    std::vector<stm::outcome> told;
    {
        stm::service bank = opened();
        for (int i = 0; i < 3; i++) wants(bool(bank.start("get", {1}, hears(&told))));
        wants(hears::there == 3);
    }
    wants(told.size() == 3 && told[2].code() == STM_CLOSED && hears::there == 0);
}

/// Each starts the next one, which its host moves on.
static void a_chain() {
    stm::service bank = opened();
    int left = 10000;
    std::function<void(stm::outcome)> next = [&](stm::outcome how) {
        wants(bool(how));
        if (--left > 0) wants(bool(bank.start("put", {1}, next)));
    };
    wants(bank.start("put", {1}, next) && left == 0 && bank.value("box")->value == 10000);
}

static void futures() {
    stm::service bank = opened();
    std::future<stm::outcome> pays = bank.future("get", {3});
    wants(pays.wait_for(1ms) == std::future_status::timeout);
    std::thread puts([&] { wants(bool(bank.atomically("put", {5}))); });
    stm::outcome paid = pays.get();
    puts.join();
    wants(paid && *paid == 3 && paid.entry() == 2 && bank.value("box")->value == 2);
    wants(bank.future("none").get().code() == STM_UNKNOWN && bank.future(0).get().code() == STM_UNKNOWN);
    wants(bank.future("fail", {9}).get().thrown() == 9);
    auto late = bank.future(1, {100});
    wants(!bank.future("get", {200}).valid() || late.valid());
    bank.close();
    wants(late.get().code() == STM_CLOSED && bank.future("put", {1}).get().code() == STM_CLOSED);
    stm::service moved = std::move(bank);
    wants(bank.future("put", {1}).get().code() == STM_EMPTY);
}

/// One commit makes all ready.
static void many_wait(long count) {
    stm::service bank = opened();
    std::vector<std::future<stm::outcome>> all;
    for (long i = 0; i < count; i++) all.push_back(bank.future("wait", {i}));
    wants(all.back().wait_for(0s) == std::future_status::timeout && *bank.atomically("open") == 1);
    for (long i = 0; i < count; i++) wants(*all[static_cast<std::size_t>(i)].get() == i);
    wants(bank.entered() == static_cast<std::uint64_t>(count) + 1);
}

/// Threads start, others give up: each is told once, or was given up.
static void by_threads() {
    constexpr int threads = 4, calls = 500;
    std::atomic<long> told{0}, given_up{0}, begun{0};
    stm::service bank = opened();
    std::vector<std::thread> all;
    for (int i = 0; i < threads; i++) {
        all.emplace_back([&, i] {
            for (int j = 0; j < calls; j++) {
                auto hear = [&told, own = std::make_unique<int>(j)](stm::outcome) { told++; };
                auto call = i % 2 ? bank.start("put", {1}, std::move(hear)) : bank.start("get", {1}, std::move(hear));
                begun += bool(call);
                if (j % 3 == 0) given_up += call->cancel();
            }
        });
    }
    for (auto &thread : all) thread.join();
    bank.close();
    wants(begun == threads * calls && told + given_up == begun);
}

int main() {
    static_assert(std::is_copy_constructible_v<stm::started>);
    each_is_told();
    goes_out_of_scope();
    a_chain();
    futures();
    many_wait(60000);
    by_threads();
    std::puts("good");
}
