/// What stm.hpp answers: each way in which a call can end, threads that wait, chapters, and whole files.
#include "stm.hpp"
#include "wants.h"

#include <atomic>
#include <cstdlib>
#include <functional>
#include <stdexcept>
#include <string>
#include <thread>
#include <type_traits>
#include <utility>
#include <vector>

using namespace std::chrono_literals;

/// The memory of the library, which is counted.
struct block {
    bool got;
    void *at;
};
static std::atomic<long> blocks{0};

extern "C" block rattle_alloc(std::size_t size, std::size_t) { return blocks++, block{true, std::malloc(size + 1)}; }
extern "C" block rattle_realloc(void *old, std::size_t, std::size_t size, std::size_t) {
    return block{true, std::realloc(old, size + 1)};
}
extern "C" void rattle_dealloc(void *old) { blocks--, std::free(old); }

static const char TEXT[] = R"((stm 2) (var n 0) (var out 0) (var most 9223372036854775807)
(always low (le out 2))
(tx inc (set n (add n 1)) n)
(tx put (if (le 2 out) (retry) (set out (add out 1))) out)
(tx get (if (eq out 0) (retry) (set out (sub out 1))) out)
(tx bad (throw -7) 0)
(tx big (set most (add most 1)) 0)
(tx cut (set n (div n 0)) 0)
(tx over (set out 3) 0)
(tx wait (if (lt n 10) (retry) (skip)) n))";

using Pairs = std::vector<std::pair<std::string, std::string>>;

static stm::service opened(std::size_t room = 0, Pairs *pairs = nullptr) {
    stm::options how;
    how.room = room;
    if (pairs) {
        how.on_chapter = [pairs](std::string_view file, std::string_view report) {
            return pairs->emplace_back(file, report), true;
        };
    }
    return stm::service::open(TEXT, std::move(how)).value();
}

/// How many entries the chapters and the present one have, each with a good report.
static std::uint64_t entries(const stm::service &service, Pairs pairs) {
    pairs.emplace_back(service.file().value(), service.report().value());
    std::uint64_t count = 0;
    for (const auto &[file, report] : pairs) {
        wants(bool(stm::check(file, report)));
        for (auto at = report.find("\nentry "); at != report.npos; at = report.find("\nentry ", at + 1)) count++;
    }
    return count;
}

static void until_parked(const stm::service &service) {
    while (service.report().value().find("\nparked ") == std::string::npos) std::this_thread::yield();
}

static void by_threads(int count, const std::function<void()> &work) {
    std::vector<std::thread> threads;
    for (int i = 0; i < count; i++) threads.emplace_back(work);
    for (auto &thread : threads) thread.join();
}

static void each_way_to_end() {
    static_assert(std::is_move_constructible_v<stm::service> && !std::is_copy_constructible_v<stm::service>);
    stm::service service = opened();
    stm::outcome one = service.atomically("inc");
    wants(one && *one == 1 && one.value() == 1 && one.entry() == 1 && one.word() == "done" && !one.thrown());
    wants(one.ticket() == 0u && one.chapter() == 0 && !service.observe("inc").ticket());
    wants(one.place() == 0u && !service.observe("inc").place());
    stm::outcome bad = service.atomically("bad");
    wants(!bad && bad.thrown() == -7 && !bad.broken() && bad.entry() == 2 && bad.ticket() == 1u);
    wants(service.atomically("big").code() == STM_OVERFLOW && service.atomically("cut").code() == STM_DIVIDE_BY_ZERO);
    wants(service.atomically("over").broken() == 0 && service.entered() == 5);
    wants(service.try_atomically("get").code() == STM_RETRIES && !service.try_atomically("get").ticket());
    wants(service.try_atomically("none").ticket() == std::nullopt && service.observe("get").code() == STM_RETRIES);
    wants(service.atomically_within(1ms, "get").code() == STM_TIMED_OUT);
    wants(service.atomically_within(-1s, "get").code() == STM_TIMED_OUT);
    wants(service.atomically_within(std::chrono::duration<double>(0.001), "get").code() == STM_TIMED_OUT);
    wants(service.atomically("none").code() == STM_UNKNOWN && service.atomically(99).code() == STM_UNKNOWN);
    wants(service.observe("none").code() == STM_UNKNOWN && service.try_atomically(99).entry() == 0);
    wants(!service.transaction("none") && !service.value("none") && service.entered() == 5);
    wants(service.value("n")->value == 1 && service.value("n")->version == 1 && service.value("out")->version == 0);
    wants(service.observe("inc").value() == 2 && service.observe("bad").thrown() == -7 && service.entered() == 5);
    wants(service.atomically("put").value() == 1 && service.atomically_within(std::chrono::hours::max(), "get"));
    wants(service.atomically(*service.transaction("put")) && service.entered() == 8);
    service.close();
    wants(bool(stm::check(service.file().value(), service.report().value())));
}

static void errors_that_are_thrown() {
    stm::service service = opened();
    auto threw = [&](auto call) -> std::string {
        try {
            call();
        } catch (const stm::error &error) {
            return error.what() + (", " + std::to_string(error.code()) + ", " + std::to_string(error.value()));
        }
        return "nothing";
    };
    wants(threw([&] { return service.atomically("bad").value(); }) == "stm: thrown -7, 5, -7");
    wants(threw([&] { return service.atomically("over").value(); }) == "stm: broken condition 0, 8, 0");
    wants(threw([&] { return service.try_atomically("get").value(); }) == "stm: retries, 1, 0");
    wants(threw([&] { return service.atomically("inc").value(); }) == "nothing");
    wants(threw([] { return stm::service::open("(var").value().entered(); }).find(", -3, 0") != std::string::npos);
    wants(stm::service::open("(var x 1) (var x 1)").code() == STM_FILE_NAME && !stm::service::open("(var"));
    wants(stm::service::open("(stm 2) (var x 1) (always no (eq x 2))").code() == STM_FILE_BROKEN);
    stm::options how;
    how.observers = 33;
    wants(stm::service::open(TEXT, how).code() == STM_NO_WORKER);
    how = {};
    how.room = 70000;
    wants(stm::service::open(TEXT, how).code() == STM_NO_ROOM);
}

static void threads_share_it() {
    Pairs pairs;
    stm::service service = opened(1000, &pairs);
    by_threads(4, [&] {
        for (int i = 0; i < 2000; i++) wants(bool(service.atomically("inc")));
    });
    wants(service.entered() == 8000 && service.chapter() == pairs.size() && pairs.size() >= 7);
    wants(entries(service, pairs) == 8000);
}

static void threads_wait_for_one_another() {
    Pairs pairs;
    stm::service service = opened(100, &pairs);
    std::atomic<int> threads{0};
    by_threads(4, [&] {
        const char *name = threads++ % 2 ? "put" : "get";
        for (int i = 0; i < 500; i++) wants(bool(service.atomically(name)));
    });
    wants(service.value("out")->value == 0 && entries(service, pairs) == 2000);
}

static void a_call_waits_across_chapters() {
    Pairs pairs;
    stm::service service = opened(4, &pairs);
    // Three increments a chapter beside the one that waits, whose entry follows the tenth of them.
    std::thread waits([&] {
        stm::outcome waited = service.atomically_within(1h, "wait");
        wants(waited.value() == 10 && waited.ticket() == 0u && waited.chapter() == 3 && waited.entry() == 2);
        wants(waited.place() == 10u);
    });
    until_parked(service);
    for (std::uint64_t i = 0; i < 10; i++) {
        stm::outcome one = service.atomically("inc");
        wants(one && one.ticket() == i + 1 && one.chapter() == i / 3 && one.entry() == i % 3 + 1);
    }
    waits.join();
    wants(service.chapter() >= 2 && entries(service, pairs) == 11);
}

static void close_ends_all_that_waits() {
    stm::service service = opened();
    wants(bool(service.atomically("inc")));
    std::vector<std::thread> waiting;
    for (int i = 0; i < 3; i++) {
        waiting.emplace_back([&] { wants(service.atomically("get").code() == STM_CLOSED); });
    }
    until_parked(service);
    service.close();
    for (auto &thread : waiting) thread.join();
    wants(service.atomically("inc").code() == STM_CLOSED && service.try_atomically("inc").code() == STM_CLOSED);
    wants(service.value("n")->value == 1 && service.entered() == 1);
}

static void a_chapter_that_is_not_kept() {
    for (bool throws : {false, true}) {
        int tries = 0;
        stm::options how;
        how.room = 3;
        how.on_chapter = [&tries, throws](std::string_view, std::string_view) {
            if (++tries < 3 && throws) throw std::runtime_error("no disk");
            return tries >= 3;
        };
        stm::service service = stm::service::open(TEXT, how).value();
        for (int i = 1; i <= 6; i++) wants(service.atomically("inc").value() == i);
        wants(tries == 1 && service.chapter() == 1);
        wants(service.atomically("inc").code() == STM_NO_ROOM && tries == 2 && service.chapter() == 1);
        wants(service.atomically("inc").value() == 7 && tries == 4 && service.chapter() == 2);
    }
}

static void it_is_moved() {
    Pairs pairs;
    stm::service first = opened(2, &pairs), second = opened();
    wants(first.atomically("inc").value() == 1);
    second = std::move(first);
    for (int i = 2; i < 6; i++) wants(second.atomically("inc").value() == i);
    wants(pairs.size() == 2 && second.chapter() == 2);
    wants(first.atomically("inc").code() == STM_EMPTY && first.try_atomically(0).code() == STM_EMPTY);
    wants(first.atomically_within(1s, 0).code() == STM_EMPTY && first.observe(0).code() == STM_EMPTY);
    wants(!first.value("n") && !first.transaction("inc") && first.chapter() == 0 && first.entered() == 0);
    wants(first.report().code() == STM_EMPTY && !first.file());
    first.close();
}

/// All goes with it but what the file says.
static void it_is_let_go() {
    long before = blocks;
    stm_program program = {nullptr};
    wants(stm_read(TEXT, sizeof TEXT - 1, &program) == STM_DONE);
    stm_program_free(&program);
    long of_a_program = blocks - before;
    before = blocks;
    {
        Pairs pairs;
        stm::service first = opened(2, &pairs), second = std::move(first);
        for (int i = 0; i < 9; i++) wants(bool(second.atomically("inc")));
        wants(second.observe("inc") && second.file() && pairs.size() == 4);
        second = opened();
    }
    wants(blocks - before == 2 * of_a_program);
    before = blocks;
    wants(!stm::service::open("(var") && blocks == before);
}

static void whole_files() {
    const std::string file = "(var x 5)\n(tx inc (set x (add x 1)) x)\n(run inc 2)\n";
    auto report = stm::run(file);
    wants(report && report->find("now 2\nx 7 2\nend\n") != std::string::npos && report.code() == STM_DONE);
    wants(bool(stm::check(file, *report)) && stm::check(file, "base").code() == STM_BAD_TEXT);
    wants(stm::run(file, 1).value().find("entry ") == std::string::npos);
    wants(stm::explore(file, 100).value() == "states 3\ntx inc returned\nends 1\n1 x 7\nend\n");
    auto more = stm::explore(file, 2);
    wants(more && more.code() == STM_MORE && more.word() == "more states are reached");
    wants(stm::explore_to(file, 100, 1).value() == *report && stm::explore_to(file, 100, 2).code() == STM_NO_END);
    wants(stm::world(file, "begin 0\nread 0 x\ncommit 0\n").value().find("committed 1") != std::string::npos);
    wants(stm::run("(").code() == STM_FILE_SHAPE && stm::check("(", "").code() == STM_FILE_SHAPE);
    // A report that is longer than the room with which it is begun.
    wants(stm::run(file + "(run inc 2000)").value().size() > 40000);
    wants(stm::version().substr(0, sizeof STM_VERSION - 1) == STM_VERSION);
}

int main() {
    each_way_to_end();
    errors_that_are_thrown();
    threads_share_it();
    threads_wait_for_one_another();
    a_call_waits_across_chapters();
    close_ends_all_that_waits();
    a_chapter_that_is_not_kept();
    it_is_moved();
    it_is_let_go();
    whole_files();
    puts("good");
    return 0;
}
