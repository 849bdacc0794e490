// A bounded queue in a table: producers wait while it is full, consumers while it is empty. Each order is taken once, and
// those of a producer as it put them. In the end the journals of all chapters are judged.
#include <cstdint>
#include <cstdio>
#include <cstdlib>
#include <string>
#include <thread>
#include <utility>
#include <vector>

#include "stm.hpp"

static const char QUEUE[] = R"((stm 3)
(var taken 0) (var made 0) (table place 64 0)
(always bounded (and (le taken made) (le (sub made taken) 64)))
(tx put (order)
    (seq (if (eq (sub made taken) 64) (retry) (skip))
         (put place (rem made 64) order) (set made (add made 1)))
    made)
(tx get ()
    (seq (if (eq made taken) (retry) (skip)) (set taken (add taken 1)))
    (at place (rem (sub taken 1) 64))))";

enum { PRODUCERS = 2, CONSUMERS = 2, EACH = 1000, ROOM = 1500 };

static void holds(bool so, const char *what) {
    if (so) return;
    std::fprintf(stderr, "not so: %s\n", what);
    std::exit(1);
}

static void produce(stm::service &queue, std::int64_t first) {
    const auto put = queue.transaction<1>("put").value();
    for (std::int64_t order = first; order < first + EACH; order++) queue.atomically(put, order).value();
}

/// What it takes, of each producer: its orders grow.
static void consume(stm::service &queue, std::vector<bool> &taken) {
    const auto get = queue.transaction<0>("get").value();
    std::vector<std::int64_t> last(PRODUCERS, -1);
    for (int i = 0; i < EACH; i++) {
        std::int64_t order = queue.atomically(get).value();
        std::int64_t &before = last[static_cast<std::size_t>(order / EACH)];
        holds(order > before, "orders are taken as they were put");
        before = order;
        taken[static_cast<std::size_t>(order)] = true;
    }
}

int main() {
    std::vector<std::pair<std::string, std::string>> chapters;
    stm::options options;
    options.room = ROOM;
    options.on_chapter = [&](std::string_view file, std::string_view report) {
        chapters.emplace_back(file, report);
        return true;
    };
    stm::service queue = stm::service::open(QUEUE, options).value();

    std::vector<std::vector<bool>> taken(CONSUMERS, std::vector<bool>(PRODUCERS * EACH));
    std::vector<std::thread> threads;
    for (int i = 0; i < PRODUCERS; i++) threads.emplace_back([&queue, i] { produce(queue, i * EACH); });
    for (auto &own : taken) threads.emplace_back([&] { consume(queue, own); });
    for (auto &thread : threads) thread.join();

    for (std::size_t order = 0; order < PRODUCERS * EACH; order++) {
        holds(taken[0][order] != taken[1][order], "each order is taken once");
    }
    queue.close();
    chapters.emplace_back(queue.file().value(), queue.report().value());
    for (auto &[file, report] : chapters) holds(bool(stm::check(file, report)), "the journal is good");
    std::printf("%d orders, each taken once\n", PRODUCERS * EACH);
    std::printf("the journals of all chapters are good: %llu entries\n", (unsigned long long)queue.entered());
    return 0;
}
