// A simulation: customers come into a shop, wait on one of five chairs or go away, and are served; for millions of
// minutes. Chapters begin by themselves, each journal is judged and let go, and memory does not grow.
#include <algorithm>
#include <cstdint>
#include <cstdio>
#include <cstdlib>
#include <fstream>
#include <limits>
#include <string>
#include <string_view>
#include <thread>

#include "stm.hpp"

static const char SHOP[] = R"((stm 2)
(var seed 42) (var came 0) (var waiting 0) (var served 0) (var lost 0)
(always counted (eq came (add (add waiting served) lost)))
(always chairs (and (le 0 waiting) (le waiting 5)))
(tx minute (seq
    (set seed (rem (add (mul seed 1103515245) 12345) 2147483648))
    (if (lt (rem seed 3000) 2000)
        (seq (set came (add came 1)) (if (lt waiting 5) (set waiting (add waiting 1)) (set lost (add lost 1))))
        (skip))
    (set seed (rem (add (mul seed 1103515245) 12345) 2147483648))
    (if (and (lt 0 waiting) (lt (rem seed 4000) 2500))
        (seq (set waiting (sub waiting 1)) (set served (add served 1)))
        (skip))) waiting))";

/// The same in plain C++.
struct shop {
    std::int64_t seed = 42, came = 0, waiting = 0, served = 0, lost = 0;

    std::int64_t draw() { return seed = (seed * 1103515245 + 12345) % 2147483648; }
    void minute() {
        if (draw() % 3000 < 2000) came++, waiting < 5 ? waiting++ : lost++;
        if (draw() % 4000 < 2500 && waiting > 0) waiting--, served++;
    }
};

static void holds(bool so, const char *what) {
    if (so) return;
    std::fprintf(stderr, "not so: %s\n", what);
    std::exit(1);
}

/// How many KB of memory the process has; 0 where the system does not say.
static long resident() {
    std::ifstream status("/proc/self/status");
    for (std::string word; status >> word;) {
        if (long size; word == "VmRSS:" && status >> size) return size;
    }
    return 0;
}

/// So many minutes, by two threads: a minute is a minute, whoever has it done.
static void run(stm::service &service, long minutes) {
    const auto minute = service.transaction<0>("minute").value();
    auto half = [&] {
        for (long i = 0; i < minutes / 2; i++) service.atomically(minute).value();
    };
    std::thread other(half);
    half();
    other.join();
}

int main(int count, char **words) {
    const long minutes = count > 1 ? std::atol(words[1]) : 10'000'000;
    stm::options options;
    // A chapter whose journal is not good is not left: then a call finds no room, and the simulation ends.
    options.on_chapter = [](std::string_view file, std::string_view report) { return bool(stm::check(file, report)); };
    stm::service service = stm::service::open(SHOP, options).value();

    // A thread that judges its first journal takes room of its own, so some parts may see memory grow, but not all.
    constexpr long PARTS = 5;
    long grown = std::numeric_limits<long>::max();
    for (long part = 0; part < PARTS; part++) {
        const long before = resident();
        run(service, minutes / PARTS);
        grown = std::min(grown, resident() - before);
    }

    shop plain;
    for (std::uint64_t i = 0; i < service.entered(); i++) plain.minute();
    holds(service.value("served")->value == plain.served, "as many are served");
    holds(service.value("lost")->value == plain.lost, "as many go away");
    service.close();
    holds(bool(stm::check(service.file().value(), service.report().value())), "the last journal is good");
    std::printf("%llu minutes, all journals are good\n", static_cast<unsigned long long>(service.entered()));
    holds(grown < 4096, "memory does not grow");
    std::printf("memory did not grow\n");
    return 0;
}
