/// Where and why a file is refused, as each call of stm.hpp that reads one tells it.
#include "stm.hpp"
#include "wants.h"

#include <atomic>
#include <cstdlib>
#include <string>
#include <type_traits>
#include <utility>

/// The memory of the library, of which a request is refused: the one of this number, and each later one.
struct block {
    bool got;
    void *at;
};
static std::atomic<long> requests{0}, refused{0}, blocks{0};

static bool is_refused() { return ++requests >= refused && refused > 0; }

extern "C" block rattle_alloc(std::size_t size, std::size_t) {
    static char none;
    if (is_refused()) return {false, &none};
    return blocks++, block{true, std::malloc(size + 1)};
}
extern "C" block rattle_realloc(void *old, std::size_t, std::size_t size, std::size_t) {
    if (is_refused()) return {false, old};
    return {true, std::realloc(old, size + 1)};
}
extern "C" void rattle_dealloc(void *old) { blocks--, std::free(old); }

static const char GOOD[] = "(var x 5)\n(tx inc (set x (add x 1)) x)\n(run inc 2)\n";
static const char WRONG[] = "(var x 5)\n(tx inc (set x (plus x 1)) x)\n(run inc 2)\n";
static const char WORDS[] = "line 2, column 17: F3 Shape: ";

static bool begins(const std::string &text, std::string_view head) { return text.compare(0, head.size(), head) == 0; }

static void is_wrong(const stm::explained *why) {
    wants(why && why->code == STM_FILE_SHAPE && why->line == 2 && why->column == 17 && why->place == 26);
    wants(begins(why->words, WORDS) && why->words.back() != '\n' && why->words.find("plus") != std::string::npos);
}

/// The answer tells why there is no value, and to ask for one throws the same.
template <class Answer> static void tells(const Answer &answer) {
    wants(!answer && answer.code() == STM_FILE_SHAPE && answer.word() == stm_word(STM_FILE_SHAPE));
    is_wrong(answer.why());
    try {
        answer.value();
        wants(false);
    } catch (const stm::refused &error) {
        wants(error.code() == STM_FILE_SHAPE && error.value() == 0);
        wants(error.line() == 2 && error.column() == 17 && error.place() == 26);
        wants(error.what() == answer.why()->words);
    }
}

static void by_each_call() {
    tells(stm::service::open(WRONG));
    tells(stm::run(WRONG));
    tells(stm::world(WRONG, "begin 0\n"));
    tells(stm::explore(WRONG, 100));
    tells(stm::explore_to(WRONG, 100, 1));
    stm::verdict verdict = stm::check(WRONG, "");
    wants(!verdict && verdict.code() == STM_FILE_SHAPE), is_wrong(verdict.why());
    auto copy = stm::run(WRONG);
    { auto first = copy, second = std::move(copy); wants(first.why() == second.why()), is_wrong(first.why()); }
}

static void by_itself() {
    auto good = stm::explain(GOOD), empty = stm::explain("");
    for (const auto *one : {&good, &empty}) {
        const stm::explained &told = one->value();
        wants(told.code == STM_DONE && told.line == 0 && told.column == 0 && told.place == 0 && told.words.empty());
    }
    auto wrong = stm::explain(WRONG);
    wants(wrong.code() == STM_DONE && !wrong.why()), is_wrong(&*wrong);
    static const struct {
        std::int32_t code;
        std::string file;
        std::size_t line, column;
    } all[] = {
        {STM_FILE_TOO_LONG, std::string(1048577, ' '), 1, 1048577},
        {STM_FILE_BAD_BYTE, "; a\n\tb", 2, 1},
        {STM_FILE_SHAPE, "(var x", 1, 7},
        {STM_FILE_NAME, "(tx t (skip) x)", 1, 14},
        {STM_FILE_LIMIT, "(tx t (repeat 1001 (skip)) 0)", 1, 15},
        {STM_FILE_BROKEN, "(stm 2)\n(var x 1)\n(always low (lt x 1))", 3, 9},
    };
    for (const auto &one : all) {
        auto told = stm::explain(one.file).value();
        wants(told.code == one.code && told.line == one.line && told.column == one.column);
        wants(stm::run(one.file).why()->words == told.words);
    }
}

/// What is refused for another reason, or is not, is not explained.
static void of_no_file() {
    wants(!stm::run(GOOD).why() && !stm::check(GOOD, stm::run(GOOD).value()).why());
    auto schedule = stm::world(GOOD, "begin 9\n");
    wants(schedule.code() == STM_SCHEDULE_LIMIT && !schedule.why());
    wants(!stm::explore(GOOD, 0).why() && !stm::explore_to(GOOD, 100, 2).why() && !stm::check(GOOD, "").why());
    stm::options how;
    how.observers = 33;
    auto opened = stm::service::open(GOOD, how);
    wants(opened.code() == STM_NO_WORKER && !opened.why());
    try {
        schedule.value();
        wants(false);
    } catch (const stm::refused &) {
        wants(false);
    } catch (const stm::error &error) {
        wants(error.code() == STM_SCHEDULE_LIMIT);
    }
    static_assert(std::is_base_of_v<stm::error, stm::refused>, "who catches an error catches it too");
}

/// Where memory runs out the code is told that is known, and nothing is left behind.
static void without_memory() {
    long before = blocks, told = 0, known = 0, out = 0;
    requests = 0;
    is_wrong(stm::run(WRONG).why());
    const long all = requests;
    for (long number = 1; number <= all; number++) {
        requests = 0, refused = number;
        auto answer = stm::run(WRONG);
        refused = 0;
        wants(!answer && (answer.code() == STM_FILE_SHAPE || (answer.code() == STM_MEMORY && !answer.why())));
        if (answer.why()) is_wrong(answer.why());
        told += answer.why() != nullptr, out += answer.code() == STM_MEMORY;
        known += answer.code() == STM_FILE_SHAPE && !answer.why();
        requests = 0, refused = number;
        auto alone = stm::explain(WRONG);
        refused = 0;
        wants(alone ? alone->line == 2 : alone.code() == STM_MEMORY);
    }
    wants(known > 0 && out + known + told == all && blocks == before);
}

int main() {
    by_each_call();
    by_itself();
    of_no_file();
    without_memory();
    std::puts("good");
}
