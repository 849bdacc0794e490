/// stm for C++17: a service that threads call, and whole files. It is over `service.h` and `stm.h`, whose library it
/// wants: link with libstm.so or libstm.a, and -pthread.
///
///     stm::service bank = stm::service::open(text).value();
///     stm::outcome paid = bank.atomically("pay", {20});
///     if (paid) std::cout << *paid;
///
/// Calls answer what they found or why there is nothing, and where a file is refused its place: compilers warn of an
/// answer that is not looked at. Only `value()` throws; with -fno-exceptions it ends the process. Where memory runs
/// out, the strings of the standard library throw as ever.
#ifndef STM_HPP
#define STM_HPP

#include "service.h"
#include "stm.h"
#include "stm_version.h"

#include <algorithm>
#include <array>
#include <chrono>
#include <cstddef>
#include <cstdint>
#include <cstdlib>
#include <functional>
#include <future>
#include <initializer_list>
#include <iterator>
#include <limits>
#include <memory>
#include <optional>
#include <stdexcept>
#include <string>
#include <string_view>
#include <type_traits>
#include <utility>
#include <vector>

namespace stm {

/// The version of the library that is linked; that of this header is `STM_VERSION`.
inline std::string_view version() noexcept { return stm_version(); }

/// Where and why a file is refused. Of a file that is read all is 0, and there are no words.
struct explained {
    /// What its first fault is: `STM_FILE_TOO_LONG` .. `STM_FILE_BROKEN`.
    std::int32_t code = STM_DONE;
    /// Where it stands. Both count from 1, and columns in bytes.
    std::size_t line = 0;
    std::size_t column = 0;
    /// How many bytes stand before it.
    std::size_t place = 0;
    /// The line that `stm explain` prints, without its end: `line 3, column 12: F3 Shape: ` and what is wanted there.
    std::string words;
};

/// What a program declares, each kind in the order of its text: the place of a name is its number.
struct declared {
    struct table {
        std::string name;
        std::size_t cells;
    };
    struct transaction {
        std::string name;
        /// Their names.
        std::vector<std::string> parameters;
    };

    std::vector<std::string> variables;
    std::vector<table> tables;
    /// The standing conditions.
    std::vector<std::string> conditions;
    std::vector<transaction> transactions;
};

/// What `value()` throws where there is none.
class error : public std::runtime_error {
public:
    explicit error(std::int32_t code, std::int64_t value = 0)
        : runtime_error(text(code, value)), code_(code), value_(value) {}

    /// The code, one of `enum stm_code`.
    std::int32_t code() const noexcept { return code_; }
    /// What was thrown (`STM_THROWN`), or the number of the condition (`STM_BROKEN`); else 0.
    std::int64_t value() const noexcept { return value_; }

protected:
    error(std::int32_t code, const std::string &words) : runtime_error(words), code_(code), value_(0) {}

private:
    static std::string text(std::int32_t code, std::int64_t value) {
        bool tells = code == STM_THROWN || code == STM_BROKEN;
        return "stm: " + std::string(stm_word(code)) + (tells ? " " + std::to_string(value) : "");
    }

    std::int32_t code_;
    std::int64_t value_;
};

/// What `value()` throws where a file was refused: `what()` tells where and why, in the words of `stm explain`.
class refused : public error {
public:
    explicit refused(const explained &why)
        : error(why.code, why.words), line_(why.line), column_(why.column), place_(why.place) {}

    /// Where the first fault stands. Both count from 1, and columns in bytes.
    std::size_t line() const noexcept { return line_; }
    std::size_t column() const noexcept { return column_; }
    /// How many bytes stand before it.
    std::size_t place() const noexcept { return place_; }

private:
    std::size_t line_, column_, place_;
};

namespace detail {

#if defined(__cpp_exceptions)
[[noreturn]] inline void raise(std::int32_t code, std::int64_t value = 0) { throw error(code, value); }
[[noreturn]] inline void raise(const explained &why) { throw refused(why); }
#else
[[noreturn]] inline void raise(std::int32_t, std::int64_t = 0) { std::abort(); }
[[noreturn]] inline void raise(const explained &) { std::abort(); }
#endif

} // namespace detail

/// A value, or the code that says why there is none.
template <class T> class [[nodiscard]] answer {
public:
    answer(T value, std::int32_t code = STM_DONE) : value_(std::move(value)), code_(code) {}
    static answer none(std::int32_t code, std::shared_ptr<const explained> why = nullptr) {
        return answer(code, std::move(why));
    }

    explicit operator bool() const noexcept { return value_.has_value(); }
    /// The value; throws where there is none: `refused`, where it is told why a file was refused, else `error`.
    T &value() & { return held(), *value_; }
    const T &value() const & { return held(), *value_; }
    T value() && { return held(), std::move(*value_); }
    /// The value, which is there.
    T &operator*() & noexcept { return *value_; }
    const T &operator*() const & noexcept { return *value_; }
    T *operator->() noexcept { return &*value_; }
    const T *operator->() const noexcept { return &*value_; }

    /// `STM_DONE`, or another one of `enum stm_code`.
    std::int32_t code() const noexcept { return code_; }
    std::string_view word() const noexcept { return stm_word(code_); }
    /// Where and why the call's file was refused; null where it was not, or where there was no memory to say why. It
    /// is there as long as the answer or a copy of it.
    const explained *why() const noexcept { return why_.get(); }

private:
    answer(std::int32_t code, std::shared_ptr<const explained> why) : why_(std::move(why)), code_(code) {}
    void held() const {
        if (value_) return;
        if (why_) detail::raise(*why_);
        detail::raise(code_);
    }

    std::optional<T> value_;
    std::shared_ptr<const explained> why_;
    std::int32_t code_;
};

/// What a call gives its transaction: a number for each of its parameters, in their order, of which there are at most 8.
/// `{3, 5, 20}`; or a std::vector, a std::array or the like of std::int64_t.
class arguments {
public:
    arguments() noexcept = default;
    arguments(std::initializer_list<std::int64_t> numbers) noexcept : arguments(numbers.begin(), numbers.size()) {}
    template <class Numbers, class = decltype(static_cast<const std::int64_t *>(std::declval<const Numbers &>().data()))>
    arguments(const Numbers &numbers) noexcept : arguments(numbers.data(), numbers.size()) {}
    arguments(const std::int64_t *numbers, std::size_t count) noexcept : count_(count) {
        std::copy_n(numbers, std::min(count, first_.size()), first_.begin());
    }

    /// With more than 8 numbers no call is made, so only the first 8 of them are there.
    const std::int64_t *data() const noexcept { return first_.data(); }
    std::size_t size() const noexcept { return count_; }

private:
    std::array<std::int64_t, 8> first_{};
    std::size_t count_ = 0;
};

namespace detail {
/// What lies behind one another there.
template <class Rows> using row_of = std::decay_t<decltype(*std::data(std::declval<const Rows &>()))>;
} // namespace detail

/// What many calls give their transaction, a row for each: a std::vector, a std::array or the like of
/// std::array<std::int64_t, N>; or the numbers of all, one behind the other. It only looks at them.
class rows {
public:
    template <class Rows, std::size_t N = std::tuple_size<detail::row_of<Rows>>::value>
    rows(const Rows &given) noexcept : count_(N), size_(std::size(given)) {
        const std::array<std::int64_t, N> *first = std::data(given);
        static_assert(N == 0 || sizeof(*first) == N * sizeof(std::int64_t), "they lie one behind the other");
        if (size_ > 0) numbers_ = first->data();
    }
    /// So many calls, with so many numbers each.
    rows(const std::int64_t *numbers, std::size_t count, std::size_t calls) noexcept
        : numbers_(numbers), count_(count), size_(calls) {}

    /// The numbers of all rows, and how many each has.
    const std::int64_t *data() const noexcept { return numbers_; }
    std::size_t count() const noexcept { return count_; }
    /// How many rows there are.
    std::size_t size() const noexcept { return size_; }

private:
    const std::int64_t *numbers_ = nullptr;
    std::size_t count_, size_;
};

/// What a call gives a transaction of which it is known how many parameters it has: so many integers, or an array of as
/// many std::int64_t. Another number of them does not compile.
template <std::size_t Parameters> class exactly : public arguments {
public:
    template <class... Integers>
    exactly(const Integers &...integers) noexcept
        : arguments(std::array<std::int64_t, sizeof...(Integers) + 1>{{integers..., 0}}.data(), sizeof...(Integers)) {
        static_assert((!std::is_floating_point_v<Integers> && ...), "stm: an argument is an integer");
        check<sizeof...(Integers)>();
    }
    template <std::size_t Count>
    exactly(const std::int64_t (&numbers)[Count]) noexcept : arguments(numbers, Count) {
        check<Count>();
    }
    template <std::size_t Count>
    exactly(const std::array<std::int64_t, Count> &numbers) noexcept : arguments(numbers.data(), Count) {
        check<Count>();
    }

private:
    template <std::size_t Count> static void check() noexcept {
        static_assert(Parameters <= 8, "stm: a transaction has at most 8 parameters");
        static_assert(Count == Parameters, "stm: a call gives an argument for each parameter of its transaction");
    }
};

namespace detail {
/// `exactly` so many, however they are given: the number is that of the transaction before them.
template <std::size_t Parameters> using given_to = std::enable_if_t<true, exactly<Parameters>>;
} // namespace detail

/// A transaction that has so many parameters: its number, and in its type how many arguments a call gives it.
/// `service::transaction<3>("pay")` looks it up, once; a call by it looks up nothing. It holds nothing of the service,
/// and is good in each one of the same program. In one of another program it is what has its number there: with another
/// number of parameters the call is refused (`STM_UNKNOWN`), with as many it is made.
template <std::size_t Parameters> class transaction {
public:
    /// For a call whose arguments are counted as it is made.
    std::uint32_t number() const noexcept { return number_; }

private:
    friend class service;
    explicit transaction(std::uint32_t number) noexcept : number_(number) {}

    std::uint32_t number_;
};

/// How a call ended. It is true where the transaction returned.
class [[nodiscard]] outcome {
public:
    explicit outcome(stm_answer told) noexcept : told_(told) {}

    explicit operator bool() const noexcept { return told_.code == STM_DONE; }
    /// What the transaction returned; throws `error` where it did not.
    std::int64_t value() const {
        if (!*this) detail::raise(told_.code, told_.value);
        return told_.value;
    }
    /// What it returned, where it did.
    std::int64_t operator*() const noexcept { return told_.value; }
    /// What it threw, where it did.
    std::optional<std::int64_t> thrown() const noexcept { return told_if(STM_THROWN); }
    /// The number of the standing condition that it would have broken, where that is so.
    std::optional<std::int64_t> broken() const noexcept { return told_if(STM_BROKEN); }
    /// The number of its entry in its chapter, and 0 where it was not entered: then it had no effect, and never will.
    std::uint64_t entry() const noexcept { return told_.entry; }
    /// The number of that chapter, from 0 on; 0 where it was not entered.
    std::uint64_t chapter() const noexcept { return told_.chapter; }
    /// The number of its task, which no other call has; nothing where it was not entered, nor started (`start`).
    std::optional<std::uint64_t> ticket() const noexcept {
        return told_.ticket < 0 ? std::nullopt : std::optional<std::uint64_t>(static_cast<std::uint64_t>(told_.ticket));
    }
    /// The place of its entry in the history of all that became of calls, from 0 on; nothing where it was not entered.
    std::optional<std::uint64_t> place() const noexcept {
        return told_.ticket < 0 ? std::nullopt : std::optional<std::uint64_t>(told_.place);
    }
    /// `STM_DONE`; entered: `STM_THROWN`, `STM_OVERFLOW`, `STM_DIVIDE_BY_ZERO`, `STM_BROKEN`, `STM_OUTSIDE`; not
    /// entered: `STM_RETRIES`, `STM_TIMED_OUT`, `STM_CLOSED`, `STM_NO_ROOM`, `STM_MEMORY`, `STM_UNKNOWN`.
    std::int32_t code() const noexcept { return told_.code; }
    std::string_view word() const noexcept { return stm_word(told_.code); }

private:
    std::optional<std::int64_t> told_if(std::int32_t code) const noexcept {
        return told_.code == code ? std::optional<std::int64_t>(told_.value) : std::nullopt;
    }

    stm_answer told_;
};

/// Whether a report is lawful. It is true where it is; else the code tells the first part that does not hold
/// (`STM_BAD_TEXT` .. `STM_BAD_PARKED`), or why the file is refused.
class [[nodiscard]] verdict {
public:
    explicit verdict(std::int32_t code, std::shared_ptr<const explained> why = nullptr) noexcept
        : why_(std::move(why)), code_(code) {}

    explicit operator bool() const noexcept { return code_ == STM_DONE; }
    std::int32_t code() const noexcept { return code_; }
    std::string_view word() const noexcept { return stm_word(code_); }
    /// As of an `answer`.
    const explained *why() const noexcept { return why_.get(); }

private:
    std::shared_ptr<const explained> why_;
    std::int32_t code_;
};

namespace detail {

/// A text, copied into a room that grows until it is long enough.
template <class Call> answer<std::string> text(Call call) {
    std::string room(std::size_t{1} << 12, '\0');
    for (;;) {
        std::size_t wanted = 0;
        std::int32_t code = call(room.data(), room.size(), &wanted);
        room.resize(wanted);
        if (code == STM_SHORT) continue;
        if (code == STM_DONE || code == STM_MORE) return answer<std::string>(std::move(room), code);
        return answer<std::string>::none(code);
    }
}

} // namespace detail

/// Where and why the file is refused, if it is; `STM_MEMORY`. A call that has refused a file says so by itself (`why`).
inline answer<explained> explain(std::string_view file) {
    stm_explained told = {0, 0, 0, 0};
    auto words = detail::text([&](char *room, std::size_t length, std::size_t *wanted) {
        return stm_explain(file.data(), file.size(), &told, room, length, wanted);
    });
    if (!words) return answer<explained>::none(words.code());
    return answer<explained>(explained{told.code, told.line, told.column, told.place, std::move(*words)});
}

namespace detail {

/// Where and why the file is refused; null where the code is none of a file.
inline std::shared_ptr<const explained> why(std::string_view file, std::int32_t code) {
    if (code > STM_FILE_TOO_LONG || code < STM_FILE_BROKEN || code == STM_MEMORY) return nullptr;
    auto found = explain(file);
    return found ? std::make_shared<const explained>(std::move(*found)) : nullptr;
}

/// As `text`, by a call that reads the file.
template <class Call> answer<std::string> text_of_file(std::string_view file, Call call) {
    auto told = text(std::move(call));
    if (!told) return answer<std::string>::none(told.code(), why(file, told.code()));
    return told;
}

} // namespace detail

/// The report of all tasks of the file, one after another on this thread. A journal of `checkpoint` entries is followed
/// by a checkpoint; 0: never.
inline answer<std::string> run(std::string_view file, std::uint32_t checkpoint = 0) {
    return detail::text_of_file(file, [&](char *room, std::size_t length, std::size_t *wanted) {
        return stm_run_one(file.data(), file.size(), checkpoint, room, length, wanted);
    });
}

/// Whether the report is lawful for the file.
inline verdict check(std::string_view file, std::string_view report) {
    auto code = stm_check(file.data(), file.size(), report.data(), report.size());
    return verdict(code, detail::why(file, code));
}

/// What is seen of the schedule on the stepped world of the file.
inline answer<std::string> world(std::string_view file, std::string_view schedule) {
    return detail::text_of_file(file, [&](char *room, std::size_t length, std::size_t *wanted) {
        return stm_world(file.data(), file.size(), schedule.data(), schedule.size(), room, length, wanted);
    });
}

/// What is found when every order of the file's tasks is seen, of at most so many states. Where more are reached the
/// code is `STM_MORE`, and the text says so.
inline answer<std::string> explore(std::string_view file, std::uint32_t states) {
    return detail::text_of_file(file, [&](char *room, std::size_t length, std::size_t *wanted) {
        return stm_explore(file.data(), file.size(), states, room, length, wanted);
    });
}

/// The report of a run that comes to the end of this number, counted from 1 as `explore` lists them.
inline answer<std::string> explore_to(std::string_view file, std::uint32_t states, std::size_t end) {
    return detail::text_of_file(file, [&](char *room, std::size_t length, std::size_t *wanted) {
        return stm_explore_to(file.data(), file.size(), states, end, room, length, wanted);
    });
}

/// Is told file and report of each chapter that ends, one after another, by a thread whose call found the chapter full.
/// No lock is held: others go on in the next chapter, and wait for it only where that is full too. It may make calls of
/// the service; one that would have to wait for it answers `STM_NO_ROOM`. Where it answers false or throws it is told
/// the chapter again: when the next one is full, and whenever the service is closed. The last chapter does not end: ask
/// for its file and report once the service is closed.
using keeper = std::function<bool(std::string_view file, std::string_view report)>;

/// How a service is opened.
struct options {
    /// How many tasks a chapter has room for beside those of the file; 0: as many as there can be.
    std::size_t room = 0;
    /// A journal of so many entries is followed by a checkpoint; 0: never.
    std::uint32_t checkpoint = 0;
    /// How many workers there are, at most 32; 0: 4 where a transaction is long, else none. A thread has one while it
    /// observes, or runs a long transaction, beside what others commit; where none is left it does so under the lock.
    /// Where there are workers each commit costs more.
    std::uint32_t observers = 0;
    keeper on_chapter = nullptr;
};

/// A present value, and the number of the last entry of the chapter that changed it, 0 where none did.
struct present {
    std::int64_t value;
    std::uint64_t version;
};

/// A call that `service::start` has started. It may be copied, and is used no longer than its service.
class started {
public:
    /// The number of its task, which no other call has.
    std::uint64_t ticket() const noexcept { return static_cast<std::uint64_t>(ticket_); }

    /// Gives the call up: whether it was, and then nothing is told of it; else what became of it was told, or will be.
    bool cancel() const noexcept {
        bool given_up = stm_cancel(at_, ticket_) == STM_DONE;
        if (given_up) drop_(own_);
        return given_up;
    }

private:
    friend class service;
    started(stm_service *at, std::int64_t ticket, void *own, void (*drop)(void *)) noexcept
        : at_(at), ticket_(ticket), own_(own), drop_(drop) {}

    stm_service *at_;
    std::int64_t ticket_;
    /// Who is told, which is let go with the call.
    void *own_;
    void (*drop_)(void *);
};

/// A store with its lock and its waiting threads. Any thread may make any call at any time, but for moving it and
/// letting it go. An empty one, which was moved from, answers `STM_EMPTY`, 0 or nothing.
class service {
public:
    /// A service of the file. The tasks of its runs have their turns first. What it says stays in memory until the
    /// process ends.
    static answer<service> open(std::string_view file, options how = {}) {
        auto made = std::make_unique<held>();
        made->keep = std::move(how.on_chapter);
        auto *hook = made->keep ? ended : nullptr;
        stm_service_options given = {how.room, how.checkpoint, how.observers, hook, made.get()};
        std::int32_t code = stm_service_open(file.data(), file.size(), &given, &made->at);
        if (code != STM_DONE) return answer<service>::none(code, detail::why(file, code));
        return answer<service>(service(std::move(made)));
    }

    service(service &&) noexcept = default;
    service &operator=(service &&) noexcept = default;

    /// What its program declares.
    stm::declared declared() const {
        stm::declared told;
        if (!held_) return told;
        const stm_program *of = stm_service_program(held_->at);
        told.variables = names(stm_program_variables(of), stm_program_variable_name, of);
        for (auto &name : names(stm_program_tables(of), stm_program_table_name, of)) {
            auto cells = stm_program_cells(of, static_cast<std::uint32_t>(told.tables.size()));
            told.tables.push_back({std::move(name), static_cast<std::size_t>(cells)});
        }
        told.conditions = names(stm_program_conditions(of), stm_program_condition_name, of);
        for (auto &name : names(stm_program_transactions(of), stm_program_transaction_name, of)) {
            auto number = static_cast<std::uint32_t>(told.transactions.size());
            auto count = static_cast<std::size_t>(stm_program_parameters(of, number));
            told.transactions.push_back({std::move(name), names(count, stm_program_parameter_name, of, number)});
        }
        return told;
    }

    /// The number of a transaction. A call by its number finds it sooner than one by its name.
    std::optional<std::uint32_t> transaction(std::string_view name) const noexcept {
        return counted<std::uint32_t>(stm_service_transaction, name.data(), name.size());
    }
    /// The transaction of this name, which has so many parameters; `STM_UNKNOWN` where there is no such one. A call by
    /// it takes as many integers, `atomically(pay, 3, 5, 60)`, and compiles with no other number of them.
    template <std::size_t Parameters>
    answer<stm::transaction<Parameters>> transaction(std::string_view name) const {
        using found = answer<stm::transaction<Parameters>>;
        auto number = transaction(name);
        if (!number || parameters(*number) != Parameters) return found::none(held_ ? STM_UNKNOWN : STM_EMPTY);
        return found(stm::transaction<Parameters>(*number));
    }

    /// How many parameters a transaction has, at most 8.
    std::optional<std::size_t> parameters(std::uint32_t transaction) const noexcept {
        return counted<std::size_t>(stm_service_parameters, transaction);
    }

    /// Runs the transaction as one atomic step. Where it retries the thread waits until a commit changed what it read,
    /// and it was entered. It is given an argument for each of its parameters: with more or fewer, `STM_UNKNOWN`.
    outcome atomically(std::uint32_t transaction, arguments given = {}) noexcept {
        return outcome(held_ ? stm_atomically(held_->at, transaction, given.data(), given.size()) : none(STM_EMPTY));
    }
    outcome atomically(std::string_view name, arguments given = {}) noexcept {
        return by_name(name, [&](std::uint32_t number) { return atomically(number, given); });
    }
    template <std::size_t Parameters>
    outcome atomically(stm::transaction<Parameters> of, detail::given_to<Parameters> given) noexcept {
        return atomically(of.number(), given);
    }
    template <std::size_t Parameters, class... Integers>
    outcome atomically(stm::transaction<Parameters> of, const Integers &...integers) noexcept {
        return atomically(of.number(), exactly<Parameters>(integers...));
    }

    /// As `atomically`, but `STM_RETRIES`, and nothing entered, where the transaction retries on the present values.
    outcome try_atomically(std::uint32_t transaction, arguments given = {}) noexcept {
        if (!held_) return outcome(none(STM_EMPTY));
        return outcome(stm_try_atomically(held_->at, transaction, given.data(), given.size()));
    }
    outcome try_atomically(std::string_view name, arguments given = {}) noexcept {
        return by_name(name, [&](std::uint32_t number) { return try_atomically(number, given); });
    }
    template <std::size_t Parameters>
    outcome try_atomically(stm::transaction<Parameters> of, detail::given_to<Parameters> given) noexcept {
        return try_atomically(of.number(), given);
    }
    template <std::size_t Parameters, class... Integers>
    outcome try_atomically(stm::transaction<Parameters> of, const Integers &...integers) noexcept {
        return try_atomically(of.number(), exactly<Parameters>(integers...));
    }

    /// As `atomically`, but `STM_TIMED_OUT` where it still waits when the time is up, for a commit or for the keeper in
    /// another thread. A time of 0 is a try. That the thread calls the keeper itself is not cut short.
    template <class Rep, class Period>
    outcome atomically_within(std::chrono::duration<Rep, Period> time, std::uint32_t transaction,
                              arguments given = {}) noexcept {
        if (!held_) return outcome(none(STM_EMPTY));
        std::uint64_t at_most = nanoseconds(time);
        return outcome(stm_atomically_within(held_->at, transaction, given.data(), given.size(), at_most));
    }
    template <class Rep, class Period>
    outcome atomically_within(std::chrono::duration<Rep, Period> time, std::string_view name,
                              arguments given = {}) noexcept {
        return by_name(name, [&](std::uint32_t number) { return atomically_within(time, number, given); });
    }
    template <class Rep, class Period, std::size_t Parameters>
    outcome atomically_within(std::chrono::duration<Rep, Period> time, stm::transaction<Parameters> of,
                              detail::given_to<Parameters> given) noexcept {
        return atomically_within(time, of.number(), given);
    }
    template <class Rep, class Period, std::size_t Parameters, class... Integers>
    outcome atomically_within(std::chrono::duration<Rep, Period> time, stm::transaction<Parameters> of,
                              const Integers &...integers) noexcept {
        return atomically_within(time, of.number(), exactly<Parameters>(integers...));
    }

    /// Makes a call for each row, in their order, each a step of its own, as `try_atomically` does: for who makes many.
    /// Where one retries or does not return, those behind it are made all the same. From the first one on that is
    /// answered `STM_NO_ROOM` or `STM_CLOSED` none is made, and each is answered so.
    [[nodiscard]] std::vector<outcome> each(std::uint32_t transaction, const rows &given) {
        std::vector<stm_answer> told(given.size(), none(STM_EMPTY));
        if (held_) stm_each(held_->at, transaction, given.data(), given.count(), told.size(), told.data());
        return std::vector<outcome>(told.begin(), told.end());
    }
    template <std::size_t Parameters, class Rows, std::size_t N = std::tuple_size<detail::row_of<Rows>>::value>
    [[nodiscard]] std::vector<outcome> each(stm::transaction<Parameters> of, const Rows &given) {
        static_assert(N == Parameters, "stm: a row has an argument for each parameter of its transaction");
        return each(of.number(), rows(given));
    }
    [[nodiscard]] std::vector<outcome> each(std::string_view name, const rows &given) {
        auto number = transaction(name);
        if (number) return each(*number, given);
        return std::vector<outcome>(given.size(), outcome(none(held_ ? STM_UNKNOWN : STM_EMPTY)));
    }

    /// Starts the call, and no thread waits for it: `done`, which takes an `outcome`, is called with how it ended,
    /// once, by a thread that is in a call of the service, maybe before this one returns. It may make any call of the
    /// service, and start others; what its thread finds meanwhile is told after it. It throws nothing: that ends the
    /// process. There is no value where nothing was started and nothing follows: `STM_CLOSED`, `STM_UNKNOWN`,
    /// `STM_NO_ROOM`, `STM_MEMORY`. Those that wait when the service goes out of scope are told `STM_CLOSED` before it
    /// is gone.
    template <class Done> answer<started> start(std::uint32_t transaction, arguments given, Done done) {
        if (!held_) return answer<started>::none(STM_EMPTY);
        stm_service *at = held_->at;
        auto own = std::make_unique<Done>(std::move(done));
        std::int64_t ticket = stm_start(at, transaction, given.data(), given.size(), told<Done>, own.get());
        if (ticket < 0) return answer<started>::none(static_cast<std::int32_t>(ticket));
        return answer<started>(started(at, ticket, own.release(), drop<Done>));
    }
    template <class Done> answer<started> start(std::string_view name, arguments given, Done done) {
        auto number = transaction(name);
        if (!number) return answer<started>::none(held_ ? STM_UNKNOWN : STM_EMPTY);
        return start(*number, given, std::move(done));
    }
    template <std::size_t Parameters, class Done>
    answer<started> start(stm::transaction<Parameters> of, detail::given_to<Parameters> given, Done done) {
        return start(of.number(), given, std::move(done));
    }

    /// Starts the call, whose outcome the future has once it has ended: also where nothing was started.
    [[nodiscard]] std::future<outcome> future(std::uint32_t transaction, arguments given = {}) {
        std::promise<outcome> promise;
        auto there = promise.get_future();
        auto keeps = [promise = std::move(promise)](outcome how) mutable { promise.set_value(how); };
        auto begun = start(transaction, given, std::move(keeps));
        return begun ? std::move(there) : ready(begun.code());
    }
    [[nodiscard]] std::future<outcome> future(std::string_view name, arguments given = {}) {
        auto number = transaction(name);
        return number ? future(*number, given) : ready(held_ ? STM_UNKNOWN : STM_EMPTY);
    }
    template <std::size_t Parameters>
    [[nodiscard]] std::future<outcome> future(stm::transaction<Parameters> of, detail::given_to<Parameters> given) {
        return future(of.number(), given);
    }
    template <std::size_t Parameters, class... Integers>
    [[nodiscard]] std::future<outcome> future(stm::transaction<Parameters> of, const Integers &...integers) {
        return future(of.number(), exactly<Parameters>(integers...));
    }

    /// How the call would end on one state, beside the commits; nothing is entered.
    outcome observe(std::uint32_t transaction, arguments given = {}) const noexcept {
        if (!held_) return outcome(none(STM_EMPTY));
        return outcome(stm_service_observe(held_->at, transaction, given.data(), given.size()));
    }
    outcome observe(std::string_view name, arguments given = {}) const noexcept {
        return by_name(name, [&](std::uint32_t number) { return observe(number, given); });
    }
    template <std::size_t Parameters>
    outcome observe(stm::transaction<Parameters> of, detail::given_to<Parameters> given) const noexcept {
        return observe(of.number(), given);
    }
    template <std::size_t Parameters, class... Integers>
    outcome observe(stm::transaction<Parameters> of, const Integers &...integers) const noexcept {
        return observe(of.number(), exactly<Parameters>(integers...));
    }

    /// The present value of the variable of this name, or of the cell that is written so, as "acct[5]".
    std::optional<present> value(std::string_view name) const noexcept {
        present told = {0, 0};
        if (!held_) return std::nullopt;
        auto code = stm_service_value(held_->at, name.data(), name.size(), &told.value, &told.version);
        return code == STM_DONE ? std::optional<present>(told) : std::nullopt;
    }

    /// The number of a table, and how many cells it has, numbered from 0.
    std::optional<std::uint32_t> table(std::string_view name) const noexcept {
        return counted<std::uint32_t>(stm_service_table, name.data(), name.size());
    }
    std::optional<std::size_t> table_length(std::uint32_t table) const noexcept {
        return counted<std::size_t>(stm_service_table_length, table);
    }

    /// As `value`, of a cell by the number of its table and its own.
    std::optional<present> cell(std::uint32_t table, std::uint32_t index) const noexcept {
        present told = {0, 0};
        if (!held_) return std::nullopt;
        auto code = stm_service_cell(held_->at, table, index, &told.value, &told.version);
        return code == STM_DONE ? std::optional<present>(told) : std::nullopt;
    }

    /// The present values of a table's cells from the number `from` on, all of one state: so many, or fewer where the
    /// table ends before.
    answer<std::vector<std::int64_t>> cells(std::uint32_t table, std::uint32_t from = 0,
                                            std::size_t count = std::numeric_limits<std::size_t>::max()) const {
        using values = std::vector<std::int64_t>;
        auto length = table_length(table);
        if (!length) return answer<values>::none(held_ ? STM_UNKNOWN : STM_EMPTY);
        values room(std::min(count, *length - std::min<std::size_t>(from, *length)));
        stm_service_cells(held_->at, table, from, room.data(), room.size());
        return answer<values>(std::move(room));
    }

    /// The number of the chapter, from 0 on, and how many entries there were in all chapters.
    std::uint64_t chapter() const noexcept { return held_ ? stm_service_chapter(held_->at) : 0; }
    std::uint64_t entered() const noexcept { return held_ ? stm_service_entered(held_->at) : 0; }

    /// How many entries, calls that wait and tasks with room there are, all of one moment.
    stm_service_counts counts() const noexcept {
        stm_service_counts told = {0, 0, 0, 0, 0, 0};
        if (held_) stm_service_get_counts(held_->at, &told);
        return told;
    }

    /// Report and file of the present chapter. Once the service is closed they are a pair that `check` finds good.
    answer<std::string> report() const { return text(stm_service_report); }
    answer<std::string> file() const { return text(stm_service_file); }

    /// Every call that waits and every later one answers `STM_CLOSED`. What was entered stays. It waits until the
    /// keeper has returned, and tells it once more what it did not keep. A service that goes out of scope is closed
    /// too; but in a child of the process that has opened it nothing is closed or let go.
    void close() noexcept {
        if (held_) stm_service_close(held_->at);
    }

private:
    struct held {
        held() = default;
        held(const held &) = delete;
        held &operator=(const held &) = delete;
        ~held() { stm_service_free(at); }

        keeper keep;
        stm_service *at = nullptr;
    };

    explicit service(std::unique_ptr<held> made) noexcept : held_(std::move(made)) {}

    static stm_answer none(std::int32_t code) noexcept { return {-1, code, 0, 0, 0, 0}; }

    /// The number that a call answers, where it is not below 0.
    template <class Number, class Call, class... Given>
    std::optional<Number> counted(Call call, Given... given) const noexcept {
        std::int64_t number = held_ ? call(held_->at, given...) : std::int64_t{STM_EMPTY};
        return number < 0 ? std::nullopt : std::optional<Number>(static_cast<Number>(number));
    }

    template <class Call> outcome by_name(std::string_view name, Call call) const noexcept {
        auto number = transaction(name);
        return number ? call(*number) : outcome(none(held_ ? STM_UNKNOWN : STM_EMPTY));
    }

    static std::future<outcome> ready(std::int32_t code) {
        std::promise<outcome> promise;
        promise.set_value(outcome(none(code)));
        return promise.get_future();
    }

    template <class Done> static void drop(void *own) { delete static_cast<Done *>(own); }

    /// Who is told is there until then.
    template <class Done> static void told(void *own, stm_answer how) noexcept {
        static_assert(std::is_invocable_v<Done &, outcome>, "it takes an outcome");
        std::unique_ptr<Done> done(static_cast<Done *>(own));
        (*done)(outcome(how));
    }

    /// So many names, which the call copies.
    template <class Call, class... Given>
    static std::vector<std::string> names(std::size_t count, Call call, Given... given) {
        std::vector<std::string> told;
        for (std::uint32_t number = 0; number < count; number++)
            told.push_back(detail::text([&](char *room, std::size_t length, std::size_t *wanted) {
                               return call(given..., number, room, length, wanted);
                           }).value());
        return told;
    }

    template <class Call> answer<std::string> text(Call call) const {
        return detail::text([&](char *room, std::size_t length, std::size_t *wanted) {
            return held_ ? call(held_->at, room, length, wanted) : std::int32_t{STM_EMPTY};
        });
    }

    /// As many as fit: a time that is too long is the longest that there is.
    template <class Rep, class Period>
    static std::uint64_t nanoseconds(std::chrono::duration<Rep, Period> time) noexcept {
        using seconds = std::chrono::duration<long double>;
        constexpr auto longest = std::chrono::nanoseconds::max();
        if (!(time > time.zero())) return 0;
        if (seconds(time) >= seconds(longest)) return std::numeric_limits<std::uint64_t>::max();
        return static_cast<std::uint64_t>(std::chrono::ceil<std::chrono::nanoseconds>(time).count());
    }

    static int ended(void *own, const char *file, std::size_t file_length, const char *report,
                     std::size_t report_length) noexcept {
        const keeper &keep = static_cast<held *>(own)->keep;
#if defined(__cpp_exceptions)
        try {
            return keep({file, file_length}, {report, report_length}) ? 0 : 1;
        } catch (...) {
            return 1;
        }
#else
        return keep({file, file_length}, {report, report_length}) ? 0 : 1;
#endif
    }

    std::unique_ptr<held> held_;
};

} // namespace stm

#endif
