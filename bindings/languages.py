"""What `bindings/check` tries of hosts in C++ and in Python: their tests, with the sanitizers where there are, and the
examples, whose journals are judged. `library` is a folder as `./stm --library` makes it; `case` and `run` are functions of
bindings/check."""
import os
import shutil
import sys

HERE = os.path.dirname(os.path.abspath(__file__))
WARN = ["-Wall", "-Wextra", "-Wpedantic", "-Wconversion", "-Wshadow", "-Werror"]
COMPILERS = ("g++", "clang++")
# The tests of stm.hpp.
TESTS = ("service", "started", "given_up", "arguments", "transactions", "tables", "refused", "each")
# A host that looks at no answer: each of its statements, but for the first one, is warned of.
CARELESS = b"""#include "stm.hpp"
void careless(stm::service &bank) {
    bank.close();
    bank.atomically("pay", {5});
    bank.try_atomically(0);
    bank.atomically_within(std::chrono::seconds(1), "pay");
    bank.each("pay", stm::rows(nullptr, 1, 0));
    bank.observe("pay");
    bank.start("pay", {5}, [](stm::outcome) {});
    bank.future("pay", {5});
    bank.transaction<1>("pay");
    bank.atomically(*bank.transaction<1>("pay"), 5);
    bank.cells(0);
    bank.report();
    stm::service::open("");
    stm::check("", "");
    stm::run("");
    stm::explain("");
}
"""
# A host of which one statement is compiled: its calls give `pay` three arguments, or else the compiler says why not.
EXACT = """#include "stm.hpp"
void exact(stm::service &bank, stm::transaction<3> pay, std::array<std::int64_t, 2> two, std::int64_t (&four)[4]) {
    auto done = [](stm::outcome) {};
    (void)two, (void)four, (void)done;
    (void)STATEMENT;
}
"""
EACH = "stm: a call gives an argument for each parameter of its transaction"
EXACT_CALLS = {
    "bank.atomically(pay, 3, 5, 60)": None,
    "bank.atomically(pay, 3, 5)": EACH,
    "bank.atomically(pay, {3, 5, 60})": None,
    "bank.start(pay, {3, 5, 60}, done)": None,
    "bank.atomically(pay)": EACH,
    "bank.atomically(pay, {})": EACH,
    "bank.try_atomically(pay, {3, 5})": EACH,
    "bank.atomically_within(std::chrono::seconds(1), pay, 3, 5, 60, 7)": EACH,
    "bank.observe(pay, two)": EACH,
    "bank.future(pay, four)": EACH,
    "bank.start(pay, {3, 5}, done)": EACH,
    "bank.atomically(pay, 3, 5, 0.5)": "stm: an argument is an integer",
    "bank.observe(*bank.transaction<9>({}), 1, 2, 3, 4, 5, 6, 7, 8, 9)": "stm: a transaction has at most 8 parameters",
}
# How many minutes the simulations are run: many chapters.
MINUTES = 2_000_000
BANK = "4000 transfers, each paid or refused\nthe journals of 3 chapters are good\n"
QUEUE = "2000 orders, each taken once\nthe journals of all chapters are good: 4000 entries\n"
JOBS = "the first is job 10\n99 jobs are done\nthe journal is good\n"
TELLERS = "done 40\nthrown 60\n"
TRANSFERS = "4000 transfers, each paid or refused\nall accounts have 100000\nthe journal is good\n"
CALLS = """pay: returned 40, entry 1
pay: threw 60, entry 2
get: waits with ticket 2
put: returned 1, entry 3
ticket 2 was woken
get: returned 0, entry 4
get: the transaction retries
Good
put: returned 1, entry 1
"""
REFUSED = """line 2, column 19: F4 Name: no variable of this name is declared; here stands heer; did you mean here?
(tx pay (seq (set heer (sub here 60)) (set there (add there 60))) here)
                  ^
"""
ORDERS = "10000 orders wait\n10000 are served: 30000 pieces\ntaken back"
CUSTOMERS = """50000 customers, of whom 7% left before they were served
the others waited 0.4 minutes, at most 6
"""
ORDERS_IN_PYTHON = "10000 orders wait\nall are served, and paid 90000\none is taken back\n"
WAGES = "999 of 1000 wages are paid\n999: thrown 50\n"
WAGES_IN_PYTHON = "<stm.Answers: 999 of 1000 returned; not 999: Thrown(50)>\n"
ORDERS_IN_C, ORDERS_IN_CPP = f"{ORDERS}: done\nclosed: 1\n", f"{ORDERS}\nclosed\n"
IN_RUST = {
    "bank": BANK,
    "calls": CALLS,
    "chapters": "1000 minutes\n5 good\n",
    "orders": "10000 orders wait\nall are served, and paid 90000\none is taken back: true\n",
    "refused": REFUSED,
    "schedule": "10000 jobs wait\n10000 jobs are done, each after those that it needs\nGood\n",
    "tellers": "Ok(80)\nErr(Thrown(90))\n",
    "transfers": TRANSFERS,
    "wages": WAGES.replace("thrown 50", "Thrown(50)"),
    "workers": "4000 transfers, each paid or refused\nGood\n",
}


def simulated(minutes):
    return f"{minutes} minutes, all journals are good\nmemory did not grow\n"


def told_by(done):
    return (done.stdout + done.stderr).decode(errors="replace")


def exact(case, run, word, library, most=len(EXACT_CALLS)):
    """Calls with as many arguments as a transaction has parameters are compiled, and those with others are refused."""
    for statement, wanted in list(EXACT_CALLS.items())[:most]:
        host = EXACT.replace("STATEMENT", statement).encode()
        done = run(word, "-std=c++17", *WARN, "-fsyntax-only", "-I", library, "-x", "c++", "-", input=host, timeout=400)
        told = told_by(done)
        good = done.returncode != 0 and wanted in told if wanted else done.returncode == 0
        case(f"{statement} by {word}", good, told)


def cpp(case, run, work, library):
    there = [word for word in COMPILERS if shutil.which(word)]
    for word in COMPILERS:
        if word not in there:
            print(f"not tried: {word} is not there")

    def built(word, source, name, *flags, more=()):
        out = os.path.join(work, name)
        words = [word, "-std=c++17", "-O1", *WARN, *flags, "-I", library, f"{HERE}/{source}", *more]
        done = run(*words, f"{library}/libstm.a", "-pthread", "-o", out, timeout=400)
        case(f"{source} is built by {word}", done.returncode == 0, told_by(done))
        return out

    def prints(name, wanted, *words, **more):
        done = run(*words, timeout=400, **more)
        case(name, done.stdout.decode() == wanted, told_by(done))

    for word in there:
        for name in TESTS:
            prints(f"{name}.cpp by {word}", "good\n", built(word, f"tests/{name}.cpp", f"{name}.{word}"))
        for more in (["-std=c++20"], ["-fno-exceptions", "-fno-rtti"]):
            done = run(word, "-std=c++17", *WARN, *more, "-fsyntax-only", "-I", library, f"{HERE}/examples/bounded_queue.cpp", timeout=400)
            case(f"stm.hpp by {word} {' '.join(more)}", done.returncode == 0, told_by(done))
        done = run(word, "-std=c++17", *WARN, "-fsyntax-only", "-I", library, "-x", "c++", "-", input=CARELESS, timeout=400)
        told = told_by(done)
        case(f"{word} warns of answers that are not looked at", told.count("error:") == CARELESS.count(b";") - 1, told)
        exact(case, run, word, library)
    for word in there[:1]:
        prints("bounded_queue.cpp", QUEUE, built(word, "examples/bounded_queue.cpp", "queue"))
        prints("orders.cpp", ORDERS_IN_CPP, built(word, "examples/orders.cpp", "orders"))
        prints("refused.cpp", REFUSED, built(word, "examples/refused.cpp", "refused"))
        prints("transfers.cpp", TRANSFERS, built(word, "examples/transfers.cpp", "transfers"))
        prints("wages.cpp", WAGES, built(word, "examples/wages.cpp", "wages"))
        prints("simulation.cpp", simulated(MINUTES), built(word, "examples/simulation.cpp", "simulation"), MINUTES)
    for word, (name, flag) in ((word, one) for word in there[:1] for one in (("address", "address,undefined"), ("thread", "thread"))):
        flags = [f"-fsanitize={flag}", "-g", "-fno-sanitize-recover=all"]
        probe = os.path.join(work, "probe.cpp")
        with open(probe, "w") as file:
            file.write("int main() { return 0; }\n")
        if run(word, *flags, probe, "-o", probe + ".out").returncode or run(probe + ".out").returncode:
            print(f"not tried: {word} has no -fsanitize={flag} here")
            continue
        # The part in C is built with the sanitizer too. What a file says stays, and that is no fault.
        part = os.path.join(work, f"service.{name}.o")
        done = run("cc", "-std=c99", "-O1", *flags, "-I", library, "-c", f"{HERE}/c/service.c", "-o", part, timeout=400)
        case(f"service.c with the {name} sanitizer", done.returncode == 0, told_by(done))
        for test in TESTS:
            host = built(word, f"tests/{test}.cpp", f"{test}.{name}", *flags, more=[part])
            leaking = dict(os.environ, ASAN_OPTIONS="detect_leaks=0")
            prints(f"{test}.cpp under the {name} sanitizer", "good\n", host, env=leaking)


def python(case, run, library):
    there = dict(os.environ, STM_LIB_DIR=library, PYTHONPATH=f"{HERE}/python", PYTHONDONTWRITEBYTECODE="1")
    words = [sys.executable, "-W", "error"]
    done = run(*words, "-m", "unittest", "discover", "-s", f"{HERE}/python/tests", env=there, timeout=400)
    case("the tests in Python", done.returncode == 0, told_by(done))
    examples = {"bank": BANK, "bounded_queue": QUEUE, "jobs": JOBS, "orders": ORDERS_IN_PYTHON}
    examples["wages"] = WAGES_IN_PYTHON
    for name, wanted in {**examples, "refused": REFUSED, "simulation": CUSTOMERS, "transfers": TRANSFERS}.items():
        done = run(*words, f"{HERE}/examples/{name}.py", env=there, timeout=400)
        case(f"{name}.py", done.stdout.decode() == wanted, told_by(done))
    if run(sys.executable, "-m", "mypy", "--version", env=there).returncode:
        print("not tried: mypy is not there")
        return
    done = run(sys.executable, "-m", "mypy", "--strict", "--cache-dir", os.devnull, f"{HERE}/python/stm", env=there, timeout=400)
    case("the types in Python", done.returncode == 0, told_by(done))
