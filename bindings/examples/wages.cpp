// A thousand wages are paid in one call, each as a step of its own: the last one finds too little.
#include <algorithm>
#include <array>
#include <cstdint>
#include <cstdio>
#include <vector>

#include "stm.hpp"

static const char BANK[] = R"((stm 3)
(var cash 99950)
(table acct 1000 0)
(tx wage (to n)
    (seq
        (if (lt cash n) (throw (sub n cash)) (skip))
        (set cash (sub cash n))
        (put acct to (add (at acct to) n)))
    cash))";

int main() {
    stm::service bank = stm::service::open(BANK).value();
    std::vector<std::array<std::int64_t, 2>> wages;
    for (std::int64_t to = 0; to < 1000; to++) wages.push_back({to, 100});
    std::vector<stm::outcome> paid = bank.each("wage", wages);
    auto returned = std::count_if(paid.begin(), paid.end(), [](const stm::outcome &one) { return bool(one); });
    std::printf("%d of %zu wages are paid\n", static_cast<int>(returned), paid.size());
    for (std::size_t i = 0; i < paid.size(); i++)
        if (auto missing = paid[i].thrown()) std::printf("%zu: thrown %d\n", i, static_cast<int>(*missing));
    return 0;
}
