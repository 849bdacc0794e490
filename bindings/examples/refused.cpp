/// What a host tells whoever wrote a file that is refused: where and why, and the line with its fault.
#include "stm.hpp"

#include <iostream>
#include <string>

constexpr std::string_view BANK = R"((var here 100) (var there 0)
(tx pay (seq (set heer (sub here 60)) (set there (add there 60))) here)
)";

int main() {
    auto bank = stm::service::open(BANK);
    if (const stm::explained *why = bank.why()) {
        auto line = BANK.substr(why->place - (why->column - 1));
        std::cout << why->words << "\n" << line.substr(0, line.find('\n')) << "\n";
        std::cout << std::string(why->column - 1, ' ') << "^\n";
    }
    if (bank) std::cout << "good\n";
}
