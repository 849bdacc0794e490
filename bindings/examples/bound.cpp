/// A bank of 1,000 accounts, by the module that `stm-bind` makes of examples/tellers.stm: one pays 100 to another, and
/// then has too little to pay that again.
#include "tellers.hpp"

#include <iostream>

int main() {
    tellers bank = tellers::open().value();
    for (int calls = 0; calls < 2; calls++) {
        stm::outcome left = bank.pay(3, 5, 100);
        std::cout << left.word() << " " << *left << "\n";
    }
    std::cout << "account 3 has " << bank.acct(3).value() << "\n";
}
