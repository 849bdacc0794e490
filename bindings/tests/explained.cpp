/// Where and why each file is refused, in a line of its own: line, column and words; or `good`.
///
///     explained FILE ..
#include "stm.hpp"
#include "wants.h"

#include <fstream>
#include <iostream>
#include <iterator>
#include <string>

static void tell(const std::string &file) {
    stm::verdict judged = stm::check(file, "");
    const stm::explained alone = stm::explain(file).value();
    wants((judged.why() ? judged.code() : STM_DONE) == alone.code);
    if (alone.code == STM_DONE) {
        std::cout << "good\n";
        return;
    }
    const stm::explained &why = *judged.why();
    wants(why.words == alone.words && why.line == alone.line && why.column == alone.column && why.place == alone.place);
    std::cout << why.line << " " << why.column << " " << why.words << "\n";
}

int main(int count, char **words) {
    for (int one = 1; one < count; one++) {
        std::ifstream opened(words[one], std::ios::binary);
        wants(opened.is_open());
        tell(std::string(std::istreambuf_iterator<char>(opened), {}));
    }
}
