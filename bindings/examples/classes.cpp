// Counts the classes that a WDL table stores, not results (results.c) if captures decide, by the side to move: classes KQvK.rtbw
// A line for each part and side: their letter and number, then the numbers of losses, blessed losses, draws, cursed wins,
// wins and other values. The exit status is 0, or 64 for a bad command line, 66 if the file cannot be read or is refused.
#include "szg.h"
#include <array>
#include <fstream>
#include <iostream>
#include <iterator>
#include <stdexcept>
#include <string>
#include <vector>

// A table, closed when it goes. It may be moved, and is not copied.
class Table {
public:
    Table(const std::string &name, bool dtz, const std::vector<char> &bytes) {
        szg_answer answer{};
        static const uint8_t none = 0;
        const auto *data = bytes.empty() ? &none : reinterpret_cast<const uint8_t *>(bytes.data());
        switch (szg_open(name.data(), name.size(), dtz, data, bytes.size(), &held, &answer)) {
        case SZG_DONE: return;
        case SZG_NAME: throw std::invalid_argument(name + " is no material's name");
        case SZG_MEMORY: throw std::bad_alloc();
        default:
            throw std::runtime_error("refused at " + std::to_string(answer.place) + ", reason " + std::to_string(answer.reason));
        }
    }
    Table(const Table &) = delete;
    Table &operator=(const Table &) = delete;
    ~Table() { szg_close(&held); }

    // All values of a part's side; none if the table has no such part or side.
    std::vector<uint16_t> values(uint8_t part, uint8_t side) {
        uint64_t size = 0;
        if (szg_positions(&held, part, side, &size) != SZG_DONE) return {};
        std::vector<uint16_t> list(size);
        if (szg_all(&held, part, side, list.data(), list.size()) != SZG_DONE) throw std::bad_alloc();
        return list;
    }

private:
    szg_table held = SZG_NO_TABLE;
};

int main(int count, char **words) try {
    const std::string path = count == 2 ? words[1] : "", ending = ".rtbw";
    if (path.size() <= ending.size() || path.substr(path.size() - ending.size()) != ending) {
        std::cerr << "usage: classes FILE.rtbw\n";
        return 64;
    }
    const auto begin = path.rfind('/') == std::string::npos ? 0 : path.rfind('/') + 1;
    std::ifstream file(path, std::ios::binary);
    if (!file) throw std::runtime_error("it cannot be opened");
    const std::vector<char> bytes{std::istreambuf_iterator<char>(file), {}};
    Table table(path.substr(begin, path.size() - begin - ending.size()), false, bytes);
    for (uint8_t part = 0; part < 4; part++)
        for (uint8_t side = 0; side < 2; side++) {
            const auto values = table.values(part, side);
            if (values.empty()) continue;
            std::array<uint64_t, 6> counts{};
            for (uint16_t value : values) counts[value < 5 ? value : 5]++;
            std::cout << "abcd"[part] << ' ' << int(side);
            for (uint64_t number : counts) std::cout << ' ' << number;
            std::cout << '\n';
        }
    return 0;
} catch (const std::exception &error) {
    std::cerr << words[1] << ": " << error.what() << '\n';
    return 66;
}
