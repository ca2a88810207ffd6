// The library from C++: composes sheet A of document 01, runs it, and prints the version and the report.
#include <array>
#include <iostream>
#include <string>
#include <vector>
#include "hizgrael.h"

namespace {

struct Command {
    std::uint8_t byte;
    std::array<std::uint32_t, HIZGRAEL_OPERANDS> operands;
};

// Empty if a command was refused.
std::vector<std::uint8_t> composed(const std::vector<Command> &commands)
{
    std::vector<std::uint8_t> sheet(HIZGRAEL_LONGEST_SHEET);
    hizgrael_state state = {};
    std::uint64_t filled = 0;
    for (const Command &command : commands)
        if (hizgrael_compose(state, sheet.data(), sheet.size(), command.byte, command.operands.data(), &filled) != HIZGRAEL_ACCEPTED)
            return {};
    sheet.resize(filled);
    return sheet;
}

// Empty if the sheet was refused.
std::string report_of(const std::vector<std::uint8_t> &sheet)
{
    std::vector<std::uint8_t> report(HIZGRAEL_LONGEST_REPORT);
    std::uint64_t length = 0;
    if (hizgrael_run(sheet.data(), sheet.size(), 65535, report.data(), report.size(), &length) != HIZGRAEL_ACCEPTED)
        return {};
    return {report.begin(), report.begin() + static_cast<std::ptrdiff_t>(length)};
}

} // namespace

int main()
{
    const std::vector<std::uint8_t> sheet = composed({
        {HIZGRAEL_WORD, {{12}}},
        {HIZGRAEL_TASK, {{}}},
        {HIZGRAEL_LOAD, {{1, 12}}},
        {HIZGRAEL_LOAD, {{2, 5}}},
        {HIZGRAEL_PAIR, {{0, 1, 2}}},
        {HIZGRAEL_SWAP, {{0}}},
        {HIZGRAEL_RELEASE, {{0, 0}}},
        {HIZGRAEL_END, {{}}},
    });
    // A null pointer may not be handed over, not even with length 0.
    const std::string report = sheet.empty() ? std::string() : report_of(sheet);
    if (report.empty()) {
        std::cerr << "refused\n";
        return 1;
    }
    std::cout << "hizgrael " << HIZGRAEL_VERSION << '\n' << report << std::flush;
    return std::cout ? 0 : 2;
}
