// Plans a table from C++17: plan [FILE]; without FILE, or with -, the table is that of standard input. It prints speed, energy
// and order of the plan and each job's fate in words, or the refusal by the name of its constant.
// Exit status as that of plan.c: 1 where the table was refused; 2 where there is no table to read, where there are too many
// words, and where the output cannot be written.
#include <cuddlelamb.h>

#include <array>
#include <cstddef>
#include <cstdint>
#include <cstdio>
#include <iostream>
#include <optional>
#include <string>

static_assert(CUDDLELAMB_VERSION_MAJOR == 4 && CUDDLELAMB_VERSION_MINOR >= 5, "refusals have names since version 4.5");

namespace {

using Text = std::array<std::uint8_t, 4096>; // as many bytes as the program reads; a valid text is shorter
using Places = std::array<std::uint64_t, CUDDLELAMB_JOBS>;

const char *fate_in_words(std::uint64_t fate) {
    switch (fate) {
    case CUDDLELAMB_PLANNED: return "planned";
    case CUDDLELAMB_LATE_ALONE: return "not planned: late even if it ran alone at top speed";
    case CUDDLELAMB_DEADLOCK: return "not planned: taken out of a ring of waiting jobs";
    case CUDDLELAMB_NO_RATIO: return "not planned: its chain gives no worth";
    case CUDDLELAMB_OUT_OF_TIME: return "not planned: with its chain, some job would have ended late";
    case CUDDLELAMB_OUT_OF_BUDGET: return "not planned: with its chain, the plan would have gone over the budget";
    }
    return "no fate";
}

const char *refusal_name(std::uint64_t number) {
#define NAMED(name) case name: return #name
    switch (number) {
        NAMED(CUDDLELAMB_REFUSED_NO_SHAPE);
        NAMED(CUDDLELAMB_REFUSED_OUT_OF_RANGE);
        NAMED(CUDDLELAMB_REFUSED_OUT_OF_PLACE);
        NAMED(CUDDLELAMB_REFUSED_TOO_MANY);
        NAMED(CUDDLELAMB_REFUSED_CRITICAL_AFTER_TERMINATION);
        NAMED(CUDDLELAMB_REFUSED_UNKNOWN_JOB);
        NAMED(CUDDLELAMB_REFUSED_REQUESTS_OWN);
        NAMED(CUDDLELAMB_REFUSED_NO_ROOM);
        NAMED(CUDDLELAMB_REFUSED_UNKNOWN_MODEL);
        NAMED(CUDDLELAMB_REFUSED_TOO_MUCH_ALLOCATED);
    }
#undef NAMED
    return "no refusal";
}

bool print_refusal(std::uint64_t number, std::uint64_t line) {
    std::cout << "refused: " << refusal_name(number) << ", line " << line << '\n';
    return false;
}

// The plan of a text, or its refusal; whether it was planned.
bool print_plan(const Text &text, std::size_t length) {
    const cuddlelamb_table_answer read = cuddlelamb_read(text.data(), length);
    if (read.number != 0) {
        return print_refusal(read.number, read.line);
    }
    const cuddlelamb_table &table = read.table;
    Places order{}, fates{};
    const cuddlelamb_plan_answer plan =
        cuddlelamb_plan(table, table.budget, order.data(), order.size(), fates.data(), fates.size());
    if (plan.number != 0) {
        return print_refusal(plan.number, plan.line);
    }
    std::cout << plan.count << " jobs at " << plan.speed << " MHz for " << plan.energy << " units, in this order:";
    for (std::size_t at = 0; at < plan.count; at++) {
        std::cout << ' ' << order[at];
    }
    std::cout << '\n';
    for (std::size_t at = 0; at < table.job_count; at++) {
        std::cout << "job " << table.jobs[at].number << ": " << fate_in_words(fates[at]) << '\n';
    }
    return true;
}

// Reads the front of a file or of standard input and gives its length. stdio tells a failed read from an end; std::cin does not.
std::optional<std::size_t> read_text(const std::string &name, Text &text) {
    std::FILE *file = name == "-" ? stdin : std::fopen(name.c_str(), "rb");
    if (file == nullptr) {
        return std::nullopt;
    }
    const std::size_t length = std::fread(text.data(), 1, text.size(), file);
    const bool good = std::ferror(file) == 0;
    std::fclose(file);
    return good ? std::optional(length) : std::nullopt;
}

} // namespace

int main(int count, char **arguments) {
    if (count > 2) {
        std::cerr << "usage: plan [FILE]\n";
        return 2;
    }
    const std::string name = count == 2 ? arguments[1] : "-";
    Text text{};
    const std::optional<std::size_t> length = read_text(name, text);
    if (!length) {
        std::cerr << "plan: " << (name == "-" ? "standard input" : name) << " cannot be read\n";
        return 2;
    }
    const bool planned = print_plan(text, *length);
    if (!std::cout.flush()) {
        std::cerr << "plan: the output cannot be written\n";
        return 2;
    }
    return planned ? 0 : 1;
}
