// Checks and plays example W from C++ over the C header: entries of its interface and of what its charter leaves over, and records, as
// vectors, a refusal as an exception; then explains why another charter refuses it, compares the two charters, and moves the sheet back to
// the old form and over again.
#include "velimhaw.h"
#include "w.h"
#include <array>
#include <cstddef>
#include <cstdint>
#include <iostream>
#include <stdexcept>
#include <string>
#include <vector>

namespace {

template <std::size_t N> velimhaw_bytes bytes(const std::uint8_t (&array)[N]) { return {array, N}; }

// The number that a call was accepted with; a refusal is thrown.
std::size_t accepted(std::uint64_t answer) {
    if (answer >= VELIMHAW_ACCEPTED)
        return static_cast<std::size_t>(answer - VELIMHAW_ACCEPTED);
    const char *line = velimhaw_question(answer);
    throw std::runtime_error("refused " + std::to_string(answer) + ", not met: " + (line ? line : "no question has this number"));
}

std::vector<velimhaw_entry> check(velimhaw_bytes charter, velimhaw_lent output) {
    std::size_t length = accepted(velimhaw_check(bytes(w_sheet), charter, output));
    velimhaw_bytes rest = {output.bytes, length};
    std::vector<velimhaw_entry> entries;
    for (velimhaw_entry entry; velimhaw_next_entry(&rest, &entry);)
        entries.push_back(entry);
    return entries;
}

std::vector<velimhaw_slack_entry> slack(velimhaw_lent output) {
    std::size_t length = accepted(velimhaw_slack(bytes(w_sheet), bytes(w_charter), output));
    velimhaw_bytes rest = {output.bytes, length};
    std::vector<velimhaw_slack_entry> entries;
    for (velimhaw_slack_entry entry; velimhaw_next_slack(&rest, &entry);)
        entries.push_back(entry);
    return entries;
}

std::vector<velimhaw_record> play(velimhaw_lent log) {
    std::size_t moves = accepted(velimhaw_play(bytes(w_sheet), bytes(w_charter), bytes(w_script), log));
    velimhaw_bytes rest = {log.bytes, moves * VELIMHAW_RECORD_LENGTH};
    std::vector<velimhaw_record> records;
    for (velimhaw_record record; velimhaw_next_record(&rest, &record);)
        records.push_back(record);
    return records;
}

// The sentence for a refusal with 18; empty where the charter accepts the sheet.
std::string explain(velimhaw_bytes charter) {
    std::string line(VELIMHAW_SENTENCE_MAX, ' ');
    velimhaw_bytes names = {reinterpret_cast<const std::uint8_t *>(w_names), W_NAMES_LENGTH};
    velimhaw_lent whole_line = {reinterpret_cast<std::uint8_t *>(&line[0]), line.size()};
    line.resize(accepted(velimhaw_explain(bytes(w_sheet), charter, names, whole_line)));
    return line;
}

// A sheet moved by one of the two services that do.
std::vector<std::uint8_t> moved(std::uint64_t (*service)(velimhaw_bytes, velimhaw_lent), velimhaw_bytes sheet) {
    std::vector<std::uint8_t> output(VELIMHAW_MOVED_MAX);
    output.resize(accepted(service(sheet, {output.data(), output.size()})));
    return output;
}

bool no_looser(velimhaw_bytes charter, velimhaw_bytes before) { return velimhaw_no_looser(charter, before) == 1; }

void show(const velimhaw_entry &entry) {
    std::cout << "  kind " << int(entry.kind) << ", component's group " << int(entry.path[entry.path_length - 1]) << ", purpose "
              << int(entry.purpose) << ", discloses into " << int(entry.disclose_length) << " groups\n";
}

std::string sum(std::uint16_t number) { return number == VELIMHAW_UNLIMITED ? "*" : std::to_string(number); }

void show(const velimhaw_slack_entry &entry) {
    std::cout << "  kind " << int(entry.kind) << ", component's group " << int(entry.path[entry.path_length - 1]) << ", purpose "
              << int(entry.purpose);
    for (int i = 0; i < entry.disclose_length; i++)
        std::cout << " d" << int(entry.disclose[i].group) << ':' << sum(entry.disclose[i].needed) << '/' << sum(entry.disclose[i].granted);
    std::cout << '\n';
}

void show(const velimhaw_record &record) {
    std::cout << "  refused " << int(record.refused) << ", label " << int(record.label) << ", name " << record.name << '\n';
}

} // namespace

int main() {
    std::array<std::uint8_t, VELIMHAW_SLACK_MAX> output{};
    std::array<std::uint8_t, VELIMHAW_LOG_MAX> log{};
    std::cout << "C++, check:\n";
    for (const velimhaw_entry &entry : check(bytes(w_charter), {output.data(), output.size()}))
        show(entry);
    std::cout << "C++, slack:\n";
    for (const velimhaw_slack_entry &entry : slack({output.data(), output.size()}))
        show(entry);
    std::cout << "C++, play:\n";
    for (const velimhaw_record &record : play({log.data(), log.size()}))
        show(record);
    try {
        check(bytes(w_charter), {output.data(), 3});
    } catch (const std::runtime_error &refusal) {
        std::cout << "C++, check with 3 bytes of output: " << refusal.what() << '\n';
    }
    try {
        check(bytes(w_strict_charter), {output.data(), output.size()});
    } catch (const std::runtime_error &refusal) {
        std::cout << "C++, check against a stricter charter: " << refusal.what() << '\n';
        std::cout << "C++, explain: " << explain(bytes(w_strict_charter)) << '\n';
    }
    std::cout << "C++, no looser: the stricter charter than W's " << (no_looser(bytes(w_strict_charter), bytes(w_charter)) ? "yes" : "no")
              << ", W's than the stricter one " << (no_looser(bytes(w_charter), bytes(w_strict_charter)) ? "yes" : "no") << '\n';
    std::vector<std::uint8_t> old_sheet = moved(velimhaw_downgrade, bytes(w_sheet));
    std::vector<std::uint8_t> sheet = moved(velimhaw_upgrade, {old_sheet.data(), old_sheet.size()});
    std::cout << "C++, downgrade: " << old_sheet.size() << " bytes, upgrade: " << sheet.size() << " bytes\n";
}
