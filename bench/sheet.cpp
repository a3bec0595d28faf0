// Times the run of a sheet and its estimate beside single calls on the same glyphs and prints a table of each.
//
//   sheet OUTLINES        OUTLINES is data/dejavu-serif.outlines
//
// All take turns, round by round; a time is the least of the rounds, for one glyph. All must write the same records and numbers, and
// find the same counts of points and the same sum of tests.
#include <cstdio>
#include <cstdlib>
#include <functional>
#include <string>
#include <vector>

#include "../include/volkhidar.h"
#include "descriptions.hpp"
#include "turns.hpp"

namespace {
using namespace bench;

constexpr Rounds ROUNDS{20, 0.5};

struct Sheet {
    size_t count;
    std::vector<uint8_t> bytes;
};

// The records and numbers of a sheet's glyphs, and the list that single calls keep for the points of each.
struct Lent {
    std::vector<uint8_t> buffer;
    std::vector<uint16_t> numbers;
    std::vector<int16_t> list = std::vector<int16_t>(VOLKHIDAR_LIST_LENGTH);
    uint64_t worked = 0, left = 0;

    explicit Lent(size_t count) : buffer(count * VOLKHIDAR_RECORD_LENGTH), numbers(count) {}
    uint8_t* next() { return buffer.data() + worked * VOLKHIDAR_RECORD_LENGTH; }
};

void put_number(std::vector<uint8_t>& bytes, size_t number) {
    bytes.push_back(uint8_t(number >> 8));
    bytes.push_back(uint8_t(number));
}

size_t number_at(const std::vector<uint8_t>& bytes, size_t at) { return size_t(bytes[at]) << 8 | bytes[at + 1]; }

// The texts one behind another, as many as fit into a sheet and no more than `most`.
Sheet laid(size_t most, const std::function<std::string(size_t)>& text) {
    std::vector<std::string> parts;
    size_t free = VOLKHIDAR_MOST_BYTES - 2;
    while (parts.size() < most) {
        std::string next = text(parts.size());
        if (free < 4 + next.size()) break;
        free -= 4 + next.size();
        parts.push_back(next);
    }
    Sheet sheet{parts.size(), {}};
    put_number(sheet.bytes, parts.size());
    size_t offset = 2 + 4 * parts.size();
    for (const std::string& part : parts) {
        put_number(sheet.bytes, offset);
        put_number(sheet.bytes, part.size());
        offset += part.size();
    }
    for (const std::string& part : parts) sheet.bytes.insert(sheet.bytes.end(), part.begin(), part.end());
    return sheet;
}

// With what is left as the allowance.
void run(const Sheet& sheet, Lent& lent) {
    volkhidar_run_answer ran = volkhidar_run_sheet(sheet.bytes.data(), sheet.bytes.size(), lent.left, lent.buffer.data(),
                                                   lent.buffer.size(), lent.numbers.data(), lent.numbers.size());
    lent.worked = ran.worked;
    lent.left = ran.left;
}

// Loader, engine and writer on one glyph.
void work(const Sheet& sheet, size_t k, size_t start, size_t length, Lent& lent) {
    volkhidar_load_answer loaded = volkhidar_load(sheet.bytes.data() + start, length, lent.list.data(), lent.list.size());
    lent.numbers[k] = uint16_t(loaded.refusal);
    if (loaded.refusal != 0) return;
    volkhidar_disk_answer found = volkhidar_smallest_disk(lent.list.data(), 2 * loaded.count);
    volkhidar_write_record(found.disk, found.support, lent.next(), VOLKHIDAR_RECORD_LENGTH);
    lent.worked++;
    lent.left -= found.tests;
}

// (a) The directory is read by hand and not checked.
void work_each(const Sheet& sheet, Lent& lent) {
    for (size_t k = 0; k < sheet.count; k++) work(sheet, k, number_at(sheet.bytes, 2 + 4 * k), number_at(sheet.bytes, 4 + 4 * k), lent);
}

// (b) The same with one call for each glyph, which does not tell the count of its tests.
void record_each(const Sheet& sheet, Lent& lent) {
    for (size_t k = 0; k < sheet.count; k++) {
        const uint8_t* text = sheet.bytes.data() + number_at(sheet.bytes, 2 + 4 * k);
        uint64_t refusal = volkhidar_record_of(text, number_at(sheet.bytes, 4 + 4 * k), lent.next(), VOLKHIDAR_RECORD_LENGTH);
        lent.numbers[k] = uint16_t(refusal);
        lent.worked += refusal == 0;
    }
}

// (c) The library finds each glyph, for which it checks the whole directory.
void open_each(const Sheet& sheet, Lent& lent) {
    for (size_t k = 0; k < sheet.count; k++) {
        volkhidar_glyph_answer glyph = volkhidar_glyph(sheet.bytes.data(), sheet.bytes.size(), k);
        work(sheet, k, glyph.start, glyph.length, lent);
    }
}

struct Way {
    const char* name;
    void (*call)(const Sheet&, Lent&);
};

constexpr Way WAYS[] = {{"run", run}, {"(a)", work_each}, {"(b)", record_each}, {"(c)", open_each}};

constexpr size_t COUNT = sizeof WAYS / sizeof WAYS[0];

void require(bool is_same, const char* one, const char* other, const char* name) {
    if (is_same) return;
    std::fprintf(stderr, "%s and %s differ on %s\n", one, other, name);
    std::exit(1);
}

// The head of a table: the times of all ways, and the first by each of the others.
void print_head(const std::vector<const char*>& ways) {
    std::printf("| glyphs | how many | bytes of the sheet |");
    for (const char* way : ways) std::printf(" %s, µs a glyph |", way);
    for (size_t k = 1; k < ways.size(); k++) std::printf(" %s by %s |", ways[0], ways[k]);
    std::printf("\n|---|---|---|");
    for (size_t k = 1; k < 2 * ways.size(); k++) std::printf("---|");
    std::printf("\n");
}

void print_row(const char* name, const Sheet& sheet, const std::vector<double>& times) {
    std::printf("| %s | %zu | %zu |", name, sheet.count, sheet.bytes.size());
    for (double time : times) std::printf(" %.3g |", time * 1e6);
    for (size_t k = 1; k < times.size(); k++) std::printf(" %.2f |", times[0] / times[k]);
    std::printf("\n");
    std::fflush(stdout);
}

void compare_runs(const char* name, const Sheet& sheet) {
    std::vector<Lent> lent(COUNT, Lent(sheet.count));
    std::vector<Turn> turns;
    for (size_t k = 0; k < COUNT; k++) {
        auto prepare = [&, k] {
            lent[k].worked = 0;
            lent[k].left = VOLKHIDAR_MOST_ALLOWANCE;
        };
        turns.push_back({prepare, [&, k] { WAYS[k].call(sheet, lent[k]); }});
    }
    std::vector<double> times = take_turns(ROUNDS, sheet.count, turns);
    for (size_t k = 1; k < COUNT; k++) {
        bool is_same = lent[0].worked == lent[k].worked && lent[0].buffer == lent[k].buffer && lent[0].numbers == lent[k].numbers;
        require(is_same, WAYS[0].name, WAYS[k].name, name);
    }
    print_row(name, sheet, times);
}

// What a sheet will take.
struct Estimated {
    std::vector<uint16_t> points, refusals;
    uint64_t bytes = 0, tests = 0;

    explicit Estimated(size_t count) : points(count), refusals(count) {}
    bool operator==(const Estimated& other) const {
        return points == other.points && refusals == other.refusals && bytes == other.bytes && tests == other.tests;
    }
};

void estimate(const Sheet& sheet, Estimated& all) {
    volkhidar_estimate_answer answer = volkhidar_estimate_sheet(sheet.bytes.data(), sheet.bytes.size(), all.points.data(),
                                                                all.points.size(), all.refusals.data(), all.refusals.size());
    all.bytes = answer.bytes;
    all.tests = answer.tests;
}

struct Part {
    const uint8_t* text;
    size_t length;
};

std::vector<Part> parts_of(const Sheet& sheet) {
    std::vector<Part> parts;
    for (size_t k = 0; k < sheet.count; k++)
        parts.push_back({sheet.bytes.data() + number_at(sheet.bytes, 2 + 4 * k), number_at(sheet.bytes, 4 + 4 * k)});
    return parts;
}

// The loader on each glyph, with one list for all of them.
void load_each(const std::vector<Part>& parts, std::vector<int16_t>& list, Estimated& all) {
    all.bytes = all.tests = 0;
    for (size_t k = 0; k < parts.size(); k++) {
        volkhidar_load_answer loaded = volkhidar_load(parts[k].text, parts[k].length, list.data(), list.size());
        uint64_t n = loaded.count;
        all.points[k] = uint16_t(n);
        all.refusals[k] = uint16_t(loaded.refusal);
        if (loaded.refusal == 0) all.bytes += VOLKHIDAR_RECORD_LENGTH;
        all.tests += (n * n * n + 5 * n) / 6;
    }
}

// The estimate, the loader on glyphs that were found beforehand, and the run with the estimate as its allowance.
void compare_estimates(const char* name, const Sheet& sheet) {
    std::vector<Part> parts = parts_of(sheet);
    Estimated ours(sheet.count), theirs(sheet.count);
    Lent ran(sheet.count);
    std::vector<double> times = take_turns(ROUNDS, sheet.count,
                                           {{[] {}, [&] { estimate(sheet, ours); }},
                                            {[] {}, [&] { load_each(parts, ran.list, theirs); }},
                                            {[&] { ran.left = ours.tests; }, [&] { run(sheet, ran); }}});
    require(ours == theirs, "estimate", "loads", name);
    require(ran.numbers == ours.refusals && ran.worked * VOLKHIDAR_RECORD_LENGTH == ours.bytes, "estimate", "run", name);
    print_row(name, sheet, times);
}

constexpr const char* LETTERS[] = {"0 0\n",
                                   "0 0\n3 0\n",
                                   "0 0\n4 0\n",
                                   "0 0\n10 0\n0 10\n10 10\n",
                                   "0 0\n6 0\n0 8\n",
                                   "0 0\n4 0\n2 3\n",
                                   "0 0\n10 0\n5 1\n",
                                   "7 7\n7 7\n7 7\n",
                                   "0 0\n1 1\n2 2\n",
                                   "0 0\n2 0\n4 0\n",
                                   "0 -250\n1000 -250\n0 750\n1000 750\n"};

// A sheet of drawn lists, as many as fit.
Sheet drawn(Kind kind, size_t n) {
    return laid(VOLKHIDAR_MOST_GLYPHS, [=](size_t k) { return described(draw(kind, n, k), PLAIN); });
}

struct Named {
    const char* name;
    Sheet sheet;
};

std::vector<Named> sheets() {
    return {{"empty", laid(VOLKHIDAR_MOST_GLYPHS, [](size_t) { return std::string(); })},
            {"the point 0 0", laid(VOLKHIDAR_MOST_GLYPHS, [](size_t) { return std::string("0 0"); })},
            {"1 point", drawn(Kind::Wider, 1)},
            {"3 points", drawn(Kind::Wider, 3)},
            {"letters A to K", laid(VOLKHIDAR_MOST_GLYPHS, [](size_t k) { return std::string(LETTERS[k % 11]); })},
            {"outlines of 10 points", drawn(Kind::Outline, 10)},
            {"outlines of 30 points", drawn(Kind::Outline, 30)},
            {"outlines of 100 points", drawn(Kind::Outline, 100)},
            {"outlines of 1,000 points", drawn(Kind::Outline, 1000)},
            {"uniform, 4,096 points", drawn(Kind::Uniform, 4096)}};
}

}  // namespace

int main(int argc, char** argv) {
    if (argc < 2 || !read_outlines(argv[1])) {
        std::fprintf(stderr, "no outlines: sheet OUTLINES\n");
        return 1;
    }
    const std::vector<Named> all = sheets();
    std::vector<const char*> ways;
    for (const Way& way : WAYS) ways.push_back(way.name);
    print_head(ways);
    for (const Named& one : all) compare_runs(one.name, one.sheet);
    std::printf("\n");
    print_head({"estimate", "loads", "run"});
    for (const Named& one : all) compare_estimates(one.name, one.sheet);
}
