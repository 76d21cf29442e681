// The DPI-C side: a register for the table `yarn.table`, a sample at each clock, and a log `yarn.log` for replay.
// Samples are kept until there are BUFFER of them, and are then given to the library in one call.
#include <cstdio>
#include <cstdlib>
#include <vector>
#include "fluviquen.h"

static const size_t POINTS = 4, SAMPLE = 4 + 2 * POINTS, BUFFER = 256;

// One byte more than a table may have, so that a longer file is refused.
static std::vector<uint8_t> table(65537);
static std::vector<uint32_t> reg, kept, reports;
static size_t illegals;
// Clocks that were sampled, and those that the library has.
static unsigned clocks, given;
static FILE *entries;

static void must(bool ok, const char *what) {
    if (!ok) {
        std::fprintf(stderr, "coverage: %s\n", what);
        std::exit(1);
    }
}

static void accepted(uint32_t refusal, const char *what) {
    if (refusal != FLUVIQUEN_ACCEPTED) {
        std::fprintf(stderr, "coverage: %s is refused with %u\n", what, refusal);
        std::exit(1);
    }
}

// A log's words are little-endian.
static void log_word(uint32_t word) {
    for (int i = 0; i < 4; i++) {
        std::fputc(word >> (8 * i) & 255, entries);
    }
}

extern "C" void coverage_begin() {
    FILE *file = std::fopen("yarn.table", "rb");
    must(file != nullptr, "yarn.table cannot be read");
    table.resize(std::fread(table.data(), 1, table.size(), file));
    std::fclose(file);
    uint32_t words, illegal;
    size_t place;
    uint32_t refusal = fluviquen_measure(table.data(), table.size(), &words, &illegal, &place);
    if (refusal != FLUVIQUEN_ACCEPTED) {
        std::fprintf(stderr, "coverage: yarn.table is refused with %u at byte %zu\n", refusal, place);
        std::exit(1);
    }
    reg.resize(words);
    illegals = illegal;
    reports.resize(illegals * BUFFER);
    accepted(fluviquen_reset(table.data(), table.size(), reg.data(), reg.size()), "the reset");
    entries = std::fopen("yarn.log", "wb");
    must(entries != nullptr, "yarn.log cannot be written");
}

// Gives the library what is kept, and says which illegal bins each clock raises.
static void flush() {
    size_t taken;
    uint32_t refusal = fluviquen_samples(table.data(), table.size(), reg.data(), reg.size(), kept.data(), kept.size(), reports.data(), reports.size(), &taken);
    for (size_t i = 0; i < taken * illegals; i++) {
        if (reports[i] == 1) {
            std::printf("clock %zu raises illegal bin %zu\n", given + i / illegals, i % illegals);
        }
    }
    given += taken;
    if (refusal != FLUVIQUEN_ACCEPTED) {
        std::fprintf(stderr, "coverage: the sample of clock %u is refused with %u\n", given, refusal);
        std::exit(1);
    }
    kept.clear();
}

extern "C" void coverage_sample(unsigned turning, unsigned thread, unsigned unknown, unsigned speed, unsigned grade, unsigned timeout) {
    // Guard bit 0: the wheel turns.
    const uint32_t sample[SAMPLE] = {turning, 0, 0, 0, thread, unknown, speed, 0, grade, 0, timeout, 0};
    log_word(0);
    for (uint32_t word : sample) {
        log_word(word);
        kept.push_back(word);
    }
    clocks++;
    if (kept.size() == BUFFER * SAMPLE) {
        flush();
    }
}

extern "C" void coverage_end() {
    flush();
    uint32_t present, millionths;
    accepted(fluviquen_group_figure(table.data(), table.size(), reg.data(), reg.size(), &present, &millionths), "the group figure");
    must(present == 1, "nothing to cover");
    must(std::fclose(entries) == 0, "yarn.log cannot be written");
    std::printf("%u clocks, group coverage %u.%06u %%\n", clocks, millionths / 1000000, millionths % 1000000);
}
