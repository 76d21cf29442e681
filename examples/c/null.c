/* A null pointer with length 0, for every array of every function: each call must end with its number, and write what a refused or accepted
 * call writes. Says nothing if all is well. */
#include <stdio.h>
#include <string.h>
#include "fluviquen.h"

/* One unsigned point of one bit, no bins. */
static const uint8_t table[31] = { 1, 0, 1, 0, 255, 1, 0, 1, 0, 0, 0, 64, 0 };

/* The same point with an illegal bin for 1: value bin (point 0, kind 2, form 0, number 0, guard none, one range) and the span 1 to 1. */
static const uint8_t with_illegal[56] = {
    1, 0, 1, 0, 255, 1, 0, 1, 0, 0, 0, 64, 0,
    1, 0, 0, 2, 0, 0, 0, 255, 1, 0,
    1, 0, 0, 1, 0, 0, 0, 0, 0, 0, 0, 1
};

#define OTHER 0xA5A55A5Au

static const uint32_t sample[6] = { 0, 0, 0, 0, 1, 0 };
static uint32_t reg[6];
static int failures;

static void expect(const char *what, uint32_t got, uint32_t expected) {
    if (got != expected) {
        printf("%s: %u, not %u\n", what, got, expected);
        failures++;
    }
}

/* The register as it was before the calls that must not write it. */
static void untouched(const char *what) {
    for (size_t i = 0; i < 6; i++) {
        expect(what, reg[i], OTHER);
    }
}

static void tables(void) {
    uint32_t words = OTHER, illegal = OTHER;
    size_t place = OTHER, start = OTHER, len = OTHER;
    expect("measure", fluviquen_measure(NULL, 0, &words, &illegal, &place), FLUVIQUEN_TABLE_CUT);
    expect("measure's words", words, 0);
    expect("measure's illegal places", illegal, 0);
    expect("measure's place", (uint32_t)place, 0);
    expect("section", fluviquen_section(NULL, 0, 1, &start, &len), FLUVIQUEN_TABLE_CUT);
    expect("section's start", (uint32_t)start, 0);
    expect("section's length", (uint32_t)len, 0);
}

static void registers(void) {
    expect("reset, no table", fluviquen_reset(NULL, 0, reg, 6), FLUVIQUEN_TABLE_CUT);
    expect("start, no table", fluviquen_start(NULL, 0, reg, 6), FLUVIQUEN_TABLE_CUT);
    expect("stop, no table", fluviquen_stop(NULL, 0, reg, 6), FLUVIQUEN_TABLE_CUT);
    untouched("calls with no table");
    expect("reset, no register", fluviquen_reset(table, sizeof table, NULL, 0), FLUVIQUEN_REGISTER_SHORT);
    expect("start, no register", fluviquen_start(table, sizeof table, NULL, 0), FLUVIQUEN_REGISTER_SHORT);
    expect("stop, no register", fluviquen_stop(table, sizeof table, NULL, 0), FLUVIQUEN_REGISTER_SHORT);
    expect("reset, nothing", fluviquen_reset(NULL, 0, NULL, 0), FLUVIQUEN_TABLE_CUT);
    expect("start, nothing", fluviquen_start(NULL, 0, NULL, 0), FLUVIQUEN_TABLE_CUT);
    expect("stop, nothing", fluviquen_stop(NULL, 0, NULL, 0), FLUVIQUEN_TABLE_CUT);
}

static void samples(void) {
    uint32_t report[1] = { OTHER };
    expect("sample, no table", fluviquen_sample(NULL, 0, reg, 6, sample, 6, report, 1), FLUVIQUEN_TABLE_CUT);
    untouched("sample, no table");
    expect("sample, no register", fluviquen_sample(with_illegal, sizeof with_illegal, NULL, 0, sample, 6, report, 1), FLUVIQUEN_REGISTER_SHORT);
    expect("sample, nothing", fluviquen_sample(NULL, 0, NULL, 0, NULL, 0, NULL, 0), FLUVIQUEN_TABLE_CUT);

    expect("reset", fluviquen_reset(with_illegal, sizeof with_illegal, reg, 6), FLUVIQUEN_ACCEPTED);
    expect("no sample", fluviquen_sample(with_illegal, sizeof with_illegal, reg, 6, NULL, 0, report, 1), FLUVIQUEN_SAMPLE_LENGTH);
    expect("no report", fluviquen_sample(with_illegal, sizeof with_illegal, reg, 6, sample, 6, NULL, 0), FLUVIQUEN_REPORT_SHORT);
    expect("the report of refused samples", report[0], OTHER);
    expect("the samples so far", reg[1], 0);
    expect("sample", fluviquen_sample(with_illegal, sizeof with_illegal, reg, 6, sample, 6, report, 1), FLUVIQUEN_ACCEPTED);
    expect("the report", report[0], 1);

    /* A table without illegal places: no report is needed. */
    expect("reset", fluviquen_reset(table, sizeof table, reg, 6), FLUVIQUEN_ACCEPTED);
    expect("sample with no report", fluviquen_sample(table, sizeof table, reg, 6, sample, 6, NULL, 0), FLUVIQUEN_ACCEPTED);
    const uint32_t after[5] = { 1, 1, 0, 1, 0 };
    expect("the register after it", (uint32_t)memcmp(reg, after, sizeof after), 0);
}

static void batches(void) {
    uint32_t report[1] = { OTHER };
    size_t taken = OTHER;
    for (size_t i = 0; i < 6; i++) {
        reg[i] = OTHER;
    }
    expect("samples, no table", fluviquen_samples(NULL, 0, reg, 6, sample, 6, report, 1, &taken), FLUVIQUEN_TABLE_CUT);
    untouched("samples, no table");
    expect("samples taken, no table", (uint32_t)taken, 0);
    expect("samples, no register", fluviquen_samples(table, sizeof table, NULL, 0, sample, 6, report, 1, &taken), FLUVIQUEN_REGISTER_SHORT);
    expect("samples, nothing", fluviquen_samples(NULL, 0, NULL, 0, NULL, 0, NULL, 0, &taken), FLUVIQUEN_TABLE_CUT);
    expect("reset", fluviquen_reset(with_illegal, sizeof with_illegal, reg, 6), FLUVIQUEN_ACCEPTED);
    expect("no reports", fluviquen_samples(with_illegal, sizeof with_illegal, reg, 6, sample, 6, NULL, 0, &taken), FLUVIQUEN_REPORT_SHORT);
    expect("samples taken, no reports", (uint32_t)taken, 0);
    taken = OTHER;
    expect("no samples", fluviquen_samples(with_illegal, sizeof with_illegal, reg, 6, NULL, 0, NULL, 0, &taken), FLUVIQUEN_ACCEPTED);
    expect("samples taken, none there", (uint32_t)taken, 0);
    expect("the samples so far", reg[1], 0);
    expect("the report of refused samples", report[0], OTHER);
    expect("samples", fluviquen_samples(with_illegal, sizeof with_illegal, reg, 6, sample, 6, report, 1, &taken), FLUVIQUEN_ACCEPTED);
    expect("samples taken", (uint32_t)taken, 1);
    expect("their report", report[0], 1);
}

static void questions(void) {
    const struct {
        const uint8_t *table;
        size_t table_len;
        const uint32_t *reg;
        size_t reg_len;
        uint32_t number;
    } cases[3] = {
        { NULL, 0, reg, 6, FLUVIQUEN_TABLE_CUT },
        { table, sizeof table, NULL, 0, FLUVIQUEN_REGISTER_SHORT },
        { NULL, 0, NULL, 0, FLUVIQUEN_TABLE_CUT }
    };
    for (size_t i = 0; i < 3; i++) {
        const uint8_t *t = cases[i].table;
        const uint32_t *r = cases[i].reg;
        size_t t_len = cases[i].table_len, r_len = cases[i].reg_len;
        uint32_t count = OTHER, present = OTHER, millionths = OTHER;
        double percent = 1.0;
        expect("place count", fluviquen_place_count(t, t_len, r, r_len, 0, &count), cases[i].number);
        expect("a place's count", count, 0);
        count = OTHER;
        expect("unknown count", fluviquen_unknown_count(t, t_len, r, r_len, 0, &count), cases[i].number);
        expect("a point's unknown count", count, 0);
        expect("item figure", fluviquen_item_figure(t, t_len, r, r_len, 0, &present, &percent), cases[i].number);
        expect("whether an item has a figure", present, 0);
        expect("whether that is 0", percent == 0.0, 1);
        present = OTHER;
        expect("group figure", fluviquen_group_figure(t, t_len, r, r_len, &present, &millionths), cases[i].number);
        expect("whether the group has a figure", present, 0);
        expect("the group's figure", millionths, 0);
    }
}

int main(void) {
    for (size_t i = 0; i < 6; i++) {
        reg[i] = OTHER;
    }
    tables();
    registers();
    samples();
    batches();
    questions();
    return failures != 0;
}
