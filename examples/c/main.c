/* A thread sensor of one bit, read at five clocks; once it cannot be read. */
#include <stdio.h>
#include <stdlib.h>
#include "fluviquen.h"

/* One unsigned point of width 1 without a guard, weight 1, at-least 1, at most 64 auto bins; nothing else. */
static const uint8_t table[31] = { 1, 0, 1, 0, 255, 1, 0, 1, 0, 0, 0, 64, 0 };

static const char *in_words(uint32_t refusal) {
    switch (refusal) {
    case FLUVIQUEN_ACCEPTED: return "accepted";
    case FLUVIQUEN_TABLE_TOO_LONG: return "the table is over 65,536 bytes";
    case FLUVIQUEN_TABLE_CUT: return "a count or record of the table runs past its end";
    case FLUVIQUEN_TABLE_COUNT: return "a section count or an owned count outside its limits";
    case FLUVIQUEN_TABLE_DISAGREES: return "counts, defaults, sequences, crosses or expressions of the table do not agree";
    case FLUVIQUEN_TABLE_LEFTOVER: return "the table has bytes after section ten";
    case FLUVIQUEN_TABLE_LIMITS: return "the table has over 256 places at a point, or over 1,024 products in a cross";
    case FLUVIQUEN_REGISTER_SHORT: return "the register is shorter than the table needs";
    case FLUVIQUEN_REGISTER_IMPOSSIBLE: return "the register has a flag above 1, or a count above its sample word";
    case FLUVIQUEN_REGISTER_FULL: return "the register has taken 4,294,967,295 samples";
    case FLUVIQUEN_REGISTER_STOPPED: return "the register is stopped";
    case FLUVIQUEN_REPORT_SHORT: return "the report is shorter than the number of illegal places";
    case FLUVIQUEN_SAMPLE_LENGTH: return "the sample has not 4 + 2 x points words";
    case FLUVIQUEN_SAMPLE_WIDTH: return "the sample has a value or unknown bit above a point's width";
    case FLUVIQUEN_NOT_THERE: return "there is no such place, point or item";
    case FLUVIQUEN_TABLE_FIELD: return "a field outside its allowed values, or a guard at an ignore bin";
    case FLUVIQUEN_TABLE_VALUE: return "a, b, lo or hi outside the point's type, out of order, or a pattern outside its mask";
    case FLUVIQUEN_TABLE_UNUSED: return "an unused field without its unused value";
    default: return "refused";
    }
}

/* Goes on only if the call was accepted. */
static void must(const char *call, uint32_t refusal) {
    if (refusal != FLUVIQUEN_ACCEPTED) {
        fprintf(stderr, "%s: refusal %u (%s)\n", call, refusal, in_words(refusal));
        exit(1);
    }
}

/* Says why a table is refused, and which byte to look at; a table that is too long has none. */
static void say_refused(FILE *to, uint32_t refusal, size_t at) {
    if (refusal == FLUVIQUEN_TABLE_TOO_LONG) {
        fprintf(to, "table refused: %u (%s)\n", refusal, in_words(refusal));
    } else {
        fprintf(to, "table refused: %u at byte %zu (%s)\n", refusal, at, in_words(refusal));
    }
}

/* The table with an illegal bin from 1 to 0: what an engineer is told. */
static void try_backwards(void) {
    static const uint8_t backwards[56] = {
        1, 0, 1, 0, 255, 1, 0, 1, 0, 0, 0, 64, 0,
        1, 0, 0, 2, 0, 0, 0, 255, 1, 0,
        1, 0, 0, 1
    };
    uint32_t words, illegal;
    size_t at;
    uint32_t refusal = fluviquen_measure(backwards, sizeof backwards, &words, &illegal, &at);
    if (refusal != FLUVIQUEN_ACCEPTED) {
        say_refused(stdout, refusal, at);
    }
}

int main(void) {
    uint32_t words, illegal;
    size_t at;
    uint32_t refusal = fluviquen_measure(table, sizeof table, &words, &illegal, &at);
    if (refusal != FLUVIQUEN_ACCEPTED) {
        say_refused(stderr, refusal, at);
        return 1;
    }
    printf("register words %u, illegal places %u\n", words, illegal);

    uint32_t *reg = calloc(words, sizeof *reg);
    uint32_t *report = calloc(illegal + 1, sizeof *report);
    if (reg == NULL || report == NULL) {
        fprintf(stderr, "no memory\n");
        return 1;
    }
    must("reset", fluviquen_reset(table, sizeof table, reg, words));
    /* value bit, unknown bit */
    static const uint32_t readings[5][2] = { { 1, 0 }, { 1, 0 }, { 0, 1 }, { 1, 0 }, { 1, 0 } };
    for (int clock = 0; clock < 5; clock++) {
        const uint32_t sample[6] = { 0, 0, 0, 0, readings[clock][0], readings[clock][1] };
        must("sample", fluviquen_sample(table, sizeof table, reg, words, sample, 6, report, illegal));
        for (uint32_t i = 0; i < illegal; i++) {
            if (report[i] == 1) {
                printf("clock %d raises illegal bin %u of the report\n", clock, i);
            }
        }
    }

    uint32_t count, present, millionths;
    double percent;
    for (size_t place = 0; place < 2; place++) {
        must("place count", fluviquen_place_count(table, sizeof table, reg, words, place, &count));
        printf("place %zu: %u\n", place, count);
    }
    must("unknown count", fluviquen_unknown_count(table, sizeof table, reg, words, 0, &count));
    printf("unknown: %u\n", count);
    must("item figure", fluviquen_item_figure(table, sizeof table, reg, words, 0, &present, &percent));
    if (present == 1) {
        printf("point 0: %.6f %%\n", percent);
    }
    must("group figure", fluviquen_group_figure(table, sizeof table, reg, words, &present, &millionths));
    if (present == 1) {
        printf("group: %u millionths of a percent\n", millionths);
    }
    refusal = fluviquen_place_count(table, sizeof table, reg, words, 2, &count);
    printf("place 2: refusal %u (%s)\n", refusal, in_words(refusal));
    try_backwards();
    free(report);
    free(reg);
    return refusal != FLUVIQUEN_NOT_THERE;
}
