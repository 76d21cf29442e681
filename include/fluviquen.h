/* Fluviquen: a functional-coverage register whose every answer is proved. For x86-64 Linux.
 *
 * Each function returns a refusal number, 0 (FLUVIQUEN_ACCEPTED) for acceptance. Nothing is kept between calls, nothing is allocated, and
 * every call ends with an answer, whatever the bytes and words are. A call needs up to 256 KB of stack, with a small table 32 KB. docs/RULES.md has the rules,
 * docs/TABLE.md the table's bytes.
 *
 * Of the caller's pointers:
 *   - an array has as many elements as its length says; where the length is 0, the pointer may be null;
 *   - a pointer to a single answer is never null;
 *   - each pointer is aligned for its type;
 *   - nothing that a function writes (register, report, answers) overlaps any other argument; what is only read may overlap;
 *   - any number of threads may call at once if none writes what another reads or writes: each on registers, reports and answers of its own,
 *     with tables and samples shared or not.
 *
 * A register is an array of 32-bit words that the caller lends: flag (1: running), samples, one count per place, one unknown count per
 * point, then the run words of the sequences. Words beyond those are never touched. A refused call writes nothing but the answer's 0,
 * and fluviquen_measure the byte at fault; of fluviquen_samples, the refused sample writes nothing.
 *
 * A sample is an array of 32-bit words: guard bits 0 to 31, guard bits 32 to 63, the same of unknown guard bits, then for each point its
 * value bits and its unknown bits. Bits above a point's width are 0 in both, at signed points too: a negative value is given in two's
 * complement, masked to the width (-10 at a point of 8 bits is 0xF6, and 0xFFFFFFF6 is refused).
 */
#ifndef FLUVIQUEN_H
#define FLUVIQUEN_H

#include <stddef.h>
#include <stdint.h>

#define FLUVIQUEN_VERSION_MAJOR 0
#define FLUVIQUEN_VERSION_MINOR 3
#define FLUVIQUEN_VERSION_PATCH 0
#define FLUVIQUEN_VERSION "0.3.0"

#ifdef __cplusplus
extern "C" {
#endif

/* The numbers that the functions return. 1 to 6 and 15 to 17 refuse a table, with the first that applies; every function tests its table
 * before anything else. fluviquen_measure also gives the byte at fault. 7 to 14 refuse a call, in the order that each function gives. */
enum fluviquen_refusal {
    FLUVIQUEN_ACCEPTED = 0,
    FLUVIQUEN_TABLE_TOO_LONG = 1,      /* the table is over 65,536 bytes */
    FLUVIQUEN_TABLE_CUT = 2,           /* a count or record of the table runs past its end */
    FLUVIQUEN_TABLE_COUNT = 3,         /* a section count or an owned count outside its limits */
    FLUVIQUEN_TABLE_DISAGREES = 4,     /* counts, defaults, sequences, crosses or expressions of the table do not agree */
    FLUVIQUEN_TABLE_LEFTOVER = 5,      /* the table has bytes after section ten */
    FLUVIQUEN_TABLE_LIMITS = 6,        /* the table has over 256 places at a point, or over 1,024 products in a cross */
    FLUVIQUEN_REGISTER_SHORT = 7,      /* the register is shorter than the table needs (fluviquen_measure) */
    FLUVIQUEN_REGISTER_IMPOSSIBLE = 8, /* the register has a flag above 1, or a count above its sample word */
    FLUVIQUEN_REGISTER_FULL = 9,       /* the register has taken 4,294,967,295 samples */
    FLUVIQUEN_REGISTER_STOPPED = 10,   /* the register is stopped */
    FLUVIQUEN_REPORT_SHORT = 11,       /* the report is shorter than the number of illegal places */
    FLUVIQUEN_SAMPLE_LENGTH = 12,      /* the sample has not 4 + 2 x points words */
    FLUVIQUEN_SAMPLE_WIDTH = 13,       /* the sample has a value or unknown bit above a point's width */
    FLUVIQUEN_NOT_THERE = 14,          /* there is no such place, point or item */
    FLUVIQUEN_TABLE_FIELD = 15,        /* a field outside its allowed values, or a guard at an ignore bin (not 3, 16 or 17) */
    FLUVIQUEN_TABLE_VALUE = 16,        /* a, b, lo or hi outside the point's type, out of order, or a pattern outside its mask */
    FLUVIQUEN_TABLE_UNUSED = 17        /* an unused field without its unused value */
};

/* Writes how many 32-bit words a register for this table needs, and how many of its places are illegal bins, which is the length of a
 * sample's report. Both are 0 if the table is refused. Writes to place which byte of the table, from 0, to look at: that of the count or
 * field at fault (3, 15, 16, 17; of two fields that do not go together, the later); where the missing count or record would begin (2); the
 * count or record after which it is tested (4); the first byte left over (5); the table's length (6). It is 0 if the table is accepted, or
 * refused with 1. */
uint32_t fluviquen_measure(const uint8_t *table, size_t table_len, uint32_t *words, uint32_t *illegal_places, size_t *place);

/* Writes where the records of section 1 to 10 stand in the table, without their count: `len` bytes from `table + start` on. Both are 0 if
 * the table is refused, or for another number. Returns the table's refusal number. */
uint32_t fluviquen_section(const uint8_t *table, size_t table_len, uint32_t number, size_t *start, size_t *len);

/* Begins anew: flag 1, all else 0. Refuses with 7. */
uint32_t fluviquen_reset(const uint8_t *table, size_t table_len, uint32_t *reg, size_t reg_len);

/* Runs a stopped register again: sequences begin anew, counts stay. Nothing changes if it runs already. Refuses with 7, 8. */
uint32_t fluviquen_start(const uint8_t *table, size_t table_len, uint32_t *reg, size_t reg_len);

/* Stops a register: it takes no samples until it is started. Refuses with 7, 8. */
uint32_t fluviquen_stop(const uint8_t *table, size_t table_len, uint32_t *reg, size_t reg_len);

/* Takes a sample: every place that it raises counts 1 more, and the report has a word per illegal place, 1 where the sample raised it, else
 * 0. Report words beyond those stay. Refuses with 7, 8, 12, 13, 11, 10, 9. */
uint32_t fluviquen_sample(const uint8_t *table, size_t table_len, uint32_t *reg, size_t reg_len,
                          const uint32_t *sample, size_t sample_len, uint32_t *report, size_t report_len);

/* Takes samples one after another, each exactly as fluviquen_sample does: the i-th, from 0, has the words from i x (4 + 2 x points) on, and
 * its report begins at i x illegal places. Ends at the first that is refused and returns its number; `taken` is how many were accepted
 * before it. What is left after the last whole sample is refused as a sample of that length is (12). With no words at all only the table and
 * the register are tested (7, 8). */
uint32_t fluviquen_samples(const uint8_t *table, size_t table_len, uint32_t *reg, size_t reg_len,
                           const uint32_t *samples, size_t samples_len, uint32_t *reports, size_t reports_len, size_t *taken);

/* Writes a place's count; 0 if refused. Refuses with 7, 8, 14. */
uint32_t fluviquen_place_count(const uint8_t *table, size_t table_len, const uint32_t *reg, size_t reg_len, size_t place, uint32_t *count);

/* Writes how often a point's reading was unknown; 0 if refused. Refuses with 7, 8, 14. */
uint32_t fluviquen_unknown_count(const uint8_t *table, size_t table_len, const uint32_t *reg, size_t reg_len, size_t point, uint32_t *count);

/* Writes an item's coverage in percent: items are the points, then the crosses. `present` is 0, and `percent` 0.0, if the item has nothing
 * to cover or the call is refused; else 1. Refuses with 7, 8, 14. */
uint32_t fluviquen_item_figure(const uint8_t *table, size_t table_len, const uint32_t *reg, size_t reg_len, size_t item,
                               uint32_t *present, double *percent);

/* Writes the group's coverage in millionths of a percent, 100,000,000 for 100 %. `present` is 0, and `millionths` 0, if no weighted item
 * has anything to cover or the call is refused; else 1. Refuses with 7, 8. */
uint32_t fluviquen_group_figure(const uint8_t *table, size_t table_len, const uint32_t *reg, size_t reg_len,
                                uint32_t *present, uint32_t *millionths);

#ifdef __cplusplus
}
#endif

#endif
