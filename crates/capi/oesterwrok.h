/* The calls of Oesterwrok for C: days, dates, drawers, facts, the clerk, planets, searches, emendings, the yearbook's figures,
 * sheets, printed lines and concordances of the Quarter-Remainder rule.
 *
 * Every call ends for every input. `reason` is 0 where there is an answer; else it is the paper's number, every other field
 * is 0 (but the total of a search or an emending that is refused with 12, which is the true one, and the place of a drawer that
 * is refused with 6, which is that of its first day out of range), and nothing lent was changed.
 * Numbers are wide enough that no wrong one is taken for another, but the items of a list, which have the list's width,
 * and the fields of a clerk's state, which have their own (docs/C.md): a negative one is refused like any that is too large.
 * A name is 1 to 60. Lent memory: docs/C.md.
 *
 * A year is the civil year, 0 to 41,040, which opens with its month 1, but in oes_solstice_year and oes_term, which take the
 * solstice year, 1 to 41,040, which begins with its month 11, and in oes_figures, whose civil years are 1 to 41,039. Outside these a
 * year is refused with 1. The civil year of a month
 * is its solstice year, one less where its number is 11 or 12, leap or not. Civil year 0 has months 11 and 12 alone, and civil
 * year 41,040 ends with its leap month 10: a date by a month number that the year has not is refused with 16, after 3 and
 * before 4. */
#ifndef OESTERWROK_H
#define OESTERWROK_H

#include <stdbool.h>
#include <stddef.h>
#include <stdint.h>

#ifdef __cplusplus
extern "C" {
#endif

/* A date by its civil year, whose name `year_name` is. `number` is the month's, `leap` whether it is the leap month of that
 * number. `ji`, `bu` and `year_in_bu` (1 to 3, 1 to 20, 1 to 76) are the place of the solstice year in which the day lies, not of
 * `year`. `eclipse` is whether the month is an eclipse month. */
typedef struct oes_date {
    uint32_t reason;
    uint32_t year;
    uint32_t number;
    bool leap;
    uint32_t day_of_month;
    uint32_t month_length;
    uint32_t day_name;
    uint32_t year_name;
    uint32_t ji;
    uint32_t bu;
    uint32_t year_in_bu;
    bool eclipse;
} oes_date;

/* A day. */
typedef struct oes_day {
    uint32_t reason;
    uint32_t day;
} oes_day;

/* How many records of a drawer were filled. `place` is 0, but of a drawer that is refused with 6 the place of the first day out
 * of range, counted from 0. */
typedef struct oes_filled {
    uint32_t reason;
    uint32_t count;
    uint32_t place;
} oes_filled;

/* A solstice year: its place, its bu's head name, its months. */
typedef struct oes_solstice {
    uint32_t reason;
    uint32_t ji;
    uint32_t bu;
    uint32_t year_in_bu;
    uint32_t head_name;
    uint32_t first_month;
    uint32_t leap_remainder;
    uint32_t months;
} oes_solstice;

/* A civil year's own. `first_month` is its month 1 (in year 0 its month 11). `months` is 12 or 13, but 2 in year 0 and 11 in year
 * 41,040. Where it has no leap month, `has_leap` is false and the two numbers after it are 0. */
typedef struct oes_year {
    uint32_t reason;
    uint32_t name;
    uint32_t first_month;
    uint32_t months;
    bool has_leap;
    uint32_t leap_number;
    uint32_t leap_month;
} oes_year;

/* A month by its count. */
typedef struct oes_month {
    uint32_t reason;
    uint32_t number;
    bool leap;
    uint32_t first_day;
    uint32_t small_remainder;
    uint32_t month_length;
    uint32_t first_name;
    bool eclipse;
} oes_month;

/* The clerk at a month, by which it goes on: the month's count, its first day and small remainder (in parts of 940), number, leap
 * mark, length, the first day's name and the eclipse mark; the eclipse remainder (in parts of 135), and the next mid-term after the
 * month, its day and the rest in parts of 32. It is the caller's own: a start or a walk makes it, a step makes the next. */
typedef struct oes_clerk {
    uint32_t month_count;
    uint32_t first_day;
    uint32_t mid_term_day;
    uint16_t small_remainder;
    uint8_t number;
    bool leap;
    uint8_t month_length;
    uint8_t first_name;
    bool eclipse;
    uint8_t eclipse_remainder;
    uint8_t mid_term_parts;
} oes_clerk;

/* The clerk where a start, a step or a walk led. */
typedef struct oes_clerk_told {
    uint32_t reason;
    oes_clerk clerk;
} oes_clerk_told;

/* A quarter of a month: its day and the parts that are left. */
typedef struct oes_quarter_told {
    uint32_t reason;
    uint32_t day;
    uint32_t parts;
} oes_quarter_told;

/* A term of a solstice year: its day and the rest in parts of 32. */
typedef struct oes_term_told {
    uint32_t reason;
    uint32_t day;
    uint32_t parts;
} oes_term_told;

/* A conjunction of a planet: its day, and its remainder in parts of the divisor. `phase` is 1 for a morning conjunction, 2 for an
 * evening one, 0 for neither. */
typedef struct oes_conjunction_told {
    uint32_t reason;
    uint32_t day;
    uint32_t parts;
    uint32_t divisor;
    uint32_t phase;
} oes_conjunction_told;

/* The same with its count, the first one being 0. */
typedef struct oes_next_told {
    uint32_t reason;
    uint32_t k;
    uint32_t day;
    uint32_t parts;
    uint32_t divisor;
    uint32_t phase;
} oes_next_told;

/* A planet's pair: so many years, and the conjunctions in them. */
typedef struct oes_pair_told {
    uint32_t reason;
    uint64_t years;
    uint64_t conjunctions;
} oes_pair_told;

/* A reading of a slip: six values, and whether each was read. The year's name is that of the civil year. A leap mark is 1 for
 * ordinary and 2 for leap. */
typedef struct oes_reading {
    uint64_t year_name;
    uint64_t month_number;
    uint64_t leap_mark;
    uint64_t day_of_month;
    uint64_t day_name;
    uint64_t first_name;
    bool year_name_known;
    bool month_number_known;
    bool leap_mark_known;
    bool day_of_month_known;
    bool day_name_known;
    bool first_name_known;
} oes_reading;

/* How many days a search found. */
typedef struct oes_found {
    uint32_t reason;
    uint32_t total;
} oes_found;

/* What an emending found. `fits`: how many days fit is `total`, and nothing was filled; else `total` is how many emendations there
 * are. */
typedef struct oes_emended {
    uint32_t reason;
    bool fits;
    uint32_t total;
} oes_emended;

/* The figures of a range of civil years: its big months, small months, big pairs and eclipse months. A big pair counts by the month
 * that starts it. */
typedef struct oes_figures_told {
    uint32_t reason;
    uint32_t big;
    uint32_t small;
    uint32_t pairs;
    uint32_t eclipses;
} oes_figures_told;

/* How many items each of a sheet's lists has; its years are civil years. */
typedef struct oes_sheet_counts {
    uint32_t reason;
    size_t years;
    size_t months;
    size_t days;
} oes_sheet_counts;

/* The same of a sheet of the new form, with how many readings it has. */
typedef struct oes_new_counts {
    uint32_t reason;
    size_t years;
    size_t months;
    size_t days;
    size_t readings;
} oes_new_counts;

/* How many bytes were written. */
typedef struct oes_length {
    uint32_t reason;
    size_t length;
} oes_length;

/* By the civil year. */
oes_date oes_date_of_day(uint64_t day);
oes_day oes_day_of_date(uint64_t year, uint64_t number, bool leap, uint64_t day_of_month);
oes_date oes_move_date(uint64_t year, uint64_t number, bool leap, uint64_t day_of_month, int64_t days);

/* A whole drawer, at most 4,096 days, else 10. Where `reason` is 0, record i of `out` is what oes_date_of_day gives for day i,
 * for every i below `count`, reason 0 in it too; the records from `count` on stay as they were. */
oes_filled oes_dates(const uint32_t *days, size_t days_count, oes_date *out, size_t out_places);

/* By the solstice year. */
oes_solstice oes_solstice_year(uint64_t year);
oes_term_told oes_term(uint64_t year, uint64_t term);

/* By the civil year. */
oes_year oes_year_facts(uint64_t year);

oes_month oes_month_facts(uint64_t month);
oes_quarter_told oes_quarter(uint64_t month, uint64_t quarter);

/* The clerk's own way, from month to month by additions. A bu is counted from the origin, 1 to 540, else 21; bu 1 starts at the
 * origin. A step past the last month, 507,599, is 7. A walk is a start and so many steps. What it shows of a state
 * that these led to is what oes_month_facts gives for its count, `reason` always 0. A state that no start leads to is stepped by the same additions, and is refused with 7 where
 * its count is above 507,598 or its first day above 14,989,829. */
oes_clerk_told oes_clerk_start(uint64_t bu);
oes_clerk_told oes_clerk_step(oes_clerk clerk);
oes_clerk_told oes_clerk_walk(uint64_t bu, uint64_t steps);
oes_month oes_clerk_show(oes_clerk clerk);

/* Planets: 1 Jupiter, 2 Mars, 3 Saturn, 4 Venus, 5 Mercury. */
oes_conjunction_told oes_conjunction(uint64_t planet, uint64_t k);
oes_next_told oes_next_conjunction(uint64_t planet, uint64_t day);
oes_pair_told oes_reduced_pair(uint64_t planet);

oes_found oes_search(oes_reading reading, uint64_t first, uint64_t last, uint32_t *out, size_t out_places);

/* Where no day of the window fits the reading: every day that disagrees with exactly one known field, in day order, four numbers
 * of `out` each: the day, the field (1 to 6, in the order of oes_reading), what was read and what it should be. 12 where `out` has
 * fewer than four places for each. Where some day fits, `out` stays as it was, and may be as short as it likes. */
oes_emended oes_emend(oes_reading reading, uint64_t first, uint64_t last, uint32_t *out, size_t out_places);

/* The figures of the civil years from `first` to `last`, both among them; 1 for a year outside 1 to 41,039, then 13 for a range turned
 * round. `leaps` has the leap months of each number, of number 1 first; `names` the days of each name, of name 1 first. Both are
 * filled wholly: they have 12 and 60 places, never fewer. The time does not grow with the range. */
oes_figures_told oes_figures(uint64_t first, uint64_t last, uint32_t leaps[12], uint32_t names[60]);

/* Years are civil years. */
oes_sheet_counts oes_read_sheet(const uint8_t *bytes, size_t bytes_length, uint16_t *years, size_t years_places,
                                uint32_t *months, size_t months_places, uint32_t *days, size_t days_places);
oes_length oes_write_sheet(const uint16_t *years, size_t years_count, const uint32_t *months, size_t months_count,
                           const uint32_t *days, size_t days_count, uint8_t *out, size_t out_bytes);

/* The new form of the sheet: after the days at most 500 readings, 14 bytes each, the six fields one byte each in the order of
 * oes_reading (0 unread; leap mark 1 or 2), then first and last day of the window, 4 bytes each. `readings` takes eight numbers a
 * reading in that order. A reading is refused by the reasons of oes_search, 6, 13, 14, after 9. */
oes_new_counts oes_read_new(const uint8_t *bytes, size_t bytes_length, uint16_t *years, size_t years_places,
                            uint32_t *months, size_t months_places, uint32_t *days, size_t days_places,
                            uint32_t *readings, size_t readings_places);

/* A sheet in the other form: the same bytes and a count of 0, or without that count. Readings present are 17. */
oes_length oes_to_new(const uint8_t *bytes, size_t bytes_length, uint8_t *out, size_t out_bytes);
oes_length oes_to_old(const uint8_t *bytes, size_t bytes_length, uint8_t *out, size_t out_bytes);

/* A year's block and a day's line are by the civil year. The line of a day is the listing's, which ends with the day name. */
oes_length oes_print_year(uint64_t year, uint8_t *out, size_t out_bytes);
oes_length oes_print_month_line(uint64_t month, uint8_t *out, size_t out_bytes);
oes_length oes_print_month(uint64_t month, uint8_t *out, size_t out_bytes);
oes_length oes_print_day(uint64_t day, uint8_t *out, size_t out_bytes);

/* The verdicts on a concordance, a text of at most 65,536 bytes, else 18: lines as oes_print_month_line prints them. `out` gets one
 * byte a line: 0 right, 1 to 6 the first wrong field (month count, number, leap mark, first day's name, length, eclipse mark),
 * 7 unreadable; `length` is how many lines there are. A last line without a newline counts. 12 where `out` has fewer places. */
oes_length oes_judge_text(const uint8_t *text, size_t text_length, uint8_t *out, size_t out_bytes);

#ifdef __cplusplus
}
#endif

#endif
