/* Holds the header to the archive: where each field lies, and every field of every answer at values of the paper. Nothing else
 * compares the two. Values are the paper's, or worked out by hand from its rule. Ends with 0 and a count, or names what differs. */
#include <inttypes.h>
#include <stdio.h>
#include <string.h>

#include "oesterwrok.h"

#define AT(type, field, place) _Static_assert(offsetof(type, field) == (place), #type "." #field)
#define SIZE(type, bytes) _Static_assert(sizeof(type) == (bytes), #type)

AT(oes_date, reason, 0);
AT(oes_date, year, 4);
AT(oes_date, number, 8);
AT(oes_date, leap, 12);
AT(oes_date, day_of_month, 16);
AT(oes_date, month_length, 20);
AT(oes_date, day_name, 24);
AT(oes_date, year_name, 28);
AT(oes_date, ji, 32);
AT(oes_date, bu, 36);
AT(oes_date, year_in_bu, 40);
AT(oes_date, eclipse, 44);
SIZE(oes_date, 48);
AT(oes_day, day, 4);
SIZE(oes_day, 8);
AT(oes_filled, count, 4);
AT(oes_filled, place, 8);
SIZE(oes_filled, 12);
AT(oes_solstice, ji, 4);
AT(oes_solstice, bu, 8);
AT(oes_solstice, year_in_bu, 12);
AT(oes_solstice, head_name, 16);
AT(oes_solstice, first_month, 20);
AT(oes_solstice, leap_remainder, 24);
AT(oes_solstice, months, 28);
SIZE(oes_solstice, 32);
AT(oes_year, name, 4);
AT(oes_year, first_month, 8);
AT(oes_year, months, 12);
AT(oes_year, has_leap, 16);
AT(oes_year, leap_number, 20);
AT(oes_year, leap_month, 24);
SIZE(oes_year, 28);
AT(oes_month, number, 4);
AT(oes_month, leap, 8);
AT(oes_month, first_day, 12);
AT(oes_month, small_remainder, 16);
AT(oes_month, month_length, 20);
AT(oes_month, first_name, 24);
AT(oes_month, eclipse, 28);
SIZE(oes_month, 32);
AT(oes_clerk, month_count, 0);
AT(oes_clerk, first_day, 4);
AT(oes_clerk, mid_term_day, 8);
AT(oes_clerk, small_remainder, 12);
AT(oes_clerk, number, 14);
AT(oes_clerk, leap, 15);
AT(oes_clerk, month_length, 16);
AT(oes_clerk, first_name, 17);
AT(oes_clerk, eclipse, 18);
AT(oes_clerk, eclipse_remainder, 19);
AT(oes_clerk, mid_term_parts, 20);
SIZE(oes_clerk, 24);
AT(oes_clerk_told, clerk, 4);
SIZE(oes_clerk_told, 28);
AT(oes_quarter_told, day, 4);
AT(oes_quarter_told, parts, 8);
SIZE(oes_quarter_told, 12);
AT(oes_term_told, day, 4);
AT(oes_term_told, parts, 8);
SIZE(oes_term_told, 12);
AT(oes_conjunction_told, day, 4);
AT(oes_conjunction_told, parts, 8);
AT(oes_conjunction_told, divisor, 12);
AT(oes_conjunction_told, phase, 16);
SIZE(oes_conjunction_told, 20);
AT(oes_next_told, k, 4);
AT(oes_next_told, day, 8);
AT(oes_next_told, parts, 12);
AT(oes_next_told, divisor, 16);
AT(oes_next_told, phase, 20);
SIZE(oes_next_told, 24);
AT(oes_pair_told, years, 8);
AT(oes_pair_told, conjunctions, 16);
SIZE(oes_pair_told, 24);
AT(oes_reading, month_number, 8);
AT(oes_reading, leap_mark, 16);
AT(oes_reading, day_of_month, 24);
AT(oes_reading, day_name, 32);
AT(oes_reading, first_name, 40);
AT(oes_reading, year_name_known, 48);
AT(oes_reading, month_number_known, 49);
AT(oes_reading, leap_mark_known, 50);
AT(oes_reading, day_of_month_known, 51);
AT(oes_reading, day_name_known, 52);
AT(oes_reading, first_name_known, 53);
SIZE(oes_reading, 56);
AT(oes_found, total, 4);
SIZE(oes_found, 8);
AT(oes_emended, fits, 4);
AT(oes_emended, total, 8);
SIZE(oes_emended, 12);
AT(oes_figures_told, big, 4);
AT(oes_figures_told, small, 8);
AT(oes_figures_told, pairs, 12);
AT(oes_figures_told, eclipses, 16);
SIZE(oes_figures_told, 20);
AT(oes_sheet_counts, years, 8);
AT(oes_sheet_counts, months, 16);
AT(oes_sheet_counts, days, 24);
SIZE(oes_sheet_counts, 32);
AT(oes_new_counts, years, 8);
AT(oes_new_counts, months, 16);
AT(oes_new_counts, days, 24);
AT(oes_new_counts, readings, 32);
SIZE(oes_new_counts, 40);
AT(oes_length, length, 8);
SIZE(oes_length, 16);

static int checked;
static int wrong;

#define SAME(got, want) same(__LINE__, #got, (uint64_t)(got), (uint64_t)(want))

static void same(int line, const char *what, uint64_t got, uint64_t want)
{
    checked++;
    if (got != want) {
        wrong++;
        printf("line %d: %s is %" PRIu64 " and not %" PRIu64 "\n", line, what, got, want);
    }
}

static void bytes_same(int line, const void *got, const void *want, size_t n)
{
    checked++;
    if (memcmp(got, want, n) != 0) {
        wrong++;
        printf("line %d: bytes differ\n", line);
    }
}

/* A number whose low 32 bits are n: never in range. */
static uint64_t wide(uint64_t n) { return (UINT64_C(1) << 32) + n; }

static void fields_of(oes_date d, uint32_t got[12])
{
    const uint32_t fields[12] = {d.reason,   d.year,      d.number, d.leap, d.day_of_month, d.month_length,
                                 d.day_name, d.year_name, d.ji,     d.bu,   d.year_in_bu,   d.eclipse};
    memcpy(got, fields, sizeof fields);
}

static void date_is(int line, oes_date d, const uint32_t want[12])
{
    static const char *const names[12] = {"reason",   "year",      "number", "leap", "day_of_month", "month_length",
                                          "day_name", "year_name", "ji",     "bu",   "year_in_bu",   "eclipse"};
    uint32_t got[12];
    fields_of(d, got);
    for (int i = 0; i < 12; i++) {
        same(line, names[i], got[i], want[i]);
    }
}

#define DATE_IS(d, ...) date_is(__LINE__, (d), (const uint32_t[12]){__VA_ARGS__})
#define DATE_REFUSED(d, reason) DATE_IS((d), (reason))

static void day_is(oes_day d, uint32_t reason, uint32_t day)
{
    SAME(d.reason, reason);
    SAME(d.day, day);
}

/* By civil years: day 0 (case 1), 28 and 29 (2), the last day (3), the first day of solstice year 9,366 and its solstice (5, 6), a
 * day of the leap month of year 11 (8), reasons of a date (9), moves (1, 11). By hand, the first days of leap 12 of year 8 and of
 * the month after it, of leap 11 of year 27, of month 1 of year 1 and of its month 12; the days on both sides of the heads of bu 2,
 * of ji 2 and of the second yuan; the day before solstice year 9,366, in an eclipse month that leaves no rest; the last day of bu 1
 * moved over 27,759 days, which do not keep its eclipse mark, and over 749,493, which do. */
static void dates(void)
{
    DATE_IS(oes_date_of_day(0), 0, 0, 11, 0, 1, 29, 1, 16, 1, 1, 1, 0);
    DATE_IS(oes_date_of_day(28), 0, 0, 11, 0, 29, 29, 29, 16, 1, 1, 1, 0);
    DATE_IS(oes_date_of_day(29), 0, 0, 12, 0, 1, 30, 30, 16, 1, 1, 1, 0);
    DATE_IS(oes_date_of_day(59), 0, 1, 1, 0, 1, 29, 60, 17, 1, 1, 1, 0);
    DATE_IS(oes_date_of_day(2953), 0, 8, 12, 1, 1, 29, 14, 24, 1, 1, 9, 0);
    DATE_IS(oes_date_of_day(2982), 0, 9, 1, 0, 1, 30, 43, 25, 1, 1, 9, 0);
    DATE_IS(oes_date_of_day(3961), 0, 11, 9, 1, 5, 29, 2, 27, 1, 1, 11, 1);
    DATE_IS(oes_date_of_day(9863), 0, 27, 11, 1, 1, 29, 24, 43, 1, 1, 28, 1);
    DATE_IS(oes_date_of_day(27758), 0, 76, 10, 1, 30, 30, 39, 32, 1, 1, 76, 1);
    DATE_IS(oes_date_of_day(27759), 0, 76, 11, 0, 1, 29, 40, 32, 1, 2, 1, 0);
    DATE_IS(oes_date_of_day(555179), 0, 1520, 10, 1, 30, 30, 60, 36, 1, 20, 76, 0);
    DATE_IS(oes_date_of_day(555180), 0, 1520, 11, 0, 1, 29, 1, 36, 2, 1, 1, 1);
    DATE_IS(oes_date_of_day(1665539), 0, 4560, 10, 1, 30, 30, 60, 16, 3, 20, 76, 0);
    DATE_IS(oes_date_of_day(1665540), 0, 4560, 11, 0, 1, 29, 1, 16, 1, 1, 1, 1);
    DATE_IS(oes_date_of_day(3420557), 0, 9365, 10, 0, 30, 30, 18, 21, 1, 4, 17, 1);
    DATE_IS(oes_date_of_day(3420558), 0, 9365, 11, 0, 1, 30, 19, 21, 1, 4, 18, 0);
    DATE_IS(oes_date_of_day(3420566), 0, 9365, 11, 0, 9, 30, 27, 21, 1, 4, 18, 0);
    DATE_IS(oes_date_of_day(14989859), 0, 41040, 10, 1, 30, 30, 60, 16, 3, 20, 76, 1);
    DATE_REFUSED(oes_date_of_day(14989860), 6);
    DATE_REFUSED(oes_date_of_day(wide(0)), 6);
    DATE_REFUSED(oes_date_of_day((uint64_t)-1), 6);
    day_is(oes_day_of_date(0, 11, false, 1), 0, 0);
    day_is(oes_day_of_date(0, 12, false, 1), 0, 29);
    day_is(oes_day_of_date(1, 12, false, 1), 0, 383);
    day_is(oes_day_of_date(8, 12, true, 1), 0, 2953);
    day_is(oes_day_of_date(27, 11, true, 1), 0, 9863);
    day_is(oes_day_of_date(9365, 11, false, 9), 0, 3420566);
    day_is(oes_day_of_date(41040, 10, true, 30), 0, 14989859);
    day_is(oes_day_of_date(11, 9, true, 5), 0, 3961);
    day_is(oes_day_of_date(11, 8, true, 1), 4, 0);
    day_is(oes_day_of_date(11, 9, true, 30), 5, 0);
    day_is(oes_day_of_date(wide(0), wide(11), false, wide(1)), 1, 0);
    day_is(oes_day_of_date(0, wide(11), false, wide(1)), 2, 0);
    day_is(oes_day_of_date(0, 11, false, wide(1)), 3, 0);
    DATE_IS(oes_move_date(0, 11, false, 1, 27759), 0, 76, 11, 0, 1, 29, 40, 32, 1, 2, 1, 0);
    DATE_IS(oes_move_date(76, 11, false, 1, -27759), 0, 0, 11, 0, 1, 29, 1, 16, 1, 1, 1, 0);
    DATE_IS(oes_move_date(76, 10, true, 30, 27759), 0, 152, 10, 1, 30, 30, 18, 48, 1, 2, 76, 0);
    DATE_IS(oes_move_date(76, 10, true, 30, 749493), 0, 2128, 10, 1, 30, 30, 12, 44, 2, 8, 76, 1);
    DATE_REFUSED(oes_move_date(0, 11, false, 1, -1), 8);
    DATE_REFUSED(oes_move_date(0, 11, false, 1, INT64_MIN), 8);
    DATE_REFUSED(oes_move_date(0, 11, false, 1, INT64_MAX), 8);
    DATE_REFUSED(oes_move_date(wide(0), 11, false, 1, 0), 1);
}

static void date_asked_refused(uint64_t year, uint64_t number, bool leap, uint64_t day_of_month, uint32_t reason)
{
    day_is(oes_day_of_date(year, number, leap, day_of_month), reason, 0);
    DATE_REFUSED(oes_move_date(year, number, leap, day_of_month, 0), reason);
    DATE_REFUSED(oes_move_date(year, number, leap, day_of_month, INT64_MIN), reason);
}

/* A month number that the civil year has not, 16: after 1, 2 and 3, before 4 and 5, and before a move's 8. */
static void numbers_of_a_year(void)
{
    for (uint64_t number = 1; number <= 10; number++) {
        date_asked_refused(0, number, false, 1, 16);
        date_asked_refused(0, number, true, 30, 16);
    }
    for (uint64_t number = 11; number <= 12; number++) {
        date_asked_refused(41040, number, false, 1, 16);
        date_asked_refused(41040, number, true, 30, 16);
        date_asked_refused(0, number, true, 1, 4);
    }
    date_asked_refused(41040, 9, true, 1, 4);
    date_asked_refused(0, 11, false, 30, 5);
    date_asked_refused(0, 5, true, 31, 3);
    date_asked_refused(41040, 11, true, 0, 3);
    date_asked_refused(0, 13, false, 31, 2);
    date_asked_refused(0, wide(5), false, 1, 2);
    date_asked_refused(41040, 0, true, 0, 2);
    date_asked_refused(41041, 11, false, 1, 1);
    date_asked_refused(wide(41040), 11, false, 1, 1);
}

/* The most days of a drawer, and how many records stand before what is lent. */
enum { MOST = 4096, BEFORE = 3 };

/* Room for a full drawer and some more, with records before it and behind it; and what stood there before a call. */
static oes_date records[BEFORE + MOST + 8];
static oes_date stood[BEFORE + MOST + 8];

/* Every byte a canary, but those of a bool, which are 0 or 1. */
static void put_canaries(void)
{
    memset(records, 0xA5, sizeof records);
    for (size_t i = 0; i < sizeof records / sizeof records[0]; i++) {
        records[i].leap = i % 2 == 0;
        records[i].eclipse = i % 3 == 0;
    }
    memcpy(stood, records, sizeof stood);
}

/* Asks for a drawer and holds its answer; and byte by byte that only the first `count` of the records that were lent changed. */
static void drawer_is(int line, const uint32_t *days, size_t n, size_t places, uint32_t reason, uint32_t count, uint32_t place)
{
    put_canaries();
    oes_filled f = oes_dates(days, n, records + BEFORE, places);
    same(line, "reason", f.reason, reason);
    same(line, "count", f.count, count);
    same(line, "place", f.place, place);
    bytes_same(line, records, stood, sizeof stood[0] * BEFORE);
    bytes_same(line, records + BEFORE + count, stood + BEFORE + count, sizeof stood - sizeof stood[0] * (BEFORE + count));
}

#define DRAWER_FILLED(days, n, places) drawer_is(__LINE__, (days), (n), (places), 0, (n), 0)
#define DRAWER_REFUSED(days, n, places, reason, place) drawer_is(__LINE__, (days), (n), (places), (reason), 0, (place))
#define RECORD_IS(i, ...) DATE_IS(records[BEFORE + (i)], __VA_ARGS__)

/* The first and the last day, the first of month 12 of year 0, a day of the leap month of year 11, both sides of the head of bu 2,
 * and one of them again, as above under dates; into just as many records, and into more. */
static void drawer(void)
{
    const uint32_t days[7] = {14989859, 0, 27759, 27758, 3961, 29, 27759};
    for (size_t places = 7; places <= 9; places++) {
        DRAWER_FILLED(days, 7, places);
        RECORD_IS(0, 0, 41040, 10, 1, 30, 30, 60, 16, 3, 20, 76, 1);
        RECORD_IS(1, 0, 0, 11, 0, 1, 29, 1, 16, 1, 1, 1, 0);
        RECORD_IS(2, 0, 76, 11, 0, 1, 29, 40, 32, 1, 2, 1, 0);
        RECORD_IS(3, 0, 76, 10, 1, 30, 30, 39, 32, 1, 1, 76, 1);
        RECORD_IS(4, 0, 11, 9, 1, 5, 29, 2, 27, 1, 1, 11, 1);
        RECORD_IS(5, 0, 0, 12, 0, 1, 30, 30, 16, 1, 1, 1, 0);
        RECORD_IS(6, 0, 76, 11, 0, 1, 29, 40, 32, 1, 2, 1, 0);
    }
    DRAWER_FILLED(days, 1, 2);
    RECORD_IS(0, 0, 41040, 10, 1, 30, 30, 60, 16, 3, 20, 76, 1);
    DRAWER_REFUSED(days, 7, 6, 12, 0);
    DRAWER_REFUSED(days, 7, 0, 12, 0);
}

/* No day at all is filled into any room; a day that stands behind an empty list does not count. */
static void empty_drawer(void)
{
    const uint32_t behind[1] = {14989860};
    DRAWER_FILLED(behind, 0, 0);
    DRAWER_FILLED(behind, 0, 1);
    DRAWER_FILLED(behind, 0, MOST);
}

/* Days out of range at the first place, at the last, between, and several, of which the first counts; 12 comes before them. */
static void bad_days(void)
{
    const uint32_t first[3] = {14989860, 29, 0};
    const uint32_t between[3] = {29, UINT32_MAX, 0};
    const uint32_t last[3] = {29, 0, UINT32_C(1) << 31};
    const uint32_t several[4] = {29, 14989861, 0, 14989860};
    DRAWER_REFUSED(first, 3, 3, 6, 0);
    DRAWER_REFUSED(first, 1, 1, 6, 0);
    DRAWER_REFUSED(between, 3, 3, 6, 1);
    DRAWER_REFUSED(last, 3, 5, 6, 2);
    DRAWER_REFUSED(several, 4, 4, 6, 1);
    DRAWER_REFUSED(several + 2, 2, 2, 6, 1);
    DRAWER_REFUSED(first, 3, 2, 12, 0);
    DRAWER_REFUSED(several, 4, 3, 12, 0);
    DRAWER_FILLED(last, 2, 2);
    RECORD_IS(0, 0, 0, 12, 0, 1, 30, 30, 16, 1, 1, 1, 0);
    RECORD_IS(1, 0, 0, 11, 0, 1, 29, 1, 16, 1, 1, 1, 0);
}

/* How many of the first records are what the single call gives for their days. */
static uint32_t as_by_single_calls(const uint32_t *days, uint32_t n)
{
    uint32_t alike = 0;
    for (uint32_t i = 0; i < n; i++) {
        uint32_t got[12];
        uint32_t want[12];
        fields_of(records[BEFORE + i], got);
        fields_of(oes_date_of_day(days[i]), want);
        alike += memcmp(got, want, sizeof got) == 0;
    }
    return alike;
}

/* A full drawer, from day 27,000 on; and a day too many, which comes before 12 and 6; and so many that their low 16 bits are 0 or
 * those of a full drawer. */
static void full_drawer(void)
{
    static uint32_t days[65536 + MOST];
    for (uint32_t i = 0; i <= MOST; i++) {
        days[i] = 27000 + i;
    }
    DRAWER_FILLED(days, MOST, MOST);
    SAME(as_by_single_calls(days, MOST), MOST);
    DRAWER_REFUSED(days, MOST, MOST - 1, 12, 0);
    DRAWER_REFUSED(days, MOST + 1, MOST + 1, 10, 0);
    DRAWER_REFUSED(days, MOST + 1, MOST, 10, 0);
    DRAWER_REFUSED(days, 65536, MOST, 10, 0);
    DRAWER_REFUSED(days, 65536 + MOST, MOST, 10, 0);
    days[MOST - 1] = 14989860;
    DRAWER_REFUSED(days, MOST, MOST, 6, MOST - 1);
    DRAWER_REFUSED(days, MOST, MOST - 1, 12, 0);
    DRAWER_REFUSED(days, MOST + 1, 0, 10, 0);
    DRAWER_FILLED(days, MOST - 1, MOST);
    SAME(as_by_single_calls(days, MOST - 1), MOST - 1);
}

static void solstice_is(oes_solstice s, const uint32_t want[8])
{
    const uint32_t got[8] = {s.reason,    s.ji,          s.bu,             s.year_in_bu,
                             s.head_name, s.first_month, s.leap_remainder, s.months};
    for (int i = 0; i < 8; i++) {
        SAME(got[i], want[i]);
    }
}

static void year_is(oes_year y, const uint32_t want[7])
{
    const uint32_t got[7] = {y.reason, y.name, y.first_month, y.months, y.has_leap, y.leap_number, y.leap_month};
    for (int i = 0; i < 7; i++) {
        SAME(got[i], want[i]);
    }
}

static void month_is(oes_month m, const uint32_t want[8])
{
    const uint32_t got[8] = {m.reason,          m.number,       m.leap,       m.first_day,
                             m.small_remainder, m.month_length, m.first_name, m.eclipse};
    for (int i = 0; i < 8; i++) {
        SAME(got[i], want[i]);
    }
}

static void clerk_is(int line, oes_clerk_told r, const uint32_t want[12])
{
    static const char *const names[12] = {"reason",       "month_count", "first_day",  "mid_term_day", "small_remainder",   "number",
                                          "leap", "month_length", "first_name", "eclipse",  "eclipse_remainder", "mid_term_parts"};
    const oes_clerk c = r.clerk;
    const uint32_t got[12] = {r.reason, c.month_count,  c.first_day,  c.mid_term_day, c.small_remainder,   c.number,
                              c.leap,   c.month_length, c.first_name, c.eclipse,  c.eclipse_remainder, c.mid_term_parts};
    for (int i = 0; i < 12; i++) {
        same(line, names[i], got[i], want[i]);
    }
}

#define CLERK_IS(r, ...) clerk_is(__LINE__, (r), (const uint32_t[12]){__VA_ARGS__})
#define CLERK_REFUSED(r, reason) CLERK_IS((r), (reason))

/* A state put together, the bytes behind its fields set to a byte of their own. */
static oes_clerk state(int behind, const uint32_t f[11])
{
    oes_clerk c;
    memset(&c, behind, sizeof c);
    c.month_count = f[0];
    c.first_day = f[1];
    c.mid_term_day = f[2];
    c.small_remainder = (uint16_t)f[3];
    c.number = (uint8_t)f[4];
    c.leap = f[5] != 0;
    c.month_length = (uint8_t)f[6];
    c.first_name = (uint8_t)f[7];
    c.eclipse = f[8] != 0;
    c.eclipse_remainder = (uint8_t)f[9];
    c.mid_term_parts = (uint8_t)f[10];
    return c;
}

#define STATE(behind, ...) state((behind), (const uint32_t[11]){__VA_ARGS__})

/* Starts and walks, worked out by hand. Months 1 and 2; leap 6, month 32, before whose end no mid-term comes (that of month 33 falls
 * on day 974, at midnight), and the month after it; the two big months 128 and 129; the head of bu 2, started at and walked to; the last
 * month, whose mid-term ahead is the solstice after the range. */
static void clerk_walks(void)
{
    CLERK_IS(oes_clerk_start(1), 0, 0, 0, 30, 0, 11, 0, 29, 1, 0, 23, 14);
    CLERK_IS(oes_clerk_start(2), 0, 940, 27759, 27789, 0, 11, 0, 29, 40, 0, 43, 14);
    CLERK_IS(oes_clerk_start(540), 0, 506660, 14962101, 14962131, 0, 11, 0, 29, 22, 1, 3, 14);
    CLERK_IS(oes_clerk_walk(1, 0), 0, 0, 0, 30, 0, 11, 0, 29, 1, 0, 23, 14);
    CLERK_IS(oes_clerk_walk(1, 1), 0, 1, 29, 60, 499, 12, 0, 30, 30, 0, 46, 28);
    CLERK_IS(oes_clerk_walk(1, 2), 0, 2, 59, 91, 58, 1, 0, 29, 60, 0, 69, 10);
    CLERK_IS(oes_clerk_walk(1, 32), 0, 32, 944, 974, 928, 6, 1, 30, 45, 0, 84, 0);
    CLERK_IS(oes_clerk_walk(1, 33), 0, 33, 974, 1004, 487, 7, 0, 30, 15, 0, 107, 14);
    CLERK_IS(oes_clerk_walk(1, 128), 0, 128, 3779, 3835, 892, 4, 0, 30, 60, 0, 132, 4);
    CLERK_IS(oes_clerk_walk(1, 129), 0, 129, 3809, 3865, 451, 5, 0, 30, 30, 1, 20, 18);
    CLERK_IS(oes_clerk_walk(1, 940), 0, 940, 27759, 27789, 0, 11, 0, 29, 40, 0, 43, 14);
    CLERK_IS(oes_clerk_walk(540, 939), 0, 507599, 14989830, 14989860, 441, 10, 1, 30, 31, 1, 0, 0);
    CLERK_IS(oes_clerk_walk(1, 507599), 0, 507599, 14989830, 14989860, 441, 10, 1, 30, 31, 1, 0, 0);
    const uint64_t no_bu[4] = {0, 541, wide(1), (uint64_t)-1};
    for (int i = 0; i < 4; i++) {
        CLERK_REFUSED(oes_clerk_start(no_bu[i]), 21);
        CLERK_REFUSED(oes_clerk_walk(no_bu[i], 0), 21);
        CLERK_REFUSED(oes_clerk_walk(no_bu[i], wide(0)), 21);
    }
    CLERK_REFUSED(oes_clerk_walk(540, 940), 7);
    CLERK_REFUSED(oes_clerk_walk(1, 507600), 7);
    CLERK_REFUSED(oes_clerk_walk(540, wide(0)), 7);
    CLERK_REFUSED(oes_clerk_walk(1, (uint64_t)-1), 7);
}

/* Steps and what is shown: of states that a start leads to, then of others, up to all bits set, by the additions alone; the bytes
 * behind the fields say nothing. */
static void clerk_steps(void)
{
    for (int behind = 0; behind < 256; behind += 85) {
        const oes_clerk big = STATE(behind, 128, 3779, 3835, 892, 4, 0, 30, 60, 0, 132, 4);
        CLERK_IS(oes_clerk_step(big), 0, 129, 3809, 3865, 451, 5, 0, 30, 30, 1, 20, 18);
        month_is(oes_clerk_show(big), (const uint32_t[8]){0, 4, 0, 3779, 892, 30, 60, 0});
        const oes_clerk second = STATE(behind, 129, 3809, 3865, 451, 5, 0, 30, 30, 1, 20, 18);
        month_is(oes_clerk_show(second), (const uint32_t[8]){0, 5, 0, 3809, 451, 30, 30, 1});
        const oes_clerk all_set = STATE(behind, -1u, -1u, -1u, 65535, 255, 1, 255, 255, 1, 255, 255);
        CLERK_REFUSED(oes_clerk_step(all_set), 7);
        month_is(oes_clerk_show(all_set), (const uint32_t[8]){0, 255, 1, -1u, 65535, 255, 255, 1});
        const oes_clerk before = STATE(behind, 507598, 14989829, -1u, 65535, 255, 1, 255, 255, 1, 255, 255);
        CLERK_IS(oes_clerk_step(before), 0, 507599, 14989859, -1u, 65094, 255, 1, 30, 225, 0, 143, 255);
        const oes_clerk held = STATE(behind, 0, 0, 0, 65535, 255, 1, 255, 255, 1, 255, 255);
        CLERK_IS(oes_clerk_step(held), 0, 1, 30, 32, 65094, 244, 0, 30, 225, 0, 143, 205);
        CLERK_REFUSED(oes_clerk_step(STATE(behind, 507599, 0, 0, 0, 11, 0, 29, 1, 0, 23, 14)), 7);
        CLERK_REFUSED(oes_clerk_step(STATE(behind, 0, 14989830, 0, 0, 11, 0, 29, 1, 0, 23, 14)), 7);
        CLERK_REFUSED(oes_clerk_step(STATE(behind, 507599, 14989830, 14989860, 441, 10, 1, 30, 31, 1, 0, 0)), 7);
    }
}

/* From the head of bu 539 step by step: 940 steps lead to the head of bu 540, each month as oes_month_facts has it. */
static void clerk_beside_months(void)
{
    oes_clerk_told r = oes_clerk_start(539);
    for (uint32_t n = 505720; n < 506660; n++) {
        const oes_month f = oes_month_facts(n);
        SAME(r.reason, 0);
        SAME(r.clerk.month_count, n);
        month_is(oes_clerk_show(r.clerk), (const uint32_t[8]){0, f.number, f.leap, f.first_day, f.small_remainder, f.month_length,
                                                              f.first_name, f.eclipse});
        r = oes_clerk_step(r.clerk);
    }
    CLERK_IS(r, 0, 506660, 14962101, 14962131, 0, 11, 0, 29, 22, 1, 3, 14);
}

static void quarter_is(oes_quarter_told q, uint32_t reason, uint32_t day, uint32_t parts)
{
    SAME(q.reason, reason);
    SAME(q.day, day);
    SAME(q.parts, parts);
}

static void term_is(oes_term_told t, uint32_t reason, uint32_t day, uint32_t parts)
{
    SAME(t.reason, reason);
    SAME(t.day, day);
    SAME(t.parts, parts);
}

/* Cases 4, 5, 6, 8 and 10. Of the terms, the remainder 8 is 004's; the other two are by hand, one of them at a day's start. Place
 * and terms are of solstice years, from 1 on; the facts of a year are of civil years, from 0 on: year 8 has months 88 to 100, year
 * 11 has 125 to 137, year 27 a leap 11, month 334, and the last year months 507,589 to 507,599. */
static void facts(void)
{
    solstice_is(oes_solstice_year(9366), (const uint32_t[8]){0, 1, 4, 18, 58, 115830, 5, 12});
    solstice_is(oes_solstice_year(77), (const uint32_t[8]){0, 1, 2, 1, 40, 940, 0, 12});
    solstice_is(oes_solstice_year(0), (const uint32_t[8]){1});
    solstice_is(oes_solstice_year(41041), (const uint32_t[8]){1});
    solstice_is(oes_solstice_year(wide(1)), (const uint32_t[8]){1});
    year_is(oes_year_facts(0), (const uint32_t[7]){0, 16, 0, 2, 0, 0, 0});
    year_is(oes_year_facts(1), (const uint32_t[7]){0, 17, 2, 12, 0, 0, 0});
    year_is(oes_year_facts(8), (const uint32_t[7]){0, 24, 88, 13, 1, 12, 100});
    year_is(oes_year_facts(11), (const uint32_t[7]){0, 27, 125, 13, 1, 9, 134});
    year_is(oes_year_facts(12), (const uint32_t[7]){0, 28, 138, 12, 0, 0, 0});
    year_is(oes_year_facts(27), (const uint32_t[7]){0, 43, 323, 13, 1, 11, 334});
    year_is(oes_year_facts(41040), (const uint32_t[7]){0, 16, 507589, 11, 1, 10, 507599});
    year_is(oes_year_facts(41041), (const uint32_t[7]){1});
    year_is(oes_year_facts(wide(0)), (const uint32_t[7]){1});
    year_is(oes_year_facts(wide(11)), (const uint32_t[7]){1});
    month_is(oes_month_facts(134), (const uint32_t[8]){0, 9, 1, 3957, 126, 29, 58, 1});
    month_is(oes_month_facts(0), (const uint32_t[8]){0, 11, 0, 0, 0, 29, 1, 0});
    month_is(oes_month_facts(507600), (const uint32_t[8]){7});
    month_is(oes_month_facts(wide(134)), (const uint32_t[8]){7});
    quarter_is(oes_quarter(115830, 2), 0, 3420573, 918);
    quarter_is(oes_quarter(wide(0), wide(0)), 7, 0, 0);
    quarter_is(oes_quarter(0, wide(0)), 15, 0, 0);
    term_is(oes_term(9366, 0), 0, 3420566, 8);
    term_is(oes_term(44, 10), 0, 15857, 30);
    term_is(oes_term(3, 16), 0, 974, 0);
    term_is(oes_term(0, 0), 1, 0, 0);
    term_is(oes_term(41041, 24), 1, 0, 0);
    term_is(oes_term(wide(1), wide(0)), 1, 0, 0);
    term_is(oes_term(1, wide(0)), 15, 0, 0);
}

static void conjunction_is(oes_conjunction_told c, const uint32_t want[5])
{
    const uint32_t got[5] = {c.reason, c.day, c.parts, c.divisor, c.phase};
    for (int i = 0; i < 5; i++) {
        SAME(got[i], want[i]);
    }
}

static void next_is(oes_next_told n, const uint32_t want[6])
{
    const uint32_t got[6] = {n.reason, n.k, n.day, n.parts, n.divisor, n.phase};
    for (int i = 0; i < 6; i++) {
        SAME(got[i], want[i]);
    }
}

static void pair_is(oes_pair_told p, uint32_t reason, uint64_t years, uint64_t conjunctions)
{
    SAME(p.reason, reason);
    SAME(p.years, years);
    SAME(p.conjunctions, conjunctions);
}

/* The request's checks for k = 1, 004's count of Venus, its pairs; the range's end, by hand; each number too wide, and a product
 * of Saturn's that passes 64 bits. */
static void planets(void)
{
    conjunction_is(oes_conjunction(1, 1), (const uint32_t[5]){0, 398, 14641, 17308, 0});
    conjunction_is(oes_conjunction(2, 1), (const uint32_t[5]){0, 779, 1872, 3516, 0});
    conjunction_is(oes_conjunction(3, 1), (const uint32_t[5]){0, 378, 2163, 36384, 0});
    conjunction_is(oes_conjunction(4, 1), (const uint32_t[5]){0, 292, 281, 23320, 1});
    conjunction_is(oes_conjunction(5, 1), (const uint32_t[5]){0, 57, 44805, 47632, 1});
    conjunction_is(oes_conjunction(4, 2), (const uint32_t[5]){0, 584, 562, 23320, 2});
    conjunction_is(oes_conjunction(4, 11826), (const uint32_t[5]){0, 3453334, 11666, 23320, 2});
    conjunction_is(oes_conjunction(0, 1), (const uint32_t[5]){19});
    conjunction_is(oes_conjunction(6, UINT64_MAX), (const uint32_t[5]){19});
    conjunction_is(oes_conjunction(257, 1), (const uint32_t[5]){19});
    conjunction_is(oes_conjunction(wide(1), wide(1)), (const uint32_t[5]){19});
    conjunction_is(oes_conjunction(1, wide(1)), (const uint32_t[5]){6});
    conjunction_is(oes_conjunction(3, UINT64_C(1341063005370)), (const uint32_t[5]){6});
    conjunction_is(oes_conjunction(3, UINT64_C(1341063005371)), (const uint32_t[5]){6});
    conjunction_is(oes_conjunction(3, (uint64_t)-1), (const uint32_t[5]){6});
    next_is(oes_next_conjunction(4, 0), (const uint32_t[6]){0, 0, 0, 0, 23320, 2});
    next_is(oes_next_conjunction(1, 398), (const uint32_t[6]){0, 1, 398, 14641, 17308, 0});
    next_is(oes_next_conjunction(4, 293), (const uint32_t[6]){0, 2, 584, 562, 23320, 2});
    next_is(oes_next_conjunction(4, 14989854), (const uint32_t[6]){0, 51333, 14989854, 12813, 23320, 1});
    next_is(oes_next_conjunction(4, 14989855), (const uint32_t[6]){20});
    next_is(oes_next_conjunction(4, 14989860), (const uint32_t[6]){6});
    next_is(oes_next_conjunction(4, wide(0)), (const uint32_t[6]){6});
    next_is(oes_next_conjunction(wide(4), 14989860), (const uint32_t[6]){19});
    pair_is(oes_reduced_pair(3), 0, 9415, 9096);
    pair_is(oes_reduced_pair(5), 0, 1889, 11908);
    pair_is(oes_reduced_pair(0), 19, 0, 0);
    pair_is(oes_reduced_pair(wide(1)), 19, 0, 0);
}

static const uint32_t untouched = 0xDEADBEEF;

static void found_is(oes_reading r, uint64_t first, uint64_t last, size_t places, uint32_t reason, uint32_t total, uint32_t day)
{
    uint32_t days[40];
    for (int i = 0; i < 40; i++) {
        days[i] = untouched;
    }
    oes_found f = oes_search(r, first, last, days, places);
    uint32_t listed = reason == 0 ? total : 0;
    SAME(f.reason, reason);
    SAME(f.total, total);
    for (uint32_t i = 0; i < 40; i++) {
        SAME(days[i], i < listed ? day + i : untouched);
    }
}

/* In the days of civil year 11, 3691 to 4074: its leap month, 3957 to 3985; and the day 3961 by all of its six values, one at a
 * time. From day 3632 on, where a month 11 of civil year 10 starts: month 11 of the year of name 27, 4016 to 4044. */
static void search(void)
{
    oes_reading r = {0};
    r.leap_mark = 2;
    r.leap_mark_known = true;
    found_is(r, 3691, 4074, 40, 0, 29, 3957);
    found_is(r, 3691, 4074, 29, 0, 29, 3957);
    found_is(r, 3691, 4074, 28, 12, 29, 0);
    found_is(r, wide(3691), 4074, 40, 6, 0, 0);
    found_is(r, 3691, wide(4074), 40, 6, 0, 0);
    found_is(r, 4074, 3691, 40, 13, 0, 0);
    const oes_reading eleven = {.year_name = 27, .month_number = 11, .year_name_known = true, .month_number_known = true};
    found_is(eleven, 3632, 4074, 40, 0, 29, 4016);
    const oes_reading six = {27, 9, 2, 5, 2, 58, true, true, true, true, true, true};
    found_is(six, 3691, 4074, 40, 0, 1, 3961);
    uint64_t values[6] = {27, 9, 2, 5, 2, 58};
    for (int i = 0; i < 6; i++) {
        uint64_t v[6];
        memcpy(v, values, sizeof v);
        v[i] = wide(v[i]);
        oes_reading s = {v[0], v[1], v[2], v[3], v[4], v[5], true, true, true, true, true, true};
        found_is(s, 3691, 4074, 40, 14, 0, 0);
        oes_reading t = {v[0], v[1], v[2], v[3], v[4], v[5], i != 0, i != 1, i != 2, i != 3, i != 4, i != 5};
        found_is(t, 3961, 3961, 40, 0, 1, 3961);
    }
}

/* The longest list that is lent to an emending, and how many places stand before it and behind it. */
enum { LISTED = 48, GUARD = 8 };

/* Asks for an emending and holds its answer, and every place in and about the list: the emendations that are wanted stand at its
 * front, and every other place is as it was. */
static void emended_is(int line, oes_reading r, uint64_t first, uint64_t last, size_t places, uint32_t reason, bool fits,
                       uint32_t total, const uint32_t *listed)
{
    uint32_t got[GUARD + LISTED + GUARD];
    uint32_t want[GUARD + LISTED + GUARD];
    for (uint32_t i = 0; i < GUARD + LISTED + GUARD; i++) {
        got[i] = want[i] = untouched - i;
    }
    if (reason == 0 && !fits) {
        memcpy(want + GUARD, listed, sizeof want[0] * 4 * total);
    }
    oes_emended e = oes_emend(r, first, last, got + GUARD, places);
    same(line, "reason", e.reason, reason);
    same(line, "fits", e.fits, fits);
    same(line, "total", e.total, total);
    bytes_same(line, got, want, sizeof want);
}

#define FITS(r, first, last, places, total) emended_is(__LINE__, (r), (first), (last), (places), 0, true, (total), NULL)
#define EMENDED(r, first, last, places, total, listed) \
    emended_is(__LINE__, (r), (first), (last), (places), 0, false, (total), (listed))
#define EMEND_REFUSED(r, first, last, places, reason, total) \
    emended_is(__LINE__, (r), (first), (last), (places), (reason), false, (total), NULL)

/* All six values of a slip, each read. */
static oes_reading read_whole(const uint64_t v[6])
{
    return (oes_reading){v[0], v[1], v[2], v[3], v[4], v[5], true, true, true, true, true, true};
}

/* The slip of day 3838, the 30th of month 5 of civil year 11, day name 59, in a month that begins with name 30, its day of month
 * read as 29: from name 30 to 59 are 29 days, so that one of the three is wrong on every day, and of the days of that month 3838
 * is the 30th and 3837 has the name 58. With another year's name every day of the year is wrong in two fields. */
static void emend_a_day_of_month(void)
{
    const uint32_t two[8] = {3837, 5, 59, 58, 3838, 4, 29, 30};
    const oes_reading slip = {27, 5, 1, 29, 59, 30, true, true, true, true, true, true};
    for (size_t places = 8; places <= LISTED; places++) {
        EMENDED(slip, 3691, 4074, places, 2, two);
    }
    for (size_t places = 0; places < 8; places++) {
        EMEND_REFUSED(slip, 3691, 4074, places, 12, 2);
    }
    EMENDED(slip, 3838, 4074, 4, 1, two + 4);
    EMENDED(slip, 3691, 3837, 4, 1, two);
    EMENDED(slip, 3691, 3836, 0, 0, two);
    EMENDED(slip, 3839, 4074, 0, 0, two);
    oes_reading other_year = slip;
    other_year.year_name = 28;
    EMENDED(other_year, 3691, 4074, 0, 0, two);
    EMENDED(other_year, 3691, 4074, LISTED, 0, two);
    other_year.year_name_known = false;
    EMENDED(other_year, 3691, 4074, 8, 2, two);
    oes_reading right = slip;
    right.day_of_month = 30;
    FITS(right, 3691, 4074, 0, 1);
    FITS(right, 3838, 3838, LISTED, 1);
    right.day_of_month_known = false;
    FITS(right, 3691, 4074, 0, 1);
    EMEND_REFUSED(slip, wide(3691), 4074, LISTED, 6, 0);
    EMEND_REFUSED(slip, 3691, wide(4074), LISTED, 6, 0);
    EMEND_REFUSED(slip, 14989860, 4074, 0, 6, 0);
    EMEND_REFUSED(slip, 3691, 14989860, 0, 6, 0);
    EMEND_REFUSED(slip, 4074, 3691, 0, 13, 0);
    EMEND_REFUSED(slip, 0, 27759, 0, 13, 0);
}

/* Day 3961, the 5th of leap 9 of civil year 11, with each of its six values misread, alone: told is the field, what was read and
 * the day's own. With two misread it is not listed. An unread value never disagrees, whatever stands there; a value out of range,
 * which comes after 6 and 13 and before 12, is not one that could be put right. */
static void emend_each_field(void)
{
    const uint64_t own[6] = {27, 9, 2, 5, 2, 58};
    const uint64_t misread[6] = {28, 8, 1, 6, 3, 59};
    for (uint32_t i = 0; i < 6; i++) {
        uint64_t v[6];
        memcpy(v, own, sizeof v);
        v[i] = misread[i];
        const uint32_t one[4] = {3961, i + 1, (uint32_t)misread[i], (uint32_t)own[i]};
        EMENDED(read_whole(v), 3961, 3961, 4, 1, one);
        EMENDED(read_whole(v), 3961, 3961, LISTED, 1, one);
        EMEND_REFUSED(read_whole(v), 3961, 3961, 3, 12, 1);
        const uint64_t outside[3] = {0, 61, wide(own[i])};
        for (int k = 0; k < 3; k++) {
            v[i] = outside[k];
            EMEND_REFUSED(read_whole(v), 3961, 3961, 0, 14, 0);
            EMEND_REFUSED(read_whole(v), 3961, 3960, 0, 13, 0);
            EMEND_REFUSED(read_whole(v), 3961, 14989860, 0, 6, 0);
            oes_reading unread = {v[0], v[1], v[2], v[3], v[4], v[5], i != 0, i != 1, i != 2, i != 3, i != 4, i != 5};
            FITS(unread, 3961, 3961, 0, 1);
        }
        v[i] = misread[i];
        v[(i + 1) % 6] = misread[(i + 1) % 6];
        EMENDED(read_whole(v), 3961, 3961, 0, 0, one);
    }
}

/* A leap mark alone, which fits the 29 days of leap 9 of civil year 11, 3957 to 3985; before them it is wrong on each day. Nothing
 * read fits every day. The first day and the last, each with a value misread. */
static void emend_marks_and_ends(void)
{
    const oes_reading leap = {.leap_mark = 2, .leap_mark_known = true};
    uint32_t before[40];
    for (uint32_t i = 0; i < 10; i++) {
        const uint32_t one[4] = {3947 + i, 3, 2, 1};
        memcpy(before + 4 * i, one, sizeof one);
    }
    EMENDED(leap, 3947, 3956, 40, 10, before);
    EMENDED(leap, 3947, 3956, 43, 10, before);
    EMEND_REFUSED(leap, 3947, 3956, 39, 12, 10);
    EMEND_REFUSED(leap, 3947, 3956, 10, 12, 10);
    FITS(leap, 3947, 3957, 0, 1);
    FITS(leap, 3947, 3957, LISTED, 1);
    FITS(leap, 3691, 4074, LISTED, 29);
    FITS((oes_reading){0}, 0, 27758, 0, 27759);
    const uint32_t first[4] = {0, 6, 2, 1};
    EMENDED(read_whole((const uint64_t[6]){16, 11, 1, 1, 1, 2}), 0, 0, 4, 1, first);
    const uint32_t last[4] = {14989859, 3, 1, 2};
    EMENDED(read_whole((const uint64_t[6]){16, 10, 1, 30, 60, 31}), 14989859, 14989859, 4, 1, last);
}

/* The two arrays of the yearbook's figures, with places before, between and behind that must stay. */
typedef struct figured {
    uint32_t before[GUARD];
    uint32_t leaps[12];
    uint32_t between[GUARD];
    uint32_t names[60];
    uint32_t behind[GUARD];
} figured;

/* Asks for the figures of a range and holds the answer, and every place in and about the arrays: where it is refused all are as they
 * were, else the leap months are those that are wanted, and `name` has the most days, `most` of them, as have the `many` names from it
 * on; the others have one fewer. */
static void figures_are(int line, uint64_t first, uint64_t last, oes_figures_told want, const uint32_t leaps[12], uint32_t name,
                        uint32_t many, uint32_t most)
{
    figured got;
    figured kept;
    uint32_t *place = (uint32_t *)&got;
    for (uint32_t i = 0; i < sizeof got / sizeof *place; i++) {
        place[i] = untouched - i;
    }
    kept = got;
    if (want.reason == 0) {
        memcpy(kept.leaps, leaps, sizeof kept.leaps);
        for (uint32_t i = 0; i < 60; i++) {
            kept.names[i] = most - ((i + 60 - (name - 1)) % 60 >= many);
        }
    }
    oes_figures_told told = oes_figures(first, last, got.leaps, got.names);
    same(line, "reason", told.reason, want.reason);
    same(line, "big", told.big, want.big);
    same(line, "small", told.small, want.small);
    same(line, "pairs", told.pairs, want.pairs);
    same(line, "eclipses", told.eclipses, want.eclipses);
    bytes_same(line, &got, &kept, sizeof got);
}

#define FIGURES(first, last, b, s, p, e, leaps, name, many, most) \
    figures_are(__LINE__, (first), (last), (oes_figures_told){0, (b), (s), (p), (e)}, (leaps), (name), (many), (most))
#define FIGURES_REFUSED(first, last, reason) \
    figures_are(__LINE__, (first), (last), (oes_figures_told){(reason), 0, 0, 0, 0}, NULL, 0, 0, 0)

/* The figures of civil year 8, which has a leap 12, of 11, which has a leap 9, of 47, whose last month starts a pair with the first of
 * 48, of both, and of all years; the names follow from the first day and how many there are. */
static void figures(void)
{
    const uint32_t none[12] = {0};
    const uint32_t leap_12[12] = {0, 0, 0, 0, 0, 0, 0, 0, 0, 0, 0, 1};
    const uint32_t leap_9[12] = {0, 0, 0, 0, 0, 0, 0, 0, 1, 0, 0, 0};
    const uint32_t all[12] = {1620, 540, 1620, 1080, 1620, 1080, 1080, 1620, 1080, 1619, 540, 1620};
    FIGURES(8, 8, 7, 6, 1, 3, leap_12, 19, 24, 7);
    FIGURES(11, 11, 7, 6, 1, 2, leap_9, 32, 24, 7);
    FIGURES(47, 47, 6, 6, 1, 2, none, 3, 54, 6);
    FIGURES(48, 48, 6, 6, 0, 2, none, 57, 54, 6);
    FIGURES(47, 48, 12, 12, 1, 4, none, 3, 48, 12);
    FIGURES(1, 41039, 269453, 238134, 31319, 86478, all, 60, 36, 249825);
    FIGURES_REFUSED(0, 8, 1);
    FIGURES_REFUSED(8, 0, 1);
    FIGURES_REFUSED(41040, 8, 1);
    FIGURES_REFUSED(8, 41040, 1);
    FIGURES_REFUSED(wide(8), 8, 1);
    FIGURES_REFUSED(8, wide(8), 1);
    FIGURES_REFUSED(9, 8, 13);
    FIGURES_REFUSED(41039, 1, 13);
}

/* Year 11, month 134 and day 3957 on a sheet, there and back; cut off, and with too little room. */
static void sheet(void)
{
    const uint8_t want[16] = {1, 0, 11, 0, 1, 0, 134, 0, 0, 0, 1, 0, 0x75, 0x0F, 0, 0};
    const uint16_t years[1] = {11};
    const uint32_t months[1] = {134};
    const uint32_t days[1] = {3957};
    uint8_t out[17];
    memset(out, 0xA5, sizeof out);
    oes_length n = oes_write_sheet(years, 1, months, 1, days, 1, out, 15);
    SAME(n.reason, 12);
    SAME(n.length, 0);
    SAME(out[0], 0xA5);
    n = oes_write_sheet(years, 1, months, 1, days, 1, out, 17);
    SAME(n.reason, 0);
    SAME(n.length, 16);
    bytes_same(__LINE__, out, want, 16);
    SAME(out[16], 0xA5);
    uint16_t y[2] = {60000, 60000};
    uint32_t m[3] = {untouched, untouched, untouched};
    uint32_t d[2] = {untouched, untouched};
    oes_sheet_counts c = oes_read_sheet(out, 15, y, 2, m, 3, d, 2);
    SAME(c.reason, 9);
    SAME(c.years + c.months + c.days, 0);
    SAME(y[0], 60000);
    SAME(m[0], untouched);
    c = oes_read_sheet(out, 16, y, 2, m, 3, d, 2);
    SAME(c.reason, 0);
    SAME(c.years * 100 + c.months * 10 + c.days, 111);
    SAME(y[0], 11);
    SAME(y[1], 60000);
    SAME(m[0], 134);
    SAME(m[1], untouched);
    SAME(d[0], 3957);
    SAME(d[1], untouched);
}

/* Two years, no month and one day: the three counts are told apart. */
static void counts(void)
{
    const uint8_t bytes[14] = {2, 0, 11, 0, 12, 0, 0, 0, 1, 0, 29, 0, 0, 0};
    uint16_t y[2] = {0};
    uint32_t m[1] = {0};
    uint32_t d[1] = {0};
    oes_sheet_counts c = oes_read_sheet(bytes, 14, y, 2, m, 0, d, 1);
    SAME(c.reason, 0);
    SAME(c.years, 2);
    SAME(c.months, 0);
    SAME(c.days, 1);
    SAME(y[0] * 100 + y[1], 1112);
    SAME(d[0], 29);
}

/* The bytes of two readings: year name 22, month 1, ordinary, day 9, day name 60, first name 52, days 258 to 515; and all unread, days 0 to 27,758. */
#define TWO_READINGS 22, 1, 1, 9, 60, 52, 2, 1, 0, 0, 3, 2, 0, 0, 0, 0, 0, 0, 0, 0, 0, 0, 0, 0, 110, 108, 0, 0

/* Year 11 and two readings in the new form: the four counts, the eight numbers of each, what stays; cut off, and one place too few. */
static void new_form(void)
{
    const uint8_t bytes[38] = {1, 0, 11, 0, 0, 0, 0, 0, 2, 0, TWO_READINGS};
    const uint32_t want[16] = {22, 1, 1, 9, 60, 52, 258, 515, 0, 0, 0, 0, 0, 0, 0, 27758};
    uint16_t y[2] = {60000, 60000};
    uint32_t none[1] = {untouched};
    uint32_t n[17];
    for (int i = 0; i < 17; i++) {
        n[i] = untouched;
    }
    oes_new_counts c = oes_read_new(bytes, 37, y, 2, none, 0, none, 0, n, 17);
    SAME(c.reason, 9);
    SAME(c.years + c.months + c.days + c.readings, 0);
    c = oes_read_new(bytes, 38, y, 2, none, 0, none, 0, n, 15);
    SAME(c.reason, 12);
    SAME(y[0], 60000);
    SAME(n[0], untouched);
    c = oes_read_new(bytes, 38, y, 2, none, 0, none, 0, n, 17);
    SAME(c.reason, 0);
    SAME(c.years * 1000 + c.months * 100 + c.days * 10 + c.readings, 1002);
    SAME(y[0], 11);
    SAME(y[1], 60000);
    for (int i = 0; i < 16; i++) {
        SAME(n[i], want[i]);
    }
    SAME(n[16], untouched);
    oes_sheet_counts old = oes_read_sheet(bytes, 38, y, 2, none, 0, none, 0);
    SAME(old.reason, 11);
}

/* One byte of the second reading put wrong: each field above its range, each end of the window, the window turned round; a field comes last. */
static void bad_readings(void)
{
    const struct {
        int place;
        uint8_t value;
        uint32_t reason;
    } faults[] = {{22, 61, 14}, {23, 13, 14}, {24, 3, 14}, {25, 31, 14}, {26, 61, 14}, {27, 61, 14}, {24, 2, 0}, {31, 1, 6}, {35, 1, 6}, {29, 109, 13}};
    uint32_t none[1] = {untouched};
    for (size_t i = 0; i < sizeof faults / sizeof *faults; i++) {
        uint8_t bytes[36] = {0, 0, 0, 0, 0, 0, 2, 0, TWO_READINGS};
        uint16_t y[1] = {60000};
        uint32_t n[16];
        n[0] = untouched;
        bytes[faults[i].place] = faults[i].value;
        oes_new_counts c = oes_read_new(bytes, 36, y, 0, none, 0, none, 0, n, 16);
        SAME(c.reason, faults[i].reason);
        SAME(n[0], faults[i].reason ? untouched : 22);
    }
    uint8_t both[36] = {0, 0, 0, 0, 0, 0, 2, 0, TWO_READINGS};
    uint16_t y[1] = {60000};
    uint32_t n[16];
    both[22] = 61;
    both[35] = 1;
    SAME(oes_read_new(both, 36, y, 0, none, 0, none, 0, n, 16).reason, 6);
    const uint8_t many[8] = {0, 0, 0, 0, 0, 0, 245, 1};
    SAME(oes_read_new(many, 8, y, 0, none, 0, none, 0, n, 16).reason, 10);
}

/* Year 11 from the old form to the new one and back; readings present, bytes after them, too little room. */
static void both_forms(void)
{
    const uint8_t want[10] = {1, 0, 11, 0, 0, 0, 0, 0, 0, 0};
    const uint8_t readings[37] = {0, 0, 0, 0, 0, 0, 2, 0, TWO_READINGS, 0};
    uint8_t out[11];
    memset(out, 0xA5, sizeof out);
    oes_length n = oes_to_new(want, 8, out, 9);
    SAME(n.reason, 12);
    SAME(n.length, 0);
    SAME(out[0], 0xA5);
    n = oes_to_new(want, 8, out, 11);
    SAME(n.reason, 0);
    SAME(n.length, 10);
    bytes_same(__LINE__, out, want, 10);
    SAME(out[10], 0xA5);
    SAME(oes_to_new(want, 10, out, 11).reason, 11);
    memset(out, 0xA5, sizeof out);
    n = oes_to_old(want, 10, out, 8);
    SAME(n.reason, 0);
    SAME(n.length, 8);
    bytes_same(__LINE__, out, want, 8);
    SAME(out[8], 0xA5);
    SAME(oes_to_old(want, 10, out, 7).reason, 12);
    SAME(oes_to_old(want, 8, out, 11).reason, 9);
    SAME(oes_to_old(readings, 36, out, 0).reason, 17);
    SAME(oes_to_old(readings, 37, out, 0).reason, 11);
}

/* The first and the last civil year on a sheet, there and back; the year after them, 41,041, reading and writing. */
static void years_of_a_sheet(void)
{
    const uint8_t bytes[10] = {2, 0, 0, 0, 0x50, 0xA0, 0, 0, 0, 0};
    const uint8_t beyond[8] = {1, 0, 0x51, 0xA0, 0, 0, 0, 0};
    const uint16_t year[1] = {41041};
    uint16_t y[2] = {60000, 60000};
    uint32_t none[1] = {0};
    uint8_t out[10] = {0};
    oes_sheet_counts c = oes_read_sheet(beyond, 8, y, 2, none, 0, none, 0);
    SAME(c.reason, 1);
    SAME(c.years + c.months + c.days, 0);
    SAME(y[0], 60000);
    c = oes_read_sheet(bytes, 10, y, 2, none, 0, none, 0);
    SAME(c.reason, 0);
    SAME(c.years, 2);
    SAME(y[0], 0);
    SAME(y[1], 41040);
    oes_length n = oes_write_sheet(year, 1, none, 0, none, 0, out, 10);
    SAME(n.reason, 1);
    SAME(n.length, 0);
    n = oes_write_sheet(y, 2, none, 0, none, 0, out, 10);
    SAME(n.reason, 0);
    SAME(n.length, 10);
    bytes_same(__LINE__, out, bytes, 10);
}

typedef oes_length print(uint64_t, uint8_t *, size_t);

static void prints(print *p, uint64_t x, const char *text, uint32_t reason)
{
    uint8_t out[674];
    size_t n = strlen(text);
    memset(out, 0xA5, sizeof out);
    oes_length got = p(wide(x), out, sizeof out);
    SAME(got.reason, reason);
    SAME(got.length, 0);
    got = p(x, out, n - 1);
    SAME(got.reason, 12);
    SAME(got.length, 0);
    SAME(out[0], 0xA5);
    got = p(x, out, sizeof out);
    SAME(got.reason, 0);
    SAME(got.length, n);
    bytes_same(__LINE__, out, text, n);
    SAME(out[n], 0xA5);
}

static void lines(void)
{
    prints(oes_print_year, 11,
           "YEAR 11 NAME 27 MONTHS 13\n125 1 - 32 29 -\n126 2 - 1 30 -\n127 3 - 31 29 -\n128 4 - 60 30 -\n"
           "129 5 - 30 30 E\n130 6 - 60 29 -\n131 7 - 29 30 -\n132 8 - 59 29 -\n133 9 - 28 30 -\n"
           "134 9 L 58 29 E\n135 10 - 27 30 -\n136 11 - 57 29 -\n137 12 - 26 30 -\n",
           1);
    prints(oes_print_year, 0, "YEAR 0 NAME 16 MONTHS 2\n0 11 - 1 29 -\n1 12 - 30 30 -\n", 1);
    prints(oes_print_month_line, 134, "134 9 L 58 29 E\n", 7);
    prints(oes_print_month, 134, "MONTH 134 9 L 58 29 E\n", 7);
    prints(oes_print_day, 3961, "DAY 3961 11 9 L 5 2\n", 6);
    prints(oes_print_day, 29, "DAY 29 0 12 - 1 30\n", 6);
}

/* The verdicts on a text, in a list of so many places, n lines; the rest of the list stays as it was. */
static void judges(const char *text, size_t length, size_t places, const char *verdicts, size_t n)
{
    uint8_t out[40];
    memset(out, 0xA5, sizeof out);
    oes_length got = oes_judge_text((const uint8_t *)text, length, out, places);
    SAME(got.reason, places < n ? 12 : 0);
    SAME(got.length, places < n ? 0 : n);
    for (size_t i = 0; i < sizeof out; i++) {
        SAME(out[i], got.reason == 0 && i < n ? (uint8_t)(verdicts[i] - '0') : 0xA5);
    }
}

static void concordances(void)
{
    static const char text[] = "129 5 - 30 30 E\n507600 5 - 30 30 E\n129 6 - 30 30 E\n129 5 L 30 30 E\n129 5 - 31 30 E\n"
                               "129 5 - 30 29 E\n129 5 - 30 30 -\n0129 5 - 30 30 E\n129 5 - 30 30 E\r\n\n129 5 - 30 30 E";
    size_t n = strlen(text);
    judges(text, n, 40, "01234567770", 11);
    judges(text, n, 11, "01234567770", 11);
    judges(text, n, 10, "01234567770", 11);
    judges(text, n - 15, 40, "0123456777", 10);
    judges(text, n - 16, 40, "012345677", 9);
    judges(text, n - 17, 40, "012345677", 9);
    judges(text, 0, 0, "", 0);
    judges("\n", 1, 40, "7", 1);
    static uint8_t longest[65537];
    static uint8_t out[65537];
    memset(longest, '\n', sizeof longest);
    memset(out, 0xA5, sizeof out);
    oes_length got = oes_judge_text(longest, 65537, out, 65537);
    SAME(got.reason, 18);
    SAME(got.length, 0);
    SAME(out[0], 0xA5);
    got = oes_judge_text(longest, 65537, out, 0);
    SAME(got.reason, 18);
    got = oes_judge_text(longest, 65536, out, 65535);
    SAME(got.reason, 12);
    SAME(out[0], 0xA5);
    got = oes_judge_text(longest, 65536, out, 65537);
    SAME(got.reason, 0);
    SAME(got.length, 65536);
    SAME(out[0], 7);
    SAME(out[65535], 7);
    SAME(out[65536], 0xA5);
}

int main(void)
{
    dates();
    numbers_of_a_year();
    drawer();
    empty_drawer();
    bad_days();
    full_drawer();
    facts();
    clerk_walks();
    clerk_steps();
    clerk_beside_months();
    planets();
    search();
    emend_a_day_of_month();
    emend_each_field();
    emend_marks_and_ends();
    figures();
    sheet();
    counts();
    years_of_a_sheet();
    new_form();
    bad_readings();
    both_forms();
    lines();
    concordances();
    printf("%d checks, %d wrong\n", checked, wrong);
    return wrong == 0 ? 0 : 1;
}
