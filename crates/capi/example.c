/* An example of the calls for C: a question on a line, and its answer below it, in the desk's words; of a refusal the number alone.
 * What it must print is example.out, which tools/expected.py makes, not this program. %u prints a uint32_t, an unsigned int. */
#include <stdio.h>

#include "oesterwrok.h"

/* A date, with the day of its own civil year, month, mark and day of month. */
static void date_line(oes_date d)
{
    if (d.reason != 0) {
        printf("REFUSED %u\n", d.reason);
        return;
    }
    oes_day day = oes_day_of_date(d.year, d.number, d.leap, d.day_of_month);
    printf("DAY %u %u %u %c %u %u %u %u %u %u %u %c\n", day.day, d.year, d.number, d.leap ? 'L' : '-', d.day_of_month, d.day_name,
           d.month_length, d.year_name, d.ji, d.bu, d.year_in_bu, d.eclipse ? 'E' : '-');
}

static void show_date(const char *asked, oes_date d)
{
    puts(asked);
    date_line(d);
}

static void show_day(const char *asked, oes_day d)
{
    puts(asked);
    if (d.reason != 0) {
        printf("REFUSED %u\n", d.reason);
        return;
    }
    date_line(oes_date_of_day(d.day));
}

static void dates(void)
{
    show_date("DAY 14989859", oes_date_of_day(14989859));
    show_date("DAY 14989860", oes_date_of_day(14989860));
    show_day("DATE 0 12 - 1", oes_day_of_date(0, 12, false, 1));
    show_day("DATE 11 8 L 1", oes_day_of_date(11, 8, true, 1));
    show_day("DATE 11 9 L 30", oes_day_of_date(11, 9, true, 30));
    show_date("MOVE 0 11 - 1 27759", oes_move_date(0, 11, false, 1, 27759));
    show_date("MOVE 0 11 - 1 -1", oes_move_date(0, 11, false, 1, -1));
}

/* Place and terms are of the solstice year, a year's own facts of the civil year. */
static void facts(void)
{
    oes_solstice s = oes_solstice_year(9366);
    oes_month m = oes_month_facts(115830);
    oes_quarter_told full = oes_quarter(115830, 2);
    oes_term_told solstice = oes_term(9366, 0);
    oes_year y = oes_year_facts(11);
    printf("PLACE 9366\nPLACE %u %u %u %u %u %u %u\n", s.ji, s.bu, s.year_in_bu, s.head_name, s.first_month, s.leap_remainder,
           s.months);
    printf("MONTH 115830\nMONTH 115830 %u %c %u %u %c %u %u\n", m.number, m.leap ? 'L' : '-', m.first_name, m.month_length,
           m.eclipse ? 'E' : '-', m.first_day, m.small_remainder);
    printf("QUARTER 115830 2\nQUARTER %u %u\n", full.day, full.parts);
    printf("TERM 9366 0\nTERM %u %u\n", solstice.day, solstice.parts);
    if (y.has_leap) {
        printf("YEAR 11\nYEAR 11 NAME %u MONTHS %u FIRST %u LEAP %u %u\n", y.name, y.months, y.first_month, y.leap_number,
               y.leap_month);
    }
}

/* The clerk where a start, a step or a walk led, as `CLERK bu steps` has it. */
static void show_clerk(const char *asked, oes_clerk_told r)
{
    puts(asked);
    if (r.reason != 0) {
        printf("REFUSED %u\n", r.reason);
        return;
    }
    oes_month m = oes_clerk_show(r.clerk);
    printf("CLERK %u %u %c %u %u %c %u %u\n", r.clerk.month_count, m.number, m.leap ? 'L' : '-', m.first_name, m.month_length,
           m.eclipse ? 'E' : '-', m.first_day, m.small_remainder);
}

/* From the head of bu 2 a step at a time; the second of two big months at once; past the last month, and a bu too many. */
static void clerk(void)
{
    oes_clerk_told r = oes_clerk_start(2);
    show_clerk("CLERK 2 0", r);
    r = oes_clerk_step(r.clerk);
    show_clerk("CLERK 2 1", r);
    show_clerk("CLERK 1 129", oes_clerk_walk(1, 129));
    show_clerk("CLERK 540 940", oes_clerk_walk(540, 940));
    show_clerk("CLERK 541 0", oes_clerk_start(541));
}

/* Venus by the end of solstice year 9,455: 11,826 conjunctions, the last of them an evening one. */
static void planets(void)
{
    oes_conjunction_told c = oes_conjunction(4, 11826);
    oes_next_told n = oes_next_conjunction(4, 3453334);
    printf("CONJUNCTION 4 11826\nCONJUNCTION %u %u %u %c\n", c.day, c.parts, c.divisor, "-ME"[c.phase]);
    printf("NEXT 4 3453334\nNEXT %u %u %u %u %c\n", n.k, n.day, n.parts, n.divisor, "-ME"[n.phase]);
}

/* A drawer of days into so many records, three at most. */
static void show_drawer(const uint32_t *days, size_t n, size_t places)
{
    oes_date records[3] = {{0}};
    oes_filled f = oes_dates(days, n, records, places);
    printf("DRAWER");
    for (size_t i = 0; i < n; i++) {
        printf(" %u", days[i]);
    }
    printf(" INTO %zu\n", places);
    if (f.reason != 0) {
        printf("REFUSED %u\n", f.reason);
        if (f.reason == 6) {
            printf("AT %u\n", f.place);
        }
        return;
    }
    printf("FILLED %u\n", f.count);
    for (uint32_t i = 0; i < f.count; i++) {
        date_line(records[i]);
    }
}

/* Three days at once, in any order; one of them out of range, at place 1; and too few records. */
static void drawers(void)
{
    const uint32_t days[3] = {14989859, 29, 3957};
    const uint32_t one_outside[3] = {29, 14989860, 3957};
    show_drawer(days, 3, 3);
    show_drawer(one_outside, 3, 3);
    show_drawer(days, 3, 2);
}

/* A slip of the first day of a month 9, in a civil year of name 27, its leap mark not read: into a list of one place, and of two. */
static void search(void)
{
    oes_reading slip = {.year_name = 27, .month_number = 9, .day_of_month = 1};
    uint32_t days[2] = {0};
    slip.year_name_known = slip.month_number_known = slip.day_of_month_known = true;
    oes_found few = oes_search(slip, 3600, 4000, days, 1);
    printf("SEARCH 27 9 ? 1 ? ? 3600 4000 INTO 1\nREFUSED %u\nTOTAL %u\n", few.reason, few.total);
    oes_found all = oes_search(slip, 3600, 4000, days, 2);
    printf("SEARCH 27 9 ? 1 ? ? 3600 4000 INTO 2\nFOUND %u\n", all.total);
    for (uint32_t i = 0; all.reason == 0 && i < all.total; i++) {
        date_line(oes_date_of_day(days[i]));
    }
}

/* A value of an emendation: a leap mark by its letter. */
static void emended_value(uint32_t field, uint32_t value)
{
    if (field == 3) {
        printf(" %c", value == 2 ? 'L' : '-');
    } else {
        printf(" %u", value);
    }
}

/* An emending in the days 3600 to 4000, into a list of so many places, eight at most; `slip` is the reading as the desk has it. */
static void show_emend(const char *slip, oes_reading reading, size_t places)
{
    uint32_t list[8] = {0};
    oes_emended e = oes_emend(reading, 3600, 4000, list, places);
    printf("EMEND %s 3600 4000 INTO %zu\n", slip, places);
    if (e.reason != 0) {
        printf("REFUSED %u\n", e.reason);
        if (e.reason == 12) {
            printf("TOTAL %u\n", e.total);
        }
        return;
    }
    printf("%s %u\n", e.fits ? "FITS" : "EMENDED", e.total);
    for (uint32_t i = 0; !e.fits && i < e.total; i++) {
        const uint32_t *four = list + 4 * i;
        printf("EMENDATION %u %u", four[0], four[1]);
        emended_value(four[1], four[2]);
        emended_value(four[1], four[3]);
        puts("");
    }
}

/* The slip of day 3838 with its day of month misread: one day has another name, one is another day of the month; into a list that
 * is too short by a place, and into one that is not. The slip of a day of a leap month without its mark. And one that fits. */
static void emendings(void)
{
    const oes_reading misread = {27, 5, 1, 29, 59, 30, true, true, true, true, true, true};
    const oes_reading mark_missed = {27, 9, 1, 5, 2, 58, true, true, true, true, true, true};
    const oes_reading fitting = {27, 5, 1, 30, 59, 30, true, true, true, true, true, true};
    show_emend("27 5 - 29 59 30", misread, 7);
    show_emend("27 5 - 29 59 30", misread, 8);
    show_emend("27 9 - 5 2 58", mark_missed, 8);
    show_emend("27 5 - 30 59 30", fitting, 0);
}

/* The yearbook's figures of a range, three lines as the desk has them. */
static void show_figures(uint64_t first, uint64_t last)
{
    uint32_t leaps[12];
    uint32_t names[60];
    oes_figures_told f = oes_figures(first, last, leaps, names);
    printf("FIGURES %llu %llu\n", (unsigned long long)first, (unsigned long long)last);
    if (f.reason != 0) {
        printf("REFUSED %u\n", f.reason);
        return;
    }
    printf("FIGURES %u %u %u %u\nLEAP", f.big, f.small, f.pairs, f.eclipses);
    for (int i = 0; i < 12; i++) {
        printf(" %u", leaps[i]);
    }
    printf("\nNAMES");
    for (int i = 0; i < 60; i++) {
        printf(" %u", names[i]);
    }
    puts("");
}

/* Civil year 11; the 76 years from 9,368 on; and a range turned round. */
static void yearbook(void)
{
    show_figures(11, 11);
    show_figures(9368, 9443);
    show_figures(9, 8);
}

/* Bytes, to the end of the line. */
static void bytes_line(const uint8_t *bytes, size_t n)
{
    for (size_t i = 0; i < n; i++) {
        printf(" %u", bytes[i]);
    }
    puts("");
}

/* The sheet with civil year 11 alone, written, read back and printed. */
static void sheet(void)
{
    const uint16_t years[1] = {11};
    const uint32_t none[1] = {0};
    uint8_t bytes[8] = {0};
    uint16_t years_read[1] = {0};
    uint32_t months_read[1] = {0};
    uint32_t days_read[1] = {0};
    uint8_t text[674] = {0};
    oes_length written = oes_write_sheet(years, 1, none, 0, none, 0, bytes, sizeof bytes);
    printf("WRITE 11,,\nBYTES %zu\nSHEET", written.length);
    bytes_line(bytes, written.length);
    oes_sheet_counts c = oes_read_sheet(bytes, written.length, years_read, 1, months_read, 1, days_read, 1);
    printf("COUNTS %zu %zu %zu\n", c.years, c.months, c.days);
    for (size_t i = 0; i < c.years; i++) {
        oes_length printed = oes_print_year(years_read[i], text, sizeof text);
        printf("PRINT YEAR %u\n", years_read[i]);
        fwrite(text, 1, printed.length, stdout);
    }
}

/* A sheet in the new form, or in the old one; ten bytes at most. */
static void show_form(bool to_new, const uint8_t *bytes, size_t n)
{
    uint8_t out[10] = {0};
    oes_length form = to_new ? oes_to_new(bytes, n, out, sizeof out) : oes_to_old(bytes, n, out, sizeof out);
    printf("TO %s", to_new ? "NEW" : "OLD");
    bytes_line(bytes, n);
    if (form.reason != 0) {
        printf("REFUSED %u\n", form.reason);
        return;
    }
    printf("BYTES %zu\nSHEET", form.length);
    bytes_line(out, form.length);
}

/* A sheet's reading, from its eight numbers, as the search takes it: a field of 0 was not read. The window is the last two. */
static oes_reading reading_of(const uint32_t n[8])
{
    return (oes_reading){n[0], n[1], n[2], n[3], n[4], n[5], n[0] != 0, n[1] != 0, n[2] != 0, n[3] != 0, n[4] != 0, n[5] != 0};
}

/* Year 11 in the new form and back. With a reading beside it, the first day of a leap month 9 in a civil year of name 27: the sheet
 * is read, its reading searched for, and the old form cannot hold it. */
static void new_form(void)
{
    const uint8_t year[10] = {1, 0, 11, 0, 0, 0, 0, 0, 0, 0};
    const uint8_t slip[24] = {1, 0, 11, 0, 0, 0, 0, 0, 1, 0, 27, 9, 2, 1, 0, 0, 16, 14, 0, 0, 160, 15, 0, 0};
    uint16_t years[1] = {0};
    uint32_t none[1] = {0};
    uint32_t numbers[8] = {0};
    uint32_t days[2] = {0};
    show_form(true, year, 8);
    show_form(false, year, 10);
    oes_new_counts c = oes_read_new(slip, sizeof slip, years, 1, none, 0, none, 0, numbers, 8);
    printf("READ NEW");
    bytes_line(slip, sizeof slip);
    printf("COUNTS %zu %zu %zu %zu\nNUMBERS", c.years, c.months, c.days, c.readings);
    for (size_t i = 0; i < 8 * c.readings; i++) {
        printf(" %u", numbers[i]);
    }
    oes_found f = oes_search(reading_of(numbers), numbers[6], numbers[7], days, 2);
    printf("\nSEARCH 27 9 L 1 ? ? 3600 4000 INTO 2\nFOUND %u\n", f.total);
    for (uint32_t i = 0; f.reason == 0 && i < f.total; i++) {
        date_line(oes_date_of_day(days[i]));
    }
    show_form(false, slip, sizeof slip);
}

/* Three lines of a concordance: as printed; the second of two big months struck out; cut. */
static void concordance(void)
{
    const char text[] = "128 4 - 60 30 -\n129 5 - 30 29 E\n130 6 -";
    uint8_t verdicts[3] = {0};
    oes_length lines = oes_judge_text((const uint8_t *)text, sizeof text - 1, verdicts, sizeof verdicts);
    printf("CONCORDANCE\nLINES %zu\n", lines.length);
    for (size_t i = 0; i < lines.length; i++) {
        printf("%zu %u\n", i + 1, verdicts[i]);
    }
}

int main(void)
{
    dates();
    facts();
    clerk();
    planets();
    drawers();
    search();
    emendings();
    yearbook();
    sheet();
    new_form();
    concordance();
    return 0;
}
