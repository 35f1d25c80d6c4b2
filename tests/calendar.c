/* Tries every date that digits write in the years 1990 to 2089, those that no calendar has among them: as the date of a record, and as the first and
 * as the second date of TDate. A day of the calendar has to be accepted, and any other date refused in its place.
 *
 *     calendar LOG < DAYS
 *
 * LOG is an accepted log with one record and its keywords as they are listed. DAYS are the days of those years, each a line of eight digits. Each
 * difference is told in a line, up to twenty. The status is 0 where there is none, 1 where there is one, and 2 where LOG or DAYS are of no use. */
#include "sumpquince.h"

#include <stdbool.h>
#include <stdio.h>
#include <stdlib.h>
#include <string.h>

enum { FIRST_YEAR = 1990, YEARS = 100, DATES = 10000, LONGEST_LOG = 65535, MOST_TOLD = 20 };

static uint8_t log[LONGEST_LOG];
static size_t length;
static bool in_calendar[YEARS][DATES]; /* a date is month and day as their four digits read */
static long tries, differences;

static _Noreturn void stop(const char *why) {
    fprintf(stderr, "calendar: %s\n", why);
    exit(2);
}

static long load_days(void) {
    uint8_t line[9];
    long days = 0;
    while (fread(line, 1, sizeof line, stdin) == sizeof line) {
        if (line[8] != '\n') stop("a line of the days has not eight digits");
        unsigned long long day = strtoull((const char *)line, NULL, 10), year = day / DATES;
        if (year < FIRST_YEAR || FIRST_YEAR + YEARS <= year) stop("one of the days is not in these years");
        in_calendar[year - FIRST_YEAR][day % DATES] = true;
        days++;
    }
    return days;
}

static void load_log(const char *path) {
    FILE *file = fopen(path, "rb");
    if (file == NULL) stop("the log cannot be opened");
    length = fread(log, 1, sizeof log, file);
    fclose(file);
    SumpquinceReading reading = sumpquince_read(log, length);
    if (reading.refusal.number != 0) stop("the log is refused");
    if (reading.records != 1 || reading.respelt != 0) stop("the log has not one record, or a keyword is spelt otherwise");
}

/* The place behind the first of these characters, which such a log has. */
static size_t behind(const char *mark) {
    size_t at = 0;
    while (memcmp(log + at, mark, strlen(mark)) != 0) at++;
    return at + strlen(mark);
}

static void put_digits(size_t at, int count, int value) {
    for (int i = count; i > 0; i--) {
        log[at + (size_t)i - 1] = (uint8_t)('0' + value % 10);
        value /= 10;
    }
}

/* Writes each date with so many digits of its year into the log at this place, and holds what reading says to the calendar; the log is then as it was. */
static void try_all(const char *what, size_t at, int year_digits, SumpquinceRefusal refusal) {
    uint8_t before[8];
    memcpy(before, log + at, sizeof before);
    for (int year = 0; year < YEARS; year++) {
        put_digits(at, year_digits, FIRST_YEAR + year);
        for (int date = 0; date < DATES; date++) {
            put_digits(at + (size_t)year_digits, 4, date);
            SumpquinceReading reading = sumpquince_read(log, length);
            SumpquinceRefusal accepted = {0, 0, 0}, wanted = in_calendar[year][date] ? accepted : refusal;
            tries++;
            if (memcmp(&reading.refusal, &wanted, sizeof wanted) == 0 && reading.records == (wanted.number == 0)) continue;
            if (differences++ < MOST_TOLD) {
                SumpquinceRefusal got = reading.refusal;
                printf("calendar: %s %04d%04d: refusal %u, line %u, field %u\n", what, FIRST_YEAR + year, date, got.number, got.line, got.field);
            }
        }
    }
    memcpy(log + at, before, sizeof before);
}

int main(int count, char **words) {
    if (count != 2) stop("usage: calendar LOG < DAYS");
    long days = load_days();
    load_log(words[1]);
    size_t record = behind("[QSORecords;1]\r\n"), dates = behind("\nTDate=");
    uint32_t record_line = 1;
    for (size_t i = 0; i < record; i++) record_line += log[i] == '\n';
    memcpy(log + dates, "19900101", 8);
    memcpy(log + dates + 9, "20891231", 8);
    try_all("a record's date", record, 2, (SumpquinceRefusal){5, record_line, 1});
    try_all("TDate's first", dates, 4, (SumpquinceRefusal){4, 3, 0});
    try_all("TDate's second", dates + 9, 4, (SumpquinceRefusal){4, 3, 0});
    printf("calendar: %ld dates tried, %ld days in the calendar, %ld differences\n", tries, days, differences);
    return differences != 0;
}
