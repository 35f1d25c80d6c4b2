/* Plays the pad: takes record lines from standard input, one after the other, and prints after each what it is worth and the total.
 *
 *     pad SQUARE-BONUS SQUARE-MULTIPLIER EXCHANGE-BONUS EXCHANGE-MULTIPLIER COUNTRY-BONUS COUNTRY-MULTIPLIER < LINES
 *
 * A line is a record as a log has it; it ends with LF or CR LF. A line that is `-` and nothing else gives the last record back.
 *
 * It shows how a session is used: declare it and the two slices that go with it, start it, and look at the refusal of each call. All its memory is
 * static, and enough for the most records that there can be. The status is 0 where the lines have come to their end, 1 where the session does not
 * start, and 2 where the words are no six numbers or the lines cannot be read. */
#include "sumpquince.h"

#include <stdbool.h>
#include <stdio.h>
#include <stdlib.h>
#include <string.h>

enum { MOST_RECORDS = 999, LONGEST_LINE = 75, NUMBERS = 6, MOST_DIGITS = 9 };

static SumpquinceSession session;
static uint8_t verdicts[MOST_RECORDS];
static uint8_t kept[MOST_RECORDS * SUMPQUINCE_KEPT_BYTES];

/* A session is refused by these numbers alone. */
static const char *refusal_in_words(uint32_t number) {
    switch (number) {
    case 4: return "a bonus is not 0 to 9,999, or a multiplier not 1 to 99";
    case 5: return "the record breaks a rule";
    case 11: return "the session is full";
    default: return "there is no record to give back";
    }
}

static const char *class_in_words(uint8_t verdict) {
    switch (verdict & SUMPQUINCE_CLASS) {
    case SUMPQUINCE_CREDITED: return "credited";
    case SUMPQUINCE_VOID: return "void";
    case SUMPQUINCE_DUPLICATE: return "duplicate";
    default: return "error";
    }
}

static void print_refusal(SumpquinceRefusal refusal) {
    printf("refused %u, line %u, field %u: %s\n", refusal.number, refusal.line, refusal.field, refusal_in_words(refusal.number));
}

static void print_verdict(unsigned record, uint8_t verdict) {
    printf("record %-8u %s%s%s%s\n", record, class_in_words(verdict), verdict & SUMPQUINCE_NEW_EXCHANGE ? ", new exchange" : "",
           verdict & SUMPQUINCE_NEW_SQUARE ? ", new square" : "", verdict & SUMPQUINCE_NEW_COUNTRY ? ", new country" : "");
}

static unsigned records(void) { return (unsigned)(session.credited + session.voids + session.duplicates + session.errors); }

static void print_total(void) {
    printf("total           %llu\n", (unsigned long long)sumpquince_session_totals(session).total);
    fflush(stdout); /* whoever types the lines waits for it */
}

/* A word of one to nine digits. Which numbers will do is for the session to say. */
static bool read_number(const char *word, uint32_t *number) {
    size_t length = strlen(word);
    if (length < 1 || length > MOST_DIGITS) return false;
    for (size_t i = 0; i < length; i++) {
        if (word[i] < '0' || word[i] > '9') return false;
    }
    *number = (uint32_t)strtoull(word, NULL, 10);
    return true;
}

/* Reads the next line, if there is one, without its end. Of a line that has too many characters no more are read than tell that: it is refused all
 * the same, though the rest of it might have told another field. */
static bool read_line(uint8_t *line, size_t room, size_t *length) {
    size_t all = 0;
    uint8_t byte = 0;
    while (fread(&byte, 1, 1, stdin) == 1 && byte != '\n') {
        if (all < room) line[all] = byte;
        all++;
    }
    if (all == 0 && byte != '\n') return false;
    if (all > 0 && all <= room && line[all - 1] == '\r') all--;
    *length = all < room ? all : room;
    return true;
}

static void give_back(void) {
    unsigned record = records();
    SumpquinceRefusal refusal = sumpquince_session_give_back(&session, verdicts, sizeof verdicts, kept, sizeof kept);
    if (refusal.number != 0) {
        print_refusal(refusal);
    } else {
        printf("record %-8u given back\n", record);
    }
}

static void take(const uint8_t *line, size_t length) {
    SumpquinceRefusal refusal = sumpquince_session_take(&session, line, length, verdicts, sizeof verdicts, kept, sizeof kept);
    if (refusal.number != 0) {
        print_refusal(refusal);
    } else {
        print_verdict(records(), verdicts[records() - 1]);
    }
}

int main(int count, char **words) {
    static uint8_t line[LONGEST_LINE + 2]; /* room for one character too many, and for a CR behind the most that there may be */
    uint32_t numbers[NUMBERS];
    bool right = count == NUMBERS + 1;
    for (int i = 0; right && i < NUMBERS; i++) right = read_number(words[i + 1], &numbers[i]);
    if (!right) {
        fputs("usage: pad SQUARE-BONUS SQUARE-MULTIPLIER EXCHANGE-BONUS EXCHANGE-MULTIPLIER COUNTRY-BONUS COUNTRY-MULTIPLIER < LINES\n", stderr);
        return 2;
    }
    SumpquinceDeclared declared = {numbers[0], numbers[1], numbers[2], numbers[3], numbers[4], numbers[5]};
    SumpquinceRefusal refusal = sumpquince_session_start(&session, declared);
    if (refusal.number != 0) {
        print_refusal(refusal);
        return 1;
    }
    size_t length = 0;
    while (read_line(line, sizeof line, &length)) {
        if (length == 1 && line[0] == '-') {
            give_back();
        } else {
            take(line, length);
        }
        print_total();
    }
    if (ferror(stdin)) {
        fputs("pad: cannot read standard input\n", stderr);
        return 2;
    }
    return 0;
}
