/* Judges the log on standard input: prints the totals, the contacts of each mode, for each record its verdict in words, and the keywords that are not
 * spelt as listed.
 *
 *     judge < LOG
 *
 * It shows how sumpquince.h is used: lend memory for the verdicts, look at the refusal first, then at the rest. The status is 0 for a log that is
 * accepted, 1 for one that is refused, and 2 where it cannot be read at all. */
#include "sumpquince.h"

#include <stdio.h>

enum { LONGEST_LOG = 65535, MOST_RECORDS = 999, KEYWORDS = 36, KEYWORD_LENGTH = 5 };

/* Judging is refused by 1 to 7 alone. The words are those of tools/refusals.md. */
static const char *refusal_in_words(uint32_t number) {
    switch (number) {
    case 1: return "the log is longer than 65,535 bytes";
    case 2: return "the line does not end with CR LF after at most 75 characters of code 32 to 127";
    case 3: return "another line is due here";
    case 4: return "what stands behind the keyword breaks its rule";
    case 5: return "the record breaks a rule";
    case 6: return "the log ends where a record is due, or goes on after the last";
    default: return "a slice that was lent is too short for the records";
    }
}

static const char *class_in_words(uint8_t verdict) {
    switch (verdict & SUMPQUINCE_CLASS) {
    case SUMPQUINCE_CREDITED: return "credited";
    case SUMPQUINCE_VOID: return "void";
    case SUMPQUINCE_DUPLICATE: return "duplicate";
    default: return "error";
    }
}

static void print_number(const char *name, uint64_t value) { printf("%-15s %llu\n", name, (unsigned long long)value); }

static void print_totals(const SumpquinceJudgement *judgement) {
    print_number("credited", judgement->credited);
    print_number("void", judgement->voids);
    print_number("duplicates", judgement->duplicates);
    print_number("errors", judgement->errors);
    print_number("points", judgement->points);
    print_number("squares", judgement->squares);
    print_number("exchanges", judgement->exchanges);
    print_number("countries", judgement->countries);
    print_number("square bonus", judgement->square_bonus);
    print_number("exchange bonus", judgement->exchange_bonus);
    print_number("country bonus", judgement->country_bonus);
    print_number("total", judgement->total);
}

/* How many credited records have each mode: the codes 0 to 9, then none. */
static void print_modes(const uint64_t *modes) {
    for (unsigned code = 0; code < SUMPQUINCE_BLANK_MODE; code++) printf("mode %-10u %llu\n", code, (unsigned long long)modes[code]);
    print_number("no mode", modes[SUMPQUINCE_BLANK_MODE]);
}

static void print_verdict(unsigned record, uint8_t verdict) {
    printf("record %-8u %s%s%s%s\n", record, class_in_words(verdict), verdict & SUMPQUINCE_NEW_EXCHANGE ? ", new exchange" : "",
           verdict & SUMPQUINCE_NEW_SQUARE ? ", new square" : "", verdict & SUMPQUINCE_NEW_COUNTRY ? ", new country" : "");
}

/* The keywords of an accepted log that stand in another spelling than the listed one, as they stand there. Few logs have one, and sumpquince_read
 * tells that at once; each view reads the whole log again. */
static void print_spellings(const uint8_t *log, size_t length) {
    if (sumpquince_read(log, length).respelt == 0) return;
    for (unsigned keyword = 1; keyword <= KEYWORDS; keyword++) {
        SumpquinceView view = sumpquince_view(log, length, keyword);
        if (view.listed) continue;
        const char *name = (const char *)log + view.start - KEYWORD_LENGTH - 1; /* in front of the argument and its "=" */
        printf("keyword %-7u spelt %.*s\n", keyword, KEYWORD_LENGTH, name);
    }
}

static void print_refusal(SumpquinceRefusal refusal) {
    printf("refused %u, line %u, field %u: %s\n", refusal.number, refusal.line, refusal.field, refusal_in_words(refusal.number));
}

int main(void) {
    /* One byte more than a log may have, so that a log that is too long is seen to be so. */
    static uint8_t log[LONGEST_LOG + 1];
    static uint8_t verdicts[MOST_RECORDS];
    size_t length = fread(log, 1, sizeof log, stdin);
    if (ferror(stdin)) {
        fputs("judge: cannot read standard input\n", stderr);
        return 2;
    }
    SumpquinceJudgement judgement = sumpquince_judge(log, length, verdicts, sizeof verdicts);
    if (judgement.refusal.number != 0) {
        print_refusal(judgement.refusal);
        return 1;
    }
    print_totals(&judgement);
    print_modes(judgement.modes);
    uint64_t records = judgement.credited + judgement.voids + judgement.duplicates + judgement.errors;
    for (uint64_t i = 0; i < records; i++) print_verdict((unsigned)i + 1, verdicts[i]);
    print_spellings(log, length);
    return 0;
}
