/* Strikes records from the log on standard input: writes what is left to standard output and, to standard error, what that did to the total, and
 * which duplicates count now.
 *
 *     strike RECORD... < LOG > STRUCK
 *
 * Records are counted from 1, as examples/judge.c counts them: `strike 1 4` strikes the first and the fourth. It shows how sumpquince_strike is used:
 * lend a byte for each record and memory for the log, enough for every log, and look at the refusal first. The status is 0 for a log that is
 * accepted, 1 for one that is refused, and 2 where there is no such record or a log cannot be read or written at all. */
#include "sumpquince.h"

#include <stdio.h>
#include <stdlib.h>

enum { LONGEST_LOG = 65535, MOST_RECORDS = 999 };

/* With slices that are long enough striking and judging are refused by 1 to 6 alone. The words are those of tools/refusals.md. */
static const char *refusal_in_words(uint32_t number) {
    switch (number) {
    case 1: return "the log is longer than 65,535 bytes";
    case 2: return "the line does not end with CR LF after at most 75 characters of code 32 to 127";
    case 3: return "another line is due here";
    case 4: return "what stands behind the keyword breaks its rule";
    case 5: return "the record breaks a rule";
    default: return "the log ends where a record is due, or goes on after the last";
    }
}

static int refused(SumpquinceRefusal refusal) {
    fprintf(stderr, "refused %u, line %u, field %u: %s\n", refusal.number, refusal.line, refusal.field, refusal_in_words(refusal.number));
    return 1;
}

static uint64_t records_in(const SumpquinceJudgement *judgement) {
    return judgement->credited + judgement->voids + judgement->duplicates + judgement->errors;
}

/* Sets a byte for each record that is named; says whether all of them are there. What is no number is taken for 0, and no record has that. */
static int mark(char **words, int count, uint64_t records, uint8_t *struck) {
    for (int i = 1; i < count; i++) {
        char *end;
        unsigned long long record = strtoull(words[i], &end, 10);
        if (*end != '\0' || record < 1 || record > records) {
            fprintf(stderr, "strike: the log has no record %s\n", words[i]);
            return 0;
        }
        struck[record - 1] = 1;
    }
    return 1;
}

static void print_both(const char *name, uint64_t before, uint64_t after) {
    fprintf(stderr, "%-15s %llu before, %llu now\n", name, (unsigned long long)before, (unsigned long long)after);
}

/* A duplicate that claims points counts once each earlier record of its call that claims points was struck. */
static void print_promoted(const uint8_t *before, const uint8_t *after, const uint8_t *struck, uint64_t records) {
    for (uint64_t i = 0; i < records; i++) {
        if (struck[i]) continue;
        uint8_t now = *after++;
        if ((before[i] & SUMPQUINCE_CLASS) != SUMPQUINCE_DUPLICATE || (now & SUMPQUINCE_CLASS) != SUMPQUINCE_CREDITED) continue;
        fprintf(stderr, "record %-8u a duplicate before, credited now\n", (unsigned)i + 1);
    }
}

int main(int count, char **words) {
    /* One byte more than a log may have, so that a log that is too long is seen to be so. */
    static uint8_t log[LONGEST_LOG + 1];
    static uint8_t left[LONGEST_LOG];
    static uint8_t struck[MOST_RECORDS], verdicts[MOST_RECORDS], new_verdicts[MOST_RECORDS];
    size_t length = fread(log, 1, sizeof log, stdin);
    if (ferror(stdin)) {
        fputs("strike: cannot read standard input\n", stderr);
        return 2;
    }
    SumpquinceJudgement before = sumpquince_judge(log, length, verdicts, sizeof verdicts);
    if (before.refusal.number != 0) return refused(before.refusal);
    if (!mark(words, count, records_in(&before), struck)) return 2;
    SumpquinceWritten answer = sumpquince_strike(log, length, struck, sizeof struck, left, sizeof left);
    if (answer.refusal.number != 0) return refused(answer.refusal);
    if (fwrite(left, 1, answer.length, stdout) != answer.length || fflush(stdout) != 0) {
        fputs("strike: cannot write to standard output\n", stderr);
        return 2;
    }
    SumpquinceJudgement after = sumpquince_judge(left, answer.length, new_verdicts, sizeof new_verdicts);
    print_both("records", records_in(&before), records_in(&after));
    print_both("total", before.total, after.total);
    print_promoted(verdicts, new_verdicts, struck, records_in(&before));
    return 0;
}
