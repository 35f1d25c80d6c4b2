/* Mends the log on standard input: writes the mended log to standard output and, to standard error, a sentence for each thing that was done to it.
 *
 *     mend < LOG > MENDED
 *
 * It shows how sumpquince_mend is used: lend memory for the log and for the list, enough for every log, and look at the refusal first. The status is
 * 0 for a log that is accepted once it is mended, 1 for one that is refused even so, and 2 where a log cannot be read or written at all. */
#include "sumpquince.h"

#include <stdio.h>

enum { LONGEST_LOG = 65535, MOST_CHANGES = 32767 };

/* With slices that are long enough mending is refused by 1 to 6 alone. The words are those of tools/refusals.md. */
static const char *refusal_in_words(uint32_t number) {
    switch (number) {
    case 1: return "the log is longer than 65,535 bytes";
    case 2: return "the line does not end with CR LF after at most 75 characters of code 32 to 127";
    case 3: return "another line is due here";
    case 4: return "what stands behind the keyword breaks its rule";
    case 5: return "the record breaks a rule";
    default: return "the log ends where a record is due, or goes on after the last";
    }
}

static const char *change_in_words(uint8_t kind) {
    switch (kind) {
    case SUMPQUINCE_RETURN_PUT: return "CR was put before its LF";
    case SUMPQUINCE_LAST_LINE_ENDED: return "the end that the last line lacked was put";
    case SUMPQUINCE_SPACES_DROPPED: return "the spaces at its end were dropped";
    default: return "the count was set to the number of lines behind it";
    }
}

static void print_refusal(SumpquinceRefusal refusal) {
    fprintf(stderr, "refused %u, line %u, field %u: %s\n", refusal.number, refusal.line, refusal.field, refusal_in_words(refusal.number));
}

int main(void) {
    /* One byte more than a log may have, so that a log that is too long is seen to be so. */
    static uint8_t log[LONGEST_LOG + 1];
    static uint8_t mended[LONGEST_LOG];
    static uint8_t kinds[MOST_CHANGES];
    static uint32_t lines[MOST_CHANGES];
    size_t length = fread(log, 1, sizeof log, stdin);
    if (ferror(stdin)) {
        fputs("mend: cannot read standard input\n", stderr);
        return 2;
    }
    SumpquinceMended answer = sumpquince_mend(log, length, mended, sizeof mended, kinds, MOST_CHANGES, lines, MOST_CHANGES);
    if (answer.refusal.number != 0) {
        print_refusal(answer.refusal);
        return 1;
    }
    if (fwrite(mended, 1, answer.length, stdout) != answer.length || fflush(stdout) != 0) {
        fputs("mend: cannot write to standard output\n", stderr);
        return 2;
    }
    for (uint64_t i = 0; i < answer.changes; i++) fprintf(stderr, "line %u: %s\n", lines[i], change_in_words(kinds[i]));
    return 0;
}
