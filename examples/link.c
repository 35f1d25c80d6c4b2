/* Judges a log that comes over a packet link: takes it from standard input in pieces, each as long as it is handed over, and prints how many records
 * are of each class, and the total.
 *
 *     link < LOG
 *
 * It shows how a link is used: declare it and the two slices that go with it, open it, feed it each piece as it comes, and close it when there are no
 * more. The log is nowhere as a whole: what a piece brought is forgotten once the next one comes. Its memory is static, and enough for the most
 * records that there can be. The status is 0 for a log that is accepted, 1 for one that is refused, of which it prints REFUSED with number, line and
 * field, and 2 where standard input cannot be read. */
#include "sumpquince.h"

#include <stdio.h>
#include <unistd.h>

enum { STANDARD_INPUT = 0, LONGEST_PIECE = 256, MOST_RECORDS = 999 };

static SumpquinceLink state;
static uint8_t verdicts[MOST_RECORDS];
static uint8_t worked[MOST_RECORDS * SUMPQUINCE_WORKED_BYTES];

/* Feeds what comes, up to its end or to a refusal: that stands, whatever comes behind it, so that the rest need not be waited for. Says how the last
 * reading went: as many bytes as it gave, 0 at the end, less where there is nothing to be read from. */
static ssize_t feed_all(void) {
    static uint8_t piece[LONGEST_PIECE];
    SumpquinceRefusal refusal = {0, 0, 0};
    ssize_t length = 1;
    while (refusal.number == 0 && length > 0) {
        length = read(STANDARD_INPUT, piece, sizeof piece);
        if (length > 0) refusal = sumpquince_link_feed(&state, piece, (size_t)length, verdicts, sizeof verdicts, worked, sizeof worked);
    }
    return length;
}

static void print_number(const char *name, uint64_t value) { printf("%-15s %llu\n", name, (unsigned long long)value); }

int main(void) {
    sumpquince_link_open(&state);
    if (feed_all() < 0) {
        fputs("link: cannot read standard input\n", stderr);
        return 2;
    }
    /* A refusal that feeding told is told once more. */
    SumpquinceJudgement judgement = sumpquince_link_close(&state, verdicts, sizeof verdicts, worked, sizeof worked);
    if (judgement.refusal.number != 0) {
        printf("REFUSED %u %u %u\n", judgement.refusal.number, judgement.refusal.line, judgement.refusal.field);
        return 1;
    }
    print_number("credited", judgement.credited);
    print_number("void", judgement.voids);
    print_number("duplicates", judgement.duplicates);
    print_number("errors", judgement.errors);
    print_number("total", judgement.total);
    return 0;
}
