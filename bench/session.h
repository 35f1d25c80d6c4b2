/* A session with the records of the log that a program of the bench works on. */
#include "sumpquince.h"

#include <stdbool.h>
#include <string.h>

enum { MOST_RECORDS = 999 };

static uint8_t verdicts[MOST_RECORDS];
static uint8_t kept[MOST_RECORDS * SUMPQUINCE_KEPT_BYTES];
static const SumpquinceDeclared DECLARED = {100, 2, 10, 1, 50, 1};

/* A line of the log, without its CR LF. */
typedef struct {
    const uint8_t *at;
    size_t length;
} Line;

static bool next_line(size_t length, size_t *at, Line *line) {
    size_t start = *at, end = start;
    while (end < length && log_bytes[end] != '\r') end++;
    if (end == length) return false;
    line->at = log_bytes + start;
    line->length = end - start;
    *at = end + 2;
    return true;
}

static SumpquinceRefusal take(SumpquinceSession *session, Line line) {
    return sumpquince_session_take(session, line.at, line.length, verdicts, sizeof verdicts, kept, sizeof kept);
}

/* A session with all records of the log but the last, whose line is told. There is none where lines have no CR LF or a record is refused. */
static bool session_without_last(size_t length, SumpquinceSession *session, Line *last) {
    static const char start[] = "[QSORecords;";
    Line line;
    size_t at = 0;
    sumpquince_session_start(session, DECLARED);
    do {
        if (!next_line(length, &at, &line)) return false;
    } while (line.length < sizeof start || memcmp(line.at, start, sizeof start - 1) != 0);
    if (!next_line(length, &at, last)) return false;
    while (next_line(length, &at, &line)) {
        if (take(session, *last).number != 0) return false;
        *last = line;
    }
    return true;
}
