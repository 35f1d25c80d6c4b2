/* Tries what include/sumpquince.h says of its shapes and of empty slices: that the structs have the sizes that it gives, that the modes of a
 * judgement and the numbers of a session and of a link lie where it says and add up, that a slice of length 0 may have a null pointer, for each
 * function and each of its slices, that striking changes no slice where it refuses, and that a session or a link that no run of calls can have made
 * is answered.
 *
 *     face < LOG
 *
 * LOG is an accepted log with at least one record. Each difference is told in a line. The status is 0 where there is none, 1 where there is one, and
 * 2 where the log is of no use. */
#include "sumpquince.h"

#include <stdbool.h>
#include <stdio.h>
#include <string.h>

_Static_assert(sizeof(SumpquinceRefusal) == 12 && _Alignof(SumpquinceRefusal) == 4, "a refusal");
_Static_assert(sizeof(SumpquinceReading) == 32 && _Alignof(SumpquinceReading) == 8, "a reading");
_Static_assert(sizeof(SumpquinceView) == 40 && _Alignof(SumpquinceView) == 8, "a view");
_Static_assert(sizeof(SumpquinceJudgement) == 200 && _Alignof(SumpquinceJudgement) == 8, "a judgement");
_Static_assert(sizeof(SumpquinceWritten) == 24 && _Alignof(SumpquinceWritten) == 8, "a log written back");
_Static_assert(sizeof(SumpquinceMended) == 32 && _Alignof(SumpquinceMended) == 8, "a log that was mended");
_Static_assert(sizeof(SumpquinceDeclared) == 24 && _Alignof(SumpquinceDeclared) == 4, "what a session is started with");
_Static_assert(sizeof(SumpquinceSession) == 200 && _Alignof(SumpquinceSession) == 8, "a session");
_Static_assert(sizeof(SumpquinceLink) == 156 && _Alignof(SumpquinceLink) == 4, "a link");

enum { LONGEST_LOG = 65535, MOST_RECORDS = 999, MOST_CHANGES = 32767 };

static uint8_t log[LONGEST_LOG], none[LONGEST_LOG], verdicts[MOST_RECORDS], struck[MOST_RECORDS], out[LONGEST_LOG], kinds[MOST_CHANGES];
static uint8_t kept[MOST_RECORDS * SUMPQUINCE_KEPT_BYTES], worked[MOST_RECORDS * SUMPQUINCE_WORKED_BYTES + 1];
static uint32_t lines[MOST_CHANGES];
static int tries, differences;

static void hold(const char *what, uint64_t got, uint64_t wanted) {
    tries++;
    if (got == wanted) return;
    differences++;
    printf("face: %s is %llu and should be %llu\n", what, (unsigned long long)got, (unsigned long long)wanted);
}

/* A refusal as one number: 210 is number 2, line 1, field 0, and 1000 is number 10. */
static uint64_t digits(SumpquinceRefusal refusal) { return refusal.number * 100 + refusal.line * 10 + refusal.field; }

/* Where the count line begins. */
static size_t count_line(size_t length) {
    static const char start[] = "[QSORecords;";
    size_t at = 0;
    while (at < length && memcmp(log + at, start, sizeof start - 1) != 0) at++;
    return at;
}

/* The log with no records: up to its count line, and `[QSORecords;0]`. */
static size_t without_records(size_t length) {
    size_t start = count_line(length);
    memcpy(none, log, start);
    memcpy(none + start, "[QSORecords;0]\r\n", 16);
    return start + 16;
}

/* Behind the CR LF that comes next. */
static size_t line_behind(size_t at) {
    while (log[at] != '\n') at++;
    return at + 1;
}

/* Where the parts of the mender's answer lie in it. */
static void try_shape(void) {
    SumpquinceMended mended;
    const uint8_t *start = (const uint8_t *)&mended;
    hold("the place of a mended log's refusal", (uint64_t)((const uint8_t *)&mended.refusal - start), 0);
    hold("the place of its length", (uint64_t)((const uint8_t *)&mended.length - start), 16);
    hold("the place of its changes", (uint64_t)((const uint8_t *)&mended.changes - start), 24);
}

static uint64_t sum_of_modes(const SumpquinceJudgement *judgement) {
    uint64_t sum = 0;
    for (int i = 0; i < SUMPQUINCE_MODES; i++) sum += judgement->modes[i];
    return sum;
}

/* The modes are behind all else, so that what is in front of them lies where it did before there were any. */
static void try_modes(size_t length) {
    SumpquinceJudgement judgement = sumpquince_judge(log, length, verdicts, sizeof verdicts);
    const uint8_t *start = (const uint8_t *)&judgement;
    hold("the place of a judgement's total", (uint64_t)((const uint8_t *)&judgement.total - start), 104);
    hold("the place of its first mode", (uint64_t)((const uint8_t *)&judgement.modes[0] - start), 112);
    hold("the place of its blank mode", (uint64_t)((const uint8_t *)&judgement.modes[SUMPQUINCE_BLANK_MODE] - start), 192);
    hold("the refusal of an accepted log", digits(judgement.refusal), 0);
    hold("the sum of its modes", sum_of_modes(&judgement), judgement.credited);
}

/* The log with its line ends, its count and its last line wrong: it has a change of each kind. */
static size_t chewed(size_t length, uint8_t *to) {
    size_t made = 0;
    for (size_t i = 0; i < length; i++) {
        if (log[i] == '\r') continue;
        to[made++] = log[i];
        if (log[i] == ';' && made >= 12 && memcmp(to + made - 12, "[QSORecords;", 12) == 0) to[made++] = '0';
    }
    to[made - 1] = ' ';
    return made;
}

static void try_empty_log(void) {
    hold("the refusal of reading no log", digits(sumpquince_read(NULL, 0).refusal), 210);
    hold("the refusal of viewing no log", digits(sumpquince_view(NULL, 0, 1).refusal), 210);
    hold("the refusal of keyword 0 of no log", digits(sumpquince_view(NULL, 0, 0).refusal), 900);
    hold("the refusal of judging no log", digits(sumpquince_judge(NULL, 0, verdicts, sizeof verdicts).refusal), 210);
    hold("the refusal of judging no log into nothing", digits(sumpquince_judge(NULL, 0, NULL, 0).refusal), 210);
    hold("the refusal of writing no log", digits(sumpquince_write(NULL, 0, out, sizeof out).refusal), 210);
    hold("the refusal of writing no log into nothing", digits(sumpquince_write(NULL, 0, NULL, 0).refusal), 210);
    hold("the refusal of striking from no log", digits(sumpquince_strike(NULL, 0, struck, sizeof struck, out, sizeof out).refusal), 210);
    hold("the refusal of striking nothing from no log into nothing", digits(sumpquince_strike(NULL, 0, NULL, 0, NULL, 0).refusal), 210);
    hold("the refusal of mending no log",
         digits(sumpquince_mend(NULL, 0, out, sizeof out, kinds, MOST_CHANGES, lines, MOST_CHANGES).refusal), 210);
    hold("the refusal of mending no log into nothing", digits(sumpquince_mend(NULL, 0, NULL, 0, NULL, 0, NULL, 0).refusal), 210);
}

static void try_empty_results(size_t length) {
    size_t shorter = without_records(length);
    SumpquinceJudgement judgement = sumpquince_judge(none, shorter, NULL, 0);
    hold("the refusal of a log with no records, judged into nothing", digits(judgement.refusal), 0);
    hold("its total", judgement.total, 0);
    hold("the sum of its modes", sum_of_modes(&judgement), 0);
    judgement = sumpquince_judge(log, length, NULL, 0);
    hold("the refusal of a log with records, judged into nothing", digits(judgement.refusal), 700);
    hold("its credited records", judgement.credited, 0);
    hold("the sum of its modes", sum_of_modes(&judgement), 0);
    hold("the refusal of a log written into nothing", digits(sumpquince_write(log, length, NULL, 0).refusal), 800);
}

/* Of a log with nothing to mend the list is empty, and a slice for it may be missing; of another it may not. */
static void try_empty_lists(size_t length) {
    static uint8_t spoilt[LONGEST_LOG];
    size_t spoilt_length = chewed(length, spoilt);
    SumpquinceMended mended = sumpquince_mend(log, length, out, sizeof out, NULL, 0, NULL, 0);
    hold("the refusal of an accepted log, mended without lists", digits(mended.refusal), 0);
    hold("its length", mended.length, length);
    hold("the number of its changes", mended.changes, 0);
    hold("whether it is another log", memcmp(out, log, length) != 0, 0);
    hold("the refusal of an accepted log, mended into nothing", digits(sumpquince_mend(log, length, NULL, 0, NULL, 0, NULL, 0).refusal), 800);
    hold("the refusal of a chewed log, mended into nothing",
         digits(sumpquince_mend(spoilt, spoilt_length, NULL, 0, NULL, 0, NULL, 0).refusal), 1000);
    hold("the refusal of a chewed log, mended without kinds",
         digits(sumpquince_mend(spoilt, spoilt_length, out, sizeof out, NULL, 0, lines, MOST_CHANGES).refusal), 1000);
    hold("the refusal of a chewed log, mended without lines",
         digits(sumpquince_mend(spoilt, spoilt_length, out, sizeof out, kinds, MOST_CHANGES, NULL, 0).refusal), 1000);
    hold("the refusal of a chewed log, mended without a slice for it",
         digits(sumpquince_mend(spoilt, spoilt_length, NULL, 0, kinds, MOST_CHANGES, lines, MOST_CHANGES).refusal), 800);
    mended = sumpquince_mend(spoilt, spoilt_length, out, sizeof out, kinds, MOST_CHANGES, lines, MOST_CHANGES);
    hold("the refusal of a chewed log", digits(mended.refusal), 0);
    hold("the length of a chewed log once it is mended", mended.length, length);
    hold("whether a chewed log becomes another", memcmp(out, log, length) != 0, 0);
}

/* Strikes into a slice that has another colour than any character of a log, and holds the refusal and the length, and every byte behind the result,
 * of which there is none on a refusal. */
static void try_strike(const char *what, size_t length, size_t struck_length, size_t out_length, uint64_t refusal, size_t result) {
    memset(out, 0xA5, sizeof out);
    SumpquinceWritten written = sumpquince_strike(log, length, struck_length == 0 ? NULL : struck, struck_length, out_length == 0 ? NULL : out,
                                                  out_length);
    hold(what, digits(written.refusal), refusal);
    hold("its length", written.length, result);
    size_t changed = sizeof out;
    while (changed > 0 && out[changed - 1] == 0xA5) changed--;
    hold("how far its slice is changed", changed, result);
}

/* The slice that says what is struck may be missing where there are no records, and the one for the result never is. */
static void try_strikes(size_t length) {
    const size_t records = (size_t)sumpquince_read(log, length).records, shorter = without_records(length);
    memset(struck, 0, sizeof struck);
    try_strike("the refusal of striking by nothing", length, 0, sizeof out, 700, 0);
    try_strike("the refusal of striking by nothing into nothing", length, 0, 0, 700, 0);
    try_strike("the refusal of striking by a byte too few", length, records - 1, sizeof out, 700, 0);
    try_strike("the refusal of striking none into nothing", length, records, 0, 800, 0);
    try_strike("the refusal of striking none into a byte too few", length, records, length - 1, 800, 0);
    try_strike("the refusal of a log without its last byte", length - 1, records, sizeof out, digits(sumpquince_read(log, length - 1).refusal), 0);
    try_strike("the refusal of striking none", length, records, length, 0, length);
    hold("whether striking none makes another log", memcmp(out, log, length) != 0, 0);
    memset(struck, 0xFF, records);
    try_strike("the refusal of striking all into a byte too few", length, records, shorter - 1, 800, 0);
    try_strike("the refusal of striking all", length, records, sizeof out, 0, shorter);
    hold("whether striking all leaves another log than one without records", memcmp(out, none, shorter) != 0, 0);
    SumpquinceWritten written = sumpquince_strike(none, shorter, NULL, 0, out, shorter);
    hold("the refusal of striking by nothing from a log without records", digits(written.refusal), 0);
    hold("its length", written.length, shorter);
    hold("the refusal of the same into nothing", digits(sumpquince_strike(none, shorter, NULL, 0, NULL, 0).refusal), 800);
}

static size_t place_in(const SumpquinceSession *session, const uint64_t *number) {
    return (size_t)((const uint8_t *)number - (const uint8_t *)session);
}

/* Each number of the start goes to its place, and a record of the log is counted where the header has it. */
static void try_session_shape(const uint8_t *line, size_t length) {
    const SumpquinceDeclared declared = {1, 2, 3, 4, 5, 6};
    SumpquinceSession session;
    hold("the refusal of a start", digits(sumpquince_session_start(&session, declared)), 0);
    hold("the place of a session's first number", place_in(&session, &session.square_bonus), 0);
    hold("the place of its credited records", place_in(&session, &session.credited), 48);
    hold("the place of its points", place_in(&session, &session.points), 80);
    hold("the place of its first mode", place_in(&session, &session.modes[0]), 112);
    hold("the place of its blank mode", place_in(&session, &session.modes[SUMPQUINCE_BLANK_MODE]), 192);
    const uint64_t numbers[] = {session.square_bonus,        session.square_multiplier, session.exchange_bonus,
                                session.exchange_multiplier, session.country_bonus,     session.country_multiplier};
    for (uint64_t i = 0; i < 6; i++) hold("a declared number", numbers[i], i + 1);
    hold("the refusal of a record", digits(sumpquince_session_take(&session, line, length, verdicts, sizeof verdicts, kept, sizeof kept)), 0);
    hold("the number of records", session.credited + session.voids + session.duplicates + session.errors, 1);
    SumpquinceJudgement judgement = sumpquince_session_totals(session);
    hold("the sum of a session's modes", sum_of_modes(&judgement), judgement.credited);
    hold("the refusal of giving back", digits(sumpquince_session_give_back(&session, verdicts, sizeof verdicts, kept, sizeof kept)), 0);
}

/* A missing line has no semicolons, and missing slices have no place and no record. */
static void try_session_without_slices(const uint8_t *line, size_t length) {
    const SumpquinceDeclared declared = {0, 1, 0, 1, 0, 1}, wrong = {0, 0, 0, 1, 0, 1};
    SumpquinceSession session, before;
    sumpquince_session_start(&session, declared);
    before = session;
    hold("the refusal of a wrong start", digits(sumpquince_session_start(&session, wrong)), 400);
    hold("the refusal of no line", digits(sumpquince_session_take(&session, NULL, 0, verdicts, sizeof verdicts, kept, sizeof kept)), 500);
    hold("the refusal of no line into nothing", digits(sumpquince_session_take(&session, NULL, 0, NULL, 0, NULL, 0)), 500);
    hold("the refusal of a record into nothing", digits(sumpquince_session_take(&session, line, length, NULL, 0, NULL, 0)), 1100);
    hold("the refusal of a record without verdicts", digits(sumpquince_session_take(&session, line, length, NULL, 0, kept, sizeof kept)), 1100);
    hold("the refusal of a record without kept bytes",
         digits(sumpquince_session_take(&session, line, length, verdicts, sizeof verdicts, NULL, 0)), 1100);
    hold("the refusal of giving nothing back", digits(sumpquince_session_give_back(&session, NULL, 0, NULL, 0)), 1200);
    hold("whether refusals changed a session", memcmp(&session, &before, sizeof session) != 0, 0);
    sumpquince_session_take(&session, line, length, verdicts, 1, kept, SUMPQUINCE_KEPT_BYTES);
    before = session;
    hold("the number of records", session.credited + session.voids + session.duplicates + session.errors, 1);
    hold("the refusal of giving back from nothing", digits(sumpquince_session_give_back(&session, NULL, 0, NULL, 0)), 1200);
    hold("the refusal of giving back without verdicts", digits(sumpquince_session_give_back(&session, NULL, 0, kept, sizeof kept)), 1200);
    hold("the refusal of giving back without kept bytes", digits(sumpquince_session_give_back(&session, verdicts, sizeof verdicts, NULL, 0)), 1200);
    hold("whether refusals changed a session", memcmp(&session, &before, sizeof session) != 0, 0);
}

/* Zeros, which no start makes, and a session with a mode too many. */
static void try_impossible_sessions(const uint8_t *line, size_t length) {
    const SumpquinceDeclared declared = {9999, 99, 9999, 99, 9999, 99};
    SumpquinceSession sessions[2], before;
    memset(sessions, 0, sizeof sessions);
    sumpquince_session_start(&sessions[1], declared);
    sessions[1].modes[SUMPQUINCE_BLANK_MODE] = 1;
    for (int i = 0; i < 2; i++) {
        SumpquinceSession *session = &sessions[i];
        before = *session;
        SumpquinceJudgement judgement = sumpquince_session_totals(*session);
        hold("the refusal of an impossible session's totals", digits(judgement.refusal), 0);
        hold("its total", judgement.total, 0);
        hold("the sum of its modes", sum_of_modes(&judgement), 0);
        hold("the refusal of a record for it",
             digits(sumpquince_session_take(session, line, length, verdicts, sizeof verdicts, kept, sizeof kept)), 1100);
        hold("the refusal of no line for it", digits(sumpquince_session_take(session, NULL, 0, NULL, 0, NULL, 0)), 500);
        hold("the refusal of giving back", digits(sumpquince_session_give_back(session, verdicts, sizeof verdicts, kept, sizeof kept)), 1200);
        hold("whether an impossible session is changed", memcmp(session, &before, sizeof before) != 0, 0);
        hold("the refusal of starting it", digits(sumpquince_session_start(session, declared)), 0);
        hold("whether it is a good one then",
             digits(sumpquince_session_take(session, line, length, verdicts, sizeof verdicts, kept, sizeof kept)), 0);
    }
}

static size_t place_in_link(const SumpquinceLink *link, const void *part) { return (size_t)((const uint8_t *)part - (const uint8_t *)link); }

static void try_link_shape(void) {
    SumpquinceLink link;
    sumpquince_link_open(&link);
    hold("the place of a link's refusal", place_in_link(&link, &link.refusal), 0);
    hold("the place of its count of bytes", place_in_link(&link, &link.count), 12);
    hold("the place of its lines", place_in_link(&link, &link.lines), 16);
    hold("the place of its points", place_in_link(&link, &link.points), 20);
    hold("the place of its credited records", place_in_link(&link, &link.credited), 24);
    hold("the place of its first mode", place_in_link(&link, &link.modes[0]), 38);
    hold("the place of its blank mode", place_in_link(&link, &link.modes[SUMPQUINCE_BLANK_MODE]), 58);
    hold("the place of its first declared number", place_in_link(&link, &link.square_bonus), 60);
    hold("the place of its records", place_in_link(&link, &link.records), 72);
    hold("the place of its stage", place_in_link(&link, &link.stage), 76);
    hold("the place of its CR", place_in_link(&link, &link.returned), 80);
    hold("the place of its line", place_in_link(&link, &link.line[0]), 81);
}

/* All bytes are zero behind the refusal. */
static bool keeps_nothing_else(const SumpquinceLink *link) {
    const uint8_t *bytes = (const uint8_t *)link;
    for (size_t i = sizeof link->refusal; i < sizeof *link; i++) {
        if (bytes[i] != 0) return false;
    }
    return true;
}

static SumpquinceRefusal feed(SumpquinceLink *link, size_t from, size_t to) {
    return sumpquince_link_feed(link, log + from, to - from, verdicts, sizeof verdicts, worked, sizeof worked);
}

static SumpquinceJudgement close_link(SumpquinceLink *link) { return sumpquince_link_close(link, verdicts, sizeof verdicts, worked, sizeof worked); }

/* A log that comes in two pieces, over a link that held something else, is counted where the header has it; the closing tells what judging tells. */
static void try_link(size_t length) {
    const SumpquinceReading reading = sumpquince_read(log, length);
    const SumpquinceJudgement judgement = sumpquince_judge(log, length, verdicts, sizeof verdicts);
    SumpquinceLink link;
    memset(&link, 0xFF, sizeof link);
    sumpquince_link_open(&link);
    hold("the refusal of an opened link", digits(link.refusal), 0);
    hold("whether it has a byte that is not zero", !keeps_nothing_else(&link), 0);
    hold("the refusal of a piece", digits(feed(&link, 0, length - 1)), 0);
    hold("whether its last CR is kept", link.returned, 1);
    hold("the first character of its last line", link.line[0], log[length - 2 - link.held]);
    hold("the refusal of a last byte", digits(feed(&link, length - 1, length)), 0);
    hold("the bytes that came", link.count, length);
    hold("the records announced", link.records, reading.records);
    hold("the records taken", link.done, reading.records);
    hold("the credited records", link.credited, judgement.credited);
    hold("their points", link.points, judgement.points);
    hold("their blank modes", link.modes[SUMPQUINCE_BLANK_MODE], judgement.modes[SUMPQUINCE_BLANK_MODE]);
    hold("the characters that are kept", link.held, 0);
    hold("the first of them", link.line[0], 0);
    const SumpquinceJudgement closing = close_link(&link);
    const size_t totals = sizeof closing - (size_t)((const uint8_t *)&closing.credited - (const uint8_t *)&closing);
    hold("the refusal of the closing", digits(closing.refusal), 0);
    hold("whether it tells other totals than judging", memcmp(&closing.credited, &judgement.credited, totals) != 0, 0);
    hold("the refusal that it keeps", digits(link.refusal), 1300);
    hold("whether it keeps anything else", !keeps_nothing_else(&link), 0);
    hold("the refusal of a byte behind it", digits(feed(&link, 0, 1)), 1300);
    hold("the refusal of closing again", digits(close_link(&link).refusal), 1300);
}

static SumpquinceRefusal feed_without_slices(SumpquinceLink *link, const uint8_t *bytes, size_t length) {
    return sumpquince_link_feed(link, bytes, length, NULL, 0, NULL, 0);
}

/* Slices may be missing up to a count line, and behind it too where it announces no records. */
static void try_link_with_no_records(size_t length) {
    const size_t shorter = without_records(length);
    SumpquinceLink link;
    sumpquince_link_open(&link);
    hold("the refusal of no bytes and no slices", digits(feed_without_slices(&link, NULL, 0)), 0);
    hold("whether a link is changed by no bytes", !keeps_nothing_else(&link), 0);
    hold("the refusal of a log with no records", digits(feed_without_slices(&link, none, shorter)), 0);
    SumpquinceJudgement judgement = sumpquince_link_close(&link, NULL, 0, NULL, 0);
    hold("the refusal of its closing", digits(judgement.refusal), 0);
    hold("its total", judgement.total, 0);
    sumpquince_link_open(&link);
    judgement = sumpquince_link_close(&link, NULL, 0, NULL, 0);
    hold("the refusal of closing where nothing came", digits(judgement.refusal), 210);
    hold("the refusal of closing again", digits(sumpquince_link_close(&link, NULL, 0, NULL, 0).refusal), 210);
}

/* A link that has read the count line, and is due to take its first record. */
static SumpquinceLink link_at_records(size_t first) {
    SumpquinceLink link;
    sumpquince_link_open(&link);
    hold("the refusal of a log up to its records", digits(feed(&link, 0, first)), 0);
    return link;
}

/* Where records are announced a missing slice is refused: at the count line, before any byte behind it, and in the closing. */
static void try_link_without_slices(size_t length, size_t first) {
    SumpquinceLink link;
    sumpquince_link_open(&link);
    hold("the refusal of a count line into nothing", digits(feed_without_slices(&link, log, first)), 700);
    hold("the refusal of slices that come too late", digits(feed(&link, first, length)), 700);
    sumpquince_link_open(&link);
    hold("the refusal of a log without verdicts", digits(sumpquince_link_feed(&link, log, length, NULL, 0, worked, sizeof worked)), 700);
    sumpquince_link_open(&link);
    hold("the refusal of a log without worked bytes", digits(sumpquince_link_feed(&link, log, length, verdicts, sizeof verdicts, NULL, 0)), 700);
    link = link_at_records(first);
    hold("the refusal of no bytes into nothing", digits(feed_without_slices(&link, NULL, 0)), 700);
    hold("whether a link keeps more than its refusal", !keeps_nothing_else(&link), 0);
    link = link_at_records(first);
    hold("the refusal of a closing with no slices", digits(sumpquince_link_close(&link, NULL, 0, NULL, 0).refusal), 700);
    hold("the refusal of closing again", digits(close_link(&link).refusal), 700);
}

/* Slices that are just long enough will do, at any address. */
static void try_short_slices(size_t length, size_t first) {
    const size_t records = (size_t)sumpquince_read(log, length).records, bytes = records * SUMPQUINCE_WORKED_BYTES;
    SumpquinceLink link = link_at_records(first);
    hold("the refusal of slices that are just long enough",
         digits(sumpquince_link_feed(&link, log + first, length - first, verdicts, records, worked + 1, bytes)), 0);
    hold("the refusal of their closing", digits(sumpquince_link_close(&link, verdicts, records, worked + 1, bytes).refusal), 0);
    link = link_at_records(first);
    hold("the refusal of a verdict too few", digits(sumpquince_link_feed(&link, NULL, 0, verdicts, records - 1, worked, bytes)), 700);
    link = link_at_records(first);
    hold("the refusal of a worked byte too few", digits(sumpquince_link_close(&link, verdicts, records, worked, bytes - 1).refusal), 700);
}

/* More bytes than a log has, more lines than bytes, and more characters than a line has: what each call tells of such a link, it keeps. */
static void try_impossible_links(void) {
    for (int i = 0; i < 3; i++) {
        SumpquinceLink links[2];
        memset(links, 0, sizeof links);
        links[0].count = i == 0 ? 65536 : 0;
        links[0].lines = i == 1;
        links[0].held = i == 2 ? 76 : 0;
        links[1] = links[0];
        hold("the refusal of no bytes for an impossible link", digits(feed_without_slices(&links[0], NULL, 0)), 1300);
        const SumpquinceJudgement judgement = close_link(&links[1]);
        hold("the refusal of its closing", digits(judgement.refusal), 1300);
        hold("its total", judgement.total, 0);
        for (int k = 0; k < 2; k++) {
            hold("the refusal that it keeps", digits(links[k].refusal), 1300);
            hold("whether it keeps anything else", !keeps_nothing_else(&links[k]), 0);
        }
        sumpquince_link_open(&links[0]);
        hold("whether it is a good one then", digits(feed(&links[0], 0, 1)), 0);
    }
}

/* Numbers that are answered, though no bytes can have made them: as many bytes as a log has, and a credited record that no line brought. */
static void try_unlikely_links(void) {
    SumpquinceLink link;
    sumpquince_link_open(&link);
    link.count = LONGEST_LOG;
    hold("the refusal of no byte behind 65,535", digits(feed(&link, 0, 0)), 0);
    hold("the refusal of the 65,536th byte", digits(feed(&link, 0, 1)), 100);
    sumpquince_link_open(&link);
    link.stage = 39;
    link.credited = 1;
    const SumpquinceJudgement judgement = close_link(&link);
    hold("the refusal of a closing with a record that never came", digits(judgement.refusal), 0);
    hold("its credited records", judgement.credited, 0);
}

int main(void) {
    size_t length = fread(log, 1, sizeof log, stdin);
    SumpquinceReading reading = sumpquince_read(log, length);
    if (reading.refusal.number != 0 || reading.records == 0) {
        fputs("face: the log is refused, or has no records\n", stderr);
        return 2;
    }
    try_shape();
    try_modes(length);
    try_empty_log();
    try_empty_results(length);
    try_empty_lists(length);
    try_strikes(length);
    size_t record = line_behind(count_line(length)), record_length = line_behind(record) - record - 2;
    try_session_shape(log + record, record_length);
    try_session_without_slices(log + record, record_length);
    try_impossible_sessions(log + record, record_length);
    try_link_shape();
    try_link(length);
    try_link_with_no_records(length);
    try_link_without_slices(length, record);
    try_short_slices(length, record);
    try_impossible_links();
    try_unlikely_links();
    printf("face: %d tries of shapes, null pointers and impossible sessions and links, %d differences\n", tries, differences);
    return differences == 0 ? 0 : 1;
}
