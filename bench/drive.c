/* Calls one function of sumpquince.h on one log, again and again, so that its cost can be counted from outside.
 *
 *     drive read|view|judge|write|mend LOG TIMES
 *     drive strike-none|strike-one|strike-half LOG TIMES
 *     drive take|give-back|totals LOG TIMES
 *     drive feed-1|feed-64|feed-4096 LOG TIMES
 *
 * The three strikes are of no record, of the thirteenth alone, and of every second one, from the first on.
 *
 * The three behind them are called on a session with the log's records: `take` takes the last of them behind all others, `give-back` gives it back.
 * Since a call changes the session, each works on a copy of it, and all copies are made before the first call, as many for one as for several.
 *
 * The last three open a link, feed it the whole log in pieces of so many bytes, the last of which may be shorter, and close it: that is once.
 *
 * Prints the last answer in short, so that whoever counts sees that two libraries did the same work. */
#include "log.h"
#include "session.h"
#include "sumpquince.h"

#include <stdio.h>
#include <stdlib.h>
#include <string.h>

enum { CTOSC = 35, COPIES = 8 };

static uint8_t written[LONGEST_LOG];
static uint8_t kinds[MOST_CHANGES];
static uint32_t lines[MOST_CHANGES];
static SumpquinceSession copies[COPIES];
static uint8_t worked[MOST_RECORDS * SUMPQUINCE_WORKED_BYTES];
static uint8_t struck[MOST_RECORDS];

static _Noreturn void stop(const char *why) {
    fprintf(stderr, "drive: %s\n", why);
    exit(2);
}

static void show(SumpquinceRefusal refusal, const char *what, uint64_t value) {
    printf("refusal %u %u %u, %s %llu\n", refusal.number, refusal.line, refusal.field, what, (unsigned long long)value);
}

/* A sum that tells one run of bytes from most others. */
static uint64_t sum_of(const uint8_t *bytes, size_t length) {
    uint64_t sum = 0;
    for (size_t i = 0; i < length; i++) sum = sum * 31 + bytes[i];
    return sum;
}

static void drive_read(size_t length, unsigned long long times) {
    SumpquinceReading answer = {{0, 0, 0}, 0, 0};
    for (; times > 0; times--) answer = sumpquince_read(log_bytes, length);
    show(answer.refusal, "records", answer.records);
}

static void drive_view(size_t length, unsigned long long times) {
    SumpquinceView answer = {{0, 0, 0}, 0, 0, 0};
    for (; times > 0; times--) answer = sumpquince_view(log_bytes, length, CTOSC);
    show(answer.refusal, "start", answer.start);
}

static void drive_judge(size_t length, unsigned long long times) {
    SumpquinceJudgement answer = {{0, 0, 0}, 0, 0, 0, 0, 0, 0, 0, 0, 0, 0, 0, 0, {0}};
    for (; times > 0; times--) answer = sumpquince_judge(log_bytes, length, verdicts, sizeof verdicts);
    show(answer.refusal, "total", answer.total);
    show(answer.refusal, "voids", answer.voids); /* which no total tells from duplicates */
    for (int i = 0; i < SUMPQUINCE_MODES; i++) show(answer.refusal, "mode", answer.modes[i]);
}

static void drive_write(size_t length, unsigned long long times) {
    SumpquinceWritten answer = {{0, 0, 0}, 0};
    for (; times > 0; times--) answer = sumpquince_write(log_bytes, length, written, sizeof written);
    show(answer.refusal, "length", answer.length);
}

static void drive_strike(size_t length, unsigned long long times) {
    SumpquinceWritten answer = {{0, 0, 0}, 0};
    for (; times > 0; times--) answer = sumpquince_strike(log_bytes, length, struck, sizeof struck, written, sizeof written);
    show(answer.refusal, "length", answer.length);
    show(answer.refusal, "bytes", sum_of(written, (size_t)answer.length));
}

static void drive_strike_one(size_t length, unsigned long long times) {
    struck[12] = 1;
    drive_strike(length, times);
}

static void drive_strike_half(size_t length, unsigned long long times) {
    for (size_t i = 0; i < sizeof struck; i += 2) struck[i] = 1;
    drive_strike(length, times);
}

static void drive_mend(size_t length, unsigned long long times) {
    SumpquinceMended answer = {{0, 0, 0}, 0, 0};
    for (; times > 0; times--) answer = sumpquince_mend(log_bytes, length, written, sizeof written, kinds, MOST_CHANGES, lines, MOST_CHANGES);
    show(answer.refusal, "length", answer.length);
    show(answer.refusal, "changes", answer.changes);
}

static SumpquinceSession prepared(size_t length, Line *last) {
    SumpquinceSession session;
    if (!session_without_last(length, &session, last)) stop("the log has no session");
    return session;
}

static void copy(SumpquinceSession session, unsigned long long times) {
    if (times < 1 || times > COPIES) stop("a session is called 1 to 8 times");
    for (size_t i = 0; i < COPIES; i++) copies[i] = session;
}

static void show_session(SumpquinceRefusal refusal, SumpquinceSession session) {
    SumpquinceJudgement answer = sumpquince_session_totals(session);
    show(refusal, "credited", answer.credited);
    show(refusal, "squares", answer.squares);
    show(refusal, "exchanges", answer.exchanges);
    show(refusal, "total", answer.total);
}

static void drive_take(size_t length, unsigned long long times) {
    SumpquinceRefusal refusal = {0, 0, 0};
    Line last;
    copy(prepared(length, &last), times);
    for (size_t i = 0; i < times; i++) refusal = take(&copies[i], last);
    show_session(refusal, copies[times - 1]);
    show(refusal, "verdict", verdicts[copies[0].credited - 1]); /* of a log with nothing but credited records */
}

static void drive_give_back(size_t length, unsigned long long times) {
    SumpquinceRefusal refusal = {0, 0, 0};
    Line last;
    SumpquinceSession session = prepared(length, &last);
    take(&session, last);
    copy(session, times);
    for (size_t i = 0; i < times; i++) refusal = sumpquince_session_give_back(&copies[i], verdicts, sizeof verdicts, kept, sizeof kept);
    show_session(refusal, copies[times - 1]);
}

static void drive_totals(size_t length, unsigned long long times) {
    SumpquinceJudgement answer = {{0, 0, 0}, 0, 0, 0, 0, 0, 0, 0, 0, 0, 0, 0, 0, {0}};
    Line last;
    copy(prepared(length, &last), times);
    for (size_t i = 0; i < times; i++) answer = sumpquince_session_totals(copies[i]);
    show(answer.refusal, "total", answer.total);
}

static SumpquinceJudgement fed(size_t length, size_t piece) {
    SumpquinceLink link;
    sumpquince_link_open(&link);
    for (size_t at = 0; at < length; at += piece) {
        size_t left = length - at;
        sumpquince_link_feed(&link, log_bytes + at, left < piece ? left : piece, verdicts, sizeof verdicts, worked, sizeof worked);
    }
    return sumpquince_link_close(&link, verdicts, sizeof verdicts, worked, sizeof worked);
}

static void drive_feed(size_t length, size_t piece, unsigned long long times) {
    SumpquinceJudgement answer = {{0, 0, 0}, 0, 0, 0, 0, 0, 0, 0, 0, 0, 0, 0, 0, {0}};
    for (; times > 0; times--) answer = fed(length, piece);
    show(answer.refusal, "total", answer.total);
    show(answer.refusal, "credited", answer.credited);
    show(answer.refusal, "duplicates", answer.duplicates);
    show(answer.refusal, "exchanges", answer.exchanges);
    show(answer.refusal, "verdicts", sum_of(verdicts, sizeof verdicts));
    show(answer.refusal, "worked", sum_of(worked, sizeof worked));
}

static void drive_feed_1(size_t length, unsigned long long times) { drive_feed(length, 1, times); }
static void drive_feed_64(size_t length, unsigned long long times) { drive_feed(length, 64, times); }
static void drive_feed_4096(size_t length, unsigned long long times) { drive_feed(length, 4096, times); }

int main(int count, char **words) {
    static const struct {
        const char *name;
        void (*drive)(size_t, unsigned long long);
    } functions[] = {{"read", drive_read},     {"view", drive_view},       {"judge", drive_judge},        {"write", drive_write},
                     {"mend", drive_mend},     {"take", drive_take},       {"give-back", drive_give_back}, {"totals", drive_totals},
                     {"feed-1", drive_feed_1}, {"feed-64", drive_feed_64}, {"feed-4096", drive_feed_4096}, {"strike-none", drive_strike},
                     {"strike-one", drive_strike_one}, {"strike-half", drive_strike_half}};
    if (count == 4) {
        for (size_t i = 0; i < sizeof functions / sizeof functions[0]; i++) {
            if (strcmp(words[1], functions[i].name) != 0) continue;
            functions[i].drive(load(words[2]), strtoull(words[3], NULL, 10));
            return 0;
        }
    }
    fputs("usage: drive read|view|judge|write|mend|strike-none|strike-one|strike-half|take|give-back|totals|feed-1|feed-64|feed-4096 LOG TIMES\n",
          stderr);
    return 2;
}
