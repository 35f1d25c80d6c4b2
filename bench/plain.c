/* The functions of sumpquince.h in plain C, written from the rules of the contest paper alone: the yardstick for the speed of the proved library,
 * and a second opinion on its answers. It defines the same symbols, so a program links either the one or the other. */
#include "sumpquince.h"

#include <stdbool.h>
#include <string.h>

enum {
    LONGEST_LOG = 65535,
    LONGEST_LINE = 75,
    MOST_RECORDS = 999,
    KEYWORDS = 36,
    KEYWORD_LENGTH = 5, /* of every one of them */
    FIELDS = 15,
    SQUARE_LENGTH = 4,
    HIGHEST_BONUS = 9999,
    HIGHEST_MULTIPLIER = 99,
    MOST_POINTS = 999999 /* of one record */
};

/* Places of keywords and of fields, counted from 0. */
enum { CQSOS = 26, CQSOP, CWWLS, CWWLB, CEXCS, CEXCB, CDXCS, CDXCB, CTOSC };
enum { DATE, TIME, CALL, MODE, SENT_REPORT, SENT_NUMBER, GOT_REPORT, GOT_NUMBER, EXCHANGE, LOCATOR, POINTS, NEW_EXCHANGE, NEW_SQUARE, NEW_COUNTRY,
       DUPLICATE };

/* Reading, mending, the session and the link share the rules of a line. Each has them in its own code, as it would if it were alone. */
#define INLINE inline __attribute__((always_inline))
#define NOINLINE __attribute__((noinline))

/* A part of a log. */
typedef struct {
    const uint8_t *at;
    size_t length;
} Text;

/* What judging and writing need of a record, with positions in the log, which all fit 16 bits. */
typedef struct {
    uint32_t points;
    uint16_t call, exchange, locator;
    uint16_t tail; /* where the points begin: all that writing back changes lies from here to the line's end */
    uint16_t end;  /* where the line's CR stands */
    uint8_t call_length, exchange_length, locator_length;
    bool error, new_country, claimed_duplicate;
} Record;

typedef struct {
    uint16_t argument[KEYWORDS];
    uint16_t argument_length[KEYWORDS];
    bool respelt[KEYWORDS]; /* the keyword stands in another spelling than the listed one */
    size_t count;
    Record records[MOST_RECORDS];
} Log;

/* How far reading has come. */
typedef struct {
    const uint8_t *log;
    size_t length, at;
    uint32_t line;
} Reader;

static const SumpquinceRefusal ACCEPTED = {0, 0, 0};
static const char IDENTIFIER[] = "[REG1TEST;1]";
static const char REMARKS_MARK[] = "[Remarks]";
static const char COUNT_START[] = "[QSORecords;";
enum { COUNT_START_LENGTH = sizeof COUNT_START - 1 };

static SumpquinceRefusal refuse(uint32_t number, uint32_t line, uint32_t field) {
    SumpquinceRefusal refusal = {number, line, field};
    return refusal;
}

/* ---- Values ---- */

static bool is_digit(uint8_t c) { return c >= '0' && c <= '9'; }
static bool is_capital(uint8_t c) { return c >= 'A' && c <= 'Z'; }
static bool is_between(uint8_t c, uint8_t first, uint8_t last) { return c >= first && c <= last; }

static bool is_text(Text text, const char *wanted, size_t length) { return text.length == length && memcmp(text.at, wanted, length) == 0; }

static bool is_error_call(Text text) { return is_text(text, "ERROR", 5); }

static bool all_digits(Text text) {
    for (size_t i = 0; i < text.length; i++) {
        if (!is_digit(text.at[i])) return false;
    }
    return true;
}

/* A number of 1 to `most` digits, no leading zero but `0` itself. No number here has more than 15 digits, so 64 bits hold each. */
static bool is_number(Text text, size_t most, uint64_t *value) {
    if (text.length < 1 || text.length > most) return false;
    if (text.at[0] == '0' && text.length > 1) return false;
    uint64_t sum = 0;
    for (size_t i = 0; i < text.length; i++) {
        if (!is_digit(text.at[i])) return false;
        sum = sum * 10 + (uint64_t)(text.at[i] - '0');
    }
    *value = sum;
    return true;
}

static bool is_multiplier(Text text) {
    uint64_t value;
    return is_number(text, 2, &value) && value >= 1;
}

static unsigned two_digits(const uint8_t *at) { return (unsigned)(at[0] - '0') * 10 + (unsigned)(at[1] - '0'); }

/* Every fourth year of 1990 to 2089 is a leap year: 2000 is one, and no other century falls among them. */
static bool is_day(unsigned year, unsigned month, unsigned day) {
    static const uint8_t days[12] = {31, 28, 31, 30, 31, 30, 31, 31, 30, 31, 30, 31};
    if (month < 1 || month > 12 || day < 1) return false;
    return day <= days[month - 1] || (month == 2 && day == 29 && year % 4 == 0);
}

/* YYMMDD; the century is known from the year, and both centuries divide by four. */
static bool is_short_date(Text text) {
    if (text.length != 6 || !all_digits(text)) return false;
    return is_day(two_digits(text.at), two_digits(text.at + 2), two_digits(text.at + 4));
}

static bool is_long_date(const uint8_t *at) {
    Text text = {at, 8};
    if (!all_digits(text)) return false;
    unsigned year = two_digits(at) * 100 + two_digits(at + 2);
    return year >= 1990 && year <= 2089 && is_day(year, two_digits(at + 4), two_digits(at + 6));
}

/* Dates of equal length are in the order of their characters. */
static bool is_two_dates(Text text) {
    if (text.length != 17 || text.at[8] != ';') return false;
    return is_long_date(text.at) && is_long_date(text.at + 9) && memcmp(text.at, text.at + 9, 8) <= 0;
}

static bool is_time(Text text) { return text.length == 4 && all_digits(text) && two_digits(text.at) <= 23 && two_digits(text.at + 2) <= 59; }

static bool is_call(Text text) {
    if (text.length < 3 || text.length > 14) return false;
    for (size_t i = 0; i < text.length; i++) {
        uint8_t c = text.at[i];
        if (!is_capital(c) && !is_digit(c) && c != '/') return false;
    }
    return true;
}

static bool is_locator(Text text) {
    if (text.length != 4 && text.length != 6) return false;
    const uint8_t *at = text.at;
    if (!is_between(at[0], 'A', 'R') || !is_between(at[1], 'A', 'R') || !is_digit(at[2]) || !is_digit(at[3])) return false;
    return text.length == 4 || (is_between(at[4], 'A', 'X') && is_between(at[5], 'A', 'X'));
}

static bool is_exchange(Text text) {
    if (text.length > 6) return false;
    for (size_t i = 0; i < text.length; i++) {
        if (text.at[i] == ';' || is_between(text.at[i], 'a', 'z')) return false;
    }
    return true;
}

static bool is_report(Text text) {
    if (text.length == 0) return true;
    if (text.length != 2 && text.length != 3) return false;
    if (!is_digit(text.at[0]) || !is_digit(text.at[1])) return false;
    return text.length == 2 || is_digit(text.at[2]) || is_capital(text.at[2]);
}

static bool is_contact_number(Text text) { return text.length == 0 || ((text.length == 3 || text.length == 4) && all_digits(text)); }

static bool is_mark(Text text, uint8_t mark) { return text.length == 0 || (text.length == 1 && text.at[0] == mark); }

/* ---- Arguments of the forced keywords ---- */

/* Takes what stands before the first `;` of the rest, and the `;` if there is one; without one it takes all. */
static Text next_part(Text *rest, bool *more) {
    size_t i = 0;
    while (i < rest->length && rest->at[i] != ';') i++;
    Text part = {rest->at, i};
    *more = i < rest->length;
    size_t taken = *more ? i + 1 : i;
    rest->at += taken;
    rest->length -= taken;
    return part;
}

static bool cut(Text text, Text *parts, size_t count) {
    bool more = true;
    for (size_t i = 0; i < count; i++) {
        if (!more) return false;
        parts[i] = next_part(&text, &more);
    }
    return !more;
}

static bool is_calls(Text text) {
    if (text.length == 0) return true;
    bool more = true;
    while (more) {
        if (!is_call(next_part(&text, &more))) return false;
    }
    return true;
}

static bool is_band(Text text) {
    static const char *const bands[15] = {"50 MHz",  "70 MHz", "144 MHz", "432 MHz", "1,3 GHz", "2,3 GHz", "3,4 GHz", "5,7 GHz",
                                          "10 GHz",  "24 GHz", "47 GHz",  "76 GHz",  "120 GHz", "144 GHz", "248 GHz"};
    for (size_t i = 0; i < 15; i++) {
        if (is_text(text, bands[i], strlen(bands[i]))) return true;
    }
    return false;
}

static bool is_up_to(Text text, size_t digits) {
    uint64_t value;
    return is_number(text, digits, &value);
}

static bool is_count_and_multiplier(Text text) {
    Text parts[2];
    return cut(text, parts, 2) && is_up_to(parts[0], 4) && is_multiplier(parts[1]);
}

static bool is_count_bonus_multiplier(Text text) {
    Text parts[3];
    return cut(text, parts, 3) && is_up_to(parts[0], 4) && is_up_to(parts[1], 4) && is_multiplier(parts[2]);
}

static bool is_best_contact(Text text) {
    Text parts[3];
    if (!cut(text, parts, 3)) return false;
    if (parts[0].length != 0 && !is_call(parts[0])) return false;
    if (parts[1].length != 0 && !is_locator(parts[1])) return false;
    return is_up_to(parts[2], 6);
}

static bool is_call_or_empty(Text text) { return text.length == 0 || is_call(text); }
static bool is_up_to_7(Text text) { return is_up_to(text, 7); }
static bool is_up_to_9(Text text) { return is_up_to(text, 9); }
static bool is_up_to_15(Text text) { return is_up_to(text, 15); }
static bool is_free(Text text) {
    (void)text;
    return true;
}

static const struct {
    char name[KEYWORD_LENGTH + 1];
    bool (*holds)(Text);
} KEYWORD[KEYWORDS] = {
    {"TName", is_free},
    {"TDate", is_two_dates},
    {"PCall", is_call},
    {"PWWLo", is_locator},
    {"PExch", is_exchange},
    {"PAdr1", is_free},
    {"PAdr2", is_free},
    {"PSect", is_free},
    {"PBand", is_band},
    {"PClub", is_call_or_empty},
    {"RName", is_free},
    {"RCall", is_call_or_empty},
    {"RAdr1", is_free},
    {"RAdr2", is_free},
    {"RPoCo", is_free},
    {"RCity", is_free},
    {"RCoun", is_free},
    {"RPhon", is_free},
    {"RHBBS", is_free},
    {"MOpe1", is_calls},
    {"MOpe2", is_calls},
    {"STXEq", is_free},
    {"SPowe", is_free},
    {"SRXEq", is_free},
    {"SAnte", is_free},
    {"SAntH", is_free},
    {"CQSOs", is_count_and_multiplier},
    {"CQSOP", is_up_to_9},
    {"CWWLs", is_count_bonus_multiplier},
    {"CWWLB", is_up_to_7},
    {"CExcs", is_count_bonus_multiplier},
    {"CExcB", is_up_to_7},
    {"CDXCs", is_count_bonus_multiplier},
    {"CDXCB", is_up_to_7},
    {"CToSc", is_up_to_15},
    {"CODXC", is_best_contact},
};

/* ---- Reading ---- */

static SumpquinceRefusal refuse_line(const Reader *reader, uint32_t number) { return refuse(number, reader->line, 0); }

/* Cuts out the line due, and leaves the reader after its CR LF. The line's number stays until the next is cut. */
static bool next_line(Reader *reader, Text *line) {
    const uint8_t *start = reader->log + reader->at;
    size_t left = reader->length - reader->at;
    size_t most = left < LONGEST_LINE ? left : LONGEST_LINE;
    size_t i = 0;
    reader->line++;
    while (i < most && is_between(start[i], 32, 127)) i++;
    if (left - i < 2 || start[i] != '\r' || start[i + 1] != '\n') return false;
    line->at = start;
    line->length = i;
    reader->at += i + 2;
    return true;
}

static SumpquinceRefusal read_exact_line(Reader *reader, const char *wanted) {
    Text line;
    if (!next_line(reader, &line)) return refuse_line(reader, 2);
    if (!is_text(line, wanted, strlen(wanted))) return refuse_line(reader, 3);
    return ACCEPTED;
}

/* Small letters are their capitals, and every other byte is itself. */
static uint8_t as_capital(uint8_t c) { return is_between(c, 'a', 'z') ? (uint8_t)(c - 'a' + 'A') : c; }

static bool same_but_for_case(const uint8_t *at, const char *name) {
    for (size_t i = 0; i < KEYWORD_LENGTH; i++) {
        if (as_capital(at[i]) != as_capital((uint8_t)name[i])) return false;
    }
    return true;
}

/* What is wrong with a keyword's line, 0 if nothing is; and its argument, and whether the keyword is respelt. */
static INLINE uint32_t keyword_fault(Text line, size_t keyword, Text *argument, bool *respelt) {
    if (line.length < KEYWORD_LENGTH + 1 || line.at[KEYWORD_LENGTH] != '=') return 3;
    const char *name = KEYWORD[keyword].name;
    *respelt = memcmp(line.at, name, KEYWORD_LENGTH) != 0;
    if (*respelt && !same_but_for_case(line.at, name)) return 3;
    argument->at = line.at + KEYWORD_LENGTH + 1;
    argument->length = line.length - KEYWORD_LENGTH - 1;
    return KEYWORD[keyword].holds(*argument) ? 0 : 4;
}

static SumpquinceRefusal read_keyword(Reader *reader, size_t keyword, Log *out) {
    Text line, argument;
    if (!next_line(reader, &line)) return refuse_line(reader, 2);
    uint32_t fault = keyword_fault(line, keyword, &argument, &out->respelt[keyword]);
    if (fault != 0) return refuse_line(reader, fault);
    out->argument[keyword] = (uint16_t)(argument.at - reader->log);
    out->argument_length[keyword] = (uint16_t)argument.length;
    return ACCEPTED;
}

static bool is_count_line(Text line) { return line.length >= COUNT_START_LENGTH && memcmp(line.at, COUNT_START, COUNT_START_LENGTH) == 0; }

/* Whether the number of a count line and the `]` behind it follow their rule, and what the number is. */
static INLINE bool holds_count(Text line, uint64_t *count) {
    Text rest = {line.at + COUNT_START_LENGTH, line.length - COUNT_START_LENGTH};
    if (rest.length == 0 || rest.at[rest.length - 1] != ']') return false;
    rest.length--;
    return is_number(rest, 3, count);
}

/* Passes over the remarks, and reads the number of the count line that ends them. */
static SumpquinceRefusal read_count(Reader *reader, size_t *count) {
    Text line;
    do {
        if (!next_line(reader, &line)) return refuse_line(reader, 2);
    } while (!is_count_line(line));
    uint64_t number;
    if (!holds_count(line, &number)) return refuse_line(reader, 4);
    *count = (size_t)number;
    return ACCEPTED;
}

/* Cuts a record at its semicolons; says whether there are as many as there should be. */
static bool cut_record(Text line, Text *fields) {
    size_t start = 0, found = 0;
    for (size_t i = 0; i < line.length; i++) {
        if (line.at[i] != ';') continue;
        if (found == FIELDS - 1) return false;
        fields[found].at = line.at + start;
        fields[found].length = i - start;
        found++;
        start = i + 1;
    }
    fields[found].at = line.at + start;
    fields[found].length = line.length - start;
    return found == FIELDS - 1;
}

/* The number of the first field that breaks its rule, from 1, or 0 if none does. */
static INLINE uint32_t first_bad_field(const Text *fields, bool error, uint64_t *points) {
    if (!is_short_date(fields[DATE]) && !(error && fields[DATE].length == 0)) return DATE + 1;
    if (!is_time(fields[TIME])) return TIME + 1;
    if (!is_call(fields[CALL])) return CALL + 1;
    if (fields[MODE].length > 1 || !all_digits(fields[MODE])) return MODE + 1;
    if (!is_report(fields[SENT_REPORT])) return SENT_REPORT + 1;
    if (!is_contact_number(fields[SENT_NUMBER])) return SENT_NUMBER + 1;
    if (!is_report(fields[GOT_REPORT])) return GOT_REPORT + 1;
    if (!is_contact_number(fields[GOT_NUMBER])) return GOT_NUMBER + 1;
    if (!is_exchange(fields[EXCHANGE])) return EXCHANGE + 1;
    if (fields[LOCATOR].length != 0 && !is_locator(fields[LOCATOR])) return LOCATOR + 1;
    if (!is_number(fields[POINTS], 6, points) || (error && *points != 0)) return POINTS + 1;
    if (!is_mark(fields[NEW_EXCHANGE], 'N')) return NEW_EXCHANGE + 1;
    if (!is_mark(fields[NEW_SQUARE], 'N')) return NEW_SQUARE + 1;
    if (!is_mark(fields[NEW_COUNTRY], 'N')) return NEW_COUNTRY + 1;
    if (!is_mark(fields[DUPLICATE], 'D')) return DUPLICATE + 1;
    return 0;
}

static SumpquinceRefusal read_record(Reader *reader, Record *record) {
    if (reader->at == reader->length) return refuse(6, reader->line + 1, 0);
    Text line, fields[FIELDS];
    if (!next_line(reader, &line)) return refuse_line(reader, 2);
    if (!cut_record(line, fields)) return refuse(5, reader->line, 0);
    uint64_t points = 0;
    record->error = is_error_call(fields[CALL]);
    uint32_t bad = first_bad_field(fields, record->error, &points);
    if (bad != 0) return refuse(5, reader->line, bad);
    record->points = (uint32_t)points;
    record->call = (uint16_t)(fields[CALL].at - reader->log);
    record->call_length = (uint8_t)fields[CALL].length;
    record->exchange = (uint16_t)(fields[EXCHANGE].at - reader->log);
    record->exchange_length = (uint8_t)fields[EXCHANGE].length;
    record->locator = (uint16_t)(fields[LOCATOR].at - reader->log);
    record->locator_length = (uint8_t)fields[LOCATOR].length;
    record->tail = (uint16_t)(fields[POINTS].at - reader->log);
    record->end = (uint16_t)(line.at + line.length - reader->log);
    record->new_country = fields[NEW_COUNTRY].length != 0;
    record->claimed_duplicate = fields[DUPLICATE].length != 0;
    return ACCEPTED;
}

static SumpquinceRefusal read_log(const uint8_t *bytes, size_t length, Log *out) {
    if (length > LONGEST_LOG) return refuse(1, 0, 0);
    Reader reader = {bytes, length, 0, 0};
    SumpquinceRefusal refusal = read_exact_line(&reader, IDENTIFIER);
    for (size_t k = 0; k < KEYWORDS && refusal.number == 0; k++) refusal = read_keyword(&reader, k, out);
    if (refusal.number == 0) refusal = read_exact_line(&reader, REMARKS_MARK);
    if (refusal.number == 0) refusal = read_count(&reader, &out->count);
    if (refusal.number != 0) return refusal;
    for (size_t i = 0; i < out->count; i++) {
        refusal = read_record(&reader, &out->records[i]);
        if (refusal.number != 0) return refusal;
    }
    if (reader.at != length) return refuse(6, reader.line + 1, 0);
    return ACCEPTED;
}

/* ---- Judging ---- */

/* Different texts of a log, by where they lie. */
typedef struct {
    size_t count;
    uint16_t at[MOST_RECORDS];
    uint8_t length[MOST_RECORDS];
} Seen;

/* A loop of our own: calls and exchanges are so short that a call of memcmp costs more than it saves. */
static bool same(const uint8_t *a, const uint8_t *b, size_t length) {
    for (size_t i = 0; i < length; i++) {
        if (a[i] != b[i]) return false;
    }
    return true;
}

static bool has(const Seen *seen, const uint8_t *log, size_t at, size_t length) {
    for (size_t i = 0; i < seen->count; i++) {
        if (seen->length[i] == length && same(log + seen->at[i], log + at, length)) return true;
    }
    return false;
}

static void add(Seen *seen, size_t at, size_t length) {
    seen->at[seen->count] = (uint16_t)at;
    seen->length[seen->count] = (uint8_t)length;
    seen->count++;
}

/* Adds a text unless it is empty or there already; says whether it is new. */
static bool add_new(Seen *seen, const uint8_t *log, size_t at, size_t length) {
    if (length == 0 || has(seen, log, at, length)) return false;
    add(seen, at, length);
    return true;
}

static uint8_t judge_credited(const uint8_t *bytes, const Record *record, Seen *squares, Seen *exchanges) {
    uint8_t verdict = SUMPQUINCE_CREDITED;
    size_t square_length = record->locator_length == 0 ? 0 : SQUARE_LENGTH;
    if (add_new(exchanges, bytes, record->exchange, record->exchange_length)) verdict |= SUMPQUINCE_NEW_EXCHANGE;
    if (add_new(squares, bytes, record->locator, square_length)) verdict |= SUMPQUINCE_NEW_SQUARE;
    if (record->new_country) verdict |= SUMPQUINCE_NEW_COUNTRY;
    return verdict;
}

/* The number of an argument's part, counted from 0; the argument is known to follow its rule. */
static uint64_t declared(const uint8_t *bytes, const Log *log, size_t keyword, size_t part) {
    Text parts[3];
    Text text = {bytes + log->argument[keyword], log->argument_length[keyword]};
    uint64_t value = 0;
    if (cut(text, parts, 3)) is_number(parts[part], 4, &value);
    return value;
}

static void sum_up(const uint8_t *bytes, const Log *log, SumpquinceJudgement *sums) {
    sums->square_bonus = sums->squares * declared(bytes, log, CWWLS, 1);
    sums->exchange_bonus = sums->exchanges * declared(bytes, log, CEXCS, 1);
    sums->country_bonus = sums->countries * declared(bytes, log, CDXCS, 1);
    sums->total = (sums->points + sums->square_bonus + sums->exchange_bonus + sums->country_bonus) * declared(bytes, log, CWWLS, 2) *
                  declared(bytes, log, CEXCS, 2) * declared(bytes, log, CDXCS, 2);
}

/* 0 points and no D are a broken try, which repeats nothing, so that its call need not be looked for. */
static bool may_repeat(const Record *record) { return record->points != 0 || record->claimed_duplicate; }

/* A record's place among the modes. Its mode stands behind the call and a semicolon: one digit, or nothing in front of the next semicolon. */
static size_t mode_of(const uint8_t *bytes, const Record *record) {
    uint8_t mode = bytes[record->call + record->call_length + 1];
    return mode == ';' ? SUMPQUINCE_BLANK_MODE : (size_t)(mode - '0');
}

static void judge_log(const uint8_t *bytes, const Log *log, uint8_t *verdicts, SumpquinceJudgement *sums) {
    Seen calls, squares, exchanges;
    calls.count = squares.count = exchanges.count = 0;
    for (size_t i = 0; i < log->count; i++) {
        const Record *record = &log->records[i];
        if (record->error) {
            verdicts[i] = SUMPQUINCE_ERROR;
            sums->errors++;
        } else if (may_repeat(record) && has(&calls, bytes, record->call, record->call_length)) {
            verdicts[i] = SUMPQUINCE_DUPLICATE;
            sums->duplicates++;
        } else if (record->points == 0) {
            verdicts[i] = SUMPQUINCE_VOID;
            sums->voids++;
        } else {
            add(&calls, record->call, record->call_length);
            verdicts[i] = judge_credited(bytes, record, &squares, &exchanges);
            sums->points += record->points;
            sums->countries += record->new_country;
            sums->modes[mode_of(bytes, record)]++;
        }
    }
    sums->credited = calls.count;
    sums->squares = squares.count;
    sums->exchanges = exchanges.count;
    sum_up(bytes, log, sums);
}

/* ---- Writing back ---- */

/* A claim that is written anew: the number at the start of a keyword's argument. */
typedef struct {
    size_t keyword;
    uint64_t value;
} Claim;

enum { CLAIMS = 9 };

/* In the order in which they stand in a log. */
static void list_claims(const SumpquinceJudgement *sums, Claim *claims) {
    const Claim list[CLAIMS] = {{CQSOS, sums->credited},  {CQSOP, sums->points},          {CWWLS, sums->squares},
                                {CWWLB, sums->square_bonus}, {CEXCS, sums->exchanges},    {CEXCB, sums->exchange_bonus},
                                {CDXCS, sums->countries}, {CDXCB, sums->country_bonus},   {CTOSC, sums->total}};
    memcpy(claims, list, sizeof list);
}

static size_t digits_of(uint64_t value) {
    size_t digits = 1;
    for (; value >= 10; value /= 10) digits++;
    return digits;
}

/* How many digits the argument begins with. Its line's CR ends them at the latest. */
static size_t claimed_digits(const uint8_t *argument) {
    size_t i = 0;
    while (is_digit(argument[i])) i++;
    return i;
}

static uint8_t class_of(uint8_t verdict) { return verdict & SUMPQUINCE_CLASS; }

/* How many digits of points stand at the start of the tail that is written for a record. */
static size_t points_length(const uint8_t *bytes, const Record *record, uint8_t verdict) {
    return class_of(verdict) == SUMPQUINCE_DUPLICATE ? 1 : claimed_digits(bytes + record->tail);
}

static size_t marks_in(uint8_t verdict) {
    return (size_t)((verdict & SUMPQUINCE_NEW_EXCHANGE) != 0) + (size_t)((verdict & SUMPQUINCE_NEW_SQUARE) != 0) +
           (size_t)((verdict & SUMPQUINCE_NEW_COUNTRY) != 0) + (size_t)(class_of(verdict) == SUMPQUINCE_DUPLICATE);
}

static size_t measure(const uint8_t *bytes, size_t length, const Log *log, const uint8_t *verdicts, const Claim *claims) {
    size_t result = length;
    for (size_t i = 0; i < CLAIMS; i++) {
        result -= claimed_digits(bytes + log->argument[claims[i].keyword]);
        result += digits_of(claims[i].value);
    }
    for (size_t i = 0; i < log->count; i++) {
        const Record *record = &log->records[i];
        result -= (size_t)(record->end - record->tail);
        result += points_length(bytes, record, verdicts[i]) + (FIELDS - 1 - POINTS) + marks_in(verdicts[i]);
    }
    return result;
}

static uint8_t *put_bytes(uint8_t *to, const uint8_t *from, size_t length) {
    memcpy(to, from, length);
    return to + length;
}

static uint8_t *put_number(uint8_t *to, uint64_t value) {
    size_t digits = digits_of(value);
    for (size_t i = digits; i > 0; i--) {
        to[i - 1] = (uint8_t)('0' + value % 10);
        value /= 10;
    }
    return to + digits;
}

static uint8_t *put_mark(uint8_t *to, bool marked, uint8_t mark) {
    *to++ = ';';
    if (marked) *to++ = mark;
    return to;
}

/* From the points to the last field. */
static uint8_t *put_tail(uint8_t *to, const uint8_t *bytes, const Record *record, uint8_t verdict) {
    bool duplicate = class_of(verdict) == SUMPQUINCE_DUPLICATE;
    if (duplicate) {
        *to++ = '0';
    } else {
        to = put_bytes(to, bytes + record->tail, claimed_digits(bytes + record->tail));
    }
    to = put_mark(to, (verdict & SUMPQUINCE_NEW_EXCHANGE) != 0, 'N');
    to = put_mark(to, (verdict & SUMPQUINCE_NEW_SQUARE) != 0, 'N');
    to = put_mark(to, (verdict & SUMPQUINCE_NEW_COUNTRY) != 0, 'N');
    return put_mark(to, duplicate, 'D');
}

static void write_log(const uint8_t *bytes, size_t length, const Log *log, const uint8_t *verdicts, const Claim *claims, uint8_t *to) {
    size_t copied = 0; /* up to here the log has been dealt with */
    size_t claim = 0;  /* the first claim that has not been written */
    for (size_t k = 0; k < KEYWORDS; k++) {
        size_t start = log->argument[k];
        bool claimed = claim < CLAIMS && claims[claim].keyword == k;
        if (!log->respelt[k] && !claimed) continue;
        to = put_bytes(to, bytes + copied, start - copied);
        copied = start;
        if (log->respelt[k]) memcpy(to - KEYWORD_LENGTH - 1, KEYWORD[k].name, KEYWORD_LENGTH); /* the `=` stands behind it */
        if (claimed) {
            to = put_number(to, claims[claim].value);
            copied += claimed_digits(bytes + start);
            claim++;
        }
    }
    for (size_t i = 0; i < log->count; i++) {
        const Record *record = &log->records[i];
        to = put_bytes(to, bytes + copied, record->tail - copied);
        to = put_tail(to, bytes, record, verdicts[i]);
        copied = record->end;
    }
    put_bytes(to, bytes + copied, length - copied);
}

/* ---- Striking ---- */

/* What is left once the records are struck: how many of them, and how long a log. */
typedef struct {
    size_t records, length;
} Rest;

/* Where the line with this position begins, behind the LF of the one before. */
static size_t line_start(const uint8_t *bytes, size_t at) {
    while (bytes[at - 1] != '\n') at--;
    return at;
}

/* Where a record's line begins, which is behind the CR LF of the one before. The first one's call stands near its start. */
static size_t record_start(const uint8_t *bytes, const Log *log, size_t i) {
    return i == 0 ? line_start(bytes, log->records[0].call) : log->records[i - 1].end + 2u;
}

static size_t record_end(const Log *log, size_t i) { return log->records[i].end + 2u; }

static Rest measure_rest(const uint8_t *bytes, size_t length, const Log *log, const uint8_t *struck) {
    Rest rest = {log->count, length};
    for (size_t i = 0; i < log->count; i++) {
        if (struck[i] == 0) continue;
        rest.records--;
        rest.length -= record_end(log, i) - record_start(bytes, log, i);
    }
    rest.length -= digits_of(log->count) - digits_of(rest.records);
    return rest;
}

/* Copies the log up to the number of its count line, writes that number, and copies the rest in as few pieces as it lies in. */
static void write_rest(const uint8_t *bytes, size_t length, const Log *log, const uint8_t *struck, size_t records, uint8_t *to) {
    size_t copied = 0; /* up to here the log has been dealt with */
    if (log->count != 0) {
        size_t behind = record_start(bytes, log, 0) - 3; /* in front of the count line's `]`, CR and LF */
        copied = behind - digits_of(log->count);
        to = put_number(put_bytes(to, bytes, copied), records);
        copied = behind;
    }
    for (size_t i = 0; i < log->count; i++) {
        if (struck[i] == 0) continue;
        to = put_bytes(to, bytes + copied, record_start(bytes, log, i) - copied);
        copied = record_end(log, i);
    }
    put_bytes(to, bytes + copied, length - copied);
}

/* ---- Mending ---- */

/* Where a line lies: in front of the remarks, their mark included; among them, the count line included; or behind that. */
typedef enum { HEAD, REMARKS, RECORDS } Region;

/* How far a walk over the lines of a chewed log has come. */
typedef struct {
    const uint8_t *log;
    size_t length, at;
    uint32_t line;
    Region region; /* of the line due next */
} Walk;

/* A line of a chewed log. Its text is as it will be, but for the number on the count line: without an end and, in a record, without spaces there. */
typedef struct {
    Text text;
    Region region;
    bool counts;   /* it is the count line */
    bool readable; /* its text has at most 75 characters, of code 32 to 127 */
    bool trimmed;  /* spaces are dropped */
    uint8_t end;   /* what is done to its end, 0 if nothing is */
} Line;

/* What one walk over a chewed log tells. */
typedef struct {
    SumpquinceRefusal refusal;
    size_t length, changes; /* of the mended log, and of the list */
    size_t follow;          /* how many lines are behind the count line */
    uint32_t count_line;    /* the number of that line */
    Text digits;            /* its count as it comes; none if it has not digits alone */
    bool count_set;         /* that count is wrong */
} Survey;

static void place(Walk *walk, Line *line) {
    line->region = walk->region;
    line->counts = line->region == REMARKS && is_count_line(line->text);
    if (line->counts) walk->region = RECORDS;
    if (line->region == HEAD && is_text(line->text, REMARKS_MARK, sizeof REMARKS_MARK - 1)) walk->region = REMARKS;
}

static void trim(Line *line) {
    size_t length = line->text.length;
    while (length > 0 && line->text.at[length - 1] == ' ') length--;
    line->trimmed = length < line->text.length;
    line->text.length = length;
}

/* Cuts out the line due, if there is one. */
static bool next_chewed(Walk *walk, Line *line) {
    const uint8_t *start = walk->log + walk->at;
    size_t left = walk->length - walk->at;
    if (left == 0) return false;
    size_t i = 0;
    while (i < left && is_between(start[i], 32, 127)) i++;
    size_t characters = i; /* an end is due behind them */
    while (i < left && start[i] != '\n') i++;
    bool has_feed = i < left, has_return = i > 0 && start[i - 1] == '\r';
    line->end = !has_feed ? SUMPQUINCE_LAST_LINE_ENDED : has_return ? 0 : SUMPQUINCE_RETURN_PUT;
    line->text.at = start;
    line->text.length = i - has_return;
    line->readable = characters == line->text.length;
    line->trimmed = false;
    place(walk, line);
    if (line->region == RECORDS) trim(line);
    line->readable &= line->text.length <= LONGEST_LINE;
    walk->at += i + has_feed;
    walk->line++;
    return true;
}

/* The digits of a count line, none if anything else stands between its start and the `]` at its end. */
static Text digits_in(Text line) {
    Text digits = {line.at + COUNT_START_LENGTH, 0};
    if (line.length < COUNT_START_LENGTH + 1 || line.at[line.length - 1] != ']') return digits;
    digits.length = line.length - COUNT_START_LENGTH - 1;
    if (!all_digits(digits)) digits.length = 0;
    return digits;
}

/* What is wrong with the line of this number, 0 if nothing is, where the identifier, a keyword or the remarks' mark is due. */
static INLINE uint32_t head_fault(Text text, uint32_t number) {
    Text argument;
    bool respelt;
    if (number == 1) return is_text(text, IDENTIFIER, sizeof IDENTIFIER - 1) ? 0 : 3;
    if (number == KEYWORDS + 2) return is_text(text, REMARKS_MARK, sizeof REMARKS_MARK - 1) ? 0 : 3;
    return keyword_fault(text, number - 2, &argument, &respelt);
}

static SumpquinceRefusal record_fault(Text text, uint32_t number) {
    Text fields[FIELDS];
    uint64_t points;
    if (!cut_record(text, fields)) return refuse(5, number, 0);
    uint32_t bad = first_bad_field(fields, is_error_call(fields[CALL]), &points);
    return bad == 0 ? ACCEPTED : refuse(5, number, bad);
}

/* Why the mended log is refused at this line, if it is, where the lines before it are fine. A count that is mended is left out: it may be too large,
 * but that is known only behind the last line. */
static SumpquinceRefusal line_fault(const Line *line, uint32_t number, Text digits) {
    if (line->counts && digits.length > 0) return ACCEPTED;
    if (!line->readable) return refuse(2, number, 0);
    if (line->region == RECORDS) return record_fault(line->text, number);
    uint32_t fault = line->region == HEAD ? head_fault(line->text, number) : line->counts ? 4 : 0;
    return fault == 0 ? ACCEPTED : refuse(fault, number, 0);
}

/* Adds what is done to the count, and refuses a count of too many records, which comes before what is wrong in them. */
static void survey_count(Survey *survey) {
    uint64_t count;
    if (survey->digits.length == 0) return;
    survey->count_set = !is_number(survey->digits, 5, &count) || count != survey->follow;
    survey->changes += survey->count_set;
    survey->length = survey->length - survey->digits.length + digits_of(survey->follow);
    bool first = survey->refusal.number == 0 || survey->refusal.line > survey->count_line;
    if (survey->follow > MOST_RECORDS && first) survey->refusal = refuse(4, survey->count_line, 0);
}

/* Reads and measures the mended log, line by line, where the chewed one lies. */
static Survey survey_log(const uint8_t *log, size_t length) {
    Survey survey = {ACCEPTED, 0, 0, 0, 0, {log, 0}, false};
    Walk walk = {log, length, 0, 0, HEAD};
    Line line;
    while (next_chewed(&walk, &line)) {
        survey.length += line.text.length + 2;
        survey.changes += (size_t)(line.end != 0) + line.trimmed;
        survey.follow += line.region == RECORDS;
        if (line.counts) {
            survey.count_line = walk.line;
            survey.digits = digits_in(line.text);
        }
        if (survey.refusal.number == 0) survey.refusal = line_fault(&line, walk.line, survey.digits);
    }
    if (survey.refusal.number == 0 && walk.region != RECORDS) survey.refusal = refuse(2, walk.line + 1, 0);
    survey_count(&survey);
    if (survey.length > LONGEST_LOG) survey.refusal = refuse(1, 0, 0);
    return survey;
}

/* The list of changes. */
typedef struct {
    uint8_t *kinds;
    uint32_t *lines;
    size_t count;
} List;

static void note(List *list, uint8_t kind, uint32_t line) {
    list->kinds[list->count] = kind;
    list->lines[list->count] = line;
    list->count++;
}

static uint8_t *put_count_line(uint8_t *to, size_t count) {
    to = put_bytes(to, (const uint8_t *)COUNT_START, COUNT_START_LENGTH);
    to = put_number(to, count);
    *to++ = ']';
    return to;
}

static void write_mended(const uint8_t *log, size_t length, const Survey *survey, uint8_t *to, List list) {
    Walk walk = {log, length, 0, 0, HEAD};
    Line line;
    while (next_chewed(&walk, &line)) {
        bool count_set = line.counts && survey->count_set;
        to = count_set ? put_count_line(to, survey->follow) : put_bytes(to, line.text.at, line.text.length);
        *to++ = '\r';
        *to++ = '\n';
        if (line.end != 0) note(&list, line.end, walk.line);
        if (line.trimmed) note(&list, SUMPQUINCE_SPACES_DROPPED, walk.line);
        if (count_set) note(&list, SUMPQUINCE_COUNT_SET, walk.line);
    }
}

/* ---- The session ---- */

/* What is kept of a credited record, as it lies in the lent slice. Of any other record it is zero, and no call is. */
typedef struct {
    uint8_t call[14], square[SQUARE_LENGTH], exchange[6], points[3], mode;
} Kept;
_Static_assert(sizeof(Kept) == SUMPQUINCE_KEPT_BYTES && _Alignof(Kept) == 1, "entries lie side by side, wherever the slice begins");

static bool is_bonus(uint64_t value) { return value <= HIGHEST_BONUS; }
static bool is_factor(uint64_t value) { return value >= 1 && value <= HIGHEST_MULTIPLIER; }

/* Whether a run of calls could have made the session. No sum runs over: each part is held to the bound of its sum first. */
static bool is_sound(const SumpquinceSession *session) {
    uint64_t credited = session->credited, sum = 0;
    if (!is_bonus(session->square_bonus) || !is_bonus(session->exchange_bonus) || !is_bonus(session->country_bonus)) return false;
    if (!is_factor(session->square_multiplier) || !is_factor(session->exchange_multiplier) || !is_factor(session->country_multiplier)) return false;
    if (credited > MOST_RECORDS || session->voids > MOST_RECORDS) return false;
    if (session->duplicates > MOST_RECORDS || session->errors > MOST_RECORDS) return false;
    if (credited + session->voids + session->duplicates + session->errors > MOST_RECORDS) return false;
    if (session->points < credited || session->points > credited * MOST_POINTS) return false;
    if (session->squares > credited || session->exchanges > credited || session->countries > credited) return false;
    if (session->duplicates > 0 && credited == 0) return false;
    for (size_t i = 0; i < SUMPQUINCE_MODES; i++) {
        if (session->modes[i] > credited) return false;
        sum += session->modes[i];
    }
    return sum == credited;
}

/* Of a sound session. */
static size_t records_in(const SumpquinceSession *session) {
    return (size_t)(session->credited + session->voids + session->duplicates + session->errors);
}

static bool all_allowed(Text text) {
    for (size_t i = 0; i < text.length; i++) {
        if (!is_between(text.at[i], 32, 127)) return false;
    }
    return true;
}

/* A line comes with no promise of what bytes it has. The exchange is the one field whose rule rests on that: all others name theirs. */
static INLINE uint32_t first_bad_field_of_line(const Text *fields, bool error, uint64_t *points) {
    uint32_t bad = first_bad_field(fields, error, points);
    if ((bad == 0 || bad > EXCHANGE + 1) && !all_allowed(fields[EXCHANGE])) return EXCHANGE + 1;
    return bad;
}

static void keep(Kept *entry, const Text *fields, uint64_t points) {
    memset(entry, 0, sizeof *entry);
    memcpy(entry->call, fields[CALL].at, fields[CALL].length);
    if (fields[LOCATOR].length != 0) memcpy(entry->square, fields[LOCATOR].at, SQUARE_LENGTH);
    memcpy(entry->exchange, fields[EXCHANGE].at, fields[EXCHANGE].length);
    entry->points[0] = (uint8_t)points;
    entry->points[1] = (uint8_t)(points >> 8);
    entry->points[2] = (uint8_t)(points >> 16);
    if (fields[MODE].length != 0) entry->mode = fields[MODE].at[0];
}

/* The first bytes of a part as one number. */
static uint64_t eight_bytes(const uint8_t *at) {
    uint64_t number;
    memcpy(&number, at, sizeof number);
    return number;
}

static uint32_t four_bytes(const uint8_t *at) {
    uint32_t number;
    memcpy(&number, at, sizeof number);
    return number;
}

/* The three searches look for a part of the last entry, which stands behind all others, so that each ends there at the latest. Entries lie `width`
 * bytes apart. Most calls and exchanges differ in the bytes that are compared first. */
static INLINE bool finds_call(const uint8_t *call, const uint8_t *last, size_t width) {
    const uint64_t first = eight_bytes(last);
    while (eight_bytes(call) != first || memcmp(call + 8, last + 8, 6) != 0) call += width;
    return call != last;
}

static INLINE bool finds_square(const uint8_t *square, const uint8_t *last, size_t width) {
    const uint32_t wanted = four_bytes(last);
    while (four_bytes(square) != wanted) square += width;
    return square != last;
}

static INLINE bool finds_exchange(const uint8_t *exchange, const uint8_t *last, size_t width) {
    const uint32_t first = four_bytes(last);
    while (four_bytes(exchange) != first || memcmp(exchange + 4, last + 4, 2) != 0) exchange += width;
    return exchange != last;
}

/* Each search is a function of its own, where the compiler has registers enough. */
static NOINLINE bool is_known_call(const Kept *first, const Kept *last) { return finds_call(first->call, last->call, sizeof(Kept)); }
static NOINLINE bool is_known_square(const Kept *first, const Kept *last) { return finds_square(first->square, last->square, sizeof(Kept)); }
static NOINLINE bool is_known_exchange(const Kept *first, const Kept *last) { return finds_exchange(first->exchange, last->exchange, sizeof(Kept)); }

static size_t mode_kept(const Kept *entry) { return entry->mode == 0 ? SUMPQUINCE_BLANK_MODE : (size_t)(entry->mode - '0'); }

static uint64_t points_kept(const Kept *entry) {
    return (uint64_t)entry->points[0] | (uint64_t)entry->points[1] << 8 | (uint64_t)entry->points[2] << 16;
}

/* The marks of a credited record, whose entry stands behind those of the records before it. */
static uint8_t marks_of(const Kept *first, const Kept *last, bool new_country) {
    uint8_t marks = 0;
    if (last->exchange[0] != 0 && !is_known_exchange(first, last)) marks |= SUMPQUINCE_NEW_EXCHANGE;
    if (last->square[0] != 0 && !is_known_square(first, last)) marks |= SUMPQUINCE_NEW_SQUARE;
    if (new_country) marks |= SUMPQUINCE_NEW_COUNTRY;
    return marks;
}

static void count_credited(SumpquinceSession *session, uint8_t verdict, const Kept *entry) {
    session->credited++;
    session->points += points_kept(entry);
    session->squares += (verdict & SUMPQUINCE_NEW_SQUARE) != 0;
    session->exchanges += (verdict & SUMPQUINCE_NEW_EXCHANGE) != 0;
    session->countries += (verdict & SUMPQUINCE_NEW_COUNTRY) != 0;
    session->modes[mode_kept(entry)]++;
}

/* Puts the entry of a record that is known to have room, and gives its verdict. */
static uint8_t take_record(SumpquinceSession *session, const Text *fields, bool error, uint64_t points, const Kept *first, Kept *last) {
    uint8_t verdict = SUMPQUINCE_ERROR;
    if (error) {
        session->errors++;
    } else if (points == 0 && fields[DUPLICATE].length == 0) {
        verdict = SUMPQUINCE_VOID;
        session->voids++;
    } else {
        keep(last, fields, points);
        if (is_known_call(first, last)) {
            verdict = SUMPQUINCE_DUPLICATE;
            session->duplicates++;
        } else if (points == 0) {
            verdict = SUMPQUINCE_VOID;
            session->voids++;
        } else {
            verdict = SUMPQUINCE_CREDITED | marks_of(first, last, fields[NEW_COUNTRY].length != 0);
            count_credited(session, verdict, last);
        }
    }
    if (class_of(verdict) != SUMPQUINCE_CREDITED) memset(last, 0, sizeof *last);
    return verdict;
}

/* Takes what a credited record brought off the session, if that can be done. */
static bool uncount_credited(SumpquinceSession *session, uint8_t verdict, const Kept *entry) {
    uint64_t square = (verdict & SUMPQUINCE_NEW_SQUARE) != 0, exchange = (verdict & SUMPQUINCE_NEW_EXCHANGE) != 0;
    uint64_t country = (verdict & SUMPQUINCE_NEW_COUNTRY) != 0, points = points_kept(entry);
    size_t mode = mode_kept(entry);
    if (session->credited == 0 || session->points < points || session->squares < square || session->exchanges < exchange) return false;
    if (session->countries < country || mode >= SUMPQUINCE_MODES || session->modes[mode] == 0) return false;
    session->credited--;
    session->points -= points;
    session->squares -= square;
    session->exchanges -= exchange;
    session->countries -= country;
    session->modes[mode]--;
    return true;
}

static bool uncount(uint64_t *count) {
    if (*count == 0) return false;
    (*count)--;
    return true;
}

static bool uncount_record(SumpquinceSession *session, uint8_t verdict, const Kept *entry) {
    switch (class_of(verdict)) {
    case SUMPQUINCE_CREDITED: return uncount_credited(session, verdict, entry);
    case SUMPQUINCE_VOID: return uncount(&session->voids);
    case SUMPQUINCE_DUPLICATE: return uncount(&session->duplicates);
    case SUMPQUINCE_ERROR: return uncount(&session->errors);
    default: return false;
    }
}

/* ---- The link ---- */

/* What is due of a log: the identifier, keyword number 1 to 36, the remarks' mark, remarks or the count line, and then records or the end. */
enum { PEXCH_DUE = 5, CWWLS_DUE = 29, CEXCS_DUE = 31, CDXCS_DUE = 33, REMARK_DUE = 38, RECORD_DUE = 39 };

/* What is kept of a credited record, as it lies in the lent slice. Of any other record it is zero. */
typedef struct {
    uint8_t call[14], square[SQUARE_LENGTH], exchange[6];
} Worked;
_Static_assert(sizeof(Worked) == SUMPQUINCE_WORKED_BYTES && _Alignof(Worked) == 1, "entries lie side by side, wherever the slice begins");

/* The two slices. */
typedef struct {
    uint8_t *verdicts;
    Worked *worked;
    size_t verdicts_length, worked_length; /* in bytes */
} Lent;

static NOINLINE bool is_worked_call(const Worked *first, const Worked *last) { return finds_call(first->call, last->call, sizeof(Worked)); }
static NOINLINE bool is_worked_square(const Worked *first, const Worked *last) { return finds_square(first->square, last->square, sizeof(Worked)); }
static NOINLINE bool is_worked_exchange(const Worked *first, const Worked *last) {
    return finds_exchange(first->exchange, last->exchange, sizeof(Worked));
}

/* Keeps the refusal, and nothing else. */
static void stop(SumpquinceLink *link, SumpquinceRefusal refusal) {
    memset(link, 0, sizeof *link);
    link->refusal = refusal;
}

static void stop_at_line(SumpquinceLink *link, uint32_t number, uint32_t field) { stop(link, refuse(number, link->lines + 1, field)); }

static bool is_stopped(const SumpquinceLink *link) { return link->refusal.number != 0; }

/* Whether an opening and calls can have made these three numbers. The others do no harm, whatever they are. */
static bool was_opened(const SumpquinceLink *link) {
    return link->count <= LONGEST_LOG && link->lines <= link->count && link->held <= LONGEST_LINE;
}

/* Whether the count line was read, and a slice has too little room for its number. */
static bool is_short(const SumpquinceLink *link, size_t verdicts_length, size_t worked_length) {
    return link->stage >= RECORD_DUE && (verdicts_length < link->records || worked_length < link->records * sizeof(Worked));
}

/* What each call asks before all else. */
static void ask(SumpquinceLink *link, size_t verdicts_length, size_t worked_length) {
    if (is_stopped(link)) return;
    if (!was_opened(link)) {
        stop(link, refuse(13, 0, 0));
    } else if (is_short(link, verdicts_length, worked_length)) {
        stop(link, refuse(7, 0, 0));
    }
}

static bool ends_here(const SumpquinceLink *link) { return link->stage >= RECORD_DUE && link->done >= link->records; }

/* The bonus and the multiplier on the line of CWWLs, CExcs or CDXCs, which is known to follow its rule. */
static void take_rates(Text line, uint16_t *bonus, uint16_t *multiplier) {
    Text argument = {line.at + KEYWORD_LENGTH + 1, line.length - KEYWORD_LENGTH - 1}, parts[3];
    uint64_t value = 0;
    if (!cut(argument, parts, 3)) return;
    if (is_number(parts[1], 4, &value)) *bonus = (uint16_t)value;
    if (is_number(parts[2], 2, &value)) *multiplier = (uint16_t)value;
}

/* A line in front of the remarks. The link's own line may come with any bytes; PExch has the one rule that does not name those that it takes. */
static void take_head_line(SumpquinceLink *link, Text line) {
    uint32_t fault = head_fault(line, link->stage + 1u);
    if (fault == 0 && link->stage == PEXCH_DUE && !all_allowed(line)) fault = 4;
    if (fault != 0) {
        stop_at_line(link, fault, 0);
        return;
    }
    if (link->stage == CWWLS_DUE) take_rates(line, &link->square_bonus, &link->square_multiplier);
    if (link->stage == CEXCS_DUE) take_rates(line, &link->exchange_bonus, &link->exchange_multiplier);
    if (link->stage == CDXCS_DUE) take_rates(line, &link->country_bonus, &link->country_multiplier);
    link->stage++;
}

static void take_remark(SumpquinceLink *link, Text line, const Lent *lent) {
    uint64_t count;
    if (!is_count_line(line)) return;
    if (!holds_count(line, &count)) {
        stop_at_line(link, 4, 0);
        return;
    }
    link->records = (uint16_t)count;
    link->done = 0;
    link->stage = RECORD_DUE;
    if (is_short(link, lent->verdicts_length, lent->worked_length)) stop(link, refuse(7, 0, 0));
}

static void put_worked(Worked *entry, const Text *fields) {
    memset(entry, 0, sizeof *entry);
    memcpy(entry->call, fields[CALL].at, fields[CALL].length);
    if (fields[LOCATOR].length != 0) memcpy(entry->square, fields[LOCATOR].at, SQUARE_LENGTH);
    memcpy(entry->exchange, fields[EXCHANGE].at, fields[EXCHANGE].length);
}

static uint8_t worked_marks(const Worked *first, const Worked *last, bool new_country) {
    uint8_t marks = 0;
    if (last->exchange[0] != 0 && !is_worked_exchange(first, last)) marks |= SUMPQUINCE_NEW_EXCHANGE;
    if (last->square[0] != 0 && !is_worked_square(first, last)) marks |= SUMPQUINCE_NEW_SQUARE;
    if (new_country) marks |= SUMPQUINCE_NEW_COUNTRY;
    return marks;
}

/* Puts the entry of a record behind those before it, and gives its verdict. */
static uint8_t judge_worked(const Text *fields, bool error, uint64_t points, const Worked *first, Worked *last) {
    uint8_t verdict = error ? SUMPQUINCE_ERROR : SUMPQUINCE_VOID;
    if (!error && (points != 0 || fields[DUPLICATE].length != 0)) {
        put_worked(last, fields);
        if (is_worked_call(first, last)) {
            verdict = SUMPQUINCE_DUPLICATE;
        } else if (points != 0) {
            return SUMPQUINCE_CREDITED | worked_marks(first, last, fields[NEW_COUNTRY].length != 0);
        }
    }
    memset(last, 0, sizeof *last);
    return verdict;
}

static void count_record(SumpquinceLink *link, uint8_t verdict, uint64_t points, Text mode) {
    switch (class_of(verdict)) {
    case SUMPQUINCE_VOID: link->voids++; break;
    case SUMPQUINCE_DUPLICATE: link->duplicates++; break;
    case SUMPQUINCE_ERROR: link->errors++; break;
    default:
        link->credited++;
        link->points += (uint32_t)points;
        link->squares += (verdict & SUMPQUINCE_NEW_SQUARE) != 0;
        link->exchanges += (verdict & SUMPQUINCE_NEW_EXCHANGE) != 0;
        link->countries += (verdict & SUMPQUINCE_NEW_COUNTRY) != 0;
        link->modes[mode.length == 0 ? SUMPQUINCE_BLANK_MODE : mode.at[0] - '0']++;
    }
}

static void take_record_line(SumpquinceLink *link, Text line, const Lent *lent) {
    Text fields[FIELDS];
    uint64_t points = 0;
    if (!cut_record(line, fields)) {
        stop_at_line(link, 5, 0);
        return;
    }
    bool error = is_error_call(fields[CALL]);
    uint32_t bad = first_bad_field_of_line(fields, error, &points);
    if (bad != 0) {
        stop_at_line(link, 5, bad);
        return;
    }
    uint8_t verdict = judge_worked(fields, error, points, lent->worked, lent->worked + link->done);
    lent->verdicts[link->done] = verdict;
    count_record(link, verdict, points, fields[MODE]);
    link->done++;
}

/* The line is finished: its LF came. */
static void finish_line(SumpquinceLink *link, Text line, const Lent *lent) {
    if (link->stage < REMARK_DUE) {
        take_head_line(link, line);
    } else if (link->stage == REMARK_DUE) {
        take_remark(link, line, lent);
    } else {
        take_record_line(link, line, lent);
    }
    if (is_stopped(link)) return;
    link->lines++;
    link->held = 0;
    link->returned = 0;
    memset(link->line, 0, sizeof link->line);
}

/* Takes bytes up to the end of a line, or as many as there are, at least one; says how many. A line that lies there from its first character to its
 * LF is read where it lies, and of any other the characters are kept. */
static size_t take_stretch(SumpquinceLink *link, const uint8_t *bytes, size_t length, const Lent *lent) {
    size_t room = LONGEST_LINE - link->held, most = length < room ? length : room, i = 0;
    while (i < most && is_between(bytes[i], 32, 127)) i++;
    if (link->held == 0 && length - i >= 2 && bytes[i] == '\r' && bytes[i + 1] == '\n') {
        Text line = {bytes, i};
        finish_line(link, line, lent);
        return i + 2;
    }
    memcpy(link->line + link->held, bytes, i);
    link->held += (uint16_t)i;
    if (i == length) return i;
    if (bytes[i] == '\r') {
        link->returned = 1;
    } else {
        stop_at_line(link, 2, 0);
    }
    return i + 1;
}

/* The byte behind the CR of the line that is kept. */
static void take_feed(SumpquinceLink *link, uint8_t byte, const Lent *lent) {
    Text line = {link->line, link->held};
    if (byte == '\n') {
        finish_line(link, line, lent);
    } else {
        stop_at_line(link, 2, 0);
    }
}

static void take_bytes(SumpquinceLink *link, const uint8_t *bytes, size_t length, const Lent *lent) {
    size_t at = 0;
    while (at < length && !is_stopped(link)) {
        if (ends_here(link)) {
            stop_at_line(link, 6, 0);
        } else if (link->returned != 0) {
            take_feed(link, bytes[at++], lent);
        } else {
            at += take_stretch(link, bytes + at, length - at, lent);
        }
    }
}

/* Why a log that ends here is refused, 0 if it is not. */
static uint32_t end_fault(const SumpquinceLink *link) {
    bool begun = link->held != 0 || link->returned != 0;
    if (link->stage < RECORD_DUE) return 2;
    if (ends_here(link)) return begun ? 6 : 0;
    return begun ? 2 : 6;
}

/* A link's numbers as those of a session, which asks whether they can be those of some records. */
static SumpquinceSession session_of(const SumpquinceLink *link) {
    SumpquinceSession session = {link->square_bonus,
                                 link->square_multiplier,
                                 link->exchange_bonus,
                                 link->exchange_multiplier,
                                 link->country_bonus,
                                 link->country_multiplier,
                                 link->credited,
                                 link->voids,
                                 link->duplicates,
                                 link->errors,
                                 link->points,
                                 link->squares,
                                 link->exchanges,
                                 link->countries,
                                 {0}};
    for (size_t i = 0; i < SUMPQUINCE_MODES; i++) session.modes[i] = link->modes[i];
    return session;
}

/* ---- The face ---- */

SumpquinceReading sumpquince_read(const uint8_t *log, size_t log_len) {
    SumpquinceReading answer = {ACCEPTED, 0, 0};
    Log parts;
    answer.refusal = read_log(log, log_len, &parts);
    if (answer.refusal.number != 0) return answer;
    answer.records = parts.count;
    for (size_t k = 0; k < KEYWORDS; k++) answer.respelt += parts.respelt[k];
    return answer;
}

SumpquinceView sumpquince_view(const uint8_t *log, size_t log_len, size_t keyword) {
    SumpquinceView answer = {ACCEPTED, 0, 0, 0};
    Log parts;
    if (keyword < 1 || keyword > KEYWORDS) {
        answer.refusal = refuse(9, 0, 0);
        return answer;
    }
    answer.refusal = read_log(log, log_len, &parts);
    if (answer.refusal.number == 0) {
        answer.start = parts.argument[keyword - 1];
        answer.length = parts.argument_length[keyword - 1];
        answer.listed = !parts.respelt[keyword - 1];
    }
    return answer;
}

SumpquinceJudgement sumpquince_judge(const uint8_t *log, size_t log_len, uint8_t *verdicts, size_t verdicts_len) {
    SumpquinceJudgement answer = {ACCEPTED, 0, 0, 0, 0, 0, 0, 0, 0, 0, 0, 0, 0, {0}};
    Log parts;
    answer.refusal = read_log(log, log_len, &parts);
    if (answer.refusal.number == 0 && verdicts_len < parts.count) answer.refusal = refuse(7, 0, 0);
    if (answer.refusal.number == 0) judge_log(log, &parts, verdicts, &answer);
    return answer;
}

SumpquinceWritten sumpquince_write(const uint8_t *log, size_t log_len, uint8_t *out, size_t out_len) {
    SumpquinceWritten answer = {ACCEPTED, 0};
    SumpquinceJudgement sums = {ACCEPTED, 0, 0, 0, 0, 0, 0, 0, 0, 0, 0, 0, 0, {0}};
    Log parts;
    uint8_t verdicts[MOST_RECORDS];
    Claim claims[CLAIMS];
    answer.refusal = read_log(log, log_len, &parts);
    if (answer.refusal.number != 0) return answer;
    judge_log(log, &parts, verdicts, &sums);
    list_claims(&sums, claims);
    size_t length = measure(log, log_len, &parts, verdicts, claims);
    if (length > LONGEST_LOG || length > out_len) {
        answer.refusal = refuse(8, 0, 0);
        return answer;
    }
    write_log(log, log_len, &parts, verdicts, claims, out);
    answer.length = length;
    return answer;
}

SumpquinceWritten sumpquince_strike(const uint8_t *log, size_t log_len, const uint8_t *struck, size_t struck_len, uint8_t *out, size_t out_len) {
    SumpquinceWritten answer = {ACCEPTED, 0};
    Log parts;
    answer.refusal = read_log(log, log_len, &parts);
    if (answer.refusal.number == 0 && struck_len < parts.count) answer.refusal = refuse(7, 0, 0);
    if (answer.refusal.number != 0) return answer;
    Rest rest = measure_rest(log, log_len, &parts, struck);
    if (rest.length > out_len) {
        answer.refusal = refuse(8, 0, 0);
        return answer;
    }
    write_rest(log, log_len, &parts, struck, rest.records, out);
    answer.length = rest.length;
    return answer;
}

SumpquinceMended sumpquince_mend(const uint8_t *log, size_t log_len, uint8_t *out, size_t out_len, uint8_t *kinds, size_t kinds_len,
                                 uint32_t *lines, size_t lines_len) {
    SumpquinceMended answer = {ACCEPTED, 0, 0};
    if (log_len > LONGEST_LOG) {
        answer.refusal = refuse(1, 0, 0);
        return answer;
    }
    Survey survey = survey_log(log, log_len);
    answer.refusal = survey.refusal;
    if (answer.refusal.number == 0 && (kinds_len < survey.changes || lines_len < survey.changes)) answer.refusal = refuse(10, 0, 0);
    if (answer.refusal.number == 0 && out_len < survey.length) answer.refusal = refuse(8, 0, 0);
    if (answer.refusal.number != 0) return answer;
    if (survey.changes == 0) {
        memcpy(out, log, log_len);
    } else {
        List list = {kinds, lines, 0};
        write_mended(log, log_len, &survey, out, list);
    }
    answer.length = survey.length;
    answer.changes = survey.changes;
    return answer;
}

SumpquinceRefusal sumpquince_session_start(SumpquinceSession *session, SumpquinceDeclared declared) {
    if (!is_bonus(declared.square_bonus) || !is_bonus(declared.exchange_bonus) || !is_bonus(declared.country_bonus)) return refuse(4, 0, 0);
    if (!is_factor(declared.square_multiplier) || !is_factor(declared.exchange_multiplier) || !is_factor(declared.country_multiplier)) {
        return refuse(4, 0, 0);
    }
    memset(session, 0, sizeof *session);
    session->square_bonus = declared.square_bonus;
    session->square_multiplier = declared.square_multiplier;
    session->exchange_bonus = declared.exchange_bonus;
    session->exchange_multiplier = declared.exchange_multiplier;
    session->country_bonus = declared.country_bonus;
    session->country_multiplier = declared.country_multiplier;
    return ACCEPTED;
}

SumpquinceRefusal sumpquince_session_take(SumpquinceSession *session, const uint8_t *line, size_t line_len, uint8_t *verdicts, size_t verdicts_len,
                                          uint8_t *kept, size_t kept_len) {
    Text text = {line, line_len}, fields[FIELDS];
    if (!cut_record(text, fields)) return refuse(5, 0, 0);
    uint64_t points = 0;
    bool error = is_error_call(fields[CALL]);
    uint32_t bad = first_bad_field_of_line(fields, error, &points);
    if (bad != 0) return refuse(5, 0, bad);
    if (!is_sound(session)) return refuse(11, 0, 0);
    size_t records = records_in(session);
    if (records == MOST_RECORDS || verdicts_len <= records || kept_len < (records + 1) * sizeof(Kept)) return refuse(11, 0, 0);
    Kept *entries = (Kept *)kept;
    verdicts[records] = take_record(session, fields, error, points, entries, entries + records);
    return ACCEPTED;
}

SumpquinceRefusal sumpquince_session_give_back(SumpquinceSession *session, const uint8_t *verdicts, size_t verdicts_len, const uint8_t *kept,
                                               size_t kept_len) {
    if (!is_sound(session)) return refuse(12, 0, 0);
    size_t records = records_in(session);
    if (records == 0 || verdicts_len < records || kept_len < records * sizeof(Kept)) return refuse(12, 0, 0);
    const Kept *entries = (const Kept *)kept;
    if (!uncount_record(session, verdicts[records - 1], entries + records - 1)) return refuse(12, 0, 0);
    return ACCEPTED;
}

SumpquinceJudgement sumpquince_session_totals(SumpquinceSession session) {
    SumpquinceJudgement answer = {ACCEPTED, 0, 0, 0, 0, 0, 0, 0, 0, 0, 0, 0, 0, {0}};
    if (!is_sound(&session)) return answer;
    answer.credited = session.credited;
    answer.voids = session.voids;
    answer.duplicates = session.duplicates;
    answer.errors = session.errors;
    answer.points = session.points;
    answer.squares = session.squares;
    answer.exchanges = session.exchanges;
    answer.countries = session.countries;
    answer.square_bonus = session.squares * session.square_bonus;
    answer.exchange_bonus = session.exchanges * session.exchange_bonus;
    answer.country_bonus = session.countries * session.country_bonus;
    answer.total = (session.points + answer.square_bonus + answer.exchange_bonus + answer.country_bonus) * session.square_multiplier *
                   session.exchange_multiplier * session.country_multiplier;
    memcpy(answer.modes, session.modes, sizeof answer.modes);
    return answer;
}

void sumpquince_link_open(SumpquinceLink *link) { memset(link, 0, sizeof *link); }

SumpquinceRefusal sumpquince_link_feed(SumpquinceLink *link, const uint8_t *bytes, size_t bytes_len, uint8_t *verdicts, size_t verdicts_len,
                                       uint8_t *worked, size_t worked_len) {
    ask(link, verdicts_len, worked_len);
    if (is_stopped(link)) return link->refusal;
    const Lent lent = {verdicts, (Worked *)worked, verdicts_len, worked_len};
    size_t room = LONGEST_LOG - link->count, length = bytes_len < room ? bytes_len : room;
    link->count += (uint32_t)length;
    take_bytes(link, bytes, length, &lent);
    if (length < bytes_len && !is_stopped(link)) stop(link, refuse(1, 0, 0));
    return link->refusal;
}

SumpquinceJudgement sumpquince_link_close(SumpquinceLink *link, const uint8_t *verdicts, size_t verdicts_len, const uint8_t *worked,
                                          size_t worked_len) {
    SumpquinceJudgement answer = {ACCEPTED, 0, 0, 0, 0, 0, 0, 0, 0, 0, 0, 0, 0, {0}};
    (void)verdicts, (void)worked;
    ask(link, verdicts_len, worked_len);
    if (!is_stopped(link)) {
        uint32_t fault = end_fault(link);
        if (fault == 0) {
            answer = sumpquince_session_totals(session_of(link));
            stop(link, refuse(13, 0, 0));
            return answer;
        }
        stop_at_line(link, fault, 0);
    }
    answer.refusal = link->refusal;
    return answer;
}
