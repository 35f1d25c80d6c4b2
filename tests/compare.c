/* Compares the functions of sumpquince.h that take a log with the reference: reads the reference's stream of trials (tests/reference/src/main.rs says
 * how it is laid out) from standard input, calls the six functions on each log, and holds every answer, every byte written, and every byte that must
 * stay as it was to what the reference says. Besides, a mended log is mended once more, which must change nothing; and what is left of a log after
 * striking is judged, and the duplicates that are credited in it are counted.
 *
 *     compare [FOLDER] < TRIALS
 *
 * A difference is told in a line, 20 of them at most, and each log that such a line is about is saved to FOLDER as trial-INDEX.edi. The status is 0
 * where there is no difference, 1 where there is one, and 2 where the stream is broken. */
#define PROGRAM "compare"
#include "stream.h"

enum { KEYWORDS = 36, MOST_RECORDS = 999 };

/* The numbers of a judgement behind its refusal. */
typedef struct {
    uint64_t totals[TOTALS], modes[SUMPQUINCE_MODES];
} Sums;

/* A strike and the reference's answers to it: of striking, and of judging what is left. */
typedef struct {
    Bytes name, struck;
    uint32_t output_len;
    SumpquinceRefusal refusal;
    Bytes result;
    Sums sums;
    Bytes verdicts;
    uint32_t promoted; /* how many duplicates of the log are credited in what is left */
} Strike;

/* A trial and the reference's answers to it. */
typedef struct {
    uint32_t index;
    Bytes tag, log;
    uint64_t keyword;
    uint32_t verdicts_len, output_len, mended_len, kinds_len, lines_len;
    SumpquinceRefusal read, view, judge, write, mend;
    uint32_t records, respelt, view_start, view_length, view_listed;
    uint64_t listed; /* a bit for each keyword, the first as bit 0 */
    Sums sums;
    Bytes verdicts, result, mended, kinds;
    Bytes lines; /* as the numbers lie in memory, 4 bytes each */
    uint32_t strike_count;
    Strike *strikes;
} Trial;

/* A slice to lend, with fences around it that no function may touch. */
typedef struct {
    uint8_t *block;
    size_t length;
} Lent;

static struct {
    const char *folder;
    unsigned long long logs, strikes, promoting, differences;
} run;

/* ---- The stream ---- */

static Bytes take_numbers(uint32_t count) {
    Bytes bytes;
    bytes.length = count * (uint32_t)sizeof(uint32_t);
    bytes.at = allocate(bytes.length);
    for (uint32_t i = 0; i < count; i++) {
        uint32_t number = take_u32();
        memcpy(bytes.at + i * sizeof number, &number, sizeof number);
    }
    return bytes;
}

static void take_sums(Sums *sums) {
    for (int i = 0; i < TOTALS; i++) sums->totals[i] = take_u64();
    for (int i = 0; i < SUMPQUINCE_MODES; i++) sums->modes[i] = take_u64();
}

static void take_strike(Strike *strike) {
    strike->name = take_bytes();
    strike->struck = take_bytes();
    strike->output_len = take_u32();
    strike->refusal = take_answer();
    strike->result = take_bytes();
    take_sums(&strike->sums);
    strike->verdicts = take_bytes();
    strike->promoted = take_u32();
}

static void take_strikes(Trial *trial) {
    trial->strike_count = take_u32();
    if (trial->strike_count > LONGEST_PART / sizeof(Strike)) stop("the stream is broken");
    trial->strikes = allocate(trial->strike_count * sizeof(Strike));
    for (uint32_t i = 0; i < trial->strike_count; i++) take_strike(&trial->strikes[i]);
}

static void take_trial(Trial *trial) {
    trial->index = take_u32();
    trial->tag = take_bytes();
    trial->log = take_bytes();
    trial->keyword = take_u64();
    trial->verdicts_len = take_u32();
    trial->output_len = take_u32();
    trial->mended_len = take_u32();
    trial->kinds_len = take_u32();
    trial->lines_len = take_u32();
    trial->read = take_answer();
    trial->records = take_u32();
    trial->respelt = take_u32();
    trial->view = take_answer();
    trial->view_start = take_u32();
    trial->view_length = take_u32();
    trial->view_listed = take_u32();
    trial->listed = take_u64();
    trial->judge = take_answer();
    take_sums(&trial->sums);
    trial->verdicts = take_bytes();
    trial->write = take_answer();
    trial->result = take_bytes();
    trial->mend = take_answer();
    trial->mended = take_bytes();
    trial->kinds = take_bytes();
    trial->lines = take_numbers(trial->kinds.length);
    take_strikes(trial);
}

static void free_strike(Strike *strike) {
    free(strike->name.at);
    free(strike->struck.at);
    free(strike->result.at);
    free(strike->verdicts.at);
}

static void free_trial(Trial *trial) {
    free(trial->tag.at);
    free(trial->log.at);
    free(trial->verdicts.at);
    free(trial->result.at);
    free(trial->mended.at);
    free(trial->kinds.at);
    free(trial->lines.at);
    for (uint32_t i = 0; i < trial->strike_count; i++) free_strike(&trial->strikes[i]);
    free(trial->strikes);
}

/* ---- Differences ---- */

static void save_log(const Trial *trial) {
    char path[4096];
    if (run.folder == NULL) return;
    int length = snprintf(path, sizeof path, "%s/trial-%u.edi", run.folder, trial->index);
    FILE *file = length > 0 && (size_t)length < sizeof path ? fopen(path, "wb") : NULL;
    if (file == NULL || fwrite(trial->log.at, 1, trial->log.length, file) != trial->log.length || fclose(file) != 0) stop("cannot save a log");
}

static void differ(const Trial *trial, const char *function, const char *what, uint64_t got, uint64_t wanted) {
    run.differences++;
    if (run.differences > MOST_LINES) return;
    printf("trial %u (%.*s), %s: %s is %llu and should be %llu\n", trial->index, (int)trial->tag.length, (const char *)trial->tag.at, function,
           what, (unsigned long long)got, (unsigned long long)wanted);
}

static void hold(const Trial *trial, const char *function, const char *what, uint64_t got, uint64_t wanted) {
    if (got != wanted) differ(trial, function, what, got, wanted);
}

static void hold_refusal(const Trial *trial, const char *function, SumpquinceRefusal got, SumpquinceRefusal wanted) {
    hold(trial, function, "the refusal's number", got.number, wanted.number);
    hold(trial, function, "the refusal's line", got.line, wanted.line);
    hold(trial, function, "the refusal's field", got.field, wanted.field);
}

/* ---- Lent memory ---- */

static Lent lend(size_t length) {
    Lent lent = {allocate(length + 2 * FENCE), length};
    for (size_t i = 0; i < length + 2 * FENCE; i++) lent.block[i] = filling(i);
    return lent;
}

static uint8_t *slice_of(Lent lent) { return lent.block + FENCE; }

/* The block is aligned for every type, and so is what lies a fence behind its start. */
static uint32_t *numbers_of(Lent lent) { return (uint32_t *)(void *)slice_of(lent); }

/* Holds the slice to begin with what should have been written and to be untouched behind it, and the fences to be untouched. One line tells of the
 * first wrong byte: the others mostly follow from it. */
static void hold_slice(const Trial *trial, const char *function, Lent lent, Bytes written) {
    for (size_t i = 0; i < lent.length + 2 * FENCE; i++) {
        bool within = i >= FENCE && i - FENCE < lent.length;
        bool result = within && i - FENCE < written.length;
        uint8_t wanted = result ? written.at[i - FENCE] : filling(i);
        if (lent.block[i] == wanted) continue;
        char what[64];
        if (within) {
            snprintf(what, sizeof what, "byte %llu of the slice%s", (unsigned long long)(i - FENCE), result ? "" : ", to be left alone,");
        } else {
            snprintf(what, sizeof what, "a byte %s the slice", i < FENCE ? "before" : "after");
        }
        differ(trial, function, what, lent.block[i], wanted);
        return;
    }
}

/* ---- The six functions ---- */

static void try_read(const Trial *trial) {
    SumpquinceReading got = sumpquince_read(trial->log.at, trial->log.length);
    hold_refusal(trial, "read", got.refusal, trial->read);
    hold(trial, "read", "the number of records", got.records, trial->records);
    hold(trial, "read", "the number of respelt keywords", got.respelt, trial->respelt);
}

static void try_view(const Trial *trial) {
    SumpquinceView got = sumpquince_view(trial->log.at, trial->log.length, (size_t)trial->keyword);
    hold_refusal(trial, "view", got.refusal, trial->view);
    hold(trial, "view", "start", got.start, trial->view_start);
    hold(trial, "view", "length", got.length, trial->view_length);
    hold(trial, "view", "listed", got.listed, trial->view_listed);
}

/* Whether each keyword is listed, those too that the trial does not ask the view for. */
static void try_spellings(const Trial *trial) {
    for (uint32_t k = 0; k < KEYWORDS; k++) {
        char what[32];
        snprintf(what, sizeof what, "listed of keyword %u", k + 1);
        hold(trial, "view", what, sumpquince_view(trial->log.at, trial->log.length, k + 1).listed, trial->listed >> k & 1);
    }
}

static void hold_sums(const Trial *trial, const char *function, const SumpquinceJudgement *got, const Sums *wanted) {
    uint64_t totals[TOTALS];
    list_totals(got, totals);
    for (int i = 0; i < TOTALS; i++) hold(trial, function, total_names[i], totals[i], wanted->totals[i]);
    for (int i = 0; i < SUMPQUINCE_MODES; i++) {
        char what[32];
        snprintf(what, sizeof what, "modes[%d]", i);
        hold(trial, function, what, got->modes[i], wanted->modes[i]);
    }
}

static void try_judge(const Trial *trial) {
    Lent lent = lend(trial->verdicts_len);
    SumpquinceJudgement got = sumpquince_judge(trial->log.at, trial->log.length, slice_of(lent), lent.length);
    hold_refusal(trial, "judge", got.refusal, trial->judge);
    hold_sums(trial, "judge", &got, &trial->sums);
    hold_slice(trial, "judge", lent, trial->verdicts);
    free(lent.block);
}

static void try_write(const Trial *trial) {
    Lent lent = lend(trial->output_len);
    SumpquinceWritten got = sumpquince_write(trial->log.at, trial->log.length, slice_of(lent), lent.length);
    hold_refusal(trial, "write", got.refusal, trial->write);
    hold(trial, "write", "length", got.length, trial->result.length);
    hold_slice(trial, "write", lent, trial->result);
    free(lent.block);
}

static bool is_of(uint8_t verdict, uint8_t class) { return (verdict & SUMPQUINCE_CLASS) == class; }

/* How many duplicates that were not struck are credited in what is left. */
static uint64_t count_promoted(const uint8_t *before, const uint8_t *after, const uint8_t *struck, uint32_t records) {
    uint64_t promoted = 0;
    for (uint32_t i = 0; i < records; i++) {
        if (struck[i] != 0) continue;
        promoted += is_of(before[i], SUMPQUINCE_DUPLICATE) && is_of(*after, SUMPQUINCE_CREDITED);
        after++;
    }
    return promoted;
}

/* What the library itself made of the log is judged, into a slice with a byte for each record. `before` has the verdicts of the log as it was. */
static void try_judge_rest(const Trial *trial, const Strike *strike, const char *what, const uint8_t *rest, size_t length, const uint8_t *before) {
    char function[80];
    snprintf(function, sizeof function, "%s, judged", what);
    const SumpquinceRefusal none = {0, 0, 0};
    Lent lent = lend(strike->verdicts.length);
    SumpquinceJudgement got = sumpquince_judge(rest, length, slice_of(lent), lent.length);
    hold_refusal(trial, function, got.refusal, none);
    hold_sums(trial, function, &got, &strike->sums);
    hold_slice(trial, function, lent, strike->verdicts);
    if (got.refusal.number == 0) {
        uint64_t promoted = count_promoted(before, slice_of(lent), strike->struck.at, trial->records);
        hold(trial, function, "the number of duplicates that became credited", promoted, strike->promoted);
        run.promoting += promoted > 0;
    }
    free(lent.block);
}

static void try_strike(const Trial *trial, const Strike *strike, const uint8_t *before) {
    char function[64];
    snprintf(function, sizeof function, "strike %.*s", (int)strike->name.length, (const char *)strike->name.at);
    Lent out = lend(strike->output_len);
    uint8_t *copy = allocate(strike->struck.length);
    memcpy(copy, strike->struck.at, strike->struck.length);
    SumpquinceWritten got = sumpquince_strike(trial->log.at, trial->log.length, strike->struck.at, strike->struck.length, slice_of(out), out.length);
    hold_refusal(trial, function, got.refusal, strike->refusal);
    hold(trial, function, "length", got.length, strike->result.length);
    hold_slice(trial, function, out, strike->result);
    hold(trial, function, "whether the slice of what is struck was changed", memcmp(copy, strike->struck.at, strike->struck.length) != 0, 0);
    bool both = got.refusal.number == 0 && strike->refusal.number == 0 && got.length <= out.length;
    if (both) try_judge_rest(trial, strike, function, slice_of(out), (size_t)got.length, before);
    free(copy);
    free(out.block);
    run.strikes++;
}

static void try_strikes(const Trial *trial) {
    static uint8_t before[MOST_RECORDS];
    sumpquince_judge(trial->log.at, trial->log.length, before, sizeof before);
    for (uint32_t i = 0; i < trial->strike_count; i++) try_strike(trial, &trial->strikes[i], before);
}

static void try_mend(const Trial *trial) {
    Lent out = lend(trial->mended_len), kinds = lend(trial->kinds_len), lines = lend(trial->lines_len * sizeof(uint32_t));
    SumpquinceMended got = sumpquince_mend(trial->log.at, trial->log.length, slice_of(out), out.length, slice_of(kinds), kinds.length,
                                           numbers_of(lines), trial->lines_len);
    hold_refusal(trial, "mend", got.refusal, trial->mend);
    hold(trial, "mend", "length", got.length, trial->mended.length);
    hold(trial, "mend", "changes", got.changes, trial->kinds.length);
    hold_slice(trial, "mend, log", out, trial->mended);
    hold_slice(trial, "mend, kinds", kinds, trial->kinds);
    hold_slice(trial, "mend, lines", lines, trial->lines);
    free(out.block);
    free(kinds.block);
    free(lines.block);
}

/* A mended log is mended into a slice of its own length, and needs no list: it comes out as it is. */
static void try_mend_again(const Trial *trial) {
    if (trial->mend.number != 0) return;
    Lent out = lend(trial->mended.length);
    SumpquinceMended got = sumpquince_mend(trial->mended.at, trial->mended.length, slice_of(out), out.length, NULL, 0, NULL, 0);
    hold_refusal(trial, "mend again", got.refusal, trial->mend);
    hold(trial, "mend again", "length", got.length, trial->mended.length);
    hold(trial, "mend again", "changes", got.changes, 0);
    hold_slice(trial, "mend again", out, trial->mended);
    free(out.block);
}

static void try_trial(const Trial *trial) {
    unsigned long long before = run.differences;
    uint8_t *copy = allocate(trial->log.length);
    memcpy(copy, trial->log.at, trial->log.length);
    try_read(trial);
    try_view(trial);
    try_spellings(trial);
    try_judge(trial);
    try_write(trial);
    try_strikes(trial);
    try_mend(trial);
    try_mend_again(trial);
    hold(trial, "all", "whether the log itself was changed", memcmp(copy, trial->log.at, trial->log.length) != 0, 0);
    free(copy);
    if (run.differences != before && before < MOST_LINES) save_log(trial);
}

int main(int count, char **words) {
    run.folder = count > 1 ? words[1] : NULL;
    take_name("SQTRIAL5");
    for (uint32_t left = take_u32(); left > 0; left--) {
        Trial trial;
        take_trial(&trial);
        try_trial(&trial);
        free_trial(&trial);
        run.logs++;
    }
    take_end();
    printf("%llu logs, %llu strikes, %llu of them with a duplicate that became credited, %llu differences\n", run.logs, run.strikes, run.promoting,
           run.differences);
    return run.differences == 0 ? 0 : 1;
}
