/* Compares the session of sumpquince.h with the reference: reads the reference's scripts of calls (tests/reference/src/main.rs says how they are laid
 * out) from standard input, plays each, and holds after every call the answer, the totals, and every byte of the session and of the two slices, those
 * around them too, to what the reference says.
 *
 *     calls < SCRIPTS
 *
 * A difference is told in a line, 20 of them at most; the rest of its script is left out, since one call rests on those before it. The status is 0
 * where there is no difference, 1 where there is one, and 2 where the stream is broken. */
#define PROGRAM "calls"
#include "script.h"

enum { NUMBERS = 25, DECLARED = 6, CLASSES = 4 };
enum { ALTER, START, TAKE, GIVE_BACK }; /* what a step does: all but the first are calls */
enum { ALL, TAKEN_AS, GIVEN_BACK_OR_NOT }; /* what is told of a call */

_Static_assert(sizeof(SumpquinceSession) == NUMBERS * sizeof(uint64_t), "a session is its numbers");

/* The places of its numbers. */
enum { CREDITED = DECLARED, VOIDS, DUPLICATES, ERRORS, POINTS, SQUARES, EXCHANGES, COUNTRIES, MODES };

static const char *const number_names[MODES] = {"square_bonus", "square_multiplier", "exchange_bonus", "exchange_multiplier", "country_bonus",
                                                "country_multiplier", "credited", "voids", "duplicates", "errors", "points", "squares",
                                                "exchanges", "countries"};

typedef struct {
    uint32_t kind, verdicts_len, kept_len;
    uint32_t declared[DECLARED];
    Bytes line, behind;
} Step;

/* What the reference tells of a call. */
typedef struct {
    uint32_t kind;
    SumpquinceRefusal answer;
    uint64_t numbers[NUMBERS], totals[TOTALS], modes[SUMPQUINCE_MODES];
    uint32_t written, place, verdict;
    Bytes verdicts;
    uint8_t kept[SUMPQUINCE_KEPT_BYTES];
} Told;

static Lent session, verdicts, kept;

/* ---- Lent memory ---- */

/* The block is aligned for every type, and so is what lies a fence behind its start. */
static SumpquinceSession *the_session(void) { return (SumpquinceSession *)(void *)slice_of(&session); }

static void want_numbers(const uint64_t *numbers) { memcpy(wanted_of(&session), numbers, sizeof(SumpquinceSession)); }

static void want_record(uint32_t place, uint8_t verdict, const uint8_t *bytes) {
    wanted_of(&verdicts)[place] = verdict;
    memcpy(wanted_of(&kept) + (size_t)place * SUMPQUINCE_KEPT_BYTES, bytes, SUMPQUINCE_KEPT_BYTES);
}

/* The numbers by their names first. */
static void hold_session(void) {
    uint64_t got[NUMBERS], wanted[NUMBERS];
    memcpy(got, slice_of(&session), sizeof got);
    memcpy(wanted, wanted_of(&session), sizeof wanted);
    for (int i = 0; i < NUMBERS; i++) {
        char what[64];
        if (i < MODES) {
            snprintf(what, sizeof what, "the session's %s", number_names[i]);
        } else {
            snprintf(what, sizeof what, "the session's modes[%d]", i - MODES);
        }
        hold(what, got[i], wanted[i]);
    }
    if (memcmp(got, wanted, sizeof got) == 0) hold_slice(&session);
}

static void hold_memory(void) {
    hold_session();
    hold_slice(&verdicts);
    hold_slice(&kept);
}

/* ---- The stream ---- */

/* What the caller sets, in the lent memory and in what should be there alike. */
static void alter(void) {
    uint64_t numbers[NUMBERS];
    take_numbers(numbers, NUMBERS);
    want_numbers(numbers);
    memcpy(slice_of(&session), numbers, sizeof numbers);
    take_writes(&verdicts, &kept);
}

static Step take_call(uint32_t kind) {
    Step step = {kind, 0, 0, {0}, {NULL, 0}, {NULL, 0}};
    if (kind == START) {
        for (int i = 0; i < DECLARED; i++) step.declared[i] = take_u32();
        return step;
    }
    step.verdicts_len = take_u32();
    step.kept_len = take_u32();
    if (step.verdicts_len > verdicts.length || step.kept_len > kept.length) stop("the stream is broken");
    if (kind == TAKE) {
        step.line = take_bytes();
        step.behind = take_bytes();
    }
    return step;
}

static Told take_told(void) {
    Told told = {take_u32(), {0, 0, 0}, {0}, {0}, {0}, 0, 0, 0, {NULL, 0}, {0}};
    if (told.kind == ALL) {
        told.answer = take_answer();
        take_numbers(told.numbers, NUMBERS);
        take_numbers(told.totals, TOTALS);
        take_numbers(told.modes, SUMPQUINCE_MODES);
        told.written = take_u32();
        if (told.written != 0) {
            told.place = take_u32();
            told.verdict = take_u32();
            take(told.kept, sizeof told.kept);
        }
    } else if (told.kind == TAKEN_AS) {
        told.place = take_u32();
        told.verdicts = take_bytes();
        take(told.kept, sizeof told.kept);
    }
    return told;
}

/* ---- Calls ---- */

static SumpquinceRefusal call_start(const uint32_t *declared) {
    run.function = "start";
    SumpquinceDeclared all = {declared[0], declared[1], declared[2], declared[3], declared[4], declared[5]};
    return sumpquince_session_start(the_session(), all);
}

/* The line lies in front of bytes that would go on with it. */
static SumpquinceRefusal call_take(const Step *step) {
    run.function = "take";
    size_t all = (size_t)step->line.length + step->behind.length;
    uint8_t *line = allocate(all), *copy = allocate(all);
    memcpy(line, step->line.at, step->line.length);
    memcpy(line + step->line.length, step->behind.at, step->behind.length);
    memcpy(copy, line, all);
    SumpquinceRefusal answer = sumpquince_session_take(the_session(), line, step->line.length, slice_of(&verdicts), step->verdicts_len,
                                                       slice_of(&kept), step->kept_len);
    hold("whether the line itself was changed", memcmp(line, copy, all) != 0, 0);
    free(line);
    free(copy);
    return answer;
}

static SumpquinceRefusal call_give_back(const Step *step) {
    run.function = "give back";
    return sumpquince_session_give_back(the_session(), slice_of(&verdicts), step->verdicts_len, slice_of(&kept), step->kept_len);
}

static void hold_totals(const uint64_t *totals, const uint64_t *modes) {
    const SumpquinceRefusal none = {0, 0, 0};
    SumpquinceJudgement judgement = sumpquince_session_totals(*the_session());
    hold_refusal(judgement.refusal, none);
    hold_judged(&judgement, totals, modes);
}

static void hold_all(const Told *told, SumpquinceRefusal answer) {
    hold_refusal(answer, told->answer);
    want_numbers(told->numbers);
    if (told->written != 0) want_record(told->place, (uint8_t)told->verdict, told->kept);
    hold_totals(told->totals, told->modes);
    hold_memory();
}

static void add_credited(uint64_t *numbers, uint8_t verdict, const uint8_t *bytes) {
    numbers[CREDITED]++;
    numbers[POINTS] += (uint64_t)bytes[24] | (uint64_t)bytes[25] << 8 | (uint64_t)bytes[26] << 16;
    numbers[SQUARES] += (verdict & SUMPQUINCE_NEW_SQUARE) != 0;
    numbers[EXCHANGES] += (verdict & SUMPQUINCE_NEW_EXCHANGE) != 0;
    numbers[COUNTRIES] += (verdict & SUMPQUINCE_NEW_COUNTRY) != 0;
    numbers[MODES + (bytes[27] == 0 ? SUMPQUINCE_BLANK_MODE : bytes[27] - '0')]++;
}

/* Whichever of the possible verdicts the record has, all else follows from that one. */
static void hold_taken(const Told *told, SumpquinceRefusal answer) {
    static const uint8_t nothing[SUMPQUINCE_KEPT_BYTES];
    const SumpquinceRefusal accepted = {0, 0, 0};
    uint64_t numbers[NUMBERS];
    uint8_t verdict = slice_of(&verdicts)[told->place];
    bool possible = false, credited = (verdict & SUMPQUINCE_CLASS) == SUMPQUINCE_CREDITED;
    hold_refusal(answer, accepted);
    for (uint32_t i = 0; i < told->verdicts.length; i++) possible = possible || told->verdicts.at[i] == verdict;
    hold("whether the record can have its verdict", possible, true);
    if (!possible) return;
    memcpy(numbers, wanted_of(&session), sizeof numbers);
    if (credited) {
        add_credited(numbers, verdict, told->kept);
    } else {
        numbers[CREDITED + (verdict & SUMPQUINCE_CLASS)]++;
    }
    want_numbers(numbers);
    want_record(told->place, verdict, credited ? told->kept : nothing);
    hold_memory();
}

static uint64_t records_in(const uint64_t *numbers) {
    uint64_t records = 0;
    for (int i = 0; i < CLASSES; i++) records += numbers[CREDITED + i];
    return records;
}

/* Either nothing happens, or there is a record less and no number is larger. */
static void hold_given_back(SumpquinceRefusal answer) {
    const SumpquinceRefusal refused = {12, 0, 0}, accepted = {0, 0, 0};
    hold_refusal(answer, answer.number == 0 ? accepted : refused);
    if (answer.number == 0) {
        uint64_t before[NUMBERS], after[NUMBERS];
        memcpy(before, wanted_of(&session), sizeof before);
        memcpy(after, slice_of(&session), sizeof after);
        hold("the number of records", records_in(after), records_in(before) - 1);
        for (int i = 0; i < NUMBERS; i++) {
            hold("whether a declared number changed", i < DECLARED && after[i] != before[i], false);
            hold("whether a number grew", after[i] > before[i], false);
        }
        want_numbers(after);
    }
    hold_memory();
}

static void try_call(const Step *step, const Told *told) {
    SumpquinceRefusal answer = step->kind == START ? call_start(step->declared) : step->kind == TAKE ? call_take(step) : call_give_back(step);
    switch (told->kind) {
    case ALL: hold_all(told, answer); break;
    case TAKEN_AS: hold_taken(told, answer); break;
    case GIVEN_BACK_OR_NOT: hold_given_back(answer); break;
    default: stop("the stream is broken");
    }
    run.calls++;
}

/* Plays the script that is due, and says how many calls it has. */
static uint32_t try_script(void) {
    unsigned long long before = run.differences;
    const uint64_t zeros[NUMBERS] = {0};
    run.script = take_u32();
    run.tag = take_bytes();
    run.call = 0;
    session = lend("session", sizeof(SumpquinceSession));
    verdicts = lend("verdicts", take_u32());
    kept = lend("kept bytes", take_u32());
    memcpy(slice_of(&session), zeros, sizeof zeros);
    want_numbers(zeros);
    for (uint32_t left = take_u32(); left > 0; left--) {
        uint32_t kind = take_u32();
        if (kind > GIVE_BACK) stop("the stream is broken");
        if (kind == ALTER) {
            alter();
            continue;
        }
        Step step = take_call(kind);
        Told told = take_told();
        run.call++;
        if (run.differences == before) try_call(&step, &told);
        free(step.line.at);
        free(step.behind.at);
        free(told.verdicts.at);
    }
    take_back(&session);
    take_back(&verdicts);
    take_back(&kept);
    free(run.tag.at);
    return run.call;
}

int main(void) {
    take_name("SQCALLS5");
    for (uint32_t left = take_u32(); left > 0;) {
        uint32_t calls = try_script();
        if (calls == 0 || calls > left) stop("the stream is broken");
        left -= calls;
    }
    take_end();
    printf("%llu calls, %llu differences\n", run.calls, run.differences);
    return run.differences == 0 ? 0 : 1;
}
