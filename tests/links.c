/* Compares the link of sumpquince.h with the reference: reads the reference's scripts of calls (tests/reference/src/main.rs says how they are laid
 * out) from standard input, plays each, and holds after every call the answer, of a closing the totals, and every byte of the link and of the two
 * slices, those around them too, to what the reference says.
 *
 *     links < SCRIPTS
 *
 * A difference is told in a line, 20 of them at most; the rest of its script is left out, since one call rests on those before it. The status is 0
 * where there is no difference, 1 where there is one, and 2 where the stream is broken. */
#define PROGRAM "links"
#include "script.h"

#include <stddef.h>

enum { LINK_BYTES = 156 };
enum { ALTER, OPEN, FEED, CLOSE }; /* what a step does: all but the first are calls */

/* The parts of the struct, where the reference has them. */
#define PARTS(each)                                                                                                                                  \
    each(refusal.number, 0, 4) each(refusal.line, 4, 4) each(refusal.field, 8, 4) each(count, 12, 4) each(lines, 16, 4) each(points, 20, 4)          \
    each(credited, 24, 2) each(voids, 26, 2) each(duplicates, 28, 2) each(errors, 30, 2)                                                             \
    each(squares, 32, 2) each(exchanges, 34, 2) each(countries, 36, 2) each(modes, 38, 22)                                                           \
    each(square_bonus, 60, 2) each(square_multiplier, 62, 2) each(exchange_bonus, 64, 2) each(exchange_multiplier, 66, 2)                            \
    each(country_bonus, 68, 2) each(country_multiplier, 70, 2) each(records, 72, 2) each(done, 74, 2) each(stage, 76, 2) each(held, 78, 2)           \
    each(returned, 80, 1) each(line, 81, 75)

#define IS_THERE(part, at, length)                                                                                                                   \
    _Static_assert(offsetof(SumpquinceLink, part) == (at) && sizeof((SumpquinceLink){0}.part) == (length), "the place of " #part);
PARTS(IS_THERE)
_Static_assert(sizeof(SumpquinceLink) == LINK_BYTES, "a link has no padding");
_Static_assert(SUMPQUINCE_WORKED_BYTES == 24, "the bytes of a record");

#define NAMED(part, at, length) {#part, at, length},
static const struct {
    const char *name;
    size_t at, length;
} parts[] = {PARTS(NAMED)};

typedef struct {
    uint32_t kind, verdicts_len, worked_len;
    Bytes piece;
    uint64_t totals[TOTALS], modes[SUMPQUINCE_MODES];
} Step;

/* What the reference tells of a call. */
typedef struct {
    SumpquinceRefusal answer;
    uint8_t link[LINK_BYTES];
    uint32_t place;
    Bytes verdicts, worked;
} Told;

static Lent memory, verdicts, worked;

/* The block is aligned for every type, and so is what lies a fence behind its start. */
static SumpquinceLink *the_link(void) { return (SumpquinceLink *)(void *)slice_of(&memory); }

/* ---- The stream ---- */

static Lent take_slice(const char *name) {
    Bytes bytes = take_bytes();
    Lent lent = lend(name, bytes.length);
    memcpy(slice_of(&lent), bytes.at, bytes.length);
    memcpy(wanted_of(&lent), bytes.at, bytes.length);
    free(bytes.at);
    return lent;
}

/* What the caller sets, in the lent memory and in what should be there alike. */
static void alter(void) {
    take(slice_of(&memory), LINK_BYTES);
    memcpy(wanted_of(&memory), slice_of(&memory), LINK_BYTES);
    take_writes(&verdicts, &worked);
}

static Step take_call(uint32_t kind) {
    Step step = {kind, 0, 0, {NULL, 0}, {0}, {0}};
    if (kind == OPEN) return step;
    step.verdicts_len = take_u32();
    step.worked_len = take_u32();
    if (step.verdicts_len > verdicts.length || step.worked_len > worked.length) stop("the stream is broken");
    if (kind == FEED) {
        step.piece = take_bytes();
    } else {
        take_numbers(step.totals, TOTALS);
        take_numbers(step.modes, SUMPQUINCE_MODES);
    }
    return step;
}

static Told take_told(void) {
    Told told = {take_answer(), {0}, 0, {NULL, 0}, {NULL, 0}};
    take(told.link, LINK_BYTES);
    told.place = take_u32();
    told.verdicts = take_bytes();
    told.worked = take_bytes();
    size_t from = (size_t)told.place * SUMPQUINCE_WORKED_BYTES;
    if (told.place + (size_t)told.verdicts.length > verdicts.length || from + told.worked.length > worked.length) stop("the stream is broken");
    return told;
}

/* ---- Memory ---- */

static void want(const Told *told) {
    memcpy(wanted_of(&memory), told->link, LINK_BYTES);
    memcpy(wanted_of(&verdicts) + told->place, told->verdicts.at, told->verdicts.length);
    memcpy(wanted_of(&worked) + (size_t)told->place * SUMPQUINCE_WORKED_BYTES, told->worked.at, told->worked.length);
}

static uint64_t number_at(const uint8_t *at, size_t length) {
    uint64_t number = 0;
    while (length-- > 0) number = number << 8 | at[length];
    return number;
}

/* The parts by their names first. One that is no number is told by its first wrong byte. */
static void hold_link(void) {
    const uint8_t *got = slice_of(&memory), *wanted = wanted_of(&memory);
    if (memcmp(got, wanted, LINK_BYTES) == 0) {
        hold_slice(&memory);
        return;
    }
    for (size_t i = 0; i < sizeof parts / sizeof *parts; i++) {
        size_t at = parts[i].at, length = parts[i].length, in = 0, width = length == 22 ? 2 : 1;
        char what[64];
        if (memcmp(got + at, wanted + at, length) == 0) continue;
        if (length <= 4) {
            snprintf(what, sizeof what, "the link's %s", parts[i].name);
            differ(what, number_at(got + at, length), number_at(wanted + at, length));
            continue;
        }
        while (memcmp(got + at + in, wanted + at + in, width) == 0) in += width;
        snprintf(what, sizeof what, "the link's %s[%u]", parts[i].name, (unsigned)(in / width));
        differ(what, number_at(got + at + in, width), number_at(wanted + at + in, width));
    }
}

static void hold_memory(void) {
    hold_link();
    hold_slice(&verdicts);
    hold_slice(&worked);
}

/* ---- Calls ---- */

/* What lies in memory behind a piece and is no part of it would end its line. */
static const uint8_t behind[] = {'\n', '\r', '\n', '\r', '\n'};

static SumpquinceRefusal call_feed(const Step *step) {
    run.function = "feed";
    size_t length = step->piece.length, all = length + sizeof behind;
    uint8_t *piece = allocate(all), *copy = allocate(all);
    memcpy(piece, step->piece.at, length);
    memcpy(piece + length, behind, sizeof behind);
    memcpy(copy, piece, all);
    SumpquinceRefusal answer =
        sumpquince_link_feed(the_link(), piece, length, slice_of(&verdicts), step->verdicts_len, slice_of(&worked), step->worked_len);
    hold("whether the piece itself was changed", memcmp(piece, copy, all) != 0, 0);
    free(piece);
    free(copy);
    return answer;
}

static SumpquinceRefusal call_close(const Step *step) {
    run.function = "close";
    SumpquinceJudgement judgement =
        sumpquince_link_close(the_link(), slice_of(&verdicts), step->verdicts_len, slice_of(&worked), step->worked_len);
    hold_judged(&judgement, step->totals, step->modes);
    return judgement.refusal;
}

static SumpquinceRefusal call_open(void) {
    const SumpquinceRefusal none = {0, 0, 0};
    run.function = "open";
    sumpquince_link_open(the_link());
    return none;
}

static void try_call(const Step *step, const Told *told) {
    SumpquinceRefusal answer = step->kind == OPEN ? call_open() : step->kind == FEED ? call_feed(step) : call_close(step);
    hold_refusal(answer, told->answer);
    want(told);
    hold_memory();
    run.calls++;
}

static void try_script(void) {
    unsigned long long before = run.differences;
    run.script = take_u32();
    run.tag = take_bytes();
    run.call = 0;
    memory = lend("link", LINK_BYTES);
    verdicts = take_slice("verdicts");
    worked = take_slice("worked bytes");
    for (uint32_t left = take_u32(); left > 0; left--) {
        uint32_t kind = take_u32();
        if (kind > CLOSE) stop("the stream is broken");
        if (kind == ALTER) {
            alter();
            continue;
        }
        Step step = take_call(kind);
        Told told = take_told();
        run.call++;
        if (run.differences == before) try_call(&step, &told);
        free(step.piece.at);
        free(told.verdicts.at);
        free(told.worked.at);
    }
    take_back(&memory);
    take_back(&verdicts);
    take_back(&worked);
    free(run.tag.at);
}

int main(void) {
    take_name("SQLINKS1");
    uint32_t scripts = take_u32();
    for (uint32_t left = scripts; left > 0; left--) try_script();
    take_end();
    printf("%u scripts of links, %llu calls, %llu differences\n", scripts, run.calls, run.differences);
    return run.differences == 0 ? 0 : 1;
}
