/* What the programs that play scripts of calls share: where a script is, how a difference is told, and memory to lend. Whoever includes this has
 * named itself in PROGRAM. */
#include "stream.h"

/* Memory to lend, with fences around it that no function may touch, and what should be in it and in them. */
typedef struct {
    const char *name;
    size_t length;
    uint8_t *block, *wanted;
} Lent;

static struct {
    uint32_t script, call;
    Bytes tag;
    const char *function;
    unsigned long long calls, differences;
} run;

/* ---- Differences ---- */

static inline void differ(const char *what, uint64_t got, uint64_t wanted) {
    run.differences++;
    if (run.differences > MOST_LINES) return;
    printf("script %u (%.*s), call %u, %s: %s is %llu and should be %llu\n", run.script, (int)run.tag.length, (const char *)run.tag.at, run.call,
           run.function, what, (unsigned long long)got, (unsigned long long)wanted);
}

static inline void hold(const char *what, uint64_t got, uint64_t wanted) {
    if (got != wanted) differ(what, got, wanted);
}

static inline void hold_refusal(SumpquinceRefusal got, SumpquinceRefusal wanted) {
    hold("the refusal's number", got.number, wanted.number);
    hold("the refusal's line", got.line, wanted.line);
    hold("the refusal's field", got.field, wanted.field);
}

static inline void hold_judged(const SumpquinceJudgement *judgement, const uint64_t *totals, const uint64_t *modes) {
    uint64_t got[TOTALS];
    char what[64];
    list_totals(judgement, got);
    for (int i = 0; i < TOTALS; i++) {
        snprintf(what, sizeof what, "the totals' %s", total_names[i]);
        hold(what, got[i], totals[i]);
    }
    for (int i = 0; i < SUMPQUINCE_MODES; i++) {
        snprintf(what, sizeof what, "the totals' modes[%d]", i);
        hold(what, judgement->modes[i], modes[i]);
    }
}

/* ---- Lent memory ---- */

static inline Lent lend(const char *name, size_t length) {
    size_t all = length + 2 * FENCE;
    Lent lent = {name, length, allocate(all), allocate(all)};
    for (size_t i = 0; i < all; i++) lent.block[i] = lent.wanted[i] = filling(i - FENCE); /* that of 0 is the first behind a fence */
    return lent;
}

static inline void take_back(Lent *lent) {
    free(lent->block);
    free(lent->wanted);
}

static inline uint8_t *slice_of(const Lent *lent) { return lent->block + FENCE; }
static inline uint8_t *wanted_of(const Lent *lent) { return lent->wanted + FENCE; }

/* Holds memory to what should be in it and around it. One line tells of the first wrong byte: the others mostly follow from it. */
static inline void hold_slice(const Lent *lent) {
    size_t all = lent->length + 2 * FENCE, i = 0;
    if (memcmp(lent->block, lent->wanted, all) == 0) return;
    while (lent->block[i] == lent->wanted[i]) i++;
    char what[64];
    if (i >= FENCE && i - FENCE < lent->length) {
        snprintf(what, sizeof what, "byte %llu of the %s", (unsigned long long)(i - FENCE), lent->name);
    } else {
        snprintf(what, sizeof what, "a byte %s the %s", i < FENCE ? "before" : "after", lent->name);
    }
    differ(what, lent->block[i], lent->wanted[i]);
}

/* ---- The stream ---- */

static inline void take_numbers(uint64_t *numbers, int count) {
    for (int i = 0; i < count; i++) numbers[i] = take_u64();
}

/* What the caller sets in the first or the second slice, in the lent memory and in what should be there alike. */
static inline void take_writes(const Lent *first, const Lent *second) {
    for (uint32_t left = take_u32(); left > 0; left--) {
        const Lent *slice = take_u32() == 0 ? first : second;
        uint32_t place = take_u32();
        Bytes bytes = take_bytes();
        if (place > slice->length || bytes.length > slice->length - place) stop("the stream is broken");
        memcpy(slice_of(slice) + place, bytes.at, bytes.length);
        memcpy(wanted_of(slice) + place, bytes.at, bytes.length);
        free(bytes.at);
    }
}
