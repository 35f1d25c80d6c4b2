/* What the programs that hold the library to the reference share: how its streams are read (tests/reference/src/main.rs says how they are laid out),
 * and what lent memory is filled with. Whoever includes this has named itself in PROGRAM. */
#include "sumpquince.h"

#include <stdbool.h>
#include <stdio.h>
#include <stdlib.h>
#include <string.h>

enum { MOST_LINES = 20, FENCE = 64, TOTALS = 12 };

/* No part of a stream is longer: a larger length means that the stream is broken, and asking for so much memory would hide that. */
#define LONGEST_PART (1u << 26)

typedef struct {
    uint8_t *at;
    uint32_t length;
} Bytes;

static inline _Noreturn void stop(const char *why) {
    fprintf(stderr, "%s: %s\n", PROGRAM, why);
    exit(2);
}

static inline void *allocate(size_t size) {
    void *block = malloc(size == 0 ? 1 : size);
    if (block == NULL) stop("out of memory");
    return block;
}

static inline void take(void *to, size_t length) {
    if (fread(to, 1, length, stdin) != length) stop("the stream ends too soon");
}

static inline uint32_t take_u32(void) {
    uint8_t b[4];
    take(b, sizeof b);
    return (uint32_t)b[0] | (uint32_t)b[1] << 8 | (uint32_t)b[2] << 16 | (uint32_t)b[3] << 24;
}

static inline uint64_t take_u64(void) {
    uint64_t low = take_u32();
    return low | (uint64_t)take_u32() << 32;
}

static inline Bytes take_bytes(void) {
    Bytes bytes;
    bytes.length = take_u32();
    if (bytes.length > LONGEST_PART) stop("the stream is broken");
    bytes.at = allocate(bytes.length);
    take(bytes.at, bytes.length);
    return bytes;
}

static inline SumpquinceRefusal take_answer(void) {
    SumpquinceRefusal refusal;
    refusal.number = take_u32();
    refusal.line = take_u32();
    refusal.field = take_u32();
    return refusal;
}

/* The name that a stream begins with, and the seed, which whoever asked for the stream knows. */
static inline void take_name(const char *wanted) {
    uint8_t name[8];
    take(name, sizeof name);
    if (memcmp(name, wanted, sizeof name) != 0) stop("standard input is another stream");
    take_u64();
}

static inline void take_end(void) {
    uint8_t more;
    if (fread(&more, 1, 1, stdin) != 0) stop("the stream goes on after its end");
}

/* What lent memory is filled with. It changes from byte to byte, so that bytes moved within the slice are noticed too. */
static inline uint8_t filling(size_t i) { return (uint8_t)(0xA5 ^ (i * 29)); }

static const char *const total_names[TOTALS] = {"credited", "voids", "duplicates", "errors", "points", "squares", "exchanges", "countries",
                                                "square_bonus", "exchange_bonus", "country_bonus", "total"};

static inline void list_totals(const SumpquinceJudgement *judgement, uint64_t *totals) {
    const uint64_t list[TOTALS] = {judgement->credited,     judgement->voids,          judgement->duplicates,    judgement->errors,
                                   judgement->points,       judgement->squares,        judgement->exchanges,     judgement->countries,
                                   judgement->square_bonus, judgement->exchange_bonus, judgement->country_bonus, judgement->total};
    memcpy(totals, list, sizeof list);
}
