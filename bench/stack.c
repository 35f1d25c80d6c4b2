/* Tells how many bytes of stack each function of sumpquince.h takes on one log, on a session with its records, and on a link that it comes over.
 *
 *     stack LOG
 *
 * The function runs on a stack of its own, which is painted before: the byte that lies deepest and has another colour afterwards tells how deep the
 * function went. Its return address counts, and what is below it. Two colours are tried, since a byte may be overwritten by its own. */
#include "log.h"
#include "session.h"
#include "sumpquince.h"

#include <string.h>

enum { AREA = 1 << 18, CTOSC = 35 };

static _Alignas(16) uint8_t area[AREA];
static uint8_t answer[256];
static uint8_t written[LONGEST_LOG];
static uint8_t kinds[MOST_CHANGES];
static uint32_t lines[MOST_CHANGES];
static uint8_t worked[MOST_RECORDS * SUMPQUINCE_WORKED_BYTES];
static uint8_t struck[MOST_RECORDS];
static SumpquinceLink lent; /* the one that a function is lent */

/* The parameters of a function: what is in registers, and what is on the stack, as the 25 numbers of a session. By the calling convention of x86-64
 * Linux an answer of more than two words is written to where the first register points, and a struct of more than two is a parameter on the stack. A
 * function that has fewer parameters does not look at the rest. */
enum { REGISTERS = 6, STACKED = 25 };
typedef struct {
    size_t registers[REGISTERS];
    size_t stacked[STACKED];
} Parameters;

/* Where the function finds its parameters on the stack: at the top, a multiple of 16. Its return address goes below them. */
static size_t *const stacked = (size_t *)(void *)(area + AREA - 13 * 16);
_Static_assert(STACKED * sizeof(size_t) <= 13 * 16, "there is room for them");
_Static_assert(sizeof(SumpquinceSession) == STACKED * sizeof(size_t), "a session fills it");

static void call(const void *function, const Parameters *parameters) {
    size_t first = parameters->registers[0], second = parameters->registers[1], third = parameters->registers[2];
    size_t fourth = parameters->registers[3];
    register size_t fifth __asm__("r8") = parameters->registers[4];
    register size_t sixth __asm__("r9") = parameters->registers[5];
    __asm__ volatile("movq %%rsp, %%rbx\n\t"
                     "movq %[top], %%rsp\n\t"
                     "callq *%[function]\n\t"
                     "movq %%rbx, %%rsp"
                     : "+D"(first), "+S"(second), "+d"(third), "+c"(fourth), "+r"(fifth), "+r"(sixth)
                     : [top] "r"(stacked), [function] "r"(function)
                     : "rax", "rbx", "r10", "r11", "memory", "cc", "xmm0", "xmm1", "xmm2", "xmm3", "xmm4", "xmm5", "xmm6", "xmm7", "xmm8",
                       "xmm9", "xmm10", "xmm11", "xmm12", "xmm13", "xmm14", "xmm15");
}

static size_t depth(uint8_t colour, const void *function, const Parameters *parameters) {
    memset(area, colour, sizeof area);
    memcpy(stacked, parameters->stacked, sizeof parameters->stacked);
    call(function, parameters);
    const uint8_t *deepest = area;
    while (deepest < (const uint8_t *)stacked && *deepest == colour) deepest++;
    return (size_t)((const uint8_t *)stacked - deepest);
}

static void show(const char *name, const void *function, Parameters parameters) {
    size_t one = depth(0xA5, function, &parameters);
    size_t other = depth(0x5A, function, &parameters);
    printf("%s %llu\n", name, (unsigned long long)(one < other ? other : one));
}

/* Every second record is struck. */
static void show_log(size_t length) {
    const size_t to = (size_t)answer, log = (size_t)log_bytes;
    const Parameters none = {{to, log, length}, {0}}, keyword = {{to, log, length, CTOSC}, {0}};
    const Parameters verdict_slice = {{to, log, length, (size_t)verdicts, sizeof verdicts}, {0}};
    const Parameters output_slice = {{to, log, length, (size_t)written, sizeof written}, {0}};
    const Parameters two_slices = {{to, log, length, (size_t)struck, sizeof struck, (size_t)written}, {sizeof written}};
    const Parameters three_slices = {{to, log, length, (size_t)written, sizeof written, (size_t)kinds}, {MOST_CHANGES, (size_t)lines, MOST_CHANGES}};
    show("read", (const void *)sumpquince_read, none);
    show("view", (const void *)sumpquince_view, keyword);
    show("judge", (const void *)sumpquince_judge, verdict_slice);
    show("write", (const void *)sumpquince_write, output_slice);
    for (size_t i = 0; i < sizeof struck; i += 2) struck[i] = 1;
    show("strike", (const void *)sumpquince_strike, two_slices);
    show("mend", (const void *)sumpquince_mend, three_slices);
}

/* A function is called once for each colour. Where the session is full after the first call of `take`, the second is refused, and may go less deep:
 * the most is told. */
static void show_session(SumpquinceSession session, Line last) {
    const size_t at = (size_t)&session, of_verdicts = (size_t)verdicts, of_kept = (size_t)kept;
    const Parameters taking = {{at, (size_t)last.at, last.length, of_verdicts, sizeof verdicts, of_kept}, {sizeof kept}};
    const Parameters giving_back = {{at, of_verdicts, sizeof verdicts, of_kept, sizeof kept}, {0}};
    Parameters starting = {{at}, {0}}, totals = {{(size_t)answer}, {0}};
    memcpy(starting.stacked, &DECLARED, sizeof DECLARED);
    show("session_take", (const void *)sumpquince_session_take, taking);
    memcpy(totals.stacked, &session, sizeof session);
    show("session_totals", (const void *)sumpquince_session_totals, totals);
    show("session_give_back", (const void *)sumpquince_session_give_back, giving_back);
    show("session_start", (const void *)sumpquince_session_start, starting);
}

/* A call changes the link, so that it is lent as it was before for each colour. */
static void show_on(SumpquinceLink before, const char *name, const void *function, Parameters parameters) {
    lent = before;
    size_t one = depth(0xA5, function, &parameters);
    lent = before;
    size_t other = depth(0x5A, function, &parameters);
    printf("%s %llu\n", name, (unsigned long long)(one < other ? other : one));
}

static void show_feed(SumpquinceLink before, size_t start, size_t length) {
    const Parameters feeding = {{(size_t)&lent, (size_t)(log_bytes + start), length, (size_t)verdicts, sizeof verdicts, (size_t)worked},
                                {sizeof worked}};
    show_on(before, "link_feed", (const void *)sumpquince_link_feed, feeding);
}

/* The log comes whole, so that each line is read where it lies; and cut in two inside its last line, which is then finished where the link keeps it.
 * What the last call has left is closed. */
static void show_link(size_t length) {
    const Parameters opening = {{(size_t)&lent}, {0}};
    const Parameters closing = {{(size_t)answer, (size_t)&lent, (size_t)verdicts, sizeof verdicts, (size_t)worked, sizeof worked}, {0}};
    const size_t cut = length < 8 ? 0 : length - 8;
    SumpquinceLink link;
    sumpquince_link_open(&link);
    show_on(link, "link_open", (const void *)sumpquince_link_open, opening);
    show_feed(link, 0, length);
    sumpquince_link_feed(&link, log_bytes, cut, verdicts, sizeof verdicts, worked, sizeof worked);
    show_feed(link, cut, length - cut);
    show_on(lent, "link_close", (const void *)sumpquince_link_close, closing);
}

int main(int count, char **words) {
    if (count != 2) {
        fputs("usage: stack LOG\n", stderr);
        return 2;
    }
    SumpquinceSession session;
    Line last;
    size_t length = load(words[1]);
    show_log(length);
    show_link(length);
    if (session_without_last(length, &session, &last)) show_session(session, last);
    return 0;
}
