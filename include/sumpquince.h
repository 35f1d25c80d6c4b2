/* Sumpquince: a reader, judge, writer, striker and mender of REG1TEST version 1 contest logs, a session that judges records as they come, and a link
 * that judges a log whose bytes come in pieces.
 *
 * A log is a run of bytes: the line "[REG1TEST;1]", 36 keyword lines, "[Remarks]", any remark lines, "[QSORecords;N]" and N records, each line
 * ended by CR LF. Six functions take such a log where it lies in memory:
 *
 *     sumpquince_read    does it follow the format, and how many records has it?
 *     sumpquince_view    where in the log does the argument of one keyword lie?
 *     sumpquince_judge   a verdict for each record, and the totals
 *     sumpquince_write   the log again, with the right claims and marks in it, and each keyword in the listed spelling
 *     sumpquince_strike  the log without the records that are struck, and with the right count
 *     sumpquince_mend    a log that was spoilt on its way, with its line ends and its count put right, and a list of what was done
 *
 * Four others keep the classes and the totals of records that come one by one, with no log around them:
 *
 *     sumpquince_session_start       begins anew, with the bonuses and multipliers
 *     sumpquince_session_take        takes one record more
 *     sumpquince_session_give_back   drops the last record
 *     sumpquince_session_totals      the totals of the records now present
 *
 * Three more judge a log that comes in pieces, as over a packet link, wherever it is cut, so that it need not lie in memory as a whole:
 *
 *     sumpquince_link_open    begins anew, with no byte
 *     sumpquince_link_feed    takes the bytes that come next, and judges the records that they finish
 *     sumpquince_link_close   no more bytes come: the totals
 *
 * Each either accepts or refuses, but for sumpquince_link_open, which has nothing to refuse. A refusal says why by a number, a line and a field; all
 * other numbers of the answer are then 0, and no byte of the memory that was lent for results has been changed; a session that refuses keeps its
 * totals. A link is different in this: it keeps its refusal, to tell it in each further call, and what it wrote of the records in front of the
 * refusal stays. Every input gets an answer: there is nothing to check before a call, but for what stands under "Pointers".
 *
 * Keywords: a keyword is read with each of its letters in either case, so that "SAnth" and "santh" are both SAntH. Its listed spelling is the one in
 * the list at sumpquince_view. All else stands as it is given here, letter for letter.
 *
 * Sizes: a log has at most 65,535 bytes and at most 999 records, and a log that is written, struck from or mended has at most 65,535 bytes. A longer
 * log may be handed over; it is refused with number 1, over a link by its 65,536th byte, unless a byte before that is refused. A session has at most
 * 999 records: the 1,000th is refused with number 11.
 *
 * Pointers: a pointer must be valid for its length. Where the length is 0 it may be NULL, since nothing is then read or written through it. Bytes
 * need no alignment; `lines` of sumpquince_mend and a link are aligned as uint32_t is, and a session as uint64_t is. The log, a piece of one, a
 * record's line, a session, a link and the slices that are lent must not overlap. The functions read the `log_len` bytes at `log` and no others, or
 * the `line_len` bytes at `line`, or the `bytes_len` bytes at `bytes`, and of the `struck_len` bytes at `struck` one for each record, never write
 * to any of them, and write nowhere but in the session, the link and the lent slices. `session` and `link` are never NULL.
 *
 * State: the functions allocate nothing, keep nothing between calls, and have no variables outside the stack. So they may be called from several
 * threads at once and from a signal handler, as long as no slice, no session and no link that one of them writes is used by another call or thread at
 * the time. What a session or a link knows is in the caller's memory alone: in its struct and in the two slices that go with it.
 *
 * The library, crates/pad/out/libpad.a, is built in crates/pad by `rt lib --cpu=x86-64`. It is for x86-64 and the calling convention of System V
 * (Linux), uses no instruction beyond those that every x86-64 processor has, and may be loaded at any address. Of C it needs
 *
 *     memcpy, memset
 *
 * and nothing else: no other function, no start-up code, no file, no clock.
 *
 * Bytes of flash and of stack, as `bench/sizes` measures them of the library as rattle-kit-13f builds it. Flash is the code and the constants that a
 * program takes which calls this function alone; functions share much of it. Stack was measured on logs of 26 and of 999 records, on sessions of
 * them, and on links that they came over:
 *
 *                                     flash     stack
 *     sumpquince_read                11,802       504
 *     sumpquince_view                12,319       536
 *     sumpquince_judge               17,237    17,192
 *     sumpquince_write               21,607    18,632
 *     sumpquince_strike              13,639     2,648
 *     sumpquince_mend                16,248       760
 *     sumpquince_session_start          359       232
 *     sumpquince_session_take         8,103     1,080
 *     sumpquince_session_give_back    2,216       456
 *     sumpquince_session_totals         881       232
 *     sumpquince_link_open               49         8
 *     sumpquince_link_feed           20,820     2,488
 *     sumpquince_link_close           2,301       472
 *     all thirteen                   47,071
 *
 * No bound of the stack is proved. None of the functions calls itself, so what is measured does not grow with the log.
 */
#ifndef SUMPQUINCE_H
#define SUMPQUINCE_H

#include <stddef.h>
#include <stdint.h>

#ifdef __cplusplus
extern "C" {
#endif

/* Whether the input was accepted, and if not, why not.
 *
 *     number   meaning                                                                       line                          field
 *     0        accepted                                                                      0                             0
 *     1        the log is longer than 65,535 bytes                                           0                             0
 *     2        the line has no CR LF after at most 75 characters of code 32 to 127           that line                     0
 *     3        the line is not the one due: not the identifier "[REG1TEST;1]", not the
 *              keyword due, in either letter case, with its "=", or not "[Remarks]"          that line                     0
 *     4        the argument of the keyword breaks its rule, or the number and "]" of the
 *              line "[QSORecords;N]" do (N is 0 to 999)                                      that line                     0
 *     5        the record breaks a rule                                                      the record's line             0 to 15
 *     6        the log ends where a record is due                                            the line that is missing      0
 *     6        the log goes on after the last record                                         the first line too many       0
 *     7        judging: the verdict slice is shorter than the number of records
 *              striking: the slice of what is struck is shorter than that                    0                             0
 *     8        writing: the result exceeds 65,535 bytes, or the output slice
 *              striking, mending: the result exceeds the output slice                        0                             0
 *     9        viewing: the keyword number is not 1 to 36                                    0                             0
 *     10       mending: one of the two list slices is shorter than the list                  0                             0
 *     4        starting a session: a bonus is not 0 to 9,999, or a multiplier not 1 to 99     0                             0
 *     5        taking a record into a session: it breaks a rule                              0                             0 to 15
 *     11       taking a record: the session is full                                          0                             0
 *     12       giving a record back: there is none                                           0                             0
 *     1        over a link: the 65,536th byte came                                           0                             0
 *     7        over a link: N is announced, and the slice for verdicts is shorter than N or
 *              the other one shorter than 24 * N                                             0                             0
 *     13       over a link: it was closed, and the log accepted; or no opening made it       0                             0
 *
 * Lines are counted from 1, the identifier's. In 5 the field is the first of the record that breaks its rule: 1 date, 2 time, 3 call, 4 mode, 5 sent
 * report, 6 sent number, 7 received report, 8 received number, 9 received exchange, 10 received locator, 11 points, 12 new exchange, 13 new square,
 * 14 new country, 15 duplicate; or 0 where the record has not exactly 14 semicolons. README.md has the rule of each field in words.
 *
 * The first thing wrong is the one reported: 9, then 1, then the lines from the first to the last, and 7, 10 or 8 only of a log that follows the
 * format, 7 and 10 before 8. Of an empty log that is number 2 in line 1. In mending, 2 to 6 are about the mended log, whose lines are those of the
 * log that was handed over, and 1 is about either of the two. A session knows no lines, and tells 5 before 11.
 *
 * Over a link lines are counted from the first byte that comes. A call tells the refusal that the link keeps, if there is one; then 13, where no
 * opening made it; then 7, where N was announced before; and only then are its bytes taken, one after the other, up to the first that is refused. So
 * 1 comes only where none of the 65,535 bytes before is refused, and 7 before anything behind the line "[QSORecords;N]" is looked at. */
typedef struct {
    uint32_t number; /* 0 for accepted, or 1 to 13 */
    uint32_t line;   /* as in the table above */
    uint32_t field;  /* as in the table above */
} SumpquinceRefusal; /* 12 bytes */

/* The answer of sumpquince_read. */
typedef struct {
    SumpquinceRefusal refusal;
    /* The number of records, 0 to 999: the length that sumpquince_judge needs for its verdicts. 0 on refusal. */
    uint64_t records;
    /* How many of the 36 keywords stand in another spelling than the listed one, 0 to 36. 0 on refusal. */
    uint64_t respelt;
} SumpquinceReading; /* 32 bytes */

/* The answer of sumpquince_view: the argument is the `length` bytes from log[start] on. */
typedef struct {
    SumpquinceRefusal refusal;
    /* The index in the log of the first byte after the keyword's "=". 0 on refusal. */
    uint64_t start;
    /* How many bytes the argument has, up to its line's CR and without it; 0 for an empty argument, and on refusal. Where a keyword has several
     * arguments, they and the semicolons between them are all in the view. */
    uint64_t length;
    /* 1 where the keyword stands in the listed spelling, 0 where it stands in another, which is then the 5 bytes from log[start - 6] on. 0 on refusal
     * too. */
    uint64_t listed;
} SumpquinceView; /* 40 bytes */

/* A record has one of ten mode codes, or a blank in the place of it. In the format's list of codes 2 is Morse both ways, and 3 and 4 are Morse one
 * way and SSB the other. */
#define SUMPQUINCE_MODES 11
#define SUMPQUINCE_BLANK_MODE 10 /* behind the codes 0 to 9 */

/* The answer of sumpquince_judge, of sumpquince_session_totals and of sumpquince_link_close. Every number is 0 on refusal. */
typedef struct {
    SumpquinceRefusal refusal;
    /* How many records are of each class: they add up to the number of records. */
    uint64_t credited;   /* contacts that count */
    uint64_t voids;      /* records with 0 points that are neither duplicates nor errors, as a second try that broke off, with no D */
    uint64_t duplicates; /* records with points or a claimed D, and with a call that an earlier credited record has */
    uint64_t errors;     /* records whose call is ERROR */
    /* The sum of the points of the credited records. They include the band multiplier already. */
    uint64_t points;
    /* Of the credited records: */
    uint64_t squares;   /* how many different first four characters their locators have */
    uint64_t exchanges; /* how many different exchanges they have, empty ones left out */
    uint64_t countries; /* how many of them claim a new country (New-DXCC) */
    /* Each of these three numbers times the bonus that the log, or the start of the session, declares for it. */
    uint64_t square_bonus;
    uint64_t exchange_bonus;
    uint64_t country_bonus;
    /* The points and the three bonuses, times the multipliers that CWWLs, CExcs and CDXCs, or the start of the session, declare. At most
     * 998,404,684,715,196. */
    uint64_t total;
    /* How many credited records have each mode: modes[0] to modes[9] those with the code 0 to 9, modes[SUMPQUINCE_BLANK_MODE] those where it is left
     * blank. They add up to `credited`. */
    uint64_t modes[SUMPQUINCE_MODES];
} SumpquinceJudgement; /* 200 bytes */

/* The answer of sumpquince_write and of sumpquince_strike. */
typedef struct {
    SumpquinceRefusal refusal;
    /* How many bytes were written, from out[0] on. 0 on refusal. */
    uint64_t length;
} SumpquinceWritten; /* 24 bytes */

/* The answer of sumpquince_mend. */
typedef struct {
    SumpquinceRefusal refusal;
    /* How many bytes the mended log has, from out[0] on. 0 on refusal. */
    uint64_t length;
    /* How many entries the list has, from kinds[0] and lines[0] on: 0 where the log was accepted as it is. 0 on refusal too. */
    uint64_t changes;
} SumpquinceMended; /* 32 bytes */

/* What a session is started with: what CWWLs, CExcs and CDXCs declare in a log. */
typedef struct {
    uint32_t square_bonus;        /* 0 to 9,999 */
    uint32_t square_multiplier;   /* 1 to 99 */
    uint32_t exchange_bonus;      /* 0 to 9,999 */
    uint32_t exchange_multiplier; /* 1 to 99 */
    uint32_t country_bonus;       /* 0 to 9,999 */
    uint32_t country_multiplier;  /* 1 to 99 */
} SumpquinceDeclared; /* 24 bytes */

/* A session: what it was started with, and the counts of the records now present. It is numbers alone, with no pointer and no padding, so it may be
 * copied, compared and stored as it is; a copy is worth something together with copies of the two slices. The caller declares one, starts it, and
 * leaves its numbers alone: only reading them is of use. There is nothing to end.
 *
 * Whatever bytes are in it, each call answers. A session that no run of calls can have made is one where a bonus is over 9,999, a multiplier is 0 or
 * over 99, the four classes have more than 999 records together, the points are fewer than the credited records or more than 999,999 for each of
 * them, the squares, exchanges or countries are more than the credited records, the modes do not add up to them, or there are duplicates and no
 * credited record. Such a session, as one of zeros that was never started, takes no record (11), gives none back (12) and has zero totals;
 * starting it makes it a good one. */
typedef struct {
    /* As declared at the start: each bonus is that of one, and not, as in a judgement, of all of them. */
    uint64_t square_bonus, square_multiplier, exchange_bonus, exchange_multiplier, country_bonus, country_multiplier;
    /* As in a judgement. The four classes add up to the number of records, 0 to 999. */
    uint64_t credited, voids, duplicates, errors, points, squares, exchanges, countries;
    uint64_t modes[SUMPQUINCE_MODES];
} SumpquinceSession; /* 200 bytes */

/* How many bytes of the slice `kept` go with each record of a session. */
#define SUMPQUINCE_KEPT_BYTES 28

/* A link: what has come of a log, in numbers, and the characters of the line that is not finished. It has no pointer and no padding, so it may be
 * copied, compared and stored as it is; a copy is worth something together with copies of the two slices. The caller declares one, opens it, and
 * leaves what is in it alone: only reading it is of use. A link whose bytes are all 0 is an opened one. There is nothing to end: a link that is not
 * wanted any more need not be closed.
 *
 * Where the slices suffice, the same bytes make the same link, however they were cut. Once it has refused, it has the refusal, and all else in it is
 * 0; so it is after a closing that accepted, where the refusal is 13 0 0.
 *
 * Whatever bytes are in it, each call answers. Where the number of its refusal is 0, and `count` is over 65,535, `lines` over `count` or `held` over
 * 75, no opening made the link: feeding or closing it is refused with 13, which it then keeps. Every other link is taken as it stands, even where no
 * run of calls can have made it:
 *
 *     its refusal is told by feeding as it stands, line and field too, and where the number is not 0 by both calls, with no change to anything
 *     a stage over 39 stands for 39, and a `returned` that is not 0 for 1
 *     a character outside 32 to 127 makes its field of a record a bad one (5), and breaks the rule of an argument that has one (4)
 *     a count of 16 bits goes on from 0 behind 65,535, and the points do behind 4,294,967,295
 *     characters or a CR where nothing more is due are refused by the closing (6)
 *     a closing that accepts has zero totals where a session with these numbers is one that no run of calls can have made */
typedef struct {
    SumpquinceRefusal refusal; /* the one that is kept; its number is 0 as long as there is none */
    uint32_t count;            /* how many bytes have come, 0 to 65,535 */
    uint32_t lines;            /* how many lines are finished */
    /* Of the records taken so far, as in a judgement. */
    uint32_t points;
    uint16_t credited, voids, duplicates, errors, squares, exchanges, countries;
    uint16_t modes[SUMPQUINCE_MODES];
    /* What CWWLs, CExcs and CDXCs declare, each pair 0 until its line is finished. As in a session, each bonus is that of one. */
    uint16_t square_bonus, square_multiplier, exchange_bonus, exchange_multiplier, country_bonus, country_multiplier;
    uint16_t records; /* N, 0 until the line "[QSORecords;N]" is finished */
    uint16_t done;    /* how many records were taken */
    /* Which line is due: 0 the identifier, 1 to 36 the keyword of that number, 37 "[Remarks]", 38 a remark or "[QSORecords;N]", 39 a record as long
     * as `done` is less than `records`, and then none. */
    uint16_t stage;
    uint16_t held;    /* how many characters have come of the line that is not finished, 0 to 75 */
    uint8_t returned; /* 1 where its CR has come too, else 0 */
    uint8_t line[75]; /* these characters, and zero bytes behind them */
} SumpquinceLink; /* 156 bytes */

/* How many bytes of the slice `worked` go with each record of a link. */
#define SUMPQUINCE_WORKED_BYTES 24

/* A verdict is one byte: one of the four classes, and on a credited record the marks that it earns, added. So 96 is a credited record with a new
 * square and a new country. (verdict & SUMPQUINCE_CLASS) is the class. */
#define SUMPQUINCE_CREDITED 0
#define SUMPQUINCE_VOID 1
#define SUMPQUINCE_DUPLICATE 2
#define SUMPQUINCE_ERROR 3
#define SUMPQUINCE_CLASS 15
#define SUMPQUINCE_NEW_EXCHANGE 16
#define SUMPQUINCE_NEW_SQUARE 32
#define SUMPQUINCE_NEW_COUNTRY 64

/* What sumpquince_mend did to a line. */
#define SUMPQUINCE_RETURN_PUT 1      /* CR was put before its LF */
#define SUMPQUINCE_LAST_LINE_ENDED 2 /* it is the last line, and got the LF or CR LF that it lacked */
#define SUMPQUINCE_SPACES_DROPPED 3  /* it is a record, and lost the spaces at its end */
#define SUMPQUINCE_COUNT_SET 4       /* it is the line "[QSORecords;N]", and N was not the number of lines behind it */

/* Reads the log of `log_len` bytes at `log`, and says whether it follows the format, how many records it has, and how many of its keywords are not
 * in the listed spelling. Claims need not be true. Refusals: 1 to 6. */
SumpquinceReading sumpquince_read(const uint8_t *log, size_t log_len);

/* Says where in the log the argument of a keyword lies, and whether the keyword is in the listed spelling. `keyword` is 1 to 36, in the order in
 * which the keyword lines stand, and this is the listed spelling of each:
 *
 *     1 TName   2 TDate   3 PCall   4 PWWLo   5 PExch   6 PAdr1   7 PAdr2   8 PSect   9 PBand  10 PClub  11 RName  12 RCall
 *    13 RAdr1  14 RAdr2  15 RPoCo  16 RCity  17 RCoun  18 RPhon  19 RHBBS  20 MOpe1  21 MOpe2  22 STXEq  23 SPowe  24 SRXEq
 *    25 SAnte  26 SAntH  27 CQSOs  28 CQSOP  29 CWWLs  30 CWWLB  31 CExcs  32 CExcB  33 CDXCs  34 CDXCB  35 CToSc  36 CODXC
 *
 * The whole log is read first, and a view is given only of a log that follows the format. Refusals: 9, then 1 to 6. */
SumpquinceView sumpquince_view(const uint8_t *log, size_t log_len, size_t keyword);

/* Judges the log. How its keywords are spelt makes no difference. On acceptance the verdict of record i, counted from 0, is in verdicts[i], and the
 * bytes of the slice behind the last verdict are as they were. `verdicts_len` is the length of the slice at `verdicts`: 999 is enough for every log.
 * Refusals: 1 to 6, then 7; no byte of the slice is then changed. */
SumpquinceJudgement sumpquince_judge(const uint8_t *log, size_t log_len, uint8_t *verdicts, size_t verdicts_len);

/* Writes the log back with the right claims. Every byte is copied but these: each keyword is put in the listed spelling; the counts in CQSOs, CWWLs,
 * CExcs and CDXCs, and CQSOP, CWWLB, CExcB, CDXCB and CToSc, become the recomputed ones; in each record New-Exchange and New-WWL become the marks as
 * judged, New-DXCC is kept on credited records and emptied elsewhere, the last field is D exactly on duplicates, and the points of a duplicate become
 * 0. So the result can be longer than the log, though no spelling makes it so.
 *
 * `out_len` is the length of the slice at `out`: 65,535 is enough for every log that can be written. The bytes of the slice behind the result are
 * as they were. Refusals: 1 to 6, then 8; no byte of the slice is then changed. */
SumpquinceWritten sumpquince_write(const uint8_t *log, size_t log_len, uint8_t *out, size_t out_len);

/* Strikes records from the log: writes it without them, and with the number of those that are left in the line "[QSORecords;N]". Record i, counted
 * from 0, is struck where struck[i] is not 0, and kept where it is 0. Every other byte is copied: the claims, points and marks stay as they are
 * claimed, and the keywords as they are spelt. sumpquince_write puts the claims right, before striking or after it. Which comes first matters:
 * writing takes the points from the duplicates, and without points none of them becomes credited.
 *
 * The result is a log that is accepted, and no longer than the one that was handed over. Judged, a credited record that was kept is credited still,
 * and a duplicate that was kept is credited exactly when it claims points and each earlier record of its call that claims points was struck. So the
 * total can rise, as a duplicate may have a square of its own. Where no duplicate of the log claims points, as in one that was written back, nothing
 * becomes credited, the total does not rise, and it falls by no more than the points of the struck credited records and one bonus of each of the
 * three kinds for each of them, times the declared multipliers.
 *
 * `struck_len` is the length of the slice at `struck`: what it has behind the last record's byte is not looked at, and 999 bytes are enough for every
 * log. `out_len` is the length of the slice at `out`: `log_len` is always enough. The bytes of the slice behind the result are as they were.
 * Refusals: 1 to 6, then 7, then 8; no byte of the slice is then changed. */
SumpquinceWritten sumpquince_strike(const uint8_t *log, size_t log_len, const uint8_t *struck, size_t struck_len, uint8_t *out, size_t out_len);

/* Mends a log whose line ends, spaces or count of records were spoilt on its way, as by a mail program, and lists what it did. A line here goes up to
 * its LF, and the last one up to the end of the log. These things are done, in this order, and nothing else:
 *
 *     1   an LF that has no CR right before it gets one
 *     2   a last line that has no LF gets it, and CR before it unless its last byte is CR
 *     3   a record line, which is any line behind the line "[QSORecords;N]", loses the spaces at its end
 *     4   where that line is "[QSORecords;", one or more digits, and "]", the digits become the number of lines behind it, with no zero in front
 *
 * 3 and 4 are done only where there is a line "[Remarks]", and the line "[QSORecords;N]" is then the first behind it that begins so. What comes of it
 * is handed over only if sumpquince_read accepts it. A log that is accepted as it is comes out unchanged, with an empty list.
 *
 * On acceptance the mended log is at `out`. The kind of entry i of the list, counted from 0, is kinds[i], one of the four, and its line is lines[i],
 * counted from 1. A line has one entry for each thing that changed it. Entries are in the order of the lines, and of one line in the order of the
 * kinds. What the three slices have behind all this is as it was.
 *
 * `out_len`, `kinds_len` and `lines_len` are the lengths of the slices, that of `lines` in numbers, not in bytes. 65,535 for `out` and 32,767 for
 * each of the other two are enough for every log: of an accepted log only a remark line can be empty, it has one entry at most, and every other line
 * two; so no line has more entries than half the bytes that it has with its CR LF. A log with r remark lines and n records has at most 40 + r + 2 n
 * entries.
 *
 * Refusals: 1 for the log as it is handed over; 1 to 6 for the mended one; then 10, then 8. Nothing in the three slices is then changed. */
SumpquinceMended sumpquince_mend(const uint8_t *log, size_t log_len, uint8_t *out, size_t out_len, uint8_t *kinds, size_t kinds_len,
                                 uint32_t *lines, size_t lines_len);

/* Starts a session anew: it has no records, whatever it held before, and the bonuses and multipliers that are declared. Refusals: 4 where one is out
 * of its range; no byte of the session is then changed. */
SumpquinceRefusal sumpquince_session_start(SumpquinceSession *session, SumpquinceDeclared declared);

/* Takes one record more. `line` is a record's line as a log has it, without its CR LF, and is judged as the next record of a log that has the records
 * taken before it.
 *
 * With n records present before, verdicts[n] becomes the record's verdict, and the 28 bytes from kept[28 * n] on become what is kept of it: of a
 * credited record its call in 14 bytes, its square, which is the first four characters of its locator, in 4, and its exchange in 6, each filled up
 * with zero bytes behind; its points in 3, the least significant first; and its mode in 1, the digit as a character, or 0 where it is blank. Of any
 * other record zero bytes are kept. No other byte of the two slices is changed. What they have of the records before is read, so the caller lends the
 * same two slices to each call and leaves what is in them alone. They need not be cleared before the first record.
 *
 * `verdicts_len` and `kept_len` are the lengths of the slices in bytes: 999 and 27,972 are enough for every session.
 *
 * Refusals: 5 where the line breaks a rule of a record, with the field 0 where it has not exactly 14 semicolons, as an empty line, and else the first
 * bad field, 1 to 15. A byte outside 32 to 127 makes its field a bad one, and of more than 75 characters some field has too many. Then 11 where the
 * session has 999 records, or one of the slices has no place for one more, or no run of calls can have made the session. No byte of the session and
 * of the two slices is then changed. */
SumpquinceRefusal sumpquince_session_take(SumpquinceSession *session, const uint8_t *line, size_t line_len, uint8_t *verdicts, size_t verdicts_len,
                                          uint8_t *kept, size_t kept_len);

/* Drops the record that was taken last: the session is as it was before, and its place is free. The two slices are those that were lent to take it;
 * they are read and not changed, so what they have behind the records now present means nothing.
 *
 * Refusals: 12 where the session has no records, or one of the slices is shorter than its records take, or no run of calls can have made the session,
 * or what the slices have of the last record cannot be taken off its numbers, as after another session's records. No byte of the session is then
 * changed. */
SumpquinceRefusal sumpquince_session_give_back(SumpquinceSession *session, const uint8_t *verdicts, size_t verdicts_len, const uint8_t *kept,
                                               size_t kept_len);

/* The totals of the records now present, as sumpquince_judge tells them of a log with these records and these declared numbers. The refusal is
 * always 0 0 0; of a session that no run of calls can have made every number is 0. */
SumpquinceJudgement sumpquince_session_totals(SumpquinceSession session);

/* Opens a link: no byte has come, whatever it held before. All its bytes become 0. */
void sumpquince_link_open(SumpquinceLink *link);

/* Takes the `bytes_len` bytes at `bytes`, those of the log that come next. They may end anywhere, also between CR and LF, and there may be none. The
 * answer is the refusal that the link then has, 0 0 0 as long as nothing is refused; that does not yet say that the line which is coming will do.
 *
 * Where record i, counted from 0, is finished by its LF and breaks no rule, verdicts[i] becomes its verdict, and the 24 bytes from worked[24 * i] on
 * become what is worked with it: of a credited record its call in 14 bytes, its square, which is the first four characters of its locator, in 4, and
 * its exchange in 6, each filled up with zero bytes behind; of any other record zero bytes. No call changes any other byte of the two slices. What
 * `worked` has of the records before is read, so the caller lends the same two slices to each call and leaves what is in them alone. They need not
 * be cleared before the first record.
 *
 * `verdicts_len` and `worked_len` are the lengths of the slices in bytes: 999 and 23,976 are enough for every log. Before the LF of the line
 * "[QSORecords;N]" they may be of any length. At that LF and in each call behind it, also one without bytes, at least N and 24 * N are asked for.
 *
 * Refusals, before any byte is taken: the one that the link keeps, with no change to anything; 13 where no opening made it; 7 where N was announced
 * in a call before, and a slice is too short for it. Then the bytes are taken, and the first one that is refused is the last one that is looked at,
 * each by the first of these that is true of it:
 *
 *     1         it is the 65,536th
 *     6         it comes behind the last record
 *     2         no CR has come in its line, and it is neither CR nor one of 75 characters of code 32 to 127; or CR has, and it is not LF
 *     3, 4, 5   it is the LF of a line that breaks its rule
 *     7         it is the LF of the line "[QSORecords;N]", and a slice is too short for N
 *
 * The link then keeps the refusal, and all else in it is 0. What the slices have of the records that were taken before stays, also of those that this
 * call took. */
SumpquinceRefusal sumpquince_link_feed(SumpquinceLink *link, const uint8_t *bytes, size_t bytes_len, uint8_t *verdicts, size_t verdicts_len,
                                       uint8_t *worked, size_t worked_len);

/* Says that no more bytes come, and gives the totals of the log. They are those that sumpquince_judge gives for all the bytes joined, and so are the
 * refusal and, on acceptance, the verdicts, but for two things: of more than 65,535 bytes sumpquince_judge tells 1 at once, and a link only where
 * none of the first 65,535 is refused; and sumpquince_judge tells 7 behind all else, of the verdicts alone, and a link at the line "[QSORecords;N]",
 * of either slice. The two slices are those that were lent before. Nothing in them is read or changed: only their lengths are asked for.
 *
 * On acceptance the refusal of the link becomes 13 0 0, and all else in it 0, so that every further call is refused until it is opened again.
 *
 * Refusals: the one that the link keeps, with no change to anything; 13 where no opening made it; 7 where N was announced and a slice is too short
 * for it. Then 2 where the line "[QSORecords;N]" is not finished, or a record's line is begun and not finished; 6 where a record is due and no byte
 * of it has come. The link then keeps the refusal, and all else in it is 0. */
SumpquinceJudgement sumpquince_link_close(SumpquinceLink *link, const uint8_t *verdicts, size_t verdicts_len, const uint8_t *worked,
                                          size_t worked_len);

#ifdef __cplusplus
}
#endif

#endif
