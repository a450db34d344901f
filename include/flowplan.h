/*
 * flowplan.h: flow planner, table check, dispatch list and finish of one flow. For
 * C99 or later and C++11 or later.
 *
 * Version of this header, FLOWPLAN_HEADER_VERSION; what the library was built with
 * is told by flowplan_version. "Req 01" and so on are the change requests to the
 * rules, with a note on each in docs/requests/.
 *   1  the base: planner and table check
 *   2  Req 01, releases: book version 2, so that number 2 is any other version;
 *      number 22; number 19 also for a row before its flow's release; a larger
 *      FLOWPLAN_LONGEST_BOOK
 *   3  Req 02, caps larger than the cluster: a cap above P, up to 65,535, counts
 *      as P; number 9 is only a cap of 0
 *   4  Req 03, dispatch list: flowplan_dispatch with its answer, and the list's
 *      layout; number 13 also for a list longer than the lent output
 *   5  Req 05, the finish of one flow: flowplan_finish with its answer; number 23
 *   6  Req 06, the write-back slot: a flow is late when its finish plus 1 is
 *      greater than its deadline, in planner and check; formerly when its finish
 *      was. Layouts and numbers are as they were
 *   7  Req 07, service windows: every call takes a calendar behind the book;
 *      numbers 24 and 25; number 12 by open slots. With FLOWPLAN_NO_WINDOWS every
 *      call answers as before
 *   8  flowplan_version, flowplan_text, limits as macros, refusal names
 *      FLOWPLAN_REFUSED_..; layouts, numbers and answers are as they were
 *
 * Every call takes every sequence of bytes, comes to an end on each, allocates
 * nothing and keeps nothing between calls.
 *
 * Fields are unsigned and big-endian. Flows and jobs count from 0.
 *
 * Book
 *   length of the whole book in bytes    4
 *   version = 1 or 2                     1
 *   processors P                         2    1 to 4,096
 *   flows                                1    0 to 64
 *   then for each flow
 *     deadline in slots                  2    1 to 4,096
 *     release in slots                   2    only in version 2: the first
 *                                             slot that the flow may use, below
 *                                             its deadline; in version 1 it is 0
 *     jobs                               1    1 to 64
 *     then for each job
 *       size in processor-slots          4    1 to 1,000,000
 *       cap                              2    1 to 65,535; above P it counts as P
 *       predecessors                     8    bit k, bit 0 the lowest: job k of
 *                                             the same flow must be complete
 *                                             first; only lower jobs
 *
 * Calendar
 *   length of the whole calendar         4
 *   version = 1                          1
 *   windows                              1    0 to 32
 *   then for each window, in which the whole cluster is shut
 *     first slot shut                    2    in the first window 0 or more, in the
 *                                             others above the slot at which the
 *                                             one before it opened again
 *     first slot open again              2    above the first slot shut, at most
 *                                             4,096
 *   It goes with the book. Shut slots are passed over: no row may stand in one. A
 *   calendar without windows is FLOWPLAN_NO_WINDOWS; no bytes at all are a fault.
 *
 * Table
 *   length of the whole table in bytes   4
 *   version = 1                          1
 *   processors P                         2    as in the book
 *   flows                                1    as in the book
 *   finish of each flow, book order      2    last used slot plus 1
 *   then rows of 6 bytes, one for each slot and job with a processor
 *     slot                               2    the flow's release to 8,191, open
 *     flow                               1
 *     job                                1
 *     processors                         2    1 to the job's cap, at most P
 *   Rows stand by service order of the flow, then slot, then job, all strictly
 *   rising. Service order is by deadline, equal deadlines by place in the book.
 *
 * Late flows
 *   Results are written back and reach the mill one slot after a flow's
 *   finish, so a flow is late when its finish plus 1 is greater than its
 *   deadline, both in slots, shut or open.
 *
 * Infeasible flows
 *   Twice the deadline is counted in open slots: a flow that is not finished when
 *   twice as many open slots from slot 0 have passed as stand before its deadline
 *   is refused by 12. With no open slot before its deadline it always is. Without
 *   windows that is a finish above twice the deadline.
 *
 * Dispatch list
 *   length of the whole list in bytes    4
 *   version = 1                          1
 *   processors P                         2    as in the book
 *   then the rows of a table, 6 bytes each as they stand there, every row once
 *   Rows stand by slot, then flow, then job, all strictly rising; flows by number
 *   and not by service order. A list is shorter than its table. Two different
 *   tables of one book that the check accepts have different lists.
 *
 * Work area
 *   At least FLOWPLAN_WORK_BYTES, two bytes for each of the slots 0 to 8,191.
 *   After acceptance each pair, big-endian as every field, holds the processors in
 *   use in that slot: by all flows, or where the finish of one was asked for, by
 *   that flow and those before it in service order; 0 in a shut slot. What is left
 *   after a refusal stands at FLOWPLAN_NUMBERS. Bytes past FLOWPLAN_WORK_BYTES are
 *   never touched.
 *
 * Stack
 *   A call needs at most FLOWPLAN_CHECK_STACK, FLOWPLAN_PLAN_STACK,
 *   FLOWPLAN_DISPATCH_STACK or FLOWPLAN_FINISH_STACK bytes of stack (tested on
 *   x86-64 Linux, on full, small and refused input).
 *
 * Buffers
 *   A buffer may start at any address. Those that a call only reads (book,
 *   calendar, table) may coincide or overlap. Output and work area may overlap no
 *   other buffer of the call and not each other, so that a list cannot be made in
 *   place of its table. No pointer may be null, also where its length is 0: any
 *   valid address will do there, and such a buffer overlaps nothing.
 *
 * Threads
 *   Any number of threads may call at once, each with an output and a work area of
 *   its own. Buffers that are only read may be shared, while nobody writes to them.
 */
#ifndef FLOWPLAN_H
#define FLOWPLAN_H

#include <stddef.h>
#include <stdint.h>

#ifdef __cplusplus
extern "C" {
#endif

/* What changed from version to version stands at the top. */
#define FLOWPLAN_HEADER_VERSION 8

/* The most that a field may be, as the layouts above have it. */
#define FLOWPLAN_MOST_PROCESSORS 4096
#define FLOWPLAN_MOST_FLOWS 64
#define FLOWPLAN_MOST_DEADLINE 4096
#define FLOWPLAN_MOST_JOBS 64 /* in one flow */
#define FLOWPLAN_MOST_SIZE 1000000
#define FLOWPLAN_MOST_CAP 65535
#define FLOWPLAN_MOST_WINDOWS 32
#define FLOWPLAN_MOST_REOPENING 4096 /* first slot open again */

/* Bytes of the work area that are used, and the slots that they stand for. */
#define FLOWPLAN_WORK_BYTES 16384
#define FLOWPLAN_SLOTS 8192

/* Bytes of stack that a call needs at most. */
#define FLOWPLAN_CHECK_STACK 16384
#define FLOWPLAN_PLAN_STACK 20480
#define FLOWPLAN_DISPATCH_STACK 20480
#define FLOWPLAN_FINISH_STACK 20480

/* The longest book that passes its checks: version 2, 64 flows of 64 jobs. */
#define FLOWPLAN_LONGEST_BOOK 57672

/* The bytes of the longest calendar, of 32 windows. */
#define FLOWPLAN_LONGEST_CALENDAR 134

/* The bytes of the calendar without windows, to initialise an array of uint8_t. */
#define FLOWPLAN_NO_WINDOWS { 0x00, 0x00, 0x00, 0x06, 0x01, 0x00 }

/* Stands for the flow or the job where a place has none. */
#define FLOWPLAN_NONE 255

/*
 * What a call answers: each number with its name, the place that goes with it and
 * its sentence, as LINE(name, number, sentence). The place "-, -" is FLOWPLAN_NONE,
 * FLOWPLAN_NONE. Ranges are those of the layouts. Number 0 is no refusal, and all
 * others are; a refusal leaves the output as it was.
 *
 * Numbers 1 to 4 are tested in that order; then for each flow 5, 6, 22, 7 and
 * for each of its jobs 5, 8, 9, 10; then bytes left over; then 23, only for the
 * finish of one flow; then 24; then 11. The planner goes on with 12, 13; the
 * check with 14, with 15, 25 and 16 to 19 in that order for each row, then 20, 21;
 * the dispatch list as the check, and then 13; the finish of one flow with 12. The
 * first fault met is answered. A flow head or job record must be there whole before
 * any of its fields is looked at.
 *
 * Refusals by 1 to 11 and 22 to 24 leave the work area as it was; those by 12 to 21
 * and 25 leave its first FLOWPLAN_WORK_BYTES bytes zero. With number 0 it holds the
 * use of each slot, see Work area.
 */
#define FLOWPLAN_NUMBERS(LINE)                                                     \
    LINE(FLOWPLAN_ACCEPTED, 0, /* -, - */                                          \
         "accepted")                                                               \
    LINE(FLOWPLAN_REFUSED_BOOK_LENGTH, 1, /* -, - */                               \
         "book under 8 bytes, or its length field differs from the bytes given")   \
    LINE(FLOWPLAN_REFUSED_BOOK_VERSION, 2, /* -, - */                              \
         "book version neither 1 nor 2")                                           \
    LINE(FLOWPLAN_REFUSED_PROCESSORS, 3, /* -, - */                                \
         "processors P out of range")                                              \
    LINE(FLOWPLAN_REFUSED_FLOWS, 4, /* -, - */                                     \
         "too many flows")                                                         \
    LINE(FLOWPLAN_REFUSED_CUT_SHORT, 5, /* in turn flow, -; flow, job; -, - */     \
         "a flow head or job record is cut short, or bytes are left over")         \
    LINE(FLOWPLAN_REFUSED_DEADLINE, 6, /* flow, - */                               \
         "deadline out of range")                                                  \
    LINE(FLOWPLAN_REFUSED_JOBS, 7, /* flow, - */                                   \
         "job count out of range")                                                 \
    LINE(FLOWPLAN_REFUSED_SIZE, 8, /* flow, job */                                 \
         "size out of range")                                                      \
    LINE(FLOWPLAN_REFUSED_CAP, 9, /* flow, job */                                  \
         "a cap of 0")                                                             \
    LINE(FLOWPLAN_REFUSED_PREDECESSOR, 10, /* flow, job */                         \
         "predecessor bit at or above the job's own number")                       \
    LINE(FLOWPLAN_REFUSED_WORK_AREA, 11, /* -, - */                                \
         "work area too short")                                                    \
    LINE(FLOWPLAN_REFUSED_INFEASIBLE, 12, /* that flow, - */                       \
         "infeasible: a flow is not finished when twice as many open slots from "  \
         "slot 0 have passed as stand before its deadline")                        \
    LINE(FLOWPLAN_REFUSED_OUTPUT, 13, /* -, - */                                   \
         "table or dispatch list longer than the lent output")                     \
    LINE(FLOWPLAN_REFUSED_TABLE_HEAD, 14, /* -, - */                               \
         "table too short for head and finishes, length field wrong, version not " \
         "1, P or flows unlike the book, or rows not whole")                       \
    LINE(FLOWPLAN_REFUSED_ROW_RANGE, 15, /* the two bytes of the row */            \
         "row's slot out of range, flow or job not in the book, or 0 processors")  \
    LINE(FLOWPLAN_REFUSED_ROW_ORDER, 16, /* row's flow, job */                     \
         "row not after the one before it")                                        \
    LINE(FLOWPLAN_REFUSED_ROW_CAP, 17, /* row's flow, job */                       \
         "row with more than the cap, or than P where the cap is above P")         \
    LINE(FLOWPLAN_REFUSED_SLOT_FULL, 18, /* row's flow, job */                     \
         "more than P used in the slot by the rows so far, this one counted")      \
    LINE(FLOWPLAN_REFUSED_PRECEDENCE, 19, /* row's flow, job */                    \
         "row before its flow's release, or with a predecessor whose rows so far " \
         "in earlier slots sum to less than its size")                             \
    LINE(FLOWPLAN_REFUSED_TOTAL, 20, /* lowest flow, then job */                   \
         "a job's total differs from its size")                                    \
    LINE(FLOWPLAN_REFUSED_FINISH, 21, /* lowest flow, - */                         \
         "a stated finish differs from that of the rows")                          \
    LINE(FLOWPLAN_REFUSED_RELEASE, 22, /* flow, - */                               \
         "release not below the deadline")                                         \
    LINE(FLOWPLAN_REFUSED_NO_SUCH_FLOW, 23, /* -, - */                             \
         "the flow that was named is not in the book")                             \
    LINE(FLOWPLAN_REFUSED_CALENDAR, 24, /* -, - */                                 \
         "calendar under 6 bytes, length field wrong, version not 1, too many "    \
         "windows, bytes unlike the windows, or a window that is empty, that "     \
         "does not begin later than the one before it opened again, or that "      \
         "opens again too late")                                                   \
    LINE(FLOWPLAN_REFUSED_ROW_SHUT, 25, /* row's flow, job */                      \
         "row in a shut slot")

/* The names as constants. */
#define FLOWPLAN_NAME(name, number, sentence) name = number,
enum flowplan_number { FLOWPLAN_NUMBERS(FLOWPLAN_NAME) };
#undef FLOWPLAN_NAME

/* The sentence of a number; "unknown number" where no call answers with it. */
#define FLOWPLAN_SENTENCE(name, number, sentence) \
    case name:                                    \
        return sentence;
static inline const char *flowplan_text(uint32_t number)
{
    switch (number) {
        FLOWPLAN_NUMBERS(FLOWPLAN_SENTENCE)
    default:
        return "unknown number";
    }
}
#undef FLOWPLAN_SENTENCE

/* ---- Version ----------------------------------------------------------- */

/*
 * The FLOWPLAN_HEADER_VERSION that the library was built with. Where it is not that
 * of this header, nothing else in here may be relied on. A library from before
 * version 8 does not have this call.
 */
uint32_t flowplan_version(void);

/* ---- End of version ---------------------------------------------------- */

/* ---- Table check ------------------------------------------------------- */

struct flowplan_check_answer {
    uint8_t number; /* 0 or the refusal, see enum flowplan_number */
    uint8_t flow;   /* place of the refusal, else FLOWPLAN_NONE */
    uint8_t job;
    uint8_t late; /* accepted: flows with finish + 1 > deadline; else 0 */
};

/*
 * Accepts a table exactly when it is a valid schedule of the book with its
 * calendar, written in the stated order under the right head and finishes. A valid
 * schedule has nothing before a flow's release and nothing in a shut slot. A finish
 * beyond twice the deadline is accepted and counted as late.
 *
 * book, calendar, table: read only, any bytes, any length.
 * work: accepted: the use of each slot by the table's rows. Refused by 1 to 11, 22
 *       or 24: as it was. Refused by another number: its first FLOWPLAN_WORK_BYTES
 *       bytes are zero.
 */
struct flowplan_check_answer flowplan_check(
    const uint8_t *book, size_t book_len,
    const uint8_t *calendar, size_t calendar_len,
    const uint8_t *table, size_t table_len,
    uint8_t *work, size_t work_len);

/* ---- End of table check ------------------------------------------------ */

/* ---- Planner ----------------------------------------------------------- */

/*
 * A table that the planner writes or the check accepts has at most 8 + 2 x flows +
 * 6 x the sum of all sizes bytes, and never above FLOWPLAN_LONGEST_TABLE. The sum
 * fits 32 bits, 6 times the sum may not.
 */
#define FLOWPLAN_LONGEST_TABLE 201326728

struct flowplan_plan_answer {
    uint8_t number; /* 0 or the refusal, see enum flowplan_number */
    uint8_t flow;   /* place of the refusal, else FLOWPLAN_NONE */
    uint8_t job;
    uint8_t late;    /* accepted: flows with finish + 1 > deadline; else 0 */
    uint32_t length; /* accepted: bytes of the table; else 0 */
};

/*
 * Plans a book with its calendar by the deadline-greedy rule on chains of
 * pseudo-jobs. Slots before a flow's release are not given to it, and shut slots to
 * none. Service order, late flows and twice the deadline do not go by the release.
 *
 * book, calendar: read only, any bytes, any length.
 * output: accepted: its first `length` bytes are the table, the bytes past them
 *         are as they were. Refused: as it was.
 * work:   accepted: the use of each slot by the table's rows. Refused by 1 to 11,
 *         22 or 24: as it was. Refused by 12 or 13: its first FLOWPLAN_WORK_BYTES
 *         bytes are zero.
 */
struct flowplan_plan_answer flowplan_plan(
    const uint8_t *book, size_t book_len,
    const uint8_t *calendar, size_t calendar_len,
    uint8_t *output, size_t output_len,
    uint8_t *work, size_t work_len);

/* ---- End of planner ---------------------------------------------------- */

/* ---- Dispatch list ----------------------------------------------------- */

/* The longest list: of a table whose rows fill every slot of every job. */
#define FLOWPLAN_LONGEST_LIST 201326599

struct flowplan_list_answer {
    uint8_t number; /* 0 or the refusal, see enum flowplan_number */
    uint8_t flow;   /* place of the refusal, else FLOWPLAN_NONE */
    uint8_t job;
    uint32_t length; /* accepted: bytes of the list; else 0 */
};

/*
 * Checks a table and lists its rows in the order in which a dispatcher works:
 * slot by slot, within a slot by flow number, then by job. What flowplan_check
 * refuses is refused with the same number and place, however short the output
 * is; then 13. An output as long as the table is always long enough.
 *
 * book, calendar, table: read only, any bytes, any length.
 * output: accepted: its first `length` bytes are the dispatch list, the bytes past
 *         them are as they were. Refused: as it was.
 * work:   accepted: the use of each slot by the table's rows. Refused by 1 to 11,
 *         22 or 24: as it was. Refused by another number: its first
 *         FLOWPLAN_WORK_BYTES bytes are zero.
 */
struct flowplan_list_answer flowplan_dispatch(
    const uint8_t *book, size_t book_len,
    const uint8_t *calendar, size_t calendar_len,
    const uint8_t *table, size_t table_len,
    uint8_t *output, size_t output_len,
    uint8_t *work, size_t work_len);

/* ---- End of dispatch list ---------------------------------------------- */

/* ---- Finish of one flow ------------------------------------------------ */

struct flowplan_finish_answer {
    uint8_t number; /* 0 or the refusal, see enum flowplan_number */
    uint8_t flow;   /* place of the refusal, else FLOWPLAN_NONE */
    uint8_t job;
    uint16_t finish; /* accepted: the flow's last used slot plus 1; else 0 */
};

/*
 * The finish of one flow, and no table. Book and calendar are checked in full, but
 * flows are placed only up to the one named, in service order. The finish is that
 * of the planner's table, or of the one without the flows after this one. Before
 * it stand at most twice as many open slots as before the deadline.
 *
 * Where the flow named or one before it in service order is infeasible, the
 * answer is 12 with that flow's number in the book. An infeasible flow after the
 * one named is not reported.
 *
 * book, calendar: read only, any bytes, any length.
 * flow: number of the flow in the book, 0 for the first. One that is not in the
 *       book is answered by 23; all 32 bits count, so that 256 is not flow 0.
 * work: accepted: the use of each slot by this flow and those before it in
 *       service order. Refused by 1 to 11 or 22 to 24: as it was. Refused by 12:
 *       its first FLOWPLAN_WORK_BYTES bytes are zero.
 */
struct flowplan_finish_answer flowplan_finish(
    const uint8_t *book, size_t book_len,
    const uint8_t *calendar, size_t calendar_len,
    uint32_t flow,
    uint8_t *work, size_t work_len);

/* ---- End of finish of one flow ----------------------------------------- */

#ifdef __cplusplus
}
#endif

#endif /* FLOWPLAN_H */
