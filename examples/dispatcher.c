/*
 * Plans a book, has the plan checked and listed, and hands out processors slot by
 * slot:
 *
 *     dispatcher [BOOK [CALENDAR]]
 *
 * Without an argument it takes the marked books A, E, G and J: the second is A for a
 * cluster smaller than one of its caps, the third has a release, the fourth goes with
 * a calendar of three windows. A book without a calendar is planned without windows.
 * The exit status is 0 when each book was planned, 1 when one was refused and 2 when
 * something else failed.
 */
#include <stdint.h>
#include <stdio.h>
#include <stdlib.h>
#include <string.h>

#include "flowplan.h"

static const uint8_t book_a[] = {
    0x00, 0x00, 0x00, 0x38, 0x01, 0x00, 0x03, 0x02, /* 56 bytes, P 3, 2 flows */
    0x00, 0x05, 0x02,                               /* flow 0: deadline 5, 2 jobs */
    0x00, 0x00, 0x00, 0x05, 0x00, 0x02,             /* size 5, cap 2 */
    0x00, 0x00, 0x00, 0x00, 0x00, 0x00, 0x00, 0x00, /* free */
    0x00, 0x00, 0x00, 0x04, 0x00, 0x03,             /* size 4, cap 3 */
    0x00, 0x00, 0x00, 0x00, 0x00, 0x00, 0x00, 0x01, /* after job 0 */
    0x00, 0x03, 0x01,                               /* flow 1: deadline 3, 1 job */
    0x00, 0x00, 0x00, 0x05, 0x00, 0x02,             /* size 5, cap 2 */
    0x00, 0x00, 0x00, 0x00, 0x00, 0x00, 0x00, 0x00  /* free */
};

/* Version 2: flow 0 may not begin before slot 2. */
static const uint8_t book_g[] = {
    0x00, 0x00, 0x00, 0x2e, 0x02, 0x00, 0x03, 0x02, /* 46 bytes, P 3, 2 flows */
    0x00, 0x06, 0x00, 0x02, 0x01,                   /* flow 0: deadline 6, release 2, 1 job */
    0x00, 0x00, 0x00, 0x05, 0x00, 0x02,             /* size 5, cap 2 */
    0x00, 0x00, 0x00, 0x00, 0x00, 0x00, 0x00, 0x00, /* free */
    0x00, 0x04, 0x00, 0x00, 0x01,                   /* flow 1: deadline 4, release 0, 1 job */
    0x00, 0x00, 0x00, 0x06, 0x00, 0x02,             /* size 6, cap 2 */
    0x00, 0x00, 0x00, 0x00, 0x00, 0x00, 0x00, 0x00  /* free */
};

/* Version 2: two flows that may begin at once. */
static const uint8_t book_j[] = {
    0x00, 0x00, 0x00, 0x2e, 0x02, 0x00, 0x02, 0x02, /* 46 bytes, P 2, 2 flows */
    0x00, 0x09, 0x00, 0x00, 0x01,                   /* flow 0: deadline 9, release 0, 1 job */
    0x00, 0x00, 0x00, 0x09, 0x00, 0x02,             /* size 9, cap 2 */
    0x00, 0x00, 0x00, 0x00, 0x00, 0x00, 0x00, 0x00, /* free */
    0x00, 0x04, 0x00, 0x00, 0x01,                   /* flow 1: deadline 4, release 0, 1 job */
    0x00, 0x00, 0x00, 0x02, 0x00, 0x01,             /* size 2, cap 1 */
    0x00, 0x00, 0x00, 0x00, 0x00, 0x00, 0x00, 0x00  /* free */
};

/* The cluster is shut in slot 0, in 3 and 4, and in 8 to 10. */
static const uint8_t calendar_j[] = {
    0x00, 0x00, 0x00, 0x12, 0x01, 0x03,             /* 18 bytes, 3 windows */
    0x00, 0x00, 0x00, 0x01,                         /* first slot shut, first open again */
    0x00, 0x03, 0x00, 0x05,
    0x00, 0x08, 0x00, 0x0b
};

static const uint8_t no_windows[] = FLOWPLAN_NO_WINDOWS;

/* Lent to every call. */
static uint8_t work[FLOWPLAN_WORK_BYTES];

static unsigned be16(const uint8_t *bytes)
{
    return (unsigned)bytes[0] << 8 | bytes[1];
}

static int refused(uint8_t number, uint8_t flow, uint8_t job)
{
    printf("refused %u flow %u job %u: %s\n", (unsigned)number, (unsigned)flow,
           (unsigned)job, flowplan_text(number));
    return 1;
}

/* The finish of each flow stands in the table. */
static void print_finishes(const uint8_t *table)
{
    for (unsigned flow = 0; flow < table[7]; flow++)
        printf("flow %u ends at %u\n", flow, be16(table + 8 + 2 * flow));
}

/*
 * Hands out the processors of a dispatch list. Its rows stand slot by slot, so each
 * is looked at once; the work area has the use of each slot, which is 0 where the
 * cluster is shut.
 */
static void hand_out(const uint8_t *list, size_t length)
{
    const uint8_t *row = list + 7, *end = list + length;

    for (unsigned slot = 0; row < end; slot++) {
        printf("slot %u: %u in use\n", slot, be16(work + 2 * slot));
        for (; row < end && be16(row) == slot; row += 6)
            printf("  flow %u job %u: %u\n", (unsigned)row[2], (unsigned)row[3],
                   be16(row + 4));
    }
}

static int no_memory(void)
{
    fprintf(stderr, "no memory for table and list\n");
    return 2;
}

/* Checks and lists a plan, and hands it out. A list is shorter than its table. */
static int hand_out_plan(const uint8_t *book, size_t book_len, const uint8_t *calendar,
                         size_t calendar_len, const uint8_t *table, size_t table_len)
{
    uint8_t *list = malloc(table_len);

    if (list == NULL)
        return no_memory();
    struct flowplan_list_answer answer =
        flowplan_dispatch(book, book_len, calendar, calendar_len, table, table_len, list,
                          table_len, work, sizeof work);
    if (answer.number != FLOWPLAN_ACCEPTED) {
        free(list);
        return refused(answer.number, answer.flow, answer.job);
    }
    printf("checked: list %lu\n", (unsigned long)answer.length);
    print_finishes(table);
    hand_out(list, answer.length);
    free(list);
    return 0;
}

/* Plans a book and hands the plan out; the table is grown until the plan fits. */
static int dispatch(const uint8_t *book, size_t book_len, const uint8_t *calendar,
                    size_t calendar_len)
{
    size_t room = 65536;
    uint8_t *table = NULL;
    struct flowplan_plan_answer plan;

    for (;;) {
        uint8_t *larger = realloc(table, room);
        if (larger == NULL) {
            free(table);
            return no_memory();
        }
        table = larger;
        plan = flowplan_plan(book, book_len, calendar, calendar_len, table, room, work,
                             sizeof work);
        if (plan.number != FLOWPLAN_REFUSED_OUTPUT || room >= FLOWPLAN_LONGEST_TABLE)
            break;
        room *= 2;
    }
    if (plan.number != FLOWPLAN_ACCEPTED) {
        free(table);
        return refused(plan.number, plan.flow, plan.job);
    }
    printf("planned: table %lu late %u\n", (unsigned long)plan.length, (unsigned)plan.late);

    int status =
        hand_out_plan(book, book_len, calendar, calendar_len, table, plan.length);
    free(table);
    return status;
}

static int worse(int one, int other)
{
    return one > other ? one : other;
}

/* Reads a file that is shorter than the room; -1 when it cannot be read or is not. */
static long read_file(const char *name, uint8_t *bytes, size_t room)
{
    FILE *file = fopen(name, "rb");
    if (file == NULL) {
        perror(name);
        return -1;
    }
    size_t length = fread(bytes, 1, room, file);
    int failed = ferror(file);
    fclose(file);
    if (failed || length == room) {
        fprintf(stderr, "%s: cannot be read, or too long\n", name);
        return -1;
    }
    return (long)length;
}

int main(int count, char **arguments)
{
    /* One byte more than the longest that pass their checks. */
    static uint8_t book[FLOWPLAN_LONGEST_BOOK + 1];
    static uint8_t calendar[FLOWPLAN_LONGEST_CALENDAR + 1];

    if (count == 1) {
        uint8_t book_e[sizeof book_a];

        memcpy(book_e, book_a, sizeof book_e);
        book_e[6] = 2; /* P 2: the cap of 3 counts as 2 */
        printf("book A\n");
        int worst = dispatch(book_a, sizeof book_a, no_windows, sizeof no_windows);
        printf("book E\n");
        worst = worse(worst, dispatch(book_e, sizeof book_e, no_windows, sizeof no_windows));
        printf("book G\n");
        worst = worse(worst, dispatch(book_g, sizeof book_g, no_windows, sizeof no_windows));
        printf("book J with its calendar\n");
        worst = worse(worst, dispatch(book_j, sizeof book_j, calendar_j, sizeof calendar_j));
        return worst;
    }
    if (count > 3) {
        fprintf(stderr, "usage: dispatcher [BOOK [CALENDAR]]\n");
        return 2;
    }
    long length = read_file(arguments[1], book, sizeof book);
    if (length < 0)
        return 2;
    if (count == 2)
        return dispatch(book, (size_t)length, no_windows, sizeof no_windows);
    long of_calendar = read_file(arguments[2], calendar, sizeof calendar);
    if (of_calendar < 0)
        return 2;
    return dispatch(book, (size_t)length, calendar, (size_t)of_calendar);
}
