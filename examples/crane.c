/*
 * Tells a crane driver when single flows of a book end:
 *
 *     crane [BOOK FLOW [CALENDAR]]
 *
 * Without arguments it asks for each flow of the marked books A and G, and for two
 * that are not in the book; the second, 256, must not be taken for flow 0. Between
 * them stands book A with a third flow that is infeasible: the flow served before
 * it has its finish all the same, it and the flow served after it have not. Then each
 * flow of the marked book J, without windows and with its calendar. A book without a
 * calendar is asked for without windows.
 *
 * The exit status is 0 when the flow has a finish, 1 when it was refused and 2 when
 * something else failed. Without arguments it is 0 when all are answered as said.
 */
#include <errno.h>
#include <stdint.h>
#include <stdio.h>
#include <stdlib.h>
#include <string.h>

#include "flowplan.h"

static const uint8_t book_a[] = {
    0x00, 0x00, 0x00, 0x38, 0x01, 0x00, 0x03, 0x02, /* 56 bytes, P 3, 2 flows */
    0x00, 0x05, 0x02,                               /* flow 0: deadline 5, 2 jobs */
    0x00, 0x00, 0x00, 0x05, 0x00, 0x02,             /* size 5, cap 2 */
    0x00, 0x00, 0x00, 0x00, 0x00, 0x00, 0x00, 0x00, /* free */
    0x00, 0x00, 0x00, 0x04, 0x00, 0x03,             /* size 4, cap 3 */
    0x00, 0x00, 0x00, 0x00, 0x00, 0x00, 0x00, 0x01, /* after job 0 */
    0x00, 0x03, 0x01,                               /* flow 1: deadline 3, 1 job */
    0x00, 0x00, 0x00, 0x05, 0x00, 0x02,             /* size 5, cap 2 */
    0x00, 0x00, 0x00, 0x00, 0x00, 0x00, 0x00, 0x00  /* free */
};

/* A flow that cannot end within twice its deadline. */
static const uint8_t too_long[] = {
    0x00, 0x04, 0x01,                               /* deadline 4, 1 job */
    0x00, 0x00, 0x00, 0x09, 0x00, 0x01,             /* size 9, cap 1 */
    0x00, 0x00, 0x00, 0x00, 0x00, 0x00, 0x00, 0x00  /* free */
};

/* Version 2: flow 0 may not begin before slot 2. */
static const uint8_t book_g[] = {
    0x00, 0x00, 0x00, 0x2e, 0x02, 0x00, 0x03, 0x02, /* 46 bytes, P 3, 2 flows */
    0x00, 0x06, 0x00, 0x02, 0x01,                   /* flow 0: deadline 6, release 2, 1 job */
    0x00, 0x00, 0x00, 0x05, 0x00, 0x02,             /* size 5, cap 2 */
    0x00, 0x00, 0x00, 0x00, 0x00, 0x00, 0x00, 0x00, /* free */
    0x00, 0x04, 0x00, 0x00, 0x01,                   /* flow 1: deadline 4, release 0, 1 job */
    0x00, 0x00, 0x00, 0x06, 0x00, 0x02,             /* size 6, cap 2 */
    0x00, 0x00, 0x00, 0x00, 0x00, 0x00, 0x00, 0x00  /* free */
};

/* Version 2: two flows that may begin at once. */
static const uint8_t book_j[] = {
    0x00, 0x00, 0x00, 0x2e, 0x02, 0x00, 0x02, 0x02, /* 46 bytes, P 2, 2 flows */
    0x00, 0x09, 0x00, 0x00, 0x01,                   /* flow 0: deadline 9, release 0, 1 job */
    0x00, 0x00, 0x00, 0x09, 0x00, 0x02,             /* size 9, cap 2 */
    0x00, 0x00, 0x00, 0x00, 0x00, 0x00, 0x00, 0x00, /* free */
    0x00, 0x04, 0x00, 0x00, 0x01,                   /* flow 1: deadline 4, release 0, 1 job */
    0x00, 0x00, 0x00, 0x02, 0x00, 0x01,             /* size 2, cap 1 */
    0x00, 0x00, 0x00, 0x00, 0x00, 0x00, 0x00, 0x00  /* free */
};

/* The cluster is shut in slot 0, in 3 and 4, and in 8 to 10. */
static const uint8_t calendar_j[] = {
    0x00, 0x00, 0x00, 0x12, 0x01, 0x03,             /* 18 bytes, 3 windows */
    0x00, 0x00, 0x00, 0x01,                         /* first slot shut, first open again */
    0x00, 0x03, 0x00, 0x05,
    0x00, 0x08, 0x00, 0x0b
};

static const uint8_t no_windows[] = FLOWPLAN_NO_WINDOWS;

/* Asks for one flow and prints what is answered; its number. */
static unsigned ask_with(const uint8_t *book, size_t book_len, const uint8_t *calendar,
                         size_t calendar_len, uint32_t flow)
{
    static uint8_t work[FLOWPLAN_WORK_BYTES];
    struct flowplan_finish_answer answer =
        flowplan_finish(book, book_len, calendar, calendar_len, flow, work, sizeof work);

    if (answer.number != FLOWPLAN_ACCEPTED) {
        printf("flow %lu: refused %u flow %u job %u: %s\n", (unsigned long)flow,
               (unsigned)answer.number, (unsigned)answer.flow, (unsigned)answer.job,
               flowplan_text(answer.number));
        return answer.number;
    }
    printf("flow %lu ends at %u, in use up to there:", (unsigned long)flow,
           (unsigned)answer.finish);
    for (size_t slot = 0; slot < answer.finish; slot++)
        printf(" %u", (unsigned)work[2 * slot] << 8 | work[2 * slot + 1]);
    printf("\n");
    return 0;
}

/* The same without windows. */
static unsigned ask(const uint8_t *book, size_t book_len, uint32_t flow)
{
    return ask_with(book, book_len, no_windows, sizeof no_windows, flow);
}

/* The marked books; 0 when all is answered as said at the top. */
static int ask_marked(void)
{
    uint8_t longer[sizeof book_a + sizeof too_long];
    int as_said = 1;

    printf("book A\n");
    for (uint32_t flow = 0; flow < 2; flow++)
        as_said &= ask(book_a, sizeof book_a, flow) == FLOWPLAN_ACCEPTED;
    as_said &= ask(book_a, sizeof book_a, 2) == FLOWPLAN_REFUSED_NO_SUCH_FLOW;
    as_said &= ask(book_a, sizeof book_a, 256) == FLOWPLAN_REFUSED_NO_SUCH_FLOW;

    memcpy(longer, book_a, sizeof book_a);
    memcpy(longer + sizeof book_a, too_long, sizeof too_long);
    longer[3] = sizeof longer;
    longer[7] = 3;
    printf("book A with a flow too long\n");
    as_said &= ask(longer, sizeof longer, 0) == FLOWPLAN_REFUSED_INFEASIBLE;
    as_said &= ask(longer, sizeof longer, 1) == FLOWPLAN_ACCEPTED;
    as_said &= ask(longer, sizeof longer, 2) == FLOWPLAN_REFUSED_INFEASIBLE;

    printf("book G\n");
    for (uint32_t flow = 0; flow < 2; flow++)
        as_said &= ask(book_g, sizeof book_g, flow) == FLOWPLAN_ACCEPTED;

    printf("book J\n");
    for (uint32_t flow = 0; flow < 2; flow++)
        as_said &= ask(book_j, sizeof book_j, flow) == FLOWPLAN_ACCEPTED;
    printf("book J with its calendar\n");
    for (uint32_t flow = 0; flow < 2; flow++)
        as_said &= ask_with(book_j, sizeof book_j, calendar_j, sizeof calendar_j, flow) ==
                   FLOWPLAN_ACCEPTED;
    return as_said ? 0 : 1;
}

/* Reads a file that is shorter than the room; -1 when it cannot be read or is not. */
static long read_file(const char *name, uint8_t *bytes, size_t room)
{
    FILE *file = fopen(name, "rb");
    if (file == NULL) {
        perror(name);
        return -1;
    }
    size_t length = fread(bytes, 1, room, file);
    int failed = ferror(file);
    fclose(file);
    if (failed || length == room) {
        fprintf(stderr, "%s: cannot be read, or too long\n", name);
        return -1;
    }
    return (long)length;
}

int main(int count, char **arguments)
{
    /* One byte more than the longest that pass their checks. */
    static uint8_t book[FLOWPLAN_LONGEST_BOOK + 1];
    static uint8_t calendar[FLOWPLAN_LONGEST_CALENDAR + 1];

    if (count == 1)
        return ask_marked();
    if (count != 3 && count != 4) {
        fprintf(stderr, "usage: crane [BOOK FLOW [CALENDAR]]\n");
        return 2;
    }
    char *end;
    errno = 0;
    unsigned long long flow = strtoull(arguments[2], &end, 10);
    if (errno != 0 || end == arguments[2] || *end != '\0' || flow > UINT32_MAX) {
        fprintf(stderr, "%s: not a number of 32 bits\n", arguments[2]);
        return 2;
    }
    long length = read_file(arguments[1], book, sizeof book);
    if (length < 0)
        return 2;
    if (count == 3)
        return ask(book, (size_t)length, (uint32_t)flow) == FLOWPLAN_ACCEPTED ? 0 : 1;
    long of_calendar = read_file(arguments[3], calendar, sizeof calendar);
    if (of_calendar < 0)
        return 2;
    unsigned number =
        ask_with(book, (size_t)length, calendar, (size_t)of_calendar, (uint32_t)flow);
    return number == FLOWPLAN_ACCEPTED ? 0 : 1;
}
