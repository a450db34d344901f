/*
 * Runs the table check over a book file, a table file and a calendar file:
 *
 *     check_table BOOK TABLE [CALENDAR]
 *
 * Without a calendar no slot is shut. The exit status is 0 when the table is accepted,
 * 1 when it is refused and 2 when a file could not be read. It is also 2 when the
 * library was built with another header than this program.
 *
 * Without arguments it takes the marked book A and its table, which must be
 * accepted, then the same table with a row moved to a slot that is too full,
 * which must be refused. So with the marked book E, where a cap is above P: its
 * table, and then with a row that gives that job one processor more than P. So
 * with the marked book G: its table, and then with a row moved to a slot before
 * its flow's release. So with the marked book J and its calendar: its table, then
 * with a row moved to a shut slot, and that table again without windows, where it is
 * accepted; then a calendar whose windows touch, which must be refused. The exit
 * status is 0 when all are answered so.
 */
#include <stdint.h>
#include <stdio.h>
#include <stdlib.h>
#include <string.h>

#include "flowplan.h"

static const uint8_t book_a[] = {
    0x00, 0x00, 0x00, 0x38, 0x01, 0x00, 0x03, 0x02, /* 56 bytes, P 3, 2 flows */
    0x00, 0x05, 0x02,                               /* flow 0: deadline 5, 2 jobs */
    0x00, 0x00, 0x00, 0x05, 0x00, 0x02,             /* size 5, cap 2 */
    0x00, 0x00, 0x00, 0x00, 0x00, 0x00, 0x00, 0x00, /* free */
    0x00, 0x00, 0x00, 0x04, 0x00, 0x03,             /* size 4, cap 3 */
    0x00, 0x00, 0x00, 0x00, 0x00, 0x00, 0x00, 0x01, /* after job 0 */
    0x00, 0x03, 0x01,                               /* flow 1: deadline 3, 1 job */
    0x00, 0x00, 0x00, 0x05, 0x00, 0x02,             /* size 5, cap 2 */
    0x00, 0x00, 0x00, 0x00, 0x00, 0x00, 0x00, 0x00  /* free */
};

static const uint8_t table_a[] = {
    0x00, 0x00, 0x00, 0x42, 0x01, 0x00, 0x03, 0x02, /* 66 bytes, P 3, 2 flows */
    0x00, 0x06, 0x00, 0x03,                         /* finishes 6 and 3 */
    0x00, 0x00, 0x01, 0x00, 0x00, 0x02,             /* slot, flow, job, take */
    0x00, 0x01, 0x01, 0x00, 0x00, 0x02,
    0x00, 0x02, 0x01, 0x00, 0x00, 0x01,
    0x00, 0x00, 0x00, 0x00, 0x00, 0x01,
    0x00, 0x01, 0x00, 0x00, 0x00, 0x01,
    0x00, 0x02, 0x00, 0x00, 0x00, 0x02,
    0x00, 0x03, 0x00, 0x00, 0x00, 0x01,
    0x00, 0x04, 0x00, 0x01, 0x00, 0x03,
    0x00, 0x05, 0x00, 0x01, 0x00, 0x01
};

/* The table of book E, which is book A with P 2. */
static const uint8_t table_e[] = {
    0x00, 0x00, 0x00, 0x42, 0x01, 0x00, 0x02, 0x02, /* 66 bytes, P 2, 2 flows */
    0x00, 0x08, 0x00, 0x03,                         /* finishes 8 and 3 */
    0x00, 0x00, 0x01, 0x00, 0x00, 0x02,             /* slot, flow, job, take */
    0x00, 0x01, 0x01, 0x00, 0x00, 0x02,
    0x00, 0x02, 0x01, 0x00, 0x00, 0x01,
    0x00, 0x02, 0x00, 0x00, 0x00, 0x01,
    0x00, 0x03, 0x00, 0x00, 0x00, 0x02,
    0x00, 0x04, 0x00, 0x00, 0x00, 0x01,
    0x00, 0x05, 0x00, 0x00, 0x00, 0x01,
    0x00, 0x06, 0x00, 0x01, 0x00, 0x02,
    0x00, 0x07, 0x00, 0x01, 0x00, 0x02
};

/* Version 2: flow 0 may not begin before slot 2. */
static const uint8_t book_g[] = {
    0x00, 0x00, 0x00, 0x2e, 0x02, 0x00, 0x03, 0x02, /* 46 bytes, P 3, 2 flows */
    0x00, 0x06, 0x00, 0x02, 0x01,                   /* flow 0: deadline 6, release 2, 1 job */
    0x00, 0x00, 0x00, 0x05, 0x00, 0x02,             /* size 5, cap 2 */
    0x00, 0x00, 0x00, 0x00, 0x00, 0x00, 0x00, 0x00, /* free */
    0x00, 0x04, 0x00, 0x00, 0x01,                   /* flow 1: deadline 4, release 0, 1 job */
    0x00, 0x00, 0x00, 0x06, 0x00, 0x02,             /* size 6, cap 2 */
    0x00, 0x00, 0x00, 0x00, 0x00, 0x00, 0x00, 0x00  /* free */
};

static const uint8_t table_g[] = {
    0x00, 0x00, 0x00, 0x36, 0x01, 0x00, 0x03, 0x02, /* 54 bytes, P 3, 2 flows */
    0x00, 0x06, 0x00, 0x03,                         /* finishes 6 and 3 */
    0x00, 0x00, 0x01, 0x00, 0x00, 0x02,             /* slot, flow, job, take */
    0x00, 0x01, 0x01, 0x00, 0x00, 0x02,
    0x00, 0x02, 0x01, 0x00, 0x00, 0x02,
    0x00, 0x02, 0x00, 0x00, 0x00, 0x01,
    0x00, 0x03, 0x00, 0x00, 0x00, 0x02,
    0x00, 0x04, 0x00, 0x00, 0x00, 0x01,
    0x00, 0x05, 0x00, 0x00, 0x00, 0x01
};

/* Version 2: two flows that may begin at once. */
static const uint8_t book_j[] = {
    0x00, 0x00, 0x00, 0x2e, 0x02, 0x00, 0x02, 0x02, /* 46 bytes, P 2, 2 flows */
    0x00, 0x09, 0x00, 0x00, 0x01,                   /* flow 0: deadline 9, release 0, 1 job */
    0x00, 0x00, 0x00, 0x09, 0x00, 0x02,             /* size 9, cap 2 */
    0x00, 0x00, 0x00, 0x00, 0x00, 0x00, 0x00, 0x00, /* free */
    0x00, 0x04, 0x00, 0x00, 0x01,                   /* flow 1: deadline 4, release 0, 1 job */
    0x00, 0x00, 0x00, 0x02, 0x00, 0x01,             /* size 2, cap 1 */
    0x00, 0x00, 0x00, 0x00, 0x00, 0x00, 0x00, 0x00  /* free */
};

/* The cluster is shut in slot 0, in 3 and 4, and in 8 to 10. */
static const uint8_t calendar_j[] = {
    0x00, 0x00, 0x00, 0x12, 0x01, 0x03,             /* 18 bytes, 3 windows */
    0x00, 0x00, 0x00, 0x01,                         /* first slot shut, first open again */
    0x00, 0x03, 0x00, 0x05,
    0x00, 0x08, 0x00, 0x0b
};

static const uint8_t no_windows[] = FLOWPLAN_NO_WINDOWS;

static const uint8_t table_j[] = {
    0x00, 0x00, 0x00, 0x3c, 0x01, 0x00, 0x02, 0x02, /* 60 bytes, P 2, 2 flows */
    0x00, 0x0c, 0x00, 0x03,                         /* finishes 12 and 3 */
    0x00, 0x01, 0x01, 0x00, 0x00, 0x01,             /* slot, flow, job, take */
    0x00, 0x02, 0x01, 0x00, 0x00, 0x01,
    0x00, 0x01, 0x00, 0x00, 0x00, 0x01,
    0x00, 0x02, 0x00, 0x00, 0x00, 0x01,
    0x00, 0x05, 0x00, 0x00, 0x00, 0x02,
    0x00, 0x06, 0x00, 0x00, 0x00, 0x02,
    0x00, 0x07, 0x00, 0x00, 0x00, 0x02,
    0x00, 0x0b, 0x00, 0x00, 0x00, 0x01
};

/* Checks one table and prints what is answered; 0 when it is accepted. */
static int check_with(const uint8_t *book, size_t book_len, const uint8_t *calendar,
                      size_t calendar_len, const uint8_t *table, size_t table_len)
{
    static uint8_t work[FLOWPLAN_WORK_BYTES];
    struct flowplan_check_answer answer =
        flowplan_check(book, book_len, calendar, calendar_len, table, table_len, work,
                       sizeof work);

    if (answer.number != FLOWPLAN_ACCEPTED) {
        printf("refused %u flow %u job %u: %s\n", (unsigned)answer.number,
               (unsigned)answer.flow, (unsigned)answer.job, flowplan_text(answer.number));
        return 1;
    }
    unsigned busiest = 0;
    for (size_t slot = 0; slot < FLOWPLAN_SLOTS; slot++) {
        unsigned in_use = (unsigned)work[2 * slot] << 8 | work[2 * slot + 1];
        if (in_use > busiest)
            busiest = in_use;
    }
    printf("accepted late %u busiest slot %u\n", (unsigned)answer.late, busiest);
    return 0;
}

/* The same without windows. */
static int check(const uint8_t *book, size_t book_len, const uint8_t *table, size_t table_len)
{
    return check_with(book, book_len, no_windows, sizeof no_windows, table, table_len);
}

/* Reads a whole file; null when it cannot be read. The pointer is never null
   for an empty file. */
static uint8_t *read_file(const char *name, size_t *length)
{
    FILE *file = fopen(name, "rb");
    if (file == NULL) {
        perror(name);
        return NULL;
    }
    size_t room = 65536, filled = 0;
    uint8_t *bytes = malloc(room);
    while (bytes != NULL) {
        filled += fread(bytes + filled, 1, room - filled, file);
        if (filled < room)
            break;
        uint8_t *larger = room > SIZE_MAX / 2 ? NULL : realloc(bytes, 2 * room);
        if (larger == NULL)
            free(bytes);
        bytes = larger;
        room *= 2;
    }
    if (bytes == NULL) {
        fprintf(stderr, "%s: too long\n", name);
    } else if (ferror(file)) {
        perror(name);
        free(bytes);
        bytes = NULL;
    }
    fclose(file);
    *length = filled;
    return bytes;
}

int main(int count, char **arguments)
{
    if (flowplan_version() != FLOWPLAN_HEADER_VERSION) {
        fprintf(stderr, "header version %lu, library version %lu\n",
                (unsigned long)FLOWPLAN_HEADER_VERSION, (unsigned long)flowplan_version());
        return 2;
    }
    if (count == 1) {
        uint8_t full[sizeof table_a], early[sizeof table_g];
        uint8_t book_e[sizeof book_a], wide[sizeof table_e];
        uint8_t shut[sizeof table_j], touching[sizeof calendar_j];

        memcpy(full, table_a, sizeof full);
        full[12 + 7 * 6 + 1] = 3; /* the eighth row to slot 3 */
        memcpy(book_e, book_a, sizeof book_e);
        book_e[6] = 2; /* P 2: the cap of 3 counts as 2 */
        memcpy(wide, table_e, sizeof wide);
        wide[12 + 7 * 6 + 5] = 3; /* the eighth row takes 3 */
        memcpy(early, table_g, sizeof early);
        early[12 + 3 * 6 + 1] = 1; /* the fourth row to slot 1 */
        memcpy(shut, table_j, sizeof shut);
        shut[12 + 4 * 6 + 1] = 4; /* the fifth row to slot 4 */
        memcpy(touching, calendar_j, sizeof touching);
        touching[6 + 4 + 1] = 1; /* the second window begins where the first ended */
        int as_said = check(book_a, sizeof book_a, table_a, sizeof table_a) == 0;
        as_said &= check(book_a, sizeof book_a, full, sizeof full) == 1;
        as_said &= check(book_e, sizeof book_e, table_e, sizeof table_e) == 0;
        as_said &= check(book_e, sizeof book_e, wide, sizeof wide) == 1;
        as_said &= check(book_g, sizeof book_g, table_g, sizeof table_g) == 0;
        as_said &= check(book_g, sizeof book_g, early, sizeof early) == 1;
        as_said &= check_with(book_j, sizeof book_j, calendar_j, sizeof calendar_j, table_j,
                              sizeof table_j) == 0;
        as_said &= check_with(book_j, sizeof book_j, calendar_j, sizeof calendar_j, shut,
                              sizeof shut) == 1;
        as_said &= check(book_j, sizeof book_j, shut, sizeof shut) == 0;
        as_said &= check_with(book_j, sizeof book_j, touching, sizeof touching, table_j,
                              sizeof table_j) == 1;
        return as_said ? 0 : 1;
    }
    if (count != 3 && count != 4) {
        fprintf(stderr, "usage: check_table [BOOK TABLE [CALENDAR]]\n");
        return 2;
    }
    size_t book_len = 0, table_len = 0, calendar_len = 0;
    uint8_t *book = read_file(arguments[1], &book_len);
    uint8_t *table = read_file(arguments[2], &table_len);
    uint8_t *calendar = count == 4 ? read_file(arguments[3], &calendar_len) : NULL;
    int status = 2;
    if (book != NULL && table != NULL && count == 3)
        status = check(book, book_len, table, table_len);
    else if (book != NULL && table != NULL && calendar != NULL)
        status = check_with(book, book_len, calendar, calendar_len, table, table_len);
    free(book);
    free(table);
    free(calendar);
    return status;
}
