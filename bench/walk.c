/* walk [--count] WALKS LOG: the CPU time of so many walks of the library over a log's section, by dulimasca_rows or by dulimasca_count.
 * Rows come through the buffer that the example host lends, and every value of every row is summed. Reading and defining the log are not measured. */
#define _DEFAULT_SOURCE /* for endian.h and the clock */

#include <endian.h>
#include <string.h>

#include "clock.h"
#include "log.h"

struct total {
    uint64_t frames, sum;
};

void *log_allocate(size_t length)
{
    return malloc(length);
}

void log_release(void *memory)
{
    free(memory);
}

/* Low byte first, whatever the machine's own order is. */
static inline uint32_t number_4(const uint8_t *b)
{
    uint32_t n;
    memcpy(&n, b, sizeof n);
    return le32toh(n);
}

static inline uint64_t number_8(const uint8_t *b)
{
    uint64_t n;
    memcpy(&n, b, sizeof n);
    return le64toh(n);
}

static inline uint64_t sum_of_values(const uint8_t *row, size_t count)
{
    uint64_t sum = 0;
    for (size_t i = 0; i < count; i++)
        sum += number_4(row + DULIMASCA_ROW_VALUES + 4 * i);
    return sum;
}

/* Events are counted and not summed, as in the Rust's measurement. */
static inline uint64_t sum_of_row(const struct log *log, const uint8_t *row)
{
    switch (row[DULIMASCA_ROW_LETTER]) {
    case 'E':
        return 0;
    case 'S':
        return sum_of_values(row, log->slow_fields);
    default:
        return number_4(row + DULIMASCA_ROW_ITERATION) + number_8(row + DULIMASCA_ROW_TIME) + sum_of_values(row, log->fields);
    }
}

/* A batch of rows at a time, in the buffer that the example host lends. */
static void walk_by_rows(struct rows *rows, struct total *total)
{
    const uint8_t *row;
    rows_start(rows);
    while ((row = rows_next(rows)) != NULL) {
        size_t left = rows->count - rows->next + 1;
        total->frames += left;
        for (size_t i = 0; i < left; i++)
            total->sum += sum_of_row(rows->log, row + rows->log->row_length * i);
        rows->next = rows->count;
    }
}

static void walk_by_count(const struct log *log, struct total *total)
{
    uint8_t told[DULIMASCA_TOLD];
    dulimasca_count(log->definition, sizeof log->definition, log->section.text, log->section.length, told, sizeof told);
    total->frames += dulimasca_number(told, 1) + dulimasca_number(told, 2) + dulimasca_number(told, 3);
}

static int measure(const struct log *log, bool count, unsigned long walks)
{
    struct rows rows;
    struct total total = {0, 0};
    if (!rows_open(&rows, log)) {
        fputs("walk: out of memory\n", stderr);
        return 2;
    }
    uint64_t begin = cpu_time();
    for (unsigned long i = 0; i < walks; i++) {
        if (count)
            walk_by_count(log, &total);
        else
            walk_by_rows(&rows, &total);
    }
    print_measured(cpu_time() - begin, total.frames, total.sum);
    rows_close(&rows);
    return 0;
}

int main(int argc, char **argv)
{
    bool count = argc == 4 && strcmp(argv[1], "--count") == 0;
    if (argc != 3 && !count) {
        fputs("usage: walk [--count] WALKS LOG\n", stderr);
        return 2;
    }
    struct log log;
    int status = 2;
    if (log_open(&log, argv[argc - 1]) == LOG_DEFINED)
        status = measure(&log, count, strtoul(argv[argc - 2], NULL, 10));
    else
        fprintf(stderr, "walk: %s: %s\n", argv[argc - 1], log.problem);
    log_close(&log);
    return status;
}
