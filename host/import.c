/* import [--rows] LOG: imports all rows of a flight log and prints how its walk ended; with --rows the whole session, as `walk` does.
 * The C example: where a database host would store a row, this one prints or counts it. ../import builds it where need be, and runs it.
 * Exit status 1: the log is refused, with the number on standard output and the words on standard error; 2: any other error. */
#define _POSIX_C_SOURCE 200809L

#include <inttypes.h>
#include <stdio.h>
#include <stdlib.h>
#include <string.h>
#include <time.h>
#include <unistd.h>

#include "session.h"

void *log_allocate(size_t length)
{
    return malloc(length);
}

void log_release(void *memory)
{
    free(memory);
}

/* How far an import is that takes longer than a second: per cent of the section. On standard error, if that is a terminal, and not between rows
 * that are printed to one. */
struct progress {
    bool wanted;
    double begin;
    int shown; /* per cent; -1: nothing yet */
};

static double seconds(void)
{
    struct timespec now;
    clock_gettime(CLOCK_MONOTONIC, &now);
    return (double)now.tv_sec + (double)now.tv_nsec / 1e9;
}

static struct progress progress_from_now(bool print)
{
    return (struct progress){isatty(STDERR_FILENO) && !(print && isatty(STDOUT_FILENO)), seconds(), -1};
}

static void show_progress(struct progress *progress, uint64_t place, size_t length)
{
    int percent = (int)(100 * (double)place / (double)length);
    if (!progress->wanted || percent == progress->shown || seconds() - progress->begin < 1)
        return;
    progress->shown = percent;
    fprintf(stderr, "\r%3d %%", percent);
}

static void erase_progress(const struct progress *progress)
{
    if (progress->shown >= 0)
        fputs("\r     \r", stderr);
}

/* The same section counted in one call has to end alike, place and counts included. */
static bool is_count(const struct log *log, const struct rows *rows, const uint64_t seen[3])
{
    uint8_t told[DULIMASCA_TOLD];
    uint64_t status = dulimasca_count(log->definition, sizeof log->definition, log->section.text, log->section.length, told, sizeof told);
    bool same = status == rows->status && memcmp(told, rows->told, 6 * 8) == 0;
    for (int i = 0; i < 3; i++)
        same = same && dulimasca_number(told, i + 1) == seen[i];
    return same;
}

/* False: the rows and the count differ. */
static bool walk(const struct log *log, struct rows *rows, bool print)
{
    struct progress progress = progress_from_now(print);
    uint64_t seen[3] = {0, 0, 0}; /* main, event and slow rows */
    const uint8_t *row;
    while ((row = rows_next(rows)) != NULL) {
        char letter = row_letter(row);
        seen[letter == 'E' ? 1 : letter == 'S' ? 2 : 0]++;
        if (print)
            print_row(stdout, log, row);
        if (rows->next % 256 == 0)
            show_progress(&progress, row_place(row), log->section.length);
    }
    bool same = is_count(log, rows, seen);
    erase_progress(&progress);
    return same;
}

static int import(const struct log *log, struct rows *rows, bool print)
{
    if (!walk(log, rows, print)) {
        fprintf(stderr, "import: the rows and dulimasca_count differ, which cannot be: status %" PRIu64 "\n", rows->status);
        return 2;
    }
    char line[LOG_END_LINE];
    log_end_line(line, rows->status, rows->told);
    puts(line);
    return 0;
}

static int import_defined(const struct log *log, bool print)
{
    struct rows rows;
    if (!rows_open(&rows, log)) {
        fputs("import: out of memory\n", stderr);
        return 2;
    }
    if (print)
        puts("kind at values");
    int status = import(log, &rows, print);
    rows_close(&rows);
    return status;
}

static int import_file(const char *path, bool print)
{
    struct log log;
    int status;
    switch (log_open(&log, path)) {
    case LOG_DEFINED:
        status = import_defined(&log, print);
        break;
    case LOG_REFUSED:
        print_refusal(stdout, &log);
        fflush(stdout);
        fprintf(stderr, "import: %s: %s\n", path, log.problem);
        status = 1;
        break;
    default:
        fprintf(stderr, "import: %s: %s\n", path, log.problem);
        status = 2;
    }
    log_close(&log);
    return status;
}

int main(int argc, char **argv)
{
    bool print = argc == 3 && strcmp(argv[1], "--rows") == 0;
    if ((argc != 2 && !print) || strncmp(argv[argc - 1], "--", 2) == 0) {
        fputs("usage: import [--rows] LOG\n", stderr);
        return 2;
    }
    int status = import_file(argv[argc - 1], print);
    if (fflush(stdout) != 0 || ferror(stdout)) {
        fputs("import: standard output could not be written\n", stderr);
        return 2;
    }
    return status;
}
