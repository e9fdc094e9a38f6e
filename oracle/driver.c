/* driver: the library's side of oracle/compare. Reads logs from standard input, each as a length of 4 bytes, low byte first, and its bytes; prints of each what the program
 * `walk` prints, with the settings that its lines give and without a limit on lengths, then a line `--`. Answers are out before more input is waited for. */
#define _POSIX_C_SOURCE 200809L

#include <errno.h>
#include <stdio.h>
#include <stdlib.h>
#include <string.h>
#include <unistd.h>

#include "session.h"

/* The rows of most logs fit into one block, which is kept: allocating 64 KB for each of 100,000 logs a second is most of the time otherwise. */
static uint8_t kept[1 << 17];
static bool kept_lent;

void *log_allocate(size_t length)
{
    if (length > sizeof kept || kept_lent)
        return malloc(length);
    kept_lent = true;
    return kept;
}

void log_release(void *memory)
{
    if (memory == kept)
        kept_lent = false;
    else
        free(memory);
}

static void fail(const char *what)
{
    fprintf(stderr, "driver: %s\n", what);
    exit(2);
}

/* The input, by a buffer of our own: whether it is empty says whether the answers have to go out now. */
static uint8_t input[1 << 16];
static size_t input_next, input_end;

/* Up to `length` bytes; fewer at the end of the input alone. */
static size_t take(uint8_t *bytes, size_t length)
{
    size_t done = 0;
    while (done < length) {
        if (input_next == input_end) {
            if (fflush(stdout) != 0)
                fail("standard output could not be written");
            ssize_t n = read(STDIN_FILENO, input, sizeof input);
            if (n < 0 && errno == EINTR)
                continue;
            if (n < 0)
                fail("standard input could not be read");
            if (n == 0)
                break;
            input_next = 0;
            input_end = (size_t)n;
        }
        size_t some = input_end - input_next < length - done ? input_end - input_next : length - done;
        memcpy(bytes + done, input + input_next, some);
        input_next += some;
        done += some;
    }
    return done;
}

static void print_session(const struct log *log)
{
    struct rows rows;
    const uint8_t *row;
    char line[LOG_END_LINE];
    if (!rows_open(&rows, log))
        fail("out of memory");
    puts("kind at values");
    while ((row = rows_next(&rows)) != NULL)
        print_row(stdout, log, row);
    if (DULIMASCA_IS_REFUSED(rows.status))
        fail("the library refused a walk that it began, which cannot be");
    log_end_line(line, rows.status, rows.told);
    puts(line);
    rows_close(&rows);
}

static void print_answer(uint8_t *bytes, size_t length)
{
    struct log log;
    if (log_define(&log, bytes, length) == LOG_DEFINED)
        print_session(&log);
    else
        print_refusal(stdout, &log);
    puts("--");
}

int main(void)
{
    static char output[1 << 16];
    uint8_t *bytes = NULL;
    uint8_t size[4];
    size_t room = 0, got;
    setvbuf(stdout, output, _IOFBF, sizeof output);
    while ((got = take(size, sizeof size)) == sizeof size) {
        size_t length = (size_t)size[0] | (size_t)size[1] << 8 | (size_t)size[2] << 16 | (size_t)size[3] << 24;
        if (length >= room) {
            free(bytes);
            room = length + 1;
            bytes = malloc(room);
            if (bytes == NULL)
                fail("out of memory");
        }
        if (take(bytes, length) != length)
            fail("the input ends inside of a case");
        print_answer(bytes, length);
    }
    free(bytes);
    if (got != 0)
        fail("the input ends inside of a length");
    if (fflush(stdout) != 0 || ferror(stdout))
        fail("standard output could not be written");
    return 0;
}
