/* A flight log in memory: the file, its settings and its definition; and the rows of its walk.
 * See log.h. POSIX is used for reading, since C alone cannot tell a regular file from a pipe. */
#define _POSIX_C_SOURCE 200809L
#define _FILE_OFFSET_BITS 64

#include "log.h"

#include <errno.h>
#include <fcntl.h>
#include <inttypes.h>
#include <stdarg.h>
#include <stdio.h>
#include <string.h>
#include <sys/stat.h>
#include <unistd.h>

/* The file. */

static enum log_opened unreadable(struct log *log, const char *what, int error)
{
    char reason[128];
    if (strerror_r(error, reason, sizeof reason) != 0)
        snprintf(reason, sizeof reason, "error %d", error);
    snprintf(log->problem, sizeof log->problem, "%s: %s", what, reason);
    return LOG_UNREADABLE;
}

static enum log_opened no_memory(struct log *log)
{
    snprintf(log->problem, sizeof log->problem, "out of memory");
    return LOG_NO_MEMORY;
}

/* Up to `length` bytes: a file that has shrunk meanwhile gives fewer. -1: an error, in errno. */
static ssize_t read_whole(int file, uint8_t *bytes, size_t length)
{
    size_t done = 0;
    while (done < length) {
        ssize_t n = read(file, bytes + done, length - done);
        if (n == 0)
            break;
        if (n > 0)
            done += (size_t)n;
        else if (errno != EINTR)
            return -1;
    }
    return (ssize_t)done;
}

static enum log_opened read_file(struct log *log, int file)
{
    struct stat about;
    if (fstat(file, &about) != 0)
        return unreadable(log, "cannot be opened", errno);
    if (!S_ISREG(about.st_mode)) {
        snprintf(log->problem, sizeof log->problem, "cannot be opened: not a regular file");
        return LOG_UNREADABLE;
    }
    if ((uintmax_t)about.st_size >= SIZE_MAX)
        return no_memory(log);
    log->bytes = log_allocate((size_t)about.st_size + 1);
    if (log->bytes == NULL)
        return no_memory(log);
    ssize_t length = read_whole(file, log->bytes, (size_t)about.st_size);
    if (length < 0)
        return unreadable(log, "cannot be read", errno);
    log->length = (size_t)length;
    return LOG_DEFINED;
}

/* O_NONBLOCK: a pipe is to be found out, not to be waited for. */
static enum log_opened load(struct log *log, const char *path)
{
    int file = open(path, O_RDONLY | O_CLOEXEC | O_NONBLOCK);
    if (file < 0)
        return unreadable(log, "cannot be opened", errno);
    enum log_opened loaded = read_file(log, file);
    close(file);
    return loaded;
}

/* Numbers, low byte first, whatever the machine's own order is. */

static uint32_t number_4(const uint8_t *b)
{
    return (uint32_t)b[0] | (uint32_t)b[1] << 8 | (uint32_t)b[2] << 16 | (uint32_t)b[3] << 24;
}

static uint64_t number_8(const uint8_t *b)
{
    return (uint64_t)number_4(b) | (uint64_t)number_4(b + 4) << 32;
}

/* The definition. */

static const char *refusal_in_words(uint64_t refusal)
{
    static const char *const words[] = {
        "a list is missing",
        "too many fields",
        "unknown predictor or encoding",
        "the first field is not loopIteration",
        "the second field is not time",
        "lists of different lengths",
        "inter lists of different lengths",
        "a predictor lacks what it needs",
        "a frame interval that is not taken",
    };
    return refusal >= 1 && refusal <= 9 ? words[refusal - 1] : "not to be expected of a log";
}

/* Adds to the problem's words. */
__attribute__((format(printf, 2, 3))) static void say(struct log *log, const char *format, ...)
{
    size_t said = strlen(log->problem);
    va_list values;
    va_start(values, format);
    vsnprintf(log->problem + said, sizeof log->problem - said, format, values);
    va_end(values);
}

/* The interval that was refused, and what a 0 in it means. */
static void say_interval(struct log *log, const uint8_t *settings)
{
    uint32_t intra = number_4(settings + 4 * DULIMASCA_SET_INTRA);
    uint32_t numerator = number_4(settings + 4 * DULIMASCA_SET_NUMERATOR);
    uint32_t denominator = number_4(settings + 4 * DULIMASCA_SET_DENOMINATOR);
    say(log, ": I %" PRIu32 ", P %" PRIu32 "/%" PRIu32, intra, numerator, denominator);
    if (intra == 0 || numerator == 0 || denominator == 0)
        say(log, " (0: no line gives it, or none that can be read)");
}

static enum log_opened refused(struct log *log, uint64_t answer, const uint8_t *settings)
{
    log->refusal = DULIMASCA_REFUSAL(answer);
    log->place = DULIMASCA_PLACE(answer);
    log->round = DULIMASCA_ROUND(answer);
    say(log, "refused %" PRIu64 ", place %" PRIu64, log->refusal, log->place);
    if (log->refusal == 3)
        say(log, ", round %" PRIu64, log->round);
    say(log, ": %s", refusal_in_words(log->refusal));
    if (log->refusal == 9)
        say_interval(log, settings);
    return LOG_REFUSED;
}

static enum log_opened define(struct log *log)
{
    uint8_t settings[DULIMASCA_SETTINGS], told[DULIMASCA_TOLD];
    uint64_t answer = dulimasca_settings(log->bytes, log->length, settings, sizeof settings);
    if (!DULIMASCA_IS_REFUSED(answer))
        answer = dulimasca_define(log->bytes, log->length, settings, sizeof settings, log->definition, sizeof log->definition, told, sizeof told);
    if (DULIMASCA_IS_REFUSED(answer))
        return refused(log, answer, settings);
    size_t t[8];
    for (int i = 0; i < 8; i++)
        t[i] = (size_t)dulimasca_number(told, i);
    log->section = (struct stretch){log->bytes + t[0], log->length - t[0]};
    log->fields = t[1] < 2 ? 0 : t[1] - 2;
    log->slow_fields = t[2];
    log->names = (struct stretch){log->bytes + t[3], t[4] - t[3]};
    log->slow_names = (struct stretch){log->bytes + t[5], t[6] - t[5]};
    log->row_length = t[7];
    return LOG_DEFINED;
}

enum log_opened log_open(struct log *log, const char *path)
{
    memset(log, 0, sizeof *log);
    enum log_opened loaded = load(log, path);
    return loaded == LOG_DEFINED ? define(log) : loaded;
}

enum log_opened log_define(struct log *log, uint8_t *bytes, size_t length)
{
    memset(log, 0, sizeof *log);
    log->bytes = bytes;
    log->length = length;
    return define(log);
}

void log_close(struct log *log)
{
    if (log->bytes != NULL)
        log_release(log->bytes);
    log->bytes = NULL;
}

struct stretch log_name(const struct log *log, uint32_t kind, size_t item)
{
    struct stretch list = kind == DULIMASCA_MAIN ? log->names : log->slow_names;
    uint8_t told[DULIMASCA_TOLD];
    if (dulimasca_name(log->definition, sizeof log->definition, kind, log->names.text, log->names.length, log->slow_names.text,
                       log->slow_names.length, item, told, sizeof told) != 0)
        return (struct stretch){list.text, 0};
    size_t begin = (size_t)dulimasca_number(told, 0);
    return (struct stretch){list.text + begin, (size_t)dulimasca_number(told, 1) - begin};
}

void log_end_line(char line[LOG_END_LINE], uint64_t status, const uint8_t told[DULIMASCA_TOLD])
{
    const char *how = status == DULIMASCA_DONE ? "done" : status == DULIMASCA_CUT ? "cut" : "out of data";
    snprintf(line, LOG_END_LINE, "end %s main %" PRIu64 " event %" PRIu64 " slow %" PRIu64 " tried %" PRIu64 " rejected %" PRIu64, how,
             dulimasca_number(told, 1), dulimasca_number(told, 2), dulimasca_number(told, 3), dulimasca_number(told, 5), dulimasca_number(told, 4));
}

/* The rows. */

/* In proportion to the section, so that the number of calls is bounded whatever the bytes are: dulimasca.h says why at dulimasca_rows. */
static size_t batch_length(const struct log *log)
{
    size_t length = 65536;
    if (length < log->row_length)
        length = log->row_length;
    if (length < log->section.length / 4)
        length = log->section.length / 4;
    return length;
}

bool rows_open(struct rows *rows, const struct log *log)
{
    rows->log = log;
    rows->batch_length = batch_length(log);
    rows->batch = log_allocate(rows->batch_length);
    if (rows->batch == NULL)
        return false;
    rows_start(rows);
    return true;
}

/* The status of a start that was not refused, 0, is that of a walk with more to come. */
void rows_start(struct rows *rows)
{
    rows->next = rows->count = 0;
    rows->status = dulimasca_start(rows->state, sizeof rows->state, rows->told, sizeof rows->told);
}

void rows_close(struct rows *rows)
{
    log_release(rows->batch);
}

static void next_batch(struct rows *rows)
{
    const struct log *log = rows->log;
    rows->status = dulimasca_rows(log->definition, sizeof log->definition, rows->state, sizeof rows->state, log->section.text,
                                  log->section.length, rows->batch, rows->batch_length, rows->told, sizeof rows->told);
    rows->next = 0;
    rows->count = DULIMASCA_IS_REFUSED(rows->status) ? 0 : (size_t)dulimasca_number(rows->told, 6);
}

const uint8_t *rows_next(struct rows *rows)
{
    while (rows->next == rows->count) {
        if (rows->status != DULIMASCA_MORE)
            return NULL;
        next_batch(rows);
    }
    return rows->batch + rows->log->row_length * rows->next++;
}

char row_letter(const uint8_t *row)
{
    return (char)number_4(row + DULIMASCA_ROW_LETTER);
}

uint64_t row_place(const uint8_t *row)
{
    return number_8(row + DULIMASCA_ROW_PLACE);
}

uint32_t row_iteration(const uint8_t *row)
{
    return number_4(row + DULIMASCA_ROW_ITERATION);
}

uint64_t row_time(const uint8_t *row)
{
    return number_8(row + DULIMASCA_ROW_TIME);
}

static bool is_signed(const struct log *log, char letter, size_t field)
{
    switch (letter) {
    case 'E':
        return false;
    case 'S':
        return log->definition[DULIMASCA_DEFINITION_SLOW_SIGNS + field] != 0;
    default:
        return log->definition[DULIMASCA_DEFINITION_SIGNS + field] != 0;
    }
}

int64_t row_value(const struct log *log, const uint8_t *row, size_t field)
{
    int64_t value = number_4(row + DULIMASCA_ROW_VALUES + 4 * field);
    if (value > INT32_MAX && is_signed(log, row_letter(row), field))
        value -= INT64_C(4294967296);
    return value;
}

size_t event_numbers(int64_t type)
{
    switch (type) {
    case 0:
    case 15:
        return 1;
    case 14:
    case 30:
        return 2;
    default:
        return 0;
    }
}
