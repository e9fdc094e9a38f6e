/* The lines of a log's session: see session.h. */
#include "session.h"

#include <inttypes.h>

static void print_values(FILE *out, const struct log *log, const uint8_t *row, size_t count)
{
    for (size_t i = 0; i < count; i++)
        fprintf(out, " %" PRId64, row_value(log, row, i));
    putc('\n', out);
}

void print_row(FILE *out, const struct log *log, const uint8_t *row)
{
    char letter = row_letter(row);
    fprintf(out, "%c %" PRIu64, letter, row_place(row));
    if (letter == 'E') {
        print_values(out, log, row, 1 + event_numbers(row_value(log, row, 0)));
    } else if (letter == 'S') {
        print_values(out, log, row, log->slow_fields);
    } else {
        fprintf(out, " %" PRIu32 " %" PRIu64, row_iteration(row), row_time(row));
        print_values(out, log, row, log->fields);
    }
}

void print_refusal(FILE *out, const struct log *log)
{
    fprintf(out, "refused %" PRIu64 " %" PRIu64, log->refusal, log->place);
    if (log->refusal == 3)
        fprintf(out, " %" PRIu64, log->round);
    putc('\n', out);
}
