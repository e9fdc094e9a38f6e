/* A flight log in memory and the rows of its walk: what the example import.c, the SQLite extension flight.c and the programs of oracle/ and bench/ share.
 * The file is read whole, so that a file which changes later changes no answer. */
#ifndef LOG_H
#define LOG_H

#include <stdbool.h>
#include <stddef.h>
#include <stdint.h>

#include "dulimasca.h"

/* Each host brings its own memory: NULL where there is none left. Lengths asked for are not 0. */
void *log_allocate(size_t length);
void log_release(void *memory);

struct stretch {
    const uint8_t *text;
    size_t length;
};

struct log {
    uint8_t *bytes;
    size_t length;
    struct stretch section;
    uint8_t definition[DULIMASCA_DEFINITION];
    size_t fields, slow_fields; /* values of a main and of a slow frame */
    size_t row_length;
    struct stretch names, slow_names; /* the lists of names, in `bytes` */
    uint64_t refusal, place, round;   /* of refused lists; the round is said of refusal 3 */
    char problem[200];                /* why there is no definition, in words; empty where there is one */
};

enum log_opened { LOG_DEFINED, LOG_REFUSED, LOG_UNREADABLE, LOG_NO_MEMORY };

/* Reads and defines a log. Whatever comes out, log_close has to follow. */
enum log_opened log_open(struct log *log, const char *path);
void log_close(struct log *log);

/* Defines a log that is in memory already, and stays the caller's: no log_close. */
enum log_opened log_define(struct log *log, uint8_t *bytes, size_t length);

/* The name of an item, from 0, of the list of a kind (DULIMASCA_MAIN, DULIMASCA_SLOW); empty where there is none. */
struct stretch log_name(const struct log *log, uint32_t kind, size_t item);

/* The line `end ..` of a walk, by the status and the numbers that dulimasca_count or dulimasca_rows gave at its end. */
#define LOG_END_LINE 160
void log_end_line(char line[LOG_END_LINE], uint64_t status, const uint8_t told[DULIMASCA_TOLD]);

/* The rows of a log's walk, one after the other. Several may go over one log at once. */
struct rows {
    const struct log *log;
    uint8_t state[DULIMASCA_STATE];
    uint8_t *batch;
    size_t batch_length;
    size_t next, count; /* rows of the batch */
    uint64_t status;    /* of the last call: how the walk stands, or a refusal */
    uint8_t told[DULIMASCA_TOLD];
};

/* False: no memory. Where it is true, rows_close has to follow; rows_start sets the walk to its beginning, as often as wanted. */
bool rows_open(struct rows *rows, const struct log *log);
void rows_start(struct rows *rows);
void rows_close(struct rows *rows);

/* The next row, which is there until the next call; or NULL, and `status` says how the walk ended. */
const uint8_t *rows_next(struct rows *rows);

/* The numbers of a row. A field is signed where the definition's sign says so. */
char row_letter(const uint8_t *row);
uint64_t row_place(const uint8_t *row);
uint32_t row_iteration(const uint8_t *row);
uint64_t row_time(const uint8_t *row);
int64_t row_value(const struct log *log, const uint8_t *row, size_t field);

/* How many numbers an event of a type has: 0, 1 or 2. They are the values 1 and 2 of its row; its type is value 0. */
size_t event_numbers(int64_t type);

#endif
