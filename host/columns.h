/* The columns of the tables that flight.c offers to SQLite: their names, and their values from a row of a log's walk. */
#ifndef COLUMNS_H
#define COLUMNS_H

#include <sqlite3ext.h>

#include "log.h"

/* What the two tables differ in. The first columns are fixed; the fields of `kind` follow, from item `first_item` of its names. */
struct shape {
    const char *fixed[5];
    size_t fixed_count;
    uint32_t kind;
    size_t first_item;
    const char *letters; /* of the rows that belong to the table */
    void (*column)(sqlite3_context *context, const struct log *log, const uint8_t *row, size_t column);
};

extern const struct shape flight_shape, events_shape;

/* CREATE TABLE with all columns, of which the first is the letter, in memory of SQLite's; NULL: there is none left. */
char *table_text(sqlite3 *db, const struct shape *shape, const struct log *log);

#endif
