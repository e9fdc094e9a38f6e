/* Names and values of the columns of the SQLite tables: see columns.h. */
#include "columns.h"

SQLITE_EXTENSION_INIT3

/* Names. */

static size_t field_count(const struct shape *shape, const struct log *log)
{
    return shape->kind == DULIMASCA_MAIN ? log->fields : log->slow_fields;
}

/* The name that the log gives an item; control characters, which no SQL text should have to carry, become `?`. */
static char *item_name(const struct log *log, uint32_t kind, size_t item)
{
    struct stretch said = log_name(log, kind, item);
    if (said.length == 0)
        return sqlite3_mprintf("field_%llu", (unsigned long long)item);
    char *name = sqlite3_malloc64(said.length + 1);
    if (name == NULL)
        return NULL;
    for (size_t i = 0; i < said.length; i++)
        name[i] = said.text[i] < 32 || said.text[i] == 127 ? '?' : (char)said.text[i];
    name[said.length] = 0;
    return name;
}

/* Column names in SQLite are equal without regard to case. */
static bool is_taken(char *const *names, size_t count, const char *name)
{
    for (size_t i = 0; i < count; i++)
        if (sqlite3_stricmp(names[i], name) == 0)
            return true;
    return false;
}

/* The name itself, or the first of NAME_2, NAME_3, .. that no earlier column has. Frees `name`. */
static char *free_name(char *const *names, size_t count, char *name)
{
    char *candidate = name;
    for (unsigned n = 2; candidate != NULL && is_taken(names, count, candidate); n++) {
        if (candidate != name)
            sqlite3_free(candidate);
        candidate = sqlite3_mprintf("%s_%u", name, n);
    }
    if (candidate != name)
        sqlite3_free(name);
    return candidate;
}

static char *column_name(const struct shape *shape, const struct log *log, char *const *names, size_t column)
{
    if (column < shape->fixed_count)
        return sqlite3_mprintf("%s", shape->fixed[column]);
    return free_name(names, column, item_name(log, shape->kind, column - shape->fixed_count + shape->first_item));
}

#define MOST_COLUMNS (5 + DULIMASCA_FIELDS)

char *table_text(sqlite3 *db, const struct shape *shape, const struct log *log)
{
    char *names[MOST_COLUMNS];
    size_t count = 0, all = shape->fixed_count + field_count(shape, log);
    sqlite3_str *text = sqlite3_str_new(db);
    sqlite3_str_appendall(text, "CREATE TABLE x(");
    for (; count < all; count++) {
        names[count] = column_name(shape, log, names, count);
        if (names[count] == NULL)
            break;
        sqlite3_str_appendf(text, "%s\"%w\" %s", count > 0 ? "," : "", names[count], count > 0 ? "INTEGER" : "TEXT");
    }
    sqlite3_str_appendall(text, ")");
    bool whole = count == all;
    while (count > 0)
        sqlite3_free(names[--count]);
    char *sql = sqlite3_str_finish(text);
    if (whole)
        return sql;
    sqlite3_free(sql);
    return NULL;
}

/* Values. */

/* SQLite's integers are signed: a time beyond them is given as its decimal digits. */
static void result_unsigned(sqlite3_context *context, uint64_t number)
{
    if (number <= INT64_MAX) {
        sqlite3_result_int64(context, (sqlite3_int64)number);
        return;
    }
    char *digits = sqlite3_mprintf("%llu", (unsigned long long)number);
    if (digits == NULL)
        sqlite3_result_error_nomem(context);
    else
        sqlite3_result_text(context, digits, -1, sqlite3_free);
}

static void result_letter(sqlite3_context *context, const uint8_t *row)
{
    char letter = row_letter(row);
    sqlite3_result_text(context, &letter, 1, SQLITE_TRANSIENT);
}

static void flight_column(sqlite3_context *context, const struct log *log, const uint8_t *row, size_t column)
{
    switch (column) {
    case 0:
        result_letter(context, row);
        break;
    case 1:
        result_unsigned(context, row_place(row));
        break;
    case 2:
        sqlite3_result_int64(context, row_iteration(row));
        break;
    case 3:
        result_unsigned(context, row_time(row));
        break;
    default:
        sqlite3_result_int64(context, row_value(log, row, column - 4));
    }
}

/* An event's type and numbers, or a slow frame's fields; what a row does not have stays NULL. */
static void events_column(sqlite3_context *context, const struct log *log, const uint8_t *row, size_t column)
{
    bool event = row_letter(row) == 'E';
    if (column == 0)
        result_letter(context, row);
    else if (column == 1)
        result_unsigned(context, row_place(row));
    else if (column >= 5 && !event)
        sqlite3_result_int64(context, row_value(log, row, column - 5));
    else if (column < 5 && event && column - 2 <= event_numbers(row_value(log, row, 0)))
        sqlite3_result_int64(context, row_value(log, row, column - 2));
}

/* A main list's first two items are loopIteration and time, which have columns of their own. */
const struct shape flight_shape = {{"kind", "place", "iteration", "time"}, 4, DULIMASCA_MAIN, 2, "IP", flight_column};
const struct shape events_shape = {{"kind", "place", "event", "first", "second"}, 5, DULIMASCA_SLOW, 0, "SE", events_column};
