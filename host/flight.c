/* SQLite extension: a flight log as the virtual tables `flight` (main frames) and `flight_events` (slow frames and events), and flight_end(PATH).
 * A log is read and defined when its table is connected; a scan goes over the rows of its walk, from the first to the last. columns.c has the columns. */
#include <string.h>

#include "columns.h"

SQLITE_EXTENSION_INIT1

void *log_allocate(size_t length)
{
    return sqlite3_malloc64(length);
}

void log_release(void *memory)
{
    sqlite3_free(memory);
}

struct table {
    sqlite3_vtab base;
    const struct shape *shape;
    struct log log;
};

struct cursor {
    sqlite3_vtab_cursor base;
    struct rows rows;
    const uint8_t *row; /* NULL: the scan has ended */
};

/* An error and its text, in memory of SQLite's; without memory for the text, that is the error. */
static int fail_with(char **out, char *text)
{
    *out = text;
    return text != NULL ? SQLITE_ERROR : SQLITE_NOMEM;
}

/* Connecting. */

/* A module's argument comes as it was written: bare, or quoted by ' or " with the quote doubled inside. False: the quotes do not match. */
static bool unquote(char *text)
{
    char quote = text[0], *to = text;
    const char *from = text + 1;
    if (quote != '\'' && quote != '"')
        return true;
    for (; *from != 0; from++) {
        if (*from == quote && *++from != quote) {
            *to = 0;
            return *from == 0;
        }
        *to++ = *from;
    }
    return false;
}

static int open_log(struct table *table, const char *path, char **error)
{
    switch (log_open(&table->log, path)) {
    case LOG_DEFINED:
        return SQLITE_OK;
    case LOG_NO_MEMORY:
        return SQLITE_NOMEM;
    default:
        return fail_with(error, sqlite3_mprintf("%s: %s", path, table->log.problem));
    }
}

static int declare(sqlite3 *db, const struct table *table, char **error)
{
    char *sql = table_text(db, table->shape, &table->log);
    if (sql == NULL)
        return SQLITE_NOMEM;
    int status = sqlite3_declare_vtab(db, sql);
    sqlite3_free(sql);
    if (status == SQLITE_OK)
        status = sqlite3_vtab_config(db, SQLITE_VTAB_DIRECTONLY); /* it reads files: not from triggers and views of a foreign database */
    if (status == SQLITE_OK || status == SQLITE_NOMEM)
        return status;
    return fail_with(error, sqlite3_mprintf("%s", sqlite3_errmsg(db)));
}

static int connect_to(sqlite3 *db, const struct shape *shape, const char *path, sqlite3_vtab **out, char **error)
{
    struct table *table = sqlite3_malloc64(sizeof *table);
    if (table == NULL)
        return SQLITE_NOMEM;
    memset(table, 0, sizeof *table);
    table->shape = shape;
    int status = open_log(table, path, error);
    if (status == SQLITE_OK)
        status = declare(db, table, error);
    if (status == SQLITE_OK) {
        *out = &table->base;
        return SQLITE_OK;
    }
    log_close(&table->log);
    sqlite3_free(table);
    return status;
}

static int flight_connect(sqlite3 *db, void *shape, int argc, const char *const *argv, sqlite3_vtab **out, char **error)
{
    if (argc != 4)
        return fail_with(error, sqlite3_mprintf("%s takes one argument, the path of a log", argv[0]));
    char *path = sqlite3_mprintf("%s", argv[3]);
    if (path == NULL)
        return SQLITE_NOMEM;
    int status = unquote(path) ? connect_to(db, shape, path, out, error)
                               : fail_with(error, sqlite3_mprintf("%s: the quotes of %s do not match", argv[0], argv[3]));
    sqlite3_free(path);
    return status;
}

/* Not flight_connect itself: SQLite would then offer a table without CREATE and without an argument. */
static int flight_create(sqlite3 *db, void *shape, int argc, const char *const *argv, sqlite3_vtab **out, char **error)
{
    return flight_connect(db, shape, argc, argv, out, error);
}

static int flight_disconnect(sqlite3_vtab *base)
{
    struct table *table = (struct table *)base;
    log_close(&table->log);
    sqlite3_free(table);
    return SQLITE_OK;
}

/* Scanning. */

/* One plan: all rows. How many there are is a guess, of some 16 bytes for a frame. */
static int flight_best_index(sqlite3_vtab *base, sqlite3_index_info *plan)
{
    const struct table *table = (const struct table *)base;
    plan->estimatedRows = (sqlite3_int64)table->log.section.length / 16 + 1;
    plan->estimatedCost = (double)table->log.section.length + 1;
    return SQLITE_OK;
}

static int flight_open(sqlite3_vtab *base, sqlite3_vtab_cursor **out)
{
    const struct table *table = (const struct table *)base;
    struct cursor *cursor = sqlite3_malloc64(sizeof *cursor);
    if (cursor == NULL)
        return SQLITE_NOMEM;
    memset(cursor, 0, sizeof *cursor);
    if (!rows_open(&cursor->rows, &table->log)) {
        sqlite3_free(cursor);
        return SQLITE_NOMEM;
    }
    *out = &cursor->base;
    return SQLITE_OK;
}

static int flight_close(sqlite3_vtab_cursor *base)
{
    struct cursor *cursor = (struct cursor *)base;
    rows_close(&cursor->rows);
    sqlite3_free(cursor);
    return SQLITE_OK;
}

/* A definition and a state that the library itself made are not refused; if they were, the scan must not look complete. */
static int refuse_scan(sqlite3_vtab *table, const struct rows *rows)
{
    sqlite3_free(table->zErrMsg);
    return fail_with(&table->zErrMsg, sqlite3_mprintf("refused %llu, place %llu, during a scan", (unsigned long long)DULIMASCA_REFUSAL(rows->status),
                                                      (unsigned long long)DULIMASCA_PLACE(rows->status)));
}

/* To the next row that belongs to the table. */
static int flight_next(sqlite3_vtab_cursor *base)
{
    struct cursor *cursor = (struct cursor *)base;
    const char *letters = ((struct table *)base->pVtab)->shape->letters;
    do
        cursor->row = rows_next(&cursor->rows);
    while (cursor->row != NULL && strchr(letters, row_letter(cursor->row)) == NULL);
    if (cursor->row == NULL && DULIMASCA_IS_REFUSED(cursor->rows.status))
        return refuse_scan(base->pVtab, &cursor->rows);
    return SQLITE_OK;
}

static int flight_filter(sqlite3_vtab_cursor *base, int plan, const char *text, int argc, sqlite3_value **argv)
{
    (void)plan, (void)text, (void)argc, (void)argv;
    rows_start(&((struct cursor *)base)->rows);
    return flight_next(base);
}

static int flight_eof(sqlite3_vtab_cursor *base)
{
    return ((struct cursor *)base)->row == NULL;
}

static int flight_value(sqlite3_vtab_cursor *base, sqlite3_context *context, int column)
{
    const struct cursor *cursor = (const struct cursor *)base;
    const struct table *table = (const struct table *)base->pVtab;
    table->shape->column(context, &table->log, cursor->row, (size_t)column);
    return SQLITE_OK;
}

static int flight_rowid(sqlite3_vtab_cursor *base, sqlite3_int64 *rowid)
{
    *rowid = (sqlite3_int64)row_place(((struct cursor *)base)->row);
    return SQLITE_OK;
}

static const sqlite3_module flight_module = {
    .xCreate = flight_create,
    .xConnect = flight_connect,
    .xBestIndex = flight_best_index,
    .xDisconnect = flight_disconnect,
    .xDestroy = flight_disconnect,
    .xOpen = flight_open,
    .xClose = flight_close,
    .xFilter = flight_filter,
    .xNext = flight_next,
    .xEof = flight_eof,
    .xColumn = flight_value,
    .xRowid = flight_rowid,
};

/* flight_end(PATH): how a log's walk ends, counted in one call. */

static void result_end(sqlite3_context *context, const struct log *log)
{
    uint8_t told[DULIMASCA_TOLD];
    uint64_t status = dulimasca_count(log->definition, sizeof log->definition, log->section.text, log->section.length, told, sizeof told);
    if (DULIMASCA_IS_REFUSED(status)) {
        sqlite3_result_error(context, "the section was refused", -1);
        return;
    }
    char line[LOG_END_LINE];
    log_end_line(line, status, told);
    sqlite3_result_text(context, line, -1, SQLITE_TRANSIENT);
}

static void result_problem(sqlite3_context *context, const char *path, const struct log *log)
{
    char *text = sqlite3_mprintf("%s: %s", path, log->problem);
    if (text == NULL)
        sqlite3_result_error_nomem(context);
    else
        sqlite3_result_error(context, text, -1);
    sqlite3_free(text);
}

static void flight_end(sqlite3_context *context, int argc, sqlite3_value **argv)
{
    (void)argc;
    struct log log;
    if (sqlite3_value_type(argv[0]) == SQLITE_NULL)
        return;
    const char *path = (const char *)sqlite3_value_text(argv[0]);
    if (path == NULL) {
        sqlite3_result_error_nomem(context);
        return;
    }
    switch (log_open(&log, path)) {
    case LOG_DEFINED:
        result_end(context, &log);
        break;
    case LOG_NO_MEMORY:
        sqlite3_result_error_nomem(context);
        break;
    default:
        result_problem(context, path, &log);
    }
    log_close(&log);
}

__attribute__((visibility("default"))) int sqlite3_flight_init(sqlite3 *db, char **error, const sqlite3_api_routines *api)
{
    SQLITE_EXTENSION_INIT2(api);
    (void)error;
    int status = sqlite3_create_module(db, "flight", &flight_module, (void *)&flight_shape);
    if (status == SQLITE_OK)
        status = sqlite3_create_module(db, "flight_events", &flight_module, (void *)&events_shape);
    if (status == SQLITE_OK)
        status = sqlite3_create_function(db, "flight_end", 1, SQLITE_UTF8 | SQLITE_DIRECTONLY, NULL, flight_end, NULL, NULL);
    return status;
}
