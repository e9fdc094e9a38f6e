/* Calls of the library's functions that are not refused: see uses.h. */
#include "uses.h"

#include <string.h>

static const char lists[] = "H Field I name:loopIteration,time,motor[0]\n" MAIN_LISTS("0,0,0", "0,0,8", "1,1,0", "6,2,1", "9,0,0")
    "H Field S name:a,b\nH Field S signed:0,1\nH Field S predictor:0,0\nH Field S encoding:1,0\n";
static const uint8_t section[] = {'I', 5, 100, 20, 'P', 10, 2, 'S', 3, 7, 'E', 255, 'E', 'n', 'd', ' ', 'o', 'f', ' ', 'l', 'o', 'g', 0};
static const char names[] = "loopIteration,time,motor[0]";
static const char slow_names[] = "a,b";
static const uint32_t settings[6] = {DULIMASCA_ABSENT, DULIMASCA_ABSENT, DULIMASCA_ABSENT, 1, 1, 1};

/* The functions. */

uint64_t use_settings(const struct call *c)
{
    return dulimasca_settings(c->at[LOG], c->length[LOG], c->at[SETTINGS], c->length[SETTINGS]);
}

uint64_t use_define(const struct call *c)
{
    return dulimasca_define(c->at[LOG], c->length[LOG], c->at[SETTINGS], c->length[SETTINGS], c->at[DEFINITION], c->length[DEFINITION], c->at[TOLD],
                            c->length[TOLD]);
}

uint64_t use_name(const struct call *c)
{
    return dulimasca_name(c->at[DEFINITION], c->length[DEFINITION], c->kind, c->at[NAMES], c->length[NAMES], c->at[SLOW_NAMES], c->length[SLOW_NAMES],
                          c->item, c->at[TOLD], c->length[TOLD]);
}

uint64_t use_count(const struct call *c)
{
    return dulimasca_count(c->at[DEFINITION], c->length[DEFINITION], c->at[SECTION], c->length[SECTION], c->at[TOLD], c->length[TOLD]);
}

uint64_t use_fill(const struct call *c)
{
    return dulimasca_fill(c->at[DEFINITION], c->length[DEFINITION], c->at[SECTION], c->length[SECTION], c->kind, c->item, c->at[OUT], c->length[OUT],
                          c->at[TOLD], c->length[TOLD]);
}

uint64_t use_start(const struct call *c)
{
    return dulimasca_start(c->at[STATE], c->length[STATE], c->at[TOLD], c->length[TOLD]);
}

uint64_t use_rows(const struct call *c)
{
    return dulimasca_rows(c->at[DEFINITION], c->length[DEFINITION], c->at[STATE], c->length[STATE], c->at[SECTION], c->length[SECTION], c->at[OUT],
                          c->length[OUT], c->at[TOLD], c->length[TOLD]);
}

/* What is lent and written, by the layouts of dulimasca.h. */

static void put_settings(uint8_t *at, const uint32_t numbers[6])
{
    for (int i = 0; i < 6; i++)
        put_4(at + 4 * i, numbers[i]);
}

static void put_definition(uint8_t *at, const uint32_t numbers[6])
{
    const uint64_t counts[4] = {2, 3, 0, 2};
    memset(at, 0, DULIMASCA_DEFINITION);
    for (int i = 0; i < 4; i++)
        put_8(at + 8 * i, counts[i]);
    for (int i = 0; i < 3; i++) {
        put_8(at + 32 + 8 * i, numbers[i]);
        put_8(at + DULIMASCA_DEFINITION_INTERVAL + 8 * i, numbers[3 + i]);
    }
    at[56] = 8;
    at[56 + 62] = 1;
    at[366 + 16] = 1;
    at[DULIMASCA_DEFINITION_SLOW_SIGNS + 1] = 1;
}

static void put_frame(uint8_t *at, char letter, uint32_t iteration, uint64_t time, uint32_t value)
{
    put_4(at, (uint8_t)letter);
    put_4(at + 4, iteration);
    put_8(at + 8, time);
    put_4(at + 16, value);
}

/* The walk over the section behind so many of its rows. */
static void put_state(uint8_t *at, int rows)
{
    static const uint64_t tallies[5][8] = {
        {0},
        {4, 0, 0, 1, 0, 0, 0, 1},
        {7, 0, 0, 2, 0, 0, 0, 2},
        {10, 0, 0, 2, 0, 1, 0, 3},
        {sizeof section, DULIMASCA_DONE, 0, 2, 1, 1, 0, 4},
    };
    memset(at, 0, DULIMASCA_STATE);
    put_8(at, 1);
    for (int i = 0; i < 8; i++)
        put_8(at + 8 + 8 * i, tallies[rows][i]);
    if (rows > 0)
        put_frame(at + (rows == 1 ? 72 : 336), 'I', 5, 100, 1510);
    if (rows > 1)
        put_frame(at + 72, 'P', 6, 105, 1511);
}

static void put_row(uint8_t *at, int row)
{
    static const struct {
        uint32_t letter, iteration, place, time, values[3];
    } rows[4] = {
        {'I', 5, 0, 100, {1510, 0, 0}},
        {'P', 6, 4, 105, {1511, 0, 0}},
        {'S', 0, 7, 0, {3, UINT32_MAX - 3, 0}},
        {'E', 0, 10, 0, {255, 0, 0}},
    };
    put_4(at + DULIMASCA_ROW_LETTER, rows[row].letter);
    put_4(at + DULIMASCA_ROW_ITERATION, rows[row].iteration);
    put_8(at + DULIMASCA_ROW_PLACE, rows[row].place);
    put_8(at + DULIMASCA_ROW_TIME, rows[row].time);
    for (int i = 0; i < 3; i++)
        put_4(at + DULIMASCA_ROW_VALUES + 4 * i, rows[row].values[i]);
}

static void put_told(struct lent *lent, const uint64_t told[8])
{
    for (int i = 0; i < 8; i++)
        put_8(bytes_of(lent, TOLD) + 8 * i, told[i]);
}

void make_good(struct lent *l)
{
    memset(l, 0, sizeof *l);
    lend(l, LOG, lists, strlen(lists));
    lend(l, SECTION, section, sizeof section);
    lend(l, NAMES, names, strlen(names));
    lend(l, SLOW_NAMES, slow_names, strlen(slow_names));
    lend_blank(l, SETTINGS, DULIMASCA_SETTINGS);
    put_settings(bytes_of(l, SETTINGS), settings);
    lend_blank(l, DEFINITION, DULIMASCA_DEFINITION);
    put_definition(bytes_of(l, DEFINITION), settings);
    lend_blank(l, STATE, DULIMASCA_STATE);
    put_state(bytes_of(l, STATE), 0);
    lend_blank(l, OUT, 3 * ROW);
    lend_blank(l, TOLD, DULIMASCA_TOLD);
    l->kind = DULIMASCA_MAIN;
}

/* The uses. */

/* The call has this status and tells these numbers; `behind` is how all else looks. Room behind what is told keeps its content. */
static void expect_told(const char *name, function f, const struct lent *before, const struct lent *behind, uint64_t status, const uint64_t told[8],
                        const char *what)
{
    struct lent longer = *before, wanted = *behind;
    put_told(&wanted, told);
    expect(name, f, before, status, &wanted, what, "");
    longer.length[TOLD] += 8;
    wanted.length[TOLD] += 8;
    expect(name, f, &longer, status, &wanted, what, "more room for what is told");
}

/* It writes nothing else. */
static void expect_only_told(const char *name, function f, const struct lent *lent, uint64_t status, const uint64_t told[8], const char *what)
{
    expect_told(name, f, lent, lent, status, told, what);
}

static void setting(void)
{
    enum { NONE = DULIMASCA_ABSENT };
    static const struct {
        const char *log;
        uint32_t says[6];
    } cases[] = {
        {"", {NONE, NONE, NONE, 1, 1, 1}},
        {"H minthrottle:1150\nH vbatref:+1660\nH motorOutput:158,2047\n", {1150, 1660, 158, 1, 1, 1}},
        {"H minthrottle:1150\nH minthrottle:x\n", {NONE, NONE, NONE, 1, 1, 1}},
        {"H minthrottle:x\nH minthrottle:0065535\n", {65535, NONE, NONE, 1, 1, 1}},
        {"H minthrottle:65536\nH vbatref:\nH motorOutput:\n", {NONE, NONE, NONE, 1, 1, 1}},
        {"H minthrottle: 1\nH vbatref:1\r\nH motorOutput:158\n", {NONE, NONE, NONE, 1, 1, 1}},
        {"H minthrottle:++1\nH vbatref:-1\nH motorOutput:158,\n", {NONE, NONE, NONE, 1, 1, 1}},
        {"H minthrottle:+\nH vbatref:1 \nH motorOutput:158,2047,1\n", {NONE, NONE, NONE, 1, 1, 1}},
        {"H motorOutput:+0,65535", {NONE, NONE, 0, 1, 1, 1}},
        {"H motorOutput:1,65536", {NONE, NONE, NONE, 1, 1, 1}},
        {"H  minthrottle:1\nH minthrottle :1\nh minthrottle:1\n", {NONE, NONE, NONE, 1, 1, 1}},
        {"H vbatref:1\nXH vbatref:2\nH vbatref:3\n", {NONE, 1, NONE, 1, 1, 1}},
        {"H P interval:1/2\n", {NONE, NONE, NONE, 0, 1, 2}},
        {"H I interval:32\nH P interval:2\n", {NONE, NONE, NONE, 32, 1, 2}},
        {"H P interval:1/1\nH I interval:0032\n", {NONE, NONE, NONE, 32, 1, 1}},
        {"H I interval:+32\nH P interval:+1/1\n", {NONE, NONE, NONE, 32, 1, 1}},
        {"H I interval:x\n", {NONE, NONE, NONE, 0, 1, 1}},
        {"H I interval:\nH P interval:3/3\n", {NONE, NONE, NONE, 0, 3, 3}},
        {"H P interval:3/3\n", {NONE, NONE, NONE, 1, 3, 3}},
        {"H I interval:8\nH P interval:1/x\n", {NONE, NONE, NONE, 8, 0, 0}},
        {"H I interval:8\nH P interval:/2\n", {NONE, NONE, NONE, 8, 0, 0}},
        {"H I interval:8\nH P interval:1/2/2\n", {NONE, NONE, NONE, 8, 0, 0}},
        {"H I interval:4294967295\nH P interval:4294967295/4294967295\n", {NONE, NONE, NONE, UINT32_MAX, UINT32_MAX, UINT32_MAX}},
        {"H I interval:4294967296\nH P interval:1/4294967296\n", {NONE, NONE, NONE, 0, 0, 0}},
        {"H I interval:18446744073709551617\n", {NONE, NONE, NONE, 0, 1, 1}},
    };
    struct lent l, behind;
    make_good(&l);
    lend_blank(&l, SETTINGS, DULIMASCA_SETTINGS);
    for (size_t i = 0; i < sizeof cases / sizeof cases[0]; i++) {
        lend(&l, LOG, cases[i].log, strlen(cases[i].log));
        behind = l;
        put_settings(bytes_of(&behind, SETTINGS), cases[i].says);
        expect("settings", use_settings, &l, 0, &behind, cases[i].log, "");
    }
    lend(&l, LOG, cases[1].log, strlen(cases[1].log) - 1);
    l.length[SETTINGS] += 4;
    behind = l;
    put_settings(bytes_of(&behind, SETTINGS), cases[1].says);
    expect("settings", use_settings, &l, 0, &behind, "a log one byte short", "more room");
}

/* Settings may end behind any number, and the definition keeps what they say. */
static void defining_by(size_t count, struct lent *l, const uint64_t told[8])
{
    static const uint32_t said[6] = {1070, 65535, DULIMASCA_ABSENT + 9, 32, 1, 1};
    uint32_t kept[6];
    memcpy(kept, settings, sizeof kept);
    for (size_t i = 0; i < count; i++)
        kept[i] = i < 3 && said[i] > 65535 ? DULIMASCA_ABSENT : said[i];
    put_settings(bytes_of(l, SETTINGS), said);
    l->length[SETTINGS] = 4 * count;
    struct lent behind = *l;
    put_definition(bytes_of(&behind, DEFINITION), kept);
    expect_told("define", use_define, l, &behind, 0, told, "settings of whole numbers");
}

static void defining(void)
{
    uint64_t at = (uint64_t)(strstr(lists, names) - lists), slow_at = (uint64_t)(strstr(lists, slow_names) - lists);
    uint64_t told[8] = {strlen(lists), 3, 2, at, at + strlen(names), slow_at, slow_at + strlen(slow_names), ROW};
    struct lent l;
    make_good(&l);
    lend_blank(&l, DEFINITION, DULIMASCA_DEFINITION);
    for (size_t count = 0; count <= 6; count++)
        defining_by(count, &l, told);
    l.length[DEFINITION] += 8;
    defining_by(6, &l, told);
    l.length[LOG]--;
    told[0]--;
    defining_by(6, &l, told);
}

static void naming(void)
{
    static const struct {
        uint32_t kind;
        size_t item;
        uint64_t status, begin, end;
    } cases[] = {
        {DULIMASCA_MAIN, 0, 0, 0, 13},
        {DULIMASCA_MAIN, 2, 0, 19, 27},
        {DULIMASCA_MAIN, 3, DULIMASCA_NO_NAME, 0, 0},
        {DULIMASCA_MAIN, SIZE_MAX, DULIMASCA_NO_NAME, 0, 0},
        {DULIMASCA_SLOW, 1, 0, 2, 3},
        {DULIMASCA_SLOW, 2, DULIMASCA_NO_NAME, 0, 0},
    };
    struct lent l;
    make_good(&l);
    for (size_t i = 0; i < sizeof cases / sizeof cases[0]; i++) {
        l.kind = cases[i].kind;
        l.item = cases[i].item;
        expect_only_told("name", use_name, &l, cases[i].status, (const uint64_t[8]){cases[i].begin, cases[i].end}, "an item");
    }
    l.kind = DULIMASCA_MAIN, l.item = 2, l.length[NAMES]--;
    expect_only_told("name", use_name, &l, 0, (const uint64_t[8]){19, 26}, "names one byte short");
    l.kind = DULIMASCA_SLOW, l.item = 1, l.length[SLOW_NAMES]--;
    expect_only_told("name", use_name, &l, 0, (const uint64_t[8]){2, 2}, "slow names one byte short");
    l.length[SLOW_NAMES]--;
    expect_only_told("name", use_name, &l, DULIMASCA_NO_NAME, (const uint64_t[8]){0}, "an item that the lent list does not have");
    make_good(&l);
    l.item = 1;
    put_8(bytes_of(&l, DEFINITION) + DULIMASCA_DEFINITION_INTERVAL, 0);
    expect_only_told("name", use_name, &l, 0, (const uint64_t[8]){14, 18}, "a definition that no walk takes");
}

static void counting(void)
{
    struct lent l;
    make_good(&l);
    expect_only_told("count", use_count, &l, DULIMASCA_DONE, (const uint64_t[8]){sizeof section, 2, 1, 1, 0, 4}, "the section");
    l.length[DEFINITION] += 8;
    expect_only_told("count", use_count, &l, DULIMASCA_DONE, (const uint64_t[8]){sizeof section, 2, 1, 1, 0, 4}, "a longer definition");
    l.length[SECTION]--;
    expect_only_told("count", use_count, &l, DULIMASCA_CUT, (const uint64_t[8]){10, 2, 0, 1, 0, 4}, "a section one byte short");
    l.length[SECTION] = 0;
    expect_only_told("count", use_count, &l, DULIMASCA_OUT_OF_DATA, (const uint64_t[8]){0}, "an empty section");
}

static void filling(void)
{
    struct lent l, behind;
    make_good(&l);
    l.length[OUT] = 8;
    l.item = 1;
    behind = l;
    put_4(bytes_of(&behind, OUT), 1511);
    expect_told("fill", use_fill, &l, &behind, 'P', (const uint64_t[8]){4, 6, 105, 2}, "the second main frame");
    l.kind = DULIMASCA_SLOW, l.item = 0;
    behind = l;
    put_4(bytes_of(&behind, OUT), 3);
    put_4(bytes_of(&behind, OUT) + 4, UINT32_MAX - 3);
    expect_told("fill", use_fill, &l, &behind, 'S', (const uint64_t[8]){7, 0, 0, 3}, "the slow frame");
    l.item = 1;
    expect_only_told("fill", use_fill, &l, DULIMASCA_DONE, (const uint64_t[8]){0, 0, 0, 4}, "a frame too many");
    l.item = SIZE_MAX;
    expect_only_told("fill", use_fill, &l, DULIMASCA_DONE, (const uint64_t[8]){0, 0, 0, 4}, "the greatest number");
    l.length[SECTION]--;
    expect_only_told("fill", use_fill, &l, DULIMASCA_CUT, (const uint64_t[8]){'E', 10, 0, 4}, "a section one byte short");
    l.length[SECTION] = 10;
    expect_only_told("fill", use_fill, &l, DULIMASCA_OUT_OF_DATA, (const uint64_t[8]){0, 0, 0, 3}, "a section with no end");
}

static void starting(void)
{
    struct lent l, behind;
    make_good(&l);
    lend_blank(&l, STATE, DULIMASCA_STATE);
    behind = l;
    put_state(bytes_of(&behind, STATE), 0);
    expect_told("start", use_start, &l, &behind, 0, (const uint64_t[8]){0}, "a state");
    l.length[STATE] = behind.length[STATE] = DULIMASCA_STATE + 8;
    expect_told("start", use_start, &l, &behind, 0, (const uint64_t[8]){0}, "a longer state");
}

/* Room for one row and a part of the next: the part keeps its content, and the walk goes on row by row to its end. */
static void rows_one_by_one(struct lent *l)
{
    static const uint64_t told[4][8] = {{4, 1, 0, 0, 0, 1, 1}, {7, 2, 0, 0, 0, 2, 1}, {10, 2, 0, 1, 0, 3, 1}, {sizeof section, 2, 1, 1, 0, 4, 1}};
    l->length[OUT] = 2 * ROW - 1;
    for (int row = 0; row < 4; row++) {
        struct lent behind = *l;
        put_row(bytes_of(&behind, OUT), row);
        put_state(bytes_of(&behind, STATE), row + 1);
        expect_told("rows", use_rows, l, &behind, row < 3 ? DULIMASCA_MORE : DULIMASCA_DONE, told[row], "one row");
        put_state(bytes_of(l, STATE), row + 1);
    }
    expect_only_told("rows", use_rows, l, DULIMASCA_DONE, (const uint64_t[8]){sizeof section, 2, 1, 1, 0, 4}, "a walk that has ended");
}

static void rows_to_a_cut(struct lent *l)
{
    l->length[OUT] = 5 * ROW;
    l->length[STATE] += 8;
    l->length[SECTION]--;
    struct lent behind = *l;
    for (int row = 0; row < 3; row++)
        put_row(bytes_of(&behind, OUT) + ROW * row, row);
    put_state(bytes_of(&behind, STATE), 3);
    put_8(bytes_of(&behind, STATE) + 8, sizeof section - 1);
    put_8(bytes_of(&behind, STATE) + 16, 'E');
    put_8(bytes_of(&behind, STATE) + 24, 10);
    put_8(bytes_of(&behind, STATE) + 64, 4);
    expect_told("rows", use_rows, l, &behind, DULIMASCA_CUT, (const uint64_t[8]){10, 2, 0, 1, 0, 4, 3}, "a section one byte short");
}

void try_good_uses(void)
{
    struct lent l;
    setting();
    defining();
    naming();
    counting();
    filling();
    starting();
    make_good(&l);
    rows_one_by_one(&l);
    make_good(&l);
    rows_to_a_cut(&l);
}
