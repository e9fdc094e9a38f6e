/* Calls every function of the library with what it has to refuse: each fault alone, and each two of them at once, which shows what is looked for first.
 * Each time the answer is checked, and that not one byte of what was lent, or around it, was written. Before that uses.c checks calls that are not refused. */
#include <stdio.h>
#include <string.h>

#include "uses.h"

#define REFUSED(number, place) ((number) + UINT64_C(256) + UINT64_C(65536) * (place))

/* The parts of an answer. */
#define UNKNOWN_ITEM (REFUSED(3, 4) + 2 * 256)
_Static_assert(DULIMASCA_IS_REFUSED(UNKNOWN_ITEM) && DULIMASCA_REFUSAL(UNKNOWN_ITEM) == 3, "a refusal's number");
_Static_assert(DULIMASCA_PLACE(UNKNOWN_ITEM) == 4 && DULIMASCA_ROUND(UNKNOWN_ITEM) == 2, "its place and its round");
_Static_assert(!DULIMASCA_IS_REFUSED(255) && DULIMASCA_IS_REFUSED(REFUSED(1, 0)), "what is refused");
_Static_assert(DULIMASCA_PLACE(UINT64_MAX) == (UINT64_C(1) << 48) - 1, "the greatest place");

/* Something that is wrong: where, how it is made of good memory, and the answer to it alone. */
struct fault {
    const char *what;
    enum part in;
    void (*make)(struct lent *lent, const struct fault *fault);
    uint64_t first, second;
    uint64_t answer;
    const char *log;
};

static void length_is(struct lent *lent, const struct fault *fault)
{
    lent->length[fault->in] = (size_t)fault->first;
}

static void bytes_are(struct lent *lent, const struct fault *fault)
{
    memset(bytes_of(lent, fault->in), (int)fault->first, lent->length[fault->in]);
}

static void byte_is(struct lent *lent, const struct fault *fault)
{
    bytes_of(lent, fault->in)[fault->first] = (uint8_t)fault->second;
}

static void number_is(struct lent *lent, const struct fault *fault)
{
    put_8(bytes_of(lent, fault->in) + fault->first, fault->second);
}

static void setting_is(struct lent *lent, const struct fault *fault)
{
    put_4(bytes_of(lent, SETTINGS) + 4 * fault->first, (uint32_t)fault->second);
}

static void kind_is(struct lent *lent, const struct fault *fault)
{
    lent->kind = (uint32_t)fault->first;
}

static void log_is(struct lent *lent, const struct fault *fault)
{
    lend(lent, LOG, fault->log, strlen(fault->log));
}

/* One accepted frame more than there can be at the walk's place. */
static void frames_before_bytes(struct lent *lent, const struct fault *fault)
{
    put_8(bytes_of(lent, fault->in) + 32, 1);
    put_8(bytes_of(lent, fault->in) + 64, 1);
}

/* A main list of 65 items, all of it the items' first. */
static void items_are_65(struct lent *lent, const struct fault *fault)
{
    static const char *const begins[] = {"name:loopIteration,time", "signed:0,0", "predictor:0,0", "encoding:1,1"};
    char text[1000] = "", line[200];
    (void)fault;
    for (int list = 0; list < 6; list++) {
        int n = snprintf(line, sizeof line, "H Field %c %s", list < 4 ? 'I' : 'P', list < 4 ? begins[list] : list == 4 ? "predictor:6,2" : "encoding:9,0");
        for (int item = 2; item < 65; item++)
            n += snprintf(line + n, sizeof line - (size_t)n, ",0");
        strcat(strcat(text, line), "\n");
    }
    lend(lent, LOG, text, strlen(text));
}

#define TEN REFUSED(10, 0)
#define BITS_33 UINT64_C(4294967297) /* 1 in the low 32 */

static const struct fault no_settings[] = {
    {"settings of 1 byte", SETTINGS, length_is, 1, 0, TEN, NULL},
    {"settings of 5 bytes", SETTINGS, length_is, 5, 0, TEN, NULL},
    {"settings one byte short", SETTINGS, length_is, DULIMASCA_SETTINGS - 1, 0, TEN, NULL},
    {"settings of one byte more", SETTINGS, length_is, DULIMASCA_SETTINGS + 1, 0, TEN, NULL},
    {"settings of 28 bytes", SETTINGS, length_is, 28, 0, TEN, NULL},
};
static const struct fault no_definition[] = {
    {"a definition one byte short", DEFINITION, length_is, DULIMASCA_DEFINITION - 1, 0, TEN, NULL},
    {"a definition of 414 bytes", DEFINITION, length_is, 414, 0, TEN, NULL},
    {"a definition of no bytes", DEFINITION, length_is, 0, 0, TEN, NULL},
    {"a definition of version 1", DEFINITION, number_is, 0, 1, TEN, NULL},
    {"a definition of version 3", DEFINITION, number_is, 0, 3, TEN, NULL},
    {"a definition of bytes 255", DEFINITION, bytes_are, 255, 0, TEN, NULL},
    {"a definition of bytes 0", DEFINITION, bytes_are, 0, 0, TEN, NULL},
};
static const struct fault unsound_definition[] = {
    {"a predictor that lacks its number", DEFINITION, byte_is, 56, 4, TEN, NULL},
    {"an inter predictor that lacks its motor", DEFINITION, byte_is, 118, 5, TEN, NULL},
    {"an unknown predictor", DEFINITION, byte_is, 56, 200, TEN, NULL},
    {"an unknown inter encoding", DEFINITION, byte_is, 242, 2, TEN, NULL},
    {"an unknown slow encoding", DEFINITION, byte_is, 382, 10, TEN, NULL},
    {"a definition of 65 items", DEFINITION, number_is, 8, 65, TEN, NULL},
    {"a definition of 17 slow items", DEFINITION, number_is, 24, 17, TEN, NULL},
    {"a definition of very many slow items", DEFINITION, number_is, 24, UINT64_MAX, TEN, NULL},
    {"a definition with no intra interval", DEFINITION, number_is, DULIMASCA_DEFINITION_INTERVAL, 0, TEN, NULL},
    {"a definition with an interval of 0/1", DEFINITION, number_is, DULIMASCA_DEFINITION_INTERVAL + 8, 0, TEN, NULL},
    {"a definition with an interval of 1/2", DEFINITION, number_is, DULIMASCA_DEFINITION_INTERVAL + 16, 2, TEN, NULL},
    {"an intra interval of 33 bits", DEFINITION, number_is, DULIMASCA_DEFINITION_INTERVAL, BITS_33, TEN, NULL},
    {"a numerator of 33 bits", DEFINITION, number_is, DULIMASCA_DEFINITION_INTERVAL + 8, BITS_33, TEN, NULL},
    {"a denominator of 33 bits", DEFINITION, number_is, DULIMASCA_DEFINITION_INTERVAL + 16, BITS_33, TEN, NULL},
};
static const struct fault no_kind[] = {
    {"kind 2", KIND, kind_is, 2, 0, TEN, NULL},
    {"the greatest kind", KIND, kind_is, UINT32_MAX, 0, TEN, NULL},
};
static const struct fault no_state[] = {
    {"a state one byte short", STATE, length_is, DULIMASCA_STATE - 1, 0, TEN, NULL},
    {"a state of no bytes", STATE, length_is, 0, 0, TEN, NULL},
    {"a state of version 0", STATE, number_is, 0, 0, TEN, NULL},
    {"a state of version 2", STATE, number_is, 0, 2, TEN, NULL},
    {"a state of bytes 255", STATE, bytes_are, 255, 0, TEN, NULL},
    {"an ending that there is not", STATE, number_is, 16, 2, TEN, NULL},
    {"a last frame of no letter", STATE, number_is, 72, 'S', TEN, NULL},
    {"an older frame of no letter", STATE, number_is, 336, 'X', TEN, NULL},
};
static const struct fault wrong_state[] = {
    {"a place beyond the section", STATE, number_is, 8, 24, TEN, NULL},
    {"the greatest place", STATE, number_is, 8, UINT64_MAX, TEN, NULL},
    {"a cut that is no trial", STATE, number_is, 16, 'I', TEN, NULL},
    {"main frames that are no trials", STATE, number_is, 32, 1, TEN, NULL},
    {"events that are no trials", STATE, number_is, 40, 1, TEN, NULL},
    {"slow frames that are no trials", STATE, number_is, 48, UINT64_MAX, TEN, NULL},
    {"rejected trials that are none", STATE, number_is, 56, 1, TEN, NULL},
    {"trials of nothing", STATE, number_is, 64, 7, TEN, NULL},
    {"more trials than the place", STATE, frames_before_bytes, 0, 0, TEN, NULL},
    {"an older frame and no last", STATE, number_is, 336, 'I', TEN, NULL},
};
static const struct fault short_settings[] = {
    {"settings one byte short", SETTINGS, length_is, DULIMASCA_SETTINGS - 1, 0, REFUSED(11, DULIMASCA_SETTINGS), NULL},
    {"settings of 20 bytes", SETTINGS, length_is, 20, 0, REFUSED(11, DULIMASCA_SETTINGS), NULL},
    {"settings of no bytes", SETTINGS, length_is, 0, 0, REFUSED(11, DULIMASCA_SETTINGS), NULL},
};
static const struct fault short_definition[] = {
    {"a definition one byte short", DEFINITION, length_is, DULIMASCA_DEFINITION - 1, 0, REFUSED(11, DULIMASCA_DEFINITION), NULL},
    {"a definition of 10 bytes", DEFINITION, length_is, 10, 0, REFUSED(11, DULIMASCA_DEFINITION), NULL},
    {"a definition of no bytes", DEFINITION, length_is, 0, 0, REFUSED(11, DULIMASCA_DEFINITION), NULL},
};
static const struct fault short_state[] = {
    {"a state one byte short", STATE, length_is, DULIMASCA_STATE - 1, 0, REFUSED(11, DULIMASCA_STATE), NULL},
    {"a state of no bytes", STATE, length_is, 0, 0, REFUSED(11, DULIMASCA_STATE), NULL},
};
static const struct fault short_values[] = {
    {"values one byte short", OUT, length_is, 7, 0, REFUSED(11, 8), NULL},
    {"no room for values", OUT, length_is, 0, 0, REFUSED(11, 8), NULL},
};
static const struct fault short_rows[] = {
    {"rows one byte short", OUT, length_is, ROW - 1, 0, REFUSED(11, ROW), NULL},
    {"no room for rows", OUT, length_is, 0, 0, REFUSED(11, ROW), NULL},
};
static const struct fault short_told[] = {
    {"one byte less for what is told", TOLD, length_is, DULIMASCA_TOLD - 1, 0, REFUSED(11, DULIMASCA_TOLD), NULL},
    {"56 bytes for what is told", TOLD, length_is, 56, 0, REFUSED(11, DULIMASCA_TOLD), NULL},
    {"no room for what is told", TOLD, length_is, 0, 0, REFUSED(11, DULIMASCA_TOLD), NULL},
};

#define NAMED "H Field I name:loopIteration,time,a\n"

static const struct fault wrong_log[] = {
    {"an empty log", LOG, length_is, 0, 0, REFUSED(1, 0), NULL},
    {"no names", LOG, log_is, 0, 0, REFUSED(1, 0), MAIN_LISTS("0,0,0", "0,0,0", "1,1,0", "6,2,0", "9,0,0")},
    {"no slow signs", LOG, log_is, 0, 0, REFUSED(1, 5),
     NAMED MAIN_LISTS("0,0,0", "0,0,0", "1,1,0", "6,2,0", "9,0,0") "H Field S name:a\nH Field S predictor:0\nH Field S encoding:0\n"},
    {"65 items", LOG, items_are_65, 0, 0, REFUSED(2, 65), NULL},
    {"an unknown encoding", LOG, log_is, 0, 0, UNKNOWN_ITEM, NAMED MAIN_LISTS("0,0,0", "0,0,0", "1,1,0", "6,2,0", "9,0,2")},
    {"no iteration", LOG, log_is, 0, 0, REFUSED(4, 0), NAMED MAIN_LISTS("0,0,0", "0,0,0", "0,1,0", "6,2,0", "9,0,0")},
    {"no time", LOG, log_is, 0, 0, REFUSED(5, 1), NAMED MAIN_LISTS("0,0,0", "0,0,0", "1,1,0", "6,3,0", "9,0,0")},
    {"intra predictors too many", LOG, log_is, 0, 0, REFUSED(6, 3), NAMED MAIN_LISTS("0,0,0", "0,0,0,0", "1,1,0", "6,2,0", "9,0,0")},
    {"inter encodings too many", LOG, log_is, 0, 0, REFUSED(7, 3), NAMED MAIN_LISTS("0,0,0", "0,0,0", "1,1,0", "6,2,0", "9,0,0,0")},
    {"a predictor that lacks its number", LOG, log_is, 0, 0, REFUSED(8, 2), NAMED MAIN_LISTS("0,0,0", "0,0,4", "1,1,0", "6,2,0", "9,0,0")},
};
static const struct fault wrong_interval[] = {
    {"no intra interval", SETTINGS, setting_is, DULIMASCA_SET_INTRA, 0, REFUSED(9, 0), NULL},
    {"an interval of 0/1", SETTINGS, setting_is, DULIMASCA_SET_NUMERATOR, 0, REFUSED(9, 0), NULL},
    {"an interval of 1/2", SETTINGS, setting_is, DULIMASCA_SET_DENOMINATOR, 2, REFUSED(9, 0), NULL},
};

#define ALL(faults) {faults, sizeof faults / sizeof faults[0]}
#define MOST_CHECKS 6

/* The functions, with what each looks for, in this order. What a function writes whole is blank before. */
static const struct checked {
    const char *name;
    function call;
    enum part written;
    size_t length;
    struct {
        const struct fault *faults;
        size_t count;
    } checks[MOST_CHECKS];
} functions[] = {
    {"settings", use_settings, SETTINGS, DULIMASCA_SETTINGS, {ALL(short_settings)}},
    {"define", use_define, DEFINITION, DULIMASCA_DEFINITION,
     {ALL(no_settings), ALL(short_definition), ALL(short_told), ALL(wrong_log), ALL(wrong_interval)}},
    {"name", use_name, OUT, 3 * ROW, {ALL(no_definition), ALL(no_kind), ALL(short_told)}},
    {"count", use_count, OUT, 3 * ROW, {ALL(no_definition), ALL(unsound_definition), ALL(short_told)}},
    {"fill", use_fill, OUT, 3 * ROW, {ALL(no_definition), ALL(no_kind), ALL(unsound_definition), ALL(short_values), ALL(short_told)}},
    {"start", use_start, STATE, DULIMASCA_STATE, {ALL(short_state), ALL(short_told)}},
    {"rows", use_rows, OUT, 3 * ROW,
     {ALL(no_definition), ALL(no_state), ALL(unsound_definition), ALL(wrong_state), ALL(short_rows), ALL(short_told)}},
};

/* The answer is that to the first fault. */
static void try_faults(const struct checked *function, const struct fault *first, const struct fault *second)
{
    static struct lent lent;
    make_good(&lent);
    lend_blank(&lent, function->written, function->length);
    first->make(&lent, first);
    if (second != NULL)
        second->make(&lent, second);
    expect(function->name, function->call, &lent, first->answer, &lent, first->what, second != NULL ? second->what : "");
}

/* With each fault that is looked for later, but not two in one part. */
static void try_fault(const struct checked *function, size_t check, const struct fault *fault)
{
    try_faults(function, fault, NULL);
    for (size_t later = check + 1; later < MOST_CHECKS; later++)
        for (size_t i = 0; i < function->checks[later].count; i++)
            if (function->checks[later].faults[i].in != fault->in)
                try_faults(function, fault, &function->checks[later].faults[i]);
}

static void try_function(const struct checked *function)
{
    for (size_t check = 0; check < MOST_CHECKS; check++)
        for (size_t i = 0; i < function->checks[check].count; i++)
            try_fault(function, check, &function->checks[check].faults[i]);
}

/* A walk that has ended refuses what no walk over a section can be, too. */
static void try_ended_walk(void)
{
    struct lent lent;
    make_good(&lent);
    put_8(bytes_of(&lent, STATE) + 8, lent.length[SECTION]);
    put_8(bytes_of(&lent, STATE) + 16, DULIMASCA_DONE);
    lent.length[SECTION]--;
    expect("rows", use_rows, &lent, TEN, &lent, "a shorter section behind the end", "");
    lent.length[SECTION]++;
    lent.length[OUT] = 0;
    expect("rows", use_rows, &lent, REFUSED(11, ROW), &lent, "no room behind the end", "");
}

int main(void)
{
    try_good_uses();
    for (size_t i = 0; i < sizeof functions / sizeof functions[0]; i++)
        try_function(&functions[i]);
    try_ended_walk();
    printf("misuse: %u calls as they should be, %u not\n", passed, failed);
    return failed == 0 ? 0 : 1;
}
