/* Calls of the library's functions in lent memory that are not refused, and the memory that misuse.c then spoils. */
#ifndef USES_H
#define USES_H

#include "lent.h"

#define ROW 36 /* 24 and three values: an event has the most */
#define MAIN_LISTS(signs, predictors, intra_encodings, inter_predictors, inter_encodings) \
    "H Field I signed:" signs "\nH Field I predictor:" predictors "\nH Field I encoding:" intra_encodings "\n" \
    "H Field P predictor:" inter_predictors "\nH Field P encoding:" inter_encodings "\n"

uint64_t use_settings(const struct call *call);
uint64_t use_define(const struct call *call);
uint64_t use_name(const struct call *call);
uint64_t use_count(const struct call *call);
uint64_t use_fill(const struct call *call);
uint64_t use_start(const struct call *call);
uint64_t use_rows(const struct call *call);

/* All that the functions want, by the layouts of dulimasca.h: a log's lists, settings, their definition, a state that has not begun, a section, names, and
 * blank room for three rows and for what is told. No function of the library is asked for it. */
void make_good(struct lent *lent);

/* Checks what every function answers and writes in such memory, byte by byte. */
void try_good_uses(void);

#endif
