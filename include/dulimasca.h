/* Dulimasca for C and C++: the walk through a flight log's data section, as a C database host calls it.
 *
 * Link libdulimasca.a (host/library builds it). The functions keep nothing between calls, allocate nothing and call nothing but memcpy,
 * memmove and memset: all they know is in the memory that they are lent. They may be called from many threads at once, each with buffers of
 * its own.
 *
 * An import calls dulimasca_settings and dulimasca_define once for a log, then dulimasca_start and, until the walk has ended, dulimasca_rows;
 * dulimasca_name says what the columns are called. To see how a walk ends, dulimasca_count is enough (examples/count.c).
 *
 * What a caller owes, since C's types do not say it: every pointer points to as many bytes as the length behind it says, is not NULL, not
 * even for length 0, where any other address will do, and no buffer that a function writes overlaps another one of the same call. Bytes
 * need no alignment. Nothing else: whatever the bytes are, every call ends, answers by one number, and writes no further than is said here.
 *
 * THE ANSWER
 * Below 256: not refused. It is the function's own status, and what is said of the function's buffers was written.
 * From 256 on: REFUSED, and nothing at all was written: every buffer is as it was, a walk's state too. The answer holds document 01's own
 * number of the refusal, its place, and of refusal 3 a round; DULIMASCA_REFUSAL, DULIMASCA_PLACE and DULIMASCA_ROUND take them out.
 *
 *    number   what is refused                                                          place
 *    1        a list is missing; all four slow ones together may be                    the list: 0 names, 1 and 2 intra and inter
 *                                                                                      predictors, 3 and 4 intra and inter encodings,
 *                                                                                      5 signs; slow lists are 0, 1, 3 and 5
 *    2        more than 64 items in every main list, or 16 in every slow one           how many items the shortest has
 *    3        an item that is no predictor or encoding                                 the list; the round is the item, from 0
 *    4        the first item is not loopIteration as it has to be                      0
 *    5        the second item is not time as it has to be                              1
 *    6        one of lists 0, 1, 3 and 5 is longer than the shortest list allows       how many items the shortest has
 *    7        one of lists 2 and 4 is                                                  the same
 *    8        a predictor lacks its header number, or motor[0] before it               the item, from 0
 *             (slow fields have no motor[0])
 *    9        a frame interval that is not taken: I has to be 1 or more, N/D 1/1       0
 *    10       what is lent cannot be what it should                                    0
 *    11       a buffer that is to be written is too short                              how many bytes it needs
 *
 * 10 is said of bytes that are no definition, state or settings of this layout, and of a kind other than 0 and 1. A definition or a state of
 * too few bytes is none: dulimasca_rows, which writes the state too, says 10 of it and not 11. Functions that walk say 10 also of a definition
 * with too many fields, codes that there are not, needs that are not met or an interval that 9 refuses; and of a state whose place is beyond
 * the section, whose trials are more than its place or not the sum of their parts, or that has an older frame and no last.
 * 10 is looked for first; then 11, in the order of the parameters; then what is wrong with the log, 1 to 9. Main lists are judged before slow
 * ones, and 9 last; no answer tells a main list's 1, 2, 3, 6 or 8 from a slow one's. A place of 2^48 or more, which no memory has, would be
 * told as 2^48 - 1.
 *
 * WHAT IS TOLD
 * A call with a `told` that is not refused writes eight numbers of 8 bytes, low byte first, into its first DULIMASCA_TOLD bytes. Below they
 * are t0 to t7, as dulimasca_number reads them; one of which nothing is said is 0. Bytes behind them keep their content.
 *
 * Licence: MIT OR Apache-2.0 (LICENSE-MIT, LICENSE-APACHE). The library translates parts of blackbox-log: NOTICE, which has that crate's
 * licence texts, goes with every copy of it. */
#ifndef DULIMASCA_H
#define DULIMASCA_H

#include <stddef.h>
#include <stdint.h>

#ifdef __cplusplus
extern "C" {
#endif

/* Lengths in bytes: of what is told, of all settings, of a definition and of a walk's state. Values of a main and of a slow frame, at most. */
#define DULIMASCA_TOLD 64
#define DULIMASCA_SETTINGS 24
#define DULIMASCA_DEFINITION 438
#define DULIMASCA_STATE 600
#define DULIMASCA_FIELDS 62
#define DULIMASCA_SLOW_FIELDS 16

/* An answer taken apart: whether it is a refusal, and if so its number, place and round (0 but for refusal 3). */
#define DULIMASCA_IS_REFUSED(answer) ((uint64_t)(answer) >= 256u)
#define DULIMASCA_REFUSAL(answer) ((uint64_t)(answer) & 255u)
#define DULIMASCA_ROUND(answer) (((uint64_t)(answer) >> 8 & 255u) - 1u)
#define DULIMASCA_PLACE(answer) ((uint64_t)(answer) >> 16)

/* Number `i`, from 0 to 7, of what was told. */
static inline uint64_t dulimasca_number(const uint8_t *told, int i)
{
    uint64_t number = 0;
    for (int b = 7; b >= 0; b--)
        number = number << 8 | told[8 * i + b];
    return number;
}

/* Kinds of fields, and of frames with values. */
#define DULIMASCA_MAIN 0u
#define DULIMASCA_SLOW 1u

/* How a walk stands: statuses of dulimasca_rows and, but for DULIMASCA_MORE, of dulimasca_count and dulimasca_fill. */
#define DULIMASCA_MORE 0u
#define DULIMASCA_OUT_OF_DATA 1u
#define DULIMASCA_CUT 2u
#define DULIMASCA_DONE 3u

/* There is no such name: a status of dulimasca_name. */
#define DULIMASCA_NO_NAME 4u

/* Settings: what a definition is made with beside the lists. Six numbers of 4 bytes, low byte first, in this order. The first three are header
 * numbers of 16 bits, for predictors 4, 9 and 11; any over 65535 says that there is none. The others are the frame interval: I, one intra
 * frame in so many loops, and N/D, how many of the loops are logged. Settings may end behind any of their numbers, and what they lack is the
 * default: no header numbers, and 1, 1, 1. Number i stands at byte 4 * i. */
#define DULIMASCA_SET_MIN_THROTTLE 0
#define DULIMASCA_SET_VBAT_REFERENCE 1
#define DULIMASCA_SET_MIN_MOTOR 2
#define DULIMASCA_SET_INTRA 3
#define DULIMASCA_SET_NUMERATOR 4
#define DULIMASCA_SET_DENOMINATOR 5
#define DULIMASCA_ABSENT 65536u

/* A row: numbers low byte first, at fixed places, all rows of a definition of one length.
 *   0  4 bytes  the frame's letter: 'I', 'P', 'S' or 'E'
 *   4  4 bytes  the iteration of a main frame
 *   8  8 bytes  the place of the frame's letter in the section
 *  16  8 bytes  the time of a main frame
 *  24  4 each   the values: the fields of a main or slow frame; an event's type and its two numbers
 * What a frame does not have is 0. A field is meant signed or unsigned by its sign in the definition. A row has a value for each field of
 * the longer of the two kinds of frames, and at least three; DULIMASCA_FIELDS at most. */
#define DULIMASCA_ROW_LETTER 0
#define DULIMASCA_ROW_ITERATION 4
#define DULIMASCA_ROW_PLACE 8
#define DULIMASCA_ROW_TIME 16
#define DULIMASCA_ROW_VALUES 24
#define DULIMASCA_ROW_MOST (24 + 4 * DULIMASCA_FIELDS)

/* A definition: numbers of 8 bytes, low byte first: at 0 the layout's version, 2; 8 the items of the main lists (the fields and two more);
 * 16 which of the fields behind time, from 0, is motor[0], or how many there are if none is; 24 the items of the slow lists; 32, 40, 48 the
 * header numbers, DULIMASCA_ABSENT for none. Then a byte for each field, 0 behind the last: the main fields' intra and inter predictors, intra
 * and inter encodings and signs, 62 each, and the slow fields' predictors, encodings and signs, 16 each. A sign of 0 says that a field is
 * shown unsigned. Then numbers of 8 bytes again: at 414, 422, 430 the frame interval I, N, D. */
#define DULIMASCA_DEFINITION_SIGNS 304
#define DULIMASCA_DEFINITION_SLOW_SIGNS 398
#define DULIMASCA_DEFINITION_INTERVAL 414

/* A state: numbers of 8 bytes, low byte first: at 0 the layout's version, 1; 8 the place; 16 the ending (0 none, 1 out of data, 3 done, or
 * the letter of the frame that was cut); 24 the cut's place, or 0; 32, 40, 48, 56 accepted main, event and slow frames and rejected trials;
 * 64 trials; then the last main frame at 72 and the one before it at 336, each: 4 bytes 'I', 'P' or 0 for none, 4 iteration, 8 time, 62
 * values of 4. */

/* What a log's own `H` lines say, as settings for dulimasca_define; a caller may change a number before. `log` may be the whole file: lines
 * are read up to the section. The last line of each name counts, also where it cannot be read.
 *   H minthrottle:, H vbatref:   a decimal number of at most 65535; anything else counts as none
 *   H motorOutput:               two such numbers and a comma between them, of which the first counts; anything else as none
 *   H I interval:                I, a decimal number of 32 bits; with no such line 1 if N and D are equal, else 0
 *   H P interval:                N/D, two such numbers, or D alone for 1/D; with no such line 1/1
 * Each of these numbers may have a `+` before it. An interval that cannot be read is 0, or 0/0, which dulimasca_define refuses: what is half
 * read must not pass for another.
 *   settings                     DULIMASCA_SETTINGS bytes or more; the first of them are written
 * 0. Refused: 11. */
uint64_t dulimasca_settings(const uint8_t *log, size_t log_length, uint8_t *settings, size_t settings_length);

/* The definition that the lists of a log's `H` lines give under settings. `log` may be the whole file: its section begins at t0.
 *   settings                     DULIMASCA_SETTINGS bytes, or fewer by whole numbers; another length, a longer one too, is refused (10)
 *   definition                   DULIMASCA_DEFINITION bytes or more; the first of them are written
 * 0: t0 is where the section begins; t1 and t2 are the items of the main and of the slow lists: main frames have t1 - 2 fields, slow frames
 *    t2; t3 and t4 are where the list of main names begins and ends in the log, t5 and t6 where that of slow names does, both 0 where there
 *    is none; t7 is the length of a row.
 * Refused: 10, 11, 1 to 9. */
uint64_t dulimasca_define(const uint8_t *log, size_t log_length, const uint8_t *settings, size_t settings_length, uint8_t *definition,
                          size_t definition_length, uint8_t *told, size_t told_length);

/* Where the name of a field stands: `kind` is DULIMASCA_MAIN or DULIMASCA_SLOW, fields are numbered from the list's first item, 0 (so that
 * a main frame's first value is item 2); both lists of names are lent, as stretches of the log that dulimasca_define told.
 * 0: t0 and t1 are where it begins and ends in the list of its kind. DULIMASCA_NO_NAME: the definition has no such field, or the list no
 *    such item.
 * Refused: 10, 11. */
uint64_t dulimasca_name(const uint8_t *definition, size_t definition_length, uint32_t kind, const uint8_t *main_names,
                        size_t main_names_length, const uint8_t *slow_names, size_t slow_names_length, size_t item, uint8_t *told,
                        size_t told_length);

/* How a whole walk over a section ends: DULIMASCA_OUT_OF_DATA, DULIMASCA_CUT or DULIMASCA_DONE. Its time is linear in the section's length.
 * t0 is the walk's place at its end, or the place of the frame that was cut; t1, t2, t3 are accepted main, event and slow frames; t4 rejected
 * trials; t5 all trials.
 * Refused: 10, 11. */
uint64_t dulimasca_count(const uint8_t *definition, size_t definition_length, const uint8_t *section, size_t section_length, uint8_t *told,
                         size_t told_length);

/* The frame number `k`, from 0, of the accepted frames of a kind, DULIMASCA_MAIN or DULIMASCA_SLOW: its letter, 'I', 'P'
 * or 'S'. It walks from the section's start. t0 is its place, t1 its iteration and t2 its time (main frames), t3 the trials up to it, its own too.
 *   values                       gets the frame's fields, 4 bytes each, low byte first; it must have room for as many as the longer kind of
 *                                frames has: 4 * DULIMASCA_FIELDS bytes are always enough
 * Or, where the walk ended before such a frame, how: DULIMASCA_OUT_OF_DATA, DULIMASCA_CUT or DULIMASCA_DONE; `values` keeps its content, t3
 * is all trials, and of a cut t0 is the frame's letter and t1 its place.
 * Refused: 10, 11. */
uint64_t dulimasca_fill(const uint8_t *definition, size_t definition_length, const uint8_t *section, size_t section_length, uint32_t kind,
                        size_t k, uint8_t *values, size_t values_length, uint8_t *told, size_t told_length);

/* The state of a walk that has not begun: DULIMASCA_STATE bytes or more, of which the first are written.
 * 0. Refused: 11. */
uint64_t dulimasca_start(uint8_t *state, size_t state_length, uint8_t *told, size_t told_length);

/* The next rows of a walk: as many whole rows as `rows` has room for, one behind the other, and the walk behind them in `state`; the same
 * call again gives the rows that follow. However a walk is cut into calls, the rows are the same. It is for the caller to lend the same
 * definition and section each time.
 * DULIMASCA_MORE: there may be more, and it may turn out that there is not; DULIMASCA_OUT_OF_DATA, DULIMASCA_CUT, DULIMASCA_DONE: the
 * walk has ended, and these were its last rows, if any. A call on a walk that has ended says so again and has no rows.
 * t0 to t5 are those of dulimasca_count, of the walk so far; t6 is the number of rows that this call wrote.
 * Refused: 10, 11; `rows` needs room for one row, t7 of dulimasca_define.
 * The time of a call is linear in the bytes that it walks over; besides, a call may once look through the section to its end for a letter
 * that is not there. So a section is imported in linear time by buffers in proportion to its length, as host/log.c lends them. */
uint64_t dulimasca_rows(const uint8_t *definition, size_t definition_length, uint8_t *state, size_t state_length, const uint8_t *section,
                        size_t section_length, uint8_t *rows, size_t rows_length, uint8_t *told, size_t told_length);

#ifdef __cplusplus
}
#endif

#endif
