/* What the two files of bench/limit share: the definition of a log's frames and a frame, of the unproved walk that is only for measuring.
 * bench/fields.c reads the fields of frames, bench/limit.c the rest. */
#ifndef LIMIT_H
#define LIMIT_H

#include <stddef.h>
#include <stdint.h>

enum { FIELDS = 62 };
enum read { GOT, CUT, CORRUPT };

/* Predictors, encodings and signs of one kind of frames. */
struct fields {
    int n;
    uint8_t predictors[FIELDS], encodings[FIELDS], signs[FIELDS];
};

struct definition {
    struct fields intra, inter, slow;
    int motor; /* which field is motor[0] */
    uint32_t min_throttle, vbat_reference, min_motor;
};

/* A main frame; of a slow frame the values are its fields, of an event its type and numbers. */
struct frame {
    char letter;
    size_t place;
    uint32_t iteration;
    uint64_t time;
    uint32_t values[FIELDS];
};

/* A number of encoding 1; the place moves behind it where it is got. */
static inline enum read variable(const uint8_t *s, size_t length, size_t *at, uint32_t *out)
{
    uint32_t x = 0;
    size_t p = *at;
    for (int shift = 0; shift < 35; shift += 7) {
        if (p >= length)
            return CUT;
        uint8_t b = s[p++];
        if (shift == 28 && b > 15)
            return CORRUPT;
        x |= (uint32_t)(b & 127) << shift;
        if (b < 128) {
            *at = p;
            *out = x;
            return GOT;
        }
    }
    return CORRUPT;
}

static inline uint32_t zig_zag(uint32_t x)
{
    return (x >> 1) ^ -(x & 1);
}

/* The raw numbers of a frame's fields. */
enum read read_raw(const struct fields *f, const uint8_t *s, size_t length, size_t *at, uint32_t *out);

/* Adds the predictions to raw numbers. A frame before that is not there, or not to be asked, is NULL. */
void predict(const struct definition *d, const struct fields *f, uint32_t *values, const struct frame *last, const struct frame *older);

#endif
