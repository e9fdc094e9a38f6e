/* The fields of frames for bench/limit.c: their raw numbers by groups, then their predictions. Unproved, and only for measuring.
 * See limit.h. */
#include "limit.h"

#include <stdbool.h>

/* Numbers. */

static inline uint32_t sign_extend(uint32_t x, int bits)
{
    return (uint32_t)((int32_t)(x << (32 - bits)) >> (32 - bits));
}

static inline enum read variable_signed(const uint8_t *s, size_t length, size_t *at, uint32_t *out)
{
    uint32_t x;
    enum read read = variable(s, length, at, &x);
    if (read == GOT)
        *out = zig_zag(x);
    return read;
}

/* Groups: each of `n` fields. */

static inline enum read tagged_variable(const uint8_t *s, size_t length, size_t *at, int n, uint32_t *out)
{
    if (n == 1)
        return variable_signed(s, length, at, out);
    if (*at >= length)
        return CUT;
    uint8_t head = s[(*at)++];
    if (head >> n != 0)
        return CORRUPT;
    for (int i = 0; i < n; i++, head >>= 1) {
        out[i] = 0;
        if ((head & 1) != 0) {
            enum read read = variable_signed(s, length, at, &out[i]);
            if (read != GOT)
                return read;
        }
    }
    return GOT;
}

/* Three numbers of whole bytes, as many as the head says of each. */
static inline enum read whole_bytes(const uint8_t *s, size_t length, size_t *at, uint8_t head, uint32_t t[3])
{
    for (int i = 0; i < 3; i++) {
        int count = (head >> (2 * i) & 3) + 1;
        if (*at + (size_t)count > length)
            return CUT;
        uint32_t x = 0;
        for (int b = 0; b < count; b++)
            x |= (uint32_t)s[*at + (size_t)b] << (8 * b);
        *at += (size_t)count;
        t[i] = sign_extend(x, 8 * count);
    }
    return GOT;
}

static inline enum read tagged_32(const uint8_t *s, size_t length, size_t *at, int n, uint32_t *out)
{
    uint32_t t[3];
    if (*at >= length)
        return CUT;
    uint8_t head = s[(*at)++];
    const uint8_t *b = s + *at;
    size_t more = head >> 6; /* bytes behind the head, of the first three forms */
    if (more == 3) {
        enum read read = whole_bytes(s, length, at, head, t);
        if (read != GOT)
            return read;
    } else {
        if (*at + more > length)
            return CUT;
        *at += more;
        switch (more) {
        case 0:
            t[0] = sign_extend(head >> 4 & 3, 2), t[1] = sign_extend(head >> 2 & 3, 2), t[2] = sign_extend(head & 3, 2);
            break;
        case 1:
            t[0] = sign_extend(head & 15, 4), t[1] = sign_extend(b[0] >> 4, 4), t[2] = sign_extend(b[0] & 15, 4);
            break;
        default:
            t[0] = sign_extend(head & 63, 6), t[1] = sign_extend(b[0] & 63, 6), t[2] = sign_extend(b[1] & 63, 6);
        }
    }
    for (int i = 0; i < n; i++)
        out[i] = t[i];
    return GOT;
}

/* Four numbers of 0, 1, 2 or 4 half bytes, the high half first. */
static inline enum read tagged_16(const uint8_t *s, size_t length, size_t *at, int n, uint32_t *out)
{
    uint32_t t[4];
    if (*at >= length)
        return CUT;
    uint8_t head = s[(*at)++];
    size_t half = *at * 2;
    for (int i = 0; i < 4; i++) {
        int code = head >> (2 * i) & 3;
        int width = code == 3 ? 4 : code;
        uint32_t x = 0;
        for (int k = 0; k < width; k++, half++) {
            if (half / 2 >= length)
                return CUT;
            x = x << 4 | (half % 2 != 0 ? s[half / 2] & 15u : s[half / 2] >> 4);
        }
        t[i] = width != 0 ? sign_extend(x, 4 * width) : 0;
    }
    *at = (half + 1) / 2;
    for (int i = 0; i < n; i++)
        out[i] = t[i];
    return GOT;
}

/* Frames. */

static inline int run(const uint8_t *encodings, int left, int most)
{
    int n = 1;
    while (n < most && n < left && encodings[n] == encodings[0])
        n++;
    return n;
}

enum read read_raw(const struct fields *f, const uint8_t *s, size_t length, size_t *at, uint32_t *out)
{
    const uint8_t *e = f->encodings;
    enum read read = GOT;
    int group;
    for (int i = 0; i < f->n && read == GOT; i += group) {
        group = 1;
        switch (e[i]) {
        case 0:
            read = variable_signed(s, length, at, &out[i]);
            break;
        case 1:
            read = variable(s, length, at, &out[i]);
            break;
        case 3:
            read = variable(s, length, at, &out[i]);
            out[i] = -sign_extend(out[i] & 16383, 14);
            break;
        case 9:
            out[i] = 0;
            break;
        case 6:
            group = run(e + i, f->n - i, 8);
            read = tagged_variable(s, length, at, group, &out[i]);
            break;
        case 7:
            group = run(e + i, f->n - i, 3);
            read = tagged_32(s, length, at, group, &out[i]);
            break;
        default:
            group = run(e + i, f->n - i, 4);
            read = tagged_16(s, length, at, group, &out[i]);
        }
    }
    return read;
}

static inline bool is_unsigned(uint8_t encoding)
{
    return encoding == 1 || encoding == 9;
}

/* Predictors 2 and 3, where both frames before are there. */
static inline uint32_t straight(bool natural, uint32_t last, uint32_t older)
{
    if (natural) {
        int64_t x = 2 * (int64_t)last - older;
        return x < 0 || x > UINT32_MAX ? last : (uint32_t)x;
    }
    int64_t x = 2 * (int64_t)(int32_t)last - (int32_t)older;
    return x < INT32_MIN || x > INT32_MAX ? last : (uint32_t)x;
}

static inline uint32_t mean(bool natural, uint32_t last, uint32_t older)
{
    if (natural)
        return (uint32_t)(((uint64_t)last + older) / 2);
    return (uint32_t)(((int64_t)(int32_t)last + (int32_t)older) / 2);
}

void predict(const struct definition *d, const struct fields *f, uint32_t *values, const struct frame *last, const struct frame *older)
{
    for (int i = 0; i < f->n; i++) {
        uint32_t before = last != NULL ? last->values[i] : 0;
        uint32_t q = 0;
        switch (f->predictors[i]) {
        case 1:
            q = before;
            break;
        case 2:
            q = last != NULL && older != NULL ? straight(is_unsigned(f->encodings[i]), before, older->values[i]) : before;
            break;
        case 3:
            q = last != NULL && older != NULL ? mean(is_unsigned(f->encodings[i]), before, older->values[i]) : before;
            break;
        case 4:
            q = d->min_throttle;
            break;
        case 5:
            q = values[d->motor];
            break;
        case 6:
            q = 1 + before;
            break;
        case 8:
            q = 1500;
            break;
        case 9:
            q = d->vbat_reference;
            break;
        case 11:
            q = d->min_motor;
            break;
        }
        values[i] += q;
    }
}
