/* limit [--session | WALKS] < LOG: an unproved walk written by hand over the same section, to show what a careful C programmer would reach.
 * For measuring only: it trusts the log's header lines and reads no closing text. --session prints what the program `walk` does. */
#define _POSIX_C_SOURCE 200809L

#include "limit.h"

#include <stdbool.h>
#include <string.h>

#include "clock.h"

/* Three rooms: the two main frames before the next, and the frame that is read. */
struct walk {
    const struct definition *definition;
    const uint8_t *section;
    size_t length, place;
    struct frame rooms[3];
    const struct frame *last, *older;
    struct frame *room;
    uint64_t main, events, slow, tried, rejected;
    const char *end; /* how it ended, if it has */
};

/* The header lines. */

/* What stands behind a line's beginning, or NULL. */
static const char *behind(const char *line, const char *beginning)
{
    size_t n = strlen(beginning);
    return strncmp(line, beginning, n) == 0 ? line + n : NULL;
}

static const char *next_item(const char *item)
{
    const char *comma = strchr(item, ',');
    return comma != NULL ? comma + 1 : NULL;
}

/* The numbers of a list without the first `skipped`, and how many these are. */
static int take_items(const char *text, int skipped, uint8_t out[FIELDS])
{
    int n = 0;
    for (const char *item = text; item != NULL && n < skipped + FIELDS; item = next_item(item), n++) {
        if (n >= skipped)
            out[n - skipped] = (uint8_t)atoi(item);
    }
    return n - skipped;
}

/* Which field is motor[0]; 0 where none is, since then no predictor asks. */
static int motor(const char *names)
{
    int n = 0;
    for (const char *item = names; item != NULL; item = next_item(item), n++) {
        if (behind(item, "motor[0]") != NULL)
            return n - 2;
    }
    return 0;
}

static void take_line(struct definition *d, const char *line)
{
    const struct {
        const char *beginning;
        int skipped; /* iteration and time are no fields */
        int *n;
        uint8_t *items;
    } lists[] = {
        {"H Field I signed:", 2, &d->intra.n, d->intra.signs},
        {"H Field I predictor:", 2, &d->intra.n, d->intra.predictors},
        {"H Field I encoding:", 2, &d->intra.n, d->intra.encodings},
        {"H Field P predictor:", 2, &d->inter.n, d->inter.predictors},
        {"H Field P encoding:", 2, &d->inter.n, d->inter.encodings},
        {"H Field S signed:", 0, &d->slow.n, d->slow.signs},
        {"H Field S predictor:", 0, &d->slow.n, d->slow.predictors},
        {"H Field S encoding:", 0, &d->slow.n, d->slow.encodings},
    };
    const struct {
        const char *beginning;
        uint32_t *number;
    } numbers[] = {
        {"H minthrottle:", &d->min_throttle},
        {"H vbatref:", &d->vbat_reference},
        {"H motorOutput:", &d->min_motor},
    };
    const char *value;
    for (size_t i = 0; i < sizeof lists / sizeof lists[0]; i++) {
        if ((value = behind(line, lists[i].beginning)) != NULL)
            *lists[i].n = take_items(value, lists[i].skipped, lists[i].items);
    }
    for (size_t i = 0; i < sizeof numbers / sizeof numbers[0]; i++) {
        if ((value = behind(line, numbers[i].beginning)) != NULL)
            *numbers[i].number = (uint32_t)atoi(value);
    }
    if ((value = behind(line, "H Field I name:")) != NULL)
        d->motor = motor(value);
}

/* Where the section begins. Line ends become ends of texts. */
static size_t take_header(struct definition *d, char *log, size_t length)
{
    size_t at = 0;
    while (length - at > 2 && log[at] == 'H' && log[at + 1] == ' ') {
        char *end = memchr(log + at, '\n', length - at);
        if (end == NULL)
            return length;
        *end = '\0';
        take_line(d, log + at);
        at = (size_t)(end + 1 - log);
    }
    return at;
}

/* The walk. */

static const bool is_kind[256] = {['E'] = true, ['I'] = true, ['P'] = true, ['G'] = true, ['H'] = true, ['S'] = true};
static const bool is_searched[256] = {['E'] = true, ['I'] = true, ['G'] = true, ['H'] = true, ['S'] = true};

static void start(struct walk *w, const struct definition *d, const uint8_t *section, size_t length)
{
    *w = (struct walk){.definition = d, .section = section, .length = length};
    w->room = &w->rooms[0];
}

/* The time of an inter frame: the straight line through the frames before, and an offset; held at 0. */
static uint64_t inter_time(const struct frame *last, const struct frame *older, uint32_t offset)
{
    uint64_t time = last != NULL ? last->time : 0;
    if (last != NULL && last->letter == 'P' && older != NULL && 2 * last->time >= older->time)
        time = 2 * last->time - older->time;
    int64_t by = (int32_t)zig_zag(offset);
    return by < 0 && time < (uint64_t)-by ? 0 : time + (uint64_t)by;
}

static enum read read_intra(struct walk *w, size_t *at)
{
    const struct definition *d = w->definition;
    struct frame *f = w->room;
    uint32_t time;
    enum read read = variable(w->section, w->length, at, &f->iteration);
    if (read == GOT)
        read = variable(w->section, w->length, at, &time);
    if (read == GOT)
        read = read_raw(&d->intra, w->section, w->length, at, f->values);
    if (read != GOT)
        return read;
    f->time = time;
    predict(d, &d->intra, f->values, w->last, NULL);
    return GOT;
}

static enum read read_inter(struct walk *w, size_t *at)
{
    const struct definition *d = w->definition;
    struct frame *f = w->room;
    uint32_t offset;
    enum read read = variable(w->section, w->length, at, &offset);
    if (read == GOT)
        read = read_raw(&d->inter, w->section, w->length, at, f->values);
    if (read != GOT)
        return read;
    f->iteration = 1 + (w->last != NULL ? w->last->iteration : 0);
    f->time = inter_time(w->last, w->older, offset);
    predict(d, &d->inter, f->values, w->last, w->older);
    return GOT;
}

static enum read read_slow(struct walk *w, size_t *at)
{
    const struct definition *d = w->definition;
    enum read read = read_raw(&d->slow, w->section, w->length, at, w->room->values);
    if (read == GOT)
        predict(d, &d->slow, w->room->values, NULL, NULL);
    return read;
}

static int event_numbers(uint32_t type)
{
    return type == 255 ? 0 : type == 14 || type == 30 ? 2 : 1;
}

static enum read read_event(struct walk *w, size_t *at)
{
    uint32_t *values = w->room->values;
    if (*at >= w->length)
        return CUT;
    values[0] = w->section[(*at)++];
    for (int i = 1; i <= event_numbers(values[0]); i++) {
        enum read read = variable(w->section, w->length, at, &values[i]);
        if (read != GOT)
            return read;
    }
    if (values[0] == 255)
        *at = w->length;
    return GOT;
}

static enum read read_kind(struct walk *w, size_t *at)
{
    switch (w->room->letter) {
    case 'I':
        return read_intra(w, at);
    case 'P':
        return read_inter(w, at);
    case 'S':
        return read_slow(w, at);
    case 'E':
        return read_event(w, at);
    default:
        return CORRUPT;
    }
}

/* Takes the frame that was read, and hands it out. */
static const struct frame *accept(struct walk *w)
{
    struct frame *f = w->room;
    switch (f->letter) {
    case 'E':
        w->events++;
        if (f->values[0] == 255)
            w->end = "done";
        break;
    case 'S':
        w->slow++;
        break;
    default:
        w->main++;
        w->older = w->last;
        w->last = f;
        for (int i = 0; i < 3; i++) {
            if (&w->rooms[i] != w->last && &w->rooms[i] != w->older)
                w->room = &w->rooms[i];
        }
    }
    return f;
}

static void search(struct walk *w)
{
    size_t p = ++w->place;
    while (p < w->length && !is_searched[w->section[p]])
        p++;
    if (p < w->length)
        w->place = p;
}

/* The next frame, which is there until the next call; or NULL, and `end` says how the walk ended. */
static const struct frame *next(struct walk *w)
{
    while (w->end == NULL && w->place < w->length) {
        size_t at = w->place + 1;
        w->room->letter = (char)w->section[w->place];
        w->room->place = w->place;
        w->tried += is_kind[w->section[w->place]];
        enum read read = read_kind(w, &at);
        if (read == GOT && (at >= w->length || is_kind[w->section[at]])) {
            w->place = at;
            return accept(w);
        }
        if (read == CUT) {
            w->end = "cut";
            return NULL;
        }
        w->rejected += is_kind[w->section[w->place]];
        search(w);
    }
    if (w->end == NULL)
        w->end = "out of data";
    return NULL;
}

/* What it is for. */

static void print_values(const uint32_t *values, const uint8_t *signs, int n)
{
    for (int i = 0; i < n; i++) {
        if (signs != NULL && signs[i] != 0)
            printf(" %" PRId32, (int32_t)values[i]);
        else
            printf(" %" PRIu32, values[i]);
    }
    putchar('\n');
}

static void print_frame(const struct definition *d, const struct frame *f)
{
    printf("%c %zu", f->letter, f->place);
    if (f->letter == 'E') {
        print_values(f->values, NULL, 1 + event_numbers(f->values[0]));
    } else if (f->letter == 'S') {
        print_values(f->values, d->slow.signs, d->slow.n);
    } else {
        printf(" %" PRIu32 " %" PRIu64, f->iteration, f->time);
        print_values(f->values, d->intra.signs, d->intra.n);
    }
}

static void print_session(const struct definition *d, const uint8_t *section, size_t length)
{
    struct walk w;
    const struct frame *f;
    start(&w, d, section, length);
    puts("kind at values");
    while ((f = next(&w)) != NULL)
        print_frame(d, f);
    printf("end %s main %" PRIu64 " event %" PRIu64 " slow %" PRIu64 " tried %" PRIu64 " rejected %" PRIu64 "\n", w.end, w.main, w.events, w.slow,
           w.tried, w.rejected);
}

static uint64_t sum_of_values(const uint32_t *values, int n)
{
    uint64_t sum = 0;
    for (int i = 0; i < n; i++)
        sum += values[i];
    return sum;
}

static uint64_t sum_of_frame(const struct definition *d, const struct frame *f)
{
    switch (f->letter) {
    case 'E':
        return 0;
    case 'S':
        return sum_of_values(f->values, d->slow.n);
    default:
        return f->iteration + f->time + sum_of_values(f->values, d->intra.n);
    }
}

static void measure(const struct definition *d, const uint8_t *section, size_t length, unsigned long walks)
{
    uint64_t frames = 0, sum = 0, begin = cpu_time();
    for (unsigned long i = 0; i < walks; i++) {
        struct walk w;
        const struct frame *f;
        start(&w, d, section, length);
        while ((f = next(&w)) != NULL) {
            frames++;
            sum += sum_of_frame(d, f);
        }
    }
    print_measured(cpu_time() - begin, frames, sum);
}

int main(int argc, char **argv)
{
    static uint8_t log[1 << 26];
    struct definition definition = {0};
    if (argc != 2) {
        fputs("usage: limit [--session | WALKS] < LOG\n", stderr);
        return 2;
    }
    size_t length = fread(log, 1, sizeof log, stdin);
    if (length == sizeof log) {
        fputs("limit: the log is too long\n", stderr);
        return 2;
    }
    size_t at = take_header(&definition, (char *)log, length);
    if (strcmp(argv[1], "--session") == 0)
        print_session(&definition, log + at, length - at);
    else
        measure(&definition, log + at, length - at, strtoul(argv[1], NULL, 10));
    return 0;
}
