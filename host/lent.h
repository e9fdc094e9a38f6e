/* Memory that is lent to the library's functions, with bytes around it that have to keep their content; what misuse.c tries its calls in. */
#ifndef LENT_H
#define LENT_H

#include <stdbool.h>
#include <stddef.h>
#include <stdint.h>

#include "dulimasca.h"

/* What a call can be lent, and the one thing of it that is no buffer but can be wrong. */
enum part { LOG, SETTINGS, DEFINITION, STATE, SECTION, NAMES, SLOW_NAMES, OUT, TOLD, BUFFERS, KIND };

/* A buffer's bytes begin so many bytes behind its room's beginning; there is as much behind the longest of them, and more behind the others. */
#define AROUND 64
#define ROOM 1200
#define FILLED 0xA5

struct lent {
    uint8_t room[BUFFERS][ROOM];
    size_t length[BUFFERS];
    uint32_t kind;
    size_t item;
};

/* A call: where its buffers are, how long they are, and its two numbers. */
struct call {
    uint8_t *at[BUFFERS];
    size_t length[BUFFERS];
    uint32_t kind;
    size_t item;
};

typedef uint64_t (*function)(const struct call *);

/* The bytes of a buffer. */
uint8_t *bytes_of(struct lent *lent, enum part buffer);

/* Makes a buffer of these bytes; or of so many that are filled with a byte that no function is asked to write. */
void lend(struct lent *lent, enum part buffer, const void *bytes, size_t length);
void lend_blank(struct lent *lent, enum part buffer, size_t length);

/* Writes a number, low byte first. */
void put_4(uint8_t *at, uint32_t number);
void put_8(uint8_t *at, uint64_t number);

/* How many checks were passed and failed so far. The words of a failed one are printed. */
extern unsigned passed, failed;
void check(bool good, const char *function, const char *what, const char *besides);

/* Calls a function in a copy of the memory, and once more with each buffer in a block of exactly its length, where tools see a read or a write beyond it.
 * The answer has to be this one, and all memory, around the buffers too, has to look as it does in `behind`. */
void expect(const char *name, function f, const struct lent *before, uint64_t answer, const struct lent *behind, const char *what, const char *besides);

#endif
