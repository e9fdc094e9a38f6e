/* Memory that is lent to the library's functions: see lent.h. */
#include "lent.h"

#include <stdio.h>
#include <stdlib.h>
#include <string.h>

uint8_t *bytes_of(struct lent *lent, enum part buffer)
{
    return lent->room[buffer] + AROUND;
}

void lend_blank(struct lent *lent, enum part buffer, size_t length)
{
    memset(lent->room[buffer], FILLED, ROOM);
    lent->length[buffer] = length;
}

void lend(struct lent *lent, enum part buffer, const void *bytes, size_t length)
{
    if (length > ROOM - 2 * AROUND) {
        puts("misuse: a buffer has no room");
        exit(2);
    }
    lend_blank(lent, buffer, length);
    memcpy(bytes_of(lent, buffer), bytes, length);
}

void put_4(uint8_t *at, uint32_t number)
{
    for (int i = 0; i < 4; i++)
        at[i] = (uint8_t)(number >> 8 * i);
}

void put_8(uint8_t *at, uint64_t number)
{
    for (int i = 0; i < 8; i++)
        at[i] = (uint8_t)(number >> 8 * i);
}

unsigned passed, failed;

void check(bool good, const char *function, const char *what, const char *besides)
{
    if (good) {
        passed++;
        return;
    }
    failed++;
    printf("misuse: %s: %s%s%s: not as it should be\n", function, what, besides[0] != 0 ? ", and " : "", besides);
}

/* In the memory itself. */
static bool is_as_said(function f, const struct lent *before, uint64_t answer, const struct lent *behind)
{
    static struct lent lent;
    struct call call;
    memcpy(&lent, before, sizeof lent);
    for (int i = 0; i < BUFFERS; i++) {
        call.at[i] = bytes_of(&lent, (enum part)i);
        call.length[i] = lent.length[i];
    }
    call.kind = lent.kind;
    call.item = lent.item;
    return f(&call) == answer && memcmp(lent.room, behind->room, sizeof lent.room) == 0;
}

/* In blocks. A buffer of no bytes gets one that it does not have. */
static bool is_so_in_blocks(function f, const struct lent *before, uint64_t answer, const struct lent *behind)
{
    struct call call;
    for (int i = 0; i < BUFFERS; i++) {
        call.length[i] = before->length[i];
        call.at[i] = malloc(call.length[i] + (call.length[i] == 0));
        if (call.at[i] == NULL) {
            puts("misuse: out of memory");
            exit(2);
        }
        memcpy(call.at[i], before->room[i] + AROUND, call.length[i]);
    }
    call.kind = before->kind;
    call.item = before->item;
    bool good = f(&call) == answer;
    for (int i = 0; i < BUFFERS; i++) {
        good = good && memcmp(call.at[i], behind->room[i] + AROUND, call.length[i]) == 0;
        free(call.at[i]);
    }
    return good;
}

void expect(const char *name, function f, const struct lent *before, uint64_t answer, const struct lent *behind, const char *what, const char *besides)
{
    bool good = is_as_said(f, before, answer, behind);
    check(good, name, what, besides);
    if (good) /* a write beyond a block could end the program before it says so */
        check(is_so_in_blocks(f, before, answer, behind), name, what, besides);
}
