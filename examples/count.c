/* Counts the frames of the log on standard input: settings and a definition from its `H` lines, then a walk over its section.
 * Bytes behind the first megabyte are left out; host/import.c takes them all. */
#include <stdio.h>

#include "dulimasca.h"

int main(void)
{
    static uint8_t log[1 << 20], settings[DULIMASCA_SETTINGS], definition[DULIMASCA_DEFINITION];
    uint8_t told[DULIMASCA_TOLD];
    size_t length = fread(log, 1, sizeof log, stdin);
    dulimasca_settings(log, length, settings, sizeof settings);
    uint64_t answer = dulimasca_define(log, length, settings, sizeof settings, definition, sizeof definition, told, sizeof told);
    if (DULIMASCA_IS_REFUSED(answer)) {
        printf("refused %d, place %d\n", (int)DULIMASCA_REFUSAL(answer), (int)DULIMASCA_PLACE(answer));
        return 1;
    }
    size_t section = (size_t)dulimasca_number(told, 0);
    dulimasca_count(definition, sizeof definition, log + section, length - section, told, sizeof told);
    printf("%d main frames, %d events, %d slow frames\n", (int)dulimasca_number(told, 1), (int)dulimasca_number(told, 2),
           (int)dulimasca_number(told, 3));
    return 0;
}
