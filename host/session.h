/* The lines of a log's session, as the program `walk` prints them. */
#ifndef SESSION_H
#define SESSION_H

#include <stdio.h>

#include "log.h"

/* An accepted frame: its letter and place; then iteration, time and fields, or an event's type and numbers. */
void print_row(FILE *out, const struct log *log, const uint8_t *row);

/* Refused lists: the number and the place, of refusal 3 the round too. */
void print_refusal(FILE *out, const struct log *log);

#endif
