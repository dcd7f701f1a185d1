/* A statement of a question, printed in words. */
#ifndef STATEMENT_H
#define STATEMENT_H

#include "model.h"

/* Prints the statement whose field stands here, with the words for its names. */
void print_statement(const uint8_t *field, const struct words *words);

#endif
