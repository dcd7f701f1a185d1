/* A second finder of clashing parts, for the tests: a plain walk over the statements, which asks sayfudhoum_verdict. */
#ifndef FINDER_H
#define FINDER_H

#include "clashes.h"

/* How many statements a question file has that the reader accepts. */
size_t statements_of(const uint8_t *question);

/* Writes the file with the names of the question and those of its statements that are kept; gives its length. */
size_t write_kept(const uint8_t *question, const uint8_t *kept, uint8_t *file);

/* Finds the part and the indexes of a question that the reader accepts. It leaves the answer to others. */
void find_clash(const uint8_t *question, size_t length, struct clash *clash);

#endif
