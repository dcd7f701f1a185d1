/*
 * Models as sayfudhoum_judge takes them, and a second judge of them, for the tests: written from document 01
 * alone. The masks are turned around: each set becomes the set of its elements, with a bit for each, and a
 * statement is worked out by the algebra of such sets.
 */
#ifndef MODELS_H
#define MODELS_H

#include "reader.h"

/* The model of an answer file to a question with so many element names; gives its length, or 0 if it is impossible. */
size_t model_in(const uint8_t *answer, unsigned elements, uint8_t *model);

/*
 * What sayfudhoum_judge has to give for a question that the reader accepts: 256 times the index of the first
 * statement that fails, or times 64 if all hold; or 11 if the model is bad.
 */
uint64_t judge_model(const struct question *question, const uint8_t *model, size_t length);

#endif
