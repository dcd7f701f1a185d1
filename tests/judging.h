/* Whether a call of sayfudhoum_judge on lent slices gives the number that is due. */
#ifndef JUDGING_H
#define JUDGING_H

#include "sayfudhoum.h"
#include "slices.h"

/* What is due for a model in which every statement holds, and for a bad one. */
enum { ALL_HOLD = 256 * SAYFUDHOUM_ALL_HOLD, BAD_MODEL = SAYFUDHOUM_BAD_MODEL };

/* The question has to be lent. The model is lent here, and has to stay as it is. */
int judges(const uint8_t *question, size_t question_length, const uint8_t *model, size_t model_length, uint64_t due);

#endif
