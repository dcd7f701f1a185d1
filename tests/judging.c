#include "judging.h"

#include <string.h>

int judges(const uint8_t *question, size_t question_length, const uint8_t *model, size_t model_length, uint64_t due)
{
    const uint8_t *lent = lend_model(model, model_length);
    uint64_t number = sayfudhoum_judge(question, question_length, lent, model_length);
    return number == due && memcmp(lent, model, model_length) == 0;
}
