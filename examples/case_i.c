/*
 * Case I of document 01, byte by byte: one element name e0 and two set names s0, s1, with the
 * statements s0 = {e0}, s0 != s1, e0 in s1. Can they all hold?
 */
#include "model.h"
#include "sayfudhoum.h"

#include <stdio.h>

static const uint8_t question[] = {
    0x01, 0, 2, 1, 2, /* names: E = 1, S = 2 */
    0x23, 0, 2, 0, 0, /* s0 = {e0} */
    0x21, 0, 2, 0, 1, /* s0 != s1 */
    0x12, 0, 2, 0, 1, /* e0 in s1 */
    0x7F, 0, 0        /* end */
};

/* The terms are the element names, then the witness of s0 != s1: an element that tells them apart. */
static const char *const terms[] = {"e0", "the witness of s0 != s1"};
static const char *const sets[] = {"s0", "s1"};
static const struct words words = {"element", terms, sets, 2};

static void print_bytes(const uint8_t *bytes, size_t count)
{
    for (size_t i = 0; i < count; i++)
        printf(" %02X", bytes[i]);
    printf("\n");
}

/* Says by which number the question was refused, and where. */
static int refused(uint64_t result)
{
    printf("refused by %u at %zu\n", sayfudhoum_refusal(result), sayfudhoum_rest(result));
    return 1;
}

int main(void)
{
    uint64_t result = sayfudhoum_verdict(question, sizeof question);
    if (sayfudhoum_refusal(result) != 0)
        return refused(result);
    int possible = sayfudhoum_rest(result) == 1;
    printf("Case I is %s.\n", possible ? "possible" : "impossible");

    uint8_t answer[SAYFUDHOUM_MAX_ANSWER_LENGTH];
    result = sayfudhoum_answer(question, sizeof question, answer, sizeof answer);
    if (sayfudhoum_refusal(result) != 0)
        return refused(result);
    printf("The answer's bytes:");
    print_bytes(answer, sayfudhoum_rest(result));
    if (possible) {
        struct model model = model_of(answer);
        printf("Its model has %zu elements:\n", model.size);
        print_model(&model, &words);
    }
    return 0;
}
