/*
 * Several threads decide cases A to N, find their clashing parts, write their clauses and judge their models at
 * once, each with buffers of its own; and each reads lines back for case I.
 */
#include "models.h"
#include "sayfudhoum.h"
#include "table.h"

#include <pthread.h>
#include <stdio.h>
#include <string.h>

enum { THREADS = 4, CALLS = 1000 };

struct worker {
    pthread_t thread;
    size_t first; /* each begins with another case, so that they are at different ones */
    const char *failed;
};

static int decides(const struct example *example)
{
    uint8_t question[SAYFUDHOUM_MAX_QUESTION_LENGTH], expected[SAYFUDHOUM_MAX_ANSWER_LENGTH];
    size_t question_length = from_hex(example->question, question);
    size_t length = from_hex(example->answer, expected);
    uint8_t answer[SAYFUDHOUM_MAX_ANSWER_LENGTH];
    uint64_t result = sayfudhoum_answer(question, question_length, answer, sizeof answer);
    return result == length * 256 && memcmp(answer, expected, length) == 0
        && sayfudhoum_verdict(question, question_length) == expected[3] * UINT64_C(256);
}

/* Whether these are the bytes of the text. */
static int reads(const uint8_t *bytes, size_t count, const char *text)
{
    uint8_t expected[SAYFUDHOUM_MAX_QUESTION_LENGTH];
    return count == from_hex(text, expected) && memcmp(bytes, expected, count) == 0;
}

static int finds(const struct example *example)
{
    uint8_t question[SAYFUDHOUM_MAX_QUESTION_LENGTH], part[SAYFUDHOUM_MAX_QUESTION_LENGTH];
    uint8_t indexes[SAYFUDHOUM_MAX_STATEMENTS], answer[SAYFUDHOUM_MAX_ANSWER_LENGTH];
    uint64_t result = sayfudhoum_clash(question, from_hex(example->question, question), part, sizeof part,
                                       indexes, sizeof indexes, answer, sizeof answer);
    return sayfudhoum_refusal(result) == 0 && reads(part, sayfudhoum_part_length(result), example->part)
        && reads(indexes, sayfudhoum_index_count(result), example->indexes)
        && reads(answer, sayfudhoum_clash_answer_length(result), example->answer);
}

/* Clauses that other calls write at the same time: the same as they were alone, before the threads began. */
enum { ROOM = 32768 };
static uint8_t clauses[EXAMPLES][ROOM];
static uint64_t results[EXAMPLES];

static uint64_t write_clauses(const struct example *example, uint8_t *buffer)
{
    uint8_t question[SAYFUDHOUM_MAX_QUESTION_LENGTH];
    return sayfudhoum_clauses(question, from_hex(example->question, question), buffer, ROOM);
}

static int writes(size_t number)
{
    uint8_t buffer[ROOM];
    uint64_t result = write_clauses(&examples[number], buffer);
    return result == results[number] && memcmp(buffer, clauses[number], sayfudhoum_rest(result)) == 0;
}

static int solves(void)
{
    static const char lines[] = "s SATISFIABLE\nv -1 2 3 -4 5 -6 0\n";
    uint8_t question[SAYFUDHOUM_MAX_QUESTION_LENGTH], answer[SAYFUDHOUM_MAX_ANSWER_LENGTH];
    const struct example *example = &examples['I' - 'A'];
    uint64_t result = sayfudhoum_solved(question, from_hex(example->question, question), (const uint8_t *)lines,
                                        sizeof lines - 1, answer, sizeof answer);
    return sayfudhoum_refusal(result) == 0 && reads(answer, sayfudhoum_rest(result), example->answer);
}

/* The model of a possible case's answer, in which every statement holds; and, without its last byte, a bad one. */
static int judges(const struct example *example)
{
    uint8_t question[SAYFUDHOUM_MAX_QUESTION_LENGTH], answer[SAYFUDHOUM_MAX_ANSWER_LENGTH];
    uint8_t model[SAYFUDHOUM_MAX_MODEL_LENGTH];
    size_t length = from_hex(example->question, question);
    from_hex(example->answer, answer);
    size_t count = model_in(answer, question[3], model);
    return count == 0
        || (sayfudhoum_judge(question, length, model, count) == 256 * SAYFUDHOUM_ALL_HOLD
            && sayfudhoum_judge(question, length, model, count - 1) == SAYFUDHOUM_BAD_MODEL);
}

static void *work(void *argument)
{
    struct worker *worker = argument;
    for (size_t i = 0; i < CALLS; i++) {
        size_t number = (worker->first + i) % EXAMPLES;
        const struct example *example = &examples[number];
        if (!decides(example) || !finds(example) || !writes(number) || !solves() || !judges(example))
            worker->failed = example->name;
    }
    return NULL;
}

int main(void)
{
    struct worker workers[THREADS];
    int failed = 0;
    for (size_t i = 0; i < EXAMPLES; i++) {
        results[i] = write_clauses(&examples[i], clauses[i]);
        failed |= sayfudhoum_refusal(results[i]) != 0;
    }
    for (size_t i = 0; i < THREADS; i++) {
        workers[i].first = i;
        workers[i].failed = NULL;
        if (pthread_create(&workers[i].thread, NULL, work, &workers[i]) != 0)
            return 2;
    }
    for (size_t i = 0; i < THREADS; i++) {
        pthread_join(workers[i].thread, NULL);
        if (workers[i].failed != NULL) {
            printf("case %s failed\n", workers[i].failed);
            failed = 1;
        }
    }
    return failed;
}
