/*
 * Times the library. Each line of standard input is a name and a question in hexadecimal; for each, one
 * line is written: the name, the verdict (1 possible, 0 impossible) and the nanoseconds of processor time
 * that one call of sayfudhoum_answer took, from question bytes to answer bytes. A batch repeats the call
 * until it has lasted long enough to be timed, and the shortest of several batches counts: five, or as
 * many as the first argument says. With a second argument `clash` the line of an impossible question goes
 * on: the nanoseconds of one call of sayfudhoum_clash, and the clashing part, a question in hexadecimal.
 * That of a possible question stays as it is. With a second argument `clauses` every line goes on: the
 * nanoseconds of one call of sayfudhoum_clauses, the bytes that it writes, and the nanoseconds that reading
 * alone takes: a call that is refused because the last byte of the question is missing. With a second
 * argument `judge` the line of a possible question goes on: the nanoseconds of one call of sayfudhoum_judge
 * on the model of the answer, and those of reading alone: the same call, refused because the last byte of
 * the model is missing.
 */
#define _POSIX_C_SOURCE 200809L /* clock_gettime */
#include "sayfudhoum.h"

#include <stdio.h>
#include <stdlib.h>
#include <string.h>
#include <time.h>

enum { LINE = 1024 };
static const double batch_length = 1e6; /* nanoseconds */

static uint8_t question[SAYFUDHOUM_MAX_QUESTION_LENGTH];
static size_t length;
static uint8_t answer[SAYFUDHOUM_MAX_ANSWER_LENGTH];
static uint8_t part[SAYFUDHOUM_MAX_QUESTION_LENGTH];
static uint8_t indexes[SAYFUDHOUM_MAX_STATEMENTS];
static uint8_t clauses[SAYFUDHOUM_MAX_CLAUSES_LENGTH];
static uint8_t model[SAYFUDHOUM_MAX_MODEL_LENGTH];
static size_t model_length;

static uint64_t decide(void)
{
    return sayfudhoum_answer(question, length, answer, sizeof answer);
}

static uint64_t clash(void)
{
    return sayfudhoum_clash(question, length, part, sizeof part, indexes, sizeof indexes, answer, sizeof answer);
}

static uint64_t write_clauses(void)
{
    return sayfudhoum_clauses(question, length, clauses, sizeof clauses);
}

static uint64_t read_only(void)
{
    return sayfudhoum_verdict(question, length - 1);
}

static uint64_t judge(void)
{
    return sayfudhoum_judge(question, length, model, model_length);
}

static uint64_t judge_cut(void)
{
    return sayfudhoum_judge(question, length, model, model_length - 1);
}

static double now(void)
{
    struct timespec time;
    clock_gettime(CLOCK_PROCESS_CPUTIME_ID, &time);
    return (double)time.tv_sec * 1e9 + (double)time.tv_nsec;
}

/* The nanoseconds that so many calls take. */
static double batch(uint64_t (*call)(void), long calls)
{
    double start = now();
    for (long i = 0; i < calls; i++)
        call();
    return now() - start;
}

/* The nanoseconds of one call. */
static double shortest(uint64_t (*call)(void), int batches)
{
    long calls = 1;
    double taken = batch(call, calls);
    while (taken < batch_length) {
        calls *= 2;
        taken = batch(call, calls);
    }
    for (int i = 1; i < batches; i++) {
        double again = batch(call, calls);
        if (again < taken)
            taken = again;
    }
    return taken / (double)calls;
}

static void time_clash(int batches)
{
    size_t written = sayfudhoum_part_length(clash());
    printf(" %.0f ", shortest(clash, batches));
    for (size_t i = 0; i < written; i++)
        printf("%02x", part[i]);
}

static void time_clauses(int batches)
{
    size_t written = sayfudhoum_rest(write_clauses());
    printf(" %.0f %zu", shortest(write_clauses, batches), written);
    printf(" %.0f", shortest(read_only, batches));
}

/* The model of a possible answer: the number of its classes, the class numbers of the names, the masks. */
static void take_model(void)
{
    const uint8_t *classes = answer + 7; /* behind the verdict and the head of field 41 */
    const uint8_t *masks = classes + answer[6] + 3;
    size_t names = question[3], masks_length = masks[-1];
    model[0] = (uint8_t)(masks_length / 2);
    memcpy(model + 1, classes, names);
    memcpy(model + 1 + names, masks, masks_length);
    model_length = 1 + names + masks_length;
}

/* False if the model of the answer is not judged to be one. */
static int time_judge(int batches)
{
    take_model();
    if (judge() != 256 * SAYFUDHOUM_ALL_HOLD || judge_cut() != SAYFUDHOUM_BAD_MODEL)
        return 0;
    printf(" %.0f", shortest(judge, batches));
    printf(" %.0f", shortest(judge_cut, batches));
    return 1;
}

int main(int count, char **words)
{
    int batches = count > 1 ? atoi(words[1]) : 5;
    const char *more = count > 2 ? words[2] : "";
    char line[LINE], name[LINE], hex[LINE];
    while (fgets(line, sizeof line, stdin) != NULL) {
        unsigned byte;
        if (sscanf(line, "%s %s", name, hex) != 2)
            return 2;
        for (length = 0; length < sizeof question && sscanf(hex + 2 * length, "%2x", &byte) == 1; length++)
            question[length] = (uint8_t)byte;
        uint64_t result = decide();
        if (sayfudhoum_refusal(result) != 0) {
            fprintf(stderr, "%s: refused by %u at %zu\n", name, sayfudhoum_refusal(result), sayfudhoum_rest(result));
            return 2;
        }
        printf("%s %d %.0f", name, answer[3], shortest(decide, batches));
        if (strcmp(more, "clash") == 0 && answer[3] == 0)
            time_clash(batches);
        if (strcmp(more, "clauses") == 0)
            time_clauses(batches);
        if (strcmp(more, "judge") == 0 && answer[3] == 1 && !time_judge(batches)) {
            fprintf(stderr, "%s: its own model fails\n", name);
            return 2;
        }
        printf("\n");
        fflush(stdout);
    }
    return 0;
}
