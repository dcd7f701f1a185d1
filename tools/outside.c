/*
 * The library's side of tools/outside.py. Each line of standard input is a question in hexadecimal and a
 * count of bytes, and behind it stand so many bytes: a solver's lines. With the count -1 there are none, and
 * what is written is a line with the verdict (1 possible, 0 impossible) and the count of bytes in the
 * question's clauses, and then the clauses. Else it is a line with the number that sayfudhoum_solved gives,
 * its answer in hexadecimal or a minus, and the same two by the tests' second reader and judge.
 */
#include "lines.h"
#include "sayfudhoum.h"

#include <stdio.h>
#include <stdlib.h>

enum { LINE = 1024 };

static uint8_t question[SAYFUDHOUM_MAX_QUESTION_LENGTH];
static size_t length;
static uint8_t clauses[SAYFUDHOUM_MAX_CLAUSES_LENGTH];
static uint8_t lines[LONGEST_TEXT];

static void stop(const char *why)
{
    fprintf(stderr, "%s\n", why);
    exit(2);
}

static void write_clauses(void)
{
    uint64_t verdict = sayfudhoum_verdict(question, length);
    uint64_t result = sayfudhoum_clauses(question, length, clauses, sizeof clauses);
    if (sayfudhoum_refusal(verdict) != 0 || sayfudhoum_refusal(result) != 0)
        stop("the question is refused");
    printf("%zu %zu\n", sayfudhoum_rest(verdict), sayfudhoum_rest(result));
    fwrite(clauses, 1, sayfudhoum_rest(result), stdout);
}

static void print_result(uint64_t result, const uint8_t *answer)
{
    size_t count = sayfudhoum_refusal(result) == 0 ? sayfudhoum_rest(result) : 0;
    printf("%llu ", (unsigned long long)result);
    for (size_t i = 0; i < count; i++)
        printf("%02x", answer[i]);
    printf(count == 0 ? "- " : " ");
}

static void read_back(size_t count)
{
    struct question asked;
    uint8_t answer[SAYFUDHOUM_MAX_ANSWER_LENGTH];
    if (count > sizeof lines || fread(lines, 1, count, stdin) != count)
        stop("the lines are too long, or not all there");
    print_result(sayfudhoum_solved(question, length, lines, count, answer, sizeof answer), answer);
    read_question(question, length, &asked);
    print_result(solve(&asked, lines, count, answer), answer);
    printf("\n");
}

int main(void)
{
    char line[LINE], hex[LINE];
    long count;
    while (fgets(line, sizeof line, stdin) != NULL) {
        unsigned byte;
        if (sscanf(line, "%s %ld", hex, &count) != 2)
            stop("a line is not of the form");
        for (length = 0; length < sizeof question && sscanf(hex + 2 * length, "%2x", &byte) == 1; length++)
            question[length] = (uint8_t)byte;
        if (count < 0)
            write_clauses();
        else
            read_back((size_t)count);
        fflush(stdout);
    }
    return 0;
}
