#include "files.h"

#include "reader.h"
#include "table.h"

#include <stdio.h>
#include <stdlib.h>
#include <string.h>

void put_bytes(struct file *file, const uint8_t *bytes, size_t count)
{
    memcpy(file->bytes + file->length, bytes, count);
    file->length += count;
}

void put_field(struct file *file, uint8_t tag, uint8_t length, uint8_t first, uint8_t second, uint8_t third)
{
    const uint8_t field[] = {tag, 0, length, first, second, third};
    put_bytes(file, field, 3u + length);
}

static void begin(struct file *file, uint8_t elements, uint8_t sets)
{
    file->length = 0;
    put_field(file, 0x01, 2, elements, sets, 0);
}

static void differ(struct file *file, uint8_t x, uint8_t y)
{
    put_field(file, 0x21, 2, x, y, 0);
}

/* x != x + 1 for three sets from this one on. */
static void three_differ(struct file *file, uint8_t from)
{
    for (uint8_t x = from; x < from + 3; x++)
        differ(file, x, (uint8_t)(x + 1));
}

/* Each set below 14 is the union of the next two. */
static void put_chain(struct file *file)
{
    for (uint8_t x = 14; x-- > 0;)
        put_field(file, 0x30, 3, x, (uint8_t)(x + 1), (uint8_t)(x + 2));
    for (uint8_t x = 15; x > 12; x--)
        differ(file, x, (uint8_t)(x - 1));
    put_field(file, 0x20, 2, 15, 0, 0);
    differ(file, 14, 0);
}

void heavy_file(size_t number, struct file *file)
{
    begin(file, 8, 16);
    switch (number) {
    case 0:
        three_differ(file, 1);
        differ(file, 0, 0);
        break;
    case 1:
        three_differ(file, 2);
        put_field(file, 0x20, 2, 0, 1, 0);
        differ(file, 0, 1);
        break;
    case 2:
        put_field(file, 0x23, 2, 0, 7, 0);
        put_field(file, 0x23, 2, 1, 7, 0);
        three_differ(file, 2);
        differ(file, 0, 1);
        break;
    case 3:
        for (uint8_t i = 0; i < 60; i++)
            put_field(file, i % 2 == 0 ? 0x30 : 0x31, 3, i % 16, i % 16, i % 16);
        three_differ(file, 2);
        differ(file, 0, 0);
        break;
    case 4:
        put_chain(file);
        break;
    case 5: /* possible, with one class for all twelve terms */
        three_differ(file, 0);
        differ(file, 3, 4);
        break;
    case 6: /* possible: rows ask for each element, and each witness has to be one of them */
        for (uint8_t a = 0; a < 8; a++)
            put_field(file, 0x23, 2, a, a, 0);
        put_field(file, 0x22, 1, 8, 0, 0);
        for (uint8_t x = 0; x < 4; x++)
            differ(file, x, 8);
        break;
    default: /* possible, with twelve classes */
        file->length = from_hex(examples[EXAMPLES - 1].question, file->bytes);
        return;
    }
    put_field(file, 0x7F, 0, 0, 0, 0);
}

/* The generator xorshift64*. */
uint8_t random_below(size_t bound)
{
    static uint64_t state = 1;
    state ^= state >> 12;
    state ^= state << 25;
    state ^= state >> 27;
    return (uint8_t)((state * UINT64_C(2685821657736338717) >> 32) % bound);
}

/* A statement of some kind with names that are declared; nothing if the kind needs a name and none is. */
static void put_random_statement(struct file *file, uint8_t elements, uint8_t sets)
{
    static const uint8_t tags[] = {0x10, 0x11, 0x12, 0x13, 0x20, 0x21, 0x22, 0x23, 0x30, 0x31, 0x32};
    uint8_t tag = tags[random_below(sizeof tags)];
    const char *sorts = body_of(tag);
    uint8_t names[3] = {0, 0, 0};
    for (size_t i = 0; sorts[i] != '\0'; i++) {
        uint8_t bound = sorts[i] == 'e' ? elements : sets;
        if (bound == 0)
            return;
        names[i] = random_below(bound);
    }
    put_field(file, tag, (uint8_t)strlen(sorts), names[0], names[1], names[2]);
}

/* Every other question is small enough for the tests' solver. */
void random_file(struct file *file)
{
    int small = random_below(2) == 0;
    uint8_t elements = random_below(small ? 4 : 9), sets = random_below(small ? 5 : 17);
    begin(file, elements, sets);
    for (size_t left = random_below(small ? 6 : 20); left > 0; left--)
        put_random_statement(file, elements, sets);
    put_field(file, 0x7F, 0, 0, 0, 0);
}

/* Whether a name stands twice in the statement. */
static int repeats(const uint8_t *field)
{
    const char *sorts = body_of(field[0]);
    for (size_t i = 0; sorts[i] != '\0'; i++)
        for (size_t j = 0; j < i; j++)
            if (sorts[i] == sorts[j] && field[3 + i] == field[3 + j])
                return 1;
    return 0;
}

void crowded_file(struct file *file)
{
    uint8_t elements = (uint8_t)(2 + random_below(5)), sets = (uint8_t)(6 + random_below(8));
    begin(file, elements, sets);
    size_t left = random_below(4) == 0 ? 64 : 12 + random_below(24);
    for (; left > 0; left--) {
        size_t start = file->length;
        do {
            file->length = start;
            put_random_statement(file, elements, sets);
        } while (repeats(file->bytes + start));
    }
    put_field(file, 0x7F, 0, 0, 0, 0);
}

void try_files(size_t drawn, void (*try_one)(const struct file *file))
{
    struct file file;
    for (size_t i = 0; i < HEAVY_FILES; i++) {
        heavy_file(i, &file);
        try_one(&file);
    }
    for (size_t i = 0; i < drawn; i++) {
        random_file(&file);
        try_one(&file);
        crowded_file(&file);
        try_one(&file);
    }
}

void expect_of(int as_it_should_be, const char *otherwise, const struct file *file)
{
    if (as_it_should_be)
        return;
    printf("%s, with this question of %zu bytes:\n", otherwise, file->length);
    for (size_t i = 0; i < file->length; i++)
        printf(" %02X", file->bytes[i]);
    printf("\n");
    exit(1);
}
