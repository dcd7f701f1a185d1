#include "damage.h"

#include <string.h>

void change_length(const struct file *file, try_bytes *try)
{
    static const uint8_t extra[] = {0x00, 0x01, 0x10, 0x21, 0x40, 0x7F, 0xFF};
    for (size_t length = 0; length <= file->length; length++)
        try(file->bytes, length);
    for (size_t i = 0; i < sizeof extra; i++) {
        struct file longer = *file;
        put_bytes(&longer, &extra[i], 1);
        try(longer.bytes, longer.length);
    }
}

void change_bits(const struct file *file, try_bytes *try)
{
    struct file changed = *file;
    for (size_t place = 0; place < file->length; place++)
        for (unsigned bit = 0; bit < 8; bit++) {
            changed.bytes[place] = (uint8_t)(file->bytes[place] ^ (1u << bit));
            try(changed.bytes, changed.length);
            changed.bytes[place] = file->bytes[place];
        }
}

void change_bytes(const struct file *file, try_bytes *try)
{
    struct file changed = *file;
    for (size_t place = 0; place < file->length; place++)
        for (unsigned value = 0; value < 256; value++) {
            changed.bytes[place] = (uint8_t)value;
            try(changed.bytes, changed.length);
            changed.bytes[place] = file->bytes[place];
        }
}

/* Where the fields of a sound file begin, and at the end its length; gives their number. */
enum { MOST_FIELDS = 66 };
static size_t fields_of(const struct file *file, size_t *starts)
{
    size_t count = 0, place = 0;
    while (place < file->length) {
        starts[count++] = place;
        place += 3u + file->bytes[place + 2];
    }
    starts[count] = place;
    return count;
}

/* The bytes of the file from one place to another, behind what is there. */
static void put_part(struct file *to, const struct file *file, size_t from, size_t end)
{
    put_bytes(to, file->bytes + from, end - from);
}

/* The file with other bytes in the place of a part of it. */
static void replace(const struct file *file, size_t from, size_t end,
                    const uint8_t *bytes, size_t count, try_bytes *try)
{
    struct file changed = {{0}, 0};
    put_part(&changed, file, 0, from);
    put_bytes(&changed, bytes, count);
    put_part(&changed, file, end, file->length);
    try(changed.bytes, changed.length);
}

/* Two fields, of which the first stands before the second, in each other's place. */
static void swap(const struct file *file, const size_t *first, const size_t *second, try_bytes *try)
{
    struct file swapped = {{0}, 0};
    put_part(&swapped, file, 0, first[0]);
    put_part(&swapped, file, second[0], second[1]);
    put_part(&swapped, file, first[1], second[0]);
    put_part(&swapped, file, first[0], first[1]);
    put_part(&swapped, file, second[1], file->length);
    try(swapped.bytes, swapped.length);
}

void change_order(const struct file *file, try_bytes *try)
{
    size_t starts[MOST_FIELDS + 1];
    size_t count = fields_of(file, starts);
    for (size_t i = 0; i < count; i++) {
        const uint8_t *field = file->bytes + starts[i];
        replace(file, starts[i], starts[i + 1], field, 0, try);
        replace(file, starts[i], starts[i], field, starts[i + 1] - starts[i], try);
        for (size_t j = 0; j < i; j++)
            swap(file, &starts[j], &starts[i], try);
    }
}

void put_in_fields(const struct file *file, try_bytes *try)
{
    size_t starts[MOST_FIELDS + 1];
    size_t count = fields_of(file, starts);
    for (size_t i = 0; i < count; i++)
        for (unsigned tag = 0; tag < 256; tag++)
            for (uint8_t length = 0; length <= 4; length++) {
                const uint8_t field[3 + 4] = {(uint8_t)tag, 0, length};
                replace(file, starts[i], starts[i], field, 3u + length, try);
            }
}

void change_bodies(const struct file *file, try_bytes *try)
{
    size_t starts[MOST_FIELDS + 1];
    size_t count = fields_of(file, starts);
    for (size_t i = 0; i < count; i++)
        for (size_t length = 0; length <= 300; length++) {
            uint8_t tag = file->bytes[starts[i]];
            const uint8_t field[3 + 300] = {tag, (uint8_t)(length / 256), (uint8_t)(length % 256)};
            replace(file, starts[i], starts[i + 1], field, 3 + length, try);
        }
}

void fill_up(uint8_t tag, uint8_t statements, try_bytes *try)
{
    for (unsigned last = 0; last < 256; last++)
        for (uint8_t name = 1; name <= 2; name++) {
            struct file file = {{0}, 0};
            put_field(&file, 0x01, 2, 2, 2, 0);
            for (uint8_t i = 0; i < statements; i++)
                put_field(&file, tag, 2, 0, 1, 0);
            put_field(&file, (uint8_t)last, 2, name, 0, 0);
            put_field(&file, 0x7F, 0, 0, 0, 0);
            try(file.bytes, file.length);
        }
}

/* One byte changed, left out or put in. Small values are names and lengths, so they are drawn more often. */
static void damage(struct file *file)
{
    uint8_t byte = random_below(2) == 0 ? random_below(20) : random_below(256);
    size_t place = (random_below(256) * 256u + random_below(256)) % file->length;
    uint8_t *at = file->bytes + place;
    size_t behind = file->length - place - 1;
    switch (random_below(3)) {
    case 0:
        *at = byte;
        break;
    case 1:
        memmove(at, at + 1, behind);
        file->length--;
        break;
    default:
        memmove(at + 1, at, behind + 1);
        *at = byte;
        file->length++;
        break;
    }
}

void draw_files(size_t count, try_bytes *try)
{
    while (count-- > 0) {
        struct file file;
        random_file(&file);
        for (uint8_t times = random_below(4); times > 0; times--)
            damage(&file);
        try(file.bytes, file.length);
    }
}
