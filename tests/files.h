/* Question files as the tests make them: field by field, with nothing checked. */
#ifndef FILES_H
#define FILES_H

#include <stddef.h>
#include <stdint.h>

enum { LONGEST_FILE = 4096 };

struct file {
    uint8_t bytes[LONGEST_FILE];
    size_t length;
};

/* Puts bytes, or a field with a body of so many names, behind what is there. */
void put_bytes(struct file *file, const uint8_t *bytes, size_t count);
void put_field(struct file *file, uint8_t tag, uint8_t length, uint8_t first, uint8_t second, uint8_t third);

/* The questions that are known to be long to decide, or to need much stack; E = 8 and S = 16, but for the last. */
enum { HEAVY_FILES = 8 };
void heavy_file(size_t number, struct file *file);

/* A number below the bound, which is at most 256; they are the same at every run. */
uint8_t random_below(size_t bound);

/* A question drawn at random. It may have too many statements x != y; nothing else is wrong with it. */
void random_file(struct file *file);

/* The same, with many statements, none of which clashes or says nothing by itself. Most are impossible. */
void crowded_file(struct file *file);

/* Tries the heavy questions, and as many of each drawn kind as are asked for. */
void try_files(size_t drawn, void (*try_one)(const struct file *file));

/* Ends the test with the question that failed, in hexadecimal. */
void expect_of(int as_it_should_be, const char *otherwise, const struct file *file);

#endif
