/* Damaged files, made from a sound one or from nothing; each is handed to a function that tries it. */
#ifndef DAMAGE_H
#define DAMAGE_H

#include "files.h"

typedef void try_bytes(const uint8_t *bytes, size_t length);

/* The file cut off after each byte, and with one byte behind it. */
void change_length(const struct file *file, try_bytes *try);

/* Each bit of the file changed, and each byte changed to each other value. */
void change_bits(const struct file *file, try_bytes *try);
void change_bytes(const struct file *file, try_bytes *try);

/* Each field left out, there twice, and in the place of each other field. */
void change_order(const struct file *file, try_bytes *try);

/* Before each field a field with each tag and a body of each length up to 4. */
void put_in_fields(const struct file *file, try_bytes *try);

/* Each field with a body of each length up to 300. */
void change_bodies(const struct file *file, try_bytes *try);

/* Behind so many statements, x = y or x != y, a field with each tag and a name that may not be declared. */
void fill_up(uint8_t tag, uint8_t statements, try_bytes *try);

/* Files drawn at random, with up to three bytes changed, left out or put in. */
void draw_files(size_t count, try_bytes *try);

#endif
