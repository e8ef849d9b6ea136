/* A data file of crates/testtables/data, for C. The first lines of these files say
 * how they are written. */
#ifndef SHEET_H
#define SHEET_H
#include <stddef.h>

#define SHEET_LIMIT 65536

/* Bytes with their length. */
struct bytes { const char *at; size_t len; };

/* Reads the file with this name in place of the one before, and says how many
 * rows it has; 0 too if it cannot be read, is too long or holds byte 0. */
size_t sheet_read(const char *name);

/* A row, counted from 0. */
char *sheet_row(size_t number);

/* Cuts a row at its tabs, in place. Are there so many fields? */
int sheet_cut(char *row, char **fields, size_t count);

/* Puts the bytes that a field writes into `room`, of SHEET_LIMIT bytes. Are its escapes whole? */
int sheet_decode(const char *field, char *room, struct bytes *out);

/* The field that says the bytes of the rule file `=NAME`; null if there is none. */
const char *sheet_file(const char *name);

#endif
