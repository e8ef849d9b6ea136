#include "sheet.h"
#include <stdio.h>
#include <string.h>

static char sheet[SHEET_LIMIT], *files[SHEET_LIMIT], *rows[SHEET_LIMIT];
static size_t file_count, row_count;

size_t sheet_read(const char *name)
{
    FILE *file = fopen(name, "rb");
    size_t len = file ? fread(sheet, 1, sizeof sheet, file) : 0;
    if (file) fclose(file);
    file_count = row_count = 0;
    if (len == sizeof sheet || memchr(sheet, 0, len)) return 0;
    sheet[len] = 0;
    for (char *line = strtok(sheet, "\n"); line; line = strtok(NULL, "\n")) {
        if (*line == '=') files[file_count++] = line;
        else if (*line != '#') rows[row_count++] = line;
    }
    return row_count;
}

char *sheet_row(size_t number)
{
    return rows[number];
}

int sheet_cut(char *row, char **fields, size_t count)
{
    for (size_t i = 0; i < count; i++) {
        fields[i] = row;
        row += strcspn(row, "\t");
        if ((*row == '\t') != (i + 1 < count)) return 0;
        *row++ = 0;
    }
    return 1;
}

static int hex(char digit)
{
    static const char digits[] = "0123456789abcdef";
    const char *at = digit ? strchr(digits, digit) : NULL;
    return at ? (int)(at - digits) : -1;
}

int sheet_decode(const char *field, char *room, struct bytes *out)
{
    *out = (struct bytes){ room, 0 };
    for (; *field; field++) {
        int byte = *field;
        if (byte == '%') {
            int high = hex(*++field), low = high < 0 ? -1 : hex(*++field);
            if (low < 0) return 0;
            byte = high * 16 + low;
        }
        room[out->len++] = (char)byte;
    }
    return 1;
}

const char *sheet_file(const char *name)
{
    size_t len = strlen(name);
    for (size_t i = 0; i < file_count; i++)
        if (!strncmp(files[i], name, len) && files[i][len] == '\t') return files[i] + len + 1;
    return NULL;
}
