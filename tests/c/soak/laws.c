/* Laws that follow from document 01 for both questions, whatever a pattern
 * matches. Each is certain: where the limits or the bytes leave a doubt, the
 * law is not tried. */
#include "soak.h"
#include <string.h>

#define BOM "\xef\xbb\xbf"

struct question changed;

/* The changed question must be answered so. */
int gives(uint32_t want)
{
    uint32_t got = ask(&changed);
    if (got != want) wrong(&changed, "the changed question", got, want);
    return 1;
}

static int begins_with_bom(const struct buffer *rules) { return rules->len >= 3 && memcmp(rules->at, BOM, 3) == 0; }

/* Room for so many bytes more. */
static int room(const struct question *q, size_t more) { return q->first.len + more <= 65536; }

/* The rules with a line of at most 2,048 bytes behind them; 0 if there is no room. */
int with_last(const struct question *q, const char *line)
{
    size_t len = line ? strlen(line) : 0;
    if (!line || len > 2048 || !room(q, len + 2)) return 0;
    copy_question(&changed, q);
    if (q->first.len > 0 && q->first.at[q->first.len - 1] != '\n') add_byte(&changed.first, '\n');
    add(&changed.first, line, len);
    if (chance(50)) add_byte(&changed.first, '\n');
    return 1;
}

/* The rules with a line before them. A BOM would come to stand within the file
 * and be a part of its line, so it goes. */
int with_first(const struct question *q, const char *line)
{
    size_t len = line ? strlen(line) : 0, bom = begins_with_bom(&q->first) ? 3 : 0;
    if (!line || len > 2048 || !room(q, len + 1)) return 0;
    copy_question(&changed, q);
    changed.first.len = 0;
    add(&changed.first, line, len);
    add_byte(&changed.first, '\n');
    add(&changed.first, q->first.at + bom, q->first.len - bom);
    return 1;
}

/* A line whose pattern takes just the path's first bytes: each escaped but `/`.
 * NULL if they are many, or cannot stand in the pattern of an attribute line. */
const char *naming(const char *front, const struct buffer *path, size_t len, const char *back)
{
    static struct buffer line;
    line.len = 0;
    if (len > 800) return NULL;
    add_text(&line, front);
    for (size_t i = 0; i < len; i++) {
        if (strchr("\n\r\t ", path->at[i])) return NULL;
        if (path->at[i] != '/') add_byte(&line, '\\');
        add_byte(&line, path->at[i]);
    }
    add_text(&line, back);
    add_byte(&line, 0);
    return (const char *)line.at;
}

/* All lines overwritten with spaces: nothing is said. */
int blanked(const struct question *q, uint32_t code)
{
    (void)code;
    copy_question(&changed, q);
    for (size_t i = 0; i < changed.first.len; i++)
        if (changed.first.at[i] != '\n') changed.first.at[i] = ' ';
    return gives(0);
}

/* The last line that speaks is the same in the second copy. */
int said_twice(const struct question *q, uint32_t code)
{
    size_t bom = begins_with_bom(&q->first) ? 3 : 0;
    if (!room(q, q->first.len + 1)) return 0;
    copy_question(&changed, q);
    if (q->first.len > 0 && q->first.at[q->first.len - 1] != '\n') add_byte(&changed.first, '\n');
    add(&changed.first, q->first.at + bom, q->first.len - bom);
    return gives(code);
}

/* A BOM at the start goes, if line 1 can be read with it. */
int with_bom(const struct question *q, uint32_t code)
{
    const uint8_t *newline = memchr(q->first.at, '\n', q->first.len);
    size_t line = newline ? (size_t)(newline - q->first.at) : q->first.len;
    if (begins_with_bom(&q->first) || line > 2045 || !room(q, 3)) return 0;
    copy_question(&changed, q);
    put_before(&changed.first, BOM, 3);
    return gives(code);
}

/* One CR at a line's end goes: every line gets one that has none. */
int with_crs(const struct question *q, uint32_t code)
{
    size_t line = 0;
    if (q->first.len > 20000) return 0;
    copy_question(&changed, q);
    changed.first.len = 0;
    for (size_t i = 0; i <= q->first.len; i++) {
        int ends = i == q->first.len ? line > 0 : q->first.at[i] == '\n';
        if (ends && line > 2047) return 0;
        if (ends && (line == 0 || q->first.at[i - 1] != '\r')) add_byte(&changed.first, '\r');
        if (i == q->first.len) break;
        add_byte(&changed.first, q->first.at[i]);
        line = q->first.at[i] == '\n' ? 0 : line + 1;
    }
    return gives(code);
}

/* Folding: letters of the path, or text, in the other case make no difference. */
int other_case(const struct question *q, uint32_t code)
{
    int letters = 0;
    if (q->flags < 2) return 0;
    copy_question(&changed, q);
    for (size_t i = 0; i < changed.second.len; i++) {
        uint8_t lower = changed.second.at[i] | 32;
        if (lower < 'a' || lower > 'z' || chance(30)) continue;
        changed.second.at[i] ^= 32;
        letters = 1;
    }
    return letters && gives(code);
}

/* With a control byte anywhere in it no path is taken, whatever the rules say (02, R-8). */
int with_control(const struct question *q, uint32_t code)
{
    (void)code;
    copy_question(&changed, q);
    changed.second.at[below(q->second.len)] = chance(3) ? 0 : control();
    return gives(17);
}

/* Only a `/` in the rules can make a line one of directories. */
int no_slash_no_directory(const struct question *q, uint32_t code)
{
    if (memchr(q->first.at, '/', q->first.len)) return 0;
    copy_question(&changed, q);
    changed.flags ^= 1;
    return gives(code);
}
